#!/bin/sh
# Builds the program altctl from the sources, which are proved first: crates/altctl/out/altctl. It says on standard
# error which crate is being proved. An interrupted build leaves nothing behind; the next one goes on with the crate
# that it was at. `./altctl` reads this file, with `top` set, where no program of these sources is there and dist/
# carries none.
set -eu

[ "${0##*/}" != build.sh ] || top=$(CDPATH='' cd -- "$(dirname -- "$0")/.." && pwd)
stamp=$top/crates/altctl/out/altctl.stamp

say() {
    echo "altctl: $1" >&2 || :
}

# The time since the build began, as 2:07.
gone() {
    seconds=$(($(date +%s) - begun))
    printf '%d:%02d' $((seconds / 60)) $((seconds % 60))
}

# On a terminal: writes the line of the crate at work anew each second, with its functions that are proved.
show_progress() {
    nap=
    trap '[ -z "$nap" ] || kill "$nap" 2>/dev/null; exit' TERM
    while :; do
        sleep 1 &
        nap=$!
        wait "$nap" || :
        functions=$(sed -n 's/^so far: \([0-9]* of [0-9]* functions\).*/, \1/p' "$scratch/log" | tail -n 1)
        printf '\raltctl: %s%s, %s gone\033[K' "$1" "$functions" "$(gone)" >&2 || :
    done
}

# Has `rt` do the words after the first in a crate, which is the one of so many that the first tells.
prove() {
    place=$1
    crate=$2
    shift 2
    : >"$scratch/log"
    (cd "$top/crates/$crate" && TMPDIR=$scratch exec rt "$@") >"$scratch/log" 2>&1 </dev/null &
    child=$!
    if [ -t 2 ]; then
        show_progress "$place: $crate" &
        shower=$!
    else
        say "$place: $crate .., $(gone) gone"
    fi
    status=0
    wait "$child" || status=$?
    child=
    hide_progress
    if [ "$status" -ne 0 ]; then
        cat "$scratch/log" >&2 || :
        say "$crate could not be built"
        exit 1
    fi
}

hide_progress() {
    [ -n "$shower" ] || return 0
    kill "$shower" 2>/dev/null || :
    wait "$shower" 2>/dev/null || :
    shower=
    printf '\r\033[K' >&2 || :
}

interrupt() {
    hide_progress
    say "interrupted${crate:+: the next start goes on with $crate}"
    exit "$1"
}

# Ends what still runs, and takes the temporary files away.
clean() {
    hide_progress
    if [ -n "$child" ]; then
        kill "$child" 2>/dev/null || :
        wait "$child" 2>/dev/null || :
    fi
    # What `rt` had started ends a moment after it.
    rm -rf "$scratch" 2>/dev/null || { sleep 1 && rm -rf "$scratch"; }
}

command -v rt >/dev/null || {
    say 'it is not built yet, and rt, the command of the Rattle toolchain that builds it, is not found'
    exit 1
}
say 'building: what has changed is proved first; the first time takes 20 to 25 minutes on four cores'
scratch='' child='' shower='' crate=''
trap clean EXIT
trap 'interrupt 129' HUP
trap 'interrupt 130' INT
trap 'interrupt 143' TERM
scratch=$(mktemp -d)
"$top/tools/sources.sh" stamp "$scratch/stamp"
begun=$(date +%s)
crates=$("$top/tools/sources.sh" crates)
count=$(echo "$crates" | wc -w)
number=0
for crate in $crates; do
    number=$((number + 1))
    [ "$crate" = altctl ] || prove "$number of $count" "$crate" lib
done
prove "$count of $count" altctl run -- --help
mv "$scratch/stamp" "$stamp"
clean
trap - EXIT HUP INT TERM
say "built, $(gone) gone"
