#!/bin/sh
# Has dist/ carry the program that these sources give: `tools/dist.sh`. It takes the program that the gate or a build
# has left, and builds it where there is none. Run it as the last step of a change to the program's sources. Where they
# give the same bytes as before, only the digest of the sources is written anew.
#
# `tools/dist.sh --check` writes nothing: it says where dist/ is not what these sources give, and ends with status 1.
set -eu

top=$(CDPATH='' cd -- "$(dirname -- "$0")/.." && pwd)
built=$top/crates/altctl/out/altctl
carried=$top/dist/altctl-x86_64-linux

sum() {
    sha256sum <"$1" | cut -d ' ' -f 1
}

# What is said of a program beside it.
describe() {
    echo "sources $("$top/tools/sources.sh" digest)"
    echo "toolchain $(rt version)"
    echo "program $(sum "$1")"
}

case ${1-} in
'')
    # What `./altctl` starts may be the carried program itself, which is that of this toolchain then.
    if [ "$(sed -n 's/^toolchain //p' "$carried.txt" 2>/dev/null)" = "$(rt version)" ]; then
        "$top/altctl" --help >/dev/null
    else
        "$top/tools/build.sh"
    fi
    mkdir -p "$top/dist"
    cmp -s "$built" "$carried" || cp -- "$built" "$carried"
    describe "$carried" >"$carried.txt"
    echo "dist: $(wc -c <"$carried") bytes, SHA-256 $(sum "$carried")"
    ;;
--check)
    if ! cmp "$built" "$carried" || ! describe "$built" | diff "$carried.txt" -; then
        echo 'dist: dist/ is not what these sources give: run tools/dist.sh, and commit what it writes'
        exit 1
    fi
    ;;
*)
    echo 'usage: tools/dist.sh [--check]' >&2
    exit 2
    ;;
esac
