#!/bin/sh
# What the program is made of: `tools/sources.sh WORD`, with these words:
#
#   crates   the crates of this repository that it stands on, each after those that it uses itself, and `altctl` last
#   digest   the SHA-256 of all that decides the program's bytes: the lines of those crates in crates.txt, and the
#            files in their src/. Definitions and proofs give the program no byte
#   stamp F  makes F the stamp of a program: that digest, and the folders it was read from; F has the time before that
set -eu

case ${2-/} in
/*) ;;
*) set -- "$1" "$PWD/$2" ;;
esac
cd "$(dirname "$0")/.."

crates() {
    awk -F: '
        { sub(/#.*/, "") }
        NF > 1 { split($1, words, " "); uses[words[1]] = $2 }
        function visit(name,    names, count, n) {
            if (!(name in uses) || name in met) return
            met[name] = 1
            count = split(uses[name], names, " ")
            for (n = 1; n <= count; n++) visit(names[n])
            print name
        }
        END { visit("altctl") }' crates.txt
}

folders() {
    crates | sed 's,.*,crates/&/src,'
}

digest() {
    {
        for crate in $(crates); do
            sed -n "s/[[:space:]]*#.*//; /^$crate[ :]/p" crates.txt
        done
        find $(folders) -type f | LC_ALL=C sort | xargs sha256sum
    } | sha256sum | cut -d ' ' -f 1
}

stamp() {
    : >"$1.begun"
    echo "$(digest)" $(folders) >"$1"
    touch -r "$1.begun" "$1"
    rm -f "$1.begun"
}

case $#:${1-} in
1:crates | 1:digest | 2:stamp) "$@" ;;
*)
    echo 'usage: tools/sources.sh crates|digest|stamp FILE' >&2
    exit 2
    ;;
esac
