#!/bin/sh
# Builds the program and puts it below a folder, /usr/local if none is given, with its manual page, the completion for
# bash, the clients for C and Python, and the programs of the desk: `tools/release/install.sh [PREFIX]`. With
# PREFIX=$HOME/.local it needs no rights but one's own. It says what it put where; `tools/release/place.sh` has the
# list.
set -eu

usage() {
    echo 'usage: tools/release/install.sh [PREFIX]' >&2
    exit 2
}

[ $# -le 1 ] || usage
prefix=${1-/usr/local}
case $prefix in
-* | '') usage ;;
esac
placed=$(mktemp)
trap 'rm -f "$placed"' EXIT
"$(dirname -- "$0")/place.sh" "$prefix" >"$placed"
while read -r target; do
    echo "install: $prefix/$target"
done <"$placed"
case :$PATH: in
*":$prefix/bin:"*) ;;
*) echo "install: $prefix/bin is not in PATH yet" ;;
esac
