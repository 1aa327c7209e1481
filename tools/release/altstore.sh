#!/bin/sh
# Puts libaltstore, the store in memory, into a folder: `tools/release/altstore.sh FOLDER`. It writes libaltstore.a, the
# shared library of the same code, and says their names. The archive is the one that `rt lib` has proved and built in
# crates/altstore, with the toolchain's three functions over malloc, realloc and free. Where it is not built, or what is
# needed is not installed, it says so and ends with status 1.
set -eu

[ $# -eq 1 ] || {
    echo 'usage: tools/release/altstore.sh FOLDER' >&2
    exit 2
}
mkdir -p -- "$1"
folder=$(CDPATH='' cd -- "$1" && pwd)
cd "$(dirname -- "$0")/../.."
archive=crates/altstore/out/libaltstore.a
shared=libaltstore.so.0
[ -f "$archive" ] || {
    echo "$archive is not built: rt lib in crates/altstore does it"
    exit 1
}
newer=$(find crates/altstore/src crates/vm_*/src -type f -newer "$archive" | head -n 1)
[ -z "$newer" ] || {
    echo "$archive is older than $newer: rt lib in crates/altstore builds it anew"
    exit 1
}
for it in cc ar rt; do
    command -v "$it" >/dev/null || {
        echo "libaltstore needs $it, which is not installed"
        exit 1
    }
done
scratch=$(mktemp -d)
trap 'rm -rf "$scratch"' EXIT
(cd "$scratch" && ar x "$OLDPWD/$archive" && ar x "$(dirname "$(rt doc)")/c/liblibc_c.a")
rm -f "$folder/libaltstore.a"
ar rcsD "$folder/libaltstore.a" "$scratch"/*.o
exported='altstore_new altstore_load altstore_load_bytes altstore_ask altstore_length altstore_answers
    altstore_save altstore_close'
{
    echo '{ global:'
    for it in $exported; do
        echo "$it;"
    done
    echo 'local: *; };'
} >"$scratch/exported"
cc -shared -Wl,-soname,"$shared" -Wl,--build-id=none -Wl,-s -Wl,--version-script="$scratch/exported" \
    -o "$folder/$shared" \
    -Wl,--whole-archive "$folder/libaltstore.a" -Wl,--no-whole-archive
echo libaltstore.a
echo "$shared"
