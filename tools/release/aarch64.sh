#!/bin/sh
# Builds for aarch64, on a machine that need not be one, with the toolchain's own compiler and linker and Debian's cross
# packages:
#
#   tools/release/aarch64.sh program        the program, from the proof of the same sources: altctl-aarch64 in
#                                           crates/altctl/out
#   tools/release/aarch64.sh client FOLDER  the libraries of the C client
#
# Where something is not installed, it says so on standard error and ends with status 1. The functions of the
# toolchain's C that the program calls are in `aarch64.c`. The program is kept until what it is made of changes;
# `package.sh` takes it.
set -eu

target=aarch64-unknown-linux-gnu
out=crates/altctl/out
made=$out/altctl-aarch64
# Where Debian's packages libc6-dev-arm64-cross and libgcc-12-dev-arm64-cross put the C library and the compiler's own
# parts.
system=/usr/aarch64-linux-gnu
parts=/usr/lib/gcc-cross/aarch64-linux-gnu/12
# What rattle-link takes of both.
linked="$system/lib/Scrt1.o $system/lib/crti.o $system/lib/crtn.o $system/lib/ld-linux-aarch64.so.1
    $system/lib/libc.so.6 $system/lib/libc_nonshared.a $system/lib/libgcc_s.so.1 $system/lib/libm.so.6
    $parts/crtbeginS.o $parts/crtendS.o $parts/libgcc.a"

lack() {
    echo "aarch64 is skipped: $1" >&2
    exit 1
}

find_tools() {
    command -v rt >/dev/null || lack 'rt, the command of the Rattle toolchain, is not found'
    kit=$(dirname -- "$(rt doc)")
    for it in $linked "$system/include/stdlib.h" "$parts/include/stddef.h"; do
        [ -e "$it" ] ||
            lack "$it is not there, of Debian's packages libc6-dev-arm64-cross and libgcc-12-dev-arm64-cross"
    done
}

compile() {
    "$kit/toolchain/bin/clang" --target=$target -std=c99 -O2 -g0 -fPIC -Wall -Wextra -nostdinc \
        -isystem "$parts/include" -isystem "$system/include" -c -o "$2" "$1"
}

# All that decides the program's bytes.
describe() {
    echo "sources $(tools/sources.sh digest)"
    echo "toolchain $(rt version)"
    echo "with $(cat tools/release/aarch64.c tools/release/aarch64.sh $linked | sha256sum | cut -d ' ' -f 1)"
}

# The libraries below have been proved and built by `rt lib`, which does nothing where they are those of their sources.
# `main` is proved anew, as the target is in its verdict.
build_program() {
    describe >"$scratch/stamp"
    if [ -x "$made" ] && cmp -s "$scratch/stamp" "$made.stamp"; then
        return
    fi
    echo 'altctl for aarch64: proving what has changed, and building' >&2
    set -- -L "dependency=$kit/rlibs"
    for it in $(tools/sources.sh crates); do
        [ "$it" != altctl ] || continue
        (cd "crates/$it" && rt lib) >"$scratch/log" 2>&1 </dev/null || fail
        set -- "$@" -L "dependency=../$it/out/rlib"
    done
    (cd crates/altctl && rattle build --crate-name altctl src/main.rt --extern "std=$kit/rlibs/std.rlib" \
        --extern vm_cli=../vm_cli/out/rlib/vm_cli.rlib "$@" --antt-project "$kit/rattle/logic/antt-project.json" \
        --logic-built "$kit/logic_built" --jobs 1 --links altctl= --target $target --toolchain "$kit/toolchain" \
        --backend llvm \
        -o "$scratch/altctl.o") >"$scratch/log" 2>&1 </dev/null || fail
    compile tools/release/aarch64.c "$scratch/kit.o"
    # A folder as rattle-link wants it: the tools, and the C library of the target.
    mkdir -p "$scratch/toolchain/lib" "$out"
    ln -s "$kit/toolchain/bin" "$scratch/toolchain/bin"
    ln -s $linked "$scratch/toolchain/lib"
    (cd "$scratch" && "$kit/bin/rattle-link" --target $target --toolchain toolchain -o altctl altctl.o kit.o) \
        >"$scratch/log" 2>&1 || fail
    cp -- "$scratch/altctl" "$made.$$"
    mv -f -- "$made.$$" "$made"
    mv -f -- "$scratch/stamp" "$made.stamp"
}

fail() {
    cat "$scratch/log" >&2
    echo 'altctl for aarch64 could not be built' >&2
    exit 1
}

build_client() {
    compile clients/c/altctl.c "$scratch/altctl.o"
    rm -f "$1/libaltctl.a"
    "$kit/toolchain/bin/llvm-ar" rcsD "$1/libaltctl.a" "$scratch/altctl.o"
    "$kit/toolchain/bin/ld.lld" -shared -soname libaltctl.so.0 --build-id=none -s -z now -z relro \
        -o "$1/libaltctl.so.0" \
        "$scratch/altctl.o" "$system/lib/libc.so.6" "$parts/libgcc.a"
}

case $#:${1-} in
1:program) ;;
2:client)
    mkdir -p -- "$2"
    folder=$(CDPATH='' cd -- "$2" && pwd)
    ;;
*)
    echo 'usage: tools/release/aarch64.sh program | client FOLDER' >&2
    exit 2
    ;;
esac
cd "$(dirname -- "$0")/../.."
scratch=$(mktemp -d)
trap 'rm -rf "$scratch"' EXIT
find_tools
case $1 in
program) build_program ;;
client) build_client "$folder" ;;
esac
