#!/bin/sh
# Tests the C client with each compiler and checker that is installed: `clients/c/test.sh [PROGRAM]`; without a PROGRAM
# it takes the one that `./altctl` at the top starts. With --quick before it the first compiler alone tests it, with its
# checkers. What is not installed is skipped, with a line that says so.
set -eu

quick=
if [ "${1-}" = --quick ]; then
    quick=yes
    shift
fi
here=$(CDPATH='' cd -- "$(dirname -- "$0")" && pwd)
top=$here/../..
program=${1-$top/altctl}
service=$top/desk/altserve
folder=$(mktemp -d)
trap 'rm -rf "$folder"' EXIT
failed=0
count=0
warnings='-std=c99 -Wall -Wextra -Wpedantic -Werror'

# Runs a command, and shows what it said if it fails.
try() {
    step=$1
    shift
    count=$((count + 1))
    if "$@" >"$folder/output" 2>&1; then
        said=$(tail -n 1 "$folder/output")
        echo "ok $step${said:+: $said}"
    else
        echo "FAILED $step"
        sed 's/^/    /' "$folder/output" | tail -n 40
        failed=$((failed + 1))
        return 1
    fi
}

# Builds the tests by a compiler with its options, and runs them by the words after that.
tests() {
    name=$1
    compiler=$2
    options=$3
    shift 3
    # shellcheck disable=SC2086
    try "$name, build" $compiler $warnings $options -o "$folder/tests" "$here/test_altctl.c" "$here/altctl.c" \
        -lpthread || return 0
    mkdir -p "$folder/stores"
    # shellcheck disable=SC2086
    try "$name" "$@" "$folder/tests" "$program" "$folder/stores" $service || :
}

# Builds the tests of the store in memory by a compiler, and runs them by the words after its options.
in_memory() {
    compiler=$1
    name=$2
    options=$3
    shift 3
    rm -rf "$folder/images"
    mkdir "$folder/images"
    # shellcheck disable=SC2086
    ! try "$name, build" $compiler $warnings $options -o "$folder/in_memory" "$here/test_altstore.c" \
        "$folder/altstore/libaltstore.a" ||
        try "$name" "$@" "$folder/in_memory" "$(realpath "$program")" "$folder/images" || :
}

has() {
    command -v "$1" >/dev/null || {
        echo "skipped: $1 is not there"
        return 1
    }
}

# Whether a compiler's checkers can be linked here.
can_check() {
    echo 'int main(void) { return 0; }' >"$folder/empty.c"
    "$1" -fsanitize=address,undefined -o "$folder/empty" "$folder/empty.c" 2>/dev/null || {
        echo "skipped: $1 has no checkers of addresses and undefined behaviour"
        return 1
    }
}

python3 -c 'import sys; sys.exit(sys.version_info < (3, 9))' 2>/dev/null || {
    service=
    echo 'skipped: the tests of a service need Python 3.9'
}
for compiler in gcc clang; do
    if [ -n "$quick" ] && [ "$count" -gt 0 ]; then
        break
    fi
    if has "$compiler"; then
        [ -n "$quick" ] || tests "$compiler" "$compiler" -O2 env
        if can_check "$compiler"; then
            checkers='-g -fsanitize=address,undefined -fno-sanitize-recover=all'
            tests "$compiler with its checkers" "$compiler" "$checkers" env
            # shellcheck disable=SC2086
            ! try "$compiler, memory is refused, build" "$compiler" $warnings $checkers -o "$folder/memory" \
                "$here/test_memory.c" -lpthread ||
                try "$compiler, memory is refused" "$folder/memory" "$program" "$folder/stores" || :
        fi
    fi
done
if [ -z "$quick" ] && has gcc && has valgrind; then
    tests valgrind gcc '-g -O1' valgrind -q --error-exitcode=9 --leak-check=full
fi
if [ -z "$quick" ] && has gcc && gcc -fsanitize=thread -o "$folder/empty" "$folder/empty.c" 2>/dev/null; then
    tests 'gcc with its checker of threads' gcc '-g -O1 -fsanitize=thread' env
fi
if has g++; then
    try 'example in C++, build' sh -c "gcc -std=c99 -c -o '$folder/altctl.o' '$here/altctl.c' &&
        g++ -std=c++11 -Wall -Wextra -Wpedantic -Werror -o '$folder/example' '$here/example.cpp' \
            '$folder/altctl.o'" || :
    "$program" create "$folder/example.alt" 256 >/dev/null
    printf '%s\n' '7:1 is duct 160 PVC here, and duct 125 PVC in the parent' 'merged: 1 record changed' \
        '7 1 duct 160 PVC' '7 2 duct 110 PVC' '7 3 duct 50 HDPE' >"$folder/due"
    try 'example in C++' sh -c "'$folder/example' '$folder/example.alt' '$program' >'$folder/came' &&
        diff '$folder/due' '$folder/came'" || :
fi
# The store in memory, if its archive is built.
if "$top/tools/release/altstore.sh" "$folder/altstore" >"$folder/output"; then
    for compiler in gcc clang; do
        if [ -n "$quick" ] && [ "$compiler" = clang ]; then
            break
        fi
        if has "$compiler" && can_check "$compiler"; then
            in_memory "$compiler" "$compiler, in memory" \
                '-O1 -g -fsanitize=address,undefined -fno-sanitize-recover=all' env
        fi
    done
    if [ -z "$quick" ] && has gcc && has valgrind; then
        in_memory gcc 'valgrind, in memory' '-O1 -g' valgrind -q --error-exitcode=9 --leak-check=full
    fi
    if command -v python3 >/dev/null; then
        try 'in memory, from Python' python3 "$here/../python/test_altstore.py" "$folder/altstore/libaltstore.so.0" \
            "$program" || :
    fi
else
    echo "skipped: $(cat "$folder/output")"
fi
echo "client in C: $((count - failed)) of $count steps passed"
[ "$failed" -eq 0 ]
