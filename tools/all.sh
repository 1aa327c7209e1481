#!/bin/sh
# Runs the scripts that stand beside the gate, one after another, each of a bounded size: `tools/all.sh`. It ends with
# one line, names in it the scripts that failed, and has the status 1 then. What needs more than is installed is
# skipped, with a line that says so. The scripts in `measure` are none of them: times are looked at, never tested.
#
# `tools/all.sh --quick [COUNT]` runs what takes few seconds, and the others shorter or not at all, in 4 minutes in all.
# Its last line counts them with those COUNT that passed before: `N passed, M failed`.
set -eu

tools=$(cd "$(dirname "$0")" && pwd)
begun=$(date +%s)
passed=0
failed=0
names=
quick=
[ "${1-}" != --quick ] || quick=yes

# Runs a script with its words. The seconds are there for one that hangs: ten times what it takes on a machine of its
# own.
try() {
    seconds=$1
    script=$2
    shift 2
    echo "== $script"
    if timeout "$seconds" "$tools/$script" "$@"; then
        passed=$((passed + 1))
    else
        echo "all: $script failed"
        failed=$((failed + 1))
        names="$names $script"
    fi
}

# Whether the toolchain is installed, which this needs.
has_rt() {
    command -v rt >/dev/null || { echo "all: $1 is skipped, as rt is not installed" && return 1; }
}

# How often altgis is interrupted in each of four works.
INTERRUPTIONS=25
[ -z "$quick" ] || INTERRUPTIONS=2
export INTERRUPTIONS
# How many rounds two planners edit the same ducts in two browsers. 200 take half an hour.
ROUNDS=${ROUNDS:-12}
export ROUNDS
# The program is there before the time of a script is taken.
"$tools/../altctl" --help >/dev/null || { echo 'all: altctl could not be built'; exit 1; }
try 600 gate/uncited.py
try 300 gate/trusted.py
try 300 gate/promises.py --check
try 300 gate/pictures.py --check
try 300 gate/words.py --check
try 300 gate/test_words.py
try 300 gate/python.sh
try 300 gate/manual.py --check
try 900 gate/documents.py
try 300 test_sums.py
try 300 test_upgrade.py
try 900 gate/session.sh
try 600 ../clients/python/test_altctl.py
try 900 faults/progress.py
try 600 faults/copy_beside.py
if [ -n "$quick" ]; then
    # Behind the gate: the program that it has built is the one that dist/ carries.
    if has_rt dist.sh; then try 300 dist.sh --check; fi
    try 600 ../clients/c/test.sh --quick
    try 600 faults/compare.py -n 8
    try 600 faults/kill.py "$tools/../altctl" 8
    try 300 faults/kill_batches.py "$tools/../altctl" 40
    try 300 faults/kill_planners.py "$tools/../altctl" 30
    try 300 faults/kill_copy.py "$tools/../altctl" 20
    try 600 faults/crashes.py -n 1
    try 300 faults/damage.py --files 300
    try 600 ../desk/test_altserve.py StoreTests
    try 600 faults/kill_service.py "$tools/../altctl" 2
    try 600 faults/crash_service.py "$tools/../altctl" 4
    try 600 ../desk/test_altgis.py InterruptionTests
else
    # Over the libraries that are proved for the program. Without it the tests of the store in memory are skipped.
    if has_rt libaltstore; then
        (cd "$tools/../crates/altstore" && timeout 1800 rt lib >/dev/null) || echo 'all: libaltstore could not be built'
    fi
    try 600 ../clients/c/test.sh
    try 600 faults/compare.py -n 60
    try 300 faults/kill.py "$tools/../altctl" 60
    try 900 faults/kill_batches.py "$tools/../altctl" 400
    try 900 faults/kill_planners.py "$tools/../altctl" 400
    try 300 faults/kill_copy.py
    try 600 faults/crashes.py
    try 900 faults/damage.py
    try 600 faults/largest.py
    try 300 faults/space.py
    try 600 faults/failing_device.py
    try 600 faults/failed_sync.py
    if has_rt faults/refuse_allocations.sh; then try 1800 faults/refuse_allocations.sh; fi
    try 1800 ../desk/test_altserve.py
    try 1800 ../desk/test_altgis.py
    try 1200 ../desk/test_altdesk.py
    try 900 ../desk/test_altqgis.py
    try 900 ../desk/test_altcarry.py
    try 1800 release/test_package.py
    try 300 faults/kill_service.py "$tools/../altctl" 20
    try 600 faults/crash_service.py "$tools/../altctl" 50
    try 600 faults/full_disk.py
    try 900 faults/travels.py "$tools/../altctl" 40
    try 300 faults/replicated.sh
    # The first time takes the longest by far: later it tries only what has changed.
    if has_rt gate/wrong_bodies.py; then try 14400 gate/wrong_bodies.py; fi
fi
echo "all: $passed scripts passed${names:+, failed:$names}, in $(($(date +%s) - begun)) seconds"
[ -z "$quick" ] || echo "$((passed + ${2:-0})) passed, $failed failed"
[ "$failed" -eq 0 ]
