#!/bin/sh
# Looks over Python without running it: `tools/gate/python.sh`. pyflakes reads the clients, the scripts and the desk,
# and mypy those whose names have types. What is not installed (Debian's pyflakes3, mypy) is skipped, with a line that
# says so.
set -eu

cd "$(dirname -- "$0")/../.."
status=0

# Runs a checker over files, if it is installed.
look() {
    checker=$1
    shift
    if command -v "$checker" >/dev/null; then
        "$checker" "$@" || status=1
    else
        echo "python: $checker is not installed: skipped"
    fi
}

look pyflakes3 clients/python/*.py tools/*.py tools/*/*.py
# Left out are files whose imports are there for others, or show whether a module is installed.
look pyflakes3 desk/altcarry desk/altdesk desk/altserve desk/demo desk/[!t]*.py desk/altqgis/*.py desk/carry/*.py \
    desk/gis/*.py desk/qgis_tests/within.py desk/test_altqgis.py desk/desk_tests/*.py desk/maps/[!_]*.py \
    desk/service/*.py desk/service_tests/*.py desk/test_altcarry.py
look mypy --python-version 3.9 --cache-dir /dev/null --no-error-summary clients/python/altctl.py \
    clients/python/altstore.py
look mypy --python-version 3.9 --cache-dir /dev/null --no-error-summary tools/gate/lines.py tools/gate/refusals.py \
    tools/gate/words.py
[ "$status" -ne 0 ] || echo 'python: nothing to mend'
exit "$status"
