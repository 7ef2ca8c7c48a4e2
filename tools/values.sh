#!/bin/sh
# Works seven stored outputs of programs out again, by the scripts that need nothing but Python, and compares.
# Usage: tools/values.sh
set -eu
cd "$(dirname "$0")/.."
tools/need.sh python3
work=$(mktemp -d)
trap 'rm -rf "$work"' EXIT
agreed=0

# hold SCRIPT CRATE: the script reads what the crate's program reads, and must print what that must print.
hold() {
    input=crates/$2/stdin
    if [ ! -f "$input" ]; then input=/dev/null; fi
    "tools/$1.py" < "$input" > "$work/got"
    if ! cmp -s "$work/got" "crates/$2/stdout"; then
        echo "tools/$1.py prints other values than crates/$2/stdout holds:"
        diff -a "crates/$2/stdout" "$work/got" | head -n 10
        exit 1
    fi
    agreed=$((agreed + 1))
}

hold ring_tables ring_tables
hold towers towers_tests
hold fitter fitter
hold trail trail
hold sealer sealer
hold link link
hold commission commission
echo "$agreed stored outputs agree"
