#!/bin/sh
# Holds the program commission to tools/commission.py: both read the same sheets and must print the same bytes.
# Every eighth sheet is also read from a pipe, seven bytes at a time.
# Usage: tools/compare.sh [SEED [COUNT]]. It takes the program that rt ci or rt run left, and proves and builds it where there is none.
set -eu
cd "$(dirname "$0")/.."
seed=${1:-1}
count=${2:-400}
program=crates/commission/out/commission
tools/need.sh python3
work=$(mktemp -d)
trap 'rm -rf "$work"' EXIT
if [ ! -x "$program" ]; then
    (cd crates/commission && rt run < stdin) > "$work/log" 2>&1 || { cat "$work/log"; exit 1; }
fi
mkdir "$work/wanted"

tools/commission.py --self-test
tools/make_sheets.py "$work/sheets" "$seed" "$count"
tools/commission.py --into "$work/wanted" "$work"/sheets/*.sheet

# The status that a program ends with is left open, but a signal or 20 seconds are a difference.
commission() {
    status=0
    timeout 20 "$program" > "$work/got" || status=$?
    if [ "$status" -ge 124 ]; then echo "ended with $status" >> "$work/got"; fi
}

hold() {
    if cmp -s "$work/wanted/$1" "$work/got"; then return; fi
    echo "$1 of seed $seed ($(sed -n "s/^${1%.sheet} //p" "$work/sheets/kinds"))$2: wanted and got differ:"
    diff -a "$work/wanted/$1" "$work/got" | head -n 10
    exit 1
}

# A sheet whose lines are written out here.
echo "2 H 11B D 11B 2 H A 000102030405060708090A0B0C0D0E0F D A 000102030405060708090A0B0C0D0E0F 1 H 41" | commission
printf 'F H 0\nF D 0\nK H 0\nK D 0\nS H 0 0 0 Y\n' > "$work/wanted/sample"
cmp "$work/wanted/sample" "$work/got"

agreed=1
for path in "$work"/sheets/*.sheet; do
    sheet=${path##*/}
    commission < "$path"
    hold "$sheet" ""
    if [ $((agreed % 8)) -eq 0 ]; then
        dd if="$path" bs=7 status=none 2> "$work/dd" | commission
        hold "$sheet" " from a pipe"
    fi
    agreed=$((agreed + 1))
done
echo "$agreed sheets agree"
