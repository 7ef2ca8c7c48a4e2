#!/bin/sh
# Builds the display's function as a library for C, links the programs in c/ with it, and holds its answers to
# tools/commission.py.
# Usage: tools/display.sh [SEED [COUNT]]
set -eu
cd "$(dirname "$0")/.."
seed=${1:-1}
count=${2:-300}
tools/need.sh gcc python3
work=$(mktemp -d)
trap 'rm -rf "$work"' EXIT

(cd crates/display && rt lib) > "$work/log" 2>&1 || { cat "$work/log"; exit 1; }
for program in open_sector answers; do
    gcc -std=c99 -Wall -Wextra -Werror -pedantic -O1 -Ic -o "$work/$program" "c/$program.c" crates/display/out/libdisplay.a
done
"$work/open_sector"

tools/commission.py --self-test
tools/make_opens.py "$work/lines" "$seed" "$count"
"$work/answers" < "$work/lines/opens" > "$work/got"
if ! cmp "$work/lines/answers" "$work/got" > "$work/where"; then
    line=$(sed 's/.* line //' "$work/where")
    echo "line $line of seed $seed: the opening, what is wanted and what came:"
    for file in "$work/lines/opens" "$work/lines/answers" "$work/got"; do sed -n "${line}p" "$file" | cut -c 1-120; done
    exit 1
fi
echo "$(wc -l < "$work/got") openings agree"
