#!/bin/sh
# Times the display's function against OpenSSL in one run. It is no part of the gate: times tell nothing there.
# Needs OpenSSL's header and library (Debian: libssl-dev).
set -eu
cd "$(dirname "$0")/.."
tools/need.sh gcc
work=$(mktemp -d)
trap 'rm -rf "$work"' EXIT
(cd crates/display && rt lib) > "$work/log" 2>&1 || { cat "$work/log"; exit 1; }
gcc -std=c99 -Wall -Wextra -Werror -pedantic -O2 -Ic -o "$work/bench" c/bench.c crates/display/out/libdisplay.a -lcrypto
"$work/bench"
