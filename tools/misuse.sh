#!/bin/sh
# Misuses of a ticket that the compiler refuses: each is a crate of its own above ends, and the check must name the error.
# (A must-fail edit cannot hold them, since they do not reach the prover.)
set -u
root=$(cd "$(dirname "$0")/.." && pwd)
work=$(mktemp -d)
trap 'rm -rf "$work"' EXIT
cp "$root/crates.txt" "$work/"
(cd "$root" && tar cf - --exclude=out crates) | tar xf - -C "$work"
mkdir -p "$work/crates/misuse/src"
echo 'misuse: rings refusals ends' >> "$work/crates.txt"
bad=0
misuse() {
    {
        echo 'use ends::end::End;'
        echo 'use refusals::Refusal;'
        echo 'use rings::Ring;'
        echo "$3"
    } > "$work/crates/misuse/src/lib.rt"
    if (cd "$work/crates/misuse" && rt check 2>&1) | grep -q "error\[$2\]"; then
        echo "$1: refused by $2"
    else
        echo "$1: NOT REFUSED"
        bad=1
    fi
}
misuse dropped linear-value-let-go 'pub fn dropped<R: Ring>(end: &mut End<R>) -> Result<(), Refusal> { let t = end.draw()?; Ok(()) }'
misuse sealed_twice borrow-e0382 'pub fn twice<R: Ring>(end: &mut End<R>, bytes: &mut [u8]) -> Result<(), Refusal> { let t = end.draw()?; end.seal(t, bytes)?; end.seal(t, bytes) }'
exit $bad
