#!/usr/bin/env python3
"""The tables of the rings, worked out apart from the crate `rings`: a polynomial is a set of exponents.

Prints what crates/ring_tables/stdout holds. Shares no code and no table with the Rattle sources."""
from functools import cache


@cache
def terms(code):
    return frozenset(i for i in range(16) if code // 2**i % 2)


def code(poly):
    return sum(2**i for i in poly)


def times(p, q):
    out = set()
    for i in p:
        for j in q:
            out ^= {i + j}
    return frozenset(out)


def rest(p, modulus):
    p, top = set(p), max(modulus)
    while p and max(p) >= top:
        p ^= {e + max(p) - top for e in modulus}
    return frozenset(p)


class Poly:
    def __init__(self, number, width):
        self.width, self.modulus = width, terms(number)

    def product(self, a, b):
        return code(rest(times(terms(a), terms(b)), self.modulus))


class Pairing:
    """Pairs (high, low) over a ring below; the square of Y is Y + c."""

    def __init__(self, below, c):
        self.width, self.below, self.c = 2 * below.width, below, c

    def product(self, a, b):
        m, n = self.below.product, 2**self.below.width
        (a1, a0), (b1, b0) = divmod(a, n), divmod(b, n)
        square = m(a1, b1)
        linear = m(a1, b0) ^ m(a0, b1) ^ square
        return linear * n + (m(a0, b0) ^ m(self.c, square))


def inverses(ring):
    size = 2**ring.width
    found = [None] * size
    for a in range(size):
        for b in range(size):
            if ring.product(a, b) == 1:
                found[a] = b
                break
    return found


def show(name, ring):
    print("ring", name)
    size, digits = 2**ring.width, 2 if ring.width == 8 else 1
    if size <= 16:
        for a in range(size):
            print(" ".join("%0*X" % (digits, ring.product(a, b)) for b in range(size)))
    print("inverses")
    line = ["-" if x is None else "%0*X" % (digits, x) for x in inverses(ring)]
    for i in range(0, size, 16):
        print(" ".join(line[i:i + 16]))


def main():
    four = Poly(0x7, 2)
    show("four", four)
    show("13", Poly(0x13, 4))
    show("13 by powers", Poly(0x13, 4))
    show("19", Poly(0x19, 4))
    show("1F", Poly(0x1F, 4))
    for c in range(4):
        show("four with %X" % c, Pairing(four, c))
    show("13 with C", Pairing(Poly(0x13, 4), 0xC))
    show("four with 2 with 8", Pairing(Pairing(four, 2), 8))
    for number in (0x11B, 0x1F5, 0x100, 0x1FF):
        show("%X" % number, Poly(number, 8))


if __name__ == "__main__":
    main()
