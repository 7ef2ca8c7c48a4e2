#!/usr/bin/env python3
"""Fits, trails and boxes, worked out apart from the Rattle sources: prints what crates/towers_tests/stdout holds.

All maps of bytes that carry a tower field into the octic's ring are found by brute force: a generator of the tower's
multiplicative group is sent to every element of the octic's field, and the map is kept if it keeps sums. Tables of products are
tuples, so that each is worked out once."""
from functools import cache

def cmul(a, b):
    r = 0
    while b:
        if b & 1: r ^= a
        a <<= 1; b >>= 1
    return r

def cmod(a, m):
    d = m.bit_length()
    while a.bit_length() >= d:
        a ^= m << (a.bit_length() - d)
    return a

def table(n, times):
    return tuple(tuple(times(a, b) for b in range(n)) for a in range(n))

@cache
def poly_ring(m):
    return table(1 << (m.bit_length() - 1), lambda a, b: cmod(cmul(a, b), m))

@cache
def pairing(below, c):
    n = len(below); w = n.bit_length() - 1
    def times(a, b):
        a1, a0, b1, b0 = a >> w, a & (n - 1), b >> w, b & (n - 1)
        hh = below[a1][b1]
        return ((hh ^ below[a1][b0] ^ below[a0][b1]) << w) | (below[a0][b0] ^ below[c][hh])
    return table(n * n, times)

@cache
def is_field(t):
    return all(1 in t[a] for a in range(1, len(t)))

@cache
def accepted():
    return [o for o in range(256, 512) if all(cmod(o, d) != 0 for d in range(2, 32))]

def powers(t, g):
    seq = [1]
    while True:
        x = t[seq[-1]][g]
        if x == 1 or len(seq) > 255: return seq
        seq.append(x)

def inverse_columns(cols):
    img = {}
    for a in range(256):
        v = 0
        for j in range(8):
            if a >> j & 1: v ^= cols[j]
        img[v] = a
    assert len(img) == 256
    return [img[1 << j] for j in range(8)]

@cache
def generators(t):
    return [h for h in range(2, 256) if len(powers(t, h)) == 255]

def lawful(ring, oct_table):
    """every lawful pair (c, columns)"""
    found = []
    for c in range(16):
        t = pairing(ring, c)
        if not is_field(t): continue
        seq = powers(t, generators(t)[0])
        for h in generators(oct_table):
            m = [0] * 256; x = 1
            for e in seq:
                m[e] = x; x = oct_table[x][h]
            if all(m[a ^ (1 << j)] == m[a] ^ m[1 << j] for a in range(256) for j in range(8)):
                found.append((c, [m[1 << j] for j in range(8)]))
    return found

@cache
def fit(ring, o):
    best = None; count = 0
    for c, cols in lawful(ring, poly_ring(o)):
        count += 1
        back = inverse_columns(cols)
        ones = sum(bin(x).count('1') for x in cols + back)
        key = (ones, c, cols, back)
        if best is None or key[:3] < best[:3]: best = key
    assert count == 64, count
    return best

def apply(cols, v):
    r = 0
    for j in range(8):
        if v >> j & 1: r ^= cols[j]
    return r

def affine_a(b):
    bit = lambda i: b >> (i % 8) & 1
    return sum((bit(i) ^ bit(i + 4) ^ bit(i + 5) ^ bit(i + 6) ^ bit(i + 7)) << i for i in range(8)) ^ 0x63

def affine_s(b):
    row = [1, 1, 1, 0, 0, 1, 0, 1]
    entry = lambda i, j: row[(j - i) % 8]
    return sum((sum(entry(i, j) & b >> j for j in range(8)) % 2) << i for i in range(8)) ^ 0xD3

def inverse(octic, b):
    return octic[b].index(1) if b else 0

def exchanged(below):
    """the same field with bits 1 and 3 of each code exchanged"""
    turn = lambda a: a & 5 | (a >> 1 & 1) << 3 | (a >> 3 & 1) << 1
    return table(16, lambda a, b: turn(below[turn(a)][turn(b)]))

RINGS = {'test': exchanged(poly_ring(0x13)), '13': poly_ring(0x13), '19': poly_ring(0x19), '1F': poly_ring(0x1f), '4:2': pairing(poly_ring(7), 2), '4:3': pairing(poly_ring(7), 3)}

def columns(cols):
    return ' '.join('%02X' % x for x in cols)

def print_fits(names):
    good = accepted()
    fits = {o: fit(RINGS[names[0]], o) for o in good}
    for name in names:
        for o in good:
            ones, c, cols, back = fits[o]
            print(name, '%03X' % o, c, ones, columns(cols), columns(back))
        print('%s refused: 1 0, 2 %d, 3 %d' % (name, 65536 - 256, 256 - len(good)))

def print_trails(name, o, before, after):
    ring, octic = RINGS[name], poly_ring(o)
    ones, c, cols, back = fit(ring, o)
    tower = pairing(ring, c)
    for byte in range(256):
        code = apply(back, byte)
        opposite = tower[code].index(1) if code else 0
        end = apply(cols, opposite)
        assert end == inverse(octic, byte)
        box = after(inverse(octic, before(byte)))
        print('%s %03X %02X: %02X %02X %02X, box %02X' % (name, o, byte, code, opposite, end, box))

if __name__ == '__main__':
    print_fits(['13', '13P'])
    print_fits(['19'])
    print_fits(['1F'])
    print_fits(['4:2'])
    print_fits(['test'])
    for name in ('4:0', '4:1', '4', '11B', '4:2:8'):
        print('%s refused: 1 65536, 2 0, 3 0' % name)
    for name in ('13', '4:2', 'test'):
        print_trails(name, 0x11B, lambda b: b, affine_a)
        print_trails(name, 0x1F5, affine_s, affine_s)
