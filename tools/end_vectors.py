#!/usr/bin/env python3
"""What the program end_tests must print, worked out apart from it: the ciphers come from the package `cryptography`, and the
rings, the fit and the refusals are written here once more."""
from cryptography.hazmat.primitives.ciphers import Cipher, algorithms, modes

KEY = bytes(range(16))
ACCEPTED = (0x11B, 0x1F5, 0x11D)


def clmul_mod(a, b, m, w):
    r = 0
    for i in reversed(range(w)):
        r <<= 1
        if r >> w & 1:
            r ^= m
        if a >> i & 1:
            r ^= b
    return r


def pairing(mul, w, c):
    def times(a, b):
        k = (1 << w) - 1
        a1, a0, b1, b0 = a >> w, a & k, b >> w, b & k
        top = mul(a1, b1)
        return (top ^ mul(a1, b0) ^ mul(a0, b1)) << w | (mul(a0, b0) ^ mul(c, top))
    return times


def four(a, b):
    return clmul_mod(a, b, 7, 2)


RINGS = [
    ("13", lambda a, b: clmul_mod(a, b, 0x13, 4)),
    ("19", lambda a, b: clmul_mod(a, b, 0x19, 4)),
    ("1F", lambda a, b: clmul_mod(a, b, 0x1F, 4)),
    ("F4", pairing(four, 2, 2)),
]


def logs(times, g):
    seen, x = [], 1
    while True:
        seen.append(x)
        x = times(x, g)
        if x == 1:
            return seen
        if len(seen) > 255:
            return None


def primitive(times):
    for g in range(1, 256):
        s = logs(times, g)
        if s and len(s) == 255:
            yield s


def field(times):
    return all(any(times(a, b) == 1 for b in range(1, 256)) for a in range(1, 256))


def fit(mul, octic):
    oct_times = lambda a, b: clmul_mod(a, b, octic, 8)
    goals = list(primitive(oct_times))
    best = None
    for c in range(16):
        tower = pairing(mul, 4, c)
        table = [[tower(a, b) for b in range(256)] for a in range(256)]
        tt = lambda a, b, table=table: table[a][b]
        if not field(tt):
            continue
        powers = next(primitive(tt))
        for goal in goals:
            m = [0] * 256
            for p, q in zip(powers, goal):
                m[p] = q
            if any(m[a ^ b] != m[a] ^ m[b] for a in (1, 2, 4, 8, 16, 32, 64, 128) for b in range(256)):
                continue
            columns = [m[1 << i] for i in range(8)]
            reverse = [m.index(1 << i) for i in range(8)]
            ones = sum(bin(x).count("1") for x in columns + reverse)
            key = (ones, c, columns)
            if best is None or key < best[0]:
                best = (key, c, ones, columns, reverse, m, tt)
    return best


def digest(bs):
    d = 0xCBF29CE484222325
    for b in bs:
        d = (d ^ b) * 0x100000001B3 % 2**64
    return d


def seal(letter, key, name, number, bs):
    alg = algorithms.AES(key) if letter == "A" else algorithms.SM4(key)
    enc = Cipher(alg, modes.ECB()).encryptor()
    out = []
    for i in range(0, len(bs), 16):
        block = name.to_bytes(2, "big") + number.to_bytes(8, "big") + bytes(4) + (i // 16).to_bytes(2, "big")
        out += [x ^ y for x, y in zip(bs[i:i + 16], enc.update(block))]
    return bytes(out)


def plain(n):
    return bytes((7 * i + 3) % 256 for i in range(n))


FITS = {}
for label, mul in RINGS:
    for octic in (0x0FF, 0x100, 0x11B, 0x11D, 0x1F5, 0x1FF, 0x200):
        if not 256 <= octic <= 511:
            print("F", label, "%03X" % octic, 2)
        elif octic not in ACCEPTED:
            print("F", label, "%03X" % octic, 3)
        else:
            got = FITS[label, octic] = fit(mul, octic)
            print("F", label, "%03X" % octic, 0, got[1], got[2])
            print("T", got[1], got[2], *("%02X" % x for x in got[3] + got[4]))
            for byte in (0x00, 0x01, 0x53, 0xFF):
                m, tt = got[5], got[6]
                code = m.index(byte)
                inverse = next((b for b in range(256) if tt(code, b) == 1), 0)
                print("W", "%02X" % byte, "%02X" % code, "%02X" % inverse, "%02X" % m[inverse])
for label in ("F4 alone", "octic"):
    for octic in (0x0FF, 0x100, 0x11B):
        print("F", label, "%03X" % octic, 1)

OCTIC = {"A": 0x11B, "S": 0x1F5}


def letter_code(fitted, letter):
    if fitted is None:
        return 4
    if letter not in OCTIC:
        return 5
    return 0 if OCTIC[letter] == fitted else 6


def key_code(fitted, letter, length, work):
    return letter_code(fitted, letter) or (7 if length != 16 else 8 if work < 176 else 0)


for fitted in (None, 0x11B, 0x1F5):
    for letter in "ASB":
        print("B", "%03X" % (fitted or 0), letter, letter_code(fitted, letter))
        for length in (15, 16, 17):
            for work in (0, 175, 176, 300):
                print("K", "%03X" % (fitted or 0), letter, length, work, key_code(fitted, letter, length, work), 0)

SBOX = {}
for letter, octic in OCTIC.items():
    for byte in (0x00, 0x01, 0x53, 0xFF):
        bits = lambda f: sum(f(i) << i for i in range(8))
        inverse = lambda x: next((b for b in range(256) if clmul_mod(x, b, octic, 8) == 1), 0)
        a = lambda x: bits(lambda i: sum(x >> (i + k) % 8 & 1 for k in (0, 4, 5, 6, 7)) + (0x63 >> i) & 1)
        s = lambda x: bits(lambda i: sum(x >> j & 1 for j in range(8) if "11100101"[(j - i) % 8] == "1") + (0xD3 >> i) & 1)
        print("X", letter, "%02X" % byte, "%02X" % (a(inverse(byte)) if letter == "A" else s(inverse(s(byte)))))

for first in (2**64 - 2, 2**64 - 1):
    n = first
    for _ in range(2):
        if n == 2**64 - 1:
            print("D", 12)
        else:
            print("D", 0, 1, n)
            n += 1

for keyed in (0, 1):
    for own in (0, 1):
        for n in (0, 1, 4097):
            bs = plain(n)
            code = 9 if not keyed else 10 if not own else 11 if n == 0 or n > 4096 else 0
            print("R", keyed, own, n, code)
    for n in (0, 1, 4097):
        print("Q", keyed, n, 9 if not keyed else 11 if n == 0 or n > 4096 else 0)

def sector(letter, number, n):
    good = 1 <= n <= 4096
    out = seal(letter, KEY, 0xC0DE, number, plain(n)) if good else plain(n)
    print("S", letter, n, 0 if good else 11, number, "%016X" % digest(out))
    for label, _ in RINGS:
        print("O", label, 0 if good else 11, "%016X" % digest(plain(n)))

for letter in "AS":
    for i, n in enumerate((0, 1, 15, 16, 17, 4096, 4097)):
        sector(letter, 0xFEDCBA9876543210 + i, n)
    for number in (7, 8, 9):
        sector(letter, number, 33)

print("Z", 0, 0, 0, 0, 1, 9, 0, 0, 2, 9)
