#!/usr/bin/env python3
"""The way of bytes through the tower, worked out apart from the Rattle sources: reads what the program `trail` reads, and
prints what it must print."""
import re
import sys

from ring_tables import Pairing, Poly, inverses

COLUMNS = [0x01, 0xE0, 0x5D, 0xB0, 0x42, 0xE5, 0x10, 0x82]


def mapped(code):
    out = 0
    for j in range(8):
        if code // 2**j % 2:
            out ^= COLUMNS[j]
    return out


def box_a(inverse):
    bit = [inverse // 2**i % 2 for i in range(8)]
    rows = [(bit[i] + bit[(i + 4) % 8] + bit[(i + 5) % 8] + bit[(i + 6) % 8] + bit[(i + 7) % 8]) % 2 for i in range(8)]
    return sum(b * 2**i for i, b in enumerate(rows)) ^ 0x63


def main():
    below = Poly(0x13, 4)
    tower = Pairing(below, 12)
    small, large, direct = inverses(below), inverses(tower), inverses(Poly(0x11B, 8))
    code_of = {mapped(code): code for code in range(256)}
    text = sys.stdin.buffer.read()
    agree = count = 0
    for word in re.finditer(rb"[^ \n]+", text):
        if not re.fullmatch(rb"[0-9A-F]{2}", word.group()):
            shown = "".join(chr(b) if 33 <= b <= 126 else "<%02X>" % b for b in word.group())
            print("%s at %d is no byte: two hexadecimal digits, letters as capitals" % (shown, word.start()))
            continue
        byte = int(word.group(), 16)
        code = code_of[byte]
        high, low = divmod(code, 16)
        norm = below.product(low, low) ^ below.product(low, high) ^ below.product(12, below.product(high, high))
        inverse = large[code] or 0
        back = mapped(inverse)
        count += 1
        agree += back == (direct[byte] or 0)
        below_text = " without inverse" if small[norm] is None else ", its inverse %X" % small[norm]
        print("%02X: code %02X, norm %X%s, inverse code %02X, byte %02X, box A %02X"
              % (byte, code, norm, below_text, inverse, back, box_a(back)))
    print("%d of %d agree with the inverse modulo 11B" % (agree, count))


main()
