#!/usr/bin/env python3
"""What the program `fitter` must print for what it reads, worked out apart from the Rattle sources."""
import re
import sys

from towers import RINGS, accepted, fit

PUBLISHED = {
    0x11B: (45, 12, [0x01, 0xE0, 0x5D, 0xB0, 0x42, 0xE5, 0x10, 0x82]),
    0x1F5: (44, 15, [0x01, 0x50, 0x0D, 0x7A, 0xC5, 0x5A, 0x32, 0x08]),
}
SENTENCES = {2: "the octic lies outside 256 to 511", 3: "the octic has a divisor of degree 1 to 4"}
NAMES = ("13", "19", "1F", "13P", "4:2", "4:3")


def shown(word):
    return "".join(chr(b) if 33 <= b <= 126 else "<%02X>" % b for b in word.group())


def bad(word, what):
    print("%s at %d is no %s" % (shown(word), word.start(), what))


def row(cols, i):
    return "".join("1" if c >> i & 1 else "." for c in cols)


def report(name, octic):
    if octic not in accepted():
        number = 3 if 256 <= octic < 512 else 2
        print("%s %03X: refused with %d, %s" % (name, octic, number, SENTENCES[number]))
        return
    ones, c, cols, back = fit(RINGS["13" if name == "13P" else name], octic)
    print("%s %03X: c %d, %d ones" % (name, octic, c, ones))
    for i in range(8):
        print(row(cols, i) + "  " + row(back, i))
    if name in ("13", "13P") and octic in PUBLISHED:
        known = PUBLISHED[octic]
        if known[1:] == (c, cols):
            print("the published pair is this one")
        elif known[0] == ones:
            print("the published pair, c %d, has as many ones and loses the tie" % known[1])
        else:
            print("the published pair, c %d, has %d ones" % (known[1], known[0]))


words = list(re.finditer(rb"[^ \n]+", sys.stdin.buffer.read()))
for k in range(0, len(words), 2):
    if k + 1 == len(words):
        bad(words[k], "entry: a ring and an octic")
    elif words[k].group().decode("latin-1") not in NAMES:
        bad(words[k], "ring: 13, 19, 1F, 13P, 4:2 or 4:3")
    elif not re.fullmatch(rb"[0-9A-F]{3}", words[k + 1].group()):
        bad(words[k + 1], "octic: three hexadecimal digits, letters as capitals")
    else:
        report(words[k].group().decode(), int(words[k + 1].group(), 16))
