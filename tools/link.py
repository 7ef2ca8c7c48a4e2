#!/usr/bin/env python3
"""What the program `link` must print, worked out apart from the Rattle sources (AES and SM4 by commission.py)."""
from commission import worked
from towers import RINGS, accepted, fit

KEY_A = bytes.fromhex("2b7e151628aed2a6abf7158809cf4f3c")
KEY_S = bytes.fromhex("0123456789abcdeffedcba9876543210")
SENTENCES = {
    2: "the octic lies outside 256 to 511",
    3: "the octic has a divisor of degree 1 to 4",
    4: "the end has no fit",
    5: "the letter is neither A nor S",
    6: "the fitted octic is not the letter's",
    7: "the key has not 16 bytes",
    9: "the end has no key",
    11: "the sector has 0 bytes or more than 4096",
}


class End:
    def __init__(self, word, ring, name):
        self.word, self.ring, self.name, self.next = word, RINGS[ring], name, 0
        self.octic = self.pair = self.key = None


first, second = End("first", "13", 1), End("second", "4:2", 2)


def refused(number):
    return "refused with %d, %s" % (number, SENTENCES[number])


def show(end, call, answer):
    print("%s %s: %s" % (end.word, call, answer))


def do_fit(end, octic):
    if not 256 <= octic < 512:
        answer = refused(2)
    elif octic not in accepted():
        answer = refused(3)
    else:
        end.octic, end.key = octic, None
        ones, c, cols, back = end.pair = fit(end.ring, octic)
        answer = "c %d, %d ones" % (c, ones)
    show(end, "fit %03X" % octic, answer)


def do_key(end, letter, key):
    if end.octic is None:
        answer = refused(4)
    elif letter not in "AS":
        answer = refused(5)
    elif end.octic != {"A": 0x11B, "S": 0x1F5}[letter]:
        answer = refused(6)
    elif len(key) != 16:
        answer = refused(7)
    else:
        end.key, answer = (letter, key), "accepted"
    show(end, "key " + letter, answer)


def do_tell(end):
    ones, c, cols, back = end.pair
    show(end, "tell", "c %d, %d ones, columns %s" % (c, ones, bytes(cols + back).hex().upper()))


def work(end, name, number, data):
    if end.key is None:
        return refused(9), None
    if not 1 <= len(data) <= 4096:
        return refused(11), None
    out = worked(*end.key, name, number, data)
    return out.hex().upper(), out


def do_sector(end, data):
    other = second if end is first else first
    name, number = end.name, end.next
    end.next += 1
    answer, out = work(end, name, number, data)
    show(end, "seal %d %d" % (name, number), answer)
    if out is not None:
        show(other, "open %d %d" % (name, number), work(other, name, number, out)[0])


def do_wipe(end):
    end.key = None
    print(end.word, "wipe")


do_fit(first, 0x11B)
do_fit(second, 0x11B)
do_key(first, "A", KEY_A)
do_key(second, "A", KEY_A)
do_sector(first, b"bearing 0112, range 3.4 nm")
do_sector(second, b"gain 7")
do_tell(first)
do_tell(second)
do_fit(first, 0x1F5)
do_sector(first, b"no key")
do_key(first, "A", KEY_A)
do_key(first, "S", KEY_S)
do_sector(first, b"another cipher")
do_fit(second, 0x1F5)
do_key(second, "S", KEY_S)
do_sector(first, b"bearing 0225, range 12 nm")
do_tell(second)
do_fit(first, 0x100)
do_fit(first, 0x200)
do_key(first, "B", KEY_S)
do_key(first, "S", b"too short")
do_wipe(second)
do_sector(first, b"the display was wiped")
do_key(second, "S", KEY_S)
do_sector(second, b"")
do_sector(second, b"numbers go on")
