#!/usr/bin/env python3
"""What the program `sealer` must print for what it reads, worked out apart from the Rattle sources (AES and SM4 by commission.py)."""
import sys

from commission import cipher, counter_blocks, words_of, worked

DIGITS = b"0123456789ABCDEF"


def digits(word, lengths):
    """The bytes of a word of hexadecimal digits, or None."""
    if len(word) not in lengths or any(b not in DIGITS for b in word):
        return None
    return bytes.fromhex(word.decode("ascii"))


def read(line):
    """Letter, key, name, number and sector of a line, or what is bad in it."""
    words = [word for _, word in words_of(line)]
    if len(words) != 5:
        return None, "words"
    if words[0] not in (b"A", b"S"):
        return None, "letter"
    forms = (("key", (32,)), ("name", (4,)), ("number", (16,)), ("sector", range(2, 8193, 2)))
    parts = [digits(word, lengths) for word, (_, lengths) in zip(words[1:], forms)]
    for part, (what, _) in zip(parts, forms):
        if part is None:
            return None, what
    key, name, number, sector = parts
    return (words[0].decode("ascii"), key, int.from_bytes(name, "big"), int.from_bytes(number, "big"), sector), None


def report(place, line):
    request, bad = read(line)
    if bad:
        print("line %d: bad %s" % (place, bad))
        return
    letter, key, name, number, sector = request
    for counter in counter_blocks(name, number, len(sector)):
        print("%s %s" % (counter.hex().upper(), cipher(letter, key)(counter).hex().upper()))
    print("sealed %s" % worked(letter, key, name, number, sector).hex().upper())


def main():
    lines = sys.stdin.buffer.read().split(b"\n")
    if lines[-1] == b"":
        lines.pop()
    for place, line in enumerate(lines, 1):
        report(place, line)


if __name__ == "__main__":
    main()
