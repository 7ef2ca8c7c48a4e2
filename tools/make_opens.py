#!/usr/bin/env python3
"""Openings for the display's function, with what it must answer: make_opens.py DIR [SEED [COUNT]].

Writes DIR/opens, the lines that c/answers.c reads, and DIR/answers, the lines that it must print by tools/commission.py: every
kind of letter with every length of key and sector, then COUNT random ones, which the seed alone decides."""
import os
import random
import sys

from commission import display_open

LETTERS = [65, 83]
OTHER_LETTERS = [0, 1, 64, 66, 82, 84, 97, 115, 256 + 65, 256 + 83, 2**16 + 65, 2**24 + 83, 2**31 + 65, 65 << 8, 65 << 24,
                 2**32 - 1, 2**32 - 65]
KEY_LENGTHS = [0, 1, 15, 16, 17, 32]
LENGTHS = [0, 1, 15, 16, 17, 255, 256, 257, 4095, 4096, 4097]
NAMES = [0, 1, 2, 255, 256, 2**15, 2**16 - 1]
NUMBERS = [0, 1, 255, 256, 2**31, 2**32 - 1, 2**32, 2**63 - 1, 2**63, 2**64 - 2, 2**64 - 1]


def some_bytes(rng, length):
    return rng.getrandbits(8 * length).to_bytes(length, "big") if length else b""


def opening(rng, letter, key_length, length):
    return letter, some_bytes(rng, key_length), rng.choice(NAMES), rng.choice(NUMBERS), some_bytes(rng, length)


def every_kind(rng):
    for letter in LETTERS + [rng.choice(OTHER_LETTERS)]:
        for key_length in KEY_LENGTHS:
            for length in LENGTHS:
                yield opening(rng, letter, key_length, length)
    for letter in OTHER_LETTERS:
        yield opening(rng, letter, 16, 16)
    for letter in LETTERS:
        for name in NAMES:
            for number in NUMBERS:
                yield letter, bytes(range(16)), name, number, bytes(17)


def random_one(rng):
    letter = rng.choice(4 * LETTERS + [rng.choice(OTHER_LETTERS), rng.getrandbits(32)])
    key = some_bytes(rng, rng.choice(9 * [16] + [rng.randint(0, 33)]))
    length = rng.choice([rng.randint(1, 300)] * 8 + [rng.choice(LENGTHS), rng.randint(1, 4096)])
    return letter, key, rng.getrandbits(16), rng.getrandbits(64), some_bytes(rng, length)


def shown(data):
    return data.hex().upper() or "-"


def main(folder, seed="1", count="300"):
    rng = random.Random(int(seed))
    openings = list(every_kind(rng)) + [random_one(rng) for _ in range(int(count))]
    os.makedirs(folder, exist_ok=True)
    with open(os.path.join(folder, "opens"), "w") as opens, open(os.path.join(folder, "answers"), "w") as answers:
        for letter, key, name, number, data in openings:
            answer, after = display_open(letter, key, name, number, data)
            opens.write("%d %s %d %d %s\n" % (letter, shown(key), name, number, shown(data)))
            answers.write("%d %s\n" % (answer, shown(after)))


if __name__ == "__main__":
    if len(sys.argv) not in (2, 3, 4):
        sys.exit(__doc__)
    main(*sys.argv[1:])
