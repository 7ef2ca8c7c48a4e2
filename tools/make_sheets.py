#!/usr/bin/env python3
"""Commissioning sheets to compare two programs on: make_sheets.py DIR [SEED [COUNT]].

Writes DIR/0000.sheet and so on: first a fixed list of named sheets, then COUNT random ones, good and damaged, which the seed
alone decides. DIR/kinds says of each number what kind of sheet it is."""
import os
import random
import sys

KEY = b"000102030405060708090A0B0C0D0E0F"
SAMPLE = b"2 H 11B D 11B\n2\nH A %s\nD A %s\n1 H 41\n" % (KEY, KEY)
SHEET_MOST = 16384

# Bytes beside those that a sheet is made of, and blanks that part no words.
BESIDE = b"/:@G`afghdasT"
NO_BLANKS = b"\t\r\0\x0b\x0c\x1f\x7f\x80\x85\xa0\xff"

OCTICS = [b"11B", b"1F5"]
OTHER_OCTICS = [b"11D", b"12B", b"1F9", b"0FF", b"200", b"100", b"000", b"FFF", b"101", b"1FF", b"11C", b"21B", b"01B", b"3F5"]
EDGES = [1, 2, 15, 16, 17, 31, 32, 33, 47, 48, 49, 255, 256]


# The named sheets.

def full_sheet():
    """64 entries in each section."""
    fits = [b"%c %s" % (b"HD"[i % 2], (OCTICS + OTHER_OCTICS)[i * 5 % 16]) for i in range(62)] + [b"H 11B", b"D 11B"]
    keys = [b"%c %c %032X" % (b"HD"[i % 2], b"AS"[i // 2 % 2], i // 4) for i in range(64)]
    sectors = [b"%c %s" % (b"HHD"[i % 3], b"%02X" % i * (i + 1)) for i in range(64)]
    return b"\n".join([b"64", *fits, b"64", *keys, b"64", *sectors]) + b"\n"


def exactly(length):
    """A good sheet of a length whose last byte is a digit."""
    head = b"2 H 1F5 D 1F5 2 H S %s D S %s 40" % (KEY, KEY)
    sheet = head + b"".join(b" %c " % b"HD"[i % 2] + b"5A" * 190 for i in range(39)) + b"\nD "
    rest = length - len(sheet)
    return sheet + (rest - 250) * b" " + b"C3" * 125


def lengths():
    yield "empty", b""
    yield "only spaces", b" " * 40
    yield "only newlines", b"\n" * 7
    yield "sample", SAMPLE
    yield "no entries", b"0 0 0"
    yield "no entries, counts of two digits", b"00\n00\n00"
    yield "16384 bytes, padded behind", SAMPLE.ljust(SHEET_MOST)
    yield "16384 bytes, padded before", SAMPLE.rjust(SHEET_MOST)
    yield "16384 bytes, a digit last", exactly(SHEET_MOST)
    yield "16385 bytes, padded behind", SAMPLE.ljust(SHEET_MOST + 1)
    yield "16385 bytes, padded before", SAMPLE.rjust(SHEET_MOST + 1)
    yield "16385 bytes, a digit last", exactly(SHEET_MOST + 1)
    yield "16384 blanks", b" \n" * 8192
    yield "16385 blanks", b" \n" * 8192 + b" "
    yield "16385 bytes, bad from the first word on", b"x" * (SHEET_MOST + 1)
    yield "16384 bytes in one word", b"0" * SHEET_MOST
    yield "70000 bytes", SAMPLE + b"\n" * 70000


def counts():
    yield "64 entries in each section", full_sheet()
    for count in (b"65", b"99", b"000", b"064", b"065", b"1000", b"-1", b"+1", b"1.", b"A", b"0A", b"FF"):
        for places in ("%s 0 0", "0 %s 0", "0 0 %s"):
            yield "count " + count.decode(), places.encode() % count
    yield "64 announced, 63 there", b"0 0 64" + b" H 41" * 63
    yield "63 announced, 64 there", b"0 0 63" + b" H 41" * 64
    yield "64 sectors without a key", b"0 0 64" + b" D 41" * 64


def digits():
    for n in (1, 2, 3, 31, 33, 256, 511, 512, 513, 514, 516):
        yield "sector of %d digits" % n, SAMPLE.replace(b" 41", b" " + b"7" * n)
    for n in (1, 30, 31, 33, 34):
        yield "key of %d digits" % n, SAMPLE.replace(KEY, b"A" * n, 1)
    for octic in (b"1", b"1B", b"011B", b"11b", b"0x1", b"11G", b"11:", b"11/"):
        yield "octic " + octic.decode(), b"1 D " + octic + b" 0 0"


def blanks():
    for byte in NO_BLANKS:
        one = bytes([byte])
        yield "byte %d for each blank" % byte, SAMPLE.replace(b" ", one).replace(b"\n", one)
        yield "byte %d for the first blank" % byte, SAMPLE.replace(b" ", one, 1)
        yield "byte %d behind the last word" % byte, SAMPLE.rstrip() + one
        yield "byte %d as a word of its own" % byte, SAMPLE + one
        yield "byte %d before the first word" % byte, one + SAMPLE
    yield "lines that end in CR LF", SAMPLE.replace(b"\n", b"\r\n")


def letters():
    """Each kind of word with one byte replaced by a near one."""
    words = SAMPLE.split()
    for byte in BESIDE:
        for k in (0, 1, 2, 7, 8, 14):
            changed = words[k][:-1] + bytes([byte])
            yield "byte %d in word %d" % (byte, k), b" ".join(words[:k] + [changed] + words[k + 1:])


def cuts():
    for n in range(1, len(SAMPLE)):
        yield "sample, first %d bytes" % n, SAMPLE[:n]


def chances():
    """Sectors at number 0 of end H where pads fall together: keys under which the first pad begins with 00, and keys under
    which it begins like the pad under the sample's key."""
    for octic, letter, key in ((b"11B", b"A", b"%032X" % 0x17C), (b"1F5", b"S", b"%032X" % 0x1D4)):
        one_end = b"1 H %s 1 H %s %s 2 H 41 H 41" % (octic, letter, key)
        yield "sealed byte as before, other end without a fit", one_end
        yield "sealed byte as before, other end without a key", one_end.replace(b"1 H", b"2 D 11B H", 1)
    for letters, key in ((b"AA", b"%032X" % 0x72), (b"AS", b"%032X" % 0x1AE), (b"SS", b"%032X" % 0x2B8)):
        octics = [b"1F5" if letter in b"S" else b"11B" for letter in letters]
        both = b"2 H %s D %s 2 H %c %s D %c %s 1 H " % (*octics, letters[0], KEY, letters[1], key)
        yield "other key, opens by chance", both + b"41"
        yield "other key, only the first byte opens", both + b"4142"


def words_amiss():
    words = SAMPLE.split()
    for k, word in enumerate(words):
        yield "sample without word %d" % k, b" ".join(words[:k] + words[k + 1:])
        yield "sample with word %d twice" % k, b" ".join(words[:k] + [word] + words[k:])


def named():
    for part in (lengths, counts, digits, blanks, letters, cuts, words_amiss, chances):
        yield from part()


# Good sheets. A sheet is a list of words until it is laid out.

def count_word(rng, n):
    return b"%02d" % n if rng.random() < 0.2 else b"%d" % n


def hexadecimal(rng, size):
    return rng.getrandbits(8 * size).to_bytes(size, "big").hex().upper().encode()


def any_octic(rng):
    pick = rng.random()
    if pick < 0.4:
        return rng.choice(OCTICS)
    return rng.choice(OTHER_OCTICS) if pick < 0.7 else b"%03X" % rng.randrange(250, 520)


def any_end(rng):
    return rng.choice([b"H", b"D"])


def sector_size(rng, style):
    if style == "small":
        return rng.randint(1, 20)
    return rng.choice(EDGES) if style == "edges" else rng.randint(1, 256)


def fit_entries(rng, n, octics):
    """Fits of all kinds, and behind them those that leave the two ends fitted to the given octics."""
    last = [[end, octic] for end, octic in zip((b"H", b"D"), octics)]
    return [[any_end(rng), any_octic(rng)] for _ in range(n)] + last


def key_entries(rng, n, keys, octics):
    last = [[end, b"S" if octic == b"1F5" else b"A", key] for end, octic, key in zip((b"H", b"D"), octics, keys)]
    return [[any_end(rng), rng.choice([b"A", b"S"]), rng.choice(keys)] for _ in range(n)] + last


def sector_entries(rng, n, style):
    return [[any_end(rng), hexadecimal(rng, sector_size(rng, style))] for _ in range(n)]


def few_or_many(rng, most):
    return rng.choice([0, rng.randint(0, 3), rng.randint(0, 8), rng.randint(0, most), most])


def sheet_of(rng, *sections):
    return [word for entries in sections for word in [count_word(rng, len(entries))] + [w for entry in entries for w in entry]]


def working_sheet(rng):
    """Both ends come out fitted and keyed: alike, with different keys, or with different ciphers."""
    octic, key = rng.choice(OCTICS), hexadecimal(rng, 16)
    octics = [octic, octic if rng.random() < 0.8 else rng.choice(OCTICS)]
    keys = [key, key if rng.random() < 0.7 else hexadecimal(rng, 16)]
    n = few_or_many(rng, 64)
    style = rng.choice(["small", "edges", "any"]) if n <= 20 else "small"
    return sheet_of(rng, fit_entries(rng, few_or_many(rng, 62), octics), key_entries(rng, few_or_many(rng, 62), keys, octics),
                    sector_entries(rng, n, style))


def random_sheet(rng):
    """Entries as they fall: fits and keys may be missing, refused or replaced."""
    keys = [hexadecimal(rng, 16) for _ in range(rng.randint(1, 3))]
    return sheet_of(rng, fit_entries(rng, few_or_many(rng, 20), []), key_entries(rng, few_or_many(rng, 20), keys, []),
                    sector_entries(rng, few_or_many(rng, 20), rng.choice(["small", "edges", "any"])))


def chance_sheet(rng):
    """Sectors of one byte under different keys, which now and then open all the same."""
    octics, keys = [rng.choice(OCTICS) for _ in range(2)], [hexadecimal(rng, 16) for _ in range(2)]
    sectors = [[any_end(rng), hexadecimal(rng, 1)] for _ in range(64)]
    return sheet_of(rng, fit_entries(rng, 0, octics), key_entries(rng, 0, keys, octics), sectors)


def blank(rng, style):
    if style == "plain":
        return b" "
    if style == "lines":
        return rng.choice([b" ", b"\n"])
    return bytes(rng.choice(b" \n") for _ in range(rng.randint(1, 4)))


def laid_out(rng, words):
    style = rng.choice(["plain", "lines", "wild"])
    sheet = b"".join(word + blank(rng, style) for word in words)
    if style == "wild":
        return blank(rng, style) + sheet + blank(rng, style)
    return sheet if rng.random() < 0.7 else sheet[:-1]


def good(rng):
    return rng.choices([working_sheet, random_sheet, chance_sheet], [5, 4, 1])[0](rng)


# Damaged sheets: first those damaged in their words, then those damaged in their bytes.

def words_of_form(words, form):
    return [k for k, word in enumerate(words) if form(word)]


def replaced(words, k, *others):
    return words[:k] + list(others) + words[k + 1:]


def count_changed(rng, words):
    k = rng.choice(words_of_form(words, lambda word: len(word) <= 2 and word.isdigit()))
    n = int(words[k])
    others = [b"65", b"64", b"00", b"%03d" % n, b"%d" % (n + 1), b"%d" % max(n - 1, 0), b"0x%d" % n, b"%X" % (n + 10)]
    return replaced(words, k, rng.choice(others))


def digits_changed(rng, words):
    k = rng.choice(words_of_form(words, lambda word: len(word) > 1) or [0])
    word = words[k]
    others = [word[:-1], word + b"0", word + b"00", word * 2, word.lower(), b"7" * 513, b"7" * 514]
    return replaced(words, k, rng.choice(others))


def word_missing(rng, words):
    k = rng.randrange(len(words))
    return words[:k] + words[k + 1:]


def word_more(rng, words):
    k = rng.randint(0, len(words))
    return words[:k] + [rng.choice(words + [b"H", b"D", b"A", b"S", b"0", b"11B", b"41", KEY])] + words[k:]


def word_last(rng, words):
    return words + [rng.choice([b"H", b"0", b"1 H 41", b"x", b"\0", KEY])]


def words_swapped(rng, words):
    i, j = sorted(rng.choices(range(len(words)), k=2))
    return words[:i] + [words[j]] + words[i + 1:j] + [words[i]] + words[j + 1:] if i < j else words


def letter_changed(rng, words):
    k = rng.choice(words_of_form(words, bytes.isalpha) or [0])
    return replaced(words, k, rng.choice([b"H", b"D", b"A", b"S", b"h", b"d", b"HH", b"HD", b"B", b"1"]))


def any_byte(rng):
    return rng.choice([rng.choice(BESIDE + NO_BLANKS), rng.choice(b" \n0F"), rng.randrange(256)])


def byte_changed(rng, sheet):
    k = rng.randrange(len(sheet))
    return sheet[:k] + bytes([any_byte(rng)]) + sheet[k + 1:]


def byte_missing(rng, sheet):
    k = rng.randrange(len(sheet))
    return sheet[:k] + sheet[k + 1:]


def byte_more(rng, sheet):
    k = rng.randint(0, len(sheet))
    return sheet[:k] + bytes([any_byte(rng)]) + sheet[k:]


def cut(rng, sheet):
    return sheet[:rng.randrange(len(sheet))]


def blank_changed(rng, sheet):
    k = rng.choice([k for k, byte in enumerate(sheet) if byte in b" \n"] or [0])
    return sheet[:k] + bytes([rng.choice(NO_BLANKS)]) + sheet[k + 1:]


def digit_lowered(rng, sheet):
    k = rng.choice([k for k, byte in enumerate(sheet) if byte in b"ABCDEF"] or [0])
    return sheet[:k] + sheet[k:k + 1].lower() + sheet[k + 1:]


WORD_DAMAGES = [count_changed, digits_changed, word_missing, word_more, word_last, words_swapped, letter_changed]
BYTE_DAMAGES = [byte_changed, byte_missing, byte_more, cut, blank_changed, digit_lowered]


def random_one(rng):
    """A sheet and what kind it is: half of them good, a quarter damaged in a word and a quarter in a byte."""
    words, pick = good(rng), rng.random()
    if pick < 0.5:
        return "good", laid_out(rng, words)
    if pick < 0.75:
        damage = rng.choice(WORD_DAMAGES)
        return damage.__name__, laid_out(rng, damage(rng, words))
    damage = rng.choice(BYTE_DAMAGES)
    return damage.__name__, damage(rng, laid_out(rng, words))


def main(folder, seed="1", count="400"):
    rng = random.Random(int(seed))
    sheets = list(named()) + [random_one(rng) for _ in range(int(count))]
    os.makedirs(folder, exist_ok=True)
    with open(os.path.join(folder, "kinds"), "w") as kinds:
        for k, (kind, sheet) in enumerate(sheets):
            kinds.write("%04d %s\n" % (k, kind))
            with open(os.path.join(folder, "%04d.sheet" % k), "wb") as out:
                out.write(sheet)


if __name__ == "__main__":
    if len(sys.argv) not in (2, 3, 4):
        sys.exit(__doc__)
    main(*sys.argv[1:])
