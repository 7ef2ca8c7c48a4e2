#!/usr/bin/env python3
"""What the program `commission` must print for a sheet, worked out apart from the Rattle sources.

    commission.py                       reads a sheet from standard input and prints its lines
    commission.py --into DIR SHEET...   writes the lines of each sheet to DIR, under the sheet's own file name
    commission.py --self-test           checks tables, ciphers, octics and sheets against published and written-out values

Needs nothing but Python's standard library, and shares no code and no table with the Rattle sources."""
import functools
import os
import sys

# The S-box of FIPS 197, row by row as printed there.
AES_BOX = bytes.fromhex("""
    63 7c 77 7b f2 6b 6f c5 30 01 67 2b fe d7 ab 76
    ca 82 c9 7d fa 59 47 f0 ad d4 a2 af 9c a4 72 c0
    b7 fd 93 26 36 3f f7 cc 34 a5 e5 f1 71 d8 31 15
    04 c7 23 c3 18 96 05 9a 07 12 80 e2 eb 27 b2 75
    09 83 2c 1a 1b 6e 5a a0 52 3b d6 b3 29 e3 2f 84
    53 d1 00 ed 20 fc b1 5b 6a cb be 39 4a 4c 58 cf
    d0 ef aa fb 43 4d 33 85 45 f9 02 7f 50 3c 9f a8
    51 a3 40 8f 92 9d 38 f5 bc b6 da 21 10 ff f3 d2
    cd 0c 13 ec 5f 97 44 17 c4 a7 7e 3d 64 5d 19 73
    60 81 4f dc 22 2a 90 88 46 ee b8 14 de 5e 0b db
    e0 32 3a 0a 49 06 24 5c c2 d3 ac 62 91 95 e4 79
    e7 c8 37 6d 8d d5 4e a9 6c 56 f4 ea 65 7a ae 08
    ba 78 25 2e 1c a6 b4 c6 e8 dd 74 1f 4b bd 8b 8a
    70 3e b5 66 48 03 f6 0e 61 35 57 b9 86 c1 1d 9e
    e1 f8 98 11 69 d9 8e 94 9b 1e 87 e9 ce 55 28 df
    8c a1 89 0d bf e6 42 68 41 99 2d 0f b0 54 bb 16
""")

# The S-box of GB/T 32907-2016, row by row as printed there.
SM4_BOX = bytes.fromhex("""
    d6 90 e9 fe cc e1 3d b7 16 b6 14 c2 28 fb 2c 05
    2b 67 9a 76 2a be 04 c3 aa 44 13 26 49 86 06 99
    9c 42 50 f4 91 ef 98 7a 33 54 0b 43 ed cf ac 62
    e4 b3 1c a9 c9 08 e8 95 80 df 94 fa 75 8f 3f a6
    47 07 a7 fc f3 73 17 ba 83 59 3c 19 e6 85 4f a8
    68 6b 81 b2 71 64 da 8b f8 eb 0f 4b 70 56 9d 35
    1e 24 0e 5e 63 58 d1 a2 25 22 7c 3b 01 21 78 87
    d4 00 46 57 9f d3 27 52 4c 36 02 e7 a0 c4 c8 9e
    ea bf 8a d2 40 c7 38 b5 a3 f7 f2 ce f9 61 15 a1
    e0 ae 5d a4 9b 34 1a 55 ad 93 32 30 f5 8c b1 e3
    1d f6 e2 2e 82 66 ca 60 c0 29 23 ab 0d 53 4e 6f
    d5 db 37 45 de fd 8e 2f 03 ff 6a 72 6d 6c 5b 51
    8d 1b af 92 bb dd bc 7f 11 d9 5c 41 1f 10 5a d8
    0a c1 31 88 a5 cd 7b bd 2d 74 d0 12 b8 e5 b4 b0
    89 69 97 4a 0c 96 77 7e 65 b9 f1 09 c5 6e c6 84
    18 f0 7d ec 3a dc 4d 20 79 ee 5f 3e d7 cb 39 48
""")

# The system parameters FK and the fixed parameters CK of GB/T 32907-2016, as printed there.
FK = (0xA3B1BAC6, 0x56AA3350, 0x677D9197, 0xB27022DC)
CK = (
    0x00070E15, 0x1C232A31, 0x383F464D, 0x545B6269, 0x70777E85, 0x8C939AA1, 0xA8AFB6BD, 0xC4CBD2D9,
    0xE0E7EEF5, 0xFC030A11, 0x181F262D, 0x343B4249, 0x50575E65, 0x6C737A81, 0x888F969D, 0xA4ABB2B9,
    0xC0C7CED5, 0xDCE3EAF1, 0xF8FF060D, 0x141B2229, 0x30373E45, 0x4C535A61, 0x686F767D, 0x848B9299,
    0xA0A7AEB5, 0xBCC3CAD1, 0xD8DFE6ED, 0xF4FB0209, 0x10171E25, 0x2C333A41, 0x484F565D, 0x646B7279,
)

SHEET_MOST = 16384
COUNT_MOST = 64
SECTOR_MOST = 4096
OCTIC_OF = {"A": 0x11B, "S": 0x1F5}


def xor(a, b):
    return bytes(x ^ y for x, y in zip(a, b))


# AES-128. The state is kept as 16 bytes, column after column.

DOUBLE = bytes((b << 1 ^ (0x11B if b & 0x80 else 0)) & 0xFF for b in range(256))
SHIFTED_FROM = [row + 4 * ((column + row) % 4) for column in range(4) for row in range(4)]


def aes_schedule(key):
    words, constant = [key[i:i + 4] for i in range(0, 16, 4)], 1
    for i in range(4, 44):
        word = words[-1]
        if i % 4 == 0:
            word = xor((word[1:] + word[:1]).translate(AES_BOX), bytes([constant, 0, 0, 0]))
            constant = DOUBLE[constant]
        words.append(xor(words[i - 4], word))
    return [b"".join(words[i:i + 4]) for i in range(0, 44, 4)]


def shift_rows(state):
    return bytes([state[i] for i in SHIFTED_FROM])


def mix_columns(state):
    mixed = []
    for i in range(0, 16, 4):
        a, b, c, d = state[i:i + 4]
        total = a ^ b ^ c ^ d
        mixed += [a ^ total ^ DOUBLE[a ^ b], b ^ total ^ DOUBLE[b ^ c], c ^ total ^ DOUBLE[c ^ d], d ^ total ^ DOUBLE[d ^ a]]
    return mixed


def aes_encrypt(round_keys, block):
    state = xor(block, round_keys[0])
    for round_key in round_keys[1:10]:
        state = xor(mix_columns(shift_rows(state.translate(AES_BOX))), round_key)
    return xor(shift_rows(state.translate(AES_BOX)), round_keys[10])


# SM4, on words of 32 bits.

def turned(word, places):
    return (word << places | word >> (32 - places)) & 0xFFFFFFFF


def sm4_words(block):
    return [int.from_bytes(block[i:i + 4], "big") for i in range(0, 16, 4)]


def sm4_boxes(word):
    return int.from_bytes(word.to_bytes(4, "big").translate(SM4_BOX), "big")


def sm4_schedule(key):
    k = [word ^ fixed for word, fixed in zip(sm4_words(key), FK)]
    for i in range(32):
        b = sm4_boxes(k[i + 1] ^ k[i + 2] ^ k[i + 3] ^ CK[i])
        k.append(k[i] ^ b ^ turned(b, 13) ^ turned(b, 23))
    return k[4:]


def sm4_encrypt(round_keys, block):
    x = sm4_words(block)
    for i, round_key in enumerate(round_keys):
        b = sm4_boxes(x[i + 1] ^ x[i + 2] ^ x[i + 3] ^ round_key)
        x.append(x[i] ^ b ^ turned(b, 2) ^ turned(b, 10) ^ turned(b, 18) ^ turned(b, 24))
    return b"".join(word.to_bytes(4, "big") for word in reversed(x[32:]))


# Counter mode.

@functools.lru_cache(maxsize=64)
def cipher(letter, key):
    """The block cipher of a letter under a key, as a function of a block."""
    schedule, encrypt = {"A": (aes_schedule, aes_encrypt), "S": (sm4_schedule, sm4_encrypt)}[letter]
    return functools.partial(encrypt, schedule(key))


def counter_mode(encrypt, counters, data):
    return b"".join(xor(data[16 * i:16 * i + 16], encrypt(counter)) for i, counter in enumerate(counters))


def counter_blocks(name, number, length):
    head = name.to_bytes(2, "big") + number.to_bytes(8, "big") + bytes(4)
    return [head + index.to_bytes(2, "big") for index in range((length + 15) // 16)]


def worked(letter, key, name, number, data):
    return counter_mode(cipher(letter, key), counter_blocks(name, number, len(data)), data)


# Octics.

def times(a, b):
    """The product of two polynomials over the field of two elements."""
    return functools.reduce(lambda total, i: total ^ (a << i if b >> i & 1 else 0), range(b.bit_length()), 0)


def of_degree(n):
    return range(1 << n, 2 << n)


# Every octic that is a divisor of degree 1 to 4 times another polynomial.
REFUSED_OCTICS = {times(d, q) for n in range(1, 5) for d in of_degree(n) for q in of_degree(8 - n)}


# The end. Its two rings are fields of width 4, so that refusal 1 never comes; which pair a fit keeps does not show in a sheet.

class End:
    def __init__(self, name):
        self.name, self.next_number = name, 0
        self.octic = self.held = None

    def fit(self, octic):
        if octic not in range(256, 512):
            return 2
        if octic in REFUSED_OCTICS:
            return 3
        self.octic, self.held = octic, None
        return 0

    def key(self, letter, key):
        if self.octic is None:
            return 4
        if self.octic != OCTIC_OF[letter]:
            return 6
        self.held = letter, key
        return 0

    def draw(self):
        number = self.next_number
        self.next_number += 1
        return self.name, number

    def work(self, name, number, data):
        """Seals and opens: the refusal or 0, and the bytes afterwards."""
        if self.held is None:
            return 9, data
        if not 1 <= len(data) <= SECTOR_MOST:
            return 11, data
        return 0, worked(*self.held, name, number, data)


def display_open(letter, key, name, number, data):
    """What the display's C function answers, and the bytes afterwards. The letter is a character's code."""
    if letter not in (ord("A"), ord("S")):
        return 5, data
    if len(key) != 16:
        return 7, data
    if not 1 <= len(data) <= SECTOR_MOST:
        return 11, data
    return 0, worked(chr(letter), key, name, number, data)


# Reading a sheet.

class BadSheet(Exception):
    def __init__(self, refusal, place):
        super().__init__(refusal, place)
        self.refusal, self.place = refusal, place


def words_of(sheet):
    """The words of a sheet with their places. Space and newline part words; every other byte belongs to one."""
    found, start = [], None
    for place, byte in enumerate(sheet + b" "):
        blank = byte in (32, 10)
        if not blank and start is None:
            start = place
        elif blank and start is not None:
            found.append((start, sheet[start:place]))
            start = None
    return found


def count_form(word):
    return len(word) in (1, 2) and all(b in b"0123456789" for b in word) and int(word) <= COUNT_MOST


def end_form(word):
    return word in (b"H", b"D")


def cipher_form(word):
    return word in (b"A", b"S")


def digits_form(counts):
    return lambda word: len(word) in counts and all(b in b"0123456789ABCDEF" for b in word)


FIT_FORMS = (end_form, digits_form((3,)))
KEY_FORMS = (end_form, cipher_form, digits_form((32,)))
SECTOR_FORMS = (end_form, digits_form(range(2, 513, 2)))


class Reader:
    def __init__(self, sheet):
        self.left, self.length = words_of(sheet), len(sheet)

    def word(self, form):
        if not self.left:
            raise BadSheet(14, self.length)
        place, word = self.left.pop(0)
        if not form(word):
            raise BadSheet(14, place)
        return word.decode("ascii")

    def section(self, forms):
        count = int(self.word(count_form))
        return [[self.word(form) for form in forms] for _ in range(count)]

    def end(self):
        if self.left:
            raise BadSheet(15, self.left[0][0])


def sections_of(sheet):
    if len(sheet) > SHEET_MOST:
        raise BadSheet(13, SHEET_MOST)
    reader = Reader(sheet)
    sections = [reader.section(forms) for forms in (FIT_FORMS, KEY_FORMS, SECTOR_FORMS)]
    reader.end()
    return sections


# Running a sheet.

def bearing(number):
    return (225 * (number % 4096) + 128) // 256


def sector_line(letter, end, other, data):
    name, number = end.draw()
    refusal, sealed = end.work(name, number, data)
    if refusal:
        return "S %s %d" % (letter, refusal)
    opening, opened = other.work(name, number, sealed)
    mark = "Y" if opening == 0 and opened == data else "N"
    return "S %s 0 %d %d %s" % (letter, number, bearing(number), mark)


def run(fits, keys, sectors):
    ends, other = {"H": End(1), "D": End(2)}, {"H": "D", "D": "H"}
    lines = ["F %s %d" % (e, ends[e].fit(int(octic, 16))) for e, octic in fits]
    lines += ["K %s %d" % (e, ends[e].key(letter, bytes.fromhex(key))) for e, letter, key in keys]
    lines += [sector_line(e, ends[e], ends[other[e]], bytes.fromhex(digits)) for e, digits in sectors]
    return lines


def commission(sheet):
    """The bytes that the program prints for a sheet."""
    try:
        lines = run(*sections_of(sheet))
    except BadSheet as bad:
        lines = ["E %d %d" % (bad.refusal, bad.place)]
    return "".join(line + "\n" for line in lines).encode("ascii")


# The self test.

class Checks:
    def __init__(self):
        self.held = 0

    def same(self, what, got, wanted):
        if got != wanted:
            sys.exit("self test: %s: %r and not %r" % (what, got, wanted))
        self.held += 1


def remainder(a, modulus):
    while a.bit_length() >= modulus.bit_length():
        a ^= modulus << (a.bit_length() - modulus.bit_length())
    return a


def inverse(a, modulus):
    return next((b for b in range(256) if remainder(times(a, b), modulus) == 1), 0)


def affine(rows, constant, byte):
    bits = [bin(row & byte).count("1") & 1 for row in rows]
    return sum(bit << i for i, bit in enumerate(bits)) ^ constant


def rows_turned(entries):
    """Eight rows, each marking bits: row i is the given one turned i places to the right; the first entry is for bit 0."""
    return [sum(entry << ((j + i) % 8) for j, entry in enumerate(entries)) for i in range(8)]


def test_boxes(checks):
    rows_a = [sum(1 << ((i + j) % 8) for j in (0, 4, 5, 6, 7)) for i in range(8)]
    rows_s = rows_turned((1, 1, 1, 0, 0, 1, 0, 1))
    for byte in range(256):
        checks.same("box A of %02X" % byte, AES_BOX[byte], affine(rows_a, 0x63, inverse(byte, 0x11B)))
        through = inverse(affine(rows_s, 0xD3, byte), 0x1F5)
        checks.same("box S of %02X" % byte, SM4_BOX[byte], affine(rows_s, 0xD3, through))
    for i in range(32):
        checks.same("CK %d" % i, CK[i].to_bytes(4, "big"), bytes(7 * (4 * i + j) % 256 for j in range(4)))


# Letter, key, block and its cipher text: FIPS 197, appendices B and C.1; GB/T 32907-2016, A.1.
BLOCKS = (
    ("A", "2b7e151628aed2a6abf7158809cf4f3c", "3243f6a8885a308d313198a2e0370734", "3925841d02dc09fbdc118597196a0b32"),
    ("A", "000102030405060708090a0b0c0d0e0f", "00112233445566778899aabbccddeeff", "69c4e0d86a7b0430d8cdb78070b4c55a"),
    ("S", "0123456789abcdeffedcba9876543210", "0123456789abcdeffedcba9876543210", "681edf34d206965e86b3e94f536e4246"),
)
# Key, first counter, plain text and cipher text of NIST SP 800-38A, F.5.1.
COUNTER_MODE = [bytes.fromhex(text) for text in (
    "2b7e151628aed2a6abf7158809cf4f3c",
    "f0f1f2f3f4f5f6f7f8f9fafbfcfdfeff",
    "6bc1bee22e409f96e93d7e117393172a ae2d8a571e03ac9c9eb76fac45af8e51"
    "30c81c46a35ce411e5fbc1191a0a52ef f69f2445df4f9b17ad2b417be66c3710",
    "874d6191b620e3261bef6864990db6ce 9806f66b7970fdff8617187bb9fffdff"
    "5ae4df3edbd5d35e5b4f09020db03eab 1e031dda2fbe03d1792170a0f3009cee",
)]


def test_ciphers(checks):
    for letter, *texts in BLOCKS:
        key, block, wanted = (bytes.fromhex(text) for text in texts)
        checks.same("block of letter " + letter, cipher(letter, key)(block), wanted)
    key, first, plain, sealed = COUNTER_MODE
    counters = [(int.from_bytes(first, "big") + i).to_bytes(16, "big") for i in range(4)]
    checks.same("counter mode", counter_mode(cipher("A", key), counters, plain), sealed)
    checks.same("counter mode, cut", counter_mode(cipher("A", key), counters[:2], plain[:17]), sealed[:17])
    last = counter_blocks(0xC0DE, 0xFEDCBA9876543210, SECTOR_MOST)[-1]
    checks.same("counter block", last.hex(), "c0defedcba9876543210" + "00000000" + "00ff")


def field_of_four(a, b):
    return remainder(times(a, b), 7)


def pairing(a, b):
    """The product of the pairing of the field of four with constant 2."""
    m, (a1, a0), (b1, b0) = field_of_four, divmod(a, 4), divmod(b, 4)
    return (m(a1, b1) ^ m(a1, b0) ^ m(a0, b1)) << 2 | (m(a0, b0) ^ m(2, m(a1, b1)))


def test_octics(checks):
    for octic in range(256, 512):
        divided = any(remainder(octic, d) == 0 for d in range(2, 32))
        checks.same("octic %03X" % octic, octic in REFUSED_OCTICS, divided)
    checks.same("accepted octics", 256 - len(REFUSED_OCTICS), 30)
    for what, product in (("ring 13", lambda a, b: remainder(times(a, b), 0x13)), ("the ring of D", pairing)):
        inverses = [sum(product(a, b) == 1 for b in range(16)) for a in range(16)]
        checks.same(what + " is a field", inverses, [0] + 15 * [1])


KEY = "000102030405060708090A0B0C0D0E0F"
OTHER_KEY = "0F0E0D0C0B0A09080706050403020100"
ZERO_PAD_KEY = "%032X" % 0x17C
ALIKE_KEY = "%032X" % 0x72
SAMPLE = "2 H 11B D 11B 2 H A %s D A %s 1 H 41" % (KEY, KEY)
# Sheets, each with the lines that the rules give for it.
SHEETS = (
    (SAMPLE, "F H 0/F D 0/K H 0/K D 0/S H 0 0 0 Y"),
    ("\n \n" + SAMPLE.replace(" ", " \n ") + "\n", "F H 0/F D 0/K H 0/K D 0/S H 0 0 0 Y"),
    (SAMPLE.replace(KEY, OTHER_KEY, 1) + "00" * 15, "F H 0/F D 0/K H 0/K D 0/S H 0 0 0 N"),
    ("1 H 11B 1 H A %s 1 H 41" % ZERO_PAD_KEY, "F H 0/K H 0/S H 0 0 0 N"),
    (SAMPLE.replace(KEY, ALIKE_KEY, 1), "F H 0/F D 0/K H 0/K D 0/S H 0 0 0 Y"),
    (SAMPLE.replace(KEY, ALIKE_KEY, 1) + "42", "F H 0/F D 0/K H 0/K D 0/S H 0 0 0 N"),
    ("0 0 0", ""),
    ("00 00 00", ""),
    ("05 H 0FF H 200 H 100 D 000 D FFF 0 0", "F H 2/F H 2/F H 3/F D 2/F D 2"),
    ("2 D 11B D 1F5 2 D A %s D S %s 0" % (KEY, KEY), "F D 0/F D 0/K D 6/K D 0"),
    ("2 H 1F5 H 100 2 H S %s H A %s 2 H 41 D 41" % (KEY, KEY), "F H 0/F H 3/K H 0/K H 6/S H 0 0 0 N/S D 9"),
    ("1 H 11D 2 H A %s D S %s 1 H 41" % (KEY, KEY), "F H 0/K H 6/K D 4/S H 9"),
    ("2 H 11B D 11B 2 H A %s D A %s 4 H 41 D 42 H 43 H 44" % (KEY, KEY),
     "F H 0/F D 0/K H 0/K D 0/S H 0 0 0 Y/S D 0 0 0 Y/S H 0 1 1 Y/S H 0 2 2 Y"),
    ("", "E 14 0"),
    (" \n ", "E 14 3"),
    ("0 0 0 0", "E 15 6"),
    ("0 0 0\n\n  x \n", "E 15 9"),
    ("0 0", "E 14 3"),
    ("1 H", "E 14 3"),
    ("1 H \n", "E 14 5"),
    ("000 0 0", "E 14 0"),
    ("0 065 0", "E 14 2"),
    ("0 0 65", "E 14 4"),
    ("1 X 65 x", "E 14 2"),
    ("1 h 11B 0 0", "E 14 2"),
    ("1 HH 11B 0 0", "E 14 2"),
    ("1 H 11b 0 0", "E 14 4"),
    ("1 H 011B 0 0", "E 14 4"),
    ("0 1 H B %s 0" % KEY, "E 14 6"),
    ("0 1 H A %s 0" % KEY[1:], "E 14 8"),
    ("0 0 1 H 414", "E 14 8"),
    ("0 0 1 H " + 512 * "4", "S H 9"),
    ("0 0 1 H " + 514 * "4", "E 14 8"),
    ("0\t0 0 0", "E 14 0"),
    ("0 0 0\r\n", "E 14 4"),
    ("0 0 0\n\0", "E 15 6"),
    ("0 0\xa00", "E 14 2"),
    ("0 0 0" + 16379 * " ", ""),
    ("0 0 0" + 16380 * " ", "E 13 16384"),
    ("x" + 16384 * " ", "E 13 16384"),
    (16384 * " ", "E 14 16384"),
)


def test_sheets(checks):
    for sheet, lines in SHEETS:
        wanted = lines.replace("/", "\n") + ("\n" if lines else "")
        checks.same("sheet %.60r" % sheet, commission(sheet.encode("latin-1")).decode("ascii"), wanted)
    checks.same("a pad that begins with 00", worked("A", bytes.fromhex(ZERO_PAD_KEY), 1, 0, b"A"), b"A")
    for number, wanted in ((0, 0), (128, 113), (384, 338), (4095, 3599), (4096, 0), (4096 + 128, 113)):
        checks.same("bearing of %d" % number, bearing(number), wanted)


def test_end(checks):
    key, end = bytes(range(16)), End(1)
    checks.same("seal without a key", end.work(*end.draw(), b"x"), (9, b"x"))
    checks.same("fit and key", (end.fit(0x11B), end.key("A", key)), (0, 0))
    checks.same("a refused seal has used its number up", end.draw(), (1, 1))
    checks.same("fit", end.fit(0x11B), 0)
    checks.same("a fit forgets the key", end.work(1, 1, b"x"), (9, b"x"))


def test_display(checks):
    key, sector = bytes(range(16)), bytes(17)
    checks.same("letter first", display_open(321, b"", 2, 0, b""), (5, b""))
    checks.same("then the key", display_open(83, bytes(15), 2, 0, b""), (7, b""))
    checks.same("then the length", display_open(65, key, 2, 0, b""), (11, b""))
    checks.same("too long", display_open(65, key, 2, 0, bytes(4097)), (11, bytes(4097)))
    for letter in b"AS":
        answer, opened = display_open(letter, key, 0xFFFF, 2**64 - 1, sector)
        checks.same("opening and sealing again", display_open(letter, key, 0xFFFF, 2**64 - 1, opened), (0, sector))
        counters = [bytes(10 * [255] + 5 * [0] + [i]) for i in range(2)]
        checks.same("pads", (answer, opened), (0, b"".join(map(cipher(chr(letter), key), counters))[:17]))


def self_test():
    checks = Checks()
    for test in (test_boxes, test_ciphers, test_octics, test_sheets, test_end, test_display):
        test(checks)
    print("self test: %d checks hold" % checks.held)


def write_all(folder, sheets):
    for path in sheets:
        with open(path, "rb") as sheet, open(os.path.join(folder, os.path.basename(path)), "wb") as lines:
            lines.write(commission(sheet.read()))


def main(words):
    if words == ["--self-test"]:
        self_test()
    elif len(words) >= 2 and words[0] == "--into":
        write_all(words[1], words[2:])
    elif not words:
        sys.stdout.buffer.write(commission(sys.stdin.buffer.read()))
    else:
        sys.exit(__doc__)


if __name__ == "__main__":
    main(sys.argv[1:])
