#!/usr/bin/env python3
"""Expected values of the cipher tests, by another implementation of AES and SM4, Python's cryptography."""
from cryptography.hazmat.primitives.ciphers import Cipher, algorithms, modes

def cipher(letter, key):
    a = algorithms.AES(key) if letter == "A" else algorithms.SM4(key)
    return Cipher(a, modes.ECB()).encryptor()

def blocks(name, number, count):
    return [name.to_bytes(2, "big") + number.to_bytes(8, "big") + bytes(4) + i.to_bytes(2, "big") for i in range(count)]

def sealed(letter, key, name, number, data):
    e = cipher(letter, key)
    stream = b"".join(e.update(b) for b in blocks(name, number, (len(data) + 15) // 16))
    return bytes(a ^ b for a, b in zip(data, stream))

def digest(data):
    h = 0
    for b in data:
        h = (h * 31 + b) % 2**64
    return h

def sector(n):
    return bytes((7 * i + 3) % 256 for i in range(n))

KEY = bytes(range(16))

def tests():
    for letter in "AS":
        for name, number in [(0xC0DE, 0xFEDCBA9876543210), (0x8000, 0x8000000000000000), (0xFFFF, 0xFFFFFFFFFFFFFFFF), (0, 1)]:
            for n in [1, 15, 16, 17, 255, 256, 4095, 4096]:
                out = sealed(letter, KEY, name, number, sector(n))
                print(letter, f"{name:04x} {number:016x} {n:5d} {digest(out):#018x} first {out[0]:#04x} last {out[-1]:#04x}")

if __name__ == "__main__":
    tests()
