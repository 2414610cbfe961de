#!/usr/bin/env python3
"""Computes by OpenSSL what the program `speed` says of pads, as its lines.

`cuts` is the digest of the pads of 100,000 random cuts of up to 1,023 bytes, each under a key, a tag
and a file of its own and from any place on; `plain` is that of one file's first 4,608 bytes; each is
the first 8 bytes of SHA-256, as a decimal number. `starts` is how many pairs there are of a length to
4,200 and a start to 300: the program counts those at which the pad is that of the plain cipher, whose
digest is `plain`. The first two lines stand in crates/speed/stdout, so the gate runs them. The third
takes half a minute; run all from the top of the repository, once `rt run` has left the program:

    pip install cryptography
    python3 tools/pad_vectors.py > out/expected
    crates/speed/out/speed cuts plain starts | cmp - out/expected
"""
import hashlib
from cryptography.hazmat.primitives.ciphers import Cipher, algorithms, modes


def pad(key, tag, file, start, length):
    first = bytes([tag, 0, 0, 0]) + file.to_bytes(4, "big") + (start // 16).to_bytes(8, "big")
    skip = start % 16
    whole = Cipher(algorithms.AES(key), modes.CTR(first)).encryptor().update(bytes(skip + length))
    return whole[skip:]


class Numbers:
    def __init__(self):
        self.state = 1

    def next(self):
        self.state = (self.state * 6364136223846793005 + 1442695040888963407) % 2**64
        return self.state >> 32

    def byte(self):
        return self.next() >> 24


def first_bytes(digest):
    return int.from_bytes(digest.digest()[:8], "big")


def cuts(count):
    numbers = Numbers()
    digest = hashlib.sha256()
    for _ in range(count):
        key = bytes(numbers.byte() for _ in range(32))
        tag = numbers.byte()
        file = numbers.next()
        length = numbers.next() % 1024
        start = min(numbers.next(), 2**32 - length)
        digest.update(pad(key, tag, file, start, length))
    return first_bytes(digest)


print("cuts", cuts(100_000))
print("plain", first_bytes(hashlib.sha256(pad(bytes([7] * 32), ord("B"), 2, 0, 4608))))
print("starts", 301 * 4201)
