#!/usr/bin/env python3
"""Writes the table of tags that ov_keyed's tests compare with.

The tags are those of Python's `hmac` module, over OpenSSL or Python's own SHA-256, so they come
from code that this repository has no part in. Run it at the top of the repository:

    python3 tools/hmac_vectors.py > crates/ov_ciphers_t/src/keyed/vectors.rt

Byte i of a row's key is `start + i`, and byte i of each message is `7 * i + 3`, both modulo 256.
The lengths lie around the places where the message, its padding or the inner block fill a block of
64 bytes.
"""

import hashlib
import hmac

LENGTHS = [
    0, 1, 2, 31, 32, 33, 54, 55, 56, 57, 63, 64, 65, 66, 118, 119, 120, 121, 127, 128, 129, 183,
    184, 191, 192, 193, 255, 256, 511, 512,
]


def key_from(start: int) -> bytes:
    return bytes((start + i) % 256 for i in range(32))


def message_of(length: int) -> bytes:
    return bytes((7 * i + 3) % 256 for i in range(length))


def main() -> None:
    print("//! Tags under other keys and of other lengths, written by `tools/hmac_vectors.py`.")
    print()
    print("/// A key by its first byte, a message by its length, and the tag.")
    print("pub struct Row {")
    print("    pub start: u8,")
    print("    pub length: usize,")
    print("    pub tag: [u8; 32],")
    print("}")
    print()
    print(f"pub static ROWS: [Row; {len(LENGTHS)}] = [")
    for number, length in enumerate(LENGTHS):
        start = 37 * number % 256
        tag = hmac.new(key_from(start), message_of(length), hashlib.sha256).digest()
        print("    Row {")
        print(f"        start: {start},")
        print(f"        length: {length},")
        print('        tag: *b"' + "".join(f"\\x{byte:02x}" for byte in tag) + '",')
        print("    },")
    print("];")


if __name__ == "__main__":
    main()
