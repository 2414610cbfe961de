#!/usr/bin/env python3
"""Writes the table of keys and tokens that ov_tokens' tests compare with.

The values come from Python's `hmac` and `hashlib`, so from code that this repository has no part in.
Run it at the top of the repository:

    python3 tools/token_vectors.py > crates/ov_ciphers_t/src/tokens/vectors.rt

Byte i of a row's base master is `start + i`, and of its surface master `start + 3 * i`, both modulo
256. The token leads from the key of `B number` to the label `A number`.
"""

import hashlib
import struct

from common import keyed, literal

ROWS = [
    (0, 0), (1, 1), (7, 2), (32, 3), (64, 127), (99, 128), (128, 255), (129, 256), (160, 4095),
    (200, 65_535), (223, 65_536), (240, 16_777_216), (254, 2_147_483_648), (255, 4_294_967_295),
]


def numbered(key: bytes, tag: bytes, number: int) -> bytes:
    return keyed(key, tag + struct.pack(">I", number))


def values(start: int, number: int) -> dict[str, bytes]:
    base = bytes((start + i) % 256 for i in range(32))
    surface = bytes((start + 3 * i) % 256 for i in range(32))
    base_key = numbered(base, b"B", number)
    access_key = hashlib.sha256(base_key).digest()
    pad = numbered(base_key, b"A", number)
    return {
        "base_key": base_key,
        "surface_key": numbered(surface, b"S", number),
        "access_key": access_key,
        "token": bytes(x ^ y for x, y in zip(access_key, pad)),
        "tag_key": numbered(access_key, b"T", number),
        "update_key": numbered(surface, b"U", 0),
        "check_value": numbered(base, b"C", 0),
    }


def main() -> None:
    names = list(values(0, 0))
    print("//! Keys and tokens under other masters, written by `tools/token_vectors.py`.")
    print()
    print("/// Two masters by their first byte, a number, and what comes from them.")
    print("pub struct Row {")
    print("    pub start: u8,")
    print("    pub number: u32,")
    for name in names:
        print(f"    pub {name}: [u8; 32],")
    print("}")
    print()
    print(f"pub static ROWS: [Row; {len(ROWS)}] = [")
    for start, number in ROWS:
        print("    Row {")
        print(f"        start: {start},")
        print(f"        number: {number},")
        for name, value in values(start, number).items():
            print(f"        {name}: *{literal(value)},")
        print("    },")
    print("];")


if __name__ == "__main__":
    main()
