#!/usr/bin/env python3
"""Writes the test vectors of the crates `ov_aes` and `ov_ctr`, computed by another implementation.

The expected bytes come from Python's package `cryptography`, which calls OpenSSL: AES-256 in ECB
mode for single blocks, and in CTR mode, whose counter is one big-endian number of 16 bytes, for
pads. The first block is the example of FIPS 197, C.3, and the next four are those of SP 800-38A,
F.1.5. Two more are of zeros and of ones, and the other inputs are SHA-256 digests of their own
numbers, so each run writes the same files.

Run it from the top of the repository, and then lay the files out:

    pip install cryptography
    python3 tools/cipher_vectors.py
    (cd crates/ov_ciphers_t && rt fmt)
"""
import hashlib
from cryptography.hazmat.primitives.ciphers import Cipher, algorithms, modes

STANDARD_KEY = bytes(range(32))
STANDARD_BLOCK = bytes(i * 0x11 for i in range(16))
EXAMPLE_KEY = bytes.fromhex("603deb1015ca71be2b73aef0857d77811f352c073b6108d72d9810a30914dff4")
EXAMPLE_BLOCKS = [
    "6bc1bee22e409f96e93d7e117393172a",
    "ae2d8a571e03ac9c9eb76fac45af8e51",
    "30c81c46a35ce411e5fbc1191a0a52ef",
    "f69f2445df4f9b17ad2b417be66c3710",
]

# tag, file, start and length of each pad: within one block, on and off the blocks' borders, at the
# greatest file number, on both sides of a carry in the block's number, and at the last place
PADS = [
    (0, 0, 0, 0),
    (0, 0, 0, 1),
    (0, 0, 0, 16),
    (1, 0, 0, 16),
    (0, 1, 0, 16),
    (255, 0xFFFFFFFF, 0, 16),
    (1, 2, 0, 15),
    (1, 2, 15, 1),
    (1, 2, 15, 2),
    (1, 2, 0, 17),
    (1, 2, 16, 16),
    (1, 2, 7, 9),
    (1, 2, 7, 10),
    (2, 0x01020304, 5, 3),
    (2, 0x01020304, 31, 34),
    (2, 0x01020304, 32, 48),
    (3, 0x80000000, 1, 48),
    (3, 0x80000000, 4080, 32),
    (3, 0x80000000, 4095, 2),
    (4, 65536, 1048560, 40),
    (4, 65536, 1048575, 18),
    (5, 7, 268435455, 33),
    (6, 8, 4294967247, 48),
    (6, 8, 4294967280, 16),
    (6, 8, 4294967295, 1),
    (6, 8, 4294967296, 0),
]

# starts and lengths of texts on both sides of 256 bytes, from which on four blocks go at a time: on
# and off the blocks' borders, and over the end of 256 blocks whose counters differ in one byte
LONG = [(start, length) for start in (0, 15, 17) for length in (255, 256, 257, 4100)]
LONG += [(3943, 256), (4031, 300), (1048320, 512)]


def digest(name, number):
    return hashlib.sha256(f"{name} {number}".encode()).digest()


def number(data):
    return "0x" + data.hex()


def key_field(key):
    return 'key: *b"' + "".join(f"\\x{byte:02x}" for byte in key) + '"'


def block(key, text):
    return Cipher(algorithms.AES(key), modes.ECB()).encryptor().update(text)


def pad(key, tag, file, start, length):
    first = bytes([tag, 0, 0, 0]) + file.to_bytes(4, "big") + (start // 16).to_bytes(8, "big")
    skip = start % 16
    whole = Cipher(algorithms.AES(key), modes.CTR(first)).encryptor().update(bytes(skip + length))
    return whole[skip:]


def text(length):
    return bytes((31 * i + 7) % 256 for i in range(length))


def write(path, header, struct, name, lines):
    with open(path, "w") as file:
        file.write(f"//! {header}\n//! Written by `tools/cipher_vectors.py`, which says how.\n\n")
        file.write(f"{struct}\n")
        file.write(f"pub static {name}: [Vector; {len(lines)}] = [\n" + "".join(lines) + "];\n")


def block_lines():
    inputs = [(STANDARD_KEY, STANDARD_BLOCK)]
    inputs += [(EXAMPLE_KEY, bytes.fromhex(text)) for text in EXAMPLE_BLOCKS]
    inputs += [(bytes(32), bytes(16)), (bytes([255] * 32), bytes([255] * 16))]
    inputs += [(digest("key", i), digest("block", i)[:16]) for i in range(17)]
    for key, plain in inputs:
        yield (f"    Vector {{ {key_field(key)}, input: {number(plain)}, "
               f"output: {number(block(key, plain))} }},\n")


def pad_lines():
    for i, (tag, file, start, length) in enumerate(PADS):
        key = digest("pad", i)
        after = bytes(a ^ b for a, b in zip(text(length), pad(key, tag, file, start, length)))
        listed = ", ".join(f"0x{byte:02x}" for byte in after)
        yield (f"    Vector {{ {key_field(key)}, tag: {tag}, file: {file}, start: {start}, "
               f"after: &[{listed}] }},\n")


def fnv_1a(data):
    sum = 0xCBF29CE484222325
    for byte in data:
        sum = (sum ^ byte) * 0x100000001B3 % 2**64
    return sum


def sum_lines():
    for start, length in LONG:
        padding = pad(bytes([9] * 32), 1, 2, start, length)
        after = bytes(a ^ b for a, b in zip(text(length), padding))
        yield (f"    Vector {{ start: {start}, length: {length}, "
               f"sum: 0x{fnv_1a(after):016x} }},\n")


write(
    "crates/ov_ciphers_t/src/aes/vectors.rt",
    "Blocks under AES-256, as OpenSSL encrypts them.",
    """pub struct Vector {
    pub key: [u8; 32],
    pub input: u128,
    pub output: u128,
}
""",
    "BLOCKS",
    list(block_lines()),
)
write(
    "crates/ov_ciphers_t/src/ctr/vectors.rt",
    "Texts whose byte `i` is `31 i + 7` modulo 256, after the pad that OpenSSL computes.",
    """pub struct Vector {
    pub key: [u8; 32],
    pub tag: u8,
    pub file: u32,
    pub start: u64,
    pub after: &'static [u8],
}
""",
    "PADS",
    list(pad_lines()),
)
write(
    "crates/ov_ciphers_t/src/ctr/sums.rt",
    "FNV-1a sums of longer texts, whose byte `i` is `31 i + 7` modulo 256, after OpenSSL's pad.",
    """pub struct Vector {
    pub start: u64,
    pub length: usize,
    pub sum: u64,
}
""",
    "SUMS",
    list(sum_lines()),
)
