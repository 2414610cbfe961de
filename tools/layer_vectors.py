#!/usr/bin/env python3
"""Writes the tokens, coats and tags that the tests of the two layers compare with.

Keyed hashes come from Python's `hmac` and `hashlib`, pads from the package `cryptography`, which
calls OpenSSL; so no value comes from this repository. Run it from the top of the repository, and
then lay the files out:

    pip install cryptography
    python3 tools/layer_vectors.py
    (cd crates/ov_graph_t && rt fmt)

The base master of a row has the bytes `start + i` modulo 256. Keys of files are SHA-256 digests of
their own names. Byte i of a plaintext is `31 i + 7` modulo 256.
"""

import hashlib
import struct

from cryptography.hazmat.primitives.ciphers import Cipher, algorithms, modes

from common import keyed, literal

# the first byte of the base master, the node, and the starts of the edges into it
COVERS = [(0, 3, [0, 1]), (200, 4095, [4094, 7, 70])]

# the first byte of the base master, the root and the node of an access token
ACCESSES = [(0, 2, 3), (200, 70, 4095)]

# file, start and length of the bytes: whole, from within a block, over a block's border, none, and
# at the last place
PARTS = [(0, 0, 40), (1, 5, 7), (0x01020304, 15, 18), (7, 16, 0), (0xFFFFFFFF, 4294967295, 1)]


def xor(a, b):
    return bytes(x ^ y for x, y in zip(a, b))


def node_key(master, node):
    return keyed(master, b"B" + struct.pack(">I", node))


def token(start_key, tag, node, end_key):
    return xor(end_key, keyed(start_key, tag + struct.pack(">I", node)))


def master(start):
    return bytes((start + i) % 256 for i in range(32))


def edge(start, node, source):
    base = master(start)
    return token(node_key(base, source), b"B", node, node_key(base, node))


def access(start, root, node):
    base = master(start)
    return token(node_key(base, root), b"A", node, hashlib.sha256(node_key(base, node)).digest())


def key(name):
    return hashlib.sha256(name.encode()).digest()


def coat(secret, tag, file, start, text):
    first = tag + bytes(3) + struct.pack(">IQ", file, start // 16)
    pad = Cipher(algorithms.AES(secret), modes.CTR(first)).encryptor()
    return pad.update(bytes(start % 16) + text)[start % 16:]


def tag(secret, file, text):
    tag_key = keyed(secret, b"T" + struct.pack(">I", file))
    return keyed(tag_key, struct.pack(">Q", len(text)) + text)


def array(value):
    return "*" + literal(value)


def cover_rows():
    for start, node, sources in COVERS:
        tokens = ", ".join(
            f"Token {{ bytes: {array(edge(start, node, source))} }}" for source in sources)
        yield (f"Cover {{ start: {start}, node: {node}, from: &{sources}, "
               f"tokens: &[{tokens}] }},")


def access_rows():
    for start, root, node in ACCESSES:
        bytes_ = array(access(start, root, node))
        yield (f"Access {{ start: {start}, root: {root}, node: {node}, "
               f"token: Token {{ bytes: {bytes_} }} }},")


def text(length):
    return bytes((31 * i + 7) % 256 for i in range(length))


def part_rows():
    for file, start, length in PARTS:
        plain = text(length)
        base = coat(key("access"), b"B", file, start, plain)
        yield (f"Part {{ file: {file:#x}, start: {start}, base: {literal(base)}, "
               f"old: {literal(coat(key('old'), b'S', file, start, base))}, "
               f"new: {literal(coat(key('new'), b'S', file, start, base))}, "
               f"tag: {array(tag(key('access'), file, plain))} }},")


BASE = f"""//! Tokens under two masters, written by `tools/layer_vectors.py`.

use ov_tokens::Token;

/// The first byte of a base master, a node, the starts of the edges into it, and their tokens.
pub struct Cover {{
    pub start: u8,
    pub node: u32,
    pub from: &'static [u32],
    pub tokens: &'static [Token],
}}

/// The first byte of a base master, a root, a node, and the access token.
pub struct Access {{
    pub start: u8,
    pub root: u32,
    pub node: u32,
    pub token: Token,
}}

pub static COVERS: [Cover; {len(COVERS)}] = [{"".join(cover_rows())}];

pub static ACCESSES: [Access; {len(ACCESSES)}] = [{"".join(access_rows())}];
"""

SURFACE = f"""//! Coats and tags, written by `tools/layer_vectors.py`.

use ov_base::Key;

pub static ACCESS: Key = Key {{ bytes: {array(key("access"))} }};
pub static OLD: Key = Key {{ bytes: {array(key("old"))} }};
pub static NEW: Key = Key {{ bytes: {array(key("new"))} }};

/// The bytes of the longest part.
pub const PLAINTEXT: [u8; 40] = {array(text(40))};

/// A part of a file: its base text, that under the old and under the new surface key, and the tag of
/// a file of these bytes.
pub struct Part {{
    pub file: u32,
    pub start: u64,
    pub base: &'static [u8],
    pub old: &'static [u8],
    pub new: &'static [u8],
    pub tag: [u8; 32],
}}

pub static PARTS: [Part; {len(PARTS)}] = [{"".join(part_rows())}];
"""


def main():
    for module, rows in [("base_layer", BASE), ("surface", SURFACE)]:
        path = f"crates/ov_graph_t/src/{module}/vectors.rt"
        with open(path, "w", encoding="utf-8") as file:
            file.write(rows)


if __name__ == "__main__":
    main()
