#!/usr/bin/env python3
"""Reads the damaged books of crates/server_cases/data/damage.case, and compares where they are damaged with stdout.

It reads books by docs/FORMATS.md, and shares nothing with the crates, nor with the independent reference that made the
lines of stdout. The book is that of a small store in Delta: two users, a file for both, a third user, a grant and a
revocation, with tokens and a tag of zeros. The creation puts the file in block 0, and the revocation, which coats it,
in block 1; no place of damage depends on the bytes there. Run it from the top of the repository:

    python3 tools/damaged_books.py
"""

import hashlib
import hmac
import pathlib
import struct
import sys

CASES = pathlib.Path("crates/server_cases/stdout")

ZEROS = bytes(32)
MAX_RECORD, MAX_FILE, MAX_TOKENS, SET = 1_114_112, 16_777_216, 1_024, 128
BLOCK = 4096

# how long the book and Blobs of the small store are
ALL, ALL_BLOBS = 420, 8192
NAME_BYTES = b"abcdefghijklmnopqrstuvwxyz0123456789._-"

# a place, the byte that is put there, and the length to which the book is then cut
CHANGES = [
    (0, 1, ALL), (9, 2, ALL), (78, 0, ALL), (90, 2, ALL), (419, 1, ALL),
    (79, 1, ALL), (80, 17, ALL), (82, 0, ALL), (344, 1, ALL),
    (0, 1, 419), (0, 1, 405), (0, 1, 401), (0, 1, 91), (0, 1, 90),
    (83, 0, ALL), (83, 5, ALL), (83, 4, ALL), (84, 0, ALL), (84, 65, ALL), (84, 4, ALL),
    (84, 6, ALL), (85, 45, ALL), (86, 33, ALL), (82, 8, ALL), (82, 6, ALL),
    (236, 4, ALL), (237, 1, ALL), (334, 1, ALL), (337, 4, ALL),
    (337, 0, ALL), (104, 238, ALL), (104, 236, ALL), (104, 233, ALL), (104, 232, ALL), (405, 12, ALL), (405, 9, ALL),
    (368, 2, ALL), (368, 0, ALL),
    (363, 3, ALL), (367, 1, ALL), (363, 0, ALL), (410, 3, ALL),
    (108, 0, ALL), (108, 1, ALL),
    (86, 33, 200), (363, 3, 405), (410, 3, 419),
]

# a place in the book, the byte that is put there, and the length to which Blobs is then cut
BLOBS_CHANGES = [
    (0, 1, ALL_BLOBS), (0, 1, 8191), (0, 1, 4096), (0, 1, 4095), (0, 1, 0),
    (341, 1, ALL_BLOBS), (418, 0, ALL_BLOBS), (336, 16, ALL_BLOBS),
    (341, 2, ALL_BLOBS), (338, 128, ALL_BLOBS), (418, 2, ALL_BLOBS), (335, 1, ALL_BLOBS),
    (418, 0, 4095), (341, 2, 4096),
]


class Damaged(Exception):
    """With the area and the place in it. In a body the place counts from its first byte."""


def small_book():
    check = hmac.new(bytes([7]) * 32, b"C" + bytes(4), hashlib.sha256).digest()
    create = b"\2\1f" + b"\3" + bytes(SET - 1) + struct.pack(">H", 2) + 2 * ZEROS + ZEROS
    bodies = [b"\1\5alice", b"\1\3bob", create + struct.pack(">II", 5, 0), b"\1\5carol",
              b"\3" + struct.pack(">II", 2, 0) + b"\1" + ZEROS, b"\4" + struct.pack(">III", 2, 0, 1)]
    head = b"\1OVERENC2\1" + bytes(4) + b"\x11" * 32 + check
    return head + b"".join(b"\1" + struct.pack(">I", len(b)) + b for b in bodies) + b"\0"


class Fields:
    """The fields of a body, from left to right."""

    def __init__(self, body):
        self.body, self.at = body, 0

    def take(self, count):
        if self.at + count > len(self.body):
            raise Damaged("book", len(self.body))
        self.at += count
        return self.body[self.at - count:self.at]

    def number(self, count, most):
        start = self.at
        value = int.from_bytes(self.take(count), "big")
        if value > most:
            raise Damaged("book", start)
        return value

    def name(self):
        start = self.at
        count = self.take(1)[0]
        if not 1 <= count <= 64:
            raise Damaged("book", start)
        for i in range(count):
            byte = self.take(1)
            if byte not in NAME_BYTES or i == 0 and byte in b"._-":
                raise Damaged("book", self.at - 1)
        return self.body[start + 1:self.at]


def update_in(fields):
    """The update at the front of a body: its kind, and what a store without keys looks at."""
    kind = fields.take(1)[0]
    if kind == 1:
        return ("enrol", fields.name())
    if kind == 2:
        name, users = fields.name(), int.from_bytes(fields.take(SET), "little")
        tokens = fields.number(2, MAX_TOKENS)
        fields.take(32 * tokens + 32)
        return ("create", name, users, tokens, fields.number(4, MAX_FILE))
    if kind not in (3, 4):
        raise Damaged("book", 0)
    user, file = fields.number(4, 2**32 - 1), fields.number(4, 2**32 - 1)
    token = fields.number(1, 1) if kind == 3 else None
    fields.take(32 if token else 0)
    return ("grant" if kind == 3 else "revoke", user, file, token)


class Machine:
    """Users, files with their lists, lengths and coats, the base layer (its sets, and who has access tokens),
    and the extent of each file that has bytes, as its first block and how many it has."""

    def __init__(self):
        self.users, self.files, self.lists, self.nodes = [], [], [], []
        self.lengths, self.coats, self.extents = [], [], {}
        self.sets, self.access = [], set()

    def cover(self, users):
        """How many nodes cover a set: from the larger ones on, each that adds a user."""
        rest, count = users, 0
        for node in sorted(self.sets, key=lambda s: -s.bit_count()):
            if node & ~users == 0 and node & rest:
                rest, count = rest & ~node, count + 1
        return count

    def holders(self, node):
        return self.sets[node] | sum(1 << user for user, there in self.access if there == node)

    def takes(self, update):
        """Makes the update, unless it's refused or has other parts than the layers want."""
        kind = update[0]
        if kind == "enrol":
            if update[1] in self.users:
                return False
            self.sets.append(1 << len(self.users))
            self.users.append(update[1])
            return True
        if kind == "create":
            _, name, users, tokens, length = update
            wanted = 0 if users in self.sets else self.cover(users)
            if name in self.files or not users or users >> len(self.users) or tokens != wanted:
                return False
            if users not in self.sets:
                self.sets.append(users)
            self.files.append(name)
            self.lists.append(users)
            self.lengths.append(length)
            self.nodes.append(self.sets.index(users))
            return True
        _, user, file, token = update
        if user >= len(self.users) or file >= len(self.files):
            return False
        listed, node = self.lists[file] >> user & 1, self.nodes[file]
        if kind == "grant":
            holds = self.holders(node) >> user & 1
            if listed or bool(token) == bool(holds):
                return False
            self.access.add((user, node))
        elif not listed:
            return False
        self.lists[file] ^= 1 << user
        return True

    def coated(self):
        """The files whose stored bytes are new since this was asked last: each new one, and each whose coat is
        another. In Delta a file is bare where just those on its list hold the key of its base node."""
        coats = [None if users == self.holders(node) else users for users, node in zip(self.lists, self.nodes)]
        new = [file for file, coat in enumerate(coats) if [coat] != self.coats[file:file + 1]]
        self.coats = coats
        return new

    def lay(self, places, blobs):
        """Gives these files these first blocks. What they had is given up only behind all of them."""
        held = list(self.extents.values())
        for file, first in places:
            count = -(-self.lengths[file] // BLOCK)
            if (first + count) * BLOCK > blobs or any(first < end and there < first + count for there, end in held):
                raise Damaged("blobs", first * BLOCK)
            held.append((first, first + count))
            self.extents[file] = held[-1]


def read(book, blobs):
    """How many records a store has that is begun on the book and a Blobs of this length, or Damaged."""
    if book[9] > 1:
        raise Damaged("book", 9)
    machine, gate, count = Machine(), 78, 0
    while book[gate] == 1:
        length = int.from_bytes(book[gate + 1:gate + 5], "big")
        body = book[gate + 5:gate + 5 + length]
        if len(book) < gate + 5 or not 1 <= length <= MAX_RECORD or len(book) < gate + 6 + length:
            raise Damaged("book", gate + 1)
        machine.lay(read_body(machine, gate, body), blobs)
        gate, count = gate + 5 + length, count + 1
    return count


def read_body(machine, gate, body):
    """Makes the update of a body. The first block of each file that the update fills is the result."""
    fields = Fields(body)
    try:
        update = update_in(fields)
        if not machine.takes(update):
            raise Damaged("book", -5)
        places = [(file, fields.number(4, 2**32 - 1)) for file in machine.coated() if machine.lengths[file] > 0]
        if fields.at < len(body):
            raise Damaged("book", fields.at)
    except Damaged as wrong:
        raise Damaged("book", gate + 5 + wrong.args[1]) from None
    return places


def line(place, byte, length, blobs):
    """What `server_cases` has to print of the book with this change."""
    book = bytearray(small_book())
    book[place] = byte
    try:
        found = "epoch %d" % read(bytes(book[:length]), blobs)
    except Damaged as wrong:
        found = "error damaged %s %d" % wrong.args
    return f"changed {place} {byte} {length} {blobs}: {found}"


if __name__ == "__main__":
    assert len(small_book()) == ALL
    wanted = [line(place, byte, length, ALL_BLOBS) for place, byte, length in CHANGES]
    wanted += [line(place, byte, ALL, blobs) for place, byte, blobs in BLOBS_CHANGES]
    printed = {*CASES.read_text().split("\n")}
    wrong = [row for row in wanted if row not in printed]
    print("\n".join(wrong + [f"{len(wanted)} rows, {len(wrong)} wrong"]))
    sys.exit(bool(wrong))
