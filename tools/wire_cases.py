#!/usr/bin/env python3
"""Writes the frames by which ov_wire's readers are tested, as case files of `form_cases`.

One frame of each kind, each of which `form_cases` reads with each of its bytes changed. With `grammar` answers with each
field at its limits and past them, each of which is read as the answer to a request of each kind. The reader below, which
shares nothing with the crates, is one of the two that name the places of wrong bytes (tools/form_replies.py). Run it at
the top of the repository:

    python3 tools/wire_cases.py > crates/form_cases/data/frames.case
    python3 tools/wire_cases.py grammar > crates/form_cases/data/grammar.case
"""
import sys

GOOD = 65535
NAME_FIRST = b"abcdefghijklmnopqrstuvwxyz0123456789"
NAME = NAME_FIRST + b"._-"
USER, NODE, FILE, BYTES = 1023, 4095, 16383, 16777216
USERS, SET_BYTES = USER + 1, 128
ENROL, CREATE = (1, 7, 10, 11), (1, 2, 8, 9, 10, 11)
GRANT, REVOKE, REMOVE, READ = (2, 3, 5, 10, 11), (2, 3, 6, 10, 11), (3, 11), (2, 3, 4)
REPLACE = (3, 8, 9, 10, 11)


class Wrong(Exception):
    pass


class Text:
    def __init__(self, data):
        self.data, self.at = data, 0

    def take(self, count):
        if self.at + count > len(self.data):
            raise Wrong(len(self.data))
        self.at += count
        return self.data[self.at - count:self.at]

    def number(self, width, least=0, most=2 ** 32 - 1):
        at, n = self.at, int.from_bytes(self.take(width), "big")
        if not least <= n <= most:
            raise Wrong(at)
        return n

    def byte(self, allowed):
        at, n = self.at, self.take(1)[0]
        if n not in allowed:
            raise Wrong(at)
        return n

    def name(self):
        count = self.number(1, 1, 64)
        return bytes([self.byte(NAME_FIRST)] + [self.byte(NAME) for _ in range(count - 1)])

    def names(self, most):
        seen = []
        for _ in range(self.number(2, 0, most)):
            at = self.at
            name = self.name()
            if name in seen:
                raise Wrong(at)
            seen.append(name)

    def update(self):
        kind = self.byte((1, 2, 3, 4, 6, 7))
        if kind == 1:
            self.name()
        elif kind in (2, 7):
            self.name()
            self.take(SET_BYTES if kind == 2 else 0)
            self.take(32 * self.number(2, 0, USERS))
            self.take(32)
            self.take(self.number(4, 0, BYTES))
        elif kind == 6:
            self.take(4)
        else:
            self.take(8)
            if kind == 3 and self.byte((0, 1)):
                self.take(32)

    def chain(self, kinds):
        self.number(4, 0, NODE)
        count = self.number(2)
        for _ in range(count):
            self.byte(kinds if count == 1 else kinds[:1])
            self.number(4, 0, NODE)
            self.take(32)

    def entry(self, part):
        if part == 1:
            self.name(), self.number(4, 0, NODE), self.number(4, 0, NODE)
        elif part in (2, 3):
            self.take(SET_BYTES)
            for _ in range(self.number(2, 0, USERS)):
                self.number(4, 0, NODE), self.take(32)
        elif part == 4:
            self.number(4, 0, USER), self.number(4, 0, NODE), self.take(32)
        elif self.data[self.at:self.at + 1] == b"\0":
            self.take(1)
        else:
            self.name(), self.number(4, 0, NODE), self.number(4, 0, BYTES), self.number(4), self.take(32)
            if self.byte((0, 1)):
                self.number(4, 0, NODE)

    def end(self):
        if self.at < len(self.data):
            raise Wrong(self.at)


def read_request(text):
    kind = text.byte(range(1, 10))
    if kind == 2:
        verb = text.byte((1, 3, 4, 5, 6))
        text.name()
        if verb in (3, 4):
            text.name()
    elif kind == 3:
        text.name(), text.number(4, 0, BYTES), text.names(65535)
    elif kind == 4:
        text.number(4), text.update(), text.take(32)
    elif kind == 5:
        text.name(), text.name()
    elif kind == 6:
        text.take(12), text.number(4, 1, 65536)
    elif kind == 7:
        text.take(5)
    elif kind == 8:
        text.name()
    elif kind == 9:
        text.name(), text.number(4, 0, BYTES)
    text.end()


def number(data, at):
    return int.from_bytes(data[at:at + 4], "big")


def read_answer(request, text):
    kind = request[0]
    kinds = {1: (0x81,), 2: (0x82, 0x88), 3: (0x83, 0x88), 4: (0x84, 0x88, 0x89, 0x8a, 0x8d), 5: (0x85, 0x88),
             6: (0x86, 0x88, 0x8c, 0x8d), 7: (0x87,), 8: (0x8f, 0x88), 9: (0x83, 0x88)}[kind] + (0x8e,)
    answer = text.byte(kinds)
    if answer == 0x81:
        text.byte((0, 1)), text.take(36)
    elif answer == 0x82:
        verb = request[1]
        user, file, wants = verb != 6, verb in (3, 4, 6), verb == 3
        text.number(4), text.number(4, 0, USER if user else 0)
        text.number(4, 0, NODE if user else 0), text.number(4, 0, NODE if user else 0)
        text.number(4, 0, FILE if file else 0), text.number(4, 0, NODE if file else 0), text.byte((0, 1) if wants else (0,))
    elif answer == 0x83:
        text.number(4), text.number(4, 0, FILE), text.take(SET_BYTES), text.number(4, 0, NODE), text.byte((0, 1))
        for _ in range(text.number(2, 0, USERS)):
            text.number(4, 0, NODE)
    elif answer == 0x84:
        text.number(4, number(request, 1) + 1, number(request, 1) + 1)
    elif answer == 0x85:
        text.number(4), text.number(4, 0, FILE), text.number(4, 0, BYTES), text.number(4), text.take(32), text.chain(b"BA")
        if text.byte((0, 1)):
            text.chain(b"S")
    elif answer == 0x86:
        text.take(min(len(text.data) - 1, number(request, 13)))
    elif answer == 0x87:
        if text.byte((0, 1) if 1 <= request[1] <= 5 else (0,)):
            text.entry(request[1])
    elif answer == 0x88:
        of_ask = {1: ENROL, 3: GRANT, 4: REVOKE, 5: (2,), 6: REMOVE}
        of_update = {1: ENROL, 2: CREATE, 3: GRANT, 4: REVOKE, 6: REMOVE, 7: REPLACE}
        text.byte({2: lambda: of_ask[request[1]], 3: lambda: CREATE, 4: lambda: of_update[request[5]], 5: lambda: READ,
                   6: lambda: (3,), 8: lambda: (3,), 9: lambda: REPLACE}[kind]())
    elif answer == 0x89:
        text.number(4, number(request, 1) + 1)
    elif answer == 0x8c:
        text.number(4, number(request, 5) + 1)
    elif answer == 0x8f:
        text.names(USERS)
    text.end()


def place(read, data):
    try:
        read(Text(data))
        return GOOD
    except Wrong as wrong:
        return wrong.args[0]


def u16(n):
    return n.to_bytes(2, "big")


def u32(n):
    return n.to_bytes(4, "big")


def field(name):
    return bytes([len(name)]) + name


TOKEN, TAG, SET = bytes(range(32)), bytes(range(100, 132)), bytes([9]) + bytes(SET_BYTES - 1)
ALICE, BOB, F1 = field(b"alice"), field(b"b0-b"), field(b"f1")
ENROLMENT = b"\1" + ALICE
CREATION = b"\2" + F1 + SET + u16(1) + TOKEN + TAG + u32(5) + b"hello"
REPLACEMENT = b"\7" + F1 + u16(1) + TOKEN + TAG + u32(5) + b"hello"

REQUESTS = [
    b"\1", b"\2\1" + ALICE, b"\2\3" + ALICE + F1, b"\2\5" + BOB, b"\3" + F1 + u32(700) + u16(2) + ALICE + BOB,
    b"\4" + u32(7) + ENROLMENT + TAG, b"\4" + u32(7) + CREATION + TAG, b"\4" + u32(7) + b"\3" + u32(1) + u32(2) + b"\1" + TOKEN + TAG,
    b"\4" + u32(7) + b"\4" + u32(1) + u32(2) + TAG, b"\5" + ALICE + F1, b"\6" + u32(3) + u32(9) + u32(0) + u32(65536),
    b"\7\5" + u32(4), b"\x08" + F1, b"\2\6" + F1, b"\4" + u32(7) + b"\6" + u32(2) + TAG,
    b"\x09" + F1 + u32(700), b"\4" + u32(7) + REPLACEMENT + TAG,
]

HELLO, ASK, GRANTED, COVER = REQUESTS[0], REQUESTS[1], REQUESTS[2], REQUESTS[4]
UPDATE, CHAIN, CHUNK, LIST = REQUESTS[5], REQUESTS[9], b"\6" + u32(3) + u32(9) + u32(0) + u32(6), REQUESTS[12]
REMOVED, REMOVAL, REPLAN, REPLACED = REQUESTS[13:]
STEP = u32(6) + TOKEN

ANSWERS = [
    (HELLO, b"\x81\1" + u32(7) + TAG), (ASK, b"\x82" + u32(7) + u32(2) + u32(3) + u32(4) + u32(0) + u32(0) + b"\0"),
    (GRANTED, b"\x82" + u32(7) + u32(2) + u32(3) + u32(4) + u32(5) + u32(6) + b"\1"), (ASK, b"\x88\7"),
    (COVER, b"\x83" + u32(7) + u32(1) + SET + u32(4) + b"\1" + u16(2) + u32(0) + u32(3)), (UPDATE, b"\x84" + u32(8)),
    (UPDATE, b"\x89" + u32(300)), (UPDATE, b"\x8a"), (UPDATE, b"\x8d"), (UPDATE, b"\x88\x0b"),
    (CHAIN, b"\x85" + u32(7) + u32(1) + u32(5) + u32(6) + TAG + u32(2) + u16(1) + b"A" + STEP + b"\0"),
    (CHAIN, b"\x85" + u32(7) + u32(1) + u32(5) + u32(6) + TAG + u32(2) + u16(0) + b"\1" + u32(3) + u16(1) + b"S" + STEP),
    (CHUNK, b"\x86hello"), (CHUNK, b"\x8c" + u32(10)), (LIST, b"\x8f" + u16(2) + ALICE + BOB), (LIST, b"\x8e"),
    (b"\7\1" + u32(0), b"\x87\1" + ALICE + u32(1) + u32(2)), (b"\7\2" + u32(0), b"\x87\1" + SET + u16(1) + u32(4) + TOKEN),
    (b"\7\4" + u32(0), b"\x87\1" + u32(1) + u32(4) + TOKEN),
    (b"\7\5" + u32(0), b"\x87\1" + F1 + u32(1) + u32(5) + u32(6) + TAG + b"\1" + u32(2)), (b"\7\6" + u32(0), b"\x87\0"),
    (REMOVED, b"\x82" + u32(7) + u32(0) + u32(0) + u32(0) + u32(5) + u32(6) + b"\0"), (REMOVED, b"\x88\3"), (REMOVAL, b"\x88\x0b"),
    (b"\7\5" + u32(0), b"\x87\1\0"),
    (REPLAN, b"\x83" + u32(7) + u32(1) + SET + u32(4) + b"\1" + u16(2) + u32(0) + u32(3)), (REPLAN, b"\x88\3"), (REPLACED, b"\x88\x08"),
]


def changed(data, at, bit):
    return data[:at] + bytes([data[at] ^ bit]) + data[at + 1:]


def case(request, data):
    """Lines of a case file: the frame, and its changes."""
    read = read_request if request is None else lambda text: read_answer(request, text)
    assert place(read, data) == GOOD
    if request is not None:
        print("to " + request.hex())
    print("%s %s\nchanges" % ("request" if request is None else "answer", data.hex()))


# ---- the grammar of answers: a request of each kind, and answers at the limits of each field

ASKED = [
    HELLO, ASK, GRANTED, b"\2\4" + ALICE + F1, b"\2\5" + BOB, COVER, UPDATE, b"\4" + u32(7) + CREATION + TAG,
    REQUESTS[7], REQUESTS[8], CHAIN, CHUNK, b"\6" + u32(3) + u32(9) + u32(0) + u32(65536),
] + [b"\7" + bytes([part]) + u32(0) for part in range(7)] + [LIST, REMOVED, REMOVAL, REPLAN, REPLACED]


def known(user=0, base=0, surface=0, file=0, node=0, wants=0, epoch=7):
    return b"\x82" + u32(epoch) + u32(user) + u32(base) + u32(surface) + u32(file) + u32(node) + bytes([wants])


def planned(file=0, node=0, fresh=0, edges=u16(0), members=SET):
    return b"\x83" + u32(7) + u32(file) + members + u32(node) + bytes([fresh]) + edges


def one_chain(kinds, root=0, number=6):
    return u32(root) + u16(len(kinds)) + b"".join(bytes([kind]) + u32(number) + TOKEN for kind in kinds)


def chained(file=0, size=0, base=one_chain(b"A"), surface=b"\0"):
    return b"\x85" + u32(7) + u32(file) + u32(size) + u32(6) + TAG + base + surface


def page(entry):
    return b"\x87\1" + entry


def node_entry(edges):
    return page(SET + edges)


def file_entry(node=0, size=0, surface=b"\0"):
    return page(F1 + u32(node) + u32(size) + u32(6) + TAG + surface)


LAST = 2 ** 32 - 1
SAMPLES = [
    b"\x80", b"\x81\0" + u32(0) + TAG, b"\x81\1" + u32(LAST) + TAG, b"\x81\2" + u32(0) + TAG,
    known(), known(epoch=LAST), known(user=USER), known(user=USER + 1), known(base=NODE), known(base=NODE + 1),
    known(surface=NODE), known(surface=NODE + 1), known(file=1), known(file=FILE), known(file=FILE + 1), known(node=1),
    known(node=NODE), known(node=NODE + 1), known(wants=1), known(wants=2), known(file=1, node=1, wants=1),
    planned(), planned(file=FILE), planned(file=FILE + 1), planned(members=b"\xff" * SET_BYTES), planned(node=NODE),
    planned(node=NODE + 1), planned(fresh=1), planned(fresh=2), planned(edges=u16(USERS)),
    planned(edges=u16(USERS + 1)), planned(edges=u16(1) + u32(NODE)), planned(edges=u16(1) + u32(NODE + 1)),
    b"\x84" + u32(7), b"\x84" + u32(8), b"\x84" + u32(9),
    chained(), chained(file=FILE), chained(file=FILE + 1), chained(size=BYTES), chained(size=BYTES + 1),
    chained(base=one_chain(b"")), chained(base=one_chain(b"B")), chained(base=one_chain(b"BB")),
    chained(base=one_chain(b"BA")), chained(base=one_chain(b"AB")), chained(base=one_chain(b"S")),
    chained(base=one_chain(b"A", root=NODE)), chained(base=one_chain(b"A", root=NODE + 1)),
    chained(base=one_chain(b"A", number=NODE)), chained(base=one_chain(b"A", number=NODE + 1)),
    chained(surface=b"\1" + one_chain(b"")), chained(surface=b"\1" + one_chain(b"SS")),
    chained(surface=b"\1" + one_chain(b"A")), chained(surface=b"\1" + one_chain(b"B")),
    chained(surface=b"\1" + one_chain(b"S", root=NODE + 1)), chained(surface=b"\2"),
    b"\x86", b"\x86abcdef", b"\x86abcdefg", b"\x87\0", b"\x87\2", page(ALICE + u32(NODE) + u32(NODE)),
    page(ALICE + u32(NODE + 1) + u32(0)), page(ALICE + u32(0) + u32(NODE + 1)), node_entry(u16(0)),
    node_entry(u16(1) + u32(NODE) + TOKEN), node_entry(u16(1) + u32(NODE + 1) + TOKEN), node_entry(u16(USERS)),
    node_entry(u16(USERS + 1)), page(u32(USER) + u32(NODE) + TOKEN), page(u32(USER + 1) + u32(0) + TOKEN),
    page(u32(0) + u32(NODE + 1) + TOKEN), file_entry(), file_entry(node=NODE), file_entry(node=NODE + 1),
    file_entry(size=BYTES), file_entry(size=BYTES + 1), file_entry(surface=b"\1" + u32(NODE)),
    file_entry(surface=b"\1" + u32(NODE + 1)), file_entry(surface=b"\2"), page(b"\0"), page(b"\0\0"), page(b"\x41"),
    b"\x89" + u32(7), b"\x89" + u32(8), b"\x89" + u32(LAST), b"\x8a", b"\x8b" + u32(0), b"\x8c" + u32(9),
    b"\x8c" + u32(10), b"\x8c" + u32(LAST), b"\x8d", b"\x8e", b"\x8f" + u16(0), b"\x8f" + u16(1) + ALICE,
    b"\x8f" + u16(2) + ALICE + ALICE, b"\x8f" + u16(USERS), b"\x8f" + u16(USERS + 1), b"\x90",
]
SAMPLES += [bytes([0x88, number]) for number in range(13)]


def grammar():
    print("# Written by tools/wire_cases.py.\n\n== answers at the limits of their fields, to each request")
    for sample in SAMPLES:
        print("sample " + sample.hex())
    for request in ASKED:
        print("to %s\nsamples" % request.hex())


def main():
    if sys.argv[1:] == ["grammar"]:
        return grammar()
    print("# Written by tools/wire_cases.py.")
    for name, cases in (("requests", [(None, r) for r in REQUESTS]), ("answers", ANSWERS)):
        print("\n== %s of each kind, and each change of them" % name)
        for request, data in cases:
            case(request, data)


if __name__ == "__main__":
    main()
