"""Attacks over a network: by somebody without a key who changes frames on the way to an honest server, and works with
a reader; and by a server that lies. Each runs against the real programs. docs/THREATS.md says of each attacker what
they can do. In the first ten attacks somebody reads, or could read, a file whose list doesn't have them; then alice gets
another file than she asked for, a revocation isn't made whose `ok` was printed, a grant is made after its revocation,
two stores are spoiled, and in the last four alice gets bytes that the owner never stored.

Run, after `rt run` has built the programs, at the top of the repository; it needs `openssl`:

    python3 tools/altered_answers.py crates/overstored/out/overstored crates/overctl/out/overctl \\
        crates/overstore/out/overstore

For each attack it prints what was read, and below that what the honest store says afterwards: the list of `report`, how
`overstore run full` over a copy ends, and what `overstore audit eve server` prints. Eve reads by `overctl read`, over
answers that are made up for her.
"""
from common import keyed
from in_between import (
    ACCEPTED,
    ASK,
    BYTES,
    CHAIN,
    CHAINED,
    COVER,
    KNOWN,
    PLAN,
    REPORT,
    UPDATE,
    Between,
    File,
    Server,
    Store,
    access_by,
    chain,
    edge_of,
    first_of,
    over,
    padded,
    past,
    roots_of,
    sealed_by,
    stored_bytes,
    tag_by,
    told,
    tokens_of,
    xored,
)
from network_cases import SURFACE, UPDATE_KEY
from network_frames import name, u32

NOTES, FORGED = b"Nobody knows of this yet.\n", b"Sales rose by a half!!\n"


# ---- key lines


def line_for_eve(store, base, surface):
    """The line that `overctl key .. eve` prints where the two roots in the answer are these."""
    change = first_of(KNOWN, lambda answer: answer[:9] + u32(base, surface) + answer[17:])
    return store.owner("key", "eve", over=Between(store.port, change_answer=change))


def key_line_of_alice(store):
    """It has alice's keys: eve writes alice's name into it, and is alice."""
    return store.reader(line_for_eve(store, *roots_of(store, 0)).replace(b"eve", b"alice"), "report")


def key_line_of_a_list(store):
    """It has the keys of report's list."""
    file = File(store, "report", 0)
    line = line_for_eve(store, file.node, file.surface)
    change = told(file, chain(file.node), chain(file.surface))
    return store.reader(line, "report", Between(store.port, change_answer=change))


def line_from_a_false_copy(store):
    """A server that lies gives the owner a copy in which a file that is gone was made for another list, so that the next
    user gets the number of its node. `overstore` finds nothing wrong with that, and the line has that list's keys."""
    store.create("old", "bob,eve", NOTES)
    store.owner("remove", "old")
    store.owner("enrol", "dan")
    copy, true = store.copied(), b"\2" + name("old") + b"\6" + bytes(127) + b"\0\2"
    book = (copy / "store.book").read_bytes()
    at = book.index(true)
    body = b"\2" + name("old") + b"\2" + bytes(127 + 2) + book[at + len(true) + 64 :][:40]
    behind = book[at + len(true) + 64 + 40 :]
    (copy / "store.book").write_bytes(book[: at - 4] + u32(len(body)) + body + behind)
    assert over(copy, "run", "full") == b"end epoch 8\n"
    home = Server(copy)
    line = home.owner("key", "dan").split()
    home.stop()
    assert roots_of(store, 3) == (5, 5)
    return b"%b has the roots %b and %b" % (line[0], line[1], line[3])


# ---- tokens and files that are sealed for eve


def read_by_grant(store, text):
    """`overctl grant .. bob plan`, with eve's root and report's node in the first answer, for a past epoch: the update
    has a token from eve's key to report's, and is refused as stale. It is enough to read the text."""
    line, file, (root, _) = store.owner("key", "eve"), File(store, "report", 0), roots_of(store, 2)

    def change(answer):
        return answer[:1] + past(answer) + answer[5:9] + u32(root) + answer[13:21] + u32(file.node) + b"\1"

    between = Between(store.port, change_answer=first_of(KNOWN, change))
    store.owner("grant", "bob", "plan", over=between)
    way = chain(root, (b"A", file.node, between.update()[15:47]))
    return store.reader(line, "report", Between(store.port, change_answer=told(file, way, text=text)))


def token_of_a_grant(store):
    """The frame of report's creation was recorded."""
    return read_by_grant(store, sealed_by(store.recorded)[1])


def token_at_a_server(store):
    """The server kept no frame, and takes the surface off what it stores."""
    file = File(store, "report", 0)
    key = keyed(SURFACE, b"S" + u32(file.surface))
    return read_by_grant(store, padded(key, b"S", file.number, stored_bytes(store, file)))


def create_notes(store, number, rest):
    """The update of `overctl create .. notes alice`, where the first answer has this file number, if one is given, and
    another plan, for an epoch that is past."""

    def change(answer):
        return answer[:1] + past(answer) + (number or answer[5:9]) + answer[9:137] + rest

    between = Between(store.port, change_answer=first_of(PLAN, change))
    store.create("notes", "alice", NOTES, between)
    return between.update()


def token_of_a_creation(store):
    """A plan by which alice's own node is a new one with an edge from eve's: a token from eve's key to alice's, from
    which the published tokens lead on to all files that were made for lists with alice."""
    line, file = store.owner("key", "eve"), File(store, "report", 0)
    (alice, _), (eve, _) = roots_of(store, 0), roots_of(store, 2)
    (token,) = tokens_of(create_notes(store, None, u32(alice) + b"\1\0\1" + u32(eve)))
    way = chain(eve, (b"B", alice, token), (b"B", file.node, edge_of(store, alice, file.node)))
    change = told(file, way, text=sealed_by(store.recorded)[1])
    return store.reader(line, "report", Between(store.port, change_answer=change))


def file_for_eve(store):
    """A plan with eve's own node: the new bytes are sealed for eve."""
    line, (eve, _) = store.owner("key", "eve"), roots_of(store, 2)
    sent = create_notes(store, None, u32(eve) + b"\0\0\0")
    file = File(store, "notes", 2)
    file.tag, text = sealed_by(sent)
    return store.reader(line, "notes", Between(store.port, change_answer=told(file, chain(eve), text=text)))


def one_pad(store):
    """A plan with report's number and node: two files under one pad. Nobody's key is needed to read the one by the
    other, whose bytes are known, where the frame in which the one was created was recorded."""
    file = File(store, "report", 0)
    sent = create_notes(store, u32(file.number), u32(file.node) + b"\0\0\0")
    return xored(sealed_by(sent)[1], sealed_by(store.recorded)[1], NOTES)


# ---- requests that are changed


def another_grant(store):
    """`overctl grant .. bob plan`, with eve and report in the request: the owner grants eve report."""
    line = store.owner("key", "eve")
    change = lambda frame: b"\2\3" + name("eve") + name("report") if frame[0] == ASK else frame
    store.owner("grant", "bob", "plan", over=Between(store.port, change))
    return store.reader(line, "report")


def another_list(store):
    """`overctl create .. notes alice`, with eve in the request: the owner creates it for eve too."""
    line = store.owner("key", "eve")
    change = lambda frame: frame[:-8] + b"\0\2" + name("alice") + name("eve") if frame[0] == COVER else frame
    store.create("notes", "alice", NOTES, Between(store.port, change))
    return store.reader(line, "notes")


def another_file(store):
    """`overctl read` of report, with another file of the reader's in the request."""
    change = lambda frame: frame.replace(name("report"), name("plan")) if frame[0] == CHAIN else frame
    return store.reader(store.owner("key", "alice"), "report", Between(store.port, change))


def revocation_that_isnt_made(store):
    """`overctl revoke .. bob report` is answered, and not passed on: it prints `ok 6`, and bob reads on."""
    line = store.owner("key", "bob")
    drop = lambda frame: b"\1" if frame[0] == UPDATE else frame
    accept = lambda frame, answer: bytes([ACCEPTED]) + u32(6) if frame[0] == UPDATE else answer
    assert store.owner("revoke", "bob", "report", over=Between(store.port, drop, accept)) == b"ok 6\n"
    return store.reader(line, "report")


def grant_for_later(store):
    """`overctl grant .. bob plan` is sealed for epoch 8, without a token, as the answer says, and kept. The owner grants
    again, revokes and enrols. At 8 bob holds the base key, and the kept one is made."""
    line = store.owner("key", "bob")
    later = first_of(KNOWN, lambda answer: answer[:1] + u32(8) + answer[5:25] + b"\0")
    drop = lambda frame: b"\1" if frame[0] == UPDATE else frame
    accept = lambda frame, answer: bytes([ACCEPTED]) + u32(9) if frame[0] == UPDATE else later(frame, answer)
    between = Between(store.port, drop, accept)
    store.owner("grant", "bob", "plan", over=between)
    for command in (["grant", "bob", "plan"], ["revoke", "bob", "plan"], ["enrol", "dan"]):
        store.owner(*command)
    assert store.asked(between.update()) == bytes([ACCEPTED]) + u32(9)
    return store.reader(line, "plan")


# ---- a store that its owner's own program refuses


def false_token(store):
    """`overctl grant .. bob plan`, with eve's root in the answer: the server stores a token that leads bob nowhere."""
    root, _ = roots_of(store, 2)
    change = first_of(KNOWN, lambda answer: answer[:9] + u32(root) + answer[13:])
    store.owner("grant", "bob", "plan", over=Between(store.port, change_answer=change))
    return b""


def another_node(store):
    """`overctl create .. notes alice`, with eve's node in the answer: the server files it under alice's."""
    (eve, _) = roots_of(store, 2)
    change = first_of(PLAN, lambda answer: answer[:137] + u32(eve) + b"\0\0\0")
    store.create("notes", "alice", NOTES, Between(store.port, change_answer=change))
    return b""


# ---- readers who forge


def bob_is_revoked(store):
    """The file, and the tag that bob makes of other bytes by the base key that he keeps."""
    line, file = store.owner("key", "bob"), File(store, "report", 0)
    access = access_by(store, line, file.node)
    store.owner("revoke", "bob", "report")
    return File(store, "report", 0), tag_by(access, file.number, FORGED)


def forged_on_the_way(store):
    """Under whatever pads, the bytes that alice asks for are turned into bob's, with his tag."""
    _, tag = bob_is_revoked(store)

    def change(frame, answer):
        if answer[0] == CHAINED:
            return answer[:17] + tag + answer[49:]
        return answer[:1] + xored(answer[1:], REPORT, FORGED) if answer[0] == BYTES else answer

    return store.reader(store.owner("key", "alice"), "report", Between(store.port, change_answer=change))


def forged_by_another_key(store):
    """Alice reads plan, whose key bob never held. The answer names the node of report's list, which both hold."""
    line, file = store.owner("key", "bob"), File(store, "report", 0)
    access = access_by(store, line, file.node)
    file.tag, file.length = tag_by(access, file.number, FORGED), len(FORGED)
    (alice, _) = roots_of(store, 0)
    way = chain(alice, (b"B", file.node, edge_of(store, alice, file.node)))
    change = told(file, way, text=padded(access, b"B", file.number, FORGED))
    return store.reader(store.owner("key", "alice"), "plan", Between(store.port, change_answer=change))


def forged_in_the_files(store):
    """So they are in the store's files. Alice's read is one of `overstore run`, over a copy."""
    file, tag = bob_is_revoked(store)
    stored = stored_bytes(store, file)
    changes = {"store.book": (file.tag, tag), "store.blobs": (stored, xored(stored, REPORT, FORGED))}
    for place, (old, new) in changes.items():
        held = (store.folder / place).read_bytes()
        assert held.count(old) == 1, place
        (store.folder / place).write_bytes(held.replace(old, new))
    read = over(store.copied(), "run", "full", script=b"read alice report\n")
    return read.removeprefix(b"data alice report %d\n" % len(FORGED)).removesuffix(b"\nend epoch 6\n")


def forged_at_a_server(store):
    """Bob and somebody with the server's settings create a file for the list of report, sealed as the owner would."""
    line, file = store.owner("key", "bob"), File(store, "report", 0)
    access = access_by(store, line, file.node)
    tag, text = tag_by(access, 2, FORGED), padded(access, b"B", 2, FORGED)
    update = u32(5) + b"\2" + name("notes") + b"\3" + bytes(127) + bytes(2) + tag + u32(len(text)) + text
    assert store.asked(bytes([UPDATE]) + update + keyed(UPDATE_KEY, update)) == bytes([ACCEPTED]) + u32(6)
    return store.reader(store.owner("key", "alice"), "notes")


BOTH = "alice,bob"
# Each attack, what is read by it, and afterwards the list of report, how a run over a copy ends and what an audit says.
ATTACKS = {
    key_line_of_alice: (REPORT, BOTH, "end epoch 5", []),
    key_line_of_a_list: (REPORT, BOTH, "end epoch 5", []),
    line_from_a_false_copy: (b"dan has the roots 4 and 4", BOTH, "end epoch 8", ["exposed 2 old listed 6"]),
    token_of_a_grant: (REPORT, BOTH, "end epoch 6", []),
    token_at_a_server: (REPORT, BOTH, "end epoch 6", []),
    token_of_a_creation: (REPORT, BOTH, "end epoch 6", []),
    file_for_eve: (NOTES, BOTH, "end epoch 6", []),
    one_pad: (REPORT, BOTH, "end epoch 6", []),
    another_grant: (REPORT, "alice,bob,eve", "end epoch 6", ["exposed 0 report listed 6"]),
    another_list: (NOTES, BOTH, "end epoch 6", ["exposed 2 notes listed 6"]),
    another_file: (b"Build it.\n", BOTH, "end epoch 5", []),
    revocation_that_isnt_made: (REPORT, BOTH, "end epoch 5", []),
    grant_for_later: (b"Build it.\n", BOTH, "end epoch 9", []),
    false_token: (b"", BOTH, "error damaged book 538", []),
    another_node: (b"", BOTH, "error damaged book 538", []),
    forged_on_the_way: (FORGED, "alice", "end epoch 6", []),
    forged_by_another_key: (FORGED, BOTH, "end epoch 5", []),
    forged_in_the_files: (FORGED, "alice", "end epoch 6", []),
    forged_at_a_server: (FORGED, BOTH, "end epoch 6", []),
}


def main():
    for attack, expected in ATTACKS.items():
        store = Store()
        try:
            read = attack(store)
            listed, run, audit = store.end()
        finally:
            store.stop()
        print("%s: %r is read" % (attack.__name__, read.decode()))
        print("    list: %s; run: %s; audit: %s" % (listed, run, ", ".join(audit) or "nothing"), flush=True)
        assert (read, listed, run, audit) == expected, expected
    print("%d attacks, each as THREATS says" % len(ATTACKS))


if __name__ == "__main__":
    main()
