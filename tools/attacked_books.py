"""The attacks of altered_answers.py on an owner who makes every update by a book and prints key lines from it. Where the
owner was asked to believe an answer nothing is left to change, so those attacks fail: nobody reads a file whose list
doesn't have them, no two files have one pad, and no store is spoiled. An `ok` that was made up is noticed at the next
command.

Run, after `rt run` has built the programs, at the top of the repository; it needs `openssl`:

    python3 tools/attacked_books.py crates/overstored/out/overstored crates/overctl/out/overctl \
        crates/overstore/out/overstore

For each attack it prints how it ended, and below that what the honest store says afterwards, as altered_answers.py does.
A read that gets nothing is told by its exit status.
"""
import subprocess

import altered_answers as attacks
from in_between import ACCEPTED, CLIENT, KNOWN, PLAN, REPORT, UPDATE, Between, Store, roots_of, tokens_of
from network_frames import u32

UPDATES = ("enrol", "create", "grant", "revoke", "remove", "replace")


class BookStore(Store):
    """An honest server, with an owner who has a book."""

    def book(self, *words):
        return ["keys.hex", "team", "full", *words]

    def owner(self, command, *words, over=None):
        if command == "key":
            return self.client("book", *self.book(command, *words))
        if command in UPDATES:
            return self.client("own", (over or self).address, *self.book(command, *words))
        return super().owner(command, *words, over=over)

    def status(self, *words):
        """How a command of the owner's ends: its status and its line."""
        done = subprocess.run([CLIENT, "own", self.address, *self.book(*words)], cwd=self.folder, capture_output=True)
        return b"%d %b" % (done.returncode, done.stdout.strip())

    def reader(self, line, file, over=None):
        (self.folder / "line").write_bytes(line)
        words = [CLIENT, "read", (over or self).address, "line", file]
        done = subprocess.run(words, cwd=self.folder, capture_output=True)
        return done.stdout if done.returncode == 0 else b"status %d" % done.returncode


# ---- attacks that are told by something else than a read


def line_from_a_false_copy(store):
    """The copy isn't asked: the line has the user's own roots."""
    store.create("old", "bob,eve", attacks.NOTES)
    store.owner("remove", "old")
    store.owner("enrol", "dan")
    line = store.owner("key", "dan").split()
    assert roots_of(store, 3) == (int(line[1]), int(line[3]))
    return b"dan has dan's roots"


def token_of_a_creation(store):
    """No plan is asked for: alice's own node is there, so nothing is sealed to it."""
    (alice, _), (eve, _) = roots_of(store, 0), roots_of(store, 2)
    return b"%d tokens" % len(tokens_of(attacks.create_notes(store, None, u32(alice) + b"\1\0\1" + u32(eve))))


def one_pad(store):
    """No number is asked for: the file has the next one, and a pad of its own."""
    return b"one pad" if attacks.one_pad(store) == REPORT else b"two pads"


def told_another_epoch(store):
    """An update isn't passed on, and its answer tells an epoch that it couldn't make. It is no answer to the update,
    which stays pending, and is sent again."""
    drop = lambda frame: b"\1" if frame[0] == UPDATE else frame
    accept = lambda frame, answer: bytes([ACCEPTED]) + u32(9) if frame[0] == UPDATE else answer
    between = Between(store.port, drop, accept)
    words = [CLIENT, "own", between.address, *store.book("grant", "bob", "plan")]
    done = subprocess.run(words, cwd=store.folder, capture_output=True)
    return b"%d; then %b; then %b" % (done.returncode, store.status("enrol", "dan"), store.status("resume"))


def revocation_that_isnt_made(store):
    """It prints `ok 6`, since that was answered. The next command notices that the server is behind."""
    drop = lambda frame: b"\1" if frame[0] == UPDATE else frame
    accept = lambda frame, answer: bytes([ACCEPTED]) + u32(6) if frame[0] == UPDATE else answer
    assert store.owner("revoke", "bob", "report", over=Between(store.port, drop, accept)) == b"ok 6\n"
    return store.status("enrol", "dan")


def grant_for_later(store):
    """A grant was sent, and kept on the way; it is of one epoch alone, which is over once it or another update is made."""
    between = Between(store.port)
    store.owner("grant", "bob", "plan", over=between)
    store.owner("revoke", "bob", "plan")
    kept = store.asked(between.update())
    assert kept[0] not in (ACCEPTED, KNOWN, PLAN), kept
    return store.reader(store.owner("key", "bob"), "plan")


BOTH = "alice,bob"
# Each attack, how it ends, and afterwards the list of report, how a run over a copy ends and what an audit says.
ATTACKS = {
    attacks.key_line_of_alice: (b"status 11", BOTH, "end epoch 5", []),
    attacks.key_line_of_a_list: (b"status 11", BOTH, "end epoch 5", []),
    line_from_a_false_copy: (b"dan has dan's roots", BOTH, "end epoch 8", ["exposed 2 old listed 6"]),
    attacks.token_of_a_grant: (b"status 12", BOTH, "end epoch 6", []),
    attacks.token_at_a_server: (b"status 12", BOTH, "end epoch 6", []),
    token_of_a_creation: (b"0 tokens", BOTH, "end epoch 6", []),
    attacks.file_for_eve: (b"status 12", BOTH, "end epoch 6", []),
    one_pad: (b"two pads", BOTH, "end epoch 6", []),
    attacks.another_grant: (b"status 3", BOTH, "end epoch 6", []),
    attacks.another_list: (b"status 3", BOTH, "end epoch 6", []),
    told_another_epoch: (b"11; then 15 pending 5; then 0 ok 6", BOTH, "end epoch 6", []),
    revocation_that_isnt_made: (b"16 differs 5 6", BOTH, "end epoch 5", []),
    grant_for_later: (b"status 3", BOTH, "end epoch 7", []),
    attacks.false_token: (b"", BOTH, "end epoch 6", []),
    attacks.another_node: (b"", BOTH, "end epoch 6", []),
}


def main():
    for attack, expected in ATTACKS.items():
        store = BookStore()
        try:
            ended = attack(store)
            listed, run, audit = store.end()
        finally:
            store.stop()
        print("%s: %s" % (attack.__name__, ended.decode()))
        print("    list: %s; run: %s; audit: %s" % (listed, run, ", ".join(audit) or "nothing"), flush=True)
        assert (ended, listed, run, audit) == expected, expected
    print("%d attacks on books, each of which fails or is noticed" % len(ATTACKS))


if __name__ == "__main__":
    main()
