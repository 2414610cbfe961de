"""Runs list_all.py, revoke_all.py, grant_all.py, store_usage.py and script_of_book.py over books and replies that are
made here: what they write, and each status but 0 with its line on standard error.

Run: python3 tools/all_files_cases.py [FOLDER]

FOLDER is where they are installed, as /usr/bin; without it those of this folder are run.
"""
import pathlib
import subprocess
import sys
import tempfile

TOOLS = pathlib.Path(__file__).resolve().parent
# The scripts by the names of their calls, and the commands that they are where they are installed.
SCRIPTS = {"list": "list_all", "revoke": "revoke_all", "grant": "grant_all", "usage": "store_usage", "script": "script_of_book"}
COMMANDS = {"list": "list-all", "revoke": "revoke-all", "grant": "grant-all", "usage": "usage", "script": "script-of-book"}
if len(sys.argv) > 1:
    CALLS = {name: [f"{sys.argv[1]}/overstore-{command}"] for name, command in COMMANDS.items()}
else:
    CALLS = {name: [sys.executable, TOOLS / f"{script}.py"] for name, script in SCRIPTS.items()}

HEADER = b"\x01OVERENC2" + bytes(1 + 4 + 32 + 32)
REPLIES = b"list plan alice,bob\nlist budget alice\nlist old -\nend epoch 6\n"


def record(kind, name, rest=b""):
    body = bytes([kind, len(name)]) + name + rest
    return b"\x01" + len(body).to_bytes(4, "big") + body


BOOK = (
    HEADER
    + b"".join(record(1, name) for name in (b"alice", b"bob", b"carol"))
    + b"".join(record(2, name, bytes(165) + b"\x05" + bytes([0, 0, 0, block])) for block, name in enumerate((b"plan", b"budget", b"old")))
    + b"\x01\0\0\0\x0e\x03" + bytes(12) + b"\x03"
    + b"\0"
)  # fmt: skip

# A store of the first format with a user and a file, which was carried over, and then got another file.
CARRIED_BOOK = (
    b"\x01OVERENC1" + HEADER[9:]
    + record(1, b"alice")
    + record(2, b"plan", bytes(69) + b"\x05" + bytes(4))
    + b"\x01\0\0\0\x01\x05"
    + record(2, b"budget", bytes(165) + b"\x05" + bytes([0, 0, 0, 1]))
    + b"\0"
)  # fmt: skip

# Of a store whose second file was removed, and whose first was removed and made once more.
REMOVED_BOOK = (
    BOOK[:-1]
    + b"\x01\0\0\0\x05\x06" + bytes([0, 0, 0, 1])
    + b"\x01\0\0\0\x05\x06" + bytes(4)
    + record(2, b"plan", bytes(165) + b"\x05" + bytes(4))
    + b"\0"
)  # fmt: skip

# Of a store whose first file was replaced twice, and whose second was removed between the two.
REPLACED_BOOK = (
    BOOK[:-1]
    + record(7, b"plan", bytes(37) + b"\x05" + bytes(4))
    + b"\x01\0\0\0\x05\x06" + bytes([0, 0, 0, 1])
    + record(7, b"plan", bytes(38))
    + b"\0"
)  # fmt: skip

USAGE = """mode full
updates 7 of 4294967295
users 3 of 1024
base sets 4 of 4096
surface sets 4 of 4096
file numbers 3 of 16384
files 3
bytes 15 of 67108864
store.book 676
"""

# The name and the words of a call, its input, whether store.book is in the folder, its status, what it puts, and
# a part of what it says.
CASES = [
    ("list", "", BOOK, False, 0, "list plan\nlist budget\nlist old\n", ""),
    ("list", "bob", BOOK, False, 0, "list plan\nlist budget\nlist old\n", ""),
    ("list", "", HEADER + b"\0", False, 0, "", ""),
    ("list", "alice", CARRIED_BOOK, False, 0, "list plan\nlist budget\n", ""),
    ("list", "", REMOVED_BOOK, False, 0, "list old\nlist plan\n", ""),
    ("list", "", REPLACED_BOOK, False, 0, "list old\nlist plan\n", ""),
    ("list", "", CARRIED_BOOK[:180], False, 1, "", "the record at byte 175 isn't whole"),
    ("list", "bobb", BOOK, False, 3, "", "bobb isn't enrolled in this store.book"),
    ("list", "", b"", False, 1, "", "its header isn't whole"),
    ("list", "", b"x" * 200, False, 1, "", "its header isn't whole"),
    ("list", "", BOOK[:130], False, 1, "", "the record at byte 112 isn't whole"),
    ("list", "a b", BOOK, False, 2, "", "usage: "),
    ("list", "Bob", BOOK, False, 2, "", "Bob is no name"),
    ("revoke", "bob", REPLIES, False, 0, "revoke bob plan\nlist plan\n", ""),
    ("revoke", "bob", REPLIES, True, 0, "revoke bob plan\nlist plan\n", ""),
    ("revoke", "alice", REPLIES, True, 0, "revoke alice plan\nlist plan\nrevoke alice budget\nlist budget\n", ""),
    ("revoke", "bobb", REPLIES, False, 4, "", "no list names bobb, if that is how the name is spelt"),
    ("revoke", "bobb", REPLIES, True, 3, "", "bobb isn't enrolled in store.book"),
    ("revoke", "carol", REPLIES, True, 4, "", "no list names carol\n"),
    ("revoke", "carol store.book", REPLIES, True, 4, "", "no list names carol\n"),
    ("revoke", "carol no.book", REPLIES, True, 1, "", "cannot read no.book"),
    ("revoke", "", REPLIES, True, 2, "", "usage: "),
    ("revoke", "bob store.book more", REPLIES, True, 2, "", "usage: "),
    ("revoke", "bob", b"list plan alice,bob\n", True, 1, "", "don't end in `end epoch`"),
    ("revoke", "bob", b"list plan bob\nrefused 3 NoFile\nend epoch 6\n", True, 1, "", "no list: refused 3 NoFile"),
    ("revoke", "bob", b"", True, 1, "", "don't end in `end epoch`"),
    ("grant", "bob", REPLIES, True, 0, "grant bob budget\nlist budget\ngrant bob old\nlist old\n", ""),
    ("grant", "dora", b"list old -\nend epoch 6\n", False, 0, "grant dora old\nlist old\n", ""),
    ("grant", "dora", b"list old -\nend epoch 6\n", True, 3, "", "dora isn't enrolled in store.book"),
    ("grant", "alice", b"list plan alice,bob\nend epoch 6\n", True, 4, "", "every list names alice"),
    ("grant", "", REPLIES, True, 2, "", "usage: "),
    ("usage", "", BOOK, False, 0, USAGE, ""),
    ("usage", "", BOOK + b"more", False, 0, USAGE, ""),
    ("usage", "", BOOK[:130], False, 1, "", "the record at byte 112 isn't whole"),
    ("usage", "", BOOK[:-1] + b"\x01\0\0\0\x05\x06\0\0\0\x09\0", False, 1, "", "update 8 can't follow on those before it"),
    ("usage", "", b"x" * 200, False, 1, "", "its header isn't whole"),
    ("usage", "full", BOOK, False, 2, "", "usage: "),
    ("script", "", b"", True, 2, "", "usage: "),
    ("script", "store.book store.book . last", b"", True, 2, "", "last is no epoch"),
    ("script", "no.hex store.book .", b"", True, 1, "", "cannot read no.hex"),
    ("script", "store.book store.book .", b"", True, 1, "", "store.book is no key file"),
    ("script", f"{TOOLS.parent}/examples/keys.hex store.book .", b"", True, 1, "", "isn't the key file of this store"),
    ("script", "store.book store.book nowhere", b"", True, 1, "", "nowhere is no folder"),
]


def run(name, words, given, has_book):
    with tempfile.TemporaryDirectory() as folder:
        if has_book:
            (pathlib.Path(folder) / "store.book").write_bytes(BOOK)
        done = subprocess.run([*CALLS[name], *words.split()], cwd=folder, input=given, capture_output=True)
        return done.returncode, done.stdout.decode(), done.stderr.decode()


for name, words, given, has_book, status, put, said in CASES:
    found = run(name, words, given, has_book)
    assert found[:2] == (status, put), (name, words, found)
    assert found[2].count("\n") == (status != 0) and said in found[2], (name, words, found)
for name in CALLS:
    status, put, said = run(name, "--help", b"", False)
    assert (status, said) == (0, "") and put.startswith("usage: "), (name, status, put, said)
print(f"{len(CASES)} calls, all as they should be")
