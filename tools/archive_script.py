"""Makes the scripts of an archive with a thousand files.

    python3 tools/archive_script.py          # users and files; one reader leaves, and another comes
    python3 tools/archive_script.py files    # users and files alone
    python3 tools/archive_script.py lists    # a `list` for each file

Every file has alice on its list, every second one bob, every third carol, every fifth dora, who leaves
all of them, and none erin, who is then granted every tenth.
"""
import sys

FILES = 1000
READERS = {"bob": 2, "carol": 3, "dora": 5}


def name(number):
    return f"letter-{number:03}"


def files():
    for user in ("alice", *READERS):
        yield f"enrol {user}\n"
    for number in range(FILES):
        users = ["alice", *(user for user, step in READERS.items() if number % step == 0)]
        text = f"Letter {number}\nThe garden is well.\n"
        yield f"create {name(number)} {','.join(users)} {len(text)}\n{text}\n"


def leaving():
    for number in range(0, FILES, READERS["dora"]):
        yield f"revoke dora {name(number)}\n"
    yield "enrol erin\n"
    for number in range(0, FILES, 10):
        yield f"grant erin {name(number)}\n"
    for number in (0, 5, 7, 990):
        yield f"list {name(number)}\nread dora {name(number)}\nread erin {name(number)}\n"


def lists():
    for number in range(FILES):
        yield f"list {name(number)}\n"


parts = {"": [files, leaving], "files": [files], "lists": [lists]}["".join(sys.argv[1:])]
for part in parts:
    sys.stdout.writelines(part())
