"""What the scripts that read a store.book or the replies to `list` lines have in common: the records and the names
in a book, those replies, and how the scripts end.
"""
import pathlib
import re
import sys

# How they end where they write no script.
BAD_INPUT, BAD_WORDS, NOT_ENROLLED, NOTHING_TO_DO = 1, 2, 3, 4

NAME = re.compile(r"[a-z0-9][a-z0-9._-]{0,63}")
# How many bytes a set of users has in the records of each format, by the open gate and the magic.
SET_BYTES, FIRST_RECORD = {b"\x01OVERENC1": 32, b"\x01OVERENC2": 128}, 78
ENROLMENT, CREATION, REMOVAL, REPLACEMENT = 1, 2, 6, 7
# The body of the record that stands between the updates of the first format and those of the second.
STEP = b"\x05"
# The first byte of an intent's body in an owner's book, whose update is behind it, and the body that settles it.
INTENT, SETTLING = 8, b"\x09"


def end(status, line):
    """Says on standard error why there is no script."""
    sys.stderr.write(f"{pathlib.Path(sys.argv[0]).name}: {line}\n")
    sys.exit(status)


def words(least, most, form):
    """The words of the call, so many at least and at most. `form` is how they have to be."""
    given = sys.argv[1:]
    usage = f"usage: {pathlib.Path(sys.argv[0]).name} {form}"
    if given == ["--help"]:
        print(usage)
        sys.exit(0)
    if not least <= len(given) <= most:
        sys.stderr.write(usage + "\n")
        sys.exit(BAD_WORDS)
    return given


def user_words(least, most, form):
    """The words of a call of which the first names a user."""
    given = words(least, most, form)
    if given and not NAME.fullmatch(given[0]):
        end(BAD_WORDS, f"{given[0]} is no name: 1 to 64 of a-z, 0-9, `.`, `_` and `-`, a letter or a digit first")
    return given


def bodies(book, origin):
    """The bodies of all records of a store.book or an owner's book, whatever they say."""
    if book[:9] not in SET_BYTES or len(book) <= FIRST_RECORD:
        end(BAD_INPUT, f"{origin} is no store.book: its header isn't whole")
    at = FIRST_RECORD
    while book[at : at + 1] == b"\x01":
        length = int.from_bytes(book[at + 1 : at + 5], "big")
        body = book[at + 5 : at + 5 + length]
        if len(body) < max(length, 1) or length == 1 and body not in (STEP, SETTLING):
            end(BAD_INPUT, f"{origin}: the record at byte {at} isn't whole")
        yield body
        at += 5 + length


def records(book, origin):
    """The updates of a store.book, as docs/FORMATS.md has them, and with each how many bytes a set has in it; of an
    owner's book those of its settled intents. `overstore run` and `overctl book` say more of a bad one."""
    set_bytes, intent = SET_BYTES.get(book[:9]), None
    for body in bodies(book, origin):
        if body == STEP:
            set_bytes = SET_BYTES[b"\x01OVERENC2"]
        elif body[0] == INTENT:
            intent = body[1:]
        elif body != SETTLING:
            yield body, set_bytes
        elif intent is None:
            end(BAD_INPUT, f"{origin} settles what it doesn't intend")
        else:
            yield intent, set_bytes
            intent = None


def has_pending(book, origin):
    """Whether it is an owner's book whose last intent isn't settled."""
    last = b"\0"
    for last in bodies(book, origin):
        pass
    return last[0] == INTENT


def names(book, origin):
    """The users of a store.book and the files that are there, in the order of their numbers."""
    users, files = [], []
    for body, _ in records(book, origin):
        name = body[2 : 2 + body[1]].decode(errors="replace")
        if body[0] == ENROLMENT:
            users.append(name)
        elif body[0] == CREATION:
            files.append(name)
        elif body[0] == REMOVAL:
            files[int.from_bytes(body[1:5], "big")] = None
        elif body[0] == REPLACEMENT:
            files = [None if file == name else file for file in files] + [name]
    return users, [file for file in files if file is not None]


def expect_enrolled(user, users, origin):
    if user not in users:
        end(NOT_ENROLLED, f"{user} isn't enrolled in {origin}")


def expect_enrolled_at_hand(user, given):
    """The user is enrolled in the store.book of this path, or else in that of this folder. Whether there was
    one is the result."""
    path = pathlib.Path(given[0] if given else "store.book")
    if not given and not path.exists():
        return False
    try:
        book = path.read_bytes()
    except OSError as fault:
        end(BAD_INPUT, f"cannot read {path}: {fault.strerror}")
    expect_enrolled(user, names(book, path)[0], path)
    return True


def lists():
    """Each file of the replies on standard input with the names on its list."""
    lines = sys.stdin.buffer.read().decode(errors="replace").splitlines()
    if not lines or not lines[-1].startswith("end epoch "):
        end(BAD_INPUT, "the replies don't end in `end epoch`: was the script answered to its end?")
    for line in lines[:-1]:
        parts = line.split()
        if len(parts) != 3 or parts[0] != "list":
            end(BAD_INPUT, f"no list: {line}")
        yield parts[1], parts[2].split(",")


def put(command, user, files):
    """The script of a command for each file and, behind it, a `list` that shows it done."""
    sys.stdout.write("".join(f"{command} {user} {file}\nlist {file}\n" for file in files))
