"""Opens stores that were changed, and compares each answer of the program with the independent reference's.

Run, after `rt run` has built the program:

    python3 tools/mutated_stores.py crates/overstore/out/overstore --oracle FOLDER [--count N] [--seed S] [--jobs J]

Each hundred cases begin with a store of its own, in one mode or the other, under the example keys: the program
and the reference run one small script, and every file that they leave is the same. The store is then changed in
one to three places, and opened. Of three stores the second is one of the first format, which the reference makes as
an older program did, and the third is such a one that was carried over.

| what is changed | how |
|---|---|
| any byte of either file | a bit flipped, or another byte put |
| the length of either file | cut at any byte, at a record or at a block; bytes put behind |
| blocks of 4,096 bytes | two of `store.blobs` swapped, or one put in another's place |
| a record | its gate, its length field, its kind, a length or a count within it, its first blocks |
| a step record | one put before a record or at the end, or a byte put behind its body |
| the order of records | one doubled, left out, or swapped with another |
| the header | any byte; the mode; the first epoch, up to the last one |
| the files together | `store.blobs` or the last records of another store of the same keys |

| what a case compares | when |
|---|---|
| the status and the lines | always |
| `store.book` and `store.blobs` behind the run | always: a store that is refused is left as it was |
| the frames in `trace.bin` | always |

The script of a case is empty, or reads and lists every file, or does so and makes two more updates.
"""
import os
import subprocess

import trials
from common import KEYS

PER_STORE = 100
MODES = ("full", "delta")
FILES = ("store.book", "store.blobs", "trace.bin")
SECONDS = 120
HEADER = 78
STEP = b"\1\0\0\0\1\5"
# From this stage of the reference on stores are of the second format.
SECOND_FORMAT = 16


def parsed():
    parser = trials.options(__doc__, "program")
    trials.with_reference(parser, required=True)
    trials.with_jobs(parser)
    parser.add_argument("--count", type=trials.whole, default=2000, metavar="N", help="how many cases (2000)")
    parser.add_argument("--only", type=int, metavar="CASE", help="tries the case of this number alone")
    return parser.parse_args()


# ---- changes: each takes the choices, both files and those of another store, and changes the files in place


def a_bit(chance, book, blobs, other):
    area = book if chance.random() < 0.7 or not blobs else blobs
    if area:
        area[chance.randrange(len(area))] ^= 1 << chance.randrange(8)


def a_byte(chance, book, blobs, other):
    if book:
        book[chance.randrange(len(book))] = chance.choice([0, 1, 2, 3, 4, 5, 64, 65, 97, 127, 128, 255])


def a_cut(chance, book, blobs, other):
    if chance.random() < 0.5:
        places = gates(book)
        at = chance.choice(places) + chance.randrange(-2, 8) if places and chance.random() < 0.5 else None
        del book[chance.randrange(len(book) + 1) if at is None else max(0, at) :]
    elif blobs:
        whole = chance.randrange(len(blobs) // 4096 + 1) * 4096
        del blobs[chance.choice([whole, max(0, whole - 1), whole + 1, chance.randrange(len(blobs) + 1)]) :]


def growth(chance, book, blobs, other):
    area = chance.choice([book, blobs])
    area += chance.choice([b"\0", b"\1", b"\0" * 4096, chance.randbytes(chance.choice([1, 5, 300, 5000]))])


def blocks(chance, book, blobs, other):
    count = len(blobs) // 4096
    if count < 2:
        return a_bit(chance, book, blobs, other)
    one, two = (slice(4096 * n, 4096 * n + 4096) for n in chance.sample(range(count), 2))
    kept = bytes(blobs[one])
    blobs[one] = blobs[two]
    if chance.random() < 0.7:
        blobs[two] = kept


def gates(book):
    """The places of the gates of records, as far as the length fields lead, and of the one behind them."""
    places, at = [], HEADER
    while at < len(book):
        places.append(at)
        if book[at] != 1 or at + 5 > len(book):
            break
        at += 5 + int.from_bytes(book[at + 1 : at + 5], "big")
    return places


def a_record(chance, book):
    """The places of the gates of a record and of the next, or None."""
    places = gates(book)
    if len(places) < 2:
        return None
    number = chance.randrange(len(places) - 1)
    return places[number], places[number + 1]


def near(chance, value, most):
    """Another number in its place: near it, or at an end of what there is."""
    others = [value + 1, value - 1, value ^ 1, value + 32, 0, 1, most, chance.randrange(most + 1)]
    return chance.choice(others) % (most + 1)


def a_field(chance, book, blobs, other):
    """A number of one, two or four bytes in a record: its gate, length or kind, or one at any place in its body."""
    found = a_record(chance, book)
    if found is None:
        return a_bit(chance, book, blobs, other)
    gate, after = found
    name = book[gate + 6] if gate + 6 < after else 0
    places = [(gate, 1), (gate + 1, 4), (gate + 5, 1), (gate + 6, 1), (after - 4, 4), (after - 8, 4)]
    # In a creation of either format: the last byte of its set, how many tokens it has, and what may be its length.
    for width in (32, 128):
        places += [(gate + 7 + name + width - 1, 1), (gate + 7 + name + width, 2)]
    places += [(after - 8, 4)]
    # In a grant or a revocation: user, file, and whether a token follows.
    places += [(gate + 6, 4), (gate + 10, 4), (gate + 14, 1)]
    at, width = chance.choice(places + [(chance.randrange(gate, after), chance.choice([1, 2, 4]))])
    if HEADER <= at and at + width <= len(book):
        value = near(chance, int.from_bytes(book[at : at + width], "big"), (1 << 8 * width) - 1)
        book[at : at + width] = value.to_bytes(width, "big")


def whole_records(chance, book, blobs, other):
    one, two = a_record(chance, book), a_record(chance, book)
    if one is None:
        return a_bit(chance, book, blobs, other)
    taken = bytes(book[slice(*one)])
    how = chance.randrange(4)
    if how == 0:
        del book[slice(*one)]
    elif how == 1:
        book[two[0] : two[0]] = taken
    elif how == 2:
        book[slice(*two)] = taken
    elif one[1] <= two[0]:
        book[one[0] : two[1]] = bytes(book[slice(*two)]) + bytes(book[one[1] : two[0]]) + taken


def a_length_that_fits(chance, book, blobs, other):
    """Bytes are put in a record or taken out of it, and its length says so."""
    found = a_record(chance, book)
    if found is None:
        return a_bit(chance, book, blobs, other)
    gate, after = found
    body = book[gate + 5 : after]
    at, count = chance.randrange(len(body) + 1), chance.choice([1, 1, 2, 4, 32])
    if chance.random() < 0.5:
        body[at:at] = chance.choice([bytes(count), chance.randbytes(count), bytes(body[at : at + count])])
    else:
        del body[at : at + count]
    book[gate + 1 : after] = len(body).to_bytes(4, "big") + body


def a_step(chance, book, blobs, other):
    """A step record is put before a record or at the end, or gets a byte more."""
    places = gates(book)
    if not places:
        return a_bit(chance, book, blobs, other)
    at = chance.choice(places)
    if book[at : at + 6] == STEP and chance.random() < 0.5:
        book[at + 4 : at + 6] = b"\2\5" + chance.choice([b"\0", b"\5"])
    else:
        book[at:at] = STEP


def the_header(chance, book, blobs, other):
    if len(book) < 79:
        return a_bit(chance, book, blobs, other)
    how = chance.randrange(5)
    if how == 0:
        book[9] = chance.choice([0, 1, 2, 255])
    elif how == 1:
        book[10:14] = (2**32 - 1 - chance.randrange(60)).to_bytes(4, "big")
    elif how == 2:
        book[8] = chance.choice(b"0123")
    elif how == 3:
        book[0] = chance.choice([0, 2, 255])
    else:
        book[chance.randrange(79)] ^= 1 << chance.randrange(8)


def another_store(chance, book, blobs, other):
    if chance.random() < 0.5:
        blobs[:] = other[1]
    else:
        places, theirs = gates(book), gates(other[0])
        if places and theirs:
            book[chance.choice(places) :] = other[0][chance.choice(theirs) :]


CHANGES = [
    (a_bit, 8),
    (a_byte, 4),
    (a_cut, 4),
    (growth, 2),
    (blocks, 4),
    (a_field, 12),
    (whole_records, 4),
    (a_length_that_fits, 4),
    (a_step, 2),
    (the_header, 2),
    (another_store, 2),
]


# ---- stores


class Store:
    """A small store of the reference's, and what may be asked of it."""

    def __init__(self, arguments, number):
        self.stage, run, scripts, self.matrix = trials.reference(arguments, "run", "scripts", "matrix")
        self.run, self.number = run.run, number
        chance = trials.chance_of(arguments, "store", number)
        self.mode = chance.randrange(2)
        # Scripts of a few small files, so that a case is short.
        while True:
            empty = self.matrix.Matrix(self.mode, self.stage)
            self.script = scripts.good(chance, empty, self.stage, chance.choice([3, 8, 20, 40]))
            if len(self.script) < 60_000:
                break
        self.book, self.blobs = self.made(number % 3 if self.stage.number >= SECOND_FORMAT else 0)
        self.questions = self.reads(chance)

    def made(self, age):
        """Both files behind the script: of the second format, of the first, or carried over."""
        if age == 0:
            return self.answer(self.mode, self.script, b"", b"")[1:3]
        older = self.answer(self.mode, self.script, b"", b"", SECOND_FORMAT - 1)[1:3]
        return older if age == 1 else self.answer(self.mode, CARRIED, *older)[1:3]

    def answer(self, mode, script, book, blobs, stage=None):
        """The reference's answer: lines behind the status, both files, and the frames."""
        done = self.run(["run", MODES[mode]], KEYS.read_bytes(), script, book, blobs, stage or self.stage)
        return b"%d\n%s" % (done.status, done.out), done.book, done.blobs, done.trace

    def reads(self, chance):
        """A script that lists the files and has users read them, of whom there are not too many."""
        users, files = [], []
        for _, command in filter(lambda item: item[0] == "command", self.matrix.script(self.script, self.stage)):
            if command[0] in ("enrol", "create"):
                (users if command[0] == "enrol" else files).append(command[1])
        pairs = [(user, file) for user in users for file in files]
        asked = [b"read %s %s\n" % pair for pair in chance.sample(pairs, min(len(pairs), 30))]
        return b"".join([b"list %s\n" % file for file in files[:30]] + asked + [b"epoch\n"])


def answered(program, folder, mode, script, book, blobs):
    """The program's answer, in the form of the reference's."""
    for name, data in zip(FILES, (book, blobs, b"")):
        (folder / name).write_bytes(data)
    done = subprocess.run(
        [program, "run", MODES[mode]],
        cwd=folder,
        input=script,
        stdout=subprocess.PIPE,
        stderr=subprocess.DEVNULL,
        timeout=SECONDS,
    )
    return b"%d\n%s" % (done.returncode, done.stdout), *((folder / name).read_bytes() for name in FILES)


CARRIED = b"enrol zz-new\ncreate zz-new zz-new 9\nsome text\n"
MORE = b"enrol zz-more\ncreate zz-more zz-more 5\nabcde\nread zz-more zz-more\n"


def case_of(arguments, store, other, number):
    """The mode, the script and both files of a case. The first one of each store makes it."""
    if number % PER_STORE == 0:
        return "making a store", store.mode, store.script, b"", b""
    chance = trials.chance_of(arguments, "case", number)
    book, blobs = bytearray(store.book), bytearray(store.blobs)
    changes = chance.choices(*zip(*CHANGES), k=chance.choice([1, 1, 1, 2, 3]))
    for change in changes:
        change(chance, book, blobs, (other.book, other.blobs))
    script = chance.choice([b"", store.questions, store.questions + MORE + store.questions])
    mode = store.mode if chance.random() < 0.98 else 1 - store.mode
    return ", ".join(change.__name__ for change in changes), mode, script, bytes(book), bytes(blobs)


def difference(arguments, folder, store, number, case):
    """What is wrong at a case, as a text, or None."""
    what, mode, script, book, blobs = case
    wanted = store.answer(mode, script, book, blobs)
    try:
        got = answered(arguments.program, folder, mode, script, book, blobs)
    except subprocess.TimeoutExpired:
        got = (b"no end\n", b"", b"", b"")
    if got == wanted:
        return None
    text = f"case {number} ({what}), run {MODES[mode]}, is wrong; try it by --seed {arguments.seed} --only {number}"
    names = ("status and lines", *FILES)
    text = "\n".join([text, *filter(None, map(trials.shown, names, got, wanted))])
    if arguments.keep:
        kept = arguments.keep / f"case{number}"
        kept.mkdir(parents=True, exist_ok=True)
        for name, data in zip(("script", "store.book", "store.blobs"), (script, book, blobs)):
            (kept / name).write_bytes(data)
        (kept / "keys.hex").write_bytes(KEYS.read_bytes())
        for name, data in zip(("lines", *FILES), zip(got, wanted)):
            (kept / f"program.{name}").write_bytes(data[0])
            (kept / f"reference.{name}").write_bytes(data[1])
    return text


class Work:
    """Tries the cases of one store, in a folder of the process that does so."""

    def __init__(self, arguments, folder):
        self.arguments, self.folder = arguments, folder

    def __call__(self, number):
        folder = self.folder / str(os.getpid())
        folder.mkdir(exist_ok=True)
        (folder / "keys.hex").write_bytes(KEYS.read_bytes())
        (folder / "keys.hex").chmod(0o600)
        store, other = (Store(self.arguments, it) for it in (number, number + 1))
        first, count = number * PER_STORE, self.arguments.count
        cases = range(first, min(first + PER_STORE, count))
        if self.arguments.only is not None:
            cases = [self.arguments.only]
        found = [
            difference(self.arguments, folder, store, it, case_of(self.arguments, store, other, it)) for it in cases
        ]
        return len(found), list(filter(None, found))


def main():
    arguments = parsed()
    trials.reference(arguments)
    begun = trials.begin(arguments)
    stores = range(-(-arguments.count // PER_STORE))
    if arguments.only is not None:
        stores = [arguments.only // PER_STORE]
    with trials.place_of(arguments) as folder:
        cases, wrong = trials.tried(arguments, Work(arguments, folder), stores)
    trials.end(cases, wrong, begun)


if __name__ == "__main__":
    main()
