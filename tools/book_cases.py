"""Tries store_usage.py and script_of_book.py on random stores of both formats beside the independent reference.

Run: python3 tools/book_cases.py --oracle FOLDER [--count N] [--seed S]

The reference answers a random script, in one mode or the other: as a store of the newer format, as one of the older,
or as one of the older that was carried over and went on. Compared are the counts of store_usage.py with those of
the reference's catalogue; and with the bytes of all files in a folder the script of script_of_book.py, from the
beginning and from an epoch in between, is answered by the reference over a new store, or over the store of that
epoch: both files have to be those of the first store again, or in the older format every file, list and node. Where
one file is missing there has to be no script.

The reference also writes the updates of a store of the newer format into an owner's book, the last one as a pending
intent. Its script has to be that of the store's book up to the update before, and standard error has to say that an
intent is pending; once that is settled, the scripts have to be equal.
"""
import subprocess
import sys

import trials
from common import KEYS, ROOT, new_folder

MODES = ("full", "delta")
BEFORE_SECOND_FORMAT = 15


def tool(name, *arguments, given=b""):
    return subprocess.run([sys.executable, ROOT / "tools" / name, *arguments], input=given, capture_output=True)


class Case:
    """A store that the reference makes, with both of its files behind each of two scripts."""

    def __init__(self, arguments, number):
        self.stage, run, scripts, self.matrix, stages, self.books, image = trials.reference(
            arguments, "run", "scripts", "matrix", "stage", "book", "image"
        )
        self.run, self.chance = run.run, trials.chance_of(arguments, number)
        self.device, self.keys = image.Device, run.read_keys(KEYS.read_bytes())
        self.mode, self.format = self.chance.randrange(2), number % 3
        self.book = self.blobs = b""
        self.script = b""
        for part in range(2):
            older = self.format == 1 or self.format == 2 and part == 0
            stage = stages.stage_of(BEFORE_SECOND_FORMAT) if older else self.stage
            at = self.result.matrix if part else self.matrix.Matrix(self.mode, stage)
            given = scripts.good(self.chance, at, stage, self.chance.choice([8, 40, 120]))
            self.half = (self.book, self.blobs)
            self.result = self.answered(given, self.book, self.blobs, stage)
            self.book, self.blobs = self.result.book, self.result.blobs
            self.script += given

    def answered(self, script, book, blobs, stage=None):
        return self.run(["run", MODES[self.mode]], KEYS.read_bytes(), script, book, blobs, stage or self.stage)

    def texts(self):
        """The bytes of all creations and replacements of the scripts, refused ones too."""
        commands = (item[1] for item in self.matrix.script(self.script, self.stage) if item[0] == "command")
        return [command[-1] for command in commands if command[0] in ("create", "replace") and command[-1]]

    def counts(self):
        """What store_usage.py has to print."""
        cat = self.result.store.cat
        there = [file for file in cat.files if not file.gone]
        return {
            "mode": MODES[cat.mode],
            "updates": f"{cat.epoch} of 4294967295",
            "users": f"{len(cat.users)} of 1024",
            "base sets": f"{len(cat.base.sets)} of 4096",
            "surface sets": f"{len(cat.surface.sets)} of 4096",
            "file numbers": f"{len(cat.files)} of 16384",
            "files": str(len(there)),
            "bytes": f"{sum(file.length for file in there)} of 67108864",
            "store.book": str(self.result.store.end + 1),
        }

    def wrong_counts(self):
        done = tool("store_usage.py", given=self.book)
        wanted = "".join(f"{name} {count}\n" for name, count in self.counts().items())
        if done.stdout.decode() != wanted or done.stderr:
            yield f"counts: {done.stdout.decode()}{done.stderr.decode()}\nnot {wanted}"

    def wrong_scripts(self):
        folder, texts = new_folder(), self.texts()
        (folder / "files" / "in").mkdir(parents=True)
        (folder / "book").write_bytes(self.book)
        for number, text in enumerate(texts):
            (folder / "files" / "in" / f"text{number}").write_bytes(text)
        words = [KEYS, folder / "book", folder / "files"]
        epoch = self.answered(b"", *self.half).store.cat.epoch
        for first, files in ((0, (b"", b"")), (epoch, self.half)):
            done = tool("script_of_book.py", *words, str(first))
            again = self.answered(done.stdout, *files)
            if done.returncode or not self.is_same(again):
                yield f"script from {first}: status {done.returncode}, another store; {done.stderr.decode()}"
        sent = [file for file in self.result.store.cat.files if file.length]
        for path in (folder / "files" / "in").iterdir():
            path.unlink()
        done = tool("script_of_book.py", *words)
        if sent and (done.returncode != 5 or done.stdout or done.stderr.count(b"\n") != len(sent) + 1):
            yield f"without files: status {done.returncode}; {done.stderr.decode()}"

    def wrong_owners_books(self):
        """The script of an owner's book beside that of the store's."""
        commands = self.accepted()
        if self.format or not commands:
            return
        folder = new_folder()
        (folder / "files").mkdir()
        for number, text in enumerate(self.texts()):
            (folder / "files" / f"text{number}").write_bytes(text)
        (folder / "book").write_bytes(self.book)
        owners = self.owners_book(commands)
        for pending in (True, False):
            (folder / "team").write_bytes(owners.device.area["book"])
            mine = tool("script_of_book.py", KEYS, folder / "book", folder / "files")
            theirs = tool("script_of_book.py", KEYS, folder / "team", folder / "files")
            wanted = mine.stdout if not pending else self.without_last(mine.stdout, folder / "book", folder / "files")
            said = b"an intent is pending" in theirs.stderr
            if theirs.returncode or theirs.stdout != wanted or said != pending:
                yield f"owner's book, {pending=}: status {theirs.returncode}, {theirs.stderr.decode()}"
            if pending:
                owners.settle()

    def accepted(self):
        """The commands of both scripts that weren't refused."""
        items = [item[1] for item in self.matrix.script(self.script, self.stage) if item[0] == "command"]
        at = self.matrix.Matrix(self.mode, self.stage)
        return [command for command in items if at.step(command)[0] == "ok"]

    def owners_book(self, commands):
        """The reference's book of these commands, the last one pending."""
        book = self.books.begin(self.device(), *self.keys, self.mode, self.stage)
        for command in commands:
            if book.pending is not None:
                book.settle()
            body = command[-1] if command[0] in ("create", "replace") else b""
            act = command[:-1] if command[0] in ("create", "replace") else command
            assert book.intend(act, body) is None, command
        return book

    def without_last(self, script, book, files):
        """The script without its last update."""
        last = tool("script_of_book.py", KEYS, book, files, str(self.result.store.cat.epoch - 1)).stdout
        return script.removesuffix(last)

    def is_same(self, again):
        if self.format == 0:
            return (again.book, again.blobs) == (self.book, self.blobs)
        mine, theirs = self.result.store.cat, again.store.cat
        same = all(getattr(mine, part) == getattr(theirs, part) for part in ("users", "roots", "access", "files", "epoch"))
        layers = ((mine.base, theirs.base), (mine.surface, theirs.surface))
        return same and again.blobs == self.blobs and all(one.sets == two.sets for one, two in layers)


def main():
    parser = trials.options(__doc__)
    trials.with_reference(parser, required=True)
    parser.add_argument("--count", type=trials.whole, default=60, metavar="N", help="how many stores (60)")
    arguments = parser.parse_args()
    begun, wrong = trials.begin(arguments), 0
    for number in range(arguments.count):
        case = Case(arguments, number)
        for text in (*case.wrong_counts(), *case.wrong_scripts(), *case.wrong_owners_books()):
            wrong += 1
            print(f"store {number}, {MODES[case.mode]}, format {case.format}: {text}")
    trials.end(arguments.count, wrong, begun)


if __name__ == "__main__":
    main()
