"""Takes the figures of a store whose files' bytes lie in blocks (docs/PERFORMANCE.md): memory and processor
time of stores with large files and with many, beside a plain program that makes the same calls of the system,
the same pads and the same hashes (`tools/plain_store.rs`), and what an update costs beside files that it
doesn't touch.

Run, after `rt run` has built the program:

    python3 tools/store_times.py PROGRAM [--folder FOLDER] [--runs N] [--only WORD]

Stores are made below FOLDER, /dev/shm where it isn't given, in which a sync costs nothing. Each figure is the
least of N runs, of which those of the two programs take turns; three where N isn't given. WORD is the name of a
part. `rustc` has to be there, and `valgrind` for instructions.
"""
import argparse
import os
import pathlib
import re
import shutil
import subprocess
import sys
import tempfile

from common import KEYS, ROOT, run_folder, timed

MIB = 1 << 20
PAGE = 4096
MANY = 10_000

parser = argparse.ArgumentParser(description=__doc__, formatter_class=argparse.RawDescriptionHelpFormatter)
parser.add_argument("program", type=lambda path: str(pathlib.Path(path).resolve()))
parser.add_argument("--folder", default="/dev/shm")
parser.add_argument("--runs", type=int, default=3)
parser.add_argument("--only", default="")
asked = parser.parse_args()


# ---- scripts


def creations(count, size, users=b"a,b"):
    return b"".join(b"create f%d %s %d\n%s\n" % (n, users, size, b"x" * size) for n in range(count))


def users(*names):
    return b"".join(b"enrol %s\n" % name for name in names)


def revocations(count):
    return b"".join(b"revoke b f%d\n" % number for number in range(count))


def turns(count):
    return b"".join(b"grant b f0\n" if number % 2 else b"revoke b f0\n" for number in range(count))


# ---- runs


class Figures:
    """User and system time in seconds, elapsed time in seconds, and the peak of memory in MiB."""

    def __init__(self, cpu, elapsed, memory):
        self.cpu, self.elapsed, self.memory = cpu, elapsed, memory

    def least(self, other):
        pairs = (self.cpu, other.cpu), (self.elapsed, other.elapsed), (self.memory, other.memory)
        return Figures(*map(min, pairs))

    def __str__(self):
        return "%8.3f s processor %8.3f s elapsed %7.1f MiB" % (self.cpu, self.elapsed, self.memory)


def ran(words, folder, script=b""):
    """The figures of a program in a folder over a script, which comes from a file."""
    path = run_folder() / "script"
    path.write_bytes(script)
    return Figures(*timed(words, folder, path))


class Store:
    """A store in a folder of its own, made by a script."""

    def __init__(self, mode, script=b""):
        self.mode, self.folder = mode, tempfile.mkdtemp(dir=asked.folder)
        shutil.copy(KEYS, self.folder)
        self.made = self.run(script) if script else None

    def run(self, script=b""):
        return ran([asked.program, "run", self.mode], self.folder, script)

    def sizes(self):
        return [os.path.getsize(f"{self.folder}/{name}") for name in ("store.book", "store.blobs")]

    def __enter__(self):
        return self

    def __exit__(self, *_):
        shutil.rmtree(self.folder)


def least(figures):
    """The least of several lists of figures, place by place."""
    best = None
    for row in figures:
        best = row if best is None else [one.least(other) for one, other in zip(best, row)]
    return best


def plain_program():
    path = run_folder() / "plain_store"
    if not path.exists():
        source = ROOT / "tools" / "plain_store.rs"
        subprocess.run(["rustc", "--edition", "2021", "-O", source, "-o", path], check=True)
    return str(path)


def plain(*words):
    """The figures of the plain program, and then of it when it opens what it made."""
    folder = tempfile.mkdtemp(dir=asked.folder)
    made = ran([plain_program(), folder, *map(str, words)], folder)
    opened = ran([plain_program(), folder, "open"], folder)
    shutil.rmtree(folder)
    return made, opened


def tell(name, figures):
    print("%-56s%s" % (name, figures), flush=True)


def compare(name, own, other):
    tell(name, own)
    tell("    plain program", other)
    print("%-56s%8.2f" % ("    of its processor time", own.cpu / other.cpu), flush=True)


def without(whole, part):
    """The figures of what comes behind a part."""
    return Figures(whole.cpu - part.cpu, whole.elapsed - part.elapsed, whole.memory)


# ---- parts


def large():
    """63 files of 1 MiB."""
    script = users(b"a") + creations(63, MIB, b"a")
    for mode in ("full", "delta"):
        rows = []
        for _ in range(asked.runs):
            with Store(mode, script) as store:
                rows.append([store.made, store.run(), store.run(b"read a f40\n")])
        made, opened, read = least(rows)
        tell(f"63 files of 1 MiB, {mode}: made", made)
        tell("    opened", opened)
        tell("    opened, and one read", read)


def coats():
    """10,000 files of 4 KiB, and a grant that coats 9,999 of them."""
    begun = users(b"a", b"b", b"c") + creations(MANY, PAGE)
    grant = b"grant c f%d\n" % (MANY // 2)
    rows = []
    for _ in range(asked.runs):
        with Store("delta", begun) as store, Store("delta", begun + grant) as granted:
            others = plain("make", "delta", MANY, PAGE) + plain("grant", MANY, PAGE)
            rows.append([store.made, store.run(), granted.made, granted.run(), *others])
    made, opened, granted, opened_again, plain_made, plain_opened, plain_granted, plain_again = least(rows)
    compare("10,000 files of 4 KiB, delta: made", made, plain_made)
    compare("    opened", opened, plain_opened)
    compare("    a grant that coats 9,999", without(granted, made), without(plain_granted, plain_made))
    compare("    opened behind it", opened_again, plain_again)


def revoked():
    """10,000 files of 4 KiB in Full, and a revocation of each."""
    begun = users(b"a", b"b") + creations(MANY, PAGE)
    rows = []
    for _ in range(asked.runs):
        with Store("full", begun) as store, Store("full", begun + revocations(MANY)) as revoked:
            others = plain("make", "full", MANY, PAGE) + plain("revoke", MANY, PAGE)
            rows.append([store.made, store.run(), revoked.made, *others])
    made, opened, whole, plain_made, plain_opened, plain_whole, _ = least(rows)
    compare("10,000 files of 4 KiB, full: made", made, plain_made)
    compare("    opened", opened, plain_opened)
    compare("    10,000 revocations", without(whole, made), without(plain_whole, plain_made))
    compare("    creations and revocations", whole, plain_whole)
    print("%-56s%8.0f µs" % ("    each with its creation", whole.cpu / MANY * 1e6), flush=True)


def one_file():
    """10,000 updates of a file of one byte."""
    script = users(b"a", b"b") + creations(1, 1) + turns(MANY)
    for mode in ("delta", "full"):
        rows = []
        for _ in range(asked.runs):
            with Store(mode, script) as store:
                rows.append([store.made, plain("turns", mode, MANY)[0]])
        own, other = least(rows)
        compare(f"10,000 updates of a file of one byte, {mode}", own, other)


def instructions(store, script):
    """How many instructions a run takes."""
    out = run_folder() / "callgrind.out"
    words = ["valgrind", "--tool=callgrind", f"--callgrind-out-file={out}", asked.program, "run", store.mode]
    done = subprocess.run(words, cwd=store.folder, input=script, capture_output=True, check=True)
    return int(re.search(rb"Collected : (\d+)", done.stderr).group(1))


def beside_others():
    """What an update costs beside files that it doesn't touch: instructions of 1,000 updates of one file of one
    byte, less those of opening the store."""
    for mode in ("full", "delta"):
        for count in (100, 1_000, 10_000):
            # The files have sets of their own users, so that no other file has the node of the first.
            script = users(b"a", b"b", b"c") + creations(1, 1) + creations(count + 1, 1, b"c").split(b"\n", 2)[2]
            with Store(mode, script) as store, Store(mode, script) as changed:
                each = (instructions(changed, turns(1000)) - instructions(store, b"")) / 1000
            print("%-56s%8.0f instructions" % (f"an update beside {count} files, {mode}", each), flush=True)


parts = [large, coats, revoked, one_file, beside_others]
known = {part.__name__: part for part in parts}
if asked.only and asked.only not in known:
    sys.exit("the parts are " + ", ".join(known))
for name, part in known.items():
    if asked.only in ("", name):
        part()
