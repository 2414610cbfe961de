"""Random histories, made shorter by the program and by a plain program that goes through the definition.

    python3 tools/tidy_cases.py crates/overstore/out/overstore [COUNT] [SEED]

Each history has up to 80 updates, in one mode, most of them grants and revocations to and fro. The plain
program knows no tokens and no ciphers: it keeps the sets of both layers, and for each update what the
definition of an idle pair asks. `overstore tidy` has to print how many updates both stores have, and over
the new store, put in the place of the old one, each list and each read have to be answered as before; and
a second `tidy` over the same new files has to end with 14. Then the history goes on by two more updates, in
both stores alike.

A `tidy` of the same store is killed besides, at a moment that is drawn. It has to leave the old files as they
were, and of the new ones no store or one with some first records of the whole Book; a run over that says its
epoch or, where a file is there yet that is gone at the end, that its tag is wrong, since it has zeros. Another
`tidy` then ends with 14, or with 0 where there is no store.

Each tenth history has a server too, where a server and a client are named:

    python3 tools/tidy_cases.py PROGRAM [COUNT] [SEED] SERVER CLIENT
"""
import random
import shutil
import subprocess
import sys
import time

from audit_cases import Store, put
from common import KEYS, new_folder, run_folder, started


class Noted(Store):
    """A store that notes of each update which file it names and, of a grant and a revocation, what an idle pair asks."""

    def __init__(self, full):
        super().__init__(full)
        self.facts = []

    def note(self, kind, number=None, user=None):
        makes = len(self.files) if kind in ("create", "replace") else None
        fact = {"kind": kind, "file": number, "makes": makes, "surface": set(self.surface)}
        if user is not None:
            file = self.files[number]
            before = frozenset(file["list"])
            held = self.holders(file["node"])
            fact.update(user=user, before=before, after=before ^ {user}, holders=frozenset(held))
            fact["publishes"] = kind == "grant" and user not in held
        self.facts.append(fact)

    def enrol(self):
        self.note("enrol")
        super().enrol()

    def create(self, name, members):
        self.note("create")
        super().create(name, members)

    def grant(self, user, number):
        self.note("grant", number, user)
        super().grant(user, number)

    def revoke(self, user, number):
        self.note("revoke", number, user)
        super().revoke(user, number)

    def remove(self, number):
        self.note("remove", number)
        super().remove(number)

    def replace(self, number):
        self.note("replace", number)
        super().replace(number)

    def is_idle(self, i, j):
        """Whether updates i and j undo each other and leave nothing behind."""
        one, other = self.facts[i], self.facts[j]
        if {one["kind"], other["kind"]} != {"grant", "revoke"} or one["user"] != other["user"]:
            return False
        if any(fact["file"] == one["file"] for fact in self.facts[i + 1 : j]):
            return False
        if one["publishes"] or other["publishes"]:
            return False
        lists = one["before"], one["after"]
        return all(there in one["surface"] or not self.full and there == other["holders"] for there in lists)

    def kept(self):
        """The places of the updates that are kept."""
        places = []
        for j, fact in enumerate(self.facts):
            same = [i for i in places if fact["file"] is not None and self.facts[i]["file"] == fact["file"]]
            if same and self.is_idle(same[-1], j):
                places.remove(same[-1])
            else:
                places.append(j)
        return places


def history(draw, full):
    """A history of up to 80 updates, drawn so."""
    store = Noted(full)
    for _ in range(draw.randint(1, 4)):
        store.enrol()
    for _ in range(draw.randint(1, 76)):
        there = [number for number, file in enumerate(store.files) if file["list"] is not None]
        step = draw.random()
        if step < 0.04:
            store.enrol()
        elif step < 0.12 or not there:
            members = {user for user in range(len(store.users)) if draw.random() < 0.5}
            store.create(store.free_name(draw), members)
        elif step < 0.15:
            store.remove(draw.choice(there))
        elif step < 0.19:
            store.replace(draw.choice(there))
        else:
            number, user = draw.choice(there[:3]), draw.randrange(min(len(store.users), 4))
            step = store.revoke if user in store.files[number]["list"] else store.grant
            step(user, number)
    return store


def questions(store):
    """A script that asks for each list, and for each file as each user."""
    names = sorted({file["name"] for file in store.files})
    lists = ["list %s\n" % name for name in names]
    return "".join(lists + ["read %s %s\n" % (user, name) for user in store.users for name in names] + ["epoch\n"])


def begun(mode, script, program):
    """A folder with the store after this script."""
    folder = new_folder()
    shutil.copy(KEYS, folder)
    (folder / "keys.hex").chmod(0o600)
    replies, status = put(program, folder, ["run", mode], script)
    assert status == 0, replies
    return folder


def in_place(folder):
    (folder / "tidy.blobs").rename(folder / "store.blobs")
    (folder / "tidy.book").rename(folder / "store.book")


def served(folder, mode, server, client):
    """What a server over the store tells a client that knows no key."""
    base = subprocess.run([client, "check", "keys.hex"], cwd=folder, capture_output=True, text=True, check=True).stdout.strip()
    surface = (folder / "keys.hex").read_text().split()[1]
    settings = 'address = "127.0.0.1:0"\nmode = "%s"\nsurface = "%s"\nbase_check = "%s"\n'
    settings += 'book = "store.book"\nblobs = "store.blobs"\nsessions = 8\n'
    (folder / "settings.toml").write_text(settings % (mode, surface, base))
    (folder / "settings.toml").chmod(0o600)
    process, address = started(folder, server, "settings.toml")
    try:
        words = [client, "epoch", address], [client, "users", address], [client, "files", address]
        return [subprocess.run(each, cwd=folder, capture_output=True, text=True).stdout for each in words]
    finally:
        process.terminate()
        process.wait()


# ---- kills


def records(book):
    """Where the records of a Book have their gates, and where they end."""
    gates, at = [], 78
    while book[at : at + 1] == b"\1":
        gates.append(at)
        at += 5 + int.from_bytes(book[at + 1 : at + 5], "big")
    return gates, at


def is_unborn(book):
    return len(book) <= 1 or len(book) <= 79 and book[:1] != b"\1"


def said_of_first(store, kept, gates, count):
    """What a run says over the first so many of the kept updates. Each file has a byte, so that one which is gone at
    the end has another tag while it is there."""
    facts = [store.facts[i] for i in kept[:count]]
    ended = {fact["file"] for fact in facts if fact["kind"] in ("remove", "replace")}
    for gate, fact in zip(gates, facts):
        made = fact["makes"]
        if made is not None and store.files[made]["list"] is None and made not in ended:
            return "error damaged book %d\n" % gate, 8
    return "end epoch %d\n" % (store.epoch - len(kept) + count), 0


def killed(program, folder, seconds):
    """Kills a `tidy` after this time: the new Book that it left, or no bytes where it made none."""
    process = subprocess.Popen([program, "tidy"], cwd=folder, stdout=subprocess.DEVNULL, stderr=subprocess.DEVNULL)
    time.sleep(seconds)
    process.kill()
    process.wait()
    return (folder / "tidy.book").read_bytes() if (folder / "tidy.book").exists() else b""


def kill_differs(program, folder, store, kept, whole, seconds):
    """How many kept updates a killed `tidy` left, or None where it left no store, and what differs."""
    mode = "full" if store.full else "delta"
    old = [(folder / name).read_bytes() for name in ("store.book", "store.blobs")]
    book, differs = killed(program, folder, seconds), []
    if [(folder / name).read_bytes() for name in ("store.book", "store.blobs")] != old:
        differs.append("a killed tidy: the old files were changed")
    gates, end = records(book)
    if not is_unborn(book) and book[:end] != whole[:end]:
        differs.append("a killed tidy: other records")
    again = put(program, folder, ["tidy"])
    if again[1] != (0 if is_unborn(book) else 14):
        differs.append("a tidy after a killed one: %r" % (again,))
    if is_unborn(book):
        return None, differs
    in_place(folder)
    wanted, got = said_of_first(store, kept, gates, len(gates)), put(program, folder, ["run", mode], "")
    if got != wanted:
        differs.append("a run over a killed tidy's store: %r, wanted %r" % (got, wanted))
    return len(gates), differs


# ---- a history


def tried(program, seed, others):
    """Tries one history: how many updates were left out and are kept, how many a killed tidy left, and what differs."""
    draw = random.Random(seed)
    full = draw.random() < 0.5
    mode, store = ("full" if full else "delta"), history(draw, full)
    folder = begun(mode, "".join(store.script), program)
    differs, kept = [], store.kept()
    before = put(program, folder, ["run", mode], questions(store))
    served_before = served(folder, mode, *others) if others else None
    book, other = (folder / "store.book").read_bytes(), new_folder()
    shutil.copytree(folder, other, dirs_exist_ok=True)
    start = time.monotonic()
    wanted = "tidy %d %d\nend epoch %d\n" % (store.epoch, len(kept), store.epoch), 0
    got = put(program, folder, ["tidy"])
    took = time.monotonic() - start
    if got != wanted:
        differs.append("tidy: %r, wanted %r" % (got, wanted))
    if (folder / "store.book").read_bytes() != book:
        differs.append("tidy: the old book was changed")
    whole = (folder / "tidy.book").read_bytes()
    first, differ = kill_differs(program, other, store, kept, whole, draw.random() * took)
    differs += differ
    again = put(program, folder, ["tidy"])
    if again != ("error notempty\n", 14):
        differs.append("tidy again: %r" % (again,))
    in_place(folder)
    if int.from_bytes((folder / "store.book").read_bytes()[10:14], "big") != store.epoch - len(kept):
        differs.append("the first epoch of the new store")
    after = put(program, folder, ["run", mode], questions(store))
    if after != before:
        differs.append("questions: %r, before %r" % (after, before))
    if others and served(folder, mode, *others) != served_before:
        differs.append("a client is told otherwise")
    more = put(program, folder, ["run", mode], "enrol z\ncreate zz z 1\nx\nread z zz\n")
    last = store.epoch + 2
    if more != ("ok %d\nok %d\ndata z zz 1\nx\nend epoch %d\n" % (last - 1, last, last), 0):
        differs.append("two updates more: %r" % (more,))
    shutil.rmtree(folder)
    shutil.rmtree(other)
    return store.epoch - len(kept), len(kept), first, differs


def main():
    program = sys.argv[1]
    count = int(sys.argv[2]) if len(sys.argv) > 2 else 1000
    first = int(sys.argv[3]) if len(sys.argv) > 3 else 0
    run_folder()
    left_out = differ = unborn = fronts = 0
    for seed in range(first, first + count):
        few, kept, left, differs = tried(program, seed, sys.argv[4:6] if seed % 10 == 0 else [])
        left_out += few
        unborn += left is None
        fronts += left is not None and left < kept
        differ += len(differs)
        for what in differs:
            print("seed %d: %s" % (seed, what))
    print("%d kills: %d left no store, %d some first updates" % (count, unborn, fronts))
    print("%d histories, %d updates left out, %d differ" % (count, left_out, differ))
    sys.exit(differ > 0)


if __name__ == "__main__":
    main()
