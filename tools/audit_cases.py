"""Random histories, audited by the program and by a plain program that tries each user's keys on each
saved state.

    python3 tools/audit_cases.py crates/overstore/out/overstore [COUNT] [SEED]

Each history has up to 60 updates, in one mode, and gives the names of removed files to new ones. After it
an audit of each user alone and one of several users, each with the server and without, have to print the
lines that the plain program does. The plain program knows no tokens and no ciphers: a user has the keys of
the sets that have the user, and of the base nodes to which the user was given access; and a saved state of
a file is open to a user with both of its keys. With no program only the plain one runs:
python3 tools/audit_cases.py - [COUNT] [SEED].
"""
import random
import shutil
import subprocess
import sys

from common import KEYS, new_folder, run_folder


class Store:
    """Users, files and sets by number, and the states of the files that were saved after each update."""

    def __init__(self, full):
        self.full, self.epoch = full, 0
        self.users, self.base, self.surface, self.access = [], [], [], []
        self.files, self.saved = [], []
        self.script = []

    def holders(self, node):
        return self.base[node] | {user for user, to in self.access if to == node}

    def node(self, sets, members):
        if members not in sets:
            sets.append(members)
        return sets.index(members)

    def made(self, line):
        """Saves the state of each file that is there, after an update."""
        self.script.append(line)
        self.epoch += 1
        for number, file in enumerate(self.files):
            if file["list"] is None:
                continue
            members = frozenset(file["list"])
            wants = self.full or members != self.holders(file["node"])
            file["surface"] = self.node(self.surface, members) if wants else None
            file.setdefault("made", self.epoch)
            self.saved.append((number, self.epoch, file["surface"], members))

    def enrol(self):
        number = len(self.users)
        self.users.append("u%d" % number)
        for sets in (self.base, self.surface):
            sets.append(frozenset([number]))
        self.made("enrol u%d\n" % number)

    def create(self, name, members):
        names = ",".join(self.users[user] for user in sorted(members)) or "-"
        node = self.node(self.base, frozenset(members))
        self.files.append({"name": name, "node": node, "list": set(members)})
        self.made("create %s %s 1\nx\n" % (name, names))

    def grant(self, user, number):
        file = self.files[number]
        if user not in self.holders(file["node"]):
            self.access.append((user, file["node"]))
        file["list"].add(user)
        self.made("grant %s %s\n" % (self.users[user], file["name"]))

    def revoke(self, user, number):
        file = self.files[number]
        file["list"].discard(user)
        self.made("revoke %s %s\n" % (self.users[user], file["name"]))

    def remove(self, number):
        self.files[number]["list"] = None
        self.made("remove %s\n" % self.files[number]["name"])

    def replace(self, number):
        file = self.files[number]
        members, file["list"] = file["list"], None
        node = self.node(self.base, frozenset(members))
        self.files.append({"name": file["name"], "node": node, "list": set(members)})
        self.made("replace %s 1\ny\n" % file["name"])

    def free_name(self, draw):
        """A name that no file has: that of a removed file, or a new one."""
        taken = {file["name"] for file in self.files if file["list"] is not None}
        removed = sorted({file["name"] for file in self.files} - taken)
        return draw.choice(removed) if removed and draw.random() < 0.5 else "f%d" % len(self.files)

    def opens(self, users, server, number):
        """Whether some saved state of the file is open to the keys that the users have now."""
        node = self.files[number]["node"]
        if not self.holders(node) & users:
            return False
        return any(
            surface is None or server or self.surface[surface] & users
            for file, _, surface, _ in self.saved
            if file == number
        )

    def lines(self, users, server):
        found = []
        for number, file in enumerate(self.files):
            if not self.opens(users, server, number):
                continue
            states = [state for state in self.saved if state[0] == number]
            listed = [epoch for _, epoch, _, members in states if members & users]
            bare = [epoch for _, epoch, surface, _ in states if surface is None]
            why = ("listed", listed) if listed else ("bare", bare) if bare else ("server", [file["made"]])
            found.append("exposed %d %s %s %d\n" % (number, file["name"], why[0], min(why[1])))
        return "".join(found) + "end epoch %d\n" % self.epoch


def history(draw, full):
    """A history of up to 60 updates, drawn so."""
    store = Store(full)
    for _ in range(draw.randint(1, 4)):
        store.enrol()
    for _ in range(draw.randint(1, 56)):
        there = [number for number, file in enumerate(store.files) if file["list"] is not None]
        step = draw.random()
        if step < 0.1:
            store.enrol()
        elif step < 0.35 or not there:
            members = {user for user in range(len(store.users)) if draw.random() < 0.5}
            store.create(store.free_name(draw), members)
        else:
            number = draw.choice(there)
            members = store.files[number]["list"]
            others = set(range(len(store.users))) - members
            if step < 0.6 and others:
                store.grant(draw.choice(sorted(others)), number)
            elif step < 0.8 and members:
                store.revoke(draw.choice(sorted(members)), number)
            elif step < 0.9:
                store.remove(number)
            else:
                store.replace(number)
    return store


def put(program, folder, words, script=""):
    """What the program puts, and its status."""
    done = subprocess.run([program, *words], cwd=folder, input=script.encode(), capture_output=True)
    return done.stdout.decode(), done.returncode


def audits(draw, store):
    """The users of each audit, and whether the server helps: each user alone, and some together."""
    together = {user for user in range(len(store.users)) if draw.random() < 0.4} or {0}
    for server in (False, True):
        for users in [{user} for user in range(len(store.users))] + [together]:
            yield users, server


def tried(program, seed):
    """Tries one history, and gives how many audits were tried and what differs."""
    draw = random.Random(seed)
    full = draw.random() < 0.5
    store = history(draw, full)
    folder = new_folder()
    shutil.copy(KEYS, folder)
    (folder / "keys.hex").chmod(0o600)
    mode = "full" if full else "delta"
    replies, status = put(program, folder, ["run", mode], "".join(store.script))
    if status or not replies.endswith("end epoch %d\n" % store.epoch):
        return 0, ["the script: status %d, %r" % (status, replies[-40:])]
    count, differs = 0, []
    for users, server in audits(draw, store):
        count += 1
        words = ["audit", ",".join(store.users[user] for user in sorted(users))] + ["server"] * server
        wanted, got = store.lines(users, server), put(program, folder, words)
        if got != (wanted, 0):
            differs.append("%s: %r, wanted %r" % (" ".join(words), got, wanted))
    shutil.rmtree(folder)
    return count, differs


def plain(count, first):
    """Runs the plain program alone."""
    for seed in range(first, first + count):
        draw = random.Random(seed)
        store = history(draw, draw.random() < 0.5)
        for users, server in audits(draw, store):
            store.lines(users, server)
    print("%d histories" % count)


def main():
    program = sys.argv[1]
    count = int(sys.argv[2]) if len(sys.argv) > 2 else 1000
    first = int(sys.argv[3]) if len(sys.argv) > 3 else 0
    if program == "-":
        return plain(count, first)
    run_folder()
    audited = differ = 0
    for seed in range(first, first + count):
        tries, differs = tried(program, seed)
        audited += tries
        differ += len(differs)
        for what in differs:
            print("seed %d: %s" % (seed, what))
    print("%d histories, %d audits, %d differ" % (count, audited, differ))
    sys.exit(differ > 0)


if __name__ == "__main__":
    main()
