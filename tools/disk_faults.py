"""Has each call of the program on its store fail once, and looks at what it says and what it leaves.

Run, after `rt run` has built the program:

    python3 tools/disk_faults.py crates/overstore/out/overstore [--seed S]

The program runs over a script of 60 commands, with no store and with that of the first 30, in both modes; and `tidy`
over the store of all of them. A small library in C, `tools/disk_faults.c`, is preloaded. At each number n, up to how
many there are, the nth call that reads, writes, syncs or cuts `store.book`, `store.blobs`, `tidy.book` or `tidy.blobs`
fails:

| what fails | how |
|---|---|
| the nth call | with EIO; with ENOSPC; a read or a write moves half of what was asked |
| the nth call and all behind it | with EIO; with ENOSPC |

| what is compared at each n | with |
|---|---|
| the status | 4; also 0 where the call was short, since the rest is asked for then, and where it was a look |
| the lines | a front of the right ones, whole replies, and `error disk`; all of them at status 0 |
| what is read behind it, every list and file | the updates that were answered, or one more |

Of a `tidy` the line is `error disk`, and that on both numbers of updates at status 0; the store's files are as they were;
at status 0 the new ones read as they do; and another `tidy` ends with 14, or with 0 where the new Book has no store.

A look is a read of a file that is open for reading alone: the program looks whether a store was begun, to say of a
new one on standard error.

What is right is said by the machine of `tools/plain_machine.py`. It needs a C compiler (`cc`, `gcc`, `clang`, or the
kit's). A program that the library doesn't see, since it is linked with no library, is tried under limits on the size
of files instead: at each size a write fails from there on, as on a full disk, and no read and no sync fails.
"""
import errno
import os
import pathlib
import re
import resource
import shutil
import signal
import subprocess
import sys

import trials
from common import KEYS, new_folder
from plain_machine import Machine, spelled

MODES = ("full", "delta")
COMMANDS, BEFORE = 60, 30
LIBRARY = pathlib.Path(__file__).resolve().with_suffix(".c")
COMPILERS = ("cc", "gcc", "clang")
SECONDS = 60
KINDS = {"r": "reads", "w": "writes", "s": "syncs", "t": "cuts", "l": "looks"}
# By name: the error, 0 for a call that is short, and whether all calls behind it fail too.
FAULTS = {
    "EIO": (errno.EIO, False),
    "ENOSPC": (errno.ENOSPC, False),
    "short": (0, False),
    "EIO from there on": (errno.EIO, True),
    "ENOSPC from there on": (errno.ENOSPC, True),
}


# ---- what is right


def commands_of(chance):
    """Sixty commands, most of which are accepted."""
    users, files, made = [b"u0", b"u1", b"u2"], [], [("enrol", b"u%d" % n) for n in range(3)]
    kinds = ["create"] * 4 + ["grant"] * 5 + ["revoke"] * 4 + ["read"] * 2 + ["list"] + ["enrol"] + ["remove"]
    kinds += ["replace"] * 2
    sizes = [0, 1, 2, 15, 16, 100, 300, 1000, 4096, 4097]
    while len(made) < COMMANDS:
        kind = chance.choice(kinds)
        if kind == "enrol":
            users.append(chance.choice([users[-1], b"u%d" % len(users)]))
            made.append((kind, users[-1]))
        elif kind == "create" or not files:
            size = chance.choice(sizes)
            names = sorted(set(chance.choices(users, k=chance.choice([0, 1, 2, 3]))))
            files.append(b"f%d" % len(files))
            made.append(("create", files[-1], names, chance.randbytes(size)))
        elif kind in ("list", "remove"):
            made.append((kind, chance.choice(files)))
        elif kind == "replace":
            made.append((kind, chance.choice(files), chance.randbytes(chance.choice(sizes))))
        else:
            made.append((kind, chance.choice(users), chance.choice(files)))
    return made


class Task:
    """A script, the reply to each command, and what is to be read at each epoch."""

    def __init__(self, commands):
        self.commands = commands
        users = sorted({command[1] for command in self.commands if command[0] == "enrol"})
        files = [command[1] for command in self.commands if command[0] == "create"]
        self.questions = [("list", file) for file in files] + [("read", user, file) for user in users for file in files]
        machine, self.replies = Machine(), []
        self.states = [self.state(machine)]
        for command in self.commands:
            self.replies.append(machine.reply(command))
            if self.replies[-1].startswith(b"ok "):
                self.states.append(self.state(machine))

    def state(self, machine):
        return b"".join(map(machine.reply, self.questions)) + b"end epoch %d\n" % machine.epoch

    def script(self, first):
        return b"".join(map(spelled, self.commands[first:]))

    def asked(self):
        return b"".join(map(spelled, self.questions))

    def epoch(self, count):
        """The epoch behind so many commands."""
        return sum(reply.startswith(b"ok ") for reply in self.replies[:count])


# ---- runs


def compiled():
    """The library, as a file of this run."""
    compiler = next(filter(None, map(shutil.which, COMPILERS)), None)
    if compiler is None:
        sys.exit(f"there is no C compiler: none of {', '.join(COMPILERS)}")
    library = new_folder() / "faults.so"
    subprocess.run([compiler, "-shared", "-fPIC", "-O1", "-o", library, LIBRARY], check=True)
    return library


class Run:
    """Runs the program in one folder, over a stated store."""

    def __init__(self, program, mode, folder):
        self.program, self.mode, self.folder, self.log = program, mode, folder, folder / "calls"
        shutil.copy(KEYS, folder / "keys.hex")
        (folder / "keys.hex").chmod(0o600)
        # Frames are nothing here, and would be the first to meet a limit.
        (folder / "trace.bin").symlink_to("/dev/null")

    def put(self, files):
        for name in ("store.book", "store.blobs", "tidy.book", "tidy.blobs", "calls"):
            (self.folder / name).unlink(missing_ok=True)
        for name, data in files.items():
            (self.folder / name).write_bytes(data)

    def files(self):
        return {path.name: path.read_bytes() for path in [*self.folder.glob("store.*"), *self.folder.glob("tidy.*")]}

    def over(self, script, **streams):
        return self.ended(["run", self.mode], script, **streams)

    def ended(self, words, script=b"", **streams):
        done = subprocess.run(
            [self.program, *words], cwd=self.folder, input=script, stdout=subprocess.PIPE,
            stderr=subprocess.DEVNULL, timeout=SECONDS, **streams
        )
        return done.returncode, done.stdout

    def faulty(self, script, library, first=0, last=0, how=0, words=None):
        told = {"LD_PRELOAD": str(library), "DISK_FAULT": f"{first} {last} {how}", "DISK_FAULT_LOG": str(self.log)}
        return self.ended(words or ["run", self.mode], script, env={**os.environ, **told})

    def limited(self, script, size):
        limit = lambda: (
            signal.signal(signal.SIGXFSZ, signal.SIG_IGN),
            resource.setrlimit(resource.RLIMIT_FSIZE, (size, size)),
        )
        return self.over(script, preexec_fn=limit)


class Tries:
    """The faults of one mode and one store to begin with."""

    def __init__(self, run, task, first, files):
        self.run, self.task, self.first, self.before = run, task, first, files
        self.script, self.replies = task.script(first), task.replies[first:]
        self.whole = b"".join(self.replies) + b"end epoch %d\n" % task.epoch(COMMANDS)
        self.cases, self.wrong, self.ended = 0, 0, {}

    def calls(self, library):
        """The calls of a run in which none fails, a letter each."""
        self.run.put(self.before)
        answer = self.run.faulty(self.script, library)
        if answer != (0, self.whole):
            sys.exit(f"the program is wrong where nothing fails: {answer}")
        return self.run.log.read_text() if self.run.log.exists() else ""

    def all(self, library):
        calls = self.calls(library)
        for number, kind in enumerate(calls, 1):
            for name, (how, stays) in FAULTS.items():
                if how == 0 and kind not in "lrw":
                    continue
                self.run.put(self.before)
                answer = self.run.faulty(self.script, library, number, len(calls) * 9 if stays else number, how)
                self.judge(f"call {number} of {len(calls)} ({kind}), {name}", answer, how == 0 or kind == "l")
        return calls

    def all_limits(self):
        """Limits on the size of files, in the place of calls that fail."""
        self.run.put(self.before)
        self.run.over(self.script)
        book, blobs = (len(self.run.files()[name]) for name in ("store.book", "store.blobs"))
        for size in sorted({*range(book + 2), *range(0, blobs + 4096, 4096)}):
            self.run.put(self.before)
            self.judge(f"files of at most {size} bytes", self.run.limited(self.script, size), True)

    def judge(self, what, answer, may_end):
        status, lines = answer
        self.cases += 1
        self.ended[status] = self.ended.get(status, 0) + 1
        left = self.run.files()
        text = self.wrong_lines(status, lines, may_end) or self.wrong_store(lines)
        if text:
            self.wrong += 1
            print(f"{self.run.mode}, from command {self.first + 1} on, {what}: status {status}, {text}")
            print("  it left " + ", ".join(f"{name} of {len(data)} bytes" for name, data in left.items()), flush=True)

    def wrong_lines(self, status, lines, may_end):
        if status == 0 and may_end:
            return None if lines == self.whole else f"other lines: {lines[-99:]}"
        fronts = (b"".join(self.replies[:count]) + b"error disk\n" for count in range(len(self.replies) + 1))
        return None if status == 4 and lines in fronts else f"no front of the lines with `error disk`: {lines[-99:]}"

    def wrong_store(self, lines):
        """What is read behind the run isn't what was answered, nor one update more."""
        epoch = self.task.epoch(self.first)
        for reply in self.replies:
            if not lines.startswith(reply):
                break
            lines, epoch = lines[len(reply) :], epoch + reply.startswith(b"ok ")
        got = self.run.over(self.task.asked())
        if got in [(0, state) for state in self.task.states[epoch : epoch + 2]]:
            return None
        return f"opened again it isn't at epoch {epoch} or the next: status {got[0]}, {got[1][-99:]}"


class Tidies(Tries):
    """The faults of a shorter store that is made of that of all commands."""

    def __init__(self, run, task, files):
        super().__init__(run, task, COMMANDS, files)
        epoch = task.epoch(COMMANDS)
        self.right = re.compile(rb"tidy %d \d+\nend epoch %d\n" % (epoch, epoch))

    def calls(self, library):
        self.run.put(self.before)
        answer = self.run.faulty(b"", library, words=["tidy"])
        calls = self.run.log.read_text() if self.run.log.exists() else ""
        text = self.wrong_end(answer, True)
        if text:
            sys.exit(f"the program is wrong where nothing fails: {text}")
        return calls

    def all(self, library):
        calls = self.calls(library)
        for number, kind in enumerate(calls, 1):
            for name, (how, stays) in FAULTS.items():
                if how == 0 and kind not in "lrw":
                    continue
                self.run.put(self.before)
                last = len(calls) * 9 if stays else number
                answer = self.run.faulty(b"", library, number, last, how, ["tidy"])
                self.cases += 1
                self.ended[answer[0]] = self.ended.get(answer[0], 0) + 1
                text = self.wrong_end(answer, how == 0 or kind == "l")
                if text:
                    self.wrong += 1
                    print(f"{self.run.mode}, tidy, call {number} of {len(calls)} ({kind}), {name}: {text}", flush=True)
        return calls

    def wrong_end(self, answer, may_end):
        """What is wrong with this answer, or with what is left."""
        status, lines = answer
        left = self.run.files()
        if {name: left.get(name) for name in self.before} != self.before:
            return "the old files were changed"
        new = left.get("tidy.book", b"")
        is_unborn = len(new) <= 1 or len(new) <= 79 and new[:1] != b"\1"
        again = self.run.ended(["tidy"])
        if again[0] != (0 if is_unborn else 14):
            return f"another tidy ended with {again}"
        if status == 0 and may_end and self.right.fullmatch(lines):
            self.run.put({"store.book": new, "store.blobs": left["tidy.blobs"]})
            got = self.run.over(self.task.asked())
            return None if got == (0, self.task.states[-1]) else f"the new store reads otherwise: {got}"
        return None if (status, lines) == (4, b"error disk\n") else f"status {status}, {lines}"


def told(run, what, tries, calls):
    """Says how the runs ended."""
    kinds = ", ".join(f"{calls.count(kind)} {word}" for kind, word in KINDS.items())
    ended = ", ".join(f"{count} with status {status}" for status, count in sorted(tries.ended.items()))
    print(f"{run.mode}, {what}: {kinds}; runs ended: {ended}", flush=True)


def main():
    arguments = trials.options(__doc__, "program").parse_args()
    library = compiled()
    begun = trials.begin(arguments)
    task = Task(commands_of(trials.chance_of(arguments, "script")))
    cases = wrong = 0
    for mode in MODES:
        run = Run(arguments.program, mode, new_folder(trials.FAST_PLACE if trials.FAST_PLACE.is_dir() else None))
        run.put({})
        run.over(b"".join(map(spelled, task.commands[:BEFORE])))
        for first, files in ((0, {}), (BEFORE, run.files())):
            tries = Tries(run, task, first, files)
            calls = tries.all(library)
            if not calls:
                print("the library sees no call, so the program has its own: limits on the size of files are tried")
                tries.all_limits()
            told(run, f"from command {first + 1} on", tries, calls)
            cases, wrong = cases + tries.cases, wrong + tries.wrong
        run.put({})
        run.over(task.script(0))
        tries = Tidies(run, task, run.files())
        told(run, "tidy", tries, tries.all(library))
        cases, wrong = cases + tries.cases, wrong + tries.wrong
        shutil.rmtree(run.folder)
    trials.end(cases, wrong, begun)


if __name__ == "__main__":
    main()
