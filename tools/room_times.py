"""Times the data room of `room_script.py` over the network, as its owner and its readers see it: over the loopback, or
at a round trip of so many milliseconds, which `delayed.py` makes: a firm leaves by a command for each revocation, and
another by a script of them. Then it audits the firm that left first.

Run, after `rt run` has built the programs, at the top of the repository:

    python3 tools/room_times.py crates/overstored/out/overstored crates/overctl/out/overctl \\
        crates/overstore/out/overstore [MILLISECONDS]

It puts a line for each step: the seconds, and how many processes it took.
"""
import pathlib
import shutil
import subprocess
import sys
import time

import room_script
from common import KEYS, ROOT, new_folder, started
from network_cases import settings

SERVER, CLIENT, PROGRAM = (str(pathlib.Path(word).resolve()) for word in sys.argv[1:4])
DELAY = sys.argv[4] if len(sys.argv) > 4 else None
FIRM, OTHER_FIRM = room_script.people("acme"), room_script.people("birch")


def put(folder, script):
    done = subprocess.run([PROGRAM, "run", "full"], cwd=folder, input="".join(script).encode(), capture_output=True)
    assert done.returncode == 0, done
    return done.stdout.decode().splitlines()


class Room:
    """The store of the data room, and its server."""

    def __init__(self):
        self.folder = new_folder()
        shutil.copy(KEYS, self.folder / "keys.hex")
        (self.folder / "keys.hex").chmod(0o600)
        self.made = put(self.folder, room_script.files())[-1]
        (self.folder / "settings.toml").touch(0o600)
        (self.folder / "settings.toml").write_text(settings(1_000_000, mode="full"))
        self.server, self.address = started(self.folder, SERVER, "settings.toml")
        self.processes = [self.server]
        if DELAY is not None:
            words = [sys.executable, ROOT / "tools" / "delayed.py", self.address, DELAY]
            proxy, self.address = started(self.folder, *words)
            self.processes.append(proxy)
        self.count = 0

    def client(self, command, *words, **streams):
        self.count += 1
        done = subprocess.run([CLIENT, command, self.address, *words], cwd=self.folder, capture_output=True, **streams)
        assert done.returncode == 0, (command, words, done)
        return done.stdout.decode().splitlines()

    def end(self):
        for process in self.processes:
            process.kill()
            process.wait()


def timed(room, what, step):
    room.count, began = 0, time.monotonic()
    found = step()
    print("%-34s %8.2f s %5d processes" % (what, time.monotonic() - began, room.count), flush=True)
    return found


def leave(room, person):
    """One person leaves each file that lists them."""
    for file in room.client("files", person):
        room.client("revoke", "keys.hex", person, file)


def leave_at_once(room, people):
    """These leave each file that lists them, by one script."""
    listed = [line.split() for line in room.client("files")]
    script = [f"revoke {person} {file}\n" for person in people for _, file, names in listed if person in names.split(",")]
    lines = room.client("script", "keys.hex", input="".join(script).encode())
    assert len(lines) == len(script) + 1 and all(line.startswith("ok ") for line in lines[:-1]), lines
    return len(script)


def main():
    room = Room()
    print(room.made, "users and files are made;", "loopback" if DELAY is None else f"a round trip of {DELAY} ms")
    try:
        timed(room, "the epoch", lambda: room.client("epoch"))
        lines = timed(room, "all lists", lambda: room.client("files"))
        assert len(lines) == room_script.FILES, lines
        timed(room, "a key line", lambda: room.client("key", "keys.hex", "birch-1", "-o", "birch-1.key"))
        timed(room, "a file is read", lambda: room.client("read", "birch-1.key", room_script.name(0), "-o", "paper"))
        assert (room.folder / "paper").read_text() == room_script.text_of(0)
        timed(room, "a firm of five leaves its files", lambda: [leave(room, person) for person in FIRM])
        count = timed(room, "another leaves, by a script", lambda: leave_at_once(room, OTHER_FIRM))
        assert count == 440, count
        left = room.client("files")
        assert not any(firm in line for line in left for firm in ("acme", "birch")), left
    finally:
        room.end()
    began = time.monotonic()
    done = subprocess.run([PROGRAM, "audit", ",".join(FIRM)], cwd=room.folder, capture_output=True)
    lines = done.stdout.decode().splitlines()
    assert done.returncode == 0 and sum(line.startswith("exposed") for line in lines) == 88, done
    print("%-34s %8.2f s" % ("an audit of that firm", time.monotonic() - began))


if __name__ == "__main__":
    main()
