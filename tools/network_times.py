"""Times a server over the loopback, beside a plain echo of the same sizes, and takes its memory: the figures
of 'Over the network' in docs/PERFORMANCE.md. Each run has servers of its own in a folder of its own, and the
least of three counts. Frames are made before; `plain_session` sends each behind the reply to the last.

Run, after `rt run` has built the programs, at the top of the repository:

    python3 tools/network_times.py crates/overstored/out/overstored crates/overctl/out/overctl [FOLDER]

FOLDER, or this one, is on the disk whose syncs are timed. Stores without syncs are in /dev/shm.
"""
import os
import pathlib
import shutil
import socket
import subprocess
import sys
import time

from common import KEYS, compiled, framed, new_folder, processor, started
# It takes the two programs from the same words.
from network_cases import CLIENT, HELLO, SERVER, ask, settings
from network_frames import ASK, LIST, MIB, Owner, begun, creations, reads, turns, u32

DISK, FREE = pathlib.Path(sys.argv[3] if len(sys.argv) > 3 else ".").resolve(), "/dev/shm"
RUNS, ASKS, UPDATES, FILES = 3, 20_000, 2_000, 32
PREFIX = "network_times_"
# All kinds of replies but refusals and faults.
GOOD = {0x81, 0x82, 0x83, 0x84, 0x85, 0x86, 0x8F}


def start_real(folder, sessions=1_000_000):
    (folder / "settings.toml").write_text(settings(sessions, mode="full"))
    return started(folder, SERVER, "settings.toml")


def stop(folder, process):
    process.kill()
    process.wait()
    shutil.rmtree(folder)


# ---- sessions


def session(address, frames):
    """Seconds of one session of the frames in this file; `replies` has their replies' kinds and sizes then."""
    words = [OUT / "plain_session", address, OUT / frames, OUT / "replies"]
    done = subprocess.run(words, stdout=subprocess.PIPE, check=True)
    kinds = {int(line.split()[0]) for line in (OUT / "replies").read_text().splitlines()}
    assert kinds <= GOOD, kinds
    return float(done.stdout)


def processor_at_end(process):
    _, process.returncode, used = os.wait4(process.pid, 0)
    assert process.returncode == 0, process.returncode
    return used.ru_utime + used.ru_stime


def run(place):
    """Seconds and processor seconds of one session with the server, and of one with each echo."""
    folder = new_folder(place, PREFIX)
    process, address = start_real(folder, 2)
    session(address, "begin")
    before = processor(process)
    figures = [session(address, "frames"), processor_at_end(process) - before]
    (OUT / "replies").rename(OUT / "sizes")
    for way in ([], ["two"]):
        process, address = started(folder, OUT / "plain_echo", OUT / "sizes", "book", *way)
        figures += [session(address, "frames"), processor_at_end(process)]
    shutil.rmtree(folder)
    return figures


def row(title, place, begin, frames, count):
    """How many a second, and processor time of each: of the server, the echo, and the echo by two writes."""
    (OUT / "begin").write_bytes(b"".join(begin))
    (OUT / "frames").write_bytes(b"".join(frames))
    best = [min(column) / count for column in zip(*(run(place) for _ in range(RUNS)))]
    cells = ["%s | %.1f µs" % (format(round(1 / best[i]), ","), best[i + 1] * 1e6) for i in (0, 2, 4)]
    print("| %s | %s |" % (title, " | ".join(cells)), flush=True)


def rows():
    owner = Owner()
    begin = begun(owner)
    epoch = owner.epoch
    creating = creations(owner, FILES)
    for title, frame in ("Hello", framed(HELLO)), ("Ask", ASK), ("List", LIST):
        row(title, DISK, begin, [frame] * ASKS, ASKS)
    row("MiB created", DISK, begin, creating, FILES)
    row("MiB created, no syncs", FREE, begin, creating, FILES)
    row("MiB read", FREE, begin + creating, reads(FILES, epoch), FILES)
    owner.epoch = epoch
    updates = turns(owner, UPDATES)
    row("Update", DISK, begin, updates, UPDATES)
    row("Update, no syncs", FREE, begin, updates, UPDATES)


# ---- whole commands, and memory


def command(folder, *words):
    """Milliseconds of a whole command, from the start of its process to its end."""
    out = [(os.POSIX_SPAWN_OPEN, 1, folder / "out", os.O_WRONLY | os.O_CREAT | os.O_TRUNC, 0o600)]
    at = time.monotonic()
    child = os.posix_spawn(CLIENT, [CLIENT, *words], os.environ, file_actions=out)
    assert os.waitpid(child, 0)[1] == 0, words
    return (time.monotonic() - at) * 1e3


def commands(place, size, runs):
    """The least times of commands over files of so many bytes."""
    folder = new_folder(place, PREFIX)
    process, address = start_real(folder)
    keys, line, file = folder / "keys.hex", folder / "alice.key", folder / "file"
    shutil.copyfile(KEYS, keys)
    file.write_bytes(os.urandom(size))
    command(folder, "enrol", address, keys, "alice")
    command(folder, "enrol", address, keys, "bob")
    command(folder, "key", address, keys, "alice")
    (folder / "out").rename(line)
    create = [command(folder, "create", address, keys, "f%d" % i, "alice,bob", file) for i in range(runs)]
    listed = [command(folder, "list", address, keys, "f1") for _ in range(runs)]
    read = [command(folder, "read", address, line, "f1") for _ in range(runs)]
    assert (folder / "out").read_bytes() == file.read_bytes()
    revoke = [command(folder, "revoke", address, keys, "bob", "f%d" % i) for i in range(runs)]
    stop(folder, process)
    told = ["%s %.1f ms" % it for it in zip(("list", "create", "read", "revoke"), map(min, (listed, create, read, revoke)))]
    print("%d bytes:" % size, ", ".join(told), flush=True)


def memory():
    """The server's memory in a session behind 10 others and behind 10,000, of which each third broke off in a frame."""
    folder = new_folder(FREE, PREFIX)
    process, address = start_real(folder)
    for number in range(10_001):
        with socket.create_connection(address.rsplit(":", 1)) as stream:
            assert ask(stream, HELLO)[0] == 0x81
            if number in (10, 10_000):
                lines = pathlib.Path("/proc/%d/status" % process.pid).read_text().splitlines()
                print("behind %d sessions:" % number, *(it for it in lines if it.startswith(("VmRSS", "VmHWM"))))
            if number % 3 == 1:
                stream.sendall(u32(MIB) + bytes(300_000))
    stop(folder, process)


if __name__ == "__main__":
    os.umask(0o077)
    OUT = new_folder(FREE, PREFIX)
    for plain in ("plain_session", "plain_echo"):
        compiled(plain, OUT)
    rows()
    for size, runs in (MIB, 9), (16 * MIB, 3):
        commands(DISK, size, runs)
        commands(FREE, size, runs)
    memory()
    shutil.rmtree(OUT)
