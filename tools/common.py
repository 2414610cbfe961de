"""What several tools have in common: folders, the example keys, keyed hashes, frames, byte strings, servers and roots
without devices."""
import atexit
import functools
import hashlib
import hmac
import os
import pathlib
import re
import shutil
import struct
import subprocess
import tempfile
import time

ROOT = pathlib.Path(__file__).resolve().parent.parent
KEYS = ROOT / "examples" / "keys.hex"


@functools.cache
def run_folder():
    """The folder of this run, which is removed when the tool ends."""
    folder = tempfile.TemporaryDirectory()
    atexit.register(folder.cleanup)
    return pathlib.Path(folder.name)


def new_folder(place=None, prefix=None):
    """A new folder in that of this run, or in another place, where its user removes it."""
    return pathlib.Path(tempfile.mkdtemp(prefix=prefix, dir=place or run_folder()))


def keyed(key, message):
    """HMAC-SHA-256, of Python's own library."""
    return hmac.new(key, message, hashlib.sha256).digest()


def framed(frame):
    """The frame behind its length."""
    return struct.pack(">I", len(frame)) + frame


def literal(data):
    """The bytes as a byte string of Rattle."""
    return 'b"' + "".join(f"\\x{byte:02x}" for byte in data) + '"'


def compiled(name, folder):
    """Compiles a program of this folder that is plain Rust into another."""
    words = ["rustc", "--edition", "2021", "-O", ROOT / "tools" / (name + ".rs"), "-o", folder / name]
    subprocess.run(words, check=True)


def started(folder, *words):
    """A server in this folder that listens, and where."""
    with open(folder / "told", "wb") as told:
        process = subprocess.Popen(words, cwd=folder, stdout=subprocess.PIPE, stderr=told)
    line = process.stdout.readline().decode().split()
    assert line[:1] == ["listening"], (folder / "told").read_text()
    return process, line[1]


def run_without_devices(folder, *words):
    """Runs a program where there is no /dev, in a folder of which it has a copy: what came of it, and the copy. Only
    root can do that."""
    root = new_folder()
    needed = re.findall(r"(/\S+) \(0x", subprocess.run(["ldd", words[0]], capture_output=True, text=True, check=True).stdout)
    for path in (words[0], *needed):
        place = root / path.lstrip("/")
        place.parent.mkdir(parents=True, exist_ok=True)
        shutil.copy(path, place)
    shutil.copytree(folder, root / "here")
    enter = lambda: (os.chroot(root), os.chdir("/here"))
    done = subprocess.run(words, stdin=subprocess.DEVNULL, capture_output=True, preexec_fn=enter, timeout=60)
    return done, root / "here"


def processor(process):
    """Processor seconds of a process that runs, in all of its threads, and of those that ended."""
    # The system's number for the clock of another process.
    return time.clock_gettime(~process.pid << 3 | 2)


def timed(words, folder, script):
    """User and system time in seconds, elapsed time, and the peak of memory in MiB, of a program in a folder over
    a file. The program is begun by `time`, which is small: a child of Python has Python's peak at least."""
    told = run_folder() / "peak"
    child = os.fork()
    if child == 0:
        os.chdir(folder)
        os.dup2(os.open(script, os.O_RDONLY), 0)
        for stream in (1, 2):
            os.dup2(os.open(os.devnull, os.O_WRONLY), stream)
        os.execv("/usr/bin/time", ["time", "-f", "%M", "-o", str(told), *map(str, words)])
    begun = time.monotonic()
    _, status, used = os.wait4(child, 0)
    elapsed = time.monotonic() - begun
    assert status == 0, (words, status)
    return used.ru_utime + used.ru_stime, elapsed, int(told.read_text()) / 1024
