"""Runs the server over real sockets: sessions that are right and others that break in every way, every exit
status with its line on standard error, what it says of files, folders, addresses and modes that can't be meant,
and a kill between two sessions. With the client program besides it has that enrol a user, create a file and
read it, near and at a round trip of 50 ms, answer the scripts of examples/, wait, and ask after the server's health. With `--slow` it also waits for five minutes, until a client that says nothing is cut off.

Run, after `rt run` has built the programs, at the top of the repository:

    python3 tools/network_cases.py crates/overstored/out/overstored [crates/overctl/out/overctl] [--slow]
"""
import os
import pathlib
import random
import re
import resource
import shutil
import signal
import socket
import struct
import subprocess
import sys
import threading
import time

from common import KEYS, ROOT, framed, keyed, new_folder, run_without_devices, started

WORDS = [word for word in sys.argv[1:] if word != "--slow"]
SLOW = "--slow" in sys.argv
# A tool that imports this file and reads its own words says which server it is.
SERVER = str(pathlib.Path(WORDS[0]).resolve()) if WORDS else None
CLIENT = str(pathlib.Path(WORDS[1]).resolve()) if len(WORDS) > 1 else None
BASE_MASTER, SURFACE = (bytes.fromhex(line) for line in KEYS.read_text().split())
SECONDS = 60

# What is said where a server begins a store by the settings below.
NOTE = "overstored: note: there was no store at store.book, so a new one was begun, in mode delta"
TWO_STORES = "overstored: hint: where these keys had a store before, stop the server: read Restoring in OPERATING.md"
# What is said where it opens one that its next update carries over.
OLDER = [
    "overstored: note: store.book: it is of an older format; its next update carries it over, and then no older program "
    "opens it",
    "overstored: hint: keep copies of both files before that: read Stores of an older version in OPERATING.md",
]

HELLO = b"\x01"
WELCOME_SIZE = 42


BASE_CHECK = keyed(BASE_MASTER, b"C\0\0\0\0")
UPDATE_KEY = keyed(SURFACE, b"U\0\0\0\0")


# ---- servers


def settings(sessions, /, **other):
    """The text of a settings file. A value None leaves its key out."""
    values = {
        "address": "127.0.0.1:0",
        "mode": "delta",
        "surface": SURFACE.hex(),
        "base_check": BASE_CHECK.hex(),
        "book": "store.book",
        "blobs": "store.blobs",
        "sessions": sessions,
        **other,
    }
    line = lambda key, value: "%s = %s\n" % (key, value if isinstance(value, int) else '"%s"' % value)
    return "".join(line(key, value) for key, value in values.items() if value is not None)


def start(folder, text, *words, **streams):
    (folder / "settings.toml").touch(0o600)
    (folder / "settings.toml").write_text(text)
    streams.setdefault("stdout", subprocess.PIPE)
    return subprocess.Popen([SERVER, *words, "settings.toml"], cwd=folder, stderr=subprocess.PIPE, **streams)


class Server:
    """A server that listens."""

    def __init__(self, folder, sessions, *words, preexec_fn=None, **other):
        self.begins = not (folder / "store.book").exists()
        self.process = start(folder, settings(sessions, **other), *words, preexec_fn=preexec_fn)
        line = self.process.stdout.readline().decode()
        assert line.startswith("listening 127.0.0.1:"), (line, self.process.stderr.read())
        self.address = line.split()[1]
        self.port = int(self.address.rsplit(":", 1)[1])

    def connect(self):
        return socket.create_connection(("127.0.0.1", self.port), timeout=SECONDS)

    def end(self, served):
        """It ends by itself; what it said beside that it begins a store, which it says where it does."""
        out, told = self.process.communicate(timeout=SECONDS)
        assert (self.process.returncode, out) == (0, b"served %d\n" % served), (self.process.returncode, out, told)
        lines = told.decode().splitlines()
        assert lines.count(NOTE) == self.begins, lines
        return [line for line in lines if line not in (NOTE, TWO_STORES)]

    def kill(self):
        self.process.kill()
        self.process.wait()


def refused(folder, text, status, out, words, **streams):
    """It ends at once so, and says something with these words on standard error."""
    process = start(folder, text, **streams)
    put, told = process.communicate(timeout=SECONDS)
    assert (process.returncode, put) == (status, out), (process.returncode, put, told)
    is_told(told.decode(), words)


def is_told(told, words):
    lines = [line for line in told.splitlines() if line not in (NOTE, TWO_STORES)]
    assert lines and lines[0].startswith("overstored: error: ") and words in lines[0], (words, told)
    assert all(line.startswith(("overstored: error: ", "overstored: hint: ")) for line in lines), told
    assert not any(line.endswith(".") for line in lines), told


# ---- frames


def take(stream, count):
    taken = b""
    while len(taken) < count:
        piece = stream.recv(count - len(taken))
        assert piece, "the server left early"
        taken += piece
    return taken


def reply(stream):
    return take(stream, struct.unpack(">I", take(stream, 4))[0])


def ask(stream, frame):
    stream.sendall(framed(frame))
    return reply(stream)


def welcome(epoch):
    return b"\x81\x01" + struct.pack(">I", epoch) + BASE_CHECK


def enrolment(epoch, name):
    spelling = b"\x01" + bytes([len(name)]) + name
    at = struct.pack(">I", epoch)
    return b"\x04" + at + spelling + keyed(UPDATE_KEY, at + spelling)


def is_left(stream):
    """The server has left: nothing more comes."""
    try:
        assert stream.recv(1) == b"", "something came behind the end of a session"
    except ConnectionResetError:
        pass


# ---- sessions


def right_sessions():
    """Frames in order, in pieces of every size, one session after the other; what was accepted outlasts a kill."""
    folder = new_folder()
    server = Server(folder, 3)
    with server.connect() as one:
        assert ask(one, HELLO) == welcome(0)
        assert ask(one, enrolment(0, b"alice")) == b"\x84" + struct.pack(">I", 1)
        assert ask(one, enrolment(0, b"bob")) == b"\x89" + struct.pack(">I", 1)
    with server.connect() as two:
        two.sendall(framed(HELLO) * 3 + framed(enrolment(1, b"bob")))
        assert [reply(two) for _ in range(4)] == [welcome(1)] * 3 + [b"\x84" + struct.pack(">I", 2)]
    server.kill()
    server = Server(folder, 2)
    with server.connect() as one:
        for byte in framed(HELLO):
            one.sendall(bytes([byte]))
            time.sleep(0.01)
        assert reply(one) == welcome(2)
        one.shutdown(socket.SHUT_WR)
        is_left(one)
    with server.connect() as two:
        assert ask(two, b"\x02\x09") == b"\x8b" + struct.pack(">I", 1)
    assert server.end(2) == []


def sessions_at_once():
    """While a client says nothing others are answered, more of them than there are workers, and then it is too."""
    server = Server(new_folder(), 8)
    with server.connect() as silent:
        for number in range(7):
            with server.connect() as stream:
                assert ask(stream, HELLO) == welcome(number)
                assert ask(stream, enrolment(number, b"u%d" % number)) == b"\x84" + struct.pack(">I", number + 1)
        assert ask(silent, HELLO) == welcome(7)
    assert server.end(8) == []


def half_a_frame(server):
    with server.connect() as stream:
        assert ask(stream, HELLO) == welcome(0)
        stream.sendall(framed(HELLO)[:4])
    return "what came is no frame, at byte 9"


def a_reset(server):
    stream = server.connect()
    assert ask(stream, HELLO) == welcome(0)
    stream.setsockopt(socket.SOL_SOCKET, socket.SO_LINGER, struct.pack("ii", 1, 0))
    stream.close()
    return "the connection failed"


def a_bad_length(field):
    def case(server):
        with server.connect() as stream:
            assert ask(stream, HELLO) == welcome(0)
            stream.sendall(field + b"x" * 100)
            is_left(stream)
        return "what came is no frame, at byte 5"

    return case


def random_bytes(server):
    with server.connect() as stream:
        try:
            stream.sendall(b"\xff" + random.Random(7).randbytes((1 << 20) - 1))
            is_left(stream)
        except (BrokenPipeError, ConnectionResetError):
            pass
    return "what came is no frame, at byte 0"


def nobody(server):
    server.connect().close()
    return None


BROKEN = [
    half_a_frame,
    a_reset,
    a_bad_length(struct.pack(">I", 0)),
    a_bad_length(struct.pack(">I", 16_842_753)),
    a_bad_length(struct.pack(">I", 2**32 - 1)),
    random_bytes,
    nobody,
]


def without_port(line):
    """The line without the port of the client that it names."""
    return re.sub(r"(with 127\.0\.0\.1):\d+:", r"\1:PORT:", line)


def broken_sessions():
    """Behind each session that breaks a right one is answered, and the server says which broke, and how."""
    # One worker: each session ends, and is told of, before the next begins.
    server = Server(new_folder(), 2 * len(BROKEN), workers=1)
    told = []
    for number, case in enumerate(BROKEN):
        why = case(server)
        if why is not None:
            told.append("overstored: warning: session %d with 127.0.0.1:PORT: %s" % (2 * number, why))
        with server.connect() as stream:
            assert ask(stream, HELLO) == welcome(0)
    assert [without_port(line) for line in server.end(2 * len(BROKEN))] == told


def logged():
    """With `--log` it says which updates were accepted and how sessions ended, and nothing of what was refused."""
    folder = new_folder()
    # One session ends before the next begins, so the lines have one order.
    server = Server(folder, 3, "--log", workers=1)
    with server.connect() as stream:
        frames = [HELLO, enrolment(0, b"alice"), enrolment(0, b"bob"), enrolment(1, b"alice"), enrolment(1, b"bob")]
        # All of them are on their way before the first reply is taken.
        stream.sendall(b"".join(map(framed, frames)))
        kinds = [reply(stream)[0] for _ in frames]
        assert kinds == [0x81, 0x84, 0x89, 0x88, 0x84], kinds
    with server.connect() as stream:
        stream.sendall(b"\0\0")
    with server.connect() as stream:
        # The frames come byte by byte.
        for byte in framed(enrolment(2, b"carol")):
            stream.sendall(bytes([byte]))
        assert reply(stream) == b"\x84\0\0\0\x03"
    line = re.compile(r"overstored: log: \d{4}-\d\d-\d\dT\d\d:\d\d:\d\dZ 127\.0\.0\.1:\d+ (.*)")
    found = [line.fullmatch(it) for it in server.end(3) if ": warning: " not in it]
    assert [it and it[1] for it in found] == [
        "user 1",
        "user 2",
        "end of session 0",
        "end of session 1: what came is no frame",
        "user 3",
        "end of session 2",
    ], found
    done = subprocess.run([SERVER, "--log"], cwd=folder, capture_output=True)
    assert (done.returncode, done.stdout) == (2, b"error settings\n")


def accepted_updates_whose_replies_are_lost():
    """A client that resets its connection right behind its update: the update is made, and the log has it."""
    server = Server(new_folder(), 12, "--log", workers=1)
    with server.connect() as first:
        # The worker is held, so each of these clients is gone before its update is read.
        assert ask(first, HELLO) == welcome(0)
        for number in range(10):
            with server.connect() as stream:
                stream.setsockopt(socket.SOL_SOCKET, socket.SO_LINGER, struct.pack("ii", 1, 0))
                stream.sendall(framed(enrolment(number, b"u%d" % number)))
        time.sleep(0.5)
    with server.connect() as last:
        assert ask(last, HELLO) == welcome(10)
    logged = [line.split(" ", 4)[4] for line in server.end(12) if ": log: " in line]
    assert [line for line in logged if not line.startswith("end of")] == ["user %d" % n for n in range(1, 11)], logged


def a_server_that_is_stopped_and_goes_on():
    """Sessions that wait for a client, and one that waits until its client takes its replies, go on where they were."""
    server = Server(new_folder(), 2)
    with server.connect() as waiting, socket.socket() as full:
        assert ask(waiting, HELLO) == welcome(0)
        # A client with little room for replies.
        full.setsockopt(socket.SOL_SOCKET, socket.SO_RCVBUF, 4096)
        full.settimeout(SECONDS)
        full.connect(("127.0.0.1", server.port))
        count = 20_000
        sender = threading.Thread(target=full.sendall, args=(framed(HELLO) * count,))
        sender.start()
        time.sleep(1)
        for _ in range(3):
            server.process.send_signal(signal.SIGSTOP)
            time.sleep(0.2)
            server.process.send_signal(signal.SIGCONT)
            time.sleep(0.2)
        assert ask(waiting, HELLO) == welcome(0)
        assert all(reply(full) == welcome(0) for _ in range(count))
        sender.join()
    assert server.end(2) == []


# ---- statuses


def statuses():
    """Each status but 0, 4 and 13, which have cases of their own, with its line."""
    done = subprocess.run([SERVER], capture_output=True)
    assert (done.returncode, done.stdout) == (2, b"error settings\n")
    is_told(done.stderr.decode(), "one settings file is wanted")
    done = subprocess.run([SERVER, "no.toml"], cwd=new_folder(), capture_output=True)
    assert (done.returncode, done.stdout) == (5, b"")
    is_told(done.stderr.decode(), "no.toml: there is no such file")
    for key in ("address", "mode", "surface", "base_check", "book", "blobs", "sessions"):
        refused(new_folder(), settings(1, **{key: None}), 2, b"error settings\n", "`%s`" % key)
    refused(new_folder(), settings(0), 2, b"error settings\n", "`sessions`")
    for number in (0, 65, "4"):
        refused(new_folder(), settings(1, workers=number), 2, b"error settings\n", "`workers`")
    refused(new_folder(), "sessions = 1\nmode delta\n", 2, b"error settings\n", "settings.toml: line 2")
    refused(new_folder(), settings(1) + "#" * 65_536, 2, b"error settings\n", "settings.toml")
    with open("/dev/full", "wb") as full:
        refused(new_folder(), settings(1), 6, None, "standard output", stdout=full)
    folder = new_folder()
    (folder / "store.book").write_bytes(b"x" * 200)
    (folder / "store.blobs").write_bytes(b"")
    refused(folder, settings(1), 8, b"error notastore\n", "store.book")


def nobody_but_root():
    """A new folder of a user who isn't root, and how a program is run as that user."""
    folder = new_folder()
    if os.geteuid() != 0:
        return folder, {}
    for path in (folder.parent, folder):
        path.chmod(0o755)
    os.chown(folder, 65534, 65534)
    (folder / "settings.toml").touch(0o600)
    os.chown(folder / "settings.toml", 65534, 65534)
    return folder, {"user": 65534, "group": 65534}


def files_that_cant_be_used():
    """A folder that isn't there, one that nobody may write to, and a file of somebody else: each is named."""
    missing = {"book": "no/store.book", "blobs": "no/store.blobs"}
    refused(new_folder(), settings(1, **missing), 4, b"error disk\n", "no: there is no such folder")
    refused(new_folder(), settings(1, blobs="no/b"), 4, b"error disk\n", "no: there is no such folder")
    folder = new_folder()
    (folder / "store.book").mkdir()
    refused(folder, settings(1), 4, b"error disk\n", "store.book: it is no regular file")
    folder, user = nobody_but_root()
    (folder / "kept").mkdir(0o555)
    kept = {"book": "kept/store.book", "blobs": "kept/store.blobs"}
    process = start(folder, settings(1, **kept), **user)
    put, told = process.communicate(timeout=SECONDS)
    assert (process.returncode, put) == (4, b"error disk\n"), (put, told)
    is_told(told.decode().replace("kept/store.book", "store.book"), "kept: the server may not make files there")
    (folder / "store.book").touch(0o444)
    refused(folder, settings(1), 4, b"error disk\n", "store.book: the server may not read and write it", **user)


def files_that_are_other_files():
    """A file of the store under whose name the settings, the store's other file or a link is found: nothing of what it
    leads to is written."""
    other = "it is one file with the store's other file or with the settings"
    for name in ("book", "blobs"):
        folder = new_folder()
        text = settings(1)
        (folder / "settings.toml").touch(0o600)
        (folder / ("store." + name)).hardlink_to(folder / "settings.toml")
        refused(folder, text, 4, b"error disk\n", "store.%s: %s" % (name, other))
        assert (folder / "settings.toml").read_text() == text
        (folder / ("store." + name)).unlink()
        (folder / "kept").write_bytes(b"")
        (folder / ("store." + name)).symlink_to("kept")
        refused(folder, text, 4, b"error disk\n", "store.%s: it is a symbolic link" % name)
        assert (folder / "kept").read_bytes() == b""
    refused(new_folder(), settings(1, blobs="store.book"), 4, b"error disk\n", "store.book: " + other)


def closed_streams_in_a_folder_that_isnt_read():
    """Where a server may not read the folder that it runs in, no file of the store comes to stand where standard output
    was closed."""
    folder, user = nobody_but_root()
    kept = folder / "kept"
    kept.mkdir(0o700)
    if user:
        os.chown(kept, 65534, 65534)
    (folder / "settings.toml").write_text(settings(1, book="kept/store.book", blobs="kept/store.blobs"))
    folder.chmod(0o300)
    words = ["sh", "-c", 'exec "$0" settings.toml <&- >&-', SERVER]
    done = subprocess.run(words, cwd=folder, capture_output=True, timeout=SECONDS, **user)
    assert done.returncode == 6, done
    is_told(done.stderr.decode().replace("kept/", ""), "standard output can't be written")
    folder.chmod(0o700)
    # Its line would begin the book, which begins with a gate.
    assert (kept / "store.book").read_bytes()[:9] == b"\x01OVERENC2", (kept / "store.book").read_bytes()[:20]


def no_place_can_be_held():
    """Where /dev/null isn't there, no file is opened."""
    if os.geteuid() != 0:
        return
    folder = new_folder()
    (folder / "settings.toml").touch(0o600)
    (folder / "settings.toml").write_text(settings(1))
    done, left = run_without_devices(folder, SERVER, "settings.toml")
    assert (done.returncode, done.stdout) == (6, b""), done
    assert b"overstored: error: /dev/null: it can't be opened" in done.stderr, done.stderr
    assert [path.name for path in left.iterdir()] == ["settings.toml"], left


def addresses_that_cant_be():
    """One with no port, one whose port is no number, and a host that is another machine."""
    for address in ("127.0.0.1", "127.0.0.1:port"):
        refused(new_folder(), settings(1, address=address), 13, b"error door\n", address + ": it is no address")
    refused(new_folder(), settings(1, address="203.0.113.7:7400"), 13, b"error door\n", "203.0.113.7:7400: can't")


def stores_that_begin():
    """A store is begun where there is no book, or one in which none was begun, and the server says so."""
    for book in (None, b"", b"\x01", b"x" * 79):
        folder = new_folder()
        if book is not None:
            (folder / "store.book").write_bytes(book)
        server = Server(folder, 1)
        server.begins = True
        server.connect().close()
        assert server.end(1) == []
        server = Server(folder, 1)
        server.connect().close()
        assert server.end(1) == []


def stores_of_an_older_format():
    """The server says so as it opens one whose next update carries it over, and not behind that update."""
    folder = new_folder()
    server = Server(folder, 1)
    with server.connect() as stream:
        assert ask(stream, enrolment(0, b"alice")) == b"\x84\0\0\0\x01"
    assert server.end(1) == []
    book = folder / "store.book"
    book.write_bytes(book.read_bytes().replace(b"OVERENC2", b"OVERENC1"))
    for frame, answer, said in [
        (HELLO, welcome(1), OLDER),
        (enrolment(1, b"bob"), b"\x84\0\0\0\x02", OLDER),
        (HELLO, welcome(2), []),
    ]:
        server = Server(folder, 1)
        with server.connect() as stream:
            assert ask(stream, frame) == answer
        assert server.end(1) == said


def settings_that_others_may_read():
    """They are read whatever their mode, with a warning; the service manager's own have none."""
    warned = [
        "overstored: warning: settings.toml can be read by others, and has the surface master",
        "overstored: hint: keep it to the server by `chmod 600 settings.toml`",
    ]
    folder = new_folder()
    for mode in (0o600, 0o644, 0o640, 0o604):
        (folder / "settings.toml").touch()
        (folder / "settings.toml").chmod(mode)
        server = Server(folder, 1)
        server.connect().close()
        assert server.end(1) == (warned if mode & 0o044 else []), mode
    (folder / "settings.toml").write_text(settings(1, mode="full"))
    # The folder of the service manager's files, one whose name this folder's begins with, and none.
    for place, count in ((str(folder), 0), (str(folder)[:-1], 1), ("", 1), ("settings", 1)):
        environment = {**os.environ, "CREDENTIALS_DIRECTORY": place}
        done = subprocess.run([SERVER, folder / "settings.toml"], cwd=folder, env=environment, capture_output=True)
        assert done.returncode == 9 and done.stderr.count(b"warning") == count, (place, done)


def stores_of_others():
    """Another mode and other keys; and a store and an address that another server has."""
    folder = new_folder()
    server = Server(folder, 1)
    refused(folder, settings(1), 4, b"error disk\n", "store.book")
    refused(new_folder(), settings(1, address=server.address), 13, b"error door\n", server.address)
    server.connect().close()
    server.end(1)
    refused(folder, settings(1, mode="full"), 9, b"error mode delta full\n", "store.book")
    for key, word in (("surface", b"surface"), ("base_check", b"base")):
        process = start(folder, settings(1, **{key: "00" * 32}))
        put, told = process.communicate(timeout=SECONDS)
        assert process.returncode == 9 and put.startswith(b"error key %s " % word), put
        is_told(told.decode(), "store.book")


def keys_that_are_passed_over():
    server = Server(new_folder(), 1, workers=4, worker=4)
    server.connect().close()
    assert server.end(1) == [
        "overstored: warning: settings.toml: `worker` is passed over",
        "overstored: hint: `overstored --help` lists the eight keys; see how this one is spelled",
    ]


def memory_that_is_refused():
    """Under a limit of addresses a frame of the greatest length is answered, or its session ends; the next goes on."""
    folder = new_folder()
    limit = lambda: resource.setrlimit(resource.RLIMIT_AS, (12 << 20, 12 << 20))
    process = start(folder, settings(2), preexec_fn=limit)
    line = process.stdout.readline().decode()
    if not line.startswith("listening"):
        assert process.wait() == 7 and line == "error memory\n", line
        return
    port = int(line.rsplit(":", 1)[1])
    with socket.create_connection(("127.0.0.1", port), timeout=SECONDS) as stream:
        try:
            stream.sendall(framed(b"\x04" + b"\0" * 1_114_111))
            assert reply(stream)[0] in (0x8B, 0x8E)
        except (AssertionError, BrokenPipeError, ConnectionResetError):
            pass
    with socket.create_connection(("127.0.0.1", port), timeout=SECONDS) as stream:
        assert ask(stream, HELLO) == welcome(0)
    out, _ = process.communicate(timeout=SECONDS)
    assert (process.returncode, out) == (0, b"served 2\n"), (process.returncode, out)


def no_descriptor_is_free():
    """A connection for which the server has no descriptor waits, and is answered once there is one."""
    server = Server(new_folder(), 2, workers=1)
    pid = server.process.pid
    _, hard = resource.prlimit(pid, resource.RLIMIT_NOFILE)
    with server.connect() as first:
        # The server waits for the end of this session, and has no descriptor for the next one then.
        assert ask(first, HELLO) == welcome(0)
        most = max(int(entry) for entry in os.listdir(f"/proc/{pid}/fd"))
        resource.prlimit(pid, resource.RLIMIT_NOFILE, (most, hard))
    with server.connect() as stream:
        stream.sendall(framed(HELLO))
        time.sleep(1.5)
        resource.prlimit(pid, resource.RLIMIT_NOFILE, (hard, hard))
        assert reply(stream) == welcome(0)
    told = server.end(2)
    assert told and all(line.startswith("overstored: warning: can't accept, trying again") for line in told), told


def silent_clients_hold_workers():
    """Clients that say nothing hold a worker each: a further one is answered while a worker is left, and else waits
    until one of them leaves."""
    server = Server(new_folder(), 12, workers=3)
    with server.connect(), server.connect() as second:
        for _ in range(8):
            with server.connect() as stream:
                assert ask(stream, HELLO) == welcome(0)
        with server.connect(), server.connect() as stream:
            stream.sendall(framed(HELLO))
            stream.settimeout(1)
            try:
                raise AssertionError(("answered while all workers were held", stream.recv(1)))
            except TimeoutError:
                pass
            stream.settimeout(SECONDS)
            second.close()
            assert reply(stream) == welcome(0)
    assert server.end(12) == []


def sessions_take_turns():
    """Sessions that are open at once are answered in turn, and see each other's updates."""
    server = Server(new_folder(), 2)
    with server.connect() as one, server.connect() as two:
        for epoch in range(20):
            asker, other = (one, two) if epoch % 2 else (two, one)
            assert ask(asker, enrolment(epoch, b"u%d" % epoch)) == b"\x84" + struct.pack(">I", epoch + 1)
            assert ask(other, enrolment(epoch, b"v")) == b"\x89" + struct.pack(">I", epoch + 1)
            assert ask(other, HELLO) == welcome(epoch + 1)
    assert server.end(2) == []


def a_silent_client():
    """A client that says nothing for five minutes is cut off, and then the next one is answered. The system counts
    long times roughly, and may add a ninth."""
    server = Server(new_folder(), 2, workers=1)
    began = time.monotonic()
    with server.connect(), socket.create_connection(("127.0.0.1", server.port), timeout=400) as stream:
        assert ask(stream, HELLO) == welcome(0)
        assert 299 < time.monotonic() - began < 335
    told = server.end(2)
    assert len(told) == 1 and "session 0 with" in told[0], told


# ---- with the client program


def a_file_over_the_network():
    """Enrol, create, key and read, grant, revoke, replace and remove: the bytes that were sent last come back, and the
    log has each update."""
    folder = new_folder()
    server = Server(folder, 10, "--log")
    shutil.copy(KEYS, folder / "keys.hex")
    (folder / "file").write_bytes(random.Random(24).randbytes(70_000))

    def client(*words):
        done = subprocess.run([CLIENT, *words], cwd=folder, capture_output=True, timeout=SECONDS)
        assert done.returncode == 0, done
        return done.stdout

    assert client("enrol", server.address, "keys.hex", "alice") == b"ok 1\n"
    assert client("create", server.address, "keys.hex", "report", "alice", "file") == b"ok 2\n"
    (folder / "alice.key").write_bytes(client("key", server.address, "keys.hex", "alice"))
    assert client("read", server.address, "alice.key", "report") == (folder / "file").read_bytes()
    assert client("enrol", server.address, "keys.hex", "bob") == b"ok 3\n"
    assert client("grant", server.address, "keys.hex", "bob", "report") == b"ok 4\n"
    assert client("revoke", server.address, "keys.hex", "bob", "report") == b"ok 5\n"
    (folder / "file").write_bytes(random.Random(25).randbytes(70_001))
    assert client("replace", server.address, "keys.hex", "report", "file") == b"ok 6\n"
    assert client("read", server.address, "alice.key", "report") == (folder / "file").read_bytes()
    assert client("remove", server.address, "keys.hex", "report") == b"ok 7\n"
    logged = [line.split(" ", 4)[4] for line in server.end(10)]
    assert [it for it in logged if not it.startswith("end of session")] == [
        "user 1", "create 2", "user 3", "grant 4", "revoke 5", "replace 6", "remove 7"
    ], logged
    assert logged.count("end of session 9") == 1, logged


def a_write_that_fails():
    """Under a limit on the size of files: the server says so once, and makes no update from then on."""
    folder = new_folder()
    shutil.copy(KEYS, folder / "keys.hex")
    limit = lambda: (
        signal.signal(signal.SIGXFSZ, signal.SIG_IGN),
        resource.setrlimit(resource.RLIMIT_FSIZE, (95, 95)),
    )
    server = Server(folder, 4, preexec_fn=limit)
    found = [
        subprocess.run([CLIENT, "enrol", server.address, "keys.hex", name], cwd=folder, capture_output=True, timeout=SECONDS)
        for name in ("alice", "bob", "carol", "alice")
    ]
    assert [done.returncode for done in found] == [0, 4, 4, 3], found
    assert server.end(4) == [
        "overstored: error: store.book: a write to the store failed, so no update is accepted any more",
        "overstored: hint: see that there is room and that the disk is well, and start the server again",
    ]


def a_server_far_away():
    """At a round trip of 50 ms each request waits for it; the answers are the same, and nothing is said of the wait."""
    folder = new_folder()
    shutil.copy(KEYS, folder / "keys.hex")
    (folder / "keys.hex").chmod(0o600)
    server = Server(folder, 6)
    words = [sys.executable, ROOT / "tools" / "delayed.py", server.address, "50"]
    proxy, address = started(folder, *words)

    def client(*words):
        return subprocess.run([CLIENT, *words], cwd=folder, capture_output=True, timeout=SECONDS)

    try:
        began = time.monotonic()
        done = client("enrol", address, "keys.hex", "alice")
        assert (done.returncode, done.stdout, done.stderr) == (0, b"ok 1\n", b""), done
        # its connection, and three requests
        assert time.monotonic() - began >= 0.2
        done = client("key", address, "keys.hex", "alice", "-o", "alice.key")
        assert (done.returncode, done.stdout) == (0, b"") and (folder / "alice.key").stat().st_mode & 0o777 == 0o600, done
        (folder / "file").write_bytes(random.Random(26).randbytes(70_000))
        done = client("create", address, "keys.hex", "report", "alice", "file", "--timeout", "5")
        assert (done.returncode, done.stdout, done.stderr) == (0, b"ok 2\n", b""), done
        done = client("read", address, "alice.key", "report", "-o", "report")
        assert (done.returncode, done.stdout) == (0, b""), done
        assert (folder / "report").read_bytes() == (folder / "file").read_bytes()
        done = client("read", address, "alice.key", "plan", "-o", "report")
        assert (done.returncode, done.stdout) == (3, b"refused 3 NoFile\n"), done
        assert (folder / "report").read_bytes() == (folder / "file").read_bytes()
        done = client("create", address, "keys.hex", "plan", "bob,alice,carol", "file")
        assert (done.returncode, done.stdout) == (3, b"refused 2 NoUser\n"), done
        assert done.stderr.decode().splitlines()[0] == "overctl: note: not enrolled: bob,carol", done
        assert not any(path.name.startswith("report.") for path in folder.iterdir())
    finally:
        proxy.kill()
        proxy.wait()
    assert server.end(6) == []


def scripts_over_the_network():
    """Each example script, in both modes: the client's replies are those that another program made. Then one at a round
    trip of 50 ms, of which each update takes two, and one in which a server ends."""
    for mode in ("full", "delta"):
        for script in sorted((ROOT / "examples").glob("*.script")):
            folder = new_folder()
            shutil.copy(KEYS, folder / "keys.hex")
            (folder / "keys.hex").chmod(0o600)
            server = Server(folder, 1, mode=mode)
            words = [CLIENT, "script", server.address, "keys.hex"]
            done = subprocess.run(words, cwd=folder, input=script.read_bytes(), capture_output=True, timeout=SECONDS)
            assert (done.returncode, done.stderr) == (0, b""), (script, done)
            assert done.stdout == script.with_suffix(".replies").read_bytes(), (script, done.stdout)
            served = server.process.communicate(timeout=SECONDS)[0]
            assert (server.process.returncode, served) == (0, b"served 1\n"), served
    folder = new_folder()
    shutil.copy(KEYS, folder / "keys.hex")
    (folder / "keys.hex").chmod(0o600)
    server = Server(folder, 1)
    proxy, address = started(folder, sys.executable, ROOT / "tools" / "delayed.py", server.address, "50")
    try:
        script = b"".join(b"enrol user-%d\n" % number for number in range(10))
        began = time.monotonic()
        words = [CLIENT, "script", address, "keys.hex"]
        done = subprocess.run(words, cwd=folder, input=script, capture_output=True, timeout=SECONDS)
        took = time.monotonic() - began
        assert (done.returncode, done.stderr) == (0, b""), done
        assert done.stdout == b"".join(b"ok %d\n" % (number + 1) for number in range(10)) + b"end epoch 10\n", done
        # the connection, the greeting, ten updates of two requests each, and the epoch
        assert took >= 23 * 0.05, took
    finally:
        proxy.kill()
        proxy.wait()
    assert server.end(1) == []
    folder = new_folder()
    shutil.copy(KEYS, folder / "keys.hex")
    (folder / "keys.hex").chmod(0o600)
    server = Server(folder, 1)
    words = [CLIENT, "script", server.address, "keys.hex"]
    with subprocess.Popen(words, cwd=folder, stdin=subprocess.PIPE, stdout=subprocess.PIPE, stderr=subprocess.PIPE) as client:
        client.stdin.write(b"enrol alice\n")
        client.stdin.flush()
        assert client.stdout.readline() == b"ok 1\n"
        server.kill()
        client.stdin.write(b"enrol bob\n")
        client.stdin.close()
        assert client.stdout.read() == b""
        client.wait()
        told = client.stderr.read().decode().splitlines()
    assert client.returncode == 8 and told[0].startswith("overctl: error: "), told
    assert told[1].endswith("with the same bytes, before any other file for its list"), told


def commands_that_wait():
    """Where all workers are held a command waits: it says so, and ends by --timeout."""
    server = Server(new_folder(), 4, workers=1)
    with server.connect() as silent:
        assert ask(silent, HELLO) == welcome(0)
        words = [CLIENT, "epoch", server.address, "--timeout"]
        done = subprocess.run([*words, "1"], capture_output=True, timeout=SECONDS)
        assert (done.returncode, done.stdout) == (8, b""), done
        assert done.stderr.decode().splitlines()[0] == "overctl: error: no reply from %s for 1 s" % server.address, done
        process = subprocess.Popen([*words, "60"], stdout=subprocess.PIPE, stderr=subprocess.PIPE)
        line = process.stderr.readline().decode()
        assert line == "overctl: note: waiting for %s to reply\n" % server.address, line
    out, told = process.communicate(timeout=SECONDS)
    assert (process.returncode, out, told) == (0, b"mode delta\nepoch 0\n", b""), (process.returncode, out, told)
    server.connect().close()
    # The reply to the command that waited no longer may fail, and then the server says so.
    server.end(4)


def a_health_check():
    """It ends with 0 while the server accepts updates, and not once its disk failed or it is gone."""
    folder = new_folder()
    shutil.copy(KEYS, folder / "keys.hex")
    (folder / "settings.toml").touch(0o600)
    (folder / "settings.toml").write_text(settings(7))
    limit = lambda: (
        signal.signal(signal.SIGXFSZ, signal.SIG_IGN),
        resource.setrlimit(resource.RLIMIT_FSIZE, (95, 95)),
    )
    told = folder / "told"
    # The limit holds for the log too, but what is said goes through a pipe.
    with subprocess.Popen(["tee", told], stdin=subprocess.PIPE, stdout=subprocess.DEVNULL) as log:
        process = subprocess.Popen(
            [SERVER, "settings.toml"], cwd=folder, stdout=subprocess.PIPE, stderr=log.stdin, preexec_fn=limit
        )
        address = process.stdout.readline().decode().split()[1]

        def healthy():
            words = ["sh", ROOT / "dist" / "examples" / "health.sh", address, told]
            environment = {**os.environ, "PATH": "%s:%s" % (pathlib.Path(CLIENT).parent, os.environ["PATH"])}
            done = subprocess.run(words, env=environment, capture_output=True, timeout=SECONDS)
            return done.returncode, done.stdout.decode()

        def enrol(name):
            words = [CLIENT, "enrol", address, "keys.hex", name]
            return subprocess.run(words, cwd=folder, capture_output=True, timeout=SECONDS).returncode

        assert healthy() == (0, "")
        assert enrol("alice") == 0
        assert healthy() == (0, "")
        assert enrol("bob") == 4
        time.sleep(0.2)
        assert healthy() == (1, "%s accepts no update: its disk failed\n" % address)
        process.kill()
        process.wait()
        assert healthy() == (1, "no answer from %s\n" % address)
        log.stdin.close()


def a_base_master_that_is_shown():
    """Settings that have it for the check value: the owner is told that it is public."""
    folder = new_folder()
    shutil.copy(KEYS, folder / "keys.hex")
    server = Server(folder, 1, base_check=BASE_MASTER.hex())
    done = subprocess.run([CLIENT, "enrol", server.address, "keys.hex", "alice"], cwd=folder, capture_output=True, timeout=SECONDS)
    assert (done.returncode, done.stdout) == (9, b""), done
    assert [line for line in done.stderr.decode().splitlines() if ": warning: " not in line and "chmod" not in line] == [
        "overctl: error: %s has the base master where its check value should be" % server.address,
        "overctl: hint: the server shows it to everyone: make new keys and a new store",
    ], done.stderr
    assert server.end(1) == []


CASES = [
    right_sessions,
    sessions_at_once,
    broken_sessions,
    logged,
    accepted_updates_whose_replies_are_lost,
    a_server_that_is_stopped_and_goes_on,
    statuses,
    files_that_cant_be_used,
    files_that_are_other_files,
    closed_streams_in_a_folder_that_isnt_read,
    no_place_can_be_held,
    addresses_that_cant_be,
    stores_that_begin,
    stores_of_an_older_format,
    settings_that_others_may_read,
    stores_of_others,
    keys_that_are_passed_over,
    memory_that_is_refused,
    no_descriptor_is_free,
    silent_clients_hold_workers,
    sessions_take_turns,
]

if __name__ == "__main__":
    with_client = [
        a_file_over_the_network,
        a_server_far_away,
        scripts_over_the_network,
        commands_that_wait,
        a_write_that_fails,
        a_health_check,
        a_base_master_that_is_shown,
    ]
    for case in CASES + (with_client if CLIENT else []) + ([a_silent_client] if SLOW else []):
        began = time.monotonic()
        case()
        print("%-28s %5.1f s" % (case.__name__, time.monotonic() - began), flush=True)
    print("all cases passed")
