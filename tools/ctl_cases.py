"""Runs overctl by itself, over files and a server that gives fixed replies: each exit status with what it prints
and its two lines on standard error, words that are no line, options, waits, a terminal, help, and a file of keys that
others may read.

Run, after `rt run` has built the program: python3 tools/ctl_cases.py crates/overctl/out/overctl
"""
import fcntl
import os
import pathlib
import pty
import re
import resource
import select
import signal
import socket
import struct
import subprocess
import sys
import threading
import time

from common import ROOT, framed, new_folder, run_without_devices

PROGRAM = str(pathlib.Path(sys.argv[1]).resolve())
SECONDS = 60
# So many bytes has the longest file.
LONGEST = 16_777_216
# Replies of a store of mode Delta under the masters below, as an independent implementation makes them: its Welcome at
# epoch 7 and that of another store, the numbers of a new user and of c, the plan of a new list of two users, and the
# chains and the bytes of `f1` for c.
REPLIES = {
    "WELCOME": bytes.fromhex("8101000000072a4f6d54a45f46e7a818a4f59451e9fbb0959add6660c90fc1b8bf8d4b73c745"),
    "WELCOME_OTHER": bytes.fromhex("8101000000072a4f6d54a45f46e7a818a4f59451e9fbb0959add6660c90fc1b8bf8d4b73c744"),
    "KNOWN": bytes.fromhex("8200000007000000000000000000000000000000000000000000"),
    "KNOWN_C": bytes.fromhex("8200000007000000020000000200000002000000000000000000"),
    "PLAN": bytes.fromhex("83000000070000000003") + bytes(127) + bytes.fromhex("000000030100020000000000000001"),
    "ACCEPTED": bytes.fromhex("8400000008"),
    "REFUSED": bytes.fromhex("8801"),
    "NO_FILE": bytes.fromhex("8803"),
    "BAD_TAG": bytes.fromhex("8a"),
    "DEVICE_FAULT": bytes.fromhex("8d"),
    "NO_MEMORY": bytes.fromhex("8e"),
    "LISTED": bytes.fromhex("8f000201610162"),
    "LISTED_NONE": bytes.fromhex("8f0000"),
    "CHAINED": bytes.fromhex(
        "85000000060000000000000002000000048f91b51972771f0973edfe300128b2c08246259add35e2173be57ca90fe48a3400"
        "00000200014100000003611862441c56a6cb9fc64123a2793bce2c197a72b5a37ac6f00382e2988dee8200"
    ),
    "BYTES": bytes.fromhex("86a827"),
    "OTHER_BYTES": bytes.fromhex("86a826"),
}
KEYS = (
    "000102030405060708090a0b0c0d0e0f101112131415161718191a1b1c1d1e1f\n"
    "202122232425262728292a2b2c2d2e2f303132333435363738393a3b3c3d3e3f\n"
)
KEY_LINE = (
    "c 2 6829d4d2e470debd34bf50f13047db4dcf730cbfe88e9986e6fe30dd7d674731 "
    "2 e1fda146db9605768430fc279fa83120a9db575932132e13b257f8b099e61c11\n"
)
# What the system takes off the mode of a new file.
MASK = os.umask(0o022)
os.umask(MASK)
VERSION = re.match(r"overstore \((.*?)\)", (ROOT / "dist" / "debian" / "changelog").read_text())[1]
CHECK = "2a4f6d54a45f46e7a818a4f59451e9fbb0959add6660c90fc1b8bf8d4b73c745"


# ---- a server


class Broken:
    """Bytes in a reply's place, behind which the server leaves, by a reset or by an end."""

    def __init__(self, raw, resets=False):
        self.raw, self.resets = raw, resets


class Late:
    """A reply that comes so many seconds late."""

    def __init__(self, seconds, reply):
        self.seconds, self.reply = seconds, reply


def taken(stream, count):
    got = b""
    while len(got) < count:
        piece = stream.recv(count - len(got))
        if not piece:
            return None
        got += piece
    return got


def request(stream):
    head = taken(stream, 4)
    return head and taken(stream, struct.unpack(">I", head)[0])


class Server:
    """Serves one connection with these replies, one for each request, and leaves at the next one."""

    def __init__(self, replies):
        self.replies, self.asked, self.over = replies, [], set()
        self.greetings = [reply for reply in replies if isinstance(reply, bytes) and reply[0] == 0x81]
        self.listener = socket.create_server(("127.0.0.1", 0))
        self.address = "127.0.0.1:%d" % self.listener.getsockname()[1]
        self.thread = threading.Thread(target=self.serve)
        self.thread.start()

    def serve(self):
        self.listener.settimeout(SECONDS)
        try:
            stream, _ = self.listener.accept()
        except OSError:
            return
        with stream:
            stream.settimeout(SECONDS)
            try:
                self.answer(stream)
            except ConnectionError:
                # The client waited no longer.
                pass

    def answer(self, stream):
        for reply in self.replies:
            frame = request(stream)
            while frame and (frame[:2] in self.over or frame[:1] in self.over and reply in self.greetings):
                stream.sendall(framed(NO_PAGE if frame[0] == 7 else REPLIES["NO_FILE"]))
                frame = request(stream)
            if frame is None:
                return
            self.asked.append(frame)
            if isinstance(reply, Late):
                time.sleep(reply.seconds)
                reply = REPLIES.get(reply.reply, reply.reply)
            if isinstance(reply, Broken):
                stream.sendall(reply.raw)
                if reply.resets:
                    time.sleep(0.2)
                    stream.setsockopt(socket.SOL_SOCKET, socket.SO_LINGER, struct.pack("ii", 1, 0))
                else:
                    self.leave(stream)
                return
            stream.sendall(framed(reply))
            # Behind the last page, and behind a list that is refused, what was sent ahead isn't there either.
            if frame[0] == 1:
                self.over = set()
            elif (frame[0], reply) == (7, NO_PAGE):
                self.over.add(frame[:2])
            elif frame[0] == 8 and reply[0] == 0x88:
                self.over.add(frame[:1])
        frame = request(stream)
        if frame is not None:
            self.asked.append(frame)
            self.leave(stream)

    def leave(self, stream):
        """Takes what was sent ahead, so that the client sees an end and no reset."""
        try:
            stream.shutdown(socket.SHUT_WR)
            while stream.recv(4096):
                pass
        except OSError:
            # The client left before.
            pass

    def end(self):
        # Whoever is still waited for isn't coming.
        self.listener.shutdown(socket.SHUT_RDWR)
        self.thread.join()
        self.listener.close()


# ---- runs


def run(folder, words, script=None, **streams):
    """The status of the program over these words, and this script on its input, what it puts, and its lines on standard
    error."""
    streams.setdefault("stdout", subprocess.PIPE)
    if script is None:
        streams.setdefault("stdin", subprocess.DEVNULL)
    else:
        streams["input"] = script
    done = subprocess.run([PROGRAM, *words], cwd=folder, stderr=subprocess.PIPE, timeout=SECONDS, **streams)
    return done.returncode, done.stdout, done.stderr.decode().splitlines()


def two_lines(error, hint):
    return ["overctl: error: " + error, "overctl: hint: " + hint]


def is_in_form(lines):
    """Each line is in lower case but for names, and ends with no full stop."""
    for line in lines:
        assert re.match(r"overctl: (error|hint|note|warning): [^A-Z]", line), line
        assert not line.endswith("."), line


def client_folder():
    """A folder with a key file, a user key line, files to be stored, and what is neither."""
    folder = new_folder()
    for name, text in {
        "keys": KEYS,
        "key": KEY_LINE,
        "body": "x1",
        "short": KEYS[1:],
    }.items():
        path = folder / name
        path.write_text(text)
        path.chmod(0o600)
    for name, size in {"long": LONGEST + 1, "longest": LONGEST}.items():
        # Sparse, since each case has a folder of its own.
        with open(folder / name, "wb") as file:
            file.truncate(size)
    (folder / "folder").mkdir()
    return folder


def case(words, replies, status, out, error=None, hint=None, asked=None, note=None, folder=None, **streams):
    """A run over a server with these replies, whose address stands for `@` in words and lines."""
    server = Server([REPLIES[reply] if isinstance(reply, str) else reply for reply in replies])
    at = lambda text: text.replace("@", server.address)
    try:
        found = run(folder or client_folder(), [at(word) for word in words.split()], **streams)
    finally:
        server.end()
    lines = [] if note is None else ["overctl: note: " + at(note)]
    lines += [] if error is None else two_lines(at(error), at(hint))
    assert found == (status, out, lines), (words, found, (status, out, lines))
    is_in_form(lines)
    counts = asked if isinstance(asked, range) else [asked]
    assert asked is None or len(server.asked) in counts, (words, server.asked)


ENROL = "enrol @ keys a"
GRANT = "grant @ keys a f1"
REMOVE = "remove @ keys f1"
CREATE = "create @ keys f1 a,b body"
REPLACE = "replace @ keys f1 body"
READ = "read @ key f1"
LIST = "list @ keys f1"
KEY = "key @ keys c"


# ---- statuses

IN_DOUBT = "it may be done: look with `overctl list` before you repeat it"
FILE_IN_DOUBT = (
    "it may be done: look with `overctl list`; if it isn't, "
    "create it, with the same bytes, before any other file for its list"
)
REPLACED = "it may be done: repeat it, with the same bytes, before you send any other file for its list"
NEW_USER = "it may be done: repeat it, and `refused 1 Taken` says that it was"
REMOVED = (
    "it may be done: look with `overctl files` before you repeat it, "
    "since another file may have the name"
)
AS_IT_WAS = "the store is as it was: try again"
NO_OUTPUT = "cannot write standard output"
TAKEN = "it is there: nothing is to be done where the command was a repeated one; else take another name"
NO_FILE = (
    "the file isn't there: nothing is to be done where it was removed; "
    "else correct the name, or create the file first"
)
BYTES_FULL = (
    "so many bytes don't fit into the store: store fewer, remove files, "
    "or begin another, with keys and a server of its own"
)
NO_PATH = "the owner puts the reader on the file's list with `overctl grant`"
CUT_OFF = "no reply from @: what came is cut off, or no frame"
OTHER_PROGRAM = "another program may listen there: check the port; if it is overstored, "


def commands():
    """Each command over a server that does what it asks."""
    case(ENROL, ["WELCOME", "KNOWN", "ACCEPTED"], 0, b"ok 8\n", asked=3)
    case(GRANT, ["WELCOME", "KNOWN", "ACCEPTED"], 0, b"ok 8\n", asked=3)
    case("revoke @ keys a f1", ["WELCOME", "KNOWN", "ACCEPTED"], 0, b"ok 8\n", asked=3)
    case(REMOVE, ["WELCOME", "KNOWN", "ACCEPTED"], 0, b"ok 8\n", asked=3)
    case(CREATE, ["WELCOME", "PLAN", "ACCEPTED"], 0, b"ok 8\n", asked=3)
    case("create @ keys f1 - longest", ["WELCOME"], 8, b"", CUT_OFF, OTHER_PROGRAM + FILE_IN_DOUBT, asked=2)
    case(REPLACE, ["WELCOME", "PLAN", "ACCEPTED"], 0, b"ok 8\n", asked=3)
    case("replace @ keys f1 longest", ["WELCOME"], 8, b"", CUT_OFF, OTHER_PROGRAM + REPLACED, asked=2)
    case(LIST, ["WELCOME", "LISTED"], 0, b"list f1 a,b\n", asked=2)
    case(LIST, ["WELCOME", "LISTED_NONE"], 0, b"list f1 -\n", asked=2)
    case(KEY, ["WELCOME", "KNOWN_C"], 0, KEY_LINE.encode(), asked=2)
    case(READ, ["CHAINED", "BYTES"], 0, b"x1", asked=2)
    case("check keys", [], 0, CHECK.encode() + b"\n", asked=0)


def refusals_and_disks():
    case(ENROL, ["WELCOME", "REFUSED"], 3, b"refused 1 Taken\n", "@ refuses the command: 1 Taken", TAKEN)
    case(REMOVE, ["WELCOME", b"\x88\x03"], 3, b"refused 3 NoFile\n", "@ refuses the command: 3 NoFile", NO_FILE)
    case(REPLACE, ["WELCOME", b"\x88\x03"], 3, b"refused 3 NoFile\n", "@ refuses the command: 3 NoFile", NO_FILE)
    full = "@ refuses the command: 9 BytesFull"
    case(CREATE, ["WELCOME", b"\x88\x09"], 3, b"refused 9 BytesFull\n", full, BYTES_FULL)
    case(REPLACE, ["WELCOME", b"\x88\x09"], 3, b"refused 9 BytesFull\n", full, BYTES_FULL)
    case(READ, [b"\x88\x04"], 3, b"refused 4 NoPath\n", "@ refuses the command: 4 NoPath", NO_PATH)
    failed = "the disk of the store at @ failed"
    again = "have the server started again; "
    case(ENROL, ["WELCOME", "KNOWN", "DEVICE_FAULT"], 4, b"", failed, again + NEW_USER)
    case(GRANT, ["WELCOME", "KNOWN", "DEVICE_FAULT"], 4, b"", failed, again + IN_DOUBT)
    case(REMOVE, ["WELCOME", "KNOWN", "DEVICE_FAULT"], 4, b"", failed, again + REMOVED)
    case(REPLACE, ["WELCOME", "PLAN", "DEVICE_FAULT"], 4, b"", failed, again + REPLACED)
    case(READ, ["CHAINED", "DEVICE_FAULT"], 4, b"", failed, AS_IT_WAS)


def files_that_are_not_read():
    see = "see that it is a file that you may read"
    for words, error in {
        "enrol @ nokeys a": "cannot read nokeys: no such file",
        "check folder": "cannot read folder: is a directory",
        "read @ nokey f1": "cannot read nokey: no such file",
        "create @ keys f1 a nobody": "cannot read nobody: no such file",
        "create @ keys f1 a folder": "cannot read folder: is a directory",
        "create @ nokeys f1 a nobody": "cannot read nokeys: no such file",
        "replace @ keys f1 nobody": "cannot read nobody: no such file",
        "replace @ nokeys f1 nobody": "cannot read nokeys: no such file",
    }.items():
        case(words, [], 5, b"", error, see, asked=0)


def output_that_is_not_written():
    writable = "see that it is open, and that there is room"
    updated = ["WELCOME", "KNOWN", "ACCEPTED"]
    for words, replies, hint in [
        (ENROL, updated, NEW_USER),
        (GRANT, updated, IN_DOUBT),
        (REMOVE, ["WELCOME", "KNOWN", "ACCEPTED"], REMOVED),
        (REPLACE, ["WELCOME", "PLAN", "ACCEPTED"], REPLACED),
        (LIST, ["WELCOME", "LISTED"], writable),
        (READ, ["CHAINED", "BYTES"], writable),
        ("check keys", [], writable),
    ]:
        with open("/dev/full", "wb") as full:
            case(words, replies, 6, None, NO_OUTPUT, hint, stdout=full)
    with open("/dev/full", "wb") as full:
        found = run(client_folder(), ["--help"], stdout=full)
        assert found == (6, None, two_lines(NO_OUTPUT, writable)), found


def memory_that_is_refused():
    """At the server; and here, under each limit of addresses at which the program starts."""
    no_memory = "out of memory, here or at @"
    case(ENROL, ["WELCOME", "NO_MEMORY"], 7, b"", no_memory, NEW_USER)
    case(READ, ["NO_MEMORY"], 7, b"", no_memory, AS_IT_WAS)
    words = "create @ keys f1 a,b longest".split()
    for size in [*range(1 << 20, 16 << 20, 1 << 20), *range(16 << 20, 144 << 20, 8 << 20)]:
        limit = lambda: resource.setrlimit(resource.RLIMIT_AS, (size, size))
        try:
            starts = run(client_folder(), ["--version"], preexec_fn=limit)[0] == 0
        except OSError:
            starts = False
        if starts:
            server = Server([REPLIES[name] for name in ("WELCOME", "PLAN", "ACCEPTED")])
            try:
                found = run(client_folder(), [server.address if word == "@" else word for word in words], preexec_fn=limit)
            finally:
                server.end()
            lines = two_lines(no_memory.replace("@", server.address), FILE_IN_DOUBT)
            assert found in [(7, b"", lines), (0, b"ok 8\n", [])], (size, found)


def links_that_fail():
    hung = socket.create_server(("127.0.0.1", 0))
    closed = "127.0.0.1:%d" % hung.getsockname()[1]
    hung.close()
    refused = "cannot reach %s: connection refused" % closed
    start = "start the server, or correct the address"
    for words in ("enrol %s keys a", "list %s keys f1", "read %s key f1", "epoch %s", "users %s", "files %s a"):
        case(words % closed, [], 8, b"", refused, start, asked=0)
    for address in ("here", "127.0.0.1:port", "127.0.0.1:65536"):
        error, hint = "%s is no address" % address, "an address is HOST:PORT, as 127.0.0.1:7400"
        case("enrol %s keys a" % address, [], 8, b"", error, hint, asked=0)
    error = "cannot reach nobody.invalid:7400: no such host"
    case("enrol nobody.invalid:7400 keys a", [], 8, b"", error, "correct the address", asked=0)
    reset = "cannot reach @: connection reset"
    half = framed(REPLIES["WELCOME"])[:20]
    case(ENROL, [Broken(half, resets=True)], 8, b"", reset, OTHER_PROGRAM + NEW_USER, asked=1)
    case(GRANT, ["WELCOME", Broken(b"", resets=True)], 8, b"", reset, OTHER_PROGRAM + IN_DOUBT, asked=2)
    case(READ, ["CHAINED", Broken(b"\0\0", resets=True)], 8, b"", reset, OTHER_PROGRAM + AS_IT_WAS, asked=2)
    for raw in (b"", half, b"\0\0", b"\0\0\0\0", struct.pack(">I", 16_842_753), b"\xff" * 100):
        case(ENROL, [Broken(raw)], 8, b"", CUT_OFF, OTHER_PROGRAM + NEW_USER, asked=1)
        case(GRANT, ["WELCOME", "KNOWN", Broken(raw)], 8, b"", CUT_OFF, OTHER_PROGRAM + IN_DOUBT, asked=3)


def other_programs():
    """A web server, one of ssh and one of TLS are no overstored, and neither is what sends all bytes back."""
    for raw in (b"HTTP/1.1 400 Bad Request\r\n\r\n", b"SSH-2.0-OpenSSH_9.2\r\n", b"\x15\x03\x03\0\x02\x02\x46"):
        case(GRANT, [Broken(raw)], 8, b"", CUT_OFF, OTHER_PROGRAM + IN_DOUBT, asked=1)
        case(LIST, [Broken(raw)], 8, b"", CUT_OFF, OTHER_PROGRAM + AS_IT_WAS, asked=1)
        case(READ, [Broken(raw)], 8, b"", CUT_OFF, OTHER_PROGRAM + AS_IT_WAS, asked=1)
    case(GRANT, [b"\x01"], 11, b"", NO_ANSWER, SAME_VERSION + "; if it does, " + IN_DOUBT, asked=1)


def keys_of_others():
    error = "the store at @ has other masters than keys"
    hint = "take the key file of its settings: `base_check` is its `overctl check`, `surface` its second line"
    case(ENROL, ["WELCOME_OTHER"], 9, b"", error, hint, asked=1)
    first = hint + "; then create this file, before any other for its list"
    case(CREATE, ["WELCOME_OTHER"], 9, b"", error, first, asked=1)
    again = hint + "; then repeat this, with the same bytes, before you send any other file for its list"
    case(REPLACE, ["WELCOME_OTHER"], 9, b"", error, again, asked=1)
    case(ENROL, ["WELCOME", "KNOWN", "BAD_TAG"], 9, b"", error, hint, asked=3)
    digits = "it has two different lines of 64 hexadecimal digits"
    case("enrol @ key a", [], 10, b"", "key is no key file", digits, asked=0)
    case("check short", [], 10, b"", "short is no key file", digits, asked=0)
    case("create @ body f1 a nobody", [], 10, b"", "body is no key file", digits, asked=0)
    prints = "the owner prints one with `overctl key`"
    case("read @ keys f1", [], 10, b"", "keys is no user key line", prints, asked=0)


NO_ANSWER = "what @ replied is no answer to the request"
SAME_VERSION = "see that overstored listens there, with the `--version` of overctl"


def wrong_replies():
    hint = SAME_VERSION + "; if it does, " + NEW_USER
    for replies in (["ACCEPTED"], ["WELCOME", "LISTED"], ["WELCOME", "KNOWN", "WELCOME"], [b"\xff"], [b"\x81\x01"]):
        case(ENROL, replies, 11, b"", NO_ANSWER, hint, asked=len(replies))
    case(LIST, ["WELCOME", "KNOWN"], 11, b"", NO_ANSWER, SAME_VERSION, asked=2)
    hint = SAME_VERSION + ", and that key is of its store"
    case(READ, ["BYTES"], 11, b"", NO_ANSWER, hint, asked=1)
    case(READ, ["CHAINED", "CHAINED"], 11, b"", NO_ANSWER, hint, asked=2)


def key_lines_of_others():
    """Where the store has another root for the user the chains are no answer; else the bytes are damaged."""
    other_root = bytearray(REPLIES["CHAINED"])
    other_root[52] = 1
    hint = SAME_VERSION + ", and that key is of its store"
    case(READ, [bytes(other_root)], 11, b"", NO_ANSWER, hint, asked=1)
    damaged = "the bytes of f1 at @ are damaged, or key is of another store"
    again = "read again; if it stays so, ask the owner for a key line of this store"
    case(READ, ["CHAINED", "OTHER_BYTES"], 12, b"", damaged, again, asked=2)


def nine_stale():
    """The numbers of a new user, and that an update is stale, at nine epochs."""
    for epoch in range(1, 10):
        known = bytearray(REPLIES["KNOWN"])
        known[1:5] = struct.pack(">I", epoch)
        yield bytes(known)
        yield b"\x89" + struct.pack(">I", epoch + 1)


def others_are_faster():
    error = "others changed the store at @ in nine tries"
    case(ENROL, ["WELCOME", *nine_stale()], 13, b"", error, "try again", asked=19)


# Replies of a store's catalogue: pages of users and of files, and that there are no more.
def user_page(name):
    return b"\x87\x01" + bytes([len(name)]) + name + bytes(8)


def file_page(name):
    return b"\x87\x01" + bytes([len(name)]) + name + bytes(45)


GONE_PAGE, NO_PAGE = b"\x87\x01\0", b"\x87\0"
USERS = [user_page(b"a"), user_page(b"b"), NO_PAGE]
ALL = ["WELCOME", *USERS, file_page(b"f1"), file_page(b"f2"), NO_PAGE, "LISTED", "LISTED_NONE", "WELCOME"]
MOVED = REPLIES["WELCOME"][:5] + b"\x08" + REPLIES["WELCOME"][6:]


def questions_without_a_key():
    case("epoch @", ["WELCOME"], 0, b"mode delta\nepoch 7\n", asked=1)
    case("users @", ["WELCOME", *USERS, "WELCOME"], 0, b"a\nb\n", asked=5)
    case("users @", ["WELCOME", NO_PAGE, "WELCOME"], 0, b"", asked=3)
    case("files @", ALL, 0, b"list f1 a,b\nlist f2 -\n", asked=10)
    case("files @ b", ALL, 0, b"f1\n", asked=10)
    gone = ["WELCOME", *USERS, GONE_PAGE, file_page(b"f1"), NO_PAGE, "LISTED", "WELCOME"]
    case("files @", gone, 0, b"list f1 a,b\n", asked=9)
    error, hint = "the store at @ has no user c", "correct the name: `overctl users @` prints them"
    case("files @ c", ALL, 3, b"refused 2 NoUser\n", error, hint, asked=10)


def questions_that_are_not_answered():
    moving = ["WELCOME", NO_PAGE, MOVED]
    case("users @", [*moving, MOVED, *USERS, MOVED], 0, b"a\nb\n", asked=8)
    error = "others changed the store at @ in nine tries"
    case("users @", moving * 9, 13, b"", error, "try again", asked=27)
    case("epoch @", ["LISTED"], 11, b"", NO_ANSWER, SAME_VERSION, asked=1)
    # Behind a request that is answered wrongly one that was sent ahead may be seen.
    case("users @", ["WELCOME", file_page(b"f1")], 11, b"", NO_ANSWER, SAME_VERSION, asked=range(2, 4))
    pages = ["WELCOME", *USERS, file_page(b"f1"), file_page(b"f2"), NO_PAGE]
    removed = [*pages, b"\x88\x03"]
    left = ["WELCOME", *USERS, GONE_PAGE, file_page(b"f2"), NO_PAGE, "LISTED", "WELCOME"]
    case("files @", [*removed, *left], 0, b"list f2 a,b\n", asked=17)
    case("files @", removed * 9, 13, b"", error, "try again", asked=range(72, 74))
    case("files @", [*pages, "WELCOME"], 11, b"", NO_ANSWER, SAME_VERSION, asked=range(8, 10))
    # Up to 256 pages more are sent ahead.
    endless = ["WELCOME", *[user_page(b"a")] * 1_300]
    case("users @", endless, 11, b"", NO_ANSWER, SAME_VERSION, asked=range(1_026, 1_283))
    case("epoch @", ["NO_MEMORY"], 7, b"", "out of memory, here or at @", AS_IT_WAS)
    case("files @ a", ["WELCOME", Broken(b"")], 8, b"", CUT_OFF, OTHER_PROGRAM + AS_IT_WAS, asked=2)
    with open("/dev/full", "wb") as full:
        writable = "see that it is open, and that there is room"
        case("epoch @", ["WELCOME"], 6, None, NO_OUTPUT, writable, stdout=full)


def files_that_are_too_long():
    error, hint = "long has more than 16777216 bytes", "store it as several files"
    case("create @ keys f1 - long", [], 14, b"", error, hint, asked=0)
    case("replace @ keys f1 long", [], 14, b"", error, hint, asked=0)


# ---- questions to the owner's book


def welcome(epoch):
    """Welcome of a store of mode Full under the masters above."""
    return b"\x81\0" + struct.pack(">I", epoch) + REPLIES["WELCOME"][6:]


def accepted(epoch):
    return b"\x84" + struct.pack(">I", epoch)


def owned(folder, epoch, words, status=0):
    """A command by the book `team` at this epoch. The server accepts its update at status 0, and leaves before it at 8."""
    server = Server([welcome(epoch)] + ([accepted(epoch + 1)] if status == 0 else []))
    try:
        found = run(folder, ["own", server.address, "keys", "team", "full", *words.split()])
    finally:
        server.end()
    out = b"ok %d\n" % (epoch + 1) if status == 0 else b""
    assert found[:2] == (status, out), (words, found)


def team():
    """A folder with the book of a few updates: a, b and c, and f1 for a and c."""
    folder = client_folder()
    updates = [
        "enrol a", "enrol b", "enrol c", "create f1 a,b body", "create f2 - body", "create f3 b body",
        "grant c f1", "revoke b f1", "remove f2", "replace f3 key",
    ]
    for epoch, words in enumerate(updates):
        owned(folder, epoch, words)
    return folder, len(updates)


def all_of(folder):
    """What is in a folder: each name with its bytes, its mode and its time of change."""
    found = {}
    for path in folder.iterdir():
        about = path.lstat()
        found[path.name] = (path.read_bytes() if path.is_file() else None, about.st_mode, about.st_mtime_ns)
    return found


def locked(file):
    """Locks an open file, as programs do whose locks stay until that file is closed."""
    fcntl.fcntl(file, fcntl.F_OFD_SETLK, struct.pack("hhqqi4x", fcntl.F_WRLCK, os.SEEK_SET, 0, 0, 0))


def asked(folder, words, status, out, error=None, hint=None, **streams):
    """A question to a book, which changes nothing in its folder."""
    before = all_of(folder)
    found = run(folder, ["book", *words.split()], **streams)
    lines = [] if error is None else two_lines(error, hint)
    assert found == (status, out, lines), (words, found, (status, out, lines))
    is_in_form(lines)
    assert all_of(folder) == before, words


def questions_to_a_book():
    folder, epoch = team()
    book = "keys team full "
    lists = b"list f1 a,c\nlist f3 b\n"
    asked(folder, book + "users", 0, b"a\nb\nc\n")
    asked(folder, book + "list f1", 0, b"list f1 a,c\n")
    asked(folder, book + "files", 0, lists)
    asked(folder, book + "files c", 0, b"f1\n")
    asked(folder, book + "files b", 0, b"f3\n")
    asked(folder, book + "epoch", 0, b"epoch %d\n" % epoch)
    asked(folder, book + "pending", 0, b"settled %d\n" % epoch)
    asked(folder, book + "key c", 0, KEY_LINE.encode())
    no_user = "correct the name, or enrol the user first"
    for words in ("key d", "files d"):
        asked(folder, book + words, 3, b"refused 2 NoUser\n", "the book team refuses the question: 2 NoUser", no_user)
    for words in ("list f2", "list f4"):
        asked(folder, book + words, 3, b"refused 3 NoFile\n", "the book team refuses the question: 3 NoFile", NO_FILE)
    # What the server tells of c's roots is another matter, by a book and without one.
    lie = bytearray(REPLIES["KNOWN_C"])
    lie[9:17] = struct.pack(">II", 0, 0)
    other = client_folder()
    server = Server([REPLIES["WELCOME"], bytes(lie)])
    try:
        status, line, _ = run(other, ["key", server.address, "keys", "c"])
    finally:
        server.end()
    assert status == 0 and line.startswith(b"c 0 ") and line != KEY_LINE.encode(), line
    # Neither file has to be writable, and the longer one needn't be there.
    for name in ("team.book", "team.blobs"):
        (folder / name).chmod(0o400)
    asked(folder, book + "files", 0, lists)
    (folder / "team.blobs").unlink()
    asked(folder, book + "files", 0, lists)


def updates_that_are_pending():
    """An update that was written down and not made is told of, and answers nothing else."""
    for words, line in {
        "enrol d": b"enrol d",
        "create f4 a,c body": b"create f4 a,c",
        "create f4 - body": b"create f4 -",
        "grant b f1": b"grant b f1",
        "revoke c f1": b"revoke c f1",
        "remove f1": b"remove f1",
        "replace f1 key": b"replace f1",
    }.items():
        folder, epoch = team()
        owned(folder, epoch, words, status=8)
        book = "keys team full "
        asked(folder, book + "pending", 0, b"pending %d %s\n" % (epoch, line))
        asked(folder, book + "users", 0, b"a\nb\nc\n")
        asked(folder, book + "files", 0, b"list f1 a,c\nlist f3 b\n")
        asked(folder, book + "epoch", 0, b"epoch %d\n" % epoch)
        found = run(folder, ["book", *(book + "key d").split()])
        assert found[:2] == (3, b"refused 2 NoUser\n"), (words, found)
        server = Server([welcome(epoch + 1)])
        try:
            found = run(folder, ["own", server.address, "keys", "team", "full", "resume"])
        finally:
            server.end()
        assert found == (0, b"ok %d\n" % (epoch + 1), []), found
        asked(folder, book + "pending", 0, b"settled %d\n" % (epoch + 1))


def books_that_do_not_answer():
    folder, _ = team()
    (folder / "others").write_text("\n".join(reversed(KEYS.split())) + "\n")
    (folder / "others").chmod(0o600)
    (folder / "text.book").write_text("no book " * 20)
    (folder / "empty.book").write_bytes(b"")
    (folder / "late.book").mkdir()
    damaged = bytearray((folder / "team.book").read_bytes())
    damaged[84] ^= 1
    (folder / "bad.book").write_bytes(damaged)
    other = "take the key file and the mode that it was begun with"
    asked(folder, "others team full users", 9, b"", "the book team has other masters than others, or another mode", other)
    asked(folder, "keys team delta users", 9, b"", "the book team has other masters than keys, or another mode", other)
    digits = "it has two different lines of 64 hexadecimal digits"
    asked(folder, "short team full users", 10, b"", "short is no key file", digits)
    see = "see that it is a file that you may read"
    asked(folder, "nokeys team full users", 5, b"", "cannot read nokeys: no such file", see)
    for path in ("nobody", "text", "empty", "bad", "folder/team", "nofolder/team"):
        error = "%s.book isn't there, is no book, or is damaged" % path
        hint = "correct the path, or restore %s.book and %s.blobs from a copy" % (path, path)
        asked(folder, "keys %s full users" % path, 18, b"error book\n", error, hint)
    hint = "see that you may read both, and that no `overctl own` has them now"
    error = "late.book or late.blobs cannot be read"
    asked(folder, "keys late full users", 17, b"error disk\n", error, hint)
    # A command by the book has its files locked.
    with open(folder / "team.book", "r+b") as held:
        locked(held)
        asked(folder, "keys team full users", 17, b"error disk\n", "team.book or team.blobs cannot be read", hint)
    with open("/dev/full", "wb") as full:
        writable = "see that it is open, and that there is room"
        asked(folder, "keys team full users", 6, None, NO_OUTPUT, writable, stdout=full)


def words_that_are_no_question():
    folder = client_folder()
    name = "1 to 64 of a-z, 0-9, `.`, `_`, `-`, a letter or digit first"
    many = "there are too many words, or an unknown option"
    for words, error in {
        "": "words are missing",
        "keys team full": "words are missing",
        "keys team full key": "words are missing",
        "keys team full list": "words are missing",
        "keys team fully users": "`fully` is no mode: full or delta",
        "keys team full read f1": "`read` is no question to a book: key, list, users, files, epoch or pending",
        "keys team full key Al": "`Al` is no name: " + name,
        "keys team full files Al": "`Al` is no name: " + name,
        "keys team full users a": many,
        "keys team full epoch a": many,
        "keys team full pending a": many,
        "keys team full key a b": many,
        "keys team full users --quiet": many,
    }.items():
        usage = "use `overctl book KEYS BOOK MODE QUESTION [NAME]`"
        found = run(folder, ["book", *words.split()])
        assert found == (2, b"", two_lines(error, usage)), (words, found)


# ---- options


def state(folder):
    """The names and the bytes of what is in a folder."""
    return {path.name: path.read_bytes() for path in folder.iterdir() if path.is_file()}


def mode(path):
    return path.stat().st_mode & 0o777


def results_in_files():
    """With -o the result is in a file: as a whole, or the file is as it was; and nothing else is left beside it."""
    for option in ("-o new", "--output new", "--output=new"):
        folder = client_folder()
        before = state(folder)
        case("%s %s" % (READ, option), ["CHAINED", "BYTES"], 0, b"", asked=2, folder=folder)
        assert state(folder) == {**before, "new": b"x1"}
        assert mode(folder / "new") == 0o666 & ~MASK
    folder = client_folder()
    (folder / "new").write_bytes(b"an older one")
    (folder / "new").chmod(0o640)
    (folder / "new.part0").write_bytes(b"another's")
    before = state(folder)
    case("-o new " + READ, ["CHAINED", "BYTES"], 0, b"", folder=folder)
    assert state(folder) == {**before, "new": b"x1"} and mode(folder / "new") == 0o640 & ~MASK
    # a key line is for its owner alone, whatever was there
    (folder / "new").chmod(0o644)
    case(KEY + " -o new", ["WELCOME", "KNOWN_C"], 0, b"", folder=folder)
    assert state(folder) == {**before, "new": KEY_LINE.encode()} and mode(folder / "new") == 0o600
    # a link is replaced itself
    (folder / "link").symlink_to("new")
    case(READ + " -o link", ["CHAINED", "BYTES"], 0, b"", folder=folder)
    assert not (folder / "link").is_symlink() and (folder / "link").read_bytes() == b"x1"
    assert (folder / "new").read_bytes() == KEY_LINE.encode()


def files_that_stay():
    """At each status but 0 the file is as it was, and a refusal is on standard output."""
    as_is = [
        ([b"\x88\x04"], 3, b"refused 4 NoPath\n", "@ refuses the command: 4 NoPath", NO_PATH),
        (["CHAINED", "DEVICE_FAULT"], 4, b"", "the disk of the store at @ failed", AS_IT_WAS),
        (["NO_MEMORY"], 7, b"", "out of memory, here or at @", AS_IT_WAS),
        (["CHAINED", Broken(b"")], 8, b"", CUT_OFF, OTHER_PROGRAM + AS_IT_WAS),
        (["BYTES"], 11, b"", NO_ANSWER, SAME_VERSION + ", and that key is of its store"),
    ]
    for exists in (False, True):
        folder = client_folder()
        if exists:
            (folder / "new").write_bytes(b"an older one")
        before = state(folder)
        for replies, status, out, error, hint in as_is:
            case(READ + " -o new", replies, status, out, error, hint, folder=folder)
            assert state(folder) == before, status
    with open("/dev/full", "wb") as full:
        writable = "see that it is open, and that there is room"
        case(READ + " -o new", [b"\x88\x04"], 6, None, NO_OUTPUT, writable, stdout=full, folder=folder)
    assert state(folder) == before
    case("read @ nokey f1 -o new", [], 5, b"", "cannot read nokey: no such file", "see that it is a file that you may read", folder=folder)
    assert state(folder) == before


def files_that_are_not_written():
    """Where no result can be put in a file's place nothing is asked; where a call fails the file is as it was."""
    folder = client_folder()
    (folder / "new").write_bytes(b"an older one")
    (folder / "again").hardlink_to(folder / "key")
    before = state(folder)
    other = "take another path behind `-o`"
    for path in ("folder", "/dev/null"):
        case("%s -o %s" % (READ, path), [], 6, b"", "cannot write %s: it is no regular file" % path, other, asked=0, folder=folder)
    for words, path in ((READ, "key"), (READ, "again"), (KEY, "keys"), (KEY, "./keys")):
        error = "cannot write %s: it has the keys of this command" % path
        case("%s -o %s" % (words, path), [], 6, b"", error, other, asked=0, folder=folder)
    room = "see that you may write in its folder, and that there is room: it is as it was"
    case(READ + " -o no/new", ["CHAINED", "BYTES"], 6, b"", "cannot write no/new: no such folder", room, folder=folder)
    limit = lambda: (
        signal.signal(signal.SIGXFSZ, signal.SIG_IGN),
        resource.setrlimit(resource.RLIMIT_FSIZE, (1, 1)),
    )
    error = "cannot write new: file too large"
    case(READ + " -o new", ["CHAINED", "BYTES"], 6, b"", error, room, folder=folder, preexec_fn=limit)
    assert state(folder) == before


def options_that_are_wrong():
    folder = client_folder()
    saves = "use `-o FILE` with `overctl read` and `overctl key`"
    waits = "use `--timeout SECONDS` with a command that asks a server"
    sure = "use `--yes` with `remove` and `replace`, by a book too"
    read = "read here:1 key f1 "
    for words, error, hint in [
        (read + "-o", "`--output` is without its value", saves),
        (read + "-o -", "`--output` is without its value", saves),
        (read + "--output=", "`--output` is without its value", saves),
        (read + "-o --timeout 5", "`--output` is without its value", saves),
        (read + "-o a --output b", "`--output` is given twice", saves),
        (read + "--timeout", "`--timeout` is without its value", waits),
        (read + "--timeout 1 --timeout=2", "`--timeout` is given twice", waits),
        (read + "--timeout 0", "`0` is no number of seconds from 1 to 86400", waits),
        (read + "--timeout 86401", "`86401` is no number of seconds from 1 to 86400", waits),
        (read + "--timeout=5s", "`5s` is no number of seconds from 1 to 86400", waits),
        (read + "--timeout +5", "`+5` is no number of seconds from 1 to 86400", waits),
        ("list here:1 keys f1 -o new", "the command doesn't have `--output`", saves),
        ("files here:1 -o new", "the command doesn't have `--output`", saves),
        ("check keys --timeout 5", "the command doesn't have `--timeout`", waits),
        ("--yes enrol here:1 keys a", "the command doesn't have `--yes`", sure),
        ("remove here:1 keys f1 --yes --yes", "`--yes` is given twice", sure),
    ]:
        found = run(folder, words.split())
        assert found == (2, b"", two_lines(error, hint)), (words, found)
        is_in_form(found[2])
    # other words that look like options are named by the line
    found = run(folder, "remove here:1 keys f1 --yes --force".split())
    assert found == (2, b"", two_lines("there are too many words, or an unknown option", "use `overctl remove ADDRESS KEYS FILE`")), found


def waits_that_end():
    """With --timeout a command ends with 8 once nothing came for so long; after five seconds of a wait it says what it
    waits for, with a limit or without."""
    busy = "it may be busy, or another program may listen there; if it is overstored, "
    replies = "waiting for @ to reply"
    for words, hint in ((LIST, AS_IT_WAS), (GRANT, IN_DOUBT), ("files @ a", AS_IT_WAS)):
        began = time.monotonic()
        case(words + " --timeout 1", [Late(2, "WELCOME")], 8, b"", "no reply from @ for 1 s", busy + hint, asked=1)
        assert 0.9 < time.monotonic() - began < 4
    began = time.monotonic()
    case("--timeout=6 " + LIST, [Late(7, "WELCOME")], 8, b"", "no reply from @ for 6 s", busy + AS_IT_WAS, note=replies, asked=1)
    assert 5.9 < time.monotonic() - began < 9
    # what comes in time is taken, however long the whole command is
    late = [Late(0.7, "WELCOME"), Late(0.7, "LISTED")]
    case(LIST + " --timeout 1", late, 0, b"list f1 a,b\n", asked=2)
    late = [Late(6, "WELCOME"), Late(6, "LISTED")]
    case(LIST, late, 0, b"list f1 a,b\n", note=replies, asked=2)


def requests_that_are_not_taken():
    """A server that takes no more of a request: the wait for that ends too."""
    with socket.create_server(("127.0.0.1", 0)) as listener:
        listener.setsockopt(socket.SOL_SOCKET, socket.SO_RCVBUF, 4096)
        address = "127.0.0.1:%d" % listener.getsockname()[1]

        def serve():
            stream, _ = listener.accept()
            with stream:
                request(stream)
                stream.sendall(framed(REPLIES["WELCOME"]))
                request(stream)
                stream.sendall(framed(REPLIES["PLAN"]))
                # A call that was given some room says so only when its second is over.
                gone.wait(SECONDS)

        gone = threading.Event()
        serving = threading.Thread(target=serve)
        serving.start()
        try:
            found = run(client_folder(), ["create", address, "keys", "f1", "a,b", "longest", "--timeout", "6"])
        finally:
            gone.set()
            serving.join()
    busy = "it may be busy, or another program may listen there; if it is overstored, "
    lines = ["overctl: note: waiting for %s to take the request" % address]
    assert found == (8, b"", lines + two_lines("no reply from %s for 6 s" % address, busy + FILE_IN_DOUBT)), found


def connections_that_are_not_taken():
    """A server with as many connections waiting as it may have: further ones get no answer."""
    with socket.create_server(("127.0.0.1", 0), backlog=0) as listener:
        address = "127.0.0.1:%d" % listener.getsockname()[1]
        waiting = []
        for _ in range(4):
            stream = socket.socket()
            stream.setblocking(False)
            stream.connect_ex(listener.getsockname())
            waiting.append(stream)
        time.sleep(0.2)
        network = "check the address and the network; if it was reached, "
        lines = two_lines("cannot reach %s: timed out" % address, network + AS_IT_WAS)
        began = time.monotonic()
        found = run(client_folder(), ["epoch", address, "--timeout", "1"])
        assert found == (8, b"", lines) and 0.9 < time.monotonic() - began < 4, found
        found = run(client_folder(), ["epoch", address, "--timeout", "7"])
        said = "overctl: note: waiting for %s to take the connection" % address
        assert found == (8, b"", [said, *lines]) and 6.9 < time.monotonic() - began < 12, found
        for stream in waiting:
            stream.close()


def names_that_are_not_enrolled():
    """Where a creation is refused for that it asks which names of the list they are, over the same session."""
    refused = "@ refuses the command: 2 NoUser"
    enrol = "correct the name, or enrol the user first"
    no_user = b"\x88\x02"
    line = b"refused 2 NoUser\n"
    unknown = ["WELCOME", no_user, "KNOWN_C", no_user]
    case(CREATE, unknown, 3, line, refused, enrol, note="not enrolled: b", asked=4)
    unknown = ["WELCOME", no_user, no_user, no_user]
    case(CREATE, unknown, 3, line, refused, enrol, note="not enrolled: a,b", asked=4)
    # who was enrolled meanwhile isn't named, and a server that leaves ends the questions
    case(CREATE, ["WELCOME", no_user, "KNOWN_C", "KNOWN_C"], 3, line, refused, enrol, asked=4)
    case(CREATE, ["WELCOME", no_user, Broken(b"")], 3, line, refused, enrol, asked=3)
    case(GRANT, ["WELCOME", no_user], 3, line, refused, enrol, asked=2)


def books_that_are_in_use():
    """The file of the book that another process has is named."""
    folder = client_folder()
    with open(folder / "team.book", "wb") as book:
        locked(book)
        status, out, lines = run(folder, "own here:1 keys team delta enrol a".split())
    assert (status, out) == (17, b"error disk\n"), (status, out, lines)
    assert lines[0] == "overctl: error: team.book is in use by another process", lines


# ---- scripts

SCRIPT = "script @ keys"
SCRIPT_IN_DOUBT = (
    "what was replied to lasts, and the command behind it may be done: look with `overctl files` before you run the "
    "rest; a creation or a replacement goes again, with the same bytes, before any other file for its list"
)
BAD_ITEM = (
    "overstore-script(5) has the forms of lines; what was answered before lasts; "
    "correct it, and run from there on as a script of its own"
)


def scripts():
    """Each item is asked for and answered in its turn, over one session, and the epoch at the end."""
    case(SCRIPT, ["WELCOME", "WELCOME"], 0, b"end epoch 7\n", asked=2, script=b"")
    updated = ["KNOWN", "ACCEPTED"]
    for item, replies, line in [
        (b"enrol a\n", updated, b"ok 8\n"),
        (b"grant a f1\n", updated, b"ok 8\n"),
        (b"revoke a f1\n", updated, b"ok 8\n"),
        (b"remove f1\n", updated, b"ok 8\n"),
        (b"create f1 a,b 2\nx1\n", ["PLAN", "ACCEPTED"], b"ok 8\n"),
        (b"replace f1 2\nx1\n", ["PLAN", "ACCEPTED"], b"ok 8\n"),
        (b"list f1\n", ["LISTED"], b"list f1 a,b\n"),
        (b"list f1\n", ["LISTED_NONE"], b"list f1 -\n"),
        (b"epoch\n", [welcome(9)], b"epoch 9\n"),
        (b"read c f1\n", ["KNOWN_C", "CHAINED", "BYTES"], b"data c f1 2\nx1\n"),
        (b"enrol a\n", ["REFUSED"], b"refused 1 Taken\n"),
        (b"list f1\n", ["NO_FILE"], b"refused 3 NoFile\n"),
        (b"read c f1\n", [b"\x88\x02"], b"refused 2 NoUser\n"),
        (b"read c f1\n", ["KNOWN_C", b"\x88\x04"], b"refused 4 NoPath\n"),
    ]:
        for count in (1, 3):
            asked = 2 + count * len(replies)
            all_replies = ["WELCOME", *replies * count, welcome(8)]
            case(SCRIPT, all_replies, 0, line * count + b"end epoch 8\n", asked=asked, script=item * count)


def scripts_that_end_early():
    """At a bad item and at a fault: what was replied to before stands there, and nothing more is asked."""
    bad = lambda line: "line %d of the script is no item" % line
    for script, line in {
        b"list f1\nGrant a\n": 2,
        b"list f1\ngrant a,": 2,
        b"list f1\ncreate f1 a 2\nx1": 2,
        b"list f1\n\nlist f1\n": 2,
        b"list f1\nread c f1": 2,
    }.items():
        out = b"list f1 a,b\nerror line %d\n" % line
        case(SCRIPT, ["WELCOME", "LISTED"], 20, out, bad(line), BAD_ITEM, asked=2, script=script)
    case(SCRIPT, ["WELCOME"], 20, b"error line 1\n", bad(1), BAD_ITEM, asked=1, script=b"x")
    two, first = b"list f1\nenrol a\n", b"list f1 a,b\n"
    again = "have the server started again; "
    started = ["WELCOME", "LISTED", "KNOWN"]
    case(SCRIPT, [*started, "DEVICE_FAULT"], 4, first, "the disk of the store at @ failed", again + SCRIPT_IN_DOUBT, script=two)
    case(SCRIPT, [*started, "NO_MEMORY"], 7, first, "out of memory, here or at @", SCRIPT_IN_DOUBT, script=two)
    case(SCRIPT, started, 8, first, CUT_OFF, OTHER_PROGRAM + SCRIPT_IN_DOUBT, asked=4, script=two)
    case(SCRIPT, ["WELCOME", "LISTED"], 8, first, CUT_OFF, OTHER_PROGRAM + SCRIPT_IN_DOUBT, asked=3, script=b"list f1\n")
    settings = "take the key file of its settings: `base_check` is its `overctl check`, `surface` its second line"
    others = "the store at @ has other masters than keys"
    case(SCRIPT, [*started, "BAD_TAG"], 9, first, others, settings, script=two)
    case(SCRIPT, ["WELCOME_OTHER"], 9, b"", others, settings, asked=1, script=two)
    no_answer = "see that overstored listens there, with the `--version` of overctl; if it does, "
    wrong = "what @ replied is no answer to the request"
    case(SCRIPT, ["WELCOME", "LISTED", "LISTED"], 11, first, wrong, no_answer + SCRIPT_IN_DOUBT, asked=3, script=two)
    case(
        SCRIPT, ["WELCOME", "KNOWN_C", "CHAINED", "OTHER_BYTES"], 12, b"",
        "the bytes of a file at @ are damaged, or keys is of another store",
        "read it again; if it stays so, try a copy of the store with `overstore run MODE < /dev/null`",
        script=b"read c f1\n",
    )
    case(
        SCRIPT, ["WELCOME", "LISTED", *nine_stale()], 13, first, "others changed the store at @ in nine tries",
        "what was replied to lasts: run the script from the command behind it on", script=two,
    )
    see = "see that it is a file that you may read"
    case("script @ nokeys", [], 5, b"", "cannot read nokeys: no such file", see, asked=0, script=two)
    digits = "it has two different lines of 64 hexadecimal digits"
    case("script @ body", [], 10, b"", "body is no key file", digits, asked=0, script=two)
    with open("/dev/full", "wb") as full:
        look = (
            "the command whose line is missing may be done: look with `overctl epoch` and `overctl files` before you run "
            "the rest"
        )
        case(SCRIPT, ["WELCOME", "LISTED"], 6, None, NO_OUTPUT, look, asked=2, script=two, stdout=full)
    folder = os.open(client_folder(), os.O_RDONLY)
    case(SCRIPT, ["WELCOME"], 5, b"", "cannot read standard input", see, asked=1, stdin=folder)
    os.close(folder)


def replies_before_more_is_read():
    """A reply comes while the script is still open."""
    server = Server([REPLIES["WELCOME"], REPLIES["LISTED"], REPLIES["LISTED_NONE"], REPLIES["WELCOME"]])
    words = [PROGRAM, "script", server.address, "keys"]
    with subprocess.Popen(words, cwd=client_folder(), stdin=subprocess.PIPE, stdout=subprocess.PIPE) as client:
        for line in (b"list f1 a,b\n", b"list f1 -\n"):
            client.stdin.write(b"list f1\n")
            client.stdin.flush()
            assert client.stdout.readline() == line
        client.stdin.close()
        assert client.stdout.read() == b"end epoch 7\n"
    assert client.returncode == 0
    server.end()


# ---- a terminal


def on_terminal(folder, words, replies, typed):
    """A run whose standard input and standard error are a terminal, at which this is typed where something is asked:
    the status, what it puts, what the terminal shows of it, and what was asked of the server."""
    server = Server([REPLIES[reply] if isinstance(reply, str) else reply for reply in replies])
    ours, its = pty.openpty()
    words = [word.replace("@", server.address) for word in words.split()]
    process = subprocess.Popen([PROGRAM, *words], cwd=folder, stdin=its, stderr=its, stdout=subprocess.PIPE)
    os.close(its)
    shown = b""
    try:
        while select.select([ours], [], [], SECONDS)[0]:
            piece = os.read(ours, 4096)
            shown += piece
            if b"[y/N] " in piece:
                os.write(ours, typed)
    except OSError:
        # The program ended, and the terminal with it.
        pass
    out, _ = process.communicate(timeout=SECONDS)
    os.close(ours)
    server.end()
    return process.returncode, out, shown.decode().replace(server.address, "@"), len(server.asked)


def questions_on_a_terminal():
    """A removal, and a replacement by an empty file, are asked about where somebody can answer, and else aren't."""
    removes = ["WELCOME", "KNOWN", "ACCEPTED"]
    replaces = ["WELCOME", "PLAN", "ACCEPTED"]
    folder = client_folder()
    (folder / "empty").touch()
    question = "overctl: remove f1 from the store at @ for all its readers? [y/N] "
    emptied = "overctl: empty is empty: replace f1 in the store at @ by no bytes? [y/N] "
    empty = "replace @ keys f1 empty"
    for words, replies, asks in ((REMOVE, removes, question), (empty, replaces, emptied)):
        for typed in (b"y\n", b"Y\n", b"yes\n"):
            status, out, shown, asked = on_terminal(folder, words, replies, typed)
            assert (status, out, asked) == (0, b"ok 8\n", 3) and shown.startswith(asks), (words, typed, status, shown)
        for typed in (b"\n", b"n\n", b"yeah\n", b"\x04"):
            status, out, shown, asked = on_terminal(folder, words, replies, typed)
            assert (status, out, asked) == (2, b"", 0) and shown.startswith(asks), (words, typed, status, shown)
            assert "overctl: error: the answer isn't `y`, so nothing was sent" in shown, shown
        status, out, shown, asked = on_terminal(folder, words + " --yes", replies, b"n\n")
        assert (status, out, shown, asked) == (0, b"ok 8\n", "", 3), (words, status, shown)
        # where standard input is no terminal nobody can answer
        case(words, replies, 0, b"ok 8\n", asked=3, folder=folder)
    for words, replies in ((REPLACE, replaces), (GRANT, removes)):
        assert on_terminal(folder, words, replies, b"n\n") == (0, b"ok 8\n", "", 3), words
    status, out, shown, asked = on_terminal(folder, "own @ keys team delta remove f1", [], b"n\n")
    assert (status, out, asked) == (2, b"", 0) and shown.startswith(question), (status, shown)
    assert not (folder / "team.book").exists()


# ---- words


def words_that_are_no_line():
    folder = client_folder()
    usage = "use `overctl %s`"
    lines = {
        "enrol": "ADDRESS KEYS USER",
        "create": "ADDRESS KEYS FILE LIST PATH",
        "grant": "ADDRESS KEYS USER FILE",
        "revoke": "ADDRESS KEYS USER FILE",
        "remove": "ADDRESS KEYS FILE",
        "replace": "ADDRESS KEYS FILE PATH",
        "list": "ADDRESS KEYS FILE",
        "key": "ADDRESS KEYS USER",
        "read": "ADDRESS USERKEY FILE",
        "check": "KEYS",
        "epoch": "ADDRESS",
        "users": "ADDRESS",
        "script": "ADDRESS KEYS",
    }
    name = "1 to 64 of a-z, 0-9, `.`, `_`, `-`, a letter or digit first"
    cases = [
        ([], "no command is given", "--help"),
        (["help"], "`help` is no command", "--help"),
        (["Enrol", "here:1", "keys", "a"], "`Enrol` is no command", "--help"),
        (["--keys"], "there are too many words, or an unknown option", "--help"),
        (["enrol", "here:1", "keys", "Al"], "`Al` is no name: " + name, "enrol " + lines["enrol"]),
        (["grant", "here:1", "keys", "a", "_"], "`_` is no name: " + name, "grant " + lines["grant"]),
        (
            ["create", "here:1", "keys", "f", "a,,b", "body"],
            "`a,,b` is no list: names with commas between, or `-`, in 70000 bytes at most",
            "create " + lines["create"],
        ),
        (["files"], "words are missing", "files ADDRESS [USER]"),
        (["files", "here:1", "Al"], "`Al` is no name: " + name, "files ADDRESS [USER]"),
        (["files", "here:1", "a", "b"], "there are too many words, or an unknown option", "files ADDRESS [USER]"),
    ]
    for command, line in lines.items():
        count = len(line.split())
        for words, error in [
            (["a"] * (count - 1), "words are missing"),
            (["a"] * (count + 1), "there are too many words, or an unknown option"),
            (["a"] * count + ["--quiet"], "there are too many words, or an unknown option"),
        ]:
            cases.append(([command, *words], error, command + " " + line))
    for words, error, line in cases:
        found = run(folder, words)
        assert found == (2, b"", two_lines(error, usage % line)), (words, found)
        is_in_form(found[2])
    found = run(folder, [b"enrol", b"\xff", b"keys", b"a"])
    assert found == (2, b"", two_lines("a word is no text", usage % "--help")), found


def options_of(words):
    """The options that this command has, or all."""
    if words in (["check"], ["book"]):
        return []
    output = ["--output"] if words in ([], ["read"], ["key"]) else []
    yes = ["--yes"] if words in ([], ["remove"], ["replace"], ["own"]) else []
    return [*output, "--timeout", *yes]


def help_and_version():
    folder = client_folder()
    commands = "enrol create grant revoke remove replace list key read check epoch users files own book script".split()
    statuses = [0, *range(2, 15)]
    for words in ([], *[[command] for command in commands]):
        for flag in ("--help", "-h"):
            status, out, told = run(folder, [*words, flag])
            lines = out.decode().splitlines()
            assert (status, told) == (0, []), (words, status, told)
            # that of all commands has a line for each
            assert len(lines) <= (24 if words else 16 + len(commands)) and max(map(len, lines)) <= 80, out.decode()
            has = [option for option in ("--output", "--timeout", "--yes") if option in out.decode()]
            assert has == options_of(words), (words, has)
            assert any(line.startswith("Example: overctl ") for line in lines), out.decode()
            table = out.decode().split("Exit status:")[1]
            # a command by the owner's book has no 12 and 13, and five of its own
            owns = [0, *range(2, 12), *range(14, 20)]
            # a question to it asks no server
            asks = [0, 2, 3, 5, 6, 7, 9, 10, 17, 18]
            # a script is refused nothing as a whole, and has one for its bad items
            scripted = [0, 2, *range(4, 15), 20]
            wanted = {"own": owns, "book": asks, "script": scripted}.get("".join(words), statuses)
            assert sorted(map(int, re.findall(r"(?:^| )(\d+) (?=[a-z])", table))) == wanted, table
    status, out, told = run(folder, ["--version"])
    assert (status, out.decode(), told) == (0, "overctl %s\n" % VERSION, []), out


def keys_that_others_read():
    """A file of keys is read whatever its mode, with a warning where others may."""
    folder = client_folder()
    for mode in (0o600, 0o400, 0o700, 0o640, 0o604, 0o644):
        (folder / "keys").chmod(mode)
        warned = [
            "overctl: warning: keys can be read by others",
            "overctl: hint: keep it to yourself by `chmod 600 keys`",
        ] if mode & 0o044 else []
        found = run(folder, ["check", "keys"])
        assert found == (0, CHECK.encode() + b"\n", warned), (oct(mode), found)
    (folder / "short").chmod(0o644)
    status, _, lines = run(folder, ["check", "short"])
    assert status == 10 and lines[0] == "overctl: warning: short can be read by others" and len(lines) == 4, lines


def keys_in_a_pipe():
    """A file of keys may be a pipe, which is opened once."""
    folder = client_folder()
    os.mkfifo(folder / "pipe", 0o600)
    for words, status in ((["check", "pipe"], 0), (["create", "here:1", "pipe", "f", "-", "nobody"], 5)):
        writer = threading.Thread(target=(folder / "pipe").write_text, args=(KEYS,))
        writer.start()
        found = run(folder, words)
        writer.join()
        assert found[0] == status, (words, found)
    assert found[2][0] == "overctl: error: cannot read nobody: no such file", found


def closed_streams():
    """No file comes to stand where a standard stream was closed."""
    folder = client_folder()
    for closed, status in (("<&-", 0), (">&-", 6), ("2>&-", 0)):
        done = subprocess.run('"%s" check keys %s' % (PROGRAM, closed), cwd=folder, shell=True, capture_output=True)
        assert done.returncode == status, (closed, done)
        assert (folder / "keys").read_text() == KEYS


def no_place_can_be_held():
    """Where /dev/null isn't there, no file is opened, since it might come to stand where a stream was closed."""
    if os.geteuid() != 0:
        return
    done, _ = run_without_devices(client_folder(), PROGRAM, "check", "keys")
    assert (done.returncode, done.stdout) == (6, b""), done
    assert b"overctl: error: /dev/null cannot be opened" in done.stderr, done.stderr


CASES = [
    commands,
    refusals_and_disks,
    files_that_are_not_read,
    output_that_is_not_written,
    memory_that_is_refused,
    links_that_fail,
    other_programs,
    keys_of_others,
    wrong_replies,
    key_lines_of_others,
    others_are_faster,
    questions_without_a_key,
    questions_that_are_not_answered,
    files_that_are_too_long,
    questions_to_a_book,
    updates_that_are_pending,
    books_that_do_not_answer,
    words_that_are_no_question,
    results_in_files,
    files_that_stay,
    files_that_are_not_written,
    options_that_are_wrong,
    waits_that_end,
    requests_that_are_not_taken,
    connections_that_are_not_taken,
    names_that_are_not_enrolled,
    books_that_are_in_use,
    scripts,
    scripts_that_end_early,
    replies_before_more_is_read,
    questions_on_a_terminal,
    words_that_are_no_line,
    help_and_version,
    keys_that_others_read,
    keys_in_a_pipe,
    closed_streams,
    no_place_can_be_held,
]

for one in CASES:
    one()
    print(one.__name__, flush=True)
print("all cases passed")
