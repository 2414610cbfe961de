"""What altered_answers.py makes its attacks with: somebody in the middle, a store at an honest server, and what anyone
can take out of frames and of the public catalogue. The server, the client and `overstore` are the words of that tool.
"""
import functools
import hashlib
import operator
import pathlib
import shutil
import socket
import struct
import subprocess
import sys
import threading

from common import KEYS, framed, keyed, new_folder, started
from network_cases import CLIENT, SERVER, ask, settings
from network_frames import name, u32

# The third word of the tools that run `overstore`; others do without.
PROGRAM = str(pathlib.Path(sys.argv[3]).resolve()) if len(sys.argv) > 3 else None
REPORT = b"Sales fell by a third.\n"
# The kinds of requests and answers that are changed or made up.
ASK, COVER, UPDATE, CHAIN, CHUNK = range(2, 7)
KNOWN, PLAN, ACCEPTED, CHAINED, BYTES = range(0x82, 0x87)


# ---- in the middle


def frame_from(stream):
    """The next frame, or none where the other side has left."""
    head = stream.read(4)
    return stream.read(struct.unpack(">I", head)[0]) if len(head) == 4 else None


class Between:
    """Passes frames on between clients and a server, and notes the requests. `change_request` takes a request, and
    `change_answer` a request and its answer; what each gives goes on in its place."""

    def __init__(self, port, change_request=lambda frame: frame, change_answer=lambda frame, answer: answer):
        self.port, self.change_request, self.change_answer = port, change_request, change_answer
        self.noted = []
        self.listener = socket.create_server(("127.0.0.1", 0))
        self.address = "127.0.0.1:%d" % self.listener.getsockname()[1]
        threading.Thread(target=self.serve, daemon=True).start()

    def serve(self):
        while True:
            client, _ = self.listener.accept()
            with client, socket.create_connection(("127.0.0.1", self.port)) as server:
                self.pass_on(client, server)

    def pass_on(self, client, server):
        requests, answers = client.makefile("rb"), server.makefile("rb")
        while (frame := frame_from(requests)) is not None:
            self.noted.append(frame)
            server.sendall(framed(self.change_request(frame)))
            client.sendall(framed(self.change_answer(frame, frame_from(answers))))

    def update(self):
        """The first update that was sent."""
        return next(frame for frame in self.noted if frame[0] == UPDATE)


def first_of(kind, change):
    """Changes the first answer of this kind, and no other."""
    left = [change]
    return lambda frame, answer: left.pop()(answer) if left and answer[0] == kind else answer


def past(answer):
    """The epoch before the answer's. An honest server refuses an update for it as stale, and the owner asks again."""
    return u32(struct.unpack(">I", answer[1:5])[0] - 1)


# ---- an owner, readers and an honest server


class Server:
    """A server over the store of a folder, and its owner and readers there."""

    def __init__(self, folder):
        self.folder = folder
        shutil.copy(KEYS, folder)
        (folder / "keys.hex").chmod(0o600)
        (folder / "settings.toml").touch(0o600)
        (folder / "settings.toml").write_text(settings(1_000_000, mode="full"))
        self.process, self.address = started(folder, SERVER, "settings.toml")
        self.port = int(self.address.rsplit(":", 1)[1])

    def client(self, *words):
        return subprocess.run([CLIENT, *words], cwd=self.folder, check=True, capture_output=True).stdout

    def owner(self, command, *words, over=None):
        """A command of the owner's, to the server or over somebody in the middle."""
        return self.client(command, (over or self).address, "keys.hex", *words)

    def create(self, file, users, text, over=None):
        (self.folder / "bytes").write_bytes(text)
        return self.owner("create", file, users, "bytes", over=over)

    def reader(self, line, file, over=None):
        """What a reader with this key line gets of the file."""
        (self.folder / "line").write_bytes(line)
        return self.client("read", (over or self).address, "line", file)

    def asked(self, frame):
        """The answer to a request, which anyone may send."""
        with socket.create_connection(("127.0.0.1", self.port)) as stream:
            return ask(stream, frame)

    def page(self, part, number):
        """An entry of the public catalogue."""
        return self.asked(b"\7" + bytes([part]) + u32(number))[2:]

    def copied(self):
        """A folder with copies of the store's files."""
        copy = new_folder()
        for file in ("store.book", "store.blobs"):
            shutil.copy(self.folder / file, copy)
        return copy

    def stop(self):
        self.process.kill()
        self.process.wait()


class Store(Server):
    """A server with `report`, whose list is alice and bob, and `plan`, whose list is alice; eve is a user too.
    `recorded` is the frame of report's creation."""

    def __init__(self):
        super().__init__(new_folder())
        for user in ("alice", "bob", "eve"):
            self.owner("enrol", user)
        between = Between(self.port)
        self.create("report", "alice,bob", REPORT, between)
        self.recorded = between.update()
        self.create("plan", "alice", b"Build it.\n")

    def end(self):
        """The list of report as the server says it, and the last lines of a run and an audit over a copy."""
        listed, copy = self.owner("list", "report").decode().split()[2], self.copied()
        run = over(copy, "run", "full").decode().splitlines()
        audit = over(copy, "audit", "eve", "server").decode().splitlines()
        return listed, run[-1], audit[:-1]


def over(folder, *words, script=b""):
    """What `overstore` prints over the store of this folder, with both masters."""
    shutil.copy(KEYS, folder)
    return subprocess.run([PROGRAM, *words], cwd=folder, input=script, capture_output=True).stdout


class File:
    """A file's entry in the public catalogue."""

    def __init__(self, store, file, number):
        entry = store.page(5, number)
        assert entry.startswith(name(file)), entry
        entry = entry[len(name(file)) :]
        self.number, (self.node, self.length, self.generation) = number, struct.unpack(">III", entry[:12])
        self.tag, self.surface = entry[12:44], struct.unpack(">I", entry[45:49])[0] if entry[44] else None


def roots_of(store, user):
    """The numbers of the two roots of a user."""
    return struct.unpack(">II", store.page(1, user)[-8:])


def edge_of(store, start, end):
    """The token of the edge between two base nodes."""
    edges = store.page(2, end)[128 + 2 :]
    return next(edges[i + 4 : i + 36] for i in range(0, len(edges), 36) if edges[i : i + 4] == u32(start))


def stored_bytes(store, file):
    return store.asked(bytes([CHUNK]) + u32(file.number, file.generation, 0, 65_536))[1:]


# ---- frames, keys and pads


def tokens_of(update):
    """The tokens of the update of a creation."""
    rest = update[6 + 1 + update[6] + 128 :]
    return [rest[2 + 32 * i : 34 + 32 * i] for i in range(struct.unpack(">H", rest[:2])[0])]


def sealed_by(update):
    """The tag and the bytes, in the base layer, of the update of a creation."""
    rest = update[6 + 1 + update[6] + 128 + 2 + 32 * len(tokens_of(update)) :]
    return rest[:32], rest[36:-32]


def chain(root, *steps):
    """A chain from a root over steps of a letter, a number and a token."""
    spelled = b"".join(letter + u32(number) + token for letter, number, token in steps)
    return u32(root) + struct.pack(">H", len(steps)) + spelled


def told(file, base, surface=None, text=None):
    """Tells a reader of the file these chains and, where there is one, this text in the place of stored bytes."""

    def change(frame, answer):
        if frame[0] == CHAIN:
            numbers = u32(0, file.number, file.length, file.generation)
            return bytes([CHAINED]) + numbers + file.tag + base + (b"\1" + surface if surface else b"\0")
        if frame[0] == CHUNK and text is not None:
            start, count = struct.unpack(">II", frame[9:17])
            return bytes([BYTES]) + text[start : start + count]
        return answer

    return change


def padded(key, letter, number, text):
    """The text of the file of this number under the pad of the key, or from under it."""
    block = letter + bytes(3) + u32(number) + bytes(8)
    words = ["openssl", "enc", "-aes-256-ctr", "-K", key.hex(), "-iv", block.hex()]
    return subprocess.run(words, input=text, check=True, capture_output=True).stdout


def xored(*texts):
    return bytes(functools.reduce(operator.xor, column) for column in zip(*texts))


def access_by(store, line, node):
    """The access key of a base node, to which an edge leads from the root of this key line."""
    _, root, key, _, _ = line.split()
    token = edge_of(store, int(root), node)
    return hashlib.sha256(xored(token, keyed(bytes.fromhex(key.decode()), b"B" + u32(node)))).digest()


def tag_by(access, number, text):
    """The tag of a file with this text, by the access key of its base node."""
    return keyed(keyed(access, b"T" + u32(number)), struct.pack(">Q", len(text)) + text)
