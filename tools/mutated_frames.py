"""Sends a running server frames that were changed, and compares each reply with the independent reference's.

Run, after `rt run` has built the program:

    python3 tools/mutated_frames.py crates/overstored/out/overstored --oracle FOLDER [--count N] [--seed S] [--jobs J]

Each ten thousand frames have a server and a store of their own, in one mode or the other, behind a free port of
127.0.0.1. They come in sessions of some hundreds, many on their way at once, and the store grows by those that are
accepted. A frame is one that an owner or a reader would send next, or was sent in this session before; then most
are changed.

| what is sent | how |
|---|---|
| right frames | every kind of request, at the present epoch or another, with right and wrong owner's tags |
| changed frames | a bit or a byte; cut, grown, or spliced with another; a kind, a length, a count; one to three times |
| changed updates | so too, and then with the owner's tag over what they became, so that the update itself is read |
| random bytes | behind a right length field, mostly with a known kind; now and then a frame of the greatest length |
| bad length fields | at the end of a session: 0, above 16,842,752, cut, or more than what follows |

| what is compared | when |
|---|---|
| the reply, byte for byte | at each frame |
| that nothing comes behind a bad length field | at the end of each session |
| that a Hello is answered by the right epoch | in the last session of each server |
| `served N`, status 0, and both files of the store | at the end of each server |
"""
import socket
import struct

import network_cases as network
import trials
from common import KEYS, framed, keyed

PER_SERVER, PER_SESSION = 10_000, 400
MODES = ("full", "delta")
GREATEST = 16_842_752
# So many bytes may be on their way before a reply is taken: no more than what a socket holds.
AT_ONCE = 16_384
TAG = 32


def parsed():
    parser = trials.options(__doc__, "server")
    trials.with_reference(parser, required=True)
    trials.with_jobs(parser)
    parser.add_argument("--count", type=trials.whole, default=20_000, metavar="N", help="how many frames (20000)")
    parser.add_argument("--only", type=int, metavar="NUMBER", help="tries the frames of this server alone")
    return parser.parse_args()


# ---- changes of a frame; `others` are frames that were sent before


def a_bit(chance, frame, others):
    at = chance.randrange(len(frame))
    frame[at] ^= 1 << chance.randrange(8)


def an_early_byte(chance, frame, others):
    at = chance.randrange(min(len(frame), 176))
    frame[at] = chance.choice([0, 1, 2, 3, 4, 5, 32, 64, 65, 97, 127, 128, 255])


def a_kind(chance, frame, others):
    frame[0] = chance.choice([0, 1, 2, 3, 4, 5, 6, 7, 8, 9, 0x81, 255])


def a_cut(chance, frame, others):
    del frame[max(1, chance.choice([len(frame) - 1, len(frame) - TAG, chance.randrange(len(frame) + 1)])) :]


def growth(chance, frame, others):
    frame += chance.randbytes(chance.choice([1, 1, 2, 32, 33, 300]))


def a_number(chance, frame, others):
    width = chance.choice([1, 2, 4])
    if len(frame) >= width:
        at = chance.randrange(min(len(frame), 196) - width + 1)
        value = int.from_bytes(frame[at : at + width], "big")
        most = (1 << 8 * width) - 1
        limits = [1_024, 1_025, 65_535, 65_536, 65_537, 16_777_216, 16_777_217, most]
        value = chance.choice([value + 1, value - 1, value + 32, 0, 1, *limits]) & most
        frame[at : at + width] = value.to_bytes(width, "big")


def bytes_doubled(chance, frame, others):
    at, count = chance.randrange(len(frame)), chance.choice([1, 2, 4, 32])
    frame[at:at] = frame[at : at + count]


def bytes_left_out(chance, frame, others):
    at = chance.randrange(1, len(frame) + 1)
    del frame[at : at + chance.choice([1, 2, 4, 32])]


def a_splice(chance, frame, others):
    other = chance.choice(others)
    at = chance.randrange(1, len(frame) + 1)
    frame[at:] = other[chance.randrange(len(other)) :]


CHANGES = [a_bit, an_early_byte, a_kind, a_cut, growth, a_number, a_number, bytes_doubled, bytes_left_out, a_splice]


def tagged(frame):
    """The update request with the owner's tag over what it says."""
    said = bytes(frame[1:-TAG])
    frame[-TAG:] = keyed(network.UPDATE_KEY, said)


def changed(chance, frame, others):
    frame = bytearray(frame)
    for change in chance.choices(CHANGES, k=chance.choice([1, 1, 1, 2, 3])):
        change(chance, frame, others)
    del frame[GREATEST:]
    if frame[0] == 4 and len(frame) > TAG + 1 and chance.random() < 0.8:
        tagged(frame)
    return bytes(frame)


def random_frame(chance):
    if chance.random() < 0.002:
        size = GREATEST - chance.randrange(2)
    else:
        size = chance.choice([1, 2, 9, 60, 300, chance.randrange(1, 5000)])
    frame = bytearray(chance.randbytes(size))
    if chance.random() < 0.8:
        frame[0] = chance.randrange(1, 10)
    return bytes(frame)


# ---- a server and the reference beside it


class Pair:
    """A server that listens, and the reference with the same keys and an empty store."""

    def __init__(self, arguments, number, sessions):
        stage, client, self.wire, self.layers = trials.reference(arguments, "wire_client", "wire", "layers")
        self.chance = trials.chance_of(arguments, "server", number)
        mode = self.chance.choice(MODES)
        base, surface = (bytes.fromhex(line) for line in KEYS.read_text().split())
        self.local = client.Local(mode, stage, base, surface)
        self.requests = client.Requests(self.chance, self.local)
        with trials.place_of(arguments) as self.folder:
            self.server = network.Server(self.folder, sessions, mode=mode)
            self.others, self.sent, self.cases, self.wrong, self.number = [b"\1"], [], 0, [], number
            try:
                self.play(sessions)
            finally:
                self.server.kill()
        if self.wrong and arguments.keep:
            arguments.keep.mkdir(parents=True, exist_ok=True)
            (arguments.keep / f"server{number}.frames").write_bytes(b"".join(map(framed, self.sent)))

    def play(self, sessions):
        for _ in range(sessions - 1):
            with self.server.connect() as stream:
                stream.setsockopt(socket.IPPROTO_TCP, socket.TCP_NODELAY, 1)
                self.session(stream)
            if self.wrong:
                return
        with self.server.connect() as stream:
            self.is_right("a last Hello", b"\1", network.ask(stream, b"\1"), self.local.server.answer(b"\1"))
        out, _ = self.server.process.communicate(timeout=network.SECONDS)
        ended = b"status %d, %s" % (self.server.process.returncode, out)
        self.is_right("the end of the server", b"", ended, b"status 0, served %d\n" % sessions)
        for name, wanted in (("store.book", self.local.device.book), ("store.blobs", self.local.device.blobs)):
            self.is_right(name, b"", (self.folder / name).read_bytes(), wanted)

    def frame(self):
        """The next frame."""
        how = self.chance.random()
        if how < 0.08:
            return random_frame(self.chance)
        if how < 0.45:
            frame = self.requests.good() if self.chance.random() < 0.9 else self.reading()
            self.others = self.others[-60:] + [frame]
        else:
            frame = self.chance.choice(self.others)
        return frame if how < 0.25 else changed(self.chance, frame, self.others)

    def reading(self):
        """The first request of a user who is on a list."""
        at = self.local.store.cat
        living = [(name, at.list_of(file)) for name, file in at.living.items()]
        listed = [(name, users) for name, users in living if users]
        if not listed:
            return self.wire.hello()
        name, users = self.chance.choice(listed)
        return self.wire.chain_request(at.users[self.chance.choice(self.layers.members(users))], name)

    def session(self, stream):
        left = PER_SESSION
        while left > 0 and not self.wrong:
            frames, size = [], 0
            for _ in range(min(left, self.chance.choice([1, 2, 30]))):
                frame = self.frame()
                # The reference answers at once, so that what it says next is of the state behind this frame.
                frames.append((frame, self.local.server.answer(frame)))
                size += len(frame)
                if size > AT_ONCE:
                    break
            left -= len(frames)
            self.exchange(stream, frames)
        self.ending(stream)

    def exchange(self, stream, frames):
        self.sent += [frame for frame, _ in frames]
        try:
            stream.sendall(b"".join(framed(frame) for frame, _ in frames))
            for frame, wanted in frames:
                self.is_right("a frame", frame, network.reply(stream), wanted)
        except (AssertionError, OSError) as error:
            sent = " ".join(frame[:99].hex() for frame, _ in frames)
            self.wrong.append(f"server {self.number}: {error!r} behind one of {sent}")

    def ending(self, stream):
        """The stream ends, mostly behind a length field that isn't one or isn't kept."""
        last = self.chance.choice([
            b"",
            b"\0\0",
            bytes(4),
            struct.pack(">I", GREATEST + 1),
            struct.pack(">I", 2**32 - 1),
            struct.pack(">I", self.chance.randrange(GREATEST + 1, 2**32)),
            struct.pack(">I", self.chance.randrange(2, GREATEST)) + b"\1",
        ])
        try:
            stream.sendall(last + self.chance.choice([b"", bytes(60)]) * (len(last) == 4))
            stream.shutdown(socket.SHUT_WR)
            came = stream.recv(1)
        except OSError:
            came = b""
        self.is_right("the end of a session", last, came, b"")

    def is_right(self, what, frame, got, wanted):
        self.cases += 1
        if got != wanted:
            text = f"server {self.number}: {what} is answered wrongly, at frame {self.cases}"
            text += f"\n  sent, {len(frame)} bytes: {frame[:2000].hex()}"
            self.wrong.append(text + "\n" + trials.shown("reply", got, wanted))


class Work:
    """Tries the frames of one server."""

    def __init__(self, arguments):
        self.arguments = arguments

    def __call__(self, number):
        frames = min(PER_SERVER, self.arguments.count - number * PER_SERVER)
        pair = Pair(self.arguments, number, -(-frames // PER_SESSION) + 1)
        hint = f"; try it by --seed {self.arguments.seed} --count {self.arguments.count} --only {number}"
        return pair.cases, [text + hint for text in pair.wrong[:3]]


def main():
    arguments = parsed()
    network.SERVER = str(arguments.server)
    trials.reference(arguments)
    begun = trials.begin(arguments)
    servers = range(-(-arguments.count // PER_SERVER))
    if arguments.only is not None:
        servers = [arguments.only]
    cases, wrong = trials.tried(arguments, Work(arguments), servers)
    trials.end(cases, wrong, begun)


if __name__ == "__main__":
    main()
