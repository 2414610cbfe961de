#!/usr/bin/env python3
"""Makes the lines that `server_cases` has to print, by the independent reference.

    python3 tools/server_replies.py --oracle FOLDER > crates/server_cases/stdout

It reads the same files of `data/`; the table at the head of the program's `src/main.rt` says what the lines of a case
do. The store, its replies and its disk are those of the package `oracle` in FOLDER, and nothing is taken from what the
program printed. The reference says which calls write a disk. Which calls read it is a rule here: an update that coats
files reads each of them before it writes it anew, and a question for stored bytes reads them once. An update of which
a call fails is told as a fault of the device, and so is each later one; a question of which a read fails is told so
alone.
"""
import copy
import hashlib
import sys
import tomllib

import trials
from common import ROOT

DATA = ROOT / "crates" / "server_cases" / "data"
LONGEST, GREATEST = 400, 16_842_752
TEARS = (
    ("old", "nothing written"),
    ("new", "all written"),
    (0, "bytes 0 written"),
    (1, "bytes 1 written"),
    (255, "bytes 255 written"),
)
DEVICE_FAULT, UPDATE, CHUNK = b"\x8d", 4, 6


def sum_of(data):
    return "%d %s" % (len(data), hashlib.sha256(data).hexdigest()[:16])


def shown(data):
    return sum_of(data) if len(data) > LONGEST else data.hex() or "-"


def block_of(digits):
    data = bytes.fromhex(digits)
    return data * 32 if len(data) == 1 else data


class Reference:
    """The modules of the independent reference."""

    def __init__(self, arguments):
        self.stage, self.image, self.layers, self.wire = trials.reference(arguments, "image", "layers", "wire")

    def bytes_of(self, words, epoch=None, surface=None):
        """The bytes that words stand for."""
        out = bytearray()
        for word in words.split(" "):
            if word == "now":
                out += epoch.to_bytes(4, "big")
            elif word == "tag":
                out += self.layers.h(self.layers.update_key(surface), bytes(out[1:]))
            elif word[0] == "'":
                out += bytes([len(word) - 1]) + word[1:].encode()
            elif word[0] == '"':
                out += word[1:].encode()
            elif word[0] == "=":
                out += int(word[1:]).to_bytes(4, "big")
            elif word[0] == "*":
                out += bytes(int(word[1:]))
            else:
                out += bytes.fromhex(word)
        return bytes(out)


class Disk:
    """Both areas, as they were at the last sync of another disk, and all calls since."""

    def __init__(self, book=b"", blobs=b""):
        self.first = {"book": bytes(book), "blobs": bytes(blobs)}
        self.calls = []

    def after(self, calls, tear=None):
        """Both areas after these calls, as a stop tears what no sync followed, or with no stop."""
        synced, pending = {name: bytearray(area) for name, area in self.first.items()}, []
        for call in calls:
            if call[0] == "write":
                pending.append(call)
            elif call[0] == "sync":
                for _, name, at, data in pending:
                    synced[name][at : at + len(data)] = data
                pending = []
        for _, name, at, data in [] if tear == "old" else pending:
            data = bytes([tear]) * len(data) if isinstance(tear, int) else data
            synced[name][at : at + len(data)] = data
        return bytes(synced["book"]), bytes(synced["blobs"])


class Keys:
    def __init__(self):
        self.surface, self.check, self.owner, self.mode = b"\7" * 32, b"\x11" * 32, b"\x08" * 32, 1


class Server:
    """A server over a disk, or the line that says why there is none. The calls of the disk are kept."""

    def __init__(self, reference, keys, disk):
        self.reference, self.keys, self.disk = reference, keys, disk
        self.replies, self.failed, self.error = [], False, ""
        self.device = reference.image.Device(*disk.after(disk.calls))
        try:
            self.store = reference.image.begin(self.device, keys.surface, keys.check, keys.mode, reference.stage)
        except reference.image.Refused as refused:
            self.error = refused.line.decode()
            return
        disk.calls += self.device.log
        self.server = reference.wire.Server(self.store, keys.surface, keys.check, reference.stage)

    def calls_of(self, words):
        """The calls of the disk that come of a frame, and the reply to it."""
        frame = self.reference.bytes_of(words, self.store.cat.epoch, self.keys.surface)
        before, files = len(self.device.log), len(self.store.cat.files)
        reply = self.server.answer(frame)
        calls = []
        # A creation and a replacement write a new file, and read none.
        is_coat = frame[0] == UPDATE and frame[5] in (3, 4)
        for call in self.device.log[before:]:
            calls += [("read",), call] if is_coat and call[:2] == ("write", "blobs") else [call]
        if frame[0] == CHUNK and reply[0] == 0x86 and len(reply) > 1:
            calls.append(("read",))
        return frame, calls, reply

    def ask(self, words, fails=None, kept=0):
        """Asks a frame, of whose calls one may fail, a write after so many bytes."""
        if self.failed:
            frame = self.reference.bytes_of(words, self.store.cat.epoch, self.keys.surface)
            is_update = frame[0] == UPDATE
            self.replies.append(DEVICE_FAULT if is_update else self.server.answer(frame))
            return
        if fails is None:
            _, calls, reply = self.calls_of(words)
            self.disk.calls += calls
            self.replies.append(reply)
            return
        before = copy.deepcopy((self.device, self.store))
        frame, calls, _ = self.calls_of(words)
        # The store is as it was, and so is the disk but for the calls up to the one that fails.
        self.device, self.store = before
        self.store.device = self.device
        self.server.store = self.store
        self.disk.calls += calls[:fails]
        if calls[fails][0] == "write":
            _, name, at, data = calls[fails]
            self.disk.calls.append(("write", name, at, data[:kept]))
        self.failed = frame[0] == UPDATE
        self.replies.append(DEVICE_FAULT)

    def told(self):
        """The lines on what came of it."""
        book, blobs = map(sum_of, self.disk.after(self.disk.calls))
        if self.error:
            return "%s  book %s, blobs %s\n" % (self.error, book, blobs)
        lines = "".join(shown(reply) + "\n" for reply in self.replies)
        form = "first" if self.store.format == 1 else "second"
        found = self.store.check(self.keys.owner)
        found = "no record is false" if found is None else "the record at %d is false" % found
        said = self.store.cat.epoch, form, found, book, blobs
        return lines + "  epoch %d, %s form, %s\n  book %s, blobs %s\n" % said


class Case:
    def __init__(self):
        self.keys, self.frames, self.questions, self.is_asked = Keys(), [], [], False
        self.disk, self.lines, self.words, self.padded = Disk(), [], 1, 0
        self.mend()

    def mend(self):
        """From here on no call fails."""
        self.fails = {party: [] for party in ("take", "put", "door", "disk")}

    def to_frames(self):
        """The frames, of which the first line behind a call begins a new list."""
        if self.is_asked:
            self.frames, self.is_asked = [], False
        return self.frames

    def copied(self):
        return Disk(*self.disk.after(self.disk.calls))


def served(reference, case, frames, disk):
    server = Server(reference, case.keys, disk)
    for words in frames if not server.error else []:
        server.ask(words)
    return server


def answers(reference, case, areas):
    """What the questions are answered over these areas."""
    return served(reference, case, case.questions, Disk(*areas)).told()


def stops(reference, case, rest):
    yield "stops %s\n" % rest
    calls = case.disk.calls
    for tear, name in TEARS:
        last = None
        for behind in range(int(rest), -1, -1):
            text = answers(reference, case, case.disk.after(calls[: max(len(calls) - behind, 0)], tear))
            if text != last:
                yield "from %d calls before the end on, %s:\n%s" % (behind, name, text)
                last = text


def faults(reference, case, rest):
    number, kept = map(int, rest.split(" "))
    yield "faults %s\n" % rest
    count = len(served(reference, case, case.frames[:number], case.copied()).calls_of(case.frames[number])[1])
    last = None
    for call in range(count):
        yield "call %d:\n" % call
        disk = case.copied()
        server = served(reference, case, case.frames[:number], disk)
        server.ask(case.frames[number], call, kept)
        for words in case.frames[number + 1 :]:
            server.ask(words)
        yield server.told()
        for tear, name in TEARS + (("no stop", None),):
            text = answers(reference, case, disk.after(disk.calls, tear))
            if text != last:
                yield ("stopped, %s:\n" % name if name else "not stopped:\n") + text
                last = text


def changed(reference, case, rest):
    place, byte, length, length_of_blobs = map(int, rest.split(" "))
    book, blobs = map(bytearray, case.disk.after(case.disk.calls))
    book[place] = byte
    server = Server(reference, case.keys, Disk(book[:length], blobs[:length_of_blobs]))
    yield "changed %s: %s" % (rest, server.error or "epoch %d\n" % server.store.cat.epoch)


def book(case):
    data = case.disk.after(case.disk.calls)[0]
    # A store of the first format whose records have no step record among them.
    due = data[:9] == b"\1OVERENC1" and b"\1\0\0\0\1\5" not in data
    yield "book %s, %s\n" % (shown(data), "first form" if due else "not the first form")


def gates(reference, case, rest):
    """Where the gates of the first records are; past the last one there is none."""
    found = [record.gate for record in served(reference, case, [], case.copied()).store.records]
    yield "gates" + "".join(" %d" % gate for gate in (found + [0] * int(rest))[: int(rest)]) + "\n"


# ---- sessions


def parts(frame):
    """The calls in which a frame is put: one, where it has up to 508 bytes behind its length, else two."""
    return [frame] if len(frame) <= 512 else [frame[:4], frame[4:]]


def session(answer, data, piece, fails):
    """How a session ends, and what is written. The pieces of the input are read in turn; a frame is answered once it
    is whole; and the call that fails is the last."""
    written, puts, start, rest, taken = b"", 0, 0, b"", 0
    for number in range(len(data) // piece + 2):
        if number in fails["take"]:
            return "link fault", written
        part = data[number * piece : (number + 1) * piece]
        if not part:
            return ("bad at %d" % taken if rest else "end"), written
        taken, rest = taken + len(part), rest + part
        while len(rest) >= 4:
            length = int.from_bytes(rest[:4], "big")
            if not 1 <= length <= GREATEST:
                return "bad at %d" % start, written
            if len(rest) < 4 + length:
                break
            frame, rest, start = rest[4 : 4 + length], rest[4 + length :], start + 4 + length
            reply = answer(frame)
            for part in parts(len(reply).to_bytes(4, "big") + reply):
                puts += 1
                if puts - 1 in fails["put"]:
                    return "link fault", written
                written += part
    sys.exit("a session has no end")


def sessions(first, last, answer_of, data, fails):
    """The one line of a session in pieces of each size."""
    (told,) = {session(answer_of(), data, piece, fails) for piece in range(int(first), int(last) + 1)}
    yield "%s, wrote %s\n" % (told[0], shown(told[1]))


def parrot(reference, case, rest):
    """A frame is answered by a Bytes of itself. No memory is told of one that begins with 0xff."""
    first, last, *words = rest.split(" ", 2)
    answer = lambda frame: b"\x8e" if frame[0] == 0xFF else b"\x86" + frame
    return sessions(first, last, lambda: answer, reference.bytes_of(words[0]) if words else b"", case.fails)


def talk(reference, case, rest):
    frames = [reference.bytes_of(words, 0, case.keys.surface) for words in case.frames]
    data = b"".join(len(frame).to_bytes(4, "big") + frame for frame in frames)
    answer_of = lambda: Server(reference, case.keys, case.copied()).server.answer
    return sessions(*rest.split(" "), answer_of, data, case.fails)


# ---- settings


def is_number(value, most):
    return isinstance(value, int) and not isinstance(value, bool) and 1 <= value <= most


def is_block(value):
    return isinstance(value, str) and len(value) == 64 and not set(value.lower()) - set("0123456789abcdef")


def values_of(text):
    """The settings that a file says by docs/OPERATING.md, or None."""
    try:
        read = tomllib.loads(text.decode())
    except (tomllib.TOMLDecodeError, UnicodeDecodeError):
        return None
    read.setdefault("workers", 4)
    words = [read.get(key) for key in ("address", "mode", "surface", "base_check", "book", "blobs")]
    numbers = read.get("sessions"), read["workers"]
    if not all(isinstance(word, str) for word in words) or words[1] not in ("full", "delta"):
        return None
    if not all(map(is_block, words[2:4])) or not is_number(numbers[0], 1_000_000) or not is_number(numbers[1], 64):
        return None
    words[2:4] = [word.lower() for word in words[2:4]]
    return " ".join(words + [str(number) for number in numbers])


def settings_of(case, text):
    """What is read of a text, which comes in pieces of 1,000 bytes. Words other than one are told before anything is
    read. A file is read to its end, or to its byte 65,537."""
    if case.words != 1:
        return "status 2\n"
    reads = -(-len(text) // 1000) + (len(text) <= 65_536)
    if any(call < reads for call in case.fails["take"]):
        return "status 5\n"
    values = None if len(text) > 65_536 else values_of(text)
    return "status 2\n" if values is None else "settings %s\n" % values


def settings(reference, case, rest):
    key, _, line = rest.partition(" ")
    lines = [line if name == key else usual for name, usual in case.lines] + [line] * (key == "+")
    text = "".join(lines).replace("\\n", "\n").encode()
    yield settings_of(case, text.ljust(case.padded, b"#"))


def raw(reference, case, rest):
    yield settings_of(case, bytes.fromhex(rest))


# ---- servers at a door


def host(reference, case, rest):
    """A server first begins its store, then its door listens, which is the door's call 0, and gives a stream at each
    further call, until it has no more or all sessions are served. Each line is one call of what is printed to; where
    one fails nothing more is said."""
    sessions, streams = map(int, rest.split(" "))
    disk = case.copied()
    server = None if case.fails["disk"] else Server(reference, case.keys, disk)
    if server is None:
        said, status = ["error disk\n"], 4
    elif server.error:
        said, status = [server.error], 9 if " mode " in server.error or " key " in server.error else 8
    elif 0 in case.fails["door"]:
        said, status = ["error door\n"], 13
    elif any(call <= min(sessions, streams + 1) for call in case.fails["door"]):
        said, status = ["listening memory\n", "error door\n"], 13
    else:
        said, status = ["listening memory\n", "served %d\n" % min(sessions, streams)], 0
    for call in case.fails["put"]:
        if call < len(said):
            said, status = said[:call], 6
    begun = "begun" if server and not server.error else "not begun"
    book = sum_of(disk.after(disk.calls)[0])
    yield "host %s\n%s  status %d, %s, book %s\n" % (rest, "".join(said), status, begun, book)


# ---- cases


def serve(reference, case):
    case.is_asked = True
    yield "serve\n" + served(reference, case, case.frames, case.disk).told()


def set_line(reference, case, word, rest):
    """A line that sets something for later lines, and whether it is one."""
    book, blobs = case.disk.after(case.disk.calls)
    if word == ">":
        case.to_frames().append(rest)
    elif word == "%":
        first, last, text = rest.split(" ", 2)
        for number in range(int(first), int(last) + 1):
            case.to_frames().extend(text.replace("#", str(number)).split(" / "))
    elif word == "?":
        case.questions.append(rest)
    elif word == "mode":
        case.keys.mode = ("full", "delta").index(rest)
    elif word in ("surface", "check", "owner"):
        setattr(case.keys, word, block_of(rest))
    elif word == "new":
        case.disk = Disk()
    elif word == "synced":
        case.disk = case.copied()
    elif word == "fails":
        party, call = rest.split(" ")
        case.fails[party].append(int(call))
    elif word == "usual":
        case.lines.append(rest.split(" ", 1))
    elif word in ("words", "padded"):
        setattr(case, word, int(rest))
    elif word == "book":
        case.disk = Disk(book + reference.bytes_of(rest), blobs)
    elif word == "blobs":
        case.disk = Disk(book, blobs + reference.bytes_of(rest))
    else:
        return False
    return True


def lines_of(reference, case, word, rest):
    """What a line prints."""
    if word == "serve":
        return serve(reference, case)
    if word == "book?":
        return book(case)
    by_word = {
        "changed": changed,
        "gates": gates,
        "stops": stops,
        "faults": faults,
        "parrot": parrot,
        "talk": talk,
        "settings": settings,
        "raw": raw,
        "host": host,
    }
    return by_word[word](reference, case, rest)


def print_file(reference, name):
    case = Case()
    for line in (DATA / name).read_text().split("\n"):
        word, _, rest = line.partition(" ")
        if line.startswith("=="):
            print(line)
            case = Case()
        elif line and not line.startswith("#") and not set_line(reference, case, word, rest):
            for text in lines_of(reference, case, word, rest):
                sys.stdout.write(text)
            case.mend()


def main():
    parser = trials.options(__doc__)
    trials.with_reference(parser, required=True)
    reference = Reference(parser.parse_args())
    names = (DATA / "all").read_text().split()
    lacking = {path.name for path in DATA.glob("*.case")} - {*names}
    if lacking:
        sys.exit(f"all lacks {min(lacking)}")
    for name in names:
        print_file(reference, name)


if __name__ == "__main__":
    main()
