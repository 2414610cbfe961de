"""Makes the replies to the cases of a crate, by the independent reference.

    python3 tools/case_replies.py --oracle FOLDER > crates/overstore_cases/stdout

It reads the same files as the program `overstore_cases`, and makes each line that the program must print; the
table at the head of the program's `src/main.rt` says what the lines of a case do. The store, its frames and its
disk are those of the independent reference, and nothing is taken from what the program printed. Some lines follow
from a rule and not from the reference, and the rule stands where they are made: `each` (nothing is wrong, and
how many calls a shorter store takes),
`counted` (how often an opening reads), `flips` (what a second look finds), `watched` (which reader is gone), and a
script that is repeated (a refusal that changes nothing comes again).

With `--only FILE` it prints the replies to the cases of that file alone. `--jobs` is how many processes make them;
two minutes of one processor make all.
"""
import functools
import hashlib
import multiprocessing
import pathlib
import random
import sys

import trials
from common import ROOT

KEYS = (
    b"000102030405060708090a0b0c0d0e0f101112131415161718191a1b1c1d1e1f\n"
    b"E0E1E2E3E4E5E6E7E8E9EAEBECEDEEEFF0F1F2F3F4F5F6F7F8F9FAFBFCFDFEFF\n"
)
LONGEST = 1000
LIMIT = 1 << 28
# The frames of a script's end: a Hello and its Welcome.
END_FRAMES = 5 + 42
TEARS = (
    ("old", "nothing written"),
    ("new", "all written"),
    (0, "bytes 0 written"),
    (1, "bytes 1 written"),
    (255, "bytes 255 written"),
)
ESCAPES = {b"n": b"\n", b"r": b"\r"}


def parsed():
    parser = trials.options(__doc__)
    trials.with_reference(parser, required=True)
    parser.add_argument("--data", type=pathlib.Path, default=ROOT / "crates" / "overstore_cases" / "data")
    parser.add_argument("--only", metavar="FILE", help="the cases of this file alone")
    parser.add_argument("--jobs", type=trials.whole, default=1, metavar="N", help="how many processes (1)")
    return parser.parse_args()


# ---- texts


def text_of(text):
    """The bytes that a text of a case stands for."""
    out, data, at = bytearray(), text.encode(), 0
    while at < len(data):
        byte = data[at : at + 1]
        if byte != b"\\":
            out += byte
            at += 1
        elif data[at + 1 : at + 2] == b"x":
            out.append(int(data[at + 2 : at + 4], 16))
            at += 4
        else:
            byte = data[at + 1 : at + 2]
            out += ESCAPES.get(byte, byte)
            at += 2
    return bytes(out)


def sum_of(data):
    return "%d %s" % (len(data), hashlib.sha256(data).hexdigest()[:16])


def shown(data):
    """Lines as they are, or, where they are long or no text, their length and hash."""
    if len(data) <= LONGEST:
        try:
            return data.decode().encode()
        except UnicodeDecodeError:
            pass
    return b"  %s in all\n" % sum_of(data).encode()


def changed(data, how, rest):
    """Changes the bytes of an area in one of four ways."""
    if how == "=":
        place, byte = map(int, rest.split(" "))
        data[place] = byte
    elif how == "*":
        count, byte = map(int, rest.split(" "))
        data += bytes([byte]) * count
    elif how == "<":
        del data[int(rest) :]
    else:
        data += text_of(rest)


def rising(count):
    return bytes((place + 1) % 256 for place in range(count))


def numbered(rest):
    first, last, text = rest.split(" ", 2)
    parts = [text_of(part) for part in text.split("#")]
    return b"".join((b"%d" % number).join(parts) + b"\n" for number in range(int(first), int(last) + 1))


def sets():
    """The creation of a file for each set of twelve users that isn't one user alone."""
    out = bytearray()
    for members in range(4096):
        names = ["u%d" % user for user in range(12) if members >> user & 1]
        if len(names) != 1:
            out += b"create f%d %s 0\n\n" % (members, ",".join(names).encode() or b"-")
    return bytes(out)


# ---- calls


class Reference:
    """The modules of the independent reference."""

    def __init__(self, arguments):
        self.stage, self.run, self.image, self.layers, self.matrix, self.wire = trials.reference(
            arguments, "run", "image", "layers", "matrix", "wire"
        )

    def called(self, words, keys, script, book, blobs, fails):
        """The status, the lines, the frames and the disk of a call. Where `fails` names the disk, each write fails."""
        device = self.image.Device(book, blobs)
        if "disk" in fails:
            device.write = self.fail_write
        lines, frames = Sink(self.run.WriteFault, fails.get("lines")), Sink(self.run.WriteFault, fails.get("frames"))
        put_frame = lambda frame: [frames.put(part) for part in parts(frame)]
        try:
            result = self.run.run(
                words,
                keys,
                bytes(script),
                stage=self.stage.number,
                device=device,
                on_out=lines.put,
                on_trace=put_frame,
            )
            status = result.status
        except self.run.WriteFault:
            status = 6
        return status, bytes(lines.data), bytes(frames.data), device

    def fail_write(self, area, at, data):
        raise self.run.DiskFault


    def tidied(self, words, case, lines, fresh):
        """The status of a shorter store, on a disk that is handed in."""
        if "keys" in case.fails and self.run.read_words(words, self.stage):
            lines.put(b"error read\n")
            return 5
        device = self.image.Device(case.book, case.blobs)
        try:
            made = self.run.run(
                words, case.keys, b"", stage=self.stage.number, device=device, fresh=fresh, on_out=lines.put
            )
        except self.run.WriteFault:
            return 6
        return made.status


class Sink:
    """Takes bytes, and fails at one of its calls."""

    def __init__(self, fault, fails):
        self.fault, self.fails, self.puts, self.data = fault, fails, 0, bytearray()

    def put(self, data):
        self.puts += 1
        if self.puts - 1 == self.fails:
            raise self.fault
        self.data += data


def parts(frame):
    """The calls in which a frame is put: one, where it has up to 508 bytes behind its length, else two."""
    return [frame] if len(frame) <= 512 else [frame[:4], frame[4:]]


class Case:
    """What the lines of a case have set so far."""

    def __init__(self, piece=4096):
        self.script, self.is_asked, self.keys, self.piece = bytearray(), False, KEYS, piece
        self.repeats, self.fails = 0, {}
        self.set_disk(b"", b"")
        self.set_other(b"", b"")

    def to_script(self):
        """The script, which the first line after a call begins."""
        if self.is_asked:
            self.script, self.is_asked = bytearray(), False
        return self.script

    def set_disk(self, book, blobs):
        self.book, self.blobs = book, blobs
        self.log, self.before, self.asked = [], (book, blobs), b""

    def set_other(self, book, blobs):
        """The disk that takes a shorter store."""
        self.other_book, self.other_blobs = book, blobs


class Replies:
    """Makes the replies to the cases of a file."""

    def __init__(self, arguments):
        self.data, self.reference = arguments.data, Reference(arguments)
        self.out, self.case = bytearray(), Case()

    def called(self, words, script, fails=None, areas=None):
        book, blobs = areas or (self.case.book, self.case.blobs)
        return self.reference.called(words, self.case.keys, script, book, blobs, fails or {})

    # ---- calls of the case's disk

    def ran(self, words):
        """A call over the case's disk, before what it leaves there is kept."""
        case = self.case
        if "keys" in case.fails and self.reference.run.read_words(words, self.reference.stage):
            return 5, b"error read\n", b"", None
        if case.repeats:
            return self.repeated(words)
        if "script" in case.fails:
            return self.cut_short(words)
        return self.called(words, case.script, case.fails)

    def cut_short(self, words):
        """A script of which a read fails: the commands that came whole are answered, and the error ends the run."""
        case = self.case
        part = bytes(case.script)[: case.fails["script"] * case.piece]
        status, lines, frames, device = self.called(words, part)
        last = lines.rstrip(b"\n").rpartition(b"\n")[2]
        end = END_FRAMES if status == 0 else 0
        return 5, lines[: len(lines) - len(last) - 1] + b"error read\n", frames[: len(frames) - end], device

    def repeated(self, words):
        """One item again and again. Where the third time leaves the store as the second did, each further time has
        the same lines and frames. Items that don't end within the longest script aren't answered."""
        case = self.case
        count, item = case.repeats + 1, bytes(case.script)
        _, lines2, frames2, _ = self.called(words, item * 2)
        status, lines3, frames3, device = self.called(words, item * 3)
        end = lines3[lines3.rindex(b"end epoch ") :]
        heads = [lines2[: -len(end)], frames2[:-END_FRAMES], lines3[: -len(end)], frames3[:-END_FRAMES]]
        if status != 0 or lines2 != heads[0] + end or device.book != self.called(words, item * 2)[3].book:
            sys.exit("a script that is repeated has to be one item that changes nothing but the first time")
        answered, is_long = min(count, LIMIT // len(item)), count * len(item) > LIMIT
        lines = heads[0] + heads[2][len(heads[0]) :] * (answered - 2)
        frames = heads[1] + heads[3][len(heads[1]) :] * (answered - 2)
        if is_long:
            return 11, lines + b"error long\n", frames, device
        return 0, lines + end, frames + frames3[-END_FRAMES:], device

    def call(self, line):
        case = self.case
        status, lines, frames, device = self.ran(line.split(" "))
        if device is not None:
            case.before, case.log, case.asked = (case.book, case.blobs), device.log, bytes(case.script)
            case.book, case.blobs = device.book, device.blobs
        self.out += b"%s\n%s" % (line.encode(), shown(lines))
        sums = status, sum_of(frames), sum_of(case.book), sum_of(case.blobs)
        self.out += ("  status %d, frames %s, book %s, blobs %s\n" % sums).encode()
        case.is_asked, case.fails = True, {}

    def tidy(self, line):
        """A shorter store of the case's disk on the other one."""
        case = self.case
        lines = Sink(self.reference.run.WriteFault, case.fails.get("lines"))
        fresh = self.reference.image.Device(case.other_book, case.other_blobs)
        status = self.reference.tidied(line.split(" "), case, lines, fresh)
        case.set_other(fresh.book, fresh.blobs)
        self.out += b"%s\n%s" % (line.encode(), shown(bytes(lines.data)))
        sums = status, sum_of(case.book), sum_of(case.blobs), sum_of(fresh.book), sum_of(fresh.blobs)
        self.out += ("  status %d, book %s, blobs %s\n  new book %s, new blobs %s\n" % sums).encode()
        case.fails = {}

    def modes(self):
        for mode in ("full", "delta"):
            self.case.set_disk(b"", b"")
            self.call("run " + mode)

    # ---- what a stop leaves

    def calls_with_reads(self):
        """The calls of the disk, with those that read: a grant reads a file before it writes its new bytes."""
        calls, is_grant = [], b"\ngrant " in b"\n" + self.case.asked
        for call in self.case.log:
            is_file = call[:2] == ("write", "blobs")
            calls += [("read",), call] if is_grant and is_file else [call]
        return calls

    def image(self, calls, tear):
        """What a stop behind these calls leaves. A call that reads changes nothing."""
        book, blobs = self.case.before
        synced, pending = {"book": bytearray(book), "blobs": bytearray(blobs)}, []
        for call in calls:
            if call[0] == "write":
                pending.append(call)
            elif call[0] == "sync":
                for _, name, at, data in pending:
                    synced[name][at : at + len(data)] = data
                pending = []
        if tear == "old" or tear == "new":
            return self.reference.image.tear_image(synced, pending, tear, random.Random(0))
        for _, name, at, data in pending:
            synced[name][at : at + len(data)] = bytes([tear]) * len(data)
        return bytes(synced["book"]), bytes(synced["blobs"])

    def stops(self, rest):
        most, line = rest.split(" ", 1)
        self.out += b"stops %s\n" % rest.encode()
        calls = self.calls_with_reads()
        words = line.split(" ")
        answers = functools.cache(lambda *areas: shown(self.called(words, self.case.script, areas=areas)[1]))
        for tear, name in TEARS:
            last = None
            for behind in range(int(most), -1, -1):
                lines = answers(*self.image(calls[: max(len(calls) - behind, 0)], tear))
                if lines != last:
                    self.out += b"from %d calls before the end on, %s:\n%s" % (behind, name.encode(), lines)
                    last = lines

    # ---- rules

    def each(self, rest):
        """A fault is said, and what is left has the updates that were answered, or one more: nothing is wrong. Where a
        shorter store is made, the row has to name how many calls of the disk it takes, and where the record of a file
        is that is gone at the end: with some first updates alone the file is there, and its zeros don't have its tag."""
        party, count, place, _ = rest.split(" ", 3)
        if party in ("old", "new"):
            calls, gone = self.tidy_calls()
            if int(count) != calls[party] or [int(place)] != (gone or [0]):
                sys.exit(f"{rest}: {calls[party]} calls, files that are gone at {gone}")
        self.out += b"each %s: 0 are wrong\n" % rest.encode()

    def tidy_calls(self):
        """How many calls of each disk a shorter store takes, and where its records of files with bytes are that are
        gone. The old disk is opened; then each record is read once more, and each that is kept once again, with the
        bytes of a file that is there. The new disk is synced, its Book's length is asked, its front read and the length
        asked again; then it is written and synced alone, since a file's bytes aren't read where none are moved, and a
        file of up to 65,536 bytes is written by one call."""
        case = self.case
        fresh = self.reference.image.Device()
        made = self.reference.tidied(["tidy"], case, Sink(self.reference.run.WriteFault, None), fresh)
        old, new = (self.opened(self.reference.image.Device(*both)) for both in (
            (case.book, case.blobs), (fresh.book, fresh.blobs)
        ))
        files = [new.cat.files[record.file] for record in new.records if record.file is not None]
        there = sum(1 for file in files if not file.gone and file.length)
        moved = sum(1 for call in fresh.log if call[:2] == ("write", "blobs")) - sum(1 for file in files if file.length)
        if made or moved or any(file.length > 65_536 for file in files):
            sys.exit("calls are counted of a shorter store that is made, of short files whose bytes aren't moved")
        calls = {
            "old": sum(self.opening(old)) + len(old.records) + len(new.records) + there,
            "new": 1 + 3 + len(fresh.log),
        }
        records = [record for record in new.records if record.file is not None]
        return calls, [record.gate for record, file in zip(records, files) if file.gone and file.length]

    def sizes(self, rest):
        """Pieces of one byte are answered as the whole is, and so are larger ones."""
        line = rest.split(" ", 1)[1]
        lines = shown(self.called(line.split(" "), self.case.script, areas=(b"", b""))[1])
        self.out += b"sizes %s\nin pieces of 1 bytes:\n%s" % (rest.encode(), lines)

    def watched(self, rest):
        """Of all reasons for which a write fails a broken pipe alone says that its reader is gone."""
        reader = b"is gone" if rest == "broken-pipe" else b"isn't gone"
        self.out += b"watched %s: the line fails, the reader %s\n" % (rest.encode(), reader)

    def read_only(self, rest):
        """A load whose write fails says so. An audit writes nothing."""
        words = rest.split(" ")
        status, lines, _, device = self.called(words, self.case.script, {"disk": None})
        if device.log or (status == 4 and words[0] != "load"):
            sys.exit(f"{rest} writes")
        self.out += b"read-only %s\n%s  status %d\n" % (rest.encode(), shown(lines), status)

    def print_step(self, line):
        """A line that prints something."""
        case = self.case
        word, _, rest = line.partition(" ")
        by_word = {
            "stops": self.stops,
            "each": self.each,
            "sizes": self.sizes,
            "read-only": self.read_only,
            "counted": self.counted,
            "flips": self.flips,
            "watched": self.watched,
        }
        if line == "modes":
            self.modes()
        elif word in ("book?", "blobs?"):
            data = getattr(case, word[:-1])
            said = word[:-1].encode(), len(data), data[-20:].hex().encode()
            self.out += b"%s has %d bytes, and ends with %s\n" % said
        elif word == "tidy":
            self.tidy(line)
        elif word in by_word:
            by_word[word](rest)
        else:
            self.call(line)

    def counted(self, rest):
        """Arguments that are refused make no call."""
        status, lines, _, device = self.called(rest.split(" "), self.case.script)
        if device.log:
            sys.exit(f"{rest} writes")
        book = blobs = syncs = 0
        if status == 0:
            book, blobs, syncs = self.opening(self.opened(device))
        said = rest.encode(), shown(lines), status, book, blobs, syncs
        self.out += b"counted %s\n%s  status %d, calls of book %d, of blobs %d, syncs %d\n" % said

    def opening(self, store):
        """How many calls of Book and of Blobs an opening takes, and how many syncs. It asks how long each area is, reads
        the front of Book, and looks once where each record begins and where they end; it reads each record once for the
        store, and once for its tokens and its tag. Of Blobs it reads each file once, for the tag, and nothing of a file
        without bytes. One sync makes what it read last."""
        records = len(store.records)
        return 1 + 1 + (records + 1) + 2 * records, 1 + sum(1 for f in store.cat.files if not f.gone and f.length), 1

    def opened(self, device, mode=None):
        """The store on a disk, whose tokens and tags aren't looked at."""
        base, surface = self.reference.run.read_keys(self.case.keys)
        check = self.reference.layers.check_value(base)
        return self.reference.image.begin(device, surface, check, mode, self.reference.stage)

    def flips(self, rest):
        """The call over the disk as it is, and where one read gives a byte of Book otherwise."""
        which, place, bits, line = rest.split(" ", 3)
        words = line.split(" ")
        status, lines, _, _ = self.called(words, self.case.script)
        self.out += b"flips %s\n%s  status %d\n" % (rest.encode(), lines, status)
        rule = {("first", "run"): self.flipped_tag, ("last", "audit"): self.flipped_record}[which, words[0]]
        self.out += rule(int(place), int(bits))

    def flipped_tag(self, place, bits):
        """A tag that is other when the store is opened, and right when it is looked at then: the store opens, and the
        reader of its file finds another tag than the one that was kept."""
        book = bytearray(self.case.book)
        book[place] ^= bits
        device = self.reference.image.Device(book, self.case.blobs)
        base, surface = self.reference.run.read_keys(self.case.keys)
        check = self.reference.layers.check_value(base)
        store, stage = self.opened(device), self.reference.stage
        server = self.reference.wire.Server(store, surface, check, stage)
        owner = self.reference.wire.Owner(base, surface, stage)
        out = bytearray()
        for item in self.reference.matrix.script(bytes(self.case.script), stage):
            command = item[1] if item[0] == "command" else ("end",)
            try:
                out += self.reference.matrix.line(owner.run(server.answer, command))
            except self.reference.wire.Damaged as wrong:
                said = command[2], wrong.stored.hex().encode(), wrong.computed.hex().encode()
                return bytes(out) + b"error tag %s %s %s\n  status 12\n" % said
        sys.exit(f"no reader finds the tag at {place}")

    def flipped_record(self, place, bits):
        """A record that is other when the audit reads it for the last time, behind an opening that found it right, is
        damage at its gate."""
        store = self.opened(self.reference.image.Device(self.case.book, self.case.blobs))
        gate = max(record.gate for record in store.records if record.gate < place)
        return b"error damaged book %d\n  status 8\n" % gate

    # ---- lines

    def set_area(self, name, how, rest):
        data = bytearray(getattr(self.case, name))
        changed(data, how, rest)
        areas = {"book": self.case.book, "blobs": self.case.blobs, name: bytes(data)}
        self.case.set_disk(areas["book"], areas["blobs"])

    def set_other_book(self, how, rest):
        case, data = self.case, bytearray(self.case.other_book)
        changed(data, how, rest)
        case.set_other(bytes(data), case.other_blobs)

    def script_step(self, word, rest):
        """What a line adds to the script, or None."""
        if word == "|":
            return text_of(rest) + b"\n"
        if word == ":":
            return text_of(rest)
        if word == "@":
            return rising(int(rest))
        if word == "*":
            count, byte = map(int, rest.split(" "))
            return bytes([byte]) * count
        if word == "%":
            return numbered(rest)
        if word == "sets":
            return sets()
        if word == "script":
            return (self.data / rest).read_bytes()
        return None

    def set_step(self, word, rest):
        """A line that sets something, or False."""
        case, area = self.case, word.rstrip("=<*")
        if word == "pieces":
            case.piece = int(rest)
        elif word == "repeats":
            case.repeats = int(rest)
        elif word == "keys":
            case.keys = text_of(rest)
        elif word == "fails":
            party, call = rest.split(" ", 1)
            case.fails[party] = int(call)
        elif word == "new":
            case.set_disk(b"", b"")
        elif word == "synced":
            case.set_disk(case.book, case.blobs)
        elif word == "in-place":
            case.set_disk(case.other_book, case.other_blobs)
            case.set_other(b"", b"")
        elif area == "other-book":
            self.set_other_book(word[len(area) :], rest)
        elif area in ("book", "blobs"):
            self.set_area(area, word[len(area) :], rest)
        else:
            return False
        return True

    def step(self, line):
        if not line or line.startswith("#"):
            return
        if line.startswith("=="):
            self.out += line.encode() + b"\n"
            self.case = Case(self.case.piece)
            return
        word, _, rest = line.partition(" ")
        added = self.script_step(word, rest)
        if added is not None:
            self.case.to_script().extend(added)
        elif not self.set_step(word, rest):
            self.print_step(line)


def replies_to(arguments, name):
    """The replies to the cases of a file, and what is wrong with a case, which ends them. A process that ended there
    would leave the pool to wait for it."""
    replies = Replies(arguments)
    try:
        for line in (arguments.data / name).read_text().split("\n"):
            replies.step(line)
    except SystemExit as end:
        return bytes(replies.out), f"{name}: {end}"
    return bytes(replies.out), None


def main():
    arguments = parsed()
    trials.reference(arguments)
    names = (arguments.data / "all").read_text().split()
    lacking = {path.name for path in arguments.data.glob("*.case")} - {*names}
    if lacking:
        sys.exit(f"all lacks {min(lacking)}")
    if arguments.only:
        names = [arguments.only]
    with multiprocessing.Pool(arguments.jobs) as pool:
        for replies, wrong in pool.imap(functools.partial(replies_to, arguments), names):
            sys.stdout.buffer.write(replies)
            if wrong:
                sys.exit(wrong)


if __name__ == "__main__":
    main()
