#!/usr/bin/env python3
"""Makes the lines that `client_cases` has to print, by the independent reference.

    python3 tools/client_replies.py --oracle FOLDER > crates/client_cases/stdout

It reads the same files of `data/`; the table at the head of the program's `src/main.rt` says what the lines of a case
do. Owner, reader and the words of `overctl` are those of the package `oracle` in FOLDER. It has no listings and no
streams, so these are written down here, by docs/NETWORK.md: what a listing asks in which order, and how a peer behind
a stream reads. Pages are read by the reader of tools/wire_cases.py. Nothing is taken from what the program printed.
"""
import hashlib
import itertools
import sys

import trials
import wire_cases
from common import ROOT

DATA = ROOT / "crates" / "client_cases" / "data"
KEYS = (
    b"000102030405060708090a0b0c0d0e0f101112131415161718191a1b1c1d1e1f\n"
    b"202122232425262728292a2b2c2d2e2f303132333435363738393a3b3c3d3e3f\n"
)
LONGEST, GREATEST, PIECE, TRIES, USERS = 400, 16_842_752, 100_000, 9, 1024
USER_PART, FILE_PART = 1, 5


def shown(data):
    if len(data) > LONGEST:
        return "%d %s" % (len(data), hashlib.sha256(data).hexdigest()[:16])
    return data.hex() or "-"


def lines_of(data):
    """Lines as they are, and other bytes as they are shown."""
    try:
        text = data.decode()
    except UnicodeDecodeError:
        text = ""
    return text if not data or text.endswith("\n") else shown(data) + "\n"


def bytes_of(words):
    out = b""
    for word in words.split(" "):
        if word[0] == '"':
            out += word[1:].encode()
        elif "*" in word:
            count, digits = word.split("*")
            out += int(count) * bytes.fromhex(digits)
        else:
            out += bytes.fromhex(word)
    return out


def framed(frame):
    return len(frame).to_bytes(4, "big") + frame


class Case:
    def __init__(self):
        self.base, self.surface, self.keys, self.length = b"\x11" * 32, b"\x22" * 32, KEYS, 0
        self.replies, self.is_asked = [], False
        self.mend()

    def mend(self):
        """From here on no call fails."""
        self.fails = {party: [] for party in ("ask", "keys", "take", "put")}

    def to_replies(self):
        """The replies, of which the first behind a call begins a new list."""
        if self.is_asked:
            self.replies, self.is_asked = [], False
        return self.replies


class Peer:
    """A peer that gives the replies of a case in turn, and keeps all frames. Where an ask fails, or there is no reply
    left, the link fails: the request was sent, and no reply came."""

    def __init__(self, reference, case):
        self.fault, self.case, self.asks, self.frames = reference.wire.Fault, case, 0, b""

    def __call__(self, request):
        number, self.asks = self.asks, self.asks + 1
        self.frames += framed(request)
        if number in self.case.fails["ask"] or number >= len(self.case.replies):
            raise self.fault("Link", 8)
        reply = self.case.replies[number]
        self.frames += framed(reply)
        return reply


class Reference:
    """The modules of the independent reference."""

    def __init__(self, arguments):
        self.stage, self.wire, self.matrix, self.clients = trials.reference(
            arguments, "wire", "matrix", "wire_client"
        )

    def word_of(self, number):
        """The name of a refusal."""
        return self.matrix.line(("refused", number)).split()[2].decode()

    def fault(self, fault):
        """A fault as the program prints it."""
        if fault.name == "Refused":
            return "Refused(%s)" % self.word_of(fault.number)
        if fault.name == "BadReply":
            return "BadReply { at: %d }" % fault.detail
        if fault.name == "Damaged":
            return "Damaged { stored: %s, computed: %s }" % (list(fault.stored), list(fault.computed))
        return fault.name


# ---- owners and readers


def came(reference, case, line, call, of_unsettled):
    """The lines on what comes of a call over the case's replies."""
    peer = Peer(reference, case)
    try:
        text = call(peer)
    except reference.wire.Fault as fault:
        text = reference.fault(fault)
        if fault.name == "Unsettled":
            text = "Unsettled { %s: %s }" % (of_unsettled, fault.detail)
    yield "%s: %s\n  frames %s\n" % (line, text, shown(peer.frames))


def owner(reference, case, line):
    word, *words = line.split(" ")
    owner = reference.wire.Owner(case.base, case.surface, reference.stage)
    names = [name.encode() for name in words]
    calls = {
        "create": lambda peer: owner.create(peer, names[0], [b"a", b"b"], names[1]),
        "enrol": lambda peer: owner.enrol(peer, *names),
        "grant": lambda peer: owner.grant(peer, *names),
        "revoke": lambda peer: owner.revoke(peer, *names),
        "remove": lambda peer: owner.remove(peer, *names),
        "replace": lambda peer: owner.replace(peer, *names),
    }
    if word == "list":
        call = lambda peer: " ".join(["ok"] + [name.decode() for name in owner.list(peer, *names)])
    elif word == "hello":
        call = lambda peer: "ok %s %d %s" % greeting(owner.hello(peer))
    else:
        call = lambda peer: "ok %d" % calls[word](peer)
    return came(reference, case, line, call, "epochs")


def greeting(welcome):
    mode, epoch, check = welcome
    return ("full", "delta")[mode], epoch, shown(check)


def reader(reference, case, line):
    """A read appends to a list that has one byte, and leaves it as it is where there is a fault."""
    word, file = line.split(" ")
    client = reference.clients.user_key(case.keys, reference.stage)
    before = b">" if word == "read" else b""

    def call(peer):
        try:
            return "ok, " + shown(before + client.read(peer, file.encode()))
        except reference.wire.Fault as fault:
            if word == "fetch":
                raise
            text = reference.fault(fault)
            if fault.name == "Unsettled":
                text = "Unsettled { generations: %s }" % fault.detail
            return text + ", " + shown(before)

    return came(reference, case, line, call, "generations")


def key_line(reference, case):
    client = reference.clients.user_key(case.keys, reference.stage)
    yield lines_of(b">" + (b"no line of keys\n" if client is None else client.line()))


# ---- the client's program


def overctl(reference, case, rest):
    """The words are a job's, or status 2. A file of which a read fails is as one that isn't there, and is read only
    where the job wants it. Where a line can't be put the status is 6."""
    words = rest.split(" ")
    place = 1 if words[0] == "check" else 2
    keys = None if case.fails["keys"] else case.keys
    body = None if case.fails["take"] else b"x" * case.length
    given = [keys if at == place else body if word == "path" and at > place else word for at, word in enumerate(words)]
    # The owner of a case stands for no store: the words alone are wanted of it.
    local = reference.clients.Local.__new__(reference.clients.Local)
    local.stage = reference.stage
    peer = Peer(reference, case)
    status, out = local.act(given, peer)
    if out and case.fails["put"]:
        status, out = 6, b""
    yield "overctl %s\n%s  status %d, frames %s\n" % (rest, lines_of(out), status, shown(peer.frames))


# ---- listings


class Unsettled(Exception):
    pass


class Listing:
    """What is asked for a listing: a Hello, the pages of users up to the first that isn't there, and for files so
    their pages, and the list of each that isn't gone, by its name; then a Hello again. Where the epoch moved, or a
    file has no list any more, all is asked again, nine times at most."""

    def __init__(self, reference, peer):
        self.reference, self.peer = reference, peer

    def ask(self, request):
        """The answer's bytes."""
        reply = self.peer(request)
        at = wire_cases.place(lambda text: wire_cases.read_answer(request, text), reply)
        if at != wire_cases.GOOD:
            raise self.reference.wire.bad_reply(at)
        if reply == b"\x8e":
            raise self.reference.wire.Fault("Memory", 7)
        return reply

    def hello(self):
        reply = self.ask(b"\1")
        return ("full", "delta")[reply[1]], int.from_bytes(reply[2:6], "big")

    def pages(self, part):
        """The name in each page, or None where the file is gone."""
        for number in itertools.count():
            page = self.ask(self.reference.wire.page_request(part, number))
            if page == b"\x87\0":
                return
            if part == USER_PART and number == USERS:
                raise self.reference.wire.bad_reply(1)
            yield page[3 : 3 + page[2]].decode() if page[2] else None

    def list(self, file):
        reply = self.ask(self.reference.wire.list_request(file.encode()))
        if reply[0] == 0x88:
            raise Unsettled
        names, at = [], 3
        while at < len(reply):
            names.append(reply[at + 1 : at + 1 + reply[at]].decode())
            at += 1 + reply[at]
        return names

    def try_once(self, has_files):
        _, epoch = self.hello()
        users = list(self.pages(USER_PART))
        files = [name for name in self.pages(FILE_PART) if name is not None] if has_files else []
        lists = [(name, self.list(name)) for name in files]
        if self.hello()[1] != epoch:
            raise Unsettled
        return users, lists

    def made(self, has_files):
        for _ in range(TRIES):
            try:
                return self.try_once(has_files)
            except Unsettled:
                pass
        raise self.reference.wire.Fault("Unsettled", 13)

    def answer(self, words):
        """The text that answers a question."""
        if words == ["epoch"]:
            return "ok\nmode %s\nepoch %d\n  end" % self.hello()
        users, lists = self.made(words[0] == "files")
        if words == ["users"]:
            lines = users
        elif words == ["files"]:
            lines = ["list %s %s" % (file, ",".join(names) or "-") for file, names in lists]
        elif words[1] not in users:
            return "no such user"
        else:
            lines = [file for file, names in lists if words[1] in names]
        return "ok\n%s  end" % "".join(line + "\n" for line in lines)


def listing(reference, case, line):
    call = lambda peer: Listing(reference, peer).answer(line.split(" ")[1:])
    peer = Peer(reference, case)
    try:
        text = call(peer)
    except reference.wire.Fault as fault:
        text = reference.fault(fault)
    yield "%s: %s\n  frames %s\n" % (line, text, shown(peer.frames))


# ---- a peer behind a stream


class Link:
    """A peer that writes a request behind its length, and reads no more than the length of the reply, and then the
    reply. Once anything went wrong it sends nothing more, so that a late reply is taken for no other's."""

    def __init__(self, case, piece):
        self.case, self.piece, self.data = case, piece, b"".join(case.replies)
        self.takes, self.puts, self.wrote, self.is_lost = 0, 0, b"", False

    def take(self, count):
        """So many bytes, or None where a read fails or the input ends."""
        out = b""
        while len(out) < count:
            number, self.takes = self.takes, self.takes + 1
            part = self.data[: min(self.piece, count - len(out))]
            if number in self.case.fails["take"] or not part:
                return None
            out, self.data = out + part, self.data[len(part) :]
        return out

    def exchange(self, request):
        number, self.puts = self.puts, self.puts + 1
        if number in self.case.fails["put"]:
            return None
        self.wrote += framed(request)
        length = self.take(4)
        if length is None or not 1 <= int.from_bytes(length, "big") <= GREATEST:
            return None
        return self.take(int.from_bytes(length, "big"))

    def ask(self, request):
        """What comes of a request. A reply that isn't there is no bytes, even where two were there before."""
        reply = None if self.is_lost else self.exchange(request)
        self.is_lost = reply is None
        return "Link, -" if reply is None else "ok, " + shown(reply)


def link(case, rest):
    piece, requests = rest.split(" ", 1)
    peer = Link(case, int(piece))
    for words in requests.split(" / "):
        yield "ask %s: %s\n" % (words, peer.ask(bytes_of(words)))
    yield "  wrote %s, left %s\n" % (shown(peer.wrote), shown(peer.data[: min(64, int(piece))]))


# ---- cases


def set_line(case, word, rest):
    """A line that sets something for later lines, and whether it is one."""
    if word == "<":
        case.to_replies().append(bytes_of(rest))
    elif word == "*":
        count, text = rest.split(" ", 1)
        case.to_replies().extend([bytes_of(words) for words in text.split(" / ")] * int(count))
    elif word in ("base", "surface"):
        data = bytes.fromhex(rest)
        setattr(case, word, data * 32 if len(data) == 1 else data)
    elif word == "keys":
        case.keys = rest.replace("\\n", "\n").encode()
    elif word == "length":
        case.length = int(rest)
    elif word == "fails":
        party, call = rest.split(" ")
        case.fails[party].append(int(call))
    else:
        return False
    return True


def lines_printed(reference, case, line, word, rest):
    """What a line prints."""
    if word in ("read", "fetch"):
        return reader(reference, case, line)
    if word == "line":
        return key_line(reference, case)
    if word == "overctl":
        return overctl(reference, case, rest)
    if word == "listing":
        return listing(reference, case, line)
    if word == "link":
        return link(case, rest)
    return owner(reference, case, line)


def print_file(reference, name):
    case = Case()
    for line in (DATA / name).read_text().split("\n"):
        word, _, rest = line.partition(" ")
        if line.startswith("=="):
            print(line)
            case = Case()
        elif line and not line.startswith("#") and not set_line(case, word, rest):
            for text in lines_printed(reference, case, line, word, rest):
                sys.stdout.write(text)
            case.is_asked = True
            case.mend()


def main():
    parser = trials.options(__doc__)
    trials.with_reference(parser, required=True)
    reference = Reference(parser.parse_args())
    names = (DATA / "all").read_text().split()
    lacking = {path.name for path in DATA.glob("*.case")} - {*names}
    if lacking:
        sys.exit(f"all lacks {min(lacking)}")
    for name in names:
        print_file(reference, name)


if __name__ == "__main__":
    main()
