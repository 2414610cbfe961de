"""Has many sessions at once with one server, which is killed and started again, and looks for every update.

Run, after `rt run` has built the programs:

    python3 tools/many_sessions.py SERVER CLIENT --oracle FOLDER [--minutes M] [--kill-every SECONDS] [--silent N]
    python3 tools/many_sessions.py SERVER CLIENT --oracle FOLDER --sessions 4 --kills 1000 --kill-every 0.3

Each of the sessions has users and files of its own, and is an owner's or a reader's by chance: it enrols, creates,
grants and revokes, in ways that are accepted and in ways that are refused, or reads and lists, its own files or those
of others. It speaks the frames of the independent reference's owner and reader, and connects anew after a number of
requests (`--requests`): a server of one worker holds up everybody else meanwhile. The store is in a folder of
`--place`, which is one for temporary files where it isn't given. A run with the same seed has the same choices, but
not the same order.

| what is compared | when |
|---|---|
| each reply to an owner, with the machine of lists and bytes | always: nobody else changes what is that session's |
| each file that is read, byte for byte | always; a file of another session may also be refused just then |
| that no two updates were answered by one epoch | always |
| that no connection breaks and none waits for long | while the server isn't killed |
| the epoch: all updates that were answered, and those on their way that are there | behind each kill |
| that no more of those are there than the server has workers | behind each kill |
| every list, and every file as every user reads it | at the end, behind one more kill |
| every file, by `overctl key` and `overctl read` for one user on its list | at the end |

With `--silent N` so many connections that say nothing come first, and no kill comes before the server has ended them.
Each is ended after the server's 300 seconds, or a multiple where the workers are fewer; Linux adds up to a ninth. The
longest wait of a request meanwhile is printed: an owner is answered once a worker is free. `--silence SECONDS` makes
the 300 seconds shorter, by a small library in C (`tools/short_silence.c`) that the server preloads.

A server that passes the key `workers` over is one of one worker, whatever `--workers` says.
"""
import collections
import copy
import os
import pathlib
import shutil
import socket
import struct
import subprocess
import threading
import time

import network_cases as network
import trials
from common import KEYS, ROOT, framed, new_folder
from plain_machine import Machine

USERS, FILES = 3, 24
# A store has 1,024 users.
MOST_SESSIONS = 340
# The server ends a session that is silent for so many seconds, to which Linux's timers of this length may add so many:
# 17 at 250 ticks a second, 33 at 1,000. Nobody waits for more than the slack beside that.
SILENCE, LATE, SLACK = 300, 33, 60
# The system keeps so many connections that wait to be accepted. Further ones try again, each time after twice as long, or
# are turned away.
QUEUE, AGAIN = 128, 128
CASES = collections.Counter()


def parsed():
    parser = trials.options(__doc__, "server", "client")
    trials.with_reference(parser, required=True)
    parser.add_argument("--minutes", type=float, default=10, help="how long the sessions go on (10)")
    parser.add_argument("--kill-every", type=float, default=60, metavar="SECONDS", help="on the average (60)")
    parser.add_argument("--kills", type=trials.whole, metavar="N", help="ends behind so many kills, not by time")
    parser.add_argument("--sessions", type=trials.whole, default=64, metavar="N", help="how many sessions (64)")
    parser.add_argument("--requests", type=trials.whole, default=20, metavar="N", help="of one connection (20)")
    parser.add_argument("--workers", type=trials.whole, default=4, metavar="N", help="workers of the server (4)")
    parser.add_argument("--silent", type=int, default=0, metavar="N", help="connections that say nothing (0)")
    parser.add_argument("--silence", type=float, default=SILENCE, metavar="SECONDS", help="when they are ended (300)")
    parser.add_argument("--mode", choices=["full", "delta"], default="delta")
    parser.add_argument("--place", type=pathlib.Path, help="where the store is made")
    arguments = parser.parse_args()
    if arguments.sessions > MOST_SESSIONS:
        parser.error(f"a store has users for {MOST_SESSIONS} sessions")
    return arguments


class Gone(Exception):
    """The connection broke."""


class Wrong(Exception):
    """The server was wrong."""


class Connection:
    """A peer of the reference's owner and readers, over a socket."""

    def __init__(self, shared):
        self.shared, self.asked, self.on_its_way = shared, 0, False
        begun = time.monotonic()
        try:
            self.stream = socket.create_connection(("127.0.0.1", shared.port), timeout=shared.patience)
        except OSError as error:
            raise Gone(repr(error)) from None
        self.stream.setsockopt(socket.IPPROTO_TCP, socket.TCP_NODELAY, 1)
        self.waited = time.monotonic() - begun

    def __call__(self, frame):
        """The reply to a frame."""
        self.asked += 1
        self.on_its_way = frame[0] == 4
        begun = time.monotonic()
        try:
            self.stream.sendall(framed(frame))
            reply = self.taken(struct.unpack(">I", self.taken(4))[0])
        except socket.timeout:
            raise Wrong(f"no reply in {self.shared.patience} s to {frame[:40].hex()}") from None
        except OSError as error:
            raise Gone(repr(error)) from None
        self.on_its_way = False
        self.shared.saw(time.monotonic() - begun + self.waited)
        self.waited = 0
        return reply

    def taken(self, count):
        got = b""
        while len(got) < count:
            piece = self.stream.recv(count - len(got))
            if not piece:
                raise Gone("the stream ended")
            got += piece
        return got

    def close(self):
        self.stream.close()


class Shared:
    """What all sessions see of the server, and what they say of it."""

    def __init__(self, arguments):
        self.arguments, self.folder = arguments, new_folder(arguments.place)
        self.turn = threading.Condition()
        self.serving = self.ended = False
        self.parked = self.kills = self.port = self.found = 0
        self.epochs, self.wrong, self.requests, self.longest = set(), [], 0, 0.0
        self.warnings, self.workers, self.patience = [], arguments.workers, SLACK

    # -- the server

    def start(self):
        self.server = network.Server(self.folder, 1_000_000, mode=self.arguments.mode, workers=self.arguments.workers)
        self.port = self.server.port
        threading.Thread(target=self.listen, args=(self.server.process.stderr,), daemon=True).start()

    def listen(self, said):
        """Takes what the server says, so that it never waits for that."""
        for line in said:
            if b": warning: " in line:
                if b"`workers` is passed over" in line:
                    self.workers = 1
                elif b"can be read by others" not in line:
                    self.warnings.append(line.decode().strip())

    def kill(self):
        with self.turn:
            self.serving, self.kills = False, self.kills + 1
        self.server.kill()
        with self.turn:
            self.turn.wait_for(lambda: self.parked == self.arguments.sessions)

    def go_on(self):
        with self.turn:
            self.serving = True
            self.turn.notify_all()

    def end(self):
        """No session begins any more, and those that go on end by themselves."""
        with self.turn:
            self.serving, self.ended = False, True
            self.turn.notify_all()

    # -- sessions

    def admitted(self):
        """Waits while there is no server. The number of kills before, or None behind the end."""
        with self.turn:
            self.parked += 1
            self.turn.notify_all()
            self.turn.wait_for(lambda: self.serving or self.ended)
            self.parked -= 1
            return None if self.ended else self.kills

    def saw(self, seconds):
        with self.turn:
            self.requests += 1
            self.longest = max(self.longest, seconds)

    def accepted(self, epoch):
        with self.turn:
            if epoch in self.epochs:
                self.wrong.append(f"two updates were answered by epoch {epoch}")
            self.epochs.add(epoch)

    def complain(self, text):
        with self.turn:
            self.wrong.append(text)
            if len(self.wrong) <= 20:
                print(text, flush=True)


class Session(threading.Thread):
    """One of the sessions, with its users and files."""

    def __init__(self, shared, others, number):
        super().__init__(daemon=True)
        self.shared, self.others, self.number = shared, others, number
        self.stage, wire, matrix = trials.reference(shared.arguments, "wire", "matrix")
        self.chance = trials.chance_of(shared.arguments, "session", number)
        self.owner = wire.Owner(*(bytes.fromhex(line) for line in KEYS.read_text().split()), self.stage)
        self.fault, self.line = wire.Fault, matrix.line
        self.machine, self.keys, self.unknown = Machine(), {}, None

    def run(self):
        while (kills := self.shared.admitted()) is not None:
            try:
                self.connected()
            except Gone as gone:
                if self.shared.kills == kills:
                    self.shared.complain(f"session {self.number}: the connection broke, and not by a kill: {gone}")
                    time.sleep(1)
            except Exception as error:
                self.shared.complain(f"session {self.number}: {error!r}")

    def connected(self):
        peer = Connection(self.shared)
        try:
            act = self.own if self.chance.random() < 0.6 or not self.machine.files else self.look
            while peer.asked < self.shared.arguments.requests and not self.shared.ended:
                act(peer)
        finally:
            peer.close()

    # -- the owner

    def command(self):
        """What this session does next: mostly what is accepted."""
        chance, users, files = self.chance, self.machine.users, list(self.machine.files)
        if len(users) < USERS or chance.random() < 0.01:
            return ("enrol", b"s%d-u%d" % (self.number, min(len(users), chance.randrange(USERS))))
        if not files or len(files) < FILES and chance.random() < 0.3 or chance.random() < 0.01:
            name = b"s%d-f%d" % (self.number, chance.choice([len(files), len(files), chance.randrange(FILES)]))
            size = chance.choice([0, 1, 16, 100, 1000, 4096, 4097, 70_000])
            return ("create", name, chance.sample(users, chance.randrange(USERS + 1)), chance.randbytes(size))
        user, file = chance.choice(users), chance.choice(files)
        is_listed = user in self.machine.files[file][0]
        return ("revoke" if is_listed == (chance.random() < 0.9) else "grant", user, file)

    def own(self, peer):
        command = self.command()
        after = copy.deepcopy(self.machine)
        wanted = after.reply(command)
        try:
            reply = self.owner.run(peer, command)
        except Gone:
            if peer.on_its_way and wanted.startswith(b"ok "):
                self.unknown = command, after
            raise
        except self.fault as fault:
            return self.unsettled(command[:3], fault)
        CASES["updates and refusals"] += 1
        if reply[0] == "ok" and wanted.startswith(b"ok "):
            self.shared.accepted(reply[1])
            self.machine = after
        elif self.line(reply) != wanted:
            raise Wrong(f"{command[:3]}: {self.line(reply)[:80]} and not {wanted[:80]}")

    def unsettled(self, what, fault):
        """Others were faster nine times, so nothing was made or read. No other fault is right."""
        if fault.name != "Unsettled":
            raise Wrong(f"{what}: {fault.name} {fault.detail}")
        CASES["tries in which others were faster nine times"] += 1

    def is_made(self, peer):
        """Whether the update that was on its way is there."""
        command, _ = self.unknown
        if command[0] == "enrol":
            return self.is_known(peer, command[1])
        file = command[1] if command[0] == "create" else command[2]
        reply = self.owner.run(peer, ("list", file))
        if command[0] == "create":
            return reply[0] == "list"
        return (command[1] in reply[2]) == (command[0] == "grant")

    def is_known(self, peer, user):
        try:
            self.owner.client(peer, user)
        except self.fault:
            return False
        return True

    def settle(self, peer):
        """Behind a kill: whether the update that was on its way was made. One or none."""
        made = self.unknown is not None and self.is_made(peer)
        if made:
            self.machine = self.unknown[1]
        self.unknown = None
        return int(made)

    # -- readers

    def look(self, peer):
        other = self if self.chance.random() < 0.5 else self.chance.choice(self.others)
        machine = other.machine
        if not machine.files:
            return
        file = self.chance.choice(list(machine.files))
        if other is self and self.chance.random() < 0.3:
            self.same(("list", file), self.owner.run(peer, ("list", file)))
        else:
            self.read(peer, other, self.chance.choice(machine.users), file)

    def read(self, peer, other, user, file):
        """A read of a file, which may change meanwhile where it is another session's."""
        if user not in self.keys:
            self.keys[user] = self.owner.client(peer, user)
        try:
            reply = ("data", user, file, self.keys[user].read(peer, file))
        except self.fault as fault:
            if fault.name != "Refused":
                return self.unsettled((user, file), fault)
            reply = ("refused", fault.detail)
        if other is self:
            return self.same(("read", user, file), reply)
        CASES["reads of another session's file"] += 1
        if reply != ("refused", 4) and reply[-1] != other.machine.files[file][1]:
            raise Wrong(f"{user} {file}, of another session: {reply[:1]} {reply[-1][:40]}")

    def same(self, command, reply):
        CASES["reads and lists"] += 1
        if self.line(reply) != (wanted := self.machine.reply(command)):
            raise Wrong(f"{command}: {self.line(reply)[:80]} and not {wanted[:80]}")

    def all(self, peer):
        """Every list of this session, and every file as every user reads it."""
        for file in self.machine.files:
            self.same(("list", file), self.owner.run(peer, ("list", file)))
            for user in self.machine.users:
                self.read(peer, self, user, file)


def killed(shared, sessions):
    """Kills the server, starts it again, and looks for each update."""
    shared.kill()
    begun = time.monotonic()
    shared.start()
    opened = time.monotonic() - begun
    peer = Connection(shared)
    on_their_way = sum(session.unknown is not None for session in sessions)
    found = sum(session.settle(peer) for session in sessions)
    shared.found += found
    epoch = sessions[0].owner.hello(peer)[1]
    peer.close()
    CASES["kills"] += 1
    wanted = len(shared.epochs) + shared.found
    if epoch != wanted or found > shared.workers:
        shared.complain(f"kill {shared.kills}: epoch {epoch}, and {wanted} is right, {found} of them not answered")
    return f"epoch {epoch}; {on_their_way} updates were on their way, {found} are there; opened in {opened:.2f} s"


def shorter(seconds):
    """Programs that are started from now on take a client for silent after so many seconds."""
    library = new_folder() / "short_silence.so"
    subprocess.run(["cc", "-shared", "-fPIC", "-O1", "-o", library, ROOT / "tools" / "short_silence.c"], check=True)
    os.environ.update(LD_PRELOAD=str(library), SILENCE=str(round(seconds * 1000)))


def silent_ones(shared, count):
    """So many connections that say nothing. The list gets the seconds after which each was ended."""
    ended, begun = [], time.monotonic()
    silence = shared.arguments.silence
    limit = silence * (1 + LATE / SILENCE) * -(-count // shared.workers) + SLACK

    def wait():
        with socket.create_connection(("127.0.0.1", shared.port), timeout=limit + SLACK) as stream:
            try:
                stream.recv(1)
            except OSError:
                pass
            ended.append(time.monotonic() - begun)

    waits = [threading.Thread(target=wait, daemon=True) for _ in range(count)]
    for thread in waits:
        thread.start()
    return waits, ended, limit


def silence(shared, waits, ended, limit):
    """Waits until the server has ended them all."""
    for thread in waits:
        thread.join()
    CASES["silent connections"] += len(ended)
    first, last = min(ended), max(ended)
    print(f"{len(ended)} silent connections were ended, the first after {first:.1f} s and the last after {last:.1f} s")
    print(f"the longest wait of a request beside them was {shared.longest:.1f} s", flush=True)
    least, most = shared.arguments.silence - 1, limit + (AGAIN if len(ended) > QUEUE else 0)
    if len(ended) < len(waits) or any(not least < seconds < most for seconds in ended):
        shared.complain(f"a silent connection wasn't ended between {least} s and {most} s")
    free = len(ended) < shared.workers
    if shared.longest > (SLACK if free else limit):
        shared.complain("an owner or a reader waited for longer than the silent connections can make it")
    with shared.turn:
        shared.longest = 0.0


def by_the_client(shared, client, session):
    """Reads every file by the client program, for one user on its list."""
    folder = new_folder()
    shutil.copy(KEYS, folder / "keys.hex")
    (folder / "keys.hex").chmod(0o600)
    address = f"127.0.0.1:{shared.port}"

    def put(*words):
        done = subprocess.run([client, *words], cwd=folder, capture_output=True, timeout=SLACK)
        if done.returncode != 0:
            shared.complain(f"overctl {words}: {done}")
        return done.stdout

    for user in session.machine.users:
        (folder / user.decode()).touch(0o600)
        (folder / user.decode()).write_bytes(put("key", address, "keys.hex", user.decode()))
    for file, (listed, data) in session.machine.files.items():
        if listed:
            CASES["reads by overctl"] += 1
            if put("read", address, min(listed).decode(), file.decode()) != data:
                shared.complain(f"overctl reads other bytes of {file}")
    shutil.rmtree(folder)


def played(arguments, shared, sessions, begun):
    """Kills and starts until the time is over, or so many kills are done."""
    chance = trials.chance_of(arguments, "kills")
    said = time.monotonic()
    while not shared.wrong:
        wait = arguments.kill_every * chance.uniform(0.5, 1.5)
        left = begun + 60 * arguments.minutes - time.monotonic()
        if arguments.kills is None and left < wait:
            time.sleep(max(0, left))
            return
        if arguments.kills is not None and shared.kills >= arguments.kills:
            return
        time.sleep(wait)
        told = killed(shared, sessions)
        if time.monotonic() - said > 20:
            said = time.monotonic()
            print(f"kill {shared.kills}: {told}", flush=True)
        shared.go_on()


def settled(arguments, shared, sessions):
    """Behind the last session: one more kill, and everything is read."""
    shared.end()
    for session in sessions:
        session.join()
    shared.parked = arguments.sessions
    print(f"the last kill: {killed(shared, sessions)}", flush=True)
    for session in sessions:
        peer = Connection(shared)
        try:
            session.all(peer)
        except (Gone, Wrong, session.fault) as error:
            shared.complain(f"at the end, session {session.number}: {error!r}")
        peer.close()
        by_the_client(shared, arguments.client, session)
    shared.server.kill()


def main():
    arguments = parsed()
    network.SERVER = str(arguments.server)
    trials.reference(arguments)
    begun = trials.begin(arguments)
    shared = Shared(arguments)
    kind = subprocess.run(["stat", "-f", "-c", "%T", shared.folder], capture_output=True, text=True).stdout.strip()
    sessions = []
    sessions += [Session(shared, sessions, number) for number in range(arguments.sessions)]
    if arguments.silence != SILENCE:
        shorter(arguments.silence)
    shared.start()
    Connection(shared).close()
    time.sleep(0.5)
    print(f"a store in {shared.folder} ({kind}), {len(sessions)} sessions, {shared.workers} workers", flush=True)
    if arguments.silent:
        silent = silent_ones(shared, arguments.silent)
        shared.patience += silent[2]
    for session in sessions:
        session.start()
    shared.go_on()
    if arguments.silent:
        silence(shared, *silent)
    played(arguments, shared, sessions, time.monotonic())
    settled(arguments, shared, sessions)
    turned_away = arguments.silent - len(shared.warnings)
    if turned_away < 0 or turned_away > 0 and arguments.silent <= QUEUE:
        shared.complain(f"the server warned {len(shared.warnings)} times: {shared.warnings[:3]}")
    shutil.rmtree(shared.folder)
    print(f"{shared.requests} requests, the longest wait {shared.longest:.2f} s")
    print(f"{len(shared.epochs)} updates answered, and {shared.found} more made, of which no answer came")
    print(", ".join(f"{count} {what}" for what, count in CASES.items()))
    trials.end(sum(CASES.values()), len(shared.wrong), begun)


if __name__ == "__main__":
    main()
