"""Times a server that many clients ask at once, over the loopback: the figures of 'Many sessions at once' in
docs/PERFORMANCE.md. A plain server in Rust, `plain_threads`, stands beside it: a thread for each session, and one
lock around each answer, which it makes of maps. Each run has a server of its own in a folder of its own, both servers run in turns, and
medians count. Frames are made before; each session of `plain_session` sends each behind the reply to the last.

Run, after `rt run` has built the programs, at the top of the repository:

    python3 tools/session_times.py crates/overstored/out/overstored [--seconds 1] [--sessions 1,4,16,64]
        [--before PROGRAM] [--disk FOLDER]

It takes four minutes and more. `--before` names a server of one session at a time, for what a turn costs, and
`--disk` a folder on a disk whose syncs are timed. Other stores are in `/dev/shm`, where a sync costs nothing, if
it is there.
"""
import argparse
import contextlib
import os
import pathlib
import shutil
import socket
import statistics
import subprocess
import time

from common import compiled, framed, new_folder, processor, started
from network_cases import HELLO, ask, settings
from network_frames import ALICE, F1, Owner, begun, creations, turns

FREE = "/dev/shm" if os.path.isdir("/dev/shm") else None
PREFIX = "session_times_"
WORKERS = 64
RUNS, PAIRS, HELLOS, FILES = 3, 25, 10_000, 32
# More updates than a server accepts in a second.
UPDATES = 60_000
LIMIT = 600
# Whether the first user may be taken off the file, where updates take the second off and grant it again.
ASK = framed(b"\2\4" + ALICE + F1)
# All kinds of replies but refusals and faults.
GOOD = {0x81, 0x82, 0x83, 0x84}


def arguments():
    parser = argparse.ArgumentParser(description="times a server that many clients ask at once")
    parser.add_argument("server", type=pathlib.Path)
    parser.add_argument("--seconds", type=float, default=1)
    parser.add_argument("--sessions", default="1,4,16,64", help="how many at once, each a row")
    parser.add_argument("--before", type=pathlib.Path, help="a server of one session at a time")
    parser.add_argument("--disk", type=pathlib.Path, help="a folder on a disk whose syncs are timed")
    return parser.parse_args()


# ---- servers


@contextlib.contextmanager
def on(processors):
    """What is started here runs on these processors alone."""
    all_of_them = os.sched_getaffinity(0)
    os.sched_setaffinity(0, processors)
    try:
        yield
    finally:
        os.sched_setaffinity(0, all_of_them)


def halves():
    """Processors for the client and others for the server, as many for each."""
    processors = sorted(os.sched_getaffinity(0))
    half = len(processors) // 2
    return set(processors[:half]), set(processors[half:])


@contextlib.contextmanager
def running(place, words, apart=False):
    """A server of its own folder: its process and its address. The words are made in that folder. Apart from its
    client it runs on half of the processors."""
    folder = new_folder(place, PREFIX)
    with on(halves()[1]) if apart else contextlib.nullcontext():
        process, address = started(folder, *words(folder))
    try:
        yield process, address
    finally:
        process.kill()
        process.wait()
        shutil.rmtree(folder)


def real(program, **other):
    """The words of this server, with its settings in the folder."""

    def words(folder):
        (folder / "settings.toml").write_text(settings(1_000_000, mode="full", **other))
        return program.resolve(), "settings.toml"

    return words


def plain(_):
    return OUT / "plain_threads", "book"


# ---- sessions


def file_of(name, frames):
    (OUT / name).write_bytes(b"".join(frames))
    return OUT / name


def client(*words):
    words = [OUT / "plain_session", *map(str, words)]
    return subprocess.run(words, stdout=subprocess.PIPE, check=True, timeout=LIMIT).stdout.decode()


def one(address, frames):
    """Seconds of one session of the frames in this file, and the kinds and sizes of its replies."""
    seconds = float(client(address, frames, OUT / "replies"))
    replies = [tuple(map(int, line.split())) for line in (OUT / "replies").read_text().splitlines()]
    assert {kind for kind, _ in replies} <= GOOD, replies
    return seconds, replies


def many(server, address, sessions, seconds, frames, *leading):
    """Requests a second of the first session and of the others, processor seconds of the server's side for each
    request, and how many processors that side kept busy."""
    before = processor(server)
    lines = client(address, frames, sessions, seconds, *leading).splitlines()
    used = processor(server) - before
    counts = [int(line.split()[0]) for line in lines]
    lasted = [float(line.split()[1]) for line in lines]
    assert len(lines) == sessions and {int(kind) for line in lines for kind in line.split()[2:]} <= GOOD, lines
    each = [count / seconds for count, seconds in zip(counts, lasted)]
    return each[0], sum(each[1:]), used / sum(counts), used / max(lasted)


def middle(rows):
    """The median of each column."""
    return [statistics.median(column) for column in zip(*rows)]


def medians(place, servers, *words, apart=False):
    """The medians of `many` for each of these servers, which run in turns."""
    figures = [[] for _ in servers]
    for _ in range(RUNS):
        for server, taken in zip(servers, figures):
            with running(place, server, apart) as (process, address):
                one(address, OUT / "begin")
                with on(halves()[0]) if apart else contextlib.nullcontext():
                    taken.append(many(process, address, *words))
    return [middle(taken) for taken in figures]


def make_frames():
    """The files of frames."""
    owner = Owner()
    file_of("begin", begun(owner))
    epoch = owner.epoch
    file_of("creations", creations(owner, FILES))
    owner.epoch = epoch
    updates = turns(owner, int(UPDATES * ARGUMENTS.seconds))
    file_of("updates", updates)
    hello = framed(HELLO)
    file_of("hellos", [hello] * HELLOS)
    file_of("hello", [hello])
    file_of("ask", [ASK])


# ---- tables


def many_a_second(rate):
    return format(round(rate), ",")


def row(*cells):
    print("|" + "".join(" %s |" % cell if cell != "" else " |" for cell in cells), flush=True)


def table(*heads):
    print()
    row(*heads)
    print("|%s" % ("---|" * len(heads)))


def questions(apart=False):
    """How many a second in all sessions, and processor time of the server's side for each. Apart, the client and the
    server have half of the processors each, and don't take them from one another."""
    table("apart" if apart else "", "sessions", "`overstored`", "", "plain threads", "")
    for title, frames in ("Hello", "hello"), ("Ask", "ask"):
        for sessions in SESSIONS:
            cells = []
            words = sessions, ARGUMENTS.seconds, OUT / frames
            for first, others, used, _ in medians(FREE, BOTH, *words, apart=apart):
                cells += [many_a_second(first + others), "%.1f µs" % (used * 1e6)]
            row(title, sessions, *cells)


def updates():
    """How many updates a second of one session, and how many questions of the others, which ask beside it."""
    table("updates of one session, questions of the others", "sessions", "`overstored`", "", "plain threads", "")
    places = [("updates, no syncs" if FREE else "updates", FREE)]
    if ARGUMENTS.disk:
        places.append(("updates, on a disk", ARGUMENTS.disk.resolve()))
    for title, place in places:
        for sessions in SESSIONS:
            cells = []
            words = sessions, ARGUMENTS.seconds, OUT / "ask", OUT / "updates"
            for first, others, _, _ in medians(place, BOTH, *words):
                cells += [many_a_second(first), many_a_second(others)]
            row(title, sessions, *cells)


def hellos(servers):
    """Microseconds of a Hello, and those of the server's processor time, in sessions with each of these servers in
    turns: a pair for each session, in a list for each server."""
    figures = [[] for _ in servers]
    with contextlib.ExitStack() as stack:
        open_now = [(*stack.enter_context(running(FREE, words)), taken) for words, taken in zip(servers, figures)]
        for pair in range(PAIRS):
            for process, address, taken in open_now if pair % 2 else open_now[::-1]:
                before = processor(process)
                seconds, _ = one(address, OUT / "hellos")
                taken.append((seconds / HELLOS * 1e6, (processor(process) - before) / HELLOS * 1e6))
    return figures


def turn():
    """One session that says Hello, with nobody beside it: of this server, and of one without turns. On one processor
    the times don't hang on which of them the system gives to whom."""
    table("one session", "on", "a second", "time for each", "processor time for each")
    servers = [SERVER] + [real(ARGUMENTS.before)] * bool(ARGUMENTS.before)
    all_of_them = os.sched_getaffinity(0)
    for title, processors in ("all processors", all_of_them), ("one processor", {max(all_of_them)}):
        with on(processors):
            figures = hellos(servers)
        for name, taken in zip(("with turns, %d workers" % WORKERS, "before"), figures):
            passed, used = middle(taken)
            row(name, title, many_a_second(1e6 / passed), "%.2f µs" % passed, "%.2f µs" % used)
        if ARGUMENTS.before:
            passed, used = middle((now[0] - then[0], now[1] - then[1]) for now, then in zip(*figures))
            row("a turn: the median difference", title, "", "%+.2f µs" % passed, "%+.2f µs" % used)


# ---- waiting


def idle(sessions, does):
    """Processor time of a server for each second, while so many sessions are open and this is done in the first."""
    with running(FREE, SERVER) as (process, address), contextlib.ExitStack() as stack:
        streams = [stack.enter_context(socket.create_connection(address.rsplit(":", 1))) for _ in range(sessions)]
        for stream in streams:
            ask(stream, HELLO)
        at, before = time.monotonic(), processor(process)
        while time.monotonic() - at < 3 * ARGUMENTS.seconds:
            does(streams)
        return (processor(process) - before) / (time.monotonic() - at)


def nothing(_):
    time.sleep(0.05)


def trickle(streams):
    """A Hello, a byte each 2 milliseconds."""
    for byte in framed(HELLO):
        streams[0].sendall(bytes([byte]))
        time.sleep(0.002)
    streams[0].recv(1 << 16)


def waiting():
    """What waits takes no processor: sessions that say nothing, and those that wait for a long turn."""
    count = os.cpu_count()
    table("waiting", "sessions", "processor time a second", "idle of %d processors" % count)
    for title, sessions, does in (
        ("nobody is there", 0, nothing),
        ("all are silent", WORKERS, nothing),
        ("one sends a byte each 2 ms", 1, trickle),
        ("the same, the others are silent", WORKERS, trickle),
    ):
        used = statistics.median(idle(sessions, does) for _ in range(RUNS))
        row(title, sessions, "%.2f ms" % (used * 1e3), "%.3f %%" % (100 * (1 - used / count)))
    for title, sessions in ("one creates files of 1 MiB", 1), ("the same, the others wait for their turn", WORKERS):
        words = sessions, LIMIT, OUT / "hello", OUT / "creations"
        ((_, _, _, used),) = medians(FREE, (SERVER,), *words)
        row(title, sessions, "%.0f ms" % (used * 1e3), "%.1f %%" % (100 * (1 - used / count)))


if __name__ == "__main__":
    os.umask(0o077)
    ARGUMENTS = arguments()
    SESSIONS = [int(word) for word in ARGUMENTS.sessions.split(",")]
    assert max(SESSIONS) <= WORKERS, "further sessions wait until one ends"
    SERVER = real(ARGUMENTS.server, workers=WORKERS)
    BOTH = SERVER, plain
    OUT = new_folder(FREE, PREFIX)
    try:
        for program in "plain_session", "plain_threads":
            compiled(program, OUT)
        make_frames()
        questions()
        questions(apart=True)
        updates()
        turn()
        waiting()
    finally:
        shutil.rmtree(OUT)
