"""What the tools that try a program by chance have in common: their options, the independent reference, a pool of
processes, and the last line.

The independent reference is another implementation of the store, which shares no code with the crates. It isn't
in this repository: `--oracle` names the folder that has its Python package `oracle`.
"""
import argparse
import contextlib
import importlib
import multiprocessing
import os
import pathlib
import random
import sys
import tempfile
import time

# In memory where the system has such a place: a sync there costs nothing.
FAST_PLACE = pathlib.Path("/dev/shm")


def options(text, *programs):
    """The parser of a tool that is described so and takes these programs."""
    parser = argparse.ArgumentParser(description=text, formatter_class=argparse.RawDescriptionHelpFormatter)
    for name in programs:
        parser.add_argument(name, type=program, metavar=name.upper(), help="the built program")
    parser.add_argument("--seed", type=int, help="the number that all choices come from; it is printed")
    return parser


def program(word):
    path = pathlib.Path(word).resolve()
    if not os.access(path, os.X_OK) or path.is_dir():
        raise argparse.ArgumentTypeError(f"{word} is no program")
    return path


def whole(word):
    """A count of at least one."""
    count = int(word)
    if count < 1:
        raise argparse.ArgumentTypeError("it is 1 at least")
    return count


def with_reference(parser, **more):
    """The options of a tool that compares with the independent reference."""
    parser.add_argument(
        "--oracle",
        type=pathlib.Path,
        metavar="FOLDER",
        help="has the package `oracle`, the independent reference",
        **more,
    )
    parser.add_argument("--stage", type=int, default=20, help="which of its stages the program is at (20)")


def with_jobs(parser):
    """The options of a tool that has its cases tried by several processes."""
    parser.add_argument("--jobs", type=whole, default=1, metavar="N", help="how many processes try cases (1)")
    parser.add_argument("--place", type=pathlib.Path, help="where the stores are made (/dev/shm where it is there)")
    parser.add_argument("--keep", type=pathlib.Path, metavar="FOLDER", help="gets the files of each wrong case")


@contextlib.contextmanager
def place_of(arguments):
    """A new folder in which stores are made, and which is removed behind them."""
    place = arguments.place or (FAST_PLACE if FAST_PLACE.is_dir() else None)
    with tempfile.TemporaryDirectory(prefix="overstore-", dir=place) as folder:
        yield pathlib.Path(folder)


def reference(arguments, *modules):
    """These modules of the independent reference, and its stage."""
    if arguments.oracle is None or not (arguments.oracle / "oracle" / "__init__.py").is_file():
        sys.exit(f"{arguments.oracle} has no package `oracle`")
    if str(arguments.oracle.resolve()) not in sys.path:
        sys.path.insert(0, str(arguments.oracle.resolve()))
    load = lambda name: importlib.import_module(f"oracle.{name}")
    return load("stage").stage_of(arguments.stage), *map(load, modules)


def begin(arguments):
    """Says the seed, which is drawn where none is given."""
    if arguments.seed is None:
        arguments.seed = random.SystemRandom().randrange(1 << 32)
    print(f"seed {arguments.seed}", flush=True)
    return time.monotonic()


def chance_of(arguments, *names):
    """The choices of one thing, which are the same in each run of this seed."""
    return random.Random(" ".join(map(str, (arguments.seed, *names))))


def tried(arguments, work, numbers):
    """What `work` finds at each of these numbers: cases, and a text for each wrong one. Prints the texts as they come,
    and says now and then how far it is."""
    cases, wrong, said = 0, 0, time.monotonic()
    with multiprocessing.get_context("fork").Pool(arguments.jobs) as pool:
        for count, texts in pool.imap(work, numbers):
            cases, wrong = cases + count, wrong + len(texts)
            for text in texts:
                print(text, flush=True)
            if time.monotonic() - said > 30:
                said = time.monotonic()
                print(f"{cases} cases so far, {wrong} wrong", flush=True)
    return cases, wrong


def end(cases, wrong, begun=None):
    """The last line, and the exit status."""
    if begun is not None:
        seconds = time.monotonic() - begun
        print(f"{seconds:.1f} s, {cases / seconds:.0f} cases a second")
    print(f"{cases} cases, {wrong} wrong")
    sys.exit(1 if wrong else 0)


def shown(what, got, wanted):
    """How two byte strings differ, or None."""
    if got == wanted:
        return None
    at = next((i for i, (a, b) in enumerate(zip(got, wanted)) if a != b), min(len(got), len(wanted)))
    around = slice(max(0, at - 16), at + 48)
    return f"  {what}, at byte {at} of {len(got)} and {len(wanted)}: {got[around]!r} and not {wanted[around]!r}"
