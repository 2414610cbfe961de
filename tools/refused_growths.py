"""Runs the repository's tests with one growth of memory refused, each in turn, and looks at how they end.

Run, after `rt ci` has built the tests:

    python3 tools/refused_growths.py crates [--most N] [--only NAME] [--jobs J]

Each test is a program of its own. It runs once, so that its growths are counted, and then once for each of them, or
for N of them, 200 where it isn't said, which lie as far apart as they can. That growth alone is refused, by a small
library in C (`tools/refused_growths.c`) that the test preloads.

| how a test ends | what that is |
|---|---|
| passed | it can do without this memory, or tells each answer that it may get |
| said so | it gave up, and says that memory was refused |
| gave up | it stopped itself at another answer than it wants; each such place is printed once, with what it says |
| wrong | it ended by itself in no such way, or took more than a minute; the status is 1 then |
"""
import argparse
import collections
import concurrent.futures
import os
import pathlib
import re
import resource
import shutil
import signal
import subprocess
import sys

from common import new_folder

SECONDS = 60
ROOT = pathlib.Path(__file__).resolve().parent.parent
SAYS = re.compile(r"memory|Alloc(Error|Failed)", re.IGNORECASE)
GIVES_UP = re.compile(r"test stopped at|the test failed")

def arguments():
    parser = argparse.ArgumentParser(description="runs the tests with one growth of memory refused")
    parser.add_argument("crates", type=pathlib.Path)
    parser.add_argument("--most", type=int, default=200, help="how many growths of a test")
    parser.add_argument("--only", default="", help="a part of the name of a test crate")
    parser.add_argument("--jobs", type=int, default=os.cpu_count())
    return parser.parse_args()


def tests(program):
    """The names of the tests in this program."""
    lines = subprocess.run([program, "--list"], capture_output=True, text=True, check=True).stdout.splitlines()
    return [line.removesuffix(": test") for line in lines if line.endswith(": test")]


def run(library, program, test, growth):
    """How a test ends, what it says, and how many growths it had, where this one is refused; 0 is none."""
    folder = new_folder(prefix="refused_growths_")
    count = folder / "count"
    words = {"REFUSED_GROWTH": str(growth), "REFUSED_COUNT": str(count), "LD_PRELOAD": str(library)}
    try:
        done = subprocess.run(
            [program, test], cwd=folder, env=os.environ | words, capture_output=True, text=True, timeout=SECONDS
        )
        growths = int.from_bytes(count.read_bytes(), sys.byteorder)
        return done.returncode, done.stdout + done.stderr, growths
    except subprocess.TimeoutExpired:
        return None, "more than %d seconds" % SECONDS, 0
    finally:
        shutil.rmtree(folder)


def spread(growths, most):
    """At most so many numbers from 1 to that of all growths."""
    step = max(growths / most, 1)
    return sorted({1 + int(step * number) for number in range(min(growths, most))})


def verdict(status, text):
    if status == 0:
        return "passed"
    if status not in (-signal.SIGABRT, 101) or not GIVES_UP.search(text):
        return "wrong"
    return "said so" if SAYS.search(text) else "gave up"


def one(library, program, test, most):
    """How often a test ends in each way, and what is to be looked at, each once."""
    status, text, growths = run(library, program, test, 0)
    if status != 0:
        return collections.Counter(wrong=1), {f"{test}, nothing refused: {text}"}
    counts, shown = collections.Counter(), set()
    for growth in spread(growths, most):
        status, text, _ = run(library, program, test, growth)
        how = verdict(status, text)
        counts[how] += 1
        if how == "wrong":
            shown.add(f"{test}, growth {growth} of {growths}: status {status}: {text}")
        elif how == "gave up":
            shown.add(f"{test}: {text}")
    return counts, shown


def main():
    asked = arguments()
    # A test that stops itself leaves no image of its memory.
    resource.setrlimit(resource.RLIMIT_CORE, (0, 0))
    library = new_folder() / "refused_growths.so"
    source = ROOT / "tools" / "refused_growths.c"
    subprocess.run(["cc", "-shared", "-fPIC", "-O2", "-o", library, source], check=True)
    programs = sorted(asked.crates.resolve().glob("*_t/out/*_t_tests"))
    programs = [program for program in programs if asked.only in program.name]
    if not programs:
        sys.exit("no test is built: run `rt ci` first")
    wrong = 0
    with concurrent.futures.ThreadPoolExecutor(asked.jobs) as pool:
        for program in programs:
            done = list(pool.map(lambda test: one(library, program, test, asked.most), tests(program)))
            counts = sum((each for each, _ in done), collections.Counter())
            wrong += counts["wrong"]
            cells = ["%s %6d" % (how, counts[how]) for how in ("passed", "said so", "gave up", "wrong")]
            print("%-18s %s" % (program.name.removesuffix("_tests"), "  ".join(cells)), flush=True)
            for line in sorted(set().union(*(shown for _, shown in done))):
                print("    " + " / ".join(filter(None, map(str.strip, line.splitlines()))), flush=True)
    sys.exit(1 if wrong else 0)


main()
