"""Runs the program under many limits of its memory, and looks at what it says and what it leaves.

Run, after `rt run` has built the program:

    python3 tools/memory_limits.py crates/overstore/out/overstore [--seed S] [--limits N]

The program runs over a script of 60 commands with files of up to 200,000 bytes, with no store and with that of the
first 30, in both modes. Each of N limits of the address space, 200 where it isn't said, lies between one under which
it just prints something and one under which it answers the whole script, so that memory is refused somewhere between.

| what is compared at each limit | with |
|---|---|
| the status | 7, or 0 where the memory was enough; where it wasn't enough to start, the system's, and nothing is printed |
| the lines | a front of the right ones, whole replies, and `error memory`; all of them at status 0 |
| what is read behind it, every list and file | the updates that were answered, or one more |

What is right is said by the machine of `tools/plain_machine.py`.
"""
import resource
import shutil

import disk_faults
import trials
from common import new_folder
from plain_machine import spelled

PAGE = 4096
MEMORY = 7
SIZES = [0, 1, 100, 4096, 4097, 30_000, 65_536, 65_537, 200_000]


def larger(command, chance):
    """A creation with another text."""
    return (*command[:3], chance.randbytes(chance.choice(SIZES))) if command[0] == "create" else command


class Limited(disk_faults.Run):
    """Runs the program under a limit."""

    def under(self, script, limit):
        return self.over(script, preexec_fn=lambda: resource.setrlimit(resource.RLIMIT_AS, (limit, limit)))


def least(holds, low, high):
    """The least multiple of a page between these of which this holds, where it holds of each that is greater."""
    low, high = low // PAGE, high // PAGE
    while low < high:
        middle = (low + high) // 2
        low, high = (low, middle) if holds(middle * PAGE) else (middle + 1, high)
    return low * PAGE


class Tries(disk_faults.Tries):
    """The limits of one mode and one store to begin with."""

    def under(self, limit):
        self.run.put(self.before)
        return self.run.under(self.script, limit)

    def all(self, limits):
        most = 1 << 32
        starts = least(lambda limit: self.under(limit)[1] != b"", PAGE, most)
        ends = least(lambda limit: self.under(limit)[0] == 0, starts, most)
        first = starts - 8 * PAGE
        for number in range(limits):
            limit = first + (ends - first) * number // (limits - 1)
            self.judge(f"at most {limit} bytes of memory", self.under(limit), True)
        return starts, ends

    def wrong_lines(self, status, lines, may_end):
        if status == 0:
            return None if lines == self.whole else f"other lines: {lines[-99:]}"
        if status != MEMORY:
            return None if lines == b"" else f"lines before it started: {lines[-99:]}"
        fronts = (b"".join(self.replies[:count]) + b"error memory\n" for count in range(len(self.replies) + 1))
        return None if lines in fronts else f"no front of the lines with `error memory`: {lines[-99:]}"


def main():
    parser = trials.options(__doc__, "program")
    parser.add_argument("--limits", type=trials.whole, default=200, metavar="N", help="how many limits (200)")
    arguments = parser.parse_args()
    begun = trials.begin(arguments)
    chance = trials.chance_of(arguments, "script")
    task = disk_faults.Task([larger(command, chance) for command in disk_faults.commands_of(chance)])
    cases = wrong = 0
    for mode in disk_faults.MODES:
        run = Limited(arguments.program, mode, new_folder(trials.FAST_PLACE if trials.FAST_PLACE.is_dir() else None))
        run.put({})
        run.over(b"".join(map(spelled, task.commands[: disk_faults.BEFORE])))
        for first, files in ((0, {}), (disk_faults.BEFORE, run.files())):
            tries = Tries(run, task, first, files)
            starts, ends = tries.all(arguments.limits)
            ended = ", ".join(f"{count} with status {status}" for status, count in sorted(tries.ended.items()))
            print(f"{mode}, from command {first + 1} on: {starts} to {ends} bytes; runs ended: {ended}", flush=True)
            cases, wrong = cases + tries.cases, wrong + tries.wrong
        shutil.rmtree(run.folder)
    trials.end(cases, wrong, begun)


if __name__ == "__main__":
    main()
