"""How long the gate takes on a number of processors, from the processor minutes of its parts.

The plan is the kit's own: `rt` itself says which proof waits for which, how much memory each needs
and what begins next, and only its processes are left out. A task of n processors takes an n-th of its
minutes. The programs and tests, which the gate runs one after the other once all is proved, are not in it.
"""
import importlib.machinery
import importlib.util
import os
import shutil
import sys
import types

KINDS = ("proof", "tests", "edits")


class Machine:
    """Stands in for the threads that `rt` starts: time goes on to the end of the next task at once."""

    def __init__(self):
        self.now, self.running = 0.0, {}

    def __enter__(self):
        return self

    def __exit__(self, *_):
        pass

    def submit(self, minutes, _, jobs):
        task = Task()
        self.running[task] = self.now + minutes / jobs
        return task

    def wait(self, running, **_):
        done = min(running, key=self.running.get)
        self.now = self.running[done]
        return types.SimpleNamespace(done=[done])


class Task:
    """A task that ends well."""

    def result(self):
        return True


def kit():
    """The command `rt` as a module: nothing of it runs."""
    loader = importlib.machinery.SourceFileLoader("rt", os.path.realpath(shutil.which("rt")))
    made = importlib.util.module_from_spec(importlib.util.spec_from_loader("rt", loader))
    sys.dont_write_bytecode = True
    loader.exec_module(made)
    return made


def parts_of_edits(minutes, count):
    """What the minutes of a crate's edits go to: the check that they begin with costs a proof of the
    crate, and the edits and the check behind them share the rest."""
    if count < 2:
        return {"edits": minutes["edits"]}
    seed = min(minutes["proof"], minutes["edits"])
    each = (minutes["edits"] - seed) / (count + 1)
    return {"seed": seed, "edits": each, "sound": each, "again": 0.0}


def tasks_of(rt, crates, table):
    """The gate's tasks, as `rt ci` makes them, with minutes where it has calls."""
    tasks = {}
    for crate in crates:
        minutes, needs, lines = table[crate.name], rt.need(crate), crate.count(rb"\n")
        below = [(it.name, "proof") for it in crate.below()]
        tasks[crate.name, "proof"] = below, lines, needs, minutes["proof"]
        tasks[crate.name, "tests"] = below, lines * crate.has_tests(), needs, minutes["tests"]
        edits = rt.edits_of(crate)[0]
        tasks |= tasks_of_edits(rt, crate, edits, minutes, (below, lines, needs))
    return tasks


def tasks_of_edits(rt, crate, edits, minutes, proof):
    """The tasks of a crate's edits. Some kits try them side by side, once a check of the crate has been made; others one
    after the other, as one task, of which the minutes say the whole."""
    both = [(crate.name, "proof"), (crate.name, "tests")]
    if not hasattr(rt, "add_edits"):
        _, lines, needs = proof
        return {(crate.name, "edits"): (both, lines * bool(edits), needs, minutes["edits"])}
    parts, own = parts_of_edits(minutes, len(edits)), {}
    rt.add_edits(own, crate, edits, proof[0], both, None, None)
    return {key: (*task[:3], parts[key[1]]) for key, task in own.items()}


def crates_here(rt):
    """The repository's crates, the lowest first, as the gate counts their lines. Nothing is set aside or locked."""
    rt.Crate.cuts_libraries = True
    rt.Crate.allowed = rt.handles_of(os.getcwd())
    rt.rtlib.Crate = rt.Crate
    return sorted(rt.rtlib.crates_below(os.getcwd()), key=lambda it: len(it.below()))


def simulated(table, processors, memory=None):
    """The minutes of a whole gate, where `table` has minutes for each crate, and the memory in bytes
    (what is free now, where none is given)."""
    rt, machine = kit(), Machine()
    tasks = tasks_of(rt, crates_here(rt), table)
    rt.processors = lambda: processors
    if memory:
        rt.free = lambda: memory
    # as .ci/run sets it
    os.environ.pop("RT_JOBS", None)
    if rt.free() >= 20e9:
        os.environ["RT_JOBS"] = str(min(processors, int(rt.free() / 5e9)))
    rt.ThreadPoolExecutor, rt.wait = lambda _: machine, machine.wait
    rt.in_lanes(tasks)
    return machine.now
