#!/usr/bin/env python3
"""Runs the gate and tells what it costs: python3 tools/gate_minutes.py [WORDS OF rt ci..]

Prints the gate's own lines as they come, and at its end a table: for each crate the processor minutes
of its proof, of its tests' proofs and of its must-fail edits, as the system counted them for the
processes that the gate started. Crates that were kept from an earlier run cost nothing here. Behind
the table stands how long such a gate takes on four and on two processors (gate_simulation.py).

python3 tools/gate_minutes.py --from FILE [GB] runs no gate and simulates one by the table in FILE, which
is what this program printed, with so much free memory as is here or as GB says.
"""
import collections
import os
import re
import subprocess
import sys
import threading
import time

from gate_simulation import KINDS, crates_here, kit, simulated

TICKS = os.sysconf("SC_CLK_TCK")


def processes():
    """The parent, the processor seconds and the words of each process, with its folder."""
    for pid in filter(str.isdigit, os.listdir("/proc")):
        try:
            stat = open(f"/proc/{pid}/stat").read().rsplit(")", 1)[1].split()
            words = open(f"/proc/{pid}/cmdline").read().split("\0")
            folder = os.readlink(f"/proc/{pid}/cwd")
        except (OSError, IndexError):
            continue
        yield int(pid), int(stat[1]), (int(stat[11]) + int(stat[12])) / TICKS, words, folder


def is_below(pid, parents, top):
    while pid in parents:
        if pid == top:
            return True
        pid = parents[pid]
    return False


def kind_of(words, folder):
    """Which of the three a prover's process works on: edits are tried in a copy of their own."""
    if "must-fail" in folder or re.search(r"/rt-edit|/edit", folder):
        return "edits"
    return "tests" if "--test" in words else "proof"


def watch(top, seen):
    while top.poll() is None:
        table = list(processes())
        parents = {pid: parent for pid, parent, *_ in table}
        for pid, _, seconds, words, folder in table:
            if "--crate-name" in words and is_below(pid, parents, top.pid):
                crate = words[words.index("--crate-name") + 1]
                seen[pid, crate, kind_of(words, folder)] = seconds
        time.sleep(0.5)


def measured(words):
    """Runs the gate, and returns its status and each crate's minutes."""
    start = time.time()
    gate = subprocess.Popen(["rt", "ci", *words], stdout=subprocess.PIPE, text=True)
    seen = {}
    watcher = threading.Thread(target=watch, args=(gate, seen))
    watcher.start()
    for line in gate.stdout:
        print(line, end="", flush=True)
    watcher.join()
    spent = collections.defaultdict(collections.Counter)
    for (_, crate, kind), seconds in seen.items():
        spent[crate][kind] += seconds / 60
    print(f"\n{(time.time() - start) / 60:.1f} minutes on {os.cpu_count()} processors\n")
    return gate.wait(), spent


def read(text):
    """Each crate's minutes by the rows of the tables in a text. A row of several crates, or of the
    others, is shared out evenly; one that names none is passed over."""
    rows = re.findall(r"^\| (.+?) \| *([\d.]+) \| *([\d.]+) \| *([\d.]+) \|$", text, re.M)
    every = {it.name for it in crates_here(kit())}
    named = {name for row in rows for name in row[0].split(", ")}
    spent = collections.defaultdict(collections.Counter)
    for title, *minutes in rows:
        names = sorted(every - named if title.startswith("the other ") else every & {*title.split(", ")})
        for name in names:
            spent[name] += collections.Counter(
                {kind: float(it) / len(names) for kind, it in zip(KINDS, minutes)})
    for lacking in sorted(every - {*spent}):
        print(f"no minutes of {lacking}: it counts as nothing")
    return spent


def tell(spent):
    print("| crate | proof | tests | edits |\n|---|---|---|---|")
    for crate in sorted(spent, key=lambda it: -sum(spent[it].values())):
        print(f"| {crate} | " + " | ".join(f"{spent[crate][kind]:.1f}" for kind in KINDS) + " |")
    whole = [sum(it[kind] for it in spent.values()) for kind in KINDS]
    print("| all | " + " | ".join(f"{it:.1f}" for it in whole) + " |")


def main(words):
    is_told = words[:1] == ["--from"]
    status, spent = (0, read(open(words[1]).read())) if is_told else measured(words)
    tell(spent)
    memory = float(words[2]) * 1e9 if is_told and words[2:] else None
    for processors in (4, 2):
        minutes = simulated(spent, processors, memory)
        print(f"simulated, nothing kept, on {processors} processors: {minutes:.0f} minutes")
    return status


if __name__ == "__main__":
    sys.exit(main(sys.argv[1:]))
