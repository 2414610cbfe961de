"""Times the program over a script or over a stated workload, each run in a folder of its own with no
store, or over the store that the script leaves: the least user and system time, the least elapsed time,
and the peak of memory.

Run, after `rt run` has built the program:

    python3 tools/program_times.py PROGRAM full|delta SCRIPT [FOLDER]         # the script
    python3 tools/program_times.py PROGRAM full|delta SCRIPT [FOLDER] again   # an empty script behind it
    python3 tools/program_times.py PROGRAM load full|delta NUMBER COUNT [FOLDER]

FOLDER is where the stores are made: /dev/shm where it isn't given, in which a sync costs nothing.
"""
import os
import pathlib
import shutil
import sys
import tempfile

from common import KEYS, timed

RUNS = 7
words = sys.argv[1:]
again = words[-1] == "again"
if again:
    words.pop()
program, asked = pathlib.Path(words[0]).resolve(), words[1:5]
if asked[0] == "load":
    script, places = os.devnull, words[5:]
else:
    asked, script, places = ["run", words[1]], pathlib.Path(words[2]).resolve(), words[3:]
place = places[0] if places else "/dev/shm"

seen = []
for _ in range(RUNS):
    folder = tempfile.mkdtemp(dir=place)
    shutil.copy(KEYS, folder)
    figures = timed([program, *asked], folder, script)
    if again:
        figures = timed([program, *asked], folder, os.devnull)
    seen.append(figures)
    shutil.rmtree(folder)
print("%.3f s user and system, %.3f s elapsed, %.1f MiB" % tuple(min(column) for column in zip(*seen)))
