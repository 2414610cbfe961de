"""Runs the commands of README.md, docs/ and the man pages, and the scripts of examples/, and compares
what they print with what stands on the page or beside the script.

    python3 tools/run_docs.py                 # what needs no proved program
    python3 tools/run_docs.py PROGRAM..       # and what needs these, as crates/overstore/out/overstore
    python3 tools/run_docs.py PROGRAM.. kit   # and what calls the kit, which proves nothing here

The line on standard error that says that a new store was begun is left out on the pages, and here.
A program is known by its name, which ends in overstore, overstored or overctl.

A block of a page is run where a comment stands above it:

    <!-- run -->             in a new folder that has tools/, examples/, dist/ and docs/
    <!-- run: program -->    so, with the example key file, `overstore` and the scripts that are installed with it
    <!-- run: network -->    so, with the example key file, `overstored` and `overctl`
    <!-- run: .., on -->     in the folder of the block before it
    <!-- run: kit -->        in this repository
    <!-- file: NAME -->      it isn't run: it is written to NAME in the folder of the next block
    <!-- before: COMMAND --> is run before the next block, which has a mark of its own below
    <!-- not run: WHY -->    it isn't run

A block of `sh` is one script, and what it prints is the next block, if that has no language and nothing
but text stands between them. In a block of `console` each line behind `$ ` is run and the lines below
it are what it prints. A man page's block is a literal display, and its mark is a comment of mdoc's. Each
block of commands has a mark, but for those of PERFORMANCE.md, which measure.
"""
import os
import pathlib
import re
import shutil
import subprocess
import sys

from common import KEYS, ROOT, new_folder

PAGES = [
    ROOT / "README.md",
    *sorted((ROOT / "docs").glob("*.md")),
    ROOT / "examples" / "README.md",
    *sorted((ROOT / "dist" / "man").glob("*.[1-8]")),
]
MEASURES = ROOT / "docs" / "PERFORMANCE.md"
MARK = re.compile(r"<!-- (run|file|not run|before)(?:: (.*?))? -->")
MAN_MARK = re.compile(r'\.\\" (run|file|not run|before)(?:: (.*))?')
MAN_SIGNS = {r"\e": "\\", r"\&": "", r"\-": "-", r"\(aq": "'"}
NEEDS = {"program", "network", "kit"}
NEW_STORE = (
    "overstore: note: there was no store in this folder, so a new one was begun\n"
    "overstore: hint: where these keys had a store before, run nothing more: read Restoring in OPERATING.md\n"
)
PROGRAMS = ("overstored", "overstore", "overctl")
# The scripts of tools/ that are installed, by the commands that they are then.
SCRIPTS = {
    "list-all": "list_all",
    "revoke-all": "revoke_all",
    "grant-all": "grant_all",
    "usage": "store_usage",
    "script-of-book": "script_of_book",
}


def lay_keys(folder):
    """Lays the key file of the examples into a folder, for its owner alone."""
    shutil.copy(KEYS, folder)
    (pathlib.Path(folder) / "keys.hex").chmod(0o600)


def blocks_of(page):
    """Each block of a page: its line, its mark if it has one, its language and its text."""
    return blocks_of_text(page) if page.suffix == ".md" else blocks_of_man(page)


def blocks_of_man(page):
    mark, begun, text = None, 0, []
    for number, line in enumerate(page.read_text().split("\n"), 1):
        if line.startswith(".Bd -literal"):
            begun, text = number, []
        elif line == ".Ed":
            yield begun, mark, "console" if text[0].startswith("$ ") else "", "".join(text)
            mark, begun = None, 0
        elif begun:
            text.append(re.sub(r"\\(?:[e&-]|\(aq)", lambda sign: MAN_SIGNS[sign.group()], line) + "\n")
        elif found := MAN_MARK.fullmatch(line):
            mark = found.groups()
            if mark[0] == "before":
                yield number, mark, "", mark[1]
        elif not line.startswith(".Pp"):
            mark = None


def blocks_of_text(page):
    mark, language, begun, text = None, None, 0, []
    for number, line in enumerate(page.read_text().split("\n"), 1):
        if language is None and line.startswith("```"):
            language, begun, text = line[3:], number, []
        elif language is not None and line == "```":
            yield begun, mark, language, "".join(text)
            mark, language = None, None
        elif language is not None:
            text.append(line + "\n")
        elif found := MARK.fullmatch(line):
            mark = found.groups()
            if mark[0] == "before":
                yield number, mark, "", mark[1]
        elif line.strip():
            mark = None


def runs_of(page):
    """Each run of a page: its line, its words, the files to write before it, and commands with what
    they print, or None where that isn't said."""
    blocks, files, before = list(blocks_of(page)), {}, []
    for place, (line, mark, language, text) in enumerate(blocks):
        if mark is None or mark[0] == "not run":
            continue
        if mark[0] == "file":
            files[mark[1]] = text
            continue
        if mark[0] == "before":
            before.append((text, None))
            continue
        words = set(mark[1].split(", ")) if mark[1] else set()
        assert words <= NEEDS | {"on"}, f"{page.name}:{line}: {mark[1]}"
        if language == "console":
            parts = re.split(r"^\$ ", text, flags=re.M)[1:]
            yield line, words, files, before + [part.partition("\n")[::2] for part in parts]
        else:
            after = blocks[place + 1] if place + 1 < len(blocks) else None
            printed = after[3] if after and after[1] is None and after[2] == "" else None
            yield line, words, files, before + [(text, printed)]
        files, before = {}, []


def unmarked_of(page):
    """The lines of the blocks of commands that have no mark."""
    for line, mark, language, _ in blocks_of(page):
        if mark is None and language in ("sh", "console") and page != MEASURES:
            yield line


def page_folder():
    """A folder that has the folders of the repository that pages name."""
    folder = new_folder()
    for name in ("tools", "examples", "dist", "docs"):
        (folder / name).symlink_to(ROOT / name)
    return folder


def shell(command, folder, place, status):
    """What a command prints, the folder where it ends, and its status: `cd` and `$?` last as in a
    terminal."""
    last = folder / ".last"
    whole = f"cd '{place}'\n(exit {status})\n{command}\nstatus=$?\necho $status $PWD > '{last}'\n"
    environment = dict(os.environ, PATH=f"{BIN}:{os.environ['PATH']}")
    done = subprocess.run(
        ["bash", "-c", whole],
        env=environment,
        stdin=subprocess.DEVNULL,
        stdout=subprocess.PIPE,
        stderr=subprocess.STDOUT,
    )
    status, _, place = last.read_text().strip().partition(" ")
    return done.stdout.decode().replace(NEW_STORE, ""), pathlib.Path(place), status


def without_kit(text):
    return "".join(line for line in text.splitlines(True) if not re.match(r"checked: ended|run=ended", line))


def run_page(page, have):
    """The numbers of blocks that ran, of those left out, and of what is wrong: commands that printed
    something else, and blocks without a mark."""
    ran = left = wrong = 0
    folder = place = None
    for line in unmarked_of(page):
        wrong += 1
        print(f"{page.relative_to(ROOT)}:{line}: no mark says how this is run, or why it isn't")
    for line, words, files, commands in runs_of(page):
        if words & NEEDS - have:
            left += 1
            continue
        if "on" not in words or folder is None:
            folder = place = page_folder()
            if words & {"program", "network"}:
                lay_keys(folder)
        if "kit" in words:
            place = ROOT
        for name, text in files.items():
            (folder / name).write_text(text)
        ran += 1
        status = "0"
        for command, expected in commands:
            printed, place, status = shell(command, folder, place, status)
            printed = without_kit(printed)
            if printed != expected if expected is not None else status != "0":
                wrong += 1
                print(f"{page.relative_to(ROOT)}:{line}: {command.strip()}: status {status}")
                print(f"--- the page\n{expected}--- printed\n{printed}")
    return ran, left, wrong


def script_of(name):
    """The script of this name in examples/, or the one that a program of tools/ makes."""
    script = ROOT / "examples" / f"{name}.script"
    if script.exists():
        return script.read_bytes()
    maker = [sys.executable, ROOT / "tools" / f"{name}_script.py"]
    return subprocess.run(maker, stdout=subprocess.PIPE, check=True).stdout


def run_examples(have):
    """Each script that has replies beside it, from an empty store, in both modes."""
    ran = left = wrong = 0
    for replies in sorted((ROOT / "examples").glob("*.replies")):
        if "program" not in have:
            left += 1
            continue
        for mode in ("full", "delta"):
            folder = page_folder()
            lay_keys(folder)
            done = subprocess.run(
                [BIN / "overstore", "run", mode],
                cwd=folder,
                input=script_of(replies.stem),
                stdout=subprocess.PIPE,
            )
            ran += 1
            if done.returncode != 0 or done.stdout != replies.read_bytes():
                wrong += 1
                print(f"{replies.stem}, {mode}: status {done.returncode}, other replies")
    return ran, left, wrong


words = sys.argv[1:]
have = {"kit"} if "kit" in words else set()
BIN = new_folder()
for command, name in SCRIPTS.items():
    (BIN / f"overstore-{command}").symlink_to(ROOT / "tools" / f"{name}.py")
for path in (pathlib.Path(word).resolve() for word in words if word != "kit"):
    name = next((name for name in PROGRAMS if path.name.endswith(name)), None)
    if name is None:
        sys.exit(f"{path} is none of {', '.join(PROGRAMS)}")
    (BIN / name).symlink_to(path)
    have |= {"program"} if name == "overstore" else set()
if all((BIN / name).exists() for name in ("overstored", "overctl")):
    have.add("network")
results = [run_page(page, have) for page in PAGES if page.exists()] + [run_examples(have)]
ran, left, wrong = (sum(column) for column in zip(*results))
print(f"{ran} blocks and scripts ran, {left} left out, {wrong} are wrong")
sys.exit(1 if wrong else 0)
