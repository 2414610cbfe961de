"""Compares the exit statuses that the definitions have with those that --help, the man pages and the
pages of docs/ name, for each program that is there.

Run: python3 tools/statuses.py
"""
import pathlib
import re
import sys

ROOT = pathlib.Path(__file__).resolve().parent.parent

# By program its man pages, and the sections of docs/ that have a row for each status.
PROGRAMS = {
    "overstore": (
        ["overstore.1", "overstore-script.5"],
        [("SCRIPTS.md", "How a run ends"), ("OPERATING.md", "How a run ends")],
    ),
    "overstored": (["overstored.1"], [("NETWORK.md", "How a server ends")]),
    "overctl": (["overctl.1"], [("NETWORK.md", "How a command ends")]),
}


def numbers(pattern, text):
    return sorted({int(number) for number in re.findall(pattern, text, re.M)})


def crates_of(program):
    """The folders of the program and of what it names in crates.txt."""
    line = re.search(rf"^{program}:(.*)$", (ROOT / "crates.txt").read_text(), re.M)
    return [ROOT / "crates" / name for name in (program, *line[1].split())]


def help_of(program):
    """Those of the texts that --help prints, which stand in files of the program and of libraries."""
    named = set()
    for path in (path for crate in crates_of(program) for path in sorted((crate / "src").glob("*.rt"))):
        for text in path.read_text().split("Exit status:")[1:]:
            table = re.split(r'"(?:;|,?\n\s*\))', text)[0]
            named |= set(numbers(r'(?:^|[\s,"])(\d{1,2}) +(?=[`A-Za-z])', table))
    return sorted(named)


def man(path):
    text = path.read_text()
    return numbers(r"^\.It (?:Li )?(\d+)$", text[text.index(".Sh EXIT STATUS") :].split("\n.Sh ")[0])


def page(path, heading):
    text = path.read_text()
    return numbers(r"^\| (\d+) \|", text[text.index(f"\n## {heading}\n") + 1 :].split("\n## ")[0])


def places_of(program):
    """By place the statuses that it names: the definitions where there are some, and the rest."""
    for definitions in (crate / "specs" / "Status.antt" for crate in crates_of(program)):
        if not definitions.exists():
            continue
        text = definitions.read_text()
        # a command by the owner's book, and a script, have statuses of their own
        for further in (crate / "specs" / "Endings.antt" for crate in crates_of(program)):
            text += further.read_text() if further.exists() else ""
        yield "definitions", numbers(r"^(?:status|own|ended)_code .+ = (\d+)$", text)
    yield "--help", help_of(program)
    pages, sections = PROGRAMS[program]
    for path in (ROOT / "dist" / "man" / name for name in pages):
        yield path.name, man(path) if path.exists() else []
    for path, heading in ((ROOT / "docs" / name, heading) for name, heading in sections):
        yield path.name, page(path, heading) if path.exists() else []


wrong = False
for program in PROGRAMS:
    if not (ROOT / "crates" / program).exists():
        continue
    named = list(places_of(program))
    first, found = named[0]
    other = {place: statuses for place, statuses in named if statuses != found}
    wrong = wrong or bool(other)
    print(f"{program}: {len(found)} statuses,", f"not {found} of {first}: {other}" if other else "all the same")
sys.exit(1 if wrong else 0)
