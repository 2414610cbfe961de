"""Compares the crates of the kit that docs/PROVED.md names under 'What is trusted' with those that
crates.txt lists.

    python3 tools/trusted_crates.py

The page names each crate of the kit that a crate of this repository lists. Those that come with one of them
stand on the page in parentheses, and are no part of the comparison.
"""
import re
import sys

from common import ROOT

CRATES = ROOT / "crates.txt"
PAGE = ROOT / "docs" / "PROVED.md"


def listed():
    """The libraries that crates of crates.txt list and that are none of its own."""
    own, others = set(), set()
    for line in CRATES.read_text().split("\n"):
        name, colon, libraries = line.partition("#")[0].partition(":")
        if colon:
            own.add(name.split()[0])
            others |= set(libraries.split())
    return others - own


def trusted():
    """The crates that the page's first point names, but for those in parentheses."""
    section = PAGE.read_text().partition("## What is trusted\n")[2]
    point = re.search(r"^1\. .*$", section, re.M)
    return set(re.findall(r"`([a-z0-9_]+)`", re.sub(r"\([^)]*\)", "", point.group(0)))) if point else set()


left_out, extra = sorted(listed() - trusted()), sorted(trusted() - listed())
for name in left_out:
    print(f"crates.txt lists {name}, which PROVED doesn't name as trusted")
for name in extra:
    print(f"PROVED names {name} as trusted, which crates.txt doesn't list")
print(f"{len(listed())} crates of the kit, {len(left_out) + len(extra)} differ")
sys.exit(bool(left_out or extra))
