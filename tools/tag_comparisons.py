"""Looks at how the crates compare tags that whoever sends them chooses.

    python3 tools/tag_comparisons.py

`same` of ov_keyed reads all 32 bytes of both tags, wherever they differ, so its time tells nothing of how many first
bytes are right. `==` gives the same answer, so no clause tells the two apart, and no test does. This script reads the
texts: a tag that came in a frame is compared by `same`, `same` has no way out of its loop, and no other line of a crate's
code compares tags by `==` or `!=` but those of LOCAL, with the reason beside each.
"""
import re
import sys

from common import ROOT

# The comparisons that have to be there: what a server is sent, and what a reader is sent.
BY_SAME = {
    "crates/ov_server/src/updating.rt": "same(&owner_tag(",
    "crates/ov_client/src/keys.rt": "same(&computed, &chained.tag)",
}
# Comparisons of a tag by `==` or `!=`, where nobody who measures the time chose the tag.
LOCAL = {
    ("crates/ov_store/src/owners.rt", "if *tag != right {"):
        "the holder of both masters looks through a store of their own, and nobody sees when each file is done",
}
SAME = ROOT / "crates" / "ov_keyed" / "src" / "comparison.rt"
COMPARISON = re.compile(r"[^=!<>]([=!]=)[^=>]")
TAG = re.compile(r"\b\w*(?<![a-z])(?:tag|tags|mac)\b")


def code_of(path):
    """The lines of a file with neither comments nor clauses, each with its number."""
    depth = 0
    for number, line in enumerate(path.read_text().split("\n"), 1):
        line = re.sub(r"//.*", "", line)
        clause = re.match(r"\s*(?:requires|ensures|ghost)\b", line)
        if depth or clause:
            depth += line.count("{") - line.count("}")
            continue
        yield number, line.strip()


def wrong_lines():
    for name, call in BY_SAME.items():
        if not any(call in line for _, line in code_of(ROOT / name)):
            yield f"{name}: the tag that came isn't compared by `{call}..`"
    body = SAME.read_text().partition("pub fn same")[2].partition("\n}")[0].partition("\n{")[2]
    if not body or re.search(r"\b(return|break|if|while|match)\b|&&|\|\||\?", body):
        yield f"{SAME.relative_to(ROOT)}: `same` may end before it has read all bytes"
    left = set(LOCAL)
    for path in sorted(ROOT.glob("crates/*/src/**/*.rt")):
        name = str(path.relative_to(ROOT))
        if name.split("/")[1].endswith(("_t", "_cases")):
            continue
        for number, line in code_of(path):
            if COMPARISON.search(line) and TAG.search(line):
                if (name, line) in LOCAL:
                    left.discard((name, line))
                else:
                    yield f"{name}:{number}: a tag is compared by `==` or `!=`: {line}"
    for name, line in sorted(left):
        yield f"{name}: no line is `{line}` any more: take it off the list in this script"


found = list(wrong_lines())
print("\n".join(found) if found else f"{len(BY_SAME)} tags that came are compared by `same`, {len(LOCAL)} by another way")
sys.exit(1 if found else 0)
