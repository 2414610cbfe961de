"""Lists the definitions of specs/ that public clauses take for granted and that nothing gives. Such a definition stands in
a `requires` of a public function, or left of an arrow of a public clause, and could be narrowed until the clause behind it
says nothing, with all proofs as they were.

    python3 tools/unbuilt_premises.py [WORD..]     # those whose place has one of the words, as ov_acts

A definition is given where some function's `ensures`, an invariant of a type, or the conclusion of a lemma in proofs/ has
it to the right, and doesn't itself ask for it; or where a caller shows it for a `requires` without asking for it in turn.
Definitions are opened, so what stands inside another is found too. It reads texts and no proofs: a name on the list is to be
looked at, and one that isn't there may still be given by a lemma that takes it apart and makes it again.
"""
import collections
import pathlib
import re
import sys

ROOT = pathlib.Path(__file__).resolve().parent.parent
IMPORT = re.compile(r"use Rattle\.([\w.]+?)\.\{([^}]*)\}")
DEFINITION = re.compile(r"^(?:abbrev|unfoldable|pub record|pub data)\s+(?:pub\s+)?([^\s:({]+)", re.M)
TOKEN = re.compile(r"[(){}\[\]→;]|[^\s(){}\[\]→;,×⊎≡≢|]+")
CLAUSE = re.compile(r"\b(requires|ensures|ghost invariant =)\s*\w*\s*\{")
FUNCTION = re.compile(r"^( *)(pub )?(?:const )?fn (\w+)", re.M)
LEMMA = re.compile(r"^( *)(?:pub )?([^\s:(){}]+) : ", re.M)


def imports_of(text):
    found = {}
    for module, names in IMPORT.findall(text):
        for name in filter(None, map(str.strip, names.split(","))):
            there, _, here = name.partition(" as ")
            found[(here or there).strip()] = (module, there.strip())
    return found


def module_of(path):
    return ".".join(path.relative_to(ROOT / "crates").with_suffix("").parts)


def without_comments(text):
    return re.sub(r"^\s*(--|//).*$", "", text, flags=re.M)


def closed_at(text, start):
    """Where the brace that opens there is closed."""
    depth = 0
    for at in range(start, len(text)):
        depth += {"{": 1, "}": -1}.get(text[at], 0)
        if depth == 0:
            return at
    return len(text)


def signed(tokens, names, sign):
    """The definitions that stand there, each with 1, or with -1 left of an arrow."""
    parts, depth = [[]], 0
    for token in tokens:
        depth += (token in "({[") - (token in ")}]")
        if token == "→" and depth == 0:
            parts.append([])
        else:
            parts[-1].append(token)
    for number, part in enumerate(parts):
        own = sign if number == len(parts) - 1 else -sign
        at = 0
        while at < len(part):
            if part[at] in "({[":
                end, depth = at, 0
                while end < len(part):
                    depth += (part[end] in "({[") - (part[end] in ")}]")
                    end += 1
                    if depth == 0:
                        break
                yield from signed(part[at + 1 : end - 1], names, own)
                at = end
            else:
                if part[at] in names:
                    yield names[part[at]], own
                at += 1


def read(text, names, sign=1):
    return set(signed(TOKEN.findall(text), names, sign))


# ---- definitions: what stands in each, and whether it says something of values

INSIDE, SAYS = {}, set()
for spec in sorted(ROOT.glob("crates/*/specs/*.antt")):
    spelled = without_comments(spec.read_text())
    names = imports_of(spelled) | {name: (module_of(spec), name) for name in DEFINITION.findall(spelled)}
    begins = list(DEFINITION.finditer(spelled))
    for here, then in zip(begins, begins[1:] + [None]):
        block = spelled[here.start() : then.start() if then else len(spelled)]
        name, own, inside = here.group(1), (module_of(spec), here.group(1)), set()
        if block.startswith(("abbrev", "unfoldable")):
            head, *bodies = re.split(rf"^{re.escape(name)}\b[^=\n]*(?:\n[^=\n]*)?=(?!=)", block, flags=re.M)
            takes = "→" in head
        else:
            head, _, body = block.partition("where")
            bodies, takes = re.split(r"^ +(?:pub )?[^\s:()]+ : ", body, flags=re.M)[1:], "(" in head or "→" in head
            if block.startswith("pub data"):
                bodies = [part for body in bodies for part in body.split("→")[:-1]]
        for body in bodies:
            inside |= read(body, names)
        INSIDE[own] = inside - {(own, 1), (own, -1)}
        if takes and re.search(r"Type 0\s*$|: Type 0", head.strip()):
            SAYS.add(own)


def opened(found):
    """All definitions that these reach, each with the sign at which it is reached."""
    waiting, seen = list(found), set()
    while waiting:
        name, sign = waiting.pop()
        if (name, sign) not in seen:
            seen.add((name, sign))
            waiting += [(inner, sign * own) for inner, own in INSIDE.get(name, ())]
    return seen


# ---- clauses and lemmas

stands, given, asked, calls = collections.defaultdict(set), set(), collections.defaultdict(set), {}
for source in sorted(ROOT.glob("crates/*/src/**/*.rt")):
    text = without_comments(source.read_text())
    names, crate = imports_of(text), source.relative_to(ROOT / "crates").parts[0]
    functions = [(-1, "", False, "")] + [(m.start(), m.group(3), bool(m.group(2)), m.group(1)) for m in FUNCTION.finditer(text)]
    for number, (start, function, is_public, indent) in enumerate(functions):
        end = functions[number + 1][0] if number + 1 < len(functions) else len(text)
        block = text[max(start, 0) : end]
        is_public = is_public or bool(indent) and "pub trait" in text[:start]
        own, clauses = set(), []
        for clause in CLAUSE.finditer(block):
            kind, body = clause.group(1), block[clause.end() : closed_at(block, clause.end() - 1)]
            clauses.append((kind, read(body, names)))
            own |= {name for name, sign in clauses[-1][1] if kind == "requires"}
        calls[crate, source, function] = (set(re.findall(r"\b(\w+)\(", block)), own)
        for kind, found in clauses:
            reached = opened(found)
            if kind == "requires":
                asked[function] |= {name for name, sign in reached if sign == 1}
                reached = {(name, -sign) for name, sign in reached}
            else:
                left = {name for name, sign in found if sign == -1} | own
                given |= {name for name, sign in reached if sign == 1 and name not in left}
            if is_public:
                for name, sign in reached:
                    if sign == -1:
                        stands[name].add(f"{crate}::{function}")
for words, own in calls.values():
    for word in words & set(asked):
        given |= asked[word] - own
for proof in sorted(ROOT.glob("crates/*/proofs/**/*.antt")):
    text = without_comments(proof.read_text())
    names = imports_of(text)
    for lemma in LEMMA.finditer(text):
        rest = text[lemma.end() :]
        equation = re.search(rf"^ *{re.escape(lemma.group(2))}\b", rest, flags=re.M)
        found = read(rest[: equation.start()] if equation else "", names)
        left = {name for name, sign in found if sign == -1}
        given |= {name for name, sign in opened(found) if sign == 1 and name not in left}

wanted = sys.argv[1:]
for module, name in sorted(SAYS & set(stands) - given):
    if not wanted or any(word in module for word in wanted):
        places = sorted(stands[module, name])
        print(f"{module} {name}: {', '.join(places[:3])}{f' and {len(places) - 3} more' if len(places) > 3 else ''}")
