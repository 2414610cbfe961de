"""Counts what has to be read to know what a contract says: the definitions of specs/ that its clauses
name, those that these name, and so on, through all crates, and the clauses of the repository's traits
that bound a type of the contract, with what these name. Types of the code and the kit's own definitions
aren't counted, nor are the records of CLOSED opened.

    python3 tools/definition_lines.py CRATE FUNCTION [TYPE]   # definitions, lines, and lines by crate
    python3 tools/definition_lines.py page                    # is docs/PROVED.md right? Names each row that isn't
    python3 tools/definition_lines.py page write              # puts the right numbers there

TYPE is the type or the trait of a method, where a crate has several functions of the name. Each row of a
table of the page ends in a function, or several, with their crate, and the lines of all of them together. A
clause that a row names has to be one of their contracts.
"""
import collections
import pathlib
import re
import sys

ROOT = pathlib.Path(__file__).resolve().parent.parent
PAGE = ROOT / "docs" / "PROVED.md"
WORD = re.compile(r"[^\s(){},.:×→⊎≡≢;λ\[\]|]+")
IMPORT = re.compile(r"use Rattle\.([\w.]+?)\.\{([^}]*)\}")
DEFINITION = re.compile(r"^\s*(?:abbrev|unfoldable|pub record|pub data)\s+(?:pub\s+)?([^\s:({]+)")
# Each is the contract of a call as one record. The laws that name it say what it is good for, so a reader of theirs
# takes it as "the call kept its contract" and needs none of its fields.
CLOSED = {"RunPromises", "LoadPromises"}
LEMMA = re.compile(r"^\s*(?:pub )?[a-z]\w* : ")


def imports_of(text):
    """By the name that a file uses, the module and the name there."""
    found = {}
    for module, names in IMPORT.findall(text):
        for name in filter(None, map(str.strip, names.split(","))):
            there, _, here = name.partition(" as ")
            found[(here or there).strip()] = (module, there.strip())
    return found


def definitions_of(text):
    """The lines of each definition of a file, without comments. The head of a module or of a lemma ends the
    definition before it."""
    found, lines, depth = {}, [], 0
    for line in text.split("\n"):
        words, indent = line.split(), len(line) - len(line.lstrip())
        begins = DEFINITION.match(line)
        if begins:
            lines, depth = found.setdefault(begins.group(1), []), indent
        elif words[:1] in (["module"], ["use"]) or words[:2] == ["pub", "use"]:
            lines = []
        elif LEMMA.match(line) and indent <= depth:
            lines = []
        if words and not words[0].startswith("--"):
            lines.append(line)
    return found


def all_specs():
    for path in ROOT.glob("crates/*/specs/*.antt"):
        if path.stem != "Lib":
            text = path.read_text()
            yield f"{path.parent.parent.name}.specs.{path.stem}", (definitions_of(text), imports_of(text))


SPECS = dict(all_specs())
TRAIT = re.compile(r"^pub trait (\w+)[^{]*\{\n.*?^\}", re.M | re.S)


def all_traits():
    """By its name each trait of the repository: its crate, its lines without comments, and the imports of its file."""
    for path in ROOT.glob("crates/*/src/**/*.rt"):
        text = path.read_text()
        for found in TRAIT.finditer(text):
            lines = [line for line in found.group(0).split("\n") if line.strip() and "//" not in line]
            crate = path.relative_to(ROOT / "crates").parts[0]
            yield found.group(1), (crate, lines, imports_of(text))


TRAITS = dict(all_traits())


def contract_at(text, start):
    """A function's signature and clauses."""
    return re.split(r"\n\s*\{|;\n", text[start:], maxsplit=1)[0]


def file_with(crate, function, owner):
    """The text of the source file in which the function has clauses, and where it begins there."""
    begins = re.compile(rf"\bfn {function}\b")
    for path in sorted((ROOT / "crates" / crate / "src").glob("*.rt")):
        text = path.read_text()
        found = begins.search(text)
        if found and path.stem != "tests" and "ensures" in contract_at(text, found.start()):
            heads = [line for line in text[: found.start()].split("\n") if line.startswith(("impl", "pub trait"))]
            if owner is None or heads and re.search(rf"\b{owner}\b", heads[-1]):
                return text, found.start()
    sys.exit(f"{crate} has no function {owner or ''} {function}")


BOUND = re.compile(r"[:+]\s*(\w+)")


def bounds_at(text, start):
    """The names that bound a type of the function that begins there, at itself and at its impl."""
    head = [line for line in text[:start].split("\n") if line.startswith(("impl", "pub trait"))]
    signature = text[start:].partition("(")[0]
    return BOUND.findall(signature + "".join(head[-1:]))


def traits_of(bounds):
    """The traits of these names, and those that these stand on."""
    waiting, found = list(bounds), set()
    while waiting:
        name = waiting.pop()
        if name in TRAITS and name not in found:
            found.add(name)
            waiting += BOUND.findall(TRAITS[name][1][0])
    return found


def reading_of(crate, function, owner=None):
    """The lines of each definition and each trait that has to be read, by its crate and its name."""
    text, start = file_with(crate, function, owner)
    contract, imports = contract_at(text, start), imports_of(text)
    waiting = [imports[word] for word in WORD.findall(contract) if word in imports]
    found, seen = {}, set()
    for trait in traits_of(bounds_at(text, start)):
        there, clauses, names = TRAITS[trait]
        found[there, trait] = clauses
        waiting += [names[word] for word in WORD.findall("\n".join(clauses)) if word in names]
    while waiting:
        module, name = waiting.pop()
        if (module, name) in seen:
            continue
        seen.add((module, name))
        definitions, imported = SPECS.get(module, ({}, {}))
        if name not in definitions:
            continue
        if name in CLOSED:
            continue
        found[module, name] = definitions[name]
        for word in set(WORD.findall("\n".join(definitions[name]))):
            if word in definitions:
                waiting.append((module, word))
            elif word in imported:
                waiting.append(imported[word])
    return found


HEAD = "| promise | function (crate) | lines |"
ROW = re.compile(r"^(\| (.*) \| ((?:`[\w:]+`, )*`[\w:]+`) \((\w+)\) \| )([\d,]+) \|$")


def functions_of(row):
    """Each function of the row: its crate, its name, and its type or trait where the row has one."""
    for name in re.findall(r"[\w:]+", row.group(3)):
        owner, _, function = name.rpartition("::")
        yield row.group(4), function, owner or None


def right_row(row):
    """The row with the right number."""
    read = {}
    for function in functions_of(row):
        read |= reading_of(*function)
    return f"{row.group(1)}{sum(map(len, read.values())):,} |"


def missing_clauses(row):
    """The clauses that the row names and that no function of it has."""
    contracts = "".join(contract_at(*file_with(*function)) for function in functions_of(row))
    for clause in re.findall(r"\bclause `(\w+)`", row.group(2)):
        if not re.search(rf"ensures {clause}\b", contracts):
            yield clause


def page(write):
    lines, rows, wrong, missing = PAGE.read_text().split("\n"), 0, 0, 0
    for place, line in enumerate(lines):
        if not line.startswith("|") or line == HEAD or set(line) <= set("|-"):
            continue
        rows += 1
        row = ROW.match(line)
        for clause in missing_clauses(row) if row else []:
            missing += 1
            print(f"{PAGE.name}:{place + 1}: the contract has no clause {clause}")
        right = row and right_row(row)
        if line == right:
            continue
        wrong += 1
        print(f"{PAGE.name}:{place + 1}: on the page {line}")
        print(f"    counted {right}" if row else "    this is no promise with a function, its crate and a number")
        lines[place] = right or line
    print(f"{rows} rows, {wrong} wrong, {missing} name a clause that isn't there")
    if write:
        PAGE.write_text("\n".join(lines))
    elif wrong or missing or not rows:
        sys.exit(1)


if sys.argv[1:] in (["page"], ["page", "write"]):
    page(write="write" in sys.argv)
elif len(sys.argv) in (3, 4):
    read, by_crate = reading_of(*sys.argv[1:]), collections.Counter()
    for (module, _), lines in read.items():
        by_crate[module.split(".")[0]] += len(lines)
    each = ", ".join(f"{crate} {number}" for crate, number in sorted(by_crate.items()))
    print(f"{len(read)} definitions, {by_crate.total()} lines: {each}")
else:
    sys.exit(__doc__)
