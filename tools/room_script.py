"""Makes the scripts of a data room with thirty readers and two hundred files.

    python3 tools/room_script.py files    # users and files
    python3 tools/room_script.py lists    # a `list` for each file

The readers are of six firms, five of each: `acme-1` to `acme-5`, and so on. Each file has the seller and the people of
some firms on its list from the start, so that few lists are ever made; each firm has 88 of the files.
"""
import sys

FILES, PEOPLE = 200, 5
FIRMS = ["acme", "birch", "cedar", "delta", "elm", "fir"]


def name(number):
    return f"paper-{number:03}"


def people(firm):
    return [f"{firm}-{number}" for number in range(1, PEOPLE + 1)]


def firms(number):
    """The firms that have this file: of each twenty-five files in a row each firm has eleven."""
    return [firm for place, firm in enumerate(FIRMS) if (number + 4 * place) % 25 < 11]


def list_of(number):
    return ["seller", *(person for firm in firms(number) for person in people(firm))]


def text_of(number):
    return f"Paper {number} of the sale.\n"


def users():
    return ["seller", *(person for firm in FIRMS for person in people(firm))]


def files():
    for user in users():
        yield f"enrol {user}\n"
    for number in range(FILES):
        text = text_of(number)
        yield f"create {name(number)} {','.join(list_of(number))} {len(text)}\n{text}\n"


def lists():
    for number in range(FILES):
        yield f"list {name(number)}\n"


if __name__ == "__main__":
    sys.stdout.writelines({"files": files, "lists": lists}[sys.argv[1]]())
