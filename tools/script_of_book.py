#!/usr/bin/env python3
"""Makes the script of the updates in a store.book, so that a store that was lost can be made again as it was.

Run: python3 tools/script_of_book.py [--commands] KEYS BOOK FILES [FROM] > SCRIPT

KEYS is the store's key file, BOOK a copy of its store.book, in either format, or of its owner's book, and FILES a
folder with the bytes of each file that was created or replaced, under whatever names. With FROM the script begins
behind that epoch, for an older copy of both store files, and bytes that were sent before aren't needed. Bytes are
taken where they have the tag of the record, and so are those that were sent; NAME.EPOCH and NAME are looked at first.
Where those of an update aren't in FILES there is no script, and standard error names each such update.

Of an owner's book the script has the updates of settled intents. Standard error says where one is pending, which
`overctl own .. resume` sends.

With --commands each line has the words of a command of overctl behind its key file, quoted for a shell, with the
path of the bytes as its last word, in place of the items of a script.

A store that `overstore tidy` wrote begins at a later epoch than 0, where no new store begins: for its book FROM is
needed, and not before that epoch.

Run over a new folder, or over a copy of the epoch FROM, the script makes the same store again: `cmp` finds its
store.book equal to BOOK, if BOOK is of the newer format. `make -C dist install` installs it as
overstore-script-of-book.
"""
import hashlib
import hmac
import pathlib
import re
import shlex
import sys

from all_files import BAD_INPUT, BAD_WORDS, end, has_pending, words
from store_layers import updates

MISSING = 5
KEY_FILE = re.compile(rb"([0-9a-fA-F]{64})\n[0-9a-fA-F]{64}\n?")
# Where a book has the check value of the base master.
CHECK = slice(14, 46)
COMMANDS = "--commands"
FORM = f"[{COMMANDS}] KEYS BOOK FILES [FROM] > SCRIPT"


def keyed(key, message):
    return hmac.digest(key, message, "sha256")


def label(kind, number):
    return kind + number.to_bytes(4, "big")


def tag_of(base, file, data):
    """The tag of a file with these bytes, as its owner makes it."""
    access = hashlib.sha256(keyed(base, label(b"B", file.base))).digest()
    return keyed(keyed(access, label(b"T", file.number)), len(data).to_bytes(8, "big") + data)


def chosen():
    """Whether commands are asked for, and the other words."""
    commands = sys.argv[1:2] == [COMMANDS]
    return commands, words(3 + commands, 4 + commands, FORM)[commands:]


class Folder:
    """The files of a folder and of those in it, by their lengths."""

    def __init__(self, root):
        if not root.is_dir():
            end(BAD_INPUT, f"{root} is no folder")
        self.root, self.by_length = root, {}
        for path in sorted(path for path in root.rglob("*") if path.is_file()):
            self.by_length.setdefault(path.stat().st_size, []).append(path)

    def path_of(self, base, file, epoch):
        """Which of them has the bytes that this update sent, or None."""
        first = (self.root / f"{file.name}.{epoch}", self.root / file.name)
        alike = sorted(self.by_length.get(file.length, []), key=lambda path: path not in first)
        return next((path for path in alike if tag_of(base, file, read(path)) == file.tag), None)


def read(path):
    try:
        return pathlib.Path(path).read_bytes()
    except OSError as fault:
        end(BAD_INPUT, f"cannot read {path}: {fault.strerror}")


def base_master(path, book):
    """The base master of a key file that is the book's."""
    found = KEY_FILE.fullmatch(read(path))
    if not found:
        end(BAD_INPUT, f"{path} is no key file: that has two lines of 64 hexadecimal digits")
    base = bytes.fromhex(found[1].decode())
    if keyed(base, label(b"C", 0)) != book[CHECK]:
        end(BAD_INPUT, f"{path} isn't the key file of this store")
    return base


def first_epoch(book):
    """The epoch at which the store began, by the header."""
    return int.from_bytes(book[10:14], "big")


def items(base, book, origin, folder, first):
    """The words of each update behind an epoch, without a length, and where its bytes are, or None where it has none.
    How many updates lack their bytes is said at the end."""
    missing, last = 0, first
    for store, line in updates(book, origin):
        last = store.epoch
        if store.epoch <= first:
            continue
        path = None
        if line[0] in ("create", "replace"):
            file = store.files[-1]
            path = folder.path_of(base, file, store.epoch) if file.length else pathlib.Path("/dev/null")
            if path is None:
                missing += 1
                shown = " ".join([*line, str(file.length)])
                sys.stderr.write(f"update {store.epoch}, `{shown}`: no file of {folder.root} has its bytes\n")
        yield line, path
    if missing:
        end(MISSING, f"no script: the bytes of {missing} updates are missing; others in their place would be under used keys")
    if last < first:
        end(BAD_INPUT, f"{origin} ends at epoch {last}, before {first}")


def item(line, path):
    """The item of a script."""
    if path is None:
        return f"{' '.join(line)}\n".encode()
    data = read(path)
    return f"{' '.join(line)} {len(data)}\n".encode() + data + b"\n"


def command(line, path):
    """The words of a command."""
    return f"{shlex.join([*line, *([] if path is None else [str(path)])])}\n".encode()


def main():
    commands, (keys, origin, root, *rest) = chosen()
    if rest and not rest[0].isdecimal():
        end(BAD_WORDS, f"{rest[0]} is no epoch: FROM is a decimal number")
    book, folder = read(origin), Folder(pathlib.Path(root))
    base, first, begun = base_master(keys, book), int(rest[0]) if rest else 0, first_epoch(book)
    if first < begun:
        end(BAD_INPUT, f"{origin} begins at epoch {begun}: put a copy of both store files in place, and name its epoch as FROM")
    found = list(items(base, book, origin, folder, first))
    for line, path in found:
        sys.stdout.buffer.write((command if commands else item)(line, path))
    if has_pending(book, origin):
        sys.stderr.write("an intent is pending: once the server is there again, `overctl own .. resume` sends it\n")


if __name__ == "__main__":
    main()
