#!/usr/bin/env python3
"""Counts what a store has used up of each of its limits, from its store.book alone, or from its owner's book.

Run: python3 tools/store_usage.py < store.book

Each line has a name, how many are used and the limit. Users, sets of a layer, file numbers and updates are never
given back; files and bytes are those of files that are there. `make -C dist install` installs it as overstore-usage.
"""
import sys

from all_files import FIRST_RECORD, bodies, words
from store_layers import last_store

USERS, SETS, NUMBERS, BYTES, UPDATES = 1_024, 4_096, 16_384, 67_108_864, 4_294_967_295


def book_bytes(book, origin):
    """How long a book is up to the gate behind its last record."""
    return FIRST_RECORD + 1 + sum(5 + len(body) for body in bodies(book, origin))


def usage(book, origin):
    """The lines: a name, what is used, and the limit or None."""
    store = last_store(book, origin)
    there = [file for file in store.files if file is not None]
    yield "mode", store.mode, None
    yield "updates", store.epoch, UPDATES
    yield "users", len(store.users), USERS
    yield "base sets", len(store.base.sets), SETS
    yield "surface sets", len(store.surface.sets), SETS
    yield "file numbers", len(store.files), NUMBERS
    yield "files", len(there), None
    yield "bytes", sum(file.length for file in there), BYTES
    yield "store.book", book_bytes(book, origin), None


def main():
    words(0, 0, "< store.book")
    for name, used, limit in usage(sys.stdin.buffer.read(), "standard input"):
        print(name, used, *([] if limit is None else ["of", limit]))


if __name__ == "__main__":
    main()
