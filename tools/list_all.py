#!/usr/bin/env python3
"""Makes the script that asks for the lists of all files of a store, from the names in its store.book, but for
those that were removed. With USER it does so only where that user is enrolled there.

Run: python3 tools/list_all.py [USER] < store.book > SCRIPT

`make -C dist install` installs it as overstore-list-all, with a man page. A copy of the file from any time
will do, for the files that were there then, if none of them was removed since.
"""
import sys

from all_files import expect_enrolled, names, user_words

given = user_words(0, 1, "[USER] < store.book > SCRIPT")
users, files = names(sys.stdin.buffer.read(), "standard input")
for user in given:
    expect_enrolled(user, users, "this store.book")
sys.stdout.write("".join(f"list {file}\n" for file in files))
