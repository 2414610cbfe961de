#!/usr/bin/env python3
"""Makes the script that puts a user on the lists of all files, from the replies to `list` commands.

Run: python3 tools/grant_all.py USER [BOOK] < REPLIES > SCRIPT

REPLIES are what `overstore run` printed for a script of `list` lines, one for each file. For each list
that doesn't name the user the script has a `grant` and, behind it, a `list` that shows it. A user who isn't
enrolled in BOOK, or else in the store.book of this folder, is refused. `make -C dist install` installs it
as overstore-grant-all, with a man page.
"""
from all_files import NOTHING_TO_DO, end, expect_enrolled_at_hand, lists, put, user_words

user, *book = user_words(1, 2, "USER [BOOK] < REPLIES > SCRIPT")
expect_enrolled_at_hand(user, book)
files = [file for file, listed in lists() if user not in listed]
if not files:
    end(NOTHING_TO_DO, f"nothing to grant: every list names {user}")
put("grant", user, files)
