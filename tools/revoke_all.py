#!/usr/bin/env python3
"""Makes the script that takes a user off all files, from the replies to `list` commands.

Run: python3 tools/revoke_all.py USER [BOOK] < REPLIES > SCRIPT

REPLIES are what `overstore run` printed for a script of `list` lines, one for each file. For each list
that names the user the script has a `revoke` and, behind it, a `list` that shows it gone. A user who isn't
enrolled in BOOK, or else in the store.book of this folder, is refused, and so is one whom no list names.
`make -C dist install` installs it as overstore-revoke-all, with a man page.
"""
from all_files import NOTHING_TO_DO, end, expect_enrolled_at_hand, lists, put, user_words

user, *book = user_words(1, 2, "USER [BOOK] < REPLIES > SCRIPT")
enrolled = expect_enrolled_at_hand(user, book)
files = [file for file, listed in lists() if user in listed]
if not files:
    end(NOTHING_TO_DO, f"nothing to revoke: no list names {user}" + ("" if enrolled else ", if that is how the name is spelt"))
put("revoke", user, files)
