"""Writes a script of 1,024 users and then NUMBER enrolments that are refused.

Run: python3 tools/enrol_script.py NUMBER > FILE
"""
import sys

number = int(sys.argv[1])
out = [f"enrol u{user}\n" for user in range(1024)]
out += [f"enrol u{line * 7 % 1600}\n" for line in range(number)]
sys.stdout.write("".join(out))
