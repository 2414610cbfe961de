"""Writes a script that creates COUNT files of SIZE bytes for one user, and then reads each of them.

Run: python3 tools/files_script.py COUNT SIZE > FILE
"""
import random
import sys

count, size = int(sys.argv[1]), int(sys.argv[2])
source = random.Random(size)
out = sys.stdout.buffer
out.write(b"enrol a\n")
for number in range(count):
    out.write(b"create f%d a %d\n" % (number, size))
    out.write(source.randbytes(size) + b"\n")
for number in range(count):
    out.write(b"read a f%d\n" % number)
