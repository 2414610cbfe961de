"""Tries stores that are full, in both modes: of bytes, of files and of nodes. One more is refused, and
store.blobs has just the blocks of the files. A file that is replaced a thousand times takes the blocks of two
files, and no more memory than one that is replaced ten times.

Run, after `rt run` has built the program: python3 tools/full_store.py crates/overstore/out/overstore
"""
import os
import pathlib
import subprocess
import sys
import tempfile

program = pathlib.Path(sys.argv[1]).resolve()
keys = pathlib.Path(__file__).resolve().parent.parent / "examples" / "keys.hex"
MIB, LONGEST = 1_048_576, 16_777_216
USERS = 12


def full_of_bytes():
    """67,108,864 bytes in 64 files for one user, who reads them all, and for nobody, and in four of the longest. One
    is removed at the end, and another takes its place."""
    for readers, size in ((b"a", MIB), (b"-", MIB), (b"a", LONGEST)):
        count = 64 * MIB // size
        bodies = [bytes([number]) * size for number in range(count)]
        script = [b"enrol a\n"]
        replies = [b"ok 1\n"]
        for number, body in enumerate(bodies):
            script += [b"create f%d %s %d\n" % (number, readers, size), body, b"\n"]
            replies.append(b"ok %d\n" % (number + 2))
        script += [b"create one-more %s 1\nx\n" % readers, b"create empty %s 0\n\n" % readers]
        replies += [b"refused 9 BytesFull\n", b"ok %d\n" % (count + 2)]
        for number, body in enumerate(bodies):
            script.append(b"read a f%d\n" % number)
            replies += [b"data a f%d %d\n" % (number, size), body, b"\n"] if readers == b"a" else [b"refused 4 NoPath\n"]
        script += [b"remove f0\n", b"create one-more %s 1\nx\n" % readers]
        replies += [b"ok %d\n" % (count + 3), b"ok %d\n" % (count + 4), b"end epoch %d\n" % (count + 4)]
        yield script, replies, 64 * MIB


def full_of_files():
    """16,384 files without bytes, of which one is removed: its number isn't given again."""
    script = [b"enrol a\n"] + [b"create f%d a 0\n\n" % number for number in range(16_384)]
    replies = [b"ok %d\n" % (number + 1) for number in range(16_385)]
    script += [b"create one-more a 0\n\n", b"list f16383\n", b"remove f0\n", b"create one-more a 0\n\n", b"replace f1 0\n\n"]
    replies += [b"refused 8 FilesFull\n", b"list f16383 a\n", b"ok 16386\n", b"refused 8 FilesFull\n"]
    replies += [b"refused 8 FilesFull\n", b"end epoch 16386\n"]
    yield script, replies, 0


def full_of_nodes():
    """A file for each set of twelve users that isn't one user alone: 4,096 base nodes."""
    script = [b"enrol u%d\n" % user for user in range(USERS)]
    for users in range(1 << USERS):
        names = [b"u%d" % user for user in range(USERS) if users >> user & 1]
        if len(names) != 1:
            script.append(b"create f%d %s 0\n\n" % (users, b",".join(names) or b"-"))
    replies = [b"ok %d\n" % (number + 1) for number in range(4_096)]
    script += [b"enrol z\n", b"create again u0,u1 0\n\n"]
    replies += [b"refused 10 NodesFull\n", b"ok 4097\n", b"end epoch 4097\n"]
    yield script, replies, 0


stores = {"bytes": full_of_bytes, "files": full_of_files, "nodes": full_of_nodes}
for name, cases in stores.items():
    for script, replies, blobs in cases():
        for mode in ("full", "delta"):
            with tempfile.TemporaryDirectory() as folder:
                (pathlib.Path(folder) / "keys.hex").write_bytes(keys.read_bytes())
                ran = subprocess.run([program, "run", mode], cwd=folder, input=b"".join(script), capture_output=True)
                length = (pathlib.Path(folder) / "store.blobs").stat().st_size
            if ran.returncode != 0 or ran.stdout != b"".join(replies):
                sys.exit(f"full of {name}, {mode}: status {ran.returncode}, wrong replies; {ran.stderr.decode()}")
            if length != blobs:
                sys.exit(f"full of {name}, {mode}: store.blobs has {length} bytes and not {blobs}")
    print(f"full of {name}: all replies are right, and one more is refused")


# A file of 200,000 bytes, which are 49 blocks, and how much more memory a thousand replacements may take than ten: the
# catalogue and the script's lines, which are as nothing beside one file more.
SIZE, BLOCKS, SPARE_KIB = 200_000, 49, 2_000


def peak_of_replacements(count, mode):
    """The most memory, in KiB, of a run that replaces a file so often and then reads it."""
    bodies = [bytes([number % 256]) * SIZE for number in range(count + 1)]
    script = [b"enrol a\ncreate f a %d\n" % SIZE, bodies[0], b"\n"]
    for body in bodies[1:]:
        script += [b"replace f %d\n" % SIZE, body, b"\n"]
    script.append(b"read a f\n")
    replies = [b"ok %d\n" % (number + 1) for number in range(count + 2)]
    replies += [b"data a f %d\n" % SIZE, bodies[-1], b"\nend epoch %d\n" % (count + 2)]
    with tempfile.TemporaryDirectory() as folder:
        path = pathlib.Path(folder)
        (path / "keys.hex").write_bytes(keys.read_bytes())
        (path / "script").write_bytes(b"".join(script))
        with open(path / "script", "rb") as given, open(path / "replies", "wb") as put:
            ran = subprocess.Popen([program, "run", mode], cwd=folder, stdin=given, stdout=put)
            _, status, used = os.wait4(ran.pid, 0)
        if status != 0 or (path / "replies").read_bytes() != b"".join(replies):
            sys.exit(f"{count} replacements, {mode}: status {status}, or wrong replies")
        length = (path / "store.blobs").stat().st_size
        if length != 2 * BLOCKS * 4096:
            sys.exit(f"{count} replacements, {mode}: store.blobs has {length} bytes")
    return used.ru_maxrss


for mode in ("full", "delta"):
    few, many = peak_of_replacements(10, mode), peak_of_replacements(1000, mode)
    if many > few + SPARE_KIB:
        sys.exit(f"{mode}: ten replacements take {few} KiB of memory, and a thousand {many}")
print("a file that is replaced a thousand times: two files' blocks, and no more memory than ten times")
