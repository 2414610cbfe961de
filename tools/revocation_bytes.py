"""Counts the bytes that move when one of eight readers is taken off 1,000 files of 64 MiB together.

    python3 tools/revocation_bytes.py             # by the formats, and by `age` where it is installed
    python3 tools/revocation_bytes.py PROGRAM     # and by crates/overstore/out/overstore

Here a revocation is an update of nine bytes. On a network four frames go with it, which this spells as
docs/FORMATS.md has them: Ask and Known, by which an owner finds the numbers of the user and the file,
Update with its tag, and Accepted. A session's Hello and Welcome, 47 bytes, aren't counted, nor are the
headers of packets on either side. PROGRAM makes such a store and revokes, and store.book has to grow by
18 bytes a file: the update behind a gate and its length, and the file's new first block. The file itself is
written again within the server's machine, in store.blobs.

With `age` each file is fetched, encrypted again to the seven who stay, and sent back. A file of n bytes
for r recipients with X25519 keys has

    22 + 98 r + 48 + 16 + n + 16 max(1, ceil(n / 65536))

bytes: a line with the version; for each recipient `-> X25519 `, and twice 43 characters of base64 and an
LF; `--- ` and 43 characters with an LF; a nonce; and the bytes, with a tag for each chunk of 65,536. Where
`age` and `age-keygen` are installed, the files are made and encrypted, and their sizes are counted.
"""
import math
import pathlib
import shutil
import struct
import subprocess
import sys
import tempfile

FILES, BYTES = 1000, 64 * 1024 * 1024
READERS = [f"reader-{number}" for number in range(1, 9)]
LEAVING = len(READERS) - 1
NAMES = [f"letter-{number:03}" for number in range(FILES)]
LENGTHS = [BYTES // FILES + (number < BYTES % FILES) for number in range(FILES)]
KEYS = pathlib.Path(__file__).resolve().parent.parent / "examples" / "keys.hex"


# ---- this store


def update(file):
    return struct.pack(">BII", 4, LEAVING, file)


def frame(kind, text):
    return struct.pack(">IB", 1 + len(text), kind) + text


def named(name):
    return struct.pack(">B", len(name)) + name.encode()


def frames(file):
    """Ask, Known, Update and Accepted. The readers' roots are numbered as they are, and the next node is
    that of all files; zeros stand for the owner's tag."""
    epoch = len(READERS) + FILES + file
    known = struct.pack(">6IB", epoch, LEAVING, LEAVING, LEAVING, file, len(READERS), 0)
    yield frame(0x02, b"\x04" + named(READERS[LEAVING]) + named(NAMES[file]))
    yield frame(0x82, known)
    yield frame(0x04, struct.pack(">I", epoch) + update(file) + bytes(32))
    yield frame(0x84, struct.pack(">I", epoch + 1))


def creations():
    for reader in READERS:
        yield f"enrol {reader}\n".encode()
    for name, length in zip(NAMES, LENGTHS):
        yield f"create {name} {','.join(READERS)} {length}\n".encode() + bytes(length) + b"\n"


def revocations():
    for name in NAMES:
        yield f"revoke {READERS[LEAVING]} {name}\n".encode()


def growth(program):
    """The bytes by which the revocations lengthen the program's store.book."""
    with tempfile.TemporaryDirectory() as folder:
        shutil.copy(KEYS, folder)
        sizes = []
        for script, updates in (creations, len(READERS) + FILES), (revocations, FILES):
            text = b"".join(script())
            done = subprocess.run([program, "run", "full"], cwd=folder, input=text, stdout=subprocess.PIPE)
            assert done.returncode == 0 and done.stdout.count(b"ok ") == updates, done
            sizes.append((pathlib.Path(folder) / "store.book").stat().st_size)
    return sizes[1] - sizes[0]


# ---- age


def age_size(length, recipients):
    return 22 + 98 * recipients + 48 + 16 + length + 16 * max(1, math.ceil(length / 65536))


def age_sizes(lengths):
    """The bytes of all files for the eight and then for the seven, as `age` makes them."""
    with tempfile.TemporaryDirectory() as base:
        folder = pathlib.Path(base)
        for reader in READERS:
            key = ["age-keygen", "-o", folder / reader]
            subprocess.run(key, stderr=subprocess.DEVNULL, check=True)
        keys = [subprocess.check_output(["age-keygen", "-y", folder / reader]) for reader in READERS]
        (folder / "eight").write_bytes(b"".join(keys))
        (folder / "seven").write_bytes(b"".join(keys[:LEAVING]))
        fetched = sent = 0
        for length in lengths:
            to_eight = encrypted(folder / "eight", bytes(length))
            first = ["age", "-d", "-i", folder / READERS[0]]
            plain = subprocess.run(first, input=to_eight, stdout=subprocess.PIPE, check=True).stdout
            fetched += len(to_eight)
            sent += len(encrypted(folder / "seven", plain))
    return fetched, sent


def encrypted(recipients, text):
    command = ["age", "-R", recipients]
    return subprocess.run(command, input=text, stdout=subprocess.PIPE, check=True).stdout


updates = sum(len(update(file)) for file in range(FILES))
framed = sum(len(text) for file in range(FILES) for text in frames(file))
fetched, sent = (sum(age_size(length, readers) for length in LENGTHS) for readers in (8, 7))
print(f"overstore: {framed:,} bytes in frames, {updates:,} of them the updates")
print(f"age: {fetched + sent:,} bytes, {fetched:,} fetched and {sent:,} sent")
if shutil.which("age") and shutil.which("age-keygen"):
    made = age_sizes(LENGTHS)
    print("age makes files of these sizes" if made == (fetched, sent) else f"age makes other sizes: {made}")
else:
    print("age isn't installed: its bytes are by its format")
for program in sys.argv[1:]:
    print(f"store.book grew by {growth(pathlib.Path(program).resolve()):,} bytes")
