"""Scripts by which the speed of the layers and of a store is measured (docs/PERFORMANCE.md).

    python3 tools/layer_scripts.py sets|reads|revoke|grant|wide|updates|large|many|many_reads|longest > SCRIPT
    python3 tools/layer_scripts.py history UPDATES FILES > SCRIPT

sets    twelve users, and a file of no bytes for each of the 4,084 other sets of them
reads   one user, 1,000 files of 4,096 bytes, and a read of each
revoke  two users, 16,384 files for both, and 100 revocations and grants of one file
grant   three users, 10,000 files of 4,096 bytes for two of them, and a grant of one to the third
wide    those of `sets`, 12,288 more files for all twelve, and 500 revocations and grants of one
updates two users, a file of one byte for both, and 9,997 revocations and grants of it
large   one user, and 63 files of 1,048,576 bytes
many    1,024 users, and 100 files of 4,096 bytes, each for all of them but one
many_reads  those of `many`, and a read of each of its files
longest two users, a file of 16,777,216 bytes for both, a read of it, and a revocation of one of them
history three users, so many files of no bytes for two of them, and grants and revocations of one file after
        the other for the third, up to so many updates in all
"""
import sys


def put(text):
    sys.stdout.buffer.write(text)


def create(name, users, size):
    put(b"create %s %s %d\n%s\n" % (name, users or b"-", size, b"x" * size))


def sets():
    for user in range(12):
        put(b"enrol u%d\n" % user)
    for members in range(1 << 12):
        users = [b"u%d" % user for user in range(12) if members >> user & 1]
        if len(users) != 1:
            create(b"f%d" % members, b",".join(users), 0)


def reads():
    put(b"enrol a\n")
    for file in range(1000):
        create(b"f%d" % file, b"a", 4096)
    for file in range(1000):
        put(b"read a f%d\n" % file)


def revoke():
    put(b"enrol a\nenrol b\n")
    for file in range(16384):
        create(b"f%d" % file, b"a,b", 0)
    for _ in range(100):
        put(b"revoke b f8000\ngrant b f8000\n")


def grant():
    put(b"enrol a\nenrol b\nenrol c\n")
    for file in range(10000):
        create(b"f%d" % file, b"a,b", 4096)
    put(b"grant c f5000\n")


def wide():
    sets()
    users = b",".join(b"u%d" % user for user in range(12))
    for file in range(12288):
        create(b"g%d" % file, users, 0)
    for _ in range(500):
        put(b"revoke u3 g77\ngrant u3 g77\n")


def updates():
    put(b"enrol a\nenrol b\n")
    create(b"f", b"a,b", 1)
    for number in range(9997):
        put(b"grant b f\n" if number % 2 else b"revoke b f\n")


def large():
    put(b"enrol a\n")
    for file in range(63):
        create(b"f%d" % file, b"a", 1048576)


def many():
    users = [b"user%04d" % user for user in range(1024)]
    for user in users:
        put(b"enrol %s\n" % user)
    for file in range(100):
        create(b"f%d" % file, b",".join(users[:file] + users[file + 1:]), 4096)


def many_reads():
    many()
    for file in range(100):
        put(b"read user1023 f%d\n" % file)


def longest():
    put(b"enrol a\nenrol b\n")
    create(b"f", b"a,b", 16777216)
    put(b"read b f\nrevoke b f\n")


def history():
    updates, files = int(sys.argv[2]), int(sys.argv[3])
    put(b"enrol a\nenrol b\nenrol c\n")
    for file in range(files):
        create(b"f%d" % file, b"a,b", 0)
    for turn in range(updates - files - 3):
        word = b"revoke" if turn // files % 2 else b"grant"
        put(b"%s c f%d\n" % (word, turn % files))


scripts = [sets, reads, revoke, grant, wide, updates, large, many, many_reads, longest, history]
{script.__name__: script for script in scripts}[sys.argv[1]]()
