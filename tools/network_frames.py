"""The frames that network_times.py and session_times.py have sent: requests, and updates with the owner's tag, whose
epochs are known before since nobody else updates. Nobody reads the files, so tags, tokens and bytes are zeros.
"""
import struct

from common import framed, keyed
from network_cases import UPDATE_KEY

MIB, CHUNK = 1 << 20, 1 << 16


def u32(*numbers):
    return struct.pack(">%dI" % len(numbers), *numbers)


def name(text):
    return bytes([len(text)]) + text.encode()


ALICE, BOB, F1 = name("alice"), name("bob"), name("f1")
ASK, LIST = framed(b"\2\4" + BOB + F1), framed(b"\x08" + F1)


class Owner:
    """Spells updates, one epoch after the other."""

    def __init__(self):
        self.epoch = 0

    def update(self, spelling):
        at = u32(self.epoch)
        self.epoch += 1
        return framed(b"\4" + at + spelling + keyed(UPDATE_KEY, at + spelling))

    def creation(self, file, users, tokens, size):
        listed = bytes([users]) + bytes(127) + bytes([0, tokens]) + bytes(32 * tokens)
        return self.update(b"\2" + file + listed + bytes(32) + u32(size) + bytes(size))


def begun(owner):
    """Two users, and a file of one byte for both."""
    return [owner.update(b"\1" + ALICE), owner.update(b"\1" + BOB), owner.creation(F1, 3, 2, 1)]


def turns(owner, count):
    """The second user is taken off the file and granted it again, in turns."""
    kinds = (b"\4" + u32(1, 0), b"\3" + u32(1, 0) + b"\0")
    return [owner.update(kinds[i % 2]) for i in range(count)]


def creations(owner, count):
    """Files of 1 MiB for the first user, each a Cover and an Update."""
    frames = []
    for number in range(1, count + 1):
        file = name("m%d" % number)
        frames += [framed(b"\3" + file + u32(MIB) + b"\0\1" + ALICE), owner.creation(file, 1, 0, MIB)]
    return frames


def reads(count, epoch):
    """Each of these files, the first of which was created at this epoch: a Chain, and its Chunks."""
    frames = []
    for number in range(1, count + 1):
        frames.append(framed(b"\5" + ALICE + name("m%d" % number)))
        frames += [framed(b"\6" + u32(number, epoch + number, start, CHUNK)) for start in range(0, MIB, CHUNK)]
    return frames
