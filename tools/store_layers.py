"""The two layers of a store by the updates of its store.book, as docs/LAYERS.md has their rules: users, sets
of keys with the edges into them, access tokens and files, with None in the place of each that was removed
or replaced. It shares no code with the crates.
"""
import dataclasses

from all_files import BAD_INPUT, CREATION, ENROLMENT, REMOVAL, REPLACEMENT, end, records

GRANT = 3
MODES = ("full", "delta")
# How many bytes a creation and a replacement have for the count of tokens, each token, the tag and the length.
COUNT, TOKEN, TAG, LENGTH = 2, 32, 32, 4


@dataclasses.dataclass
class File:
    number: int
    name: str
    base: int
    users: frozenset
    length: int
    tag: bytes
    surface: int | None = None


class Layer:
    """Sets of users by node."""

    def __init__(self):
        self.sets, self.numbers = [], {}

    def node_of(self, users):
        """The node of a set, which is added where it isn't there."""
        if users not in self.numbers:
            self.numbers[users] = len(self.sets)
            self.sets.append(users)
        return self.numbers[users]

    @property
    def starts(self):
        """The nodes where the edges into each node start."""
        return [self.cover(node) for node in range(len(self.sets))]

    def cover(self, new):
        """Strict subsets that were there before, the largest first and then by number, each kept where it has a user
        that those kept lack."""
        users = self.sets[new]
        subsets = [node for node, inside in enumerate(self.sets[:new]) if inside and inside < users]
        kept, covered = [], frozenset()
        for node in sorted(subsets, key=lambda node: (-len(self.sets[node]), node)):
            if not self.sets[node] <= covered:
                kept.append(node)
                covered |= self.sets[node]
        return kept


class Store:
    """A store in a mode, from its first epoch on. `named` has the files that are there by name, and `alike` those of
    each base node; `granted` the users who have an access token to a base node."""

    def __init__(self, mode, epoch=0):
        self.mode, self.epoch, self.users, self.files, self.accesses = mode, epoch, [], [], set()
        self.base, self.surface = Layer(), Layer()
        self.named, self.alike, self.granted = {}, {}, {}

    def update(self, body, set_bytes):
        """Makes the update of a record, whose sets have so many bytes. The words of its line in a script are the result,
        those of a creation and of a replacement without the length."""
        self.epoch += 1
        if body[0] in (ENROLMENT, CREATION, REPLACEMENT):
            name, rest = body[2 : 2 + body[1]].decode(), body[2 + body[1] :]
            if body[0] == ENROLMENT:
                return self.enrol(name)
            if body[0] == REPLACEMENT:
                return self.replace(self.named[name], rest)
            return self.create(name, self.listed(rest[:set_bytes]), rest[set_bytes:])
        if body[0] == REMOVAL:
            return self.remove(self.files[int.from_bytes(body[1:5], "big")])
        user, file = int.from_bytes(body[1:5], "big"), self.files[int.from_bytes(body[5:9], "big")]
        self.change(user, file, body[0] == GRANT)
        return ["grant" if body[0] == GRANT else "revoke", self.users[user], file.name]

    def enrol(self, name):
        own = frozenset([len(self.users)])
        self.users.append(name)
        for layer in (self.base, self.surface):
            layer.node_of(own)
        return ["enrol", name]

    def listed(self, bits):
        """The users of the set field of a creation."""
        return frozenset(8 * place + bit for place, byte in enumerate(bits) for bit in range(8) if byte >> bit & 1)

    def create(self, name, users, rest):
        """Adds a file for these users, the rest of whose record begins with the count of its tokens."""
        at = COUNT + TOKEN * int.from_bytes(rest[:COUNT], "big")
        tag, length = rest[at : at + TAG], rest[at + TAG : at + TAG + LENGTH]
        node = self.base.node_of(users)
        file = File(len(self.files), name, node, users, int.from_bytes(length, "big"), tag)
        self.files.append(file)
        self.named[name] = file
        self.alike.setdefault(node, []).append(file)
        self.lay(file)
        return ["create", name, ",".join(self.users[user] for user in sorted(users)) or "-"]

    def remove(self, file):
        self.files[file.number] = None
        del self.named[file.name]
        self.alike[file.base].remove(file)
        return ["remove", file.name]

    def replace(self, file, rest):
        self.remove(file)
        self.create(file.name, file.users, rest)
        return ["replace", file.name]

    def change(self, user, file, grants):
        file.users = file.users | {user} if grants else file.users - {user}
        if not grants or user in self.holders(file.base):
            return self.lay(file)
        self.accesses.add((user, file.base))
        self.granted[file.base] = self.granted.get(file.base, frozenset()) | {user}
        for other in self.alike[file.base] if self.mode == "delta" else [file]:
            self.lay(other)

    def holders(self, node):
        """Who can derive the access key of a base node: its users, and those with an access token to it."""
        return self.base.sets[node] | self.granted.get(node, frozenset())

    def lay(self, file):
        """Gives a file the surface that it wants in this mode."""
        bare = self.mode == "delta" and file.users == self.holders(file.base)
        file.surface = None if bare else self.surface.node_of(file.users)

    def reads(self, user, file):
        """Whether the user's keys lead to all keys of the file."""
        has_surface = file.surface is None or user in self.surface.sets[file.surface]
        return has_surface and user in self.holders(file.base)


def new_store(book, mode=None):
    """The store of a book before its first update, in the book's mode unless another is given."""
    return Store(mode or MODES[book[9] & 1], int.from_bytes(book[10:14], "big"))


def updates(book, origin, mode=None):
    """The store of a book behind each update, with the words of the update's line in a script."""
    store = new_store(book.ljust(14, b"\0"), mode)
    for body, set_bytes in records(book, origin):
        try:
            line = store.update(body, set_bytes)
        except (LookupError, ValueError, AttributeError):
            end(BAD_INPUT, f"{origin}: update {store.epoch} can't follow on those before it")
        yield store, line


def last_store(book, origin, mode=None):
    """The store behind all updates of a book."""
    store = new_store(book.ljust(14, b"\0"), mode)
    for store, _ in updates(book, origin, mode):
        pass
    return store
