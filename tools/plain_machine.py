"""The access-matrix machine without a cipher, for tools that know what a program has to reply: users, and files with
their lists and bytes. No limit is met.
"""

WORDS = {1: "Taken", 2: "NoUser", 3: "NoFile", 4: "NoPath", 5: "Listed", 6: "NotListed"}


class Machine:
    """Replies to commands, which are tuples: ("enrol", U), ("create", F, [U..], bytes), ("grant", U, F),
    ("revoke", U, F), ("remove", F), ("replace", F, bytes), ("read", U, F) and ("list", F)."""

    def __init__(self):
        self.users, self.files, self.epoch = [], {}, 0

    def reply(self, command):
        return getattr(self, command[0])(*command[1:])

    def made(self):
        self.epoch += 1
        return b"ok %d\n" % self.epoch

    def refused(self, number):
        return b"refused %d %s\n" % (number, WORDS[number].encode())

    def missing(self, user, file):
        return 2 if user not in self.users else 3 if file not in self.files else None

    def enrol(self, user):
        if user in self.users:
            return self.refused(1)
        self.users.append(user)
        return self.made()

    def create(self, file, users, data):
        if file in self.files:
            return self.refused(1)
        self.files[file] = (frozenset(users), data)
        return self.made()

    def turned(self, user, file, number, is_listed):
        """A user comes on the list of a file or goes off it, unless it's there or isn't already."""
        listed, data = self.files.get(file, (frozenset(), b""))
        wrong = self.missing(user, file) or (number if (user in listed) == is_listed else None)
        if wrong:
            return self.refused(wrong)
        self.files[file] = (listed ^ {user}, data)
        return self.made()

    def grant(self, user, file):
        return self.turned(user, file, 5, True)

    def revoke(self, user, file):
        return self.turned(user, file, 6, False)

    def remove(self, file):
        if file not in self.files:
            return self.refused(3)
        del self.files[file]
        return self.made()

    def replace(self, file, data):
        if file not in self.files:
            return self.refused(3)
        self.files[file] = (self.files[file][0], data)
        return self.made()

    def read(self, user, file):
        wrong = self.missing(user, file)
        if wrong is None and user not in self.files[file][0]:
            wrong = 4
        if wrong:
            return self.refused(wrong)
        data = self.files[file][1]
        return b"data %s %s %d\n%s\n" % (user, file, len(data), data)

    def list(self, file):
        if file not in self.files:
            return self.refused(3)
        names = [user for user in self.users if user in self.files[file][0]]
        return b"list %s %s\n" % (file, b",".join(names) or b"-")


def spelled(command):
    """The command as it stands in a script."""
    kind = command[0].encode()
    if command[0] == "create":
        _, file, users, data = command
        return b"create %s %s %d\n%s\n" % (file, b",".join(users) or b"-", len(data), data)
    if command[0] == "replace":
        _, file, data = command
        return b"replace %s %d\n%s\n" % (file, len(data), data)
    return b" ".join([kind, *command[1:]]) + b"\n"
