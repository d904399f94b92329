"""A small model of the store and of its wire: what each request is answered, and what the files then take.

docs/FORMATS.md and docs/DEFINITIONS.md say it, and no code of the program is used. Nothing of it fails or expires.
"""

from records import HEADER

class Model:
    """A store whose data files take at most so many bytes."""

    def __init__(self, most_in_file):
        self.most_in_file = most_in_file
        self.pairs = {}
        self.seq = 0
        self.lengths = []  # of the data files
        self.active = False  # whether the last of them takes records

    def reopen(self):
        self.active = False

    def append(self, size):
        if not self.active or self.lengths[-1] + size > self.most_in_file:
            self.lengths.append(0)
            self.active = True
        self.lengths[-1] += size
        self.seq += 1
        return [b"OK %d\n" % self.seq]

    def put(self, key, value):
        self.pairs[key] = value
        return self.append(HEADER.size + len(key) + len(value))

    def delete(self, key):
        if key not in self.pairs:
            return [b"NONE\n"]
        del self.pairs[key]
        return self.append(HEADER.size + len(key))

    def get(self, key):
        if key not in self.pairs:
            return [b"NONE\n"]
        return [b"VALUE %d\n" % len(self.pairs[key]) + self.pairs[key] + b"\n"]

    def sync(self):
        return [b"SYNCED %d\n" % self.seq]

    def stat(self):
        live = sum(HEADER.size + len(key) + len(value) for key, value in self.pairs.items())
        return [b"STAT %d %d %d %d\n" % (len(self.pairs), len(self.lengths), sum(self.lengths), live)]

    def fold(self):
        return listing([b"PAIR %d %d\n" % (len(key), len(value)) + key + value + b"\n" for key, value in self.pairs.items()])

    def keys(self):
        return listing([b"KEY %d\n" % len(key) + key + b"\n" for key in self.pairs])


def listing(rows):
    """Rows may come in any order; here they are sorted."""
    return [*sorted(rows), b"END %d\n" % len(rows)]


def replies_of(output):
    """The reply lines of a session's output, those of each listing sorted; what is no reply stands at the end."""
    replies, rows, at = [], [], 0
    while at < len(output):
        line = output[at:output.find(b"\n", at) + 1]
        word, *numbers = line.split()
        size = len(line)
        if word in (b"VALUE", b"KEY", b"PAIR"):
            size += sum(map(int, numbers)) + 1
        text, at = output[at:at + size], at + size
        if word in (b"KEY", b"PAIR"):
            rows.append(text)
            continue
        replies += [*sorted(rows), text]
        rows = []
    return replies + rows
