"""A model of the command `drill`: what each line of a script prints.

docs/FORMATS.md and docs/DRILL.md say it, and no code of the program is used: a map with the folds over it, and a
disk in memory whose files are kept byte by byte, with how much of each is synced and which calls are to fail. What a
stop leaves is read again by the reader of data files in directories.py.
"""

import re
import typing

from directories import record_of, scanned

LARGEST_NUMBER = (1 << 64) - 1
LARGEST_LINE = 256  # bytes with its line feed
MOST_LINES = 65_536
MOST_FOLDS = 64
LONGEST_PRINTED = 64  # of a value of x alone
DEFAULT_MAX = 67_108_864

WORD = rb"[!-~]{1,64}"
NUMBER = rb"0|[1-9][0-9]{0,19}"
# Each line of the table: its form, and the greatest number that each of its numbers may be.
FORMS = [
    (rb"(?P<verb>max) (?P<number>%s)", 1_073_741_824), (rb"(?P<verb>ttl) (?P<number>%s)", (1 << 32) - 1),
    (rb"(?P<verb>at) (?P<number>%s)", (1 << 32) - 1),
    (rb"(?P<verb>fail|fuse) (?P<number>%s) (?P<effect>%s)", LARGEST_NUMBER),
    (rb"(?P<actor>[a-z]) (?P<verb>put) (?P<key>WORD) (?P<value>WORD)", 0),
    (rb"(?P<actor>[a-z]) (?P<verb>big) (?P<key>WORD) (?P<number>%s)", 16_777_216),
    (rb"(?P<actor>[a-z]) (?P<verb>del|reap|get) (?P<key>WORD)", 0),
    (rb"(?P<actor>[a-z]) (?P<verb>read|sync|fold)", 0),
    (rb"(?P<actor>[a-z]) (?P<verb>next|end) (?P<number>%s)", 255),
    (rb"(?P<verb>stop) (?P<keep>all|%s)(?P<flips>(?: (?:%s))*)", LARGEST_NUMBER),
]
FORMS = [(re.compile(form.replace(b"%s", NUMBER).replace(b"WORD", WORD)), most) for form, most in FORMS]
LEAST = {b"max": 4_096, b"fail": 1}


def line_of(text, begun):
    """What a line says, or None where it is none of the table. After its beginning a script has no settings."""
    for form, most in FORMS:
        found = form.fullmatch(text)
        if found:
            it = found.groupdict()
            verb = it["verb"]
            numbers = [int(it[name]) for name in ("number", "effect") if it.get(name)]
            if verb == b"stop":
                numbers = [int(word) for word in text.split()[1:] if word != b"all"]
            fits = all(LEAST.get(verb, 0) * (place == 0) <= number <= most for place, number in enumerate(numbers))
            return it if fits and len(text) < LARGEST_LINE and not (begun and verb in (b"max", b"ttl")) else None
    return None


class Failed(Exception):
    """A call on the disk that was chosen to fail."""


class Disk:
    """Files in memory, and the calls of which some fail."""

    def __init__(self, files):
        self.files = {name: bytearray(text) for name, text in files.items()}
        self.synced = {name: len(text) for name, text in files.items()}
        self.calls = 0
        self.choices = []  # (the first call that fails, the last, the effect of the first), each after those before it

    def fail(self, nth, effect):
        self.choices.append((self.calls + nth, self.calls + nth, effect))

    def fuse(self, calls, effect):
        """Takes the place of an earlier fuse."""
        self.choices = [it for it in self.choices if it[0] == it[1]]
        self.choices.append((self.calls + calls + 1, None, effect))

    def effect(self):
        """Counts a call. Gives None, or the effect with which it fails: what was chosen last for it counts."""
        self.calls += 1
        for first, last, effect in reversed(self.choices):
            if first <= self.calls and (last is None or self.calls <= last):
                return effect if self.calls == first else 0
        return None

    def call(self, does=lambda: None):
        """A call that is done, or fails and then is done where its effect isn't 0."""
        effect = self.effect()
        if effect != 0:
            does()
        if effect is not None:
            raise Failed

    def view(self):
        if self.effect() is not None:
            raise Failed

    def create(self, name):
        def made():
            self.files.setdefault(name, bytearray())
            self.synced.setdefault(name, 0)
        self.call(made)

    def append(self, name, text):
        effect = self.effect()
        self.files[name] += text if effect is None else text[:effect]
        if effect is not None:
            raise Failed

    def cut(self, name, length):
        self.call(lambda: self.files[name].__delitem__(slice(length, None)))

    def sync(self, name):
        if self.effect() is not None:
            raise Failed
        self.synced[name] = len(self.files[name])

    def stopped(self, keep, flips):
        """The files that a stop leaves."""
        left = {}
        for name, text in self.files.items():
            synced = self.synced[name]
            part = bytearray(text[synced:] if keep is None else text[synced:synced + keep])
            for offset in set(flips):
                if offset < len(part):
                    part[offset] ^= 1
            left[name] = bytes(text[:synced] + part)
        return left


class Put(typing.NamedTuple):
    """The newest write of a key that is a put."""

    moment: int
    value: bytes


class Fold:
    """A fold: what it is to list, and what it has listed."""

    def __init__(self, actor, pairs):
        self.actor, self.left, self.listed = actor, pairs, 0


class Store:
    """The map, the data files and the folds of one opening."""

    def __init__(self, files, most_in_file, ttl):
        self.disk, self.most_in_file, self.ttl = Disk(files), most_in_file, ttl
        self.last, self.torn = 0, []
        self.last_file = max(files, default=0)
        self.active, self.length = None, 0  # the file that is appended to, and how far its records go
        self.is_torn = False  # an append to it failed since
        self.folds = {}
        newest = {}
        for number, text in sorted(files.items()):
            records, end = scanned(text)
            for key, it in records:
                if key not in newest or newest[key][0] < it.seq:
                    newest[key] = (it.seq, None if it.gone else put_of(text[it.at:it.at + it.size], key))
                self.last = max(self.last, it.seq)
            if end < len(text):
                self.torn.append((number, end, len(text) - end))
        self.puts = {key: it for key, (_, it) in newest.items() if it}  # the newest writes that are puts

    def is_live(self, put, now):
        return self.ttl == 0 or now < put.moment + self.ttl

    def repair(self):
        if self.is_torn:
            self.disk.cut(self.active, self.length)
            self.disk.sync(self.active)
            self.is_torn = False

    def roll(self, size):
        if self.active is not None and (self.length == 0 or self.length + size <= self.most_in_file):
            return
        if self.active is not None:
            self.disk.sync(self.active)
        self.disk.create(self.last_file + 1)
        self.last_file += 1
        self.active, self.length = self.last_file, 0

    def write(self, key, value, now):
        """Appends a record, and then the map changes. Gives its number."""
        text = record_of(now, self.last + 1, key, value)
        self.repair()
        self.roll(len(text))
        try:
            self.disk.append(self.active, text)
        except Failed:
            self.is_torn = True
            raise
        self.length += len(text)
        self.last += 1
        self.puts.pop(key, None)
        if value is not None:
            self.puts[key] = Put(now, value)
        return b"OK %d" % self.last

    def delete(self, key, now):
        return self.write(key, None, now) if key in self.puts else b"NONE"

    def reap(self, key, now):
        expired = key in self.puts and not self.is_live(self.puts[key], now)
        return self.write(key, None, now) if expired else b"NONE"

    def get(self, key, now):
        """The value of a key that is live, or None."""
        put = self.puts.get(key)
        if put is None or not self.is_live(put, now):
            return None
        self.disk.view()
        return put.value

    def sync(self):
        self.repair()
        if self.active is not None:
            self.disk.sync(self.active)
        return b"SYNCED %d" % self.last

    def fold(self, actor, now):
        slot = next((it for it in range(MOST_FOLDS) if it not in self.folds), None)
        if slot is None:
            return b"FULL folds"
        self.folds[slot] = Fold(actor, {key: put.value for key, put in self.puts.items() if self.is_live(put, now)})
        return b"FOLD %d %d" % (slot, self.last)

    def next(self, actor, slot, printed):
        """Which of the pairs that are left comes next is open: it is the one that was printed."""
        fold = self.folds.get(slot)
        if fold is None or fold.actor != actor:
            return b"NOFOLD %d" % slot
        if not fold.left:
            return b"END %d" % fold.listed
        self.disk.view()
        for key, value in fold.left.items():
            line = b"PAIR " + key + b" " + shown(value)
            if line == printed:
                del fold.left[key]
                fold.listed += 1
                return line
        return b"PAIR, one of %s" % b", ".join(fold.left)

    def end(self, actor, slot):
        fold = self.folds.get(slot)
        if fold is None or fold.actor != actor:
            return b"NOFOLD %d" % slot
        del self.folds[slot]
        return b"CLOSED"


def put_of(record, key):
    """The put whose record this is."""
    return Put(int.from_bytes(record[4:8], "big"), record[22 + len(key):])


def shown(value):
    """A value as a line has it."""
    return b"%d*x" % len(value) if len(value) > LONGEST_PRINTED and not value.strip(b"x") else value


class Drill:
    """A run of a script, told line by line what the program printed for it."""

    def __init__(self):
        self.settings = {b"max": DEFAULT_MAX, b"ttl": 0}
        self.begun = False
        self.now = 0
        self.loans = {}
        self.store = None

    def open(self, files):
        self.store = Store(files, self.settings[b"max"], self.settings[b"ttl"])
        self.loans = {}

    def lines(self, it, printed):
        """What this line prints. `printed` is the next line of the program's output."""
        verb, number = it["verb"], int(it["number"]) if it.get("number") else None
        if verb in self.settings:
            self.settings[verb] = number
            return []
        if not self.begun:
            self.begun = True
            self.open({})
        if verb == b"at":
            self.now = number
        elif verb == b"fail":
            self.store.disk.fail(number, int(it["effect"]))
        elif verb == b"fuse":
            self.store.disk.fuse(number, int(it["effect"]))
        elif verb == b"stop":
            return self.stop(it)
        else:
            try:
                return [self.event(it["actor"], verb, it.get("key"), number, it.get("value"), printed)]
            except Failed:
                return [b"DISK"]
        return []

    def event(self, actor, verb, key, number, value, printed):
        store = self.store
        if verb == b"put":
            return store.write(key, value, self.now)
        if verb == b"big":
            return store.write(key, b"x" * number, self.now)
        if verb == b"del":
            return store.delete(key, self.now)
        if verb == b"reap":
            return store.reap(key, self.now)
        if verb == b"get":
            value = store.get(key, self.now)
            if value is None:
                return b"NONE"
            self.loans[actor] = value
            return b"LOAN"
        if verb == b"read":
            return b"VALUE " + shown(self.loans.pop(actor)) if actor in self.loans else b"NOLOAN"
        if verb == b"sync":
            return store.sync()
        if verb == b"fold":
            return store.fold(actor, self.now)
        if verb == b"next":
            return store.next(actor, number, printed)
        return store.end(actor, number)

    def stop(self, it):
        keep = None if it["keep"] == b"all" else int(it["keep"])
        self.open(self.store.disk.stopped(keep, list(map(int, it["flips"].split()))))
        torn = self.store.torn
        return [b"REOPENED %d %d %d" % (self.store.last, len(self.store.puts), len(torn)), *(b"TORN %d %d %d" % one for one in torn)]


def drilled(script, output):
    """What the script prints, as lines, and the status of its run, where the program printed `output`."""
    drill, lines, at = Drill(), [], 0
    printed = output.split(b"\n")
    for number, text in enumerate(re.findall(rb"[^\n]*\n|[^\n]+\Z", script)):
        it = line_of(text[:-1], drill.begun) if text.endswith(b"\n") and number < MOST_LINES else None
        if it is None:
            return [*lines, b"SYNTAX %d" % at], 6
        lines += drill.lines(it, printed[len(lines)] if len(lines) < len(printed) else None)
        at += len(text)
    return lines, 0
