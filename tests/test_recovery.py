"""Recovery of directories of all kinds, against the reader in directories.py, which shares no code with the program."""

import os
import pathlib
import random
import shutil
import sys
import tempfile
import unittest

from directories import (
    LARGEST_ID, LAST_SEQ, ended_by_gets, hint_of, list_of, name_of, named, numbers_of, opened, record_of, reply_to_stat,
    reply_to_sync, scanned,
)
from support import LOCK_FILE, get, in_memory, numbered, parsed, put, run

KEYS = [b"a", b"b", b"key", b"\n", b"\x00\xff", b"a key of more than thirty bytes, on the heap", b"z" * 300]
GETS = b"".join(map(get, [*KEYS, b"a key that no directory has"]))
RUNS = int(os.environ.get("DIRECTORIES", 10_000))


class Maker:
    """Makes directories at random: first such as a store leaves, and then something in them is spoiled."""

    def __init__(self, chance):
        self.chance = chance
        self.files = {}

    def directory(self):
        """A directory: its files by name, with their bytes."""
        self.files = {}
        self.fill()
        for make in (self.merge, self.left_over, self.strange):
            if self.chance.random() < 0.3:
                make()
        for _ in range(self.chance.choice((0, 0, 1, 1, 2, 4))):
            self.spoil()
        return self.files

    def fill(self):
        """Data files whose records rise, and hints of some."""
        seq, number = 0, 0
        for _ in range(self.chance.randrange(6)):
            number += self.chance.choice((1, 1, 1, 2, 5))
            text = b""
            for _ in range(self.chance.choice((0, 1, 3, 8))):
                seq += self.chance.choice((1, 1, 1, 1, 1, 0, 7))
                text += self.record(max(seq, 1))
            self.files[name_of(number, "data")] = text
            if self.chance.random() < 0.5:
                self.files[name_of(number, "hint")] = self.hint(text)

    def record(self, seq):
        value = None if self.chance.random() < 0.2 else self.chance.randbytes(self.chance.randrange(20))
        return record_of(self.chance.randrange(1 << 32), seq, self.chance.choice(KEYS), value)

    def hint(self, text):
        covered = self.chance.randrange(len(text) + 1) if self.chance.random() < 0.3 else None
        return hint_of(text, covered)

    def merge(self):
        """A merge of some files, in one of its states: its outputs and its list are there, or part of that."""
        inputs = [it for it in numbers_of(self.files, "data") if self.chance.random() < 0.5]
        first = max(numbers_of(self.files, "data"), default=0) + 1
        pairs, newest = [], {}
        for number in inputs:
            pairs += [(number, key, it) for key, it in scanned(self.files[name_of(number, "data")])[0]]
        for number, key, it in pairs:
            if key not in newest or newest[key][1].seq < it.seq:
                newest[key] = (number, it)
        texts = [self.files[name_of(number, "data")][it.at:it.at + it.size] for number, it in newest.values() if not it.gone]
        outputs = [first, first + 1][:self.chance.randrange(1, 3)]
        for place, number in enumerate(outputs):
            text = b"".join(texts[place::len(outputs)])
            self.files[name_of(number, self.chance.choice(("temp", "temp", "data")))] = text
            if self.chance.random() < 0.7:
                self.files[name_of(number, "hint")] = hint_of(text)
        for number in inputs[:self.chance.choice((0, 0, 1, len(inputs)))]:
            self.files.pop(name_of(number, "data"))
        listing = list_of(inputs, outputs)
        self.files[name_of(first, self.chance.choice(("swap", "swap", "stmp")))] = listing

    def left_over(self):
        """Files that nothing needs, and names that aren't the store's."""
        for _ in range(self.chance.randrange(1, 4)):
            number, kind = self.chance.randrange(1, 12), self.chance.choice(("temp", "htmp", "stmp", "hint"))
            self.files[name_of(number, kind)] = self.chance.randbytes(self.chance.randrange(40))
        names = ("0.bitcask.data", "01.bitcask.data", f"{LARGEST_ID + 1}.bitcask.data", "notes.txt", "1.bitcask.DATA")
        self.files[self.chance.choice(names)] = self.record(9)

    def strange(self):
        """What no store leaves: lists that name each other's files, the last file number, short files."""
        choice = self.chance.randrange(5)
        if choice == 0:
            self.files[name_of(1, "swap")] = list_of([1, 2], [3])
            self.files[name_of(2, "swap")] = list_of([3], [1, 4])
            self.files[name_of(self.chance.randrange(1, 5), "temp")] = self.record(50)
        elif choice == 1:
            number = LARGEST_ID - self.chance.randrange(2)
            self.files[name_of(number, self.chance.choice(("data", "hint", "temp")))] = self.record(3)
        elif choice == 2:
            self.files[name_of(self.chance.randrange(1, 9), "data")] = self.chance.randbytes(self.chance.randrange(22))
        elif choice == 3:
            self.files[name_of(7, "data")] = self.record(4) + self.record(11)[:-1]
        else:
            self.files[name_of(3, "swap")] = list_of([0, LARGEST_ID + 1, 5], [LARGEST_ID + 1, 0, 5, 5])

    def spoil(self):
        if not self.files:
            return
        name = self.chance.choice(sorted(self.files))
        text, choice = self.files[name], self.chance.randrange(7)
        if choice == 0 and text:
            at = self.chance.randrange(len(text))
            self.files[name] = text[:at] + bytes([text[at] ^ 1 << self.chance.randrange(8)]) + text[at + 1:]
        elif choice == 1:
            self.files[name] = text[:self.chance.randrange(len(text) + 1)]
        elif choice == 2:
            self.files[name] = text + self.chance.choice((b"\0", self.record(12), self.chance.randbytes(30)))
        elif choice == 3:
            other = self.chance.choice(sorted(self.files))
            self.files[name], self.files[other] = self.files[other], text
        elif choice == 4:
            del self.files[name]
        elif choice == 5:
            it = named(name)
            if it:
                self.files[name_of(it[0] + self.chance.randrange(2), self.chance.choice(("data", "temp", "swap", "hint")))] = text
        else:
            it = named(name)
            if it and it[1] == "data":
                self.files[name_of(it[0], "hint")] = self.hint(self.files[self.chance.choice(sorted(self.files))])


class Directories(unittest.TestCase):
    """Each directory opens, each key has the value that the reader of the formats finds, and the same files are left."""

    maxDiff = 4000

    def setUp(self):
        folder = tempfile.TemporaryDirectory(dir=in_memory())
        self.addCleanup(folder.cleanup)
        self.folder = pathlib.Path(folder.name) / "store"

    def make(self, files):
        shutil.rmtree(self.folder, ignore_errors=True)
        self.folder.mkdir()
        for name, text in files.items():
            (self.folder / name).write_bytes(text)

    def left(self):
        return {path.name: path.read_bytes() for path in self.folder.iterdir() if path.name != LOCK_FILE}

    def check(self, files):
        """Opens the directory, then what that left, with a put at the end."""
        it = opened(files)
        self.make(files)
        status, output = ended_by_gets(it, [*KEYS, b"a key that no directory has"])
        ended = run("pipe", str(self.folder), given=GETS + b"SYNC\nSTAT\n")
        self.assertEqual((ended.returncode, ended.stdout), (status, output + reply_to_sync(it) + reply_to_stat(it)))
        self.assertEqual(self.left(), it.files)
        self.check_put(it.files)

    def check_put(self, files):
        """A put has the number behind the last one, and stands in a file of its own."""
        it = opened(files)
        ended = run("pipe", str(self.folder), given=put(b"a", b"new"))
        if it.last_seq == LAST_SEQ or it.last_id == LARGEST_ID:
            full = b"FULL seq\n" if it.last_seq == LAST_SEQ else b"FULL files\n"
            self.assertEqual((ended.returncode, ended.stdout), (0, full))
            self.assertEqual(self.left(), it.files)
            return
        self.assertEqual((ended.returncode, ended.stdout), (0, numbered(it.last_seq + 1)))
        left = self.left()
        records, rest = parsed(left.pop(name_of(it.last_id + 1, "data")))
        self.assertEqual([(one.seq, one.key, one.value) for one in records], [(it.last_seq + 1, b"a", b"new")])
        self.assertEqual((rest, left), (b"", it.files))

    def test_random_directories(self):
        seed = int(os.environ.get("SEED", random.randrange(1 << 32)))
        print(f"(seed {seed}, {RUNS} directories)", end=" ", file=sys.stderr, flush=True)
        maker = Maker(random.Random(seed))
        for number in range(RUNS):
            files = maker.directory()
            with self.subTest(seed=seed, number=number, files={name: text.hex() for name, text in files.items()}):
                self.check(files)


if __name__ == "__main__":
    unittest.main()
