"""Random sessions over the whole wire, one after the other over one directory, against the model."""

import os
import random
import sys
import unittest

from model import Model, replies_of
from support import StoreTest, get, put

KEYS = [b"a", b"b", b"c", b"\n", b"GET 1\n", b"a key of more than thirty bytes, on the heap", b"k" * 500]
MOST_IN_FILE = 4_096
STREAMS = int(os.environ.get("STREAMS", 1_000))
OPENINGS = 4  # of one directory


class Sessions(StoreTest):
    def session(self, chance, model):
        """The text of a session and its replies."""
        given, replies = b"", []
        for _ in range(chance.randrange(40)):
            key, value = chance.choice(KEYS), chance.randbytes(chance.choice((0, 1, 30, 30, 700, 5_000)))
            text, answer = chance.choice((
                (put(key, value), lambda: model.put(key, value)), (put(key, value), lambda: model.put(key, value)),
                (get(key), lambda: model.get(key)), (b"DEL %d\n" % len(key) + key + b"\n", lambda: model.delete(key)),
                (b"FOLD\n", model.fold), (b"KEYS\n", model.keys), (b"SYNC\n", model.sync), (b"STAT\n", model.stat),
            ))
            given += text
            replies += answer()
        end = chance.randrange(4)
        if end == 0:
            given += b"QUIT\n" + chance.choice((b"", put(b"late", b"1"), b"\xff"))
            replies.append(b"BYE\n")
        return given, replies

    def test_random_sessions(self):
        seed = int(os.environ.get("SEED", random.randrange(1 << 32)))
        print(f"(seed {seed}, {STREAMS} sessions)", end=" ", file=sys.stderr, flush=True)
        chance = random.Random(seed)
        for number in range(0, STREAMS, OPENINGS):
            self.folder = self.top / str(number)
            self.folder.mkdir()
            (self.folder / "bitcask.toml").write_text(f"max_file = {MOST_IN_FILE}\n")
            model = Model(MOST_IN_FILE)
            for opening in range(OPENINGS):
                given, replies = self.session(chance, model)
                with self.subTest(seed=seed, number=number + opening):
                    ended = self.pipe(given)
                    self.assertEqual((ended.returncode, ended.stderr), (0, b""))
                    self.assertEqual(replies_of(ended.stdout), replies)
                model.reopen()

    def setUp(self):
        super().setUp()
        self.top = self.folder


if __name__ == "__main__":
    unittest.main()
