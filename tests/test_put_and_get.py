"""What is put is read again, and the data file holds exactly the records of the puts."""

import os
import random
import subprocess
import time
import unittest

from support import ABSENT, DATA_FILE, LARGEST_KEY, LARGEST_VALUE, StoreTest, found, get, numbered, program, put, run


class PutAndGet(StoreTest):
    def test_a_put_and_a_get(self):
        started = int(time.time())
        ended = self.pipe(b"PUT 1 1\na1\nGET 1\na\n")
        self.assert_ended(ended, 0, b"OK 1\nVALUE 1\n1\n")
        self.assertEqual(list(self.files()), [DATA_FILE])
        self.assertEqual(len(self.files()[DATA_FILE]), 24)
        self.assert_holds([(b"a", b"1")], since=started)

    def test_a_shell_pipe(self):
        line = "printf 'PUT 1 1\\na1\\nGET 1\\na\\n' | \"$0\" pipe \"$1\""
        shell = ["/bin/sh", "-c", line, program(), str(self.folder)]
        self.assert_ended(subprocess.run(shell, capture_output=True, timeout=60, check=False), 0, b"OK 1\nVALUE 1\n1\n")

    def test_no_input_makes_no_data_file(self):
        self.assert_ended(self.pipe(b""), 0)
        self.assertEqual(self.files(), {})

    def test_gets_alone_make_no_data_file(self):
        self.assert_ended(self.pipe(get(b"a") + get(b"bc")), 0, ABSENT + ABSENT)
        self.assertEqual(self.files(), {})

    def test_the_newest_value_is_read(self):
        writes = [(b"a", b"first"), (b"ab", b"other"), (b"a", b""), (b"b", b"x"), (b"a", b"last")]
        given, replies, held = b"", b"", {}
        for seq, (key, value) in enumerate(writes, 1):
            held[key] = value
            given += put(key, value) + get(b"a") + get(b"ab") + get(b"b")
            replies += numbered(seq)
            replies += b"".join(found(held[k]) if k in held else ABSENT for k in (b"a", b"ab", b"b"))
        self.assert_ended(self.pipe(given), 0, replies)
        self.assert_holds(writes)

    def test_every_byte_in_keys_and_values(self):
        every = bytes(range(256))
        writes = [(every[i:i + 1], every[i:] + every[:i]) for i in range(256)] + [(every, every), (every[::-1], every)]
        given = b"".join(put(*write) for write in writes) + b"".join(get(key) for key, _ in writes)
        replies = b"".join(numbered(seq) for seq in range(1, len(writes) + 1))
        replies += b"".join(found(value) for _, value in writes)
        self.assert_ended(self.pipe(given), 0, replies)
        self.assert_holds(writes)

    def test_the_largest_key(self):
        key = random.Random(1).randbytes(LARGEST_KEY)
        given = put(key, b"") + get(key) + get(key[:-1]) + get(key[:-1] + bytes([key[-1] ^ 1]))
        self.assert_ended(self.pipe(given), 0, numbered(1) + found(b"") + ABSENT + ABSENT)
        self.assert_holds([(key, b"")])

    def test_the_largest_value(self):
        value = random.Random(2).randbytes(LARGEST_VALUE)
        self.assert_ended(self.pipe(put(b"a", value) + get(b"a")), 0, numbered(1) + found(value))
        self.assert_holds([(b"a", value)])

    def test_the_largest_record_between_others(self):
        chance = random.Random(3)
        writes = [(b"a", b"1"), (chance.randbytes(LARGEST_KEY), chance.randbytes(LARGEST_VALUE)), (b"b", b"2")]
        given = b"".join(put(*write) for write in writes) + b"".join(get(key) for key, _ in writes)
        replies = numbered(1) + numbered(2) + numbered(3) + b"".join(found(value) for _, value in writes)
        self.assert_ended(self.pipe(given), 0, replies)
        self.assert_holds(writes)

    def test_many_requests_in_flight(self):
        chance, held, writes, given, replies = random.Random(4), {}, [], [], []
        for _ in range(20_000):
            key = b"%d" % chance.randrange(300)
            if chance.random() < 0.5:
                value = chance.randbytes(chance.randrange(80))
                held[key] = value
                writes.append((key, value))
                given.append(put(key, value))
                replies.append(numbered(len(writes)))
            else:
                given.append(get(key))
                replies.append(found(held[key]) if key in held else ABSENT)
        self.assert_ended(self.pipe(b"".join(given)), 0, b"".join(replies))
        self.assert_holds(writes)

    def test_ways_to_name_the_folder(self):
        for number, word in enumerate([".", "below", "below/", "./a/../b", "with space", "Ωμέγα", "-", "--help"]):
            with self.subTest(word=word):
                top = self.folder / str(number)
                os.makedirs(top / word, exist_ok=True)
                ended = run("pipe", word, given=put(b"a", b"1"), cwd=top)
                self.assert_ended(ended, 0, numbered(1))
                self.assertEqual((top / word / DATA_FILE).stat().st_size, 24)


if __name__ == "__main__":
    unittest.main()
