"""The commands that do one thing over a directory and end: `fill`, `list` and `check`."""

import os
import pathlib
import random
import resource
import signal
import sys
import tempfile
import time
import unittest

from directories import (
    LAST_SEQ, TOMBSTONE, hint_of, list_of, listing_of, name_of, odd_lists, opened, record_of, report_of,
)
from records import HEADER
from support import DATA_FILE, LOCK_FILE, SECONDS, Client, StoreTest, commands, get, in_memory, numbered, parsed, put, run
from test_recovery import Maker

LAST_FILE = name_of(4_294_967_294, "data")
RUNS = int(os.environ.get("REPORTS", 2_000))
WORDS = {"fill": ["7"], "list": [], "check": []}  # behind the folder


def filled(count, first=0):
    """The pairs that a `fill` puts, from one of them on."""
    return [(b"k%d" % (number % 1_000), b"%d" % number) for number in range(first, count)]


def size_of(pairs):
    """The bytes of the records of these."""
    return sum(HEADER.size + len(key) + len(value) for key, value in pairs)


class Commands(StoreTest):
    """What all of them are refused."""

    def setUp(self):
        super().setUp()
        self.commands = {command: words for command, words in WORDS.items() if command in commands()}
        if not self.commands:
            self.skipTest("the program has no command but `pipe` yet")

    def test_words(self):
        here = str(self.folder)
        for words in (
            ["fill"], ["fill", here], ["fill", here, ""], ["fill", "", "1"], ["fill", here, "01"], ["fill", here, "-1"],
            ["fill", here, "+1"], ["fill", here, "1.0"], ["fill", here, " 1"], ["fill", here, "0x1"], ["fill", here, "10000001"],
            ["fill", here, "18446744073709551616"], ["fill", here, "1", "2"], ["fill", "1", here], ["list"], ["list", ""],
            ["list", here, here], ["list", here, "1"], ["check"], ["check", ""], ["check", here, here], ["Fill", here, "1"],
            ["lis", here], ["checks", here], ["--list", here], ["merge", here], ["drill", here], ["list", here, "--help"],
        ):
            with self.subTest(words=words):
                self.assert_ended(run(*words), 2, b"", "words")
        self.assertEqual(list(self.folder.iterdir()), [])

    def test_folders(self):
        (self.folder / "file").write_bytes(b"kept")
        for command, words in self.commands.items():
            for name, reason in (("absent", "not found"), ("file", "not a directory")):
                with self.subTest(command=command, name=name):
                    ended = run(command, str(self.folder / name), *words)
                    self.assert_ended(ended, 3, b"", f"directory: {reason}")
        self.assertEqual([path.name for path in self.folder.iterdir()], ["file"])

    def test_a_folder_that_another_process_has(self):
        client = self.client()
        client.send(put(b"a", b"1"))
        self.assertEqual(client.receive(5), numbered(1))
        for command, words in self.commands.items():
            with self.subTest(command=command):
                self.assert_ended(self.command(command, *words), 3, b"", "lock")
        self.assert_ended(client.finish(), 0)

    def test_settings(self):
        for text in (b"max_file = 100", b"size = 1", b"kept"):
            for command, words in self.commands.items():
                with self.subTest(command=command, text=text):
                    files = {"bitcask.toml": text, "1.bitcask.temp": b"kept"}
                    self.make(files)
                    self.assert_ended(self.command(command, *words), 7, b"", "settings")
                    self.assertEqual(self.files(), files)

    def test_a_data_file_that_is_none(self):
        (self.folder / DATA_FILE).mkdir()
        for command, words in self.commands.items():
            with self.subTest(command=command):
                self.assert_ended(self.command(command, *words), 3, b"", "disk")

    def test_an_output_that_fails(self):
        for command, words in self.commands.items():
            self.make({DATA_FILE: record_of(5, 1, b"a", b"1")})
            with self.subTest(command=command, output="full"), open("/dev/full", "wb") as full:
                self.assert_ended(self.command(command, *words, stdout=full), 5, b"", "sink")
            with self.subTest(command=command, output="that nobody reads"):
                reading, writing = os.pipe()
                os.close(reading)
                ended = self.command(command, *words, stdout=writing)
                os.close(writing)
                self.assert_ended(ended, 5, b"", "sink")

    def test_none_reads_its_input(self):
        with open(self.folder / "input", "w+b") as given:
            given.write(b"QUIT\n")
            given.seek(0)
            for command, words in self.commands.items():
                self.assertEqual(self.command(command, *words, stdin=given).returncode, 0)
            self.assertEqual(given.tell(), 0)

    def test_a_list_and_a_check_make_no_file(self):
        for command, output in (("list", b"END 0\n"), ("check", b"CHECKED 0 0\n")):
            if command in self.commands:
                with self.subTest(command=command):
                    self.assert_ended(self.command(command), 0, output)
        self.assertEqual(self.files(), {})


class Fill(StoreTest):
    wants = ("fill",)

    def assert_filled(self, count, keys, pairs):
        line = b"FILLED %d %d %d\n" % (count, keys, size_of(pairs))
        self.assert_ended(self.command("fill", str(count)), 0, line)

    def test_a_large_store(self):
        since = int(time.time())
        self.assert_ended(self.command("fill", "100000"), 0, b"FILLED 100000 1000 3077890\n")
        self.assertEqual(list(self.files()), [DATA_FILE])
        self.assert_holds(filled(100_000), since=since)
        moments = {it.moment for it in parsed(self.files()[DATA_FILE])[0]}
        self.assertEqual(len(moments), 1, "the clock was asked more than once")
        given = b"".join(map(get, (b"k0", b"k999", b"k1000", b"k")))
        self.assert_ended(self.pipe(given), 0, b"VALUE 5\n99000\nVALUE 5\n99999\nNONE\nNONE\n")

    def test_one_after_the_other(self):
        pairs, texts = [], []
        for count, keys in ((0, 0), (1, 1), (999, 999), (1_000, 1_000), (0, 1_000), (1_001, 1_000)):
            with self.subTest(count=count):
                self.assert_filled(count, keys, filled(count))
                first = len(pairs) + 1
                pairs += filled(count)
                if count:
                    texts.append(name_of(len(texts) + 1, "data"))
                    self.assert_holds(filled(count), name=texts[-1], first=first)
                self.assertEqual(sorted(self.files()), sorted(texts))

    def test_keys_that_were_there(self):
        self.assert_ended(self.pipe(put(b"a", b"1") + put(b"k3", b"2") + b"DEL 2\nk3\n"), 0, numbered(1) + numbered(2) + numbered(3))
        self.assert_filled(2, 3, filled(2))

    def test_files_that_roll(self):
        (self.folder / "bitcask.toml").write_text("max_file = 4096\n")
        pairs = filled(3_000)
        self.assert_filled(3_000, 1_000, pairs)
        files = self.files()
        del files["bitcask.toml"]
        held, size = [], 0
        for number in range(1, len(files) + 1):
            text = files[name_of(number, "data")]
            self.assertTrue(number == 1 or size + size_of(pairs[len(held):len(held) + 1]) > 4_096, "a file wasn't full")
            records, rest = parsed(text)
            held, size = held + [(it.key, it.value) for it in records], len(text)
            self.assertTrue(size <= 4_096 and not rest)
        self.assertEqual(held, pairs)

    def test_the_last_number_of_a_write(self):
        text = record_of(5, LAST_SEQ - 3, b"a", b"1")
        self.make({DATA_FILE: text})
        self.assert_ended(self.command("fill", "2"), 0, b"FILLED 2 3 %d\n" % size_of(filled(2)))
        self.assert_ended(self.command("fill", "5"), 9, b"FULL seq\n", "full")
        records, rest = parsed(self.files()["3.bitcask.data"])
        self.assertEqual([(it.seq, it.key, it.value) for it in records], [(LAST_SEQ, b"k0", b"0")])
        self.assertEqual(rest, b"")
        self.assert_ended(self.command("fill", "1"), 9, b"FULL seq\n", "full")
        self.assert_ended(self.command("fill", "0"), 0, b"FILLED 0 3 0\n")

    def test_the_last_number_of_a_file(self):
        self.make({LAST_FILE: b""})
        self.assert_ended(self.command("fill", "1"), 9, b"FULL files\n", "full")
        self.assert_ended(self.command("fill", "0"), 0, b"FILLED 0 0 0\n")
        self.assertEqual(self.files(), {LAST_FILE: b""})

    def test_a_file_that_is_limited(self):
        def limit():
            signal.signal(signal.SIGXFSZ, signal.SIG_IGN)
            resource.setrlimit(resource.RLIMIT_FSIZE, (1_000, 1_000))
        self.assert_ended(self.command("fill", "100", preexec_fn=limit), 3, b"", "disk")
        records, rest = parsed(self.files()[DATA_FILE])
        self.assertEqual([(it.key, it.value) for it in records], filled(len(records)))
        self.assertGreater(len(records), 30)
        self.assertLess(len(rest), 30)

    def test_kills(self):
        seed = int(os.environ.get("SEED", random.randrange(1 << 32)))
        print(f"(seed {seed})", end=" ", file=sys.stderr, flush=True)
        chance, lengths = random.Random(seed), set()
        for number in range(15):
            folder = self.folder / str(number)
            folder.mkdir()
            with self.subTest(seed=seed, number=number), Client("fill", str(folder), "10000000") as client:
                time.sleep(chance.uniform(0, 0.05))
                client.process.kill()
                self.assertEqual(client.process.wait(SECONDS), -signal.SIGKILL)
                files = {path.name: path.read_bytes() for path in folder.iterdir() if path.name != LOCK_FILE}
                records, rest = parsed(files.get(DATA_FILE, b""))
                self.assertLess(len(rest), 50)
                self.assertTrue([(it.key, it.value) for it in records] == filled(len(records)), "other records")
                lengths.add(len(records))
                if "list" in commands():
                    ended = run("list", str(folder))
                    self.assertEqual((ended.returncode, ended.stdout), listing_of(opened(files)))
        self.assertGreater(len(lengths), 3)


class List(StoreTest):
    wants = ("list",)

    def assert_listed(self, pairs):
        rows = b"".join(b"PAIR %d %d\n" % (len(key), len(value)) + key + value + b"\n" for key, value in sorted(pairs.items()))
        self.assert_ended(self.command("list"), 0, rows + b"END %d\n" % len(pairs))

    def test_a_large_store(self):
        if "fill" not in commands():
            self.skipTest("the program has no `fill` yet")
        self.assertEqual(self.command("fill", "100000").returncode, 0)
        before = self.files()
        self.assert_listed(dict(filled(100_000)))
        self.assertEqual(self.files(), before)

    def test_keys_and_values_of_any_kind(self):
        keys = [b"a", b"a\0", b"aa", b"b", b"B", b"\n", b"\xff", b"\xff\xff", b"\0", b"END 1\n", b"k" * 65_535, "é".encode()]
        pairs = {key: bytes([number]) * (number * 1_000) for number, key in enumerate(keys)}
        given = b"".join(put(key, value) for key, value in pairs.items())
        self.assertEqual(self.pipe(given + put(b"gone", b"1") + b"DEL 4\ngone\n").returncode, 0)
        self.assert_listed(pairs)

    def test_values_that_expire(self):
        now = int(time.time())
        records = {b"old": now - 1_000, b"new": now, b"ahead": 4_294_967_295, b"first": 0}
        text = b"".join(record_of(moment, seq, key, b"1") for seq, (key, moment) in enumerate(records.items(), 1))
        for ttl, keys in ((0, records), (500, (b"new", b"ahead")), (4_294_967_295, records)):
            with self.subTest(ttl=ttl):
                self.make({DATA_FILE: text, "bitcask.toml": b"ttl = %d\n" % ttl})
                self.assert_listed({key: b"1" for key in keys})

    def test_a_large_value(self):
        value = random.Random(1).randbytes(16_777_216)
        self.assertEqual(self.pipe(put(b"a", value) + put(b"b", b"2")).returncode, 0)
        self.assert_listed({b"a": value, b"b": b"2"})

    def test_many_files_with_few_that_may_be_open(self):
        texts = [record_of(5, seq, b"k%d" % seq, b"%d" % seq) for seq in range(1, 101)]
        self.make({name_of(seq, "data"): text for seq, text in enumerate(texts, 1)})
        pairs = {b"k%d" % seq: b"%d" % seq for seq in range(1, 101)}
        rows = b"".join(b"PAIR %d %d\n" % (len(key), len(value)) + key + value + b"\n" for key, value in sorted(pairs.items()))
        limit = lambda: resource.setrlimit(resource.RLIMIT_NOFILE, (16, 16))  # noqa: E731
        self.assert_ended(self.command("list", preexec_fn=limit), 0, rows + b"END 100\n")

    def test_a_damaged_record(self):
        records = [record_of(5, seq, b"k%d" % seq, b"%d" % seq) for seq in range(1, 6)]
        sound = b"".join(records)
        at = 3 * len(records[0]) - 1
        damaged = sound[:at] + b"!" + sound[at + 1:]
        # The hint is Good, so the records aren't read as the directory is opened.
        self.make({DATA_FILE: damaged, name_of(1, "hint"): hint_of(sound)})
        status, output = listing_of(opened(self.files()))
        self.assertEqual((status, output.splitlines()[-1].split()[:3]), (8, [b"DAMAGED", b"1", b"%d" % (2 * len(records[0]))]))
        self.assert_ended(self.command("list"), 8, output, "damaged")


class Check(StoreTest):
    wants = ("check",)

    def assert_checked(self, files, report, left=None):
        self.make(files)
        self.assert_ended(self.command("check"), 0, report)
        self.assertEqual(self.files(), files if left is None else left)

    def test_clean_and_torn_files(self):
        one, two, three = record_of(5, 1, b"a", b"1"), record_of(5, 2, b"b", b"22"), record_of(5, 3, b"a", None)
        torn = bytes([two[0] ^ 1]) + two[1:]
        self.assert_checked({DATA_FILE: one}, b"FILE 1 24 24 24\nCHECKED 1 0\n")
        self.assert_checked({DATA_FILE: one + two + three}, b"FILE 1 72 72 25\nCHECKED 1 0\n")
        self.assert_checked({DATA_FILE: one + torn + three}, b"FILE 1 72 24 24\nTORN 1 24 48\nCHECKED 1 1\n")
        self.assert_checked({DATA_FILE: one, "3.bitcask.data": two[:-1], "10.bitcask.data": b""},
                            b"FILE 1 24 24 24\nFILE 3 24 0 0\nTORN 3 0 24\nFILE 10 0 0 0\nCHECKED 3 1\n")

    def test_hints(self):
        one, two = record_of(5, 1, b"a", b"1"), record_of(5, 2, b"b", b"22")
        good, half = hint_of(one + two), hint_of(one + two, len(one))
        checksum = good[-4:].hex().encode()
        changed = good[:30] + b"z" + good[31:]
        computed = hint_of(one + two)[-4:]
        long = hint_of(one + two)[:-20] + (99).to_bytes(8, "big") + good[-12:]
        for hint, line in (
            (good, b"GOOD"), (half, b"GOOD"), (good[:-1], b"NOTWHOLE"), (b"", b"NOTWHOLE"), (good + b"\0", b"NOTWHOLE"),
            (long, b"LENGTH 99 %d" % len(one + two)),
        ):
            with self.subTest(hint=line):
                self.assert_checked({DATA_FILE: one + two, "1.bitcask.hint": hint},
                                    b"FILE 1 49 49 49\nHINT 1 %s\nCHECKED 1 0\n" % line)
        self.make({DATA_FILE: one + two, "1.bitcask.hint": changed})
        line = self.command("check").stdout.splitlines()[1]
        self.assertRegex(line, rb"\AHINT 1 BADCHECK %s [0-9a-f]{8}\Z" % checksum)
        self.assertNotEqual(line.split()[-1], computed.hex().encode())

    def test_lists_that_are_odd(self):
        one = record_of(5, 1, b"a", b"1")
        files = {DATA_FILE: one, "7.bitcask.swap": b"no list", "2.bitcask.swap": list_of([1], [3])[:-1], "3.bitcask.temp": one}
        self.assert_checked(files, b"FILE 1 24 24 24\nODD 2.bitcask.swap\nODD 7.bitcask.swap\nCHECKED 1 0\n")

    def test_a_merge_that_was_committed(self):
        one, two = record_of(5, 1, b"a", b"1"), record_of(5, 2, b"a", b"2")
        self.assert_checked({DATA_FILE: one, "2.bitcask.data": two, "3.bitcask.temp": two, "3.bitcask.swap": list_of([1, 2], [3])},
                            b"FILE 3 24 24 24\nCHECKED 1 0\n", left={"3.bitcask.data": two})

    def test_a_tombstone_is_no_live_byte(self):
        text = record_of(5, 1, b"a", b"1") + record_of(5, 2, b"a", None)
        self.assertEqual(int.from_bytes(text[34:38], "big"), TOMBSTONE)
        self.assert_checked({DATA_FILE: text}, b"FILE 1 47 47 0\nCHECKED 1 0\n")


class Directories(StoreTest):
    """The report and the listing of random directories are those of the reader of the formats."""

    wants = ("check",)

    def setUp(self):
        super().setUp()
        folder = tempfile.TemporaryDirectory(dir=in_memory())
        self.addCleanup(folder.cleanup)
        self.folder = pathlib.Path(folder.name)

    def test_random_directories(self):
        seed = int(os.environ.get("SEED", random.randrange(1 << 32)))
        print(f"(seed {seed}, {RUNS} directories)", end=" ", file=sys.stderr, flush=True)
        maker = Maker(random.Random(seed))
        for number in range(RUNS):
            files = dict(maker.directory())
            with self.subTest(seed=seed, number=number, files={name: text.hex() for name, text in files.items()}):
                it, odd = opened(files), odd_lists(files)
                self.make(files)
                self.assert_ended(self.command("check"), 0, report_of(it, odd))
                self.assertEqual(self.files(), it.files)
                if "list" in commands():
                    status, output = listing_of(it)
                    self.assert_ended(self.command("list"), status, output, "damaged" if status else None)
                    self.assertEqual(self.files(), it.files)


if __name__ == "__main__":
    unittest.main()
