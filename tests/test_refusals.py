"""Each refusal has its status and its word on standard error, and leaves what was there."""

import os
import pathlib
import resource
import shutil
import signal
import subprocess
import unittest
import zlib

from directories import LAST_SEQ
from model import replies_of
from support import (
    DATA_FILE, LARGEST_VALUE, LOCK_FILE, SECONDS, Client, StoreTest, found, get, numbered, put, record, run,
)

# What begins no request, as soon as its last byte is there.
NO_REQUEST = [
    b"M", b"DU", b"DEL\n", b"DEL 0", b"DEL 1\nab", b"get 1\na\n", b"\n", b" GET 1\na\n", b"GE\n", b"GETS", b"GET\n", b"GET  1", b"GET \n",
    b"GET 0", b"GET 01", b"GET -1", b"GET +1", b"GET a", b"GET 1 ", b"GET 65536", b"GET 655350", b"GET 1\r\n",
    b"GET 1\nab", b"PUX", b"PUT\n", b"PUT 1\n", b"PUT 0", b"PUT 65536", b"PUT 1 \n", b"PUT 1  1", b"PUT 1 01",
    b"PUT 1 00", b"PUT 1 1 ", b"PUT 1 16777217", b"PUT 1 167772160", b"PUT 1 1\nabc", b"PUT 1 0\nab", b"FOLD ",
    b"FOLDS", b"KEYS 1", b"SYNC\r", b"STATUS", b"MERGE\n", b"QUIT ", b"\x00", b"\xff",
]


class Words(StoreTest):
    def test_words_that_are_no_command(self):
        here = str(self.folder)
        for words in (
            [], ["frob", here], ["pipe"], ["pipe", here, here], ["pipe", ""], [""], ["Pipe", here], ["pipe ", here],
            [here], [here, "pipe"], ["merge", here], ["drill", ""], ["drill", here], ["check", ""], ["check", here, here], ["list"], ["list", here, here],
            ["fill", here], ["fill", here, ""], ["fill", here, "01"], ["fill", here, "+1"], ["fill", here, "-1"], ["fill", here, "1 "],
            ["fill", here, "10000001"], ["fill", here, "4294967297"], ["fill", "", "1"], ["fill", here, "1", "1"], ["fill", "1", here],
            ["--help", here], ["--version", "--help"], ["-h"], ["help"], ["pipe", "--help", here],
        ):
            with self.subTest(words=words):
                self.assert_ended(run(*words, given=put(b"a", b"1")), 2, b"", "words")
        self.assertEqual(list(self.folder.iterdir()), [])

    def test_words_that_are_not_utf_8(self):
        for words in ([b"pipe", os.fsencode(self.folder) + b"/\xff"], [b"\xc3", os.fsencode(self.folder)], [b"--help", b"\x80"]):
            with self.subTest(words=words):
                self.assert_ended(run(*words), 2, b"", "words")
        self.assertEqual(list(self.folder.iterdir()), [])


class Folders(StoreTest):
    def test_a_folder_whose_files_hold_no_record(self):
        # What has no use goes; a data file that holds no record stays, and a later one takes the next put.
        kept = {"data"}
        for number in (1, 7, 4294967293):
            for ending in ("data", "temp", "hint", "htmp", "stmp"):
                name = f"{number}.bitcask.{ending}"
                with self.subTest(name=name):
                    folder = self.folder / name
                    folder.mkdir()
                    (folder / name).write_bytes(b"kept")
                    ended = run("pipe", str(folder), given=put(b"a", b"1") + get(b"a"))
                    self.assert_ended(ended, 0, numbered(1) + found(b"1"))
                    left = {name} if ending in kept else set()
                    self.assertEqual({path.name for path in folder.iterdir()} - {LOCK_FILE},
                                     left | {f"{number + 1}.bitcask.data"})

    def test_a_folder_whose_last_file_number_is_given_out(self):
        name = "4294967294.bitcask.data"
        (self.folder / name).write_bytes(b"")
        self.assert_ended(self.pipe(get(b"a") + put(b"a", b"1") + get(b"a")), 0, b"NONE\nFULL files\nNONE\n")
        self.assertEqual(self.files(), {name: b""})

    def test_settings(self):
        file = self.folder / "bitcask.toml"
        for text in (b"max_file = 100", b"size = 1", b"kept", b"ttl = 'a'", b"\xff", b" " * 65_537):
            with self.subTest(text=text[:20]):
                file.write_bytes(text)
                self.assert_ended(self.pipe(put(b"a", b"1")), 7, b"", "settings")
                self.assertEqual(self.files(), {"bitcask.toml": text})
        file.write_bytes(b"max_file = 4096\n")
        value = bytes(2_025)
        self.assert_ended(self.pipe(put(b"a", value) + put(b"b", value) + put(b"c", value)), 0,
                          numbered(1) + numbered(2) + numbered(3))
        sizes = {path.name: path.stat().st_size for path in self.folder.iterdir() if path.name.endswith(".data")}
        self.assertEqual(sizes, {"1.bitcask.data": 4096, "2.bitcask.data": 2048})

    def test_a_folder_that_has_other_files(self):
        names = [
            "0.bitcask.data", "01.bitcask.data", "4294967295.bitcask.data", "99999999999999999999.bitcask.data",
            "1.bitcask.data.old", "x1.bitcask.data", "+1.bitcask.data", "-1.bitcask.data", " 1.bitcask.data",
            "1.bitcask.Data", "1.BITCASK.data", "1.bitcask.lock", "1.bitcask.", "1.bitcask", "1", ".bitcask.data",
            "bitcask.tom", "bitcask.toml~", "Bitcask.toml", "readme.txt", "١.bitcask.data", ".hidden",
        ]
        others = {os.fsencode(name): b"kept " + os.fsencode(name) for name in names}
        others[b"\xff.bitcask.data"] = b"a name that is not UTF-8"
        for name, text in others.items():
            with open(os.path.join(os.fsencode(self.folder), name), "wb") as it:
                it.write(text)
        (self.folder / "a folder").mkdir()
        self.assert_ended(self.pipe(put(b"a", b"1") + get(b"a")), 0, numbered(1) + found(b"1"))
        self.assert_holds([(b"a", b"1")])
        for name, text in others.items():
            with open(os.path.join(os.fsencode(self.folder), name), "rb") as it:
                self.assertEqual(it.read(), text)

    def test_a_second_run_over_what_the_first_left(self):
        self.assert_ended(self.pipe(put(b"a", b"1")), 0, numbered(1))
        before = self.files()
        self.assert_ended(self.pipe(get(b"a")), 0, found(b"1"))
        self.assertEqual(self.files(), before)
        self.assert_ended(self.pipe(put(b"a", b"2") + get(b"a")), 0, numbered(2) + found(b"2"))
        self.assertEqual(self.files()[DATA_FILE], before[DATA_FILE])

    def test_a_folder_that_is_not_there(self):
        for word in ("absent", "absent/below", "a\nb"):
            with self.subTest(word=word):
                ended = run("pipe", str(self.folder / word), given=put(b"a", b"1"))
                self.assert_ended(ended, 3, b"", "directory: not found")
        self.assertEqual(list(self.folder.iterdir()), [])

    def test_a_file_in_the_place_of_the_folder(self):
        file = self.folder / "file"
        file.write_bytes(b"kept")
        self.assert_ended(run("pipe", str(file), given=put(b"a", b"1")), 3, b"", "directory: not a directory")
        self.assertEqual(self.files(), {"file": b"kept"})

    def test_a_second_process(self):
        first = self.client()
        first.send(put(b"a", b"1"))
        self.assertEqual(first.receive(5), numbered(1))
        for given in (put(b"a", b"2"), b""):
            self.assert_ended(self.pipe(given), 3, b"", "lock")
        first.send(get(b"a"))
        self.assertEqual(first.receive(10), found(b"1"))
        self.assert_ended(first.finish(put(b"a", b"3")), 0, numbered(2))
        self.assert_holds([(b"a", b"1"), (b"a", b"3")])

    def test_the_lock_ends_with_its_process(self):
        first = self.client()
        first.send(get(b"a"))
        self.assertEqual(first.receive(5), b"NONE\n")
        first.process.kill()
        first.process.wait(SECONDS)
        self.assert_ended(self.pipe(get(b"a")), 0, b"NONE\n")
        self.assert_ended(self.pipe(put(b"a", b"1")), 0, numbered(1))


class Requests(StoreTest):
    def refused(self, number, given, replies):
        folder = self.folder / str(number)
        folder.mkdir()
        # The input stays open: the run ends as soon as no request can begin so.
        with Client("pipe", str(folder)) as client:
            client.send(given)
            self.assert_ended(client.ended(), 6, replies, "syntax")
        return {path.name: path.stat().st_size for path in folder.iterdir() if path.name != LOCK_FILE}

    def test_what_is_no_request(self):
        for number, given in enumerate(NO_REQUEST):
            with self.subTest(given=given):
                self.assertEqual(self.refused(number, given, b"SYNTAX 0\n"), {})

    def test_what_is_no_request_after_others(self):
        before, replies = put(b"a", b"1") + get(b"a"), numbered(1) + found(b"1")
        for number, given in enumerate(NO_REQUEST):
            with self.subTest(given=given):
                self.assertEqual(self.refused(number, before + given, replies + b"SYNTAX %d\n" % len(before)), {DATA_FILE: 24})


class Lines(StoreTest):
    """Refusals of requests that a directory brings; the session goes on behind each."""

    def test_the_last_number_of_a_write(self):
        (self.folder / DATA_FILE).write_bytes(record(5, LAST_SEQ, b"a", b"1"))
        before = self.files()
        given = get(b"a") + put(b"a", b"2") + b"DEL 1\na\nDEL 1\nb\nSYNC\nKEYS\n" + get(b"a")
        replies = found(b"1") + b"FULL seq\nFULL seq\nNONE\nSYNCED %d\nKEY 1\na\nEND 1\n" % LAST_SEQ + found(b"1")
        self.assert_ended(self.pipe(given), 0, replies)
        self.assertEqual(self.files(), before)

    def test_the_last_numbers(self):
        # One more write has a number, and one more file; the next write has neither.
        (self.folder / "4294967293.bitcask.data").write_bytes(record(5, LAST_SEQ - 1, b"a", b"1"))
        self.assert_ended(self.pipe(put(b"a", b"2") + put(b"a", b"3") + get(b"a")), 0,
                          numbered(LAST_SEQ) + b"FULL seq\n" + found(b"2"))
        self.assertEqual(sorted(self.files()), ["4294967293.bitcask.data", "4294967294.bitcask.data"])

    def test_a_file_that_is_due_behind_the_last_one(self):
        (self.folder / "bitcask.toml").write_text("max_file = 4096\n")
        (self.folder / "4294967293.bitcask.data").write_bytes(b"")
        value = bytes(4_000)
        given = put(b"a", value) + put(b"b", value) + b"DEL 1\na\nDEL 1\na\n" + get(b"b") + put(b"c", b"3") + put(b"d", bytes(60))
        replies = numbered(1) + b"FULL files\n" + numbered(2) + b"NONE\nNONE\n" + numbered(3) + b"FULL files\n"
        self.assert_ended(self.pipe(given), 0, replies)
        self.assertEqual(len(self.files()["4294967294.bitcask.data"]), 4_023 + 23 + 24)

    def test_little_memory(self):
        self.assert_ended(self.pipe(put(b"a", bytes(LARGEST_VALUE)) + put(b"b", b"1")), 0, numbered(1) + numbered(2))
        # So the C library keeps nothing of what the opening took.
        client = self.client(env={**os.environ, "MALLOC_MMAP_THRESHOLD_": "1048576"})
        client.send(get(b"b"))
        self.assertEqual(client.receive(10), found(b"1"))
        least = int(pathlib.Path(f"/proc/{client.process.pid}/statm").read_text().split()[0]) * resource.getpagesize()
        resource.prlimit(client.process.pid, resource.RLIMIT_AS, (least + LARGEST_VALUE // 2,) * 2)
        ended = client.finish(get(b"a") + b"FOLD\n" + get(b"b") + b"KEYS\n" + put(b"b", b"2") + get(b"b") + get(b"a"))
        self.assertEqual([it for it in replies_of(ended.stdout) if it != b"PAIR 1 1\nb1\n"], [
            b"MEMORY\n", b"MEMORY\n", found(b"1"), b"KEY 1\na\n", b"KEY 1\nb\n", b"END 2\n", numbered(3), found(b"2"), b"MEMORY\n"])
        self.assertEqual((ended.returncode, ended.stderr), (0, b""))

    def changed(self, change):
        """A session that puts two values, and whose data file then changes from outside. Gives it, and the record that was
        changed, as it was."""
        client = self.client()
        client.send(put(b"a", b"1") + put(b"b", b"2"))
        self.assertEqual(client.receive(10), numbered(1) + numbered(2))
        text = self.files()[DATA_FILE]
        with open(self.folder / DATA_FILE, "r+b") as file:
            change(file)
        return client, text[24:]

    def test_a_record_that_is_changed(self):
        def change(file):
            file.seek(47)
            file.write(b"!")
        client, was = self.changed(change)
        now = was[:-1] + b"!"
        line = b"DAMAGED 1 24 %08x %08x\n" % (zlib.crc32(was[4:]), zlib.crc32(now[4:]))
        self.assert_refused(client, line)

    def test_a_record_that_is_cut_off(self):
        client, _ = self.changed(lambda file: file.truncate(30))
        self.assert_refused(client, b"READ\n")

    def assert_refused(self, client, line):
        """The record of b is refused by this line, in a listing too; the other one may stand before it there."""
        ended = client.finish(get(b"b") + b"FOLD\n" + get(b"a") + b"KEYS\n")
        replies = replies_of(ended.stdout)
        self.assertEqual([it for it in replies if it != b"PAIR 1 1\na1\n"],
                         [line, line, found(b"1"), b"KEY 1\na\n", b"KEY 1\nb\n", b"END 2\n"])
        self.assertEqual((ended.returncode, ended.stderr), (0, b""))


def limited(kind, most):
    """Limits what the program may take, without the signal that would end it."""
    def limit():
        signal.signal(signal.SIGXFSZ, signal.SIG_IGN)
        resource.setrlimit(kind, (most, most))
    return limit


class Faults(StoreTest):
    def test_an_append_that_fails(self):
        # The second record has room for its first 6 bytes alone.
        client = self.client(preexec_fn=limited(resource.RLIMIT_FSIZE, 30))
        client.send(put(b"a", b"1"))
        self.assertEqual(client.receive(5), numbered(1))
        ended = client.finish(put(b"b", b"2") + get(b"a") + put(b"b", b"") + get(b"b"))
        self.assert_ended(ended, 0, b"DISK\n" + found(b"1") + b"DISK\nNONE\n")
        # What was put stays, and the sync at the end has cut off what the append left.
        text = self.files()[DATA_FILE]
        self.assertEqual(text, record(int.from_bytes(text[4:8], "big"), 1, b"a", b"1"))

    def test_a_full_disk(self):
        self.mount_small()
        writes = [(b"%02d" % number, bytes([number]) * 10_000) for number in range(40)]
        ended = self.pipe(b"".join(put(*write) for write in writes))
        served = (ended.stdout or b"").count(b"OK")
        replies = b"".join(numbered(seq) for seq in range(1, served + 1)) + b"DISK\n" * (len(writes) - served)
        self.assert_ended(ended, 0, replies)
        self.assertTrue(20 <= served <= 26, f"{served} records in 256 KiB")
        self.assert_holds(writes[:served])

    def mount_small(self):
        """Makes the test's folder a file system of 256 KiB, or skips the test where that can't be done."""
        tool = shutil.which("mount")
        small = ["-t", "tmpfs", "-o", "size=256k", "tmpfs", str(self.folder)]
        if not tool or subprocess.run([tool, *small], capture_output=True, check=False).returncode:
            self.skipTest("a small file system can't be mounted here: it needs mount, and the right to call it")
        self.addCleanup(subprocess.run, ["umount", str(self.folder)], check=True)

    def test_a_data_file_that_was_cut_from_outside(self):
        client = self.client()
        client.send(put(b"a", b"1"))
        self.assertEqual(client.receive(5), numbered(1))
        os.truncate(self.folder / DATA_FILE, 23)
        self.assert_ended(client.finish(get(b"a") + put(b"b", b"2")), 0, b"READ\n" + numbered(2))

    def test_want_of_memory(self):
        client = self.client(preexec_fn=limited(resource.RLIMIT_AS, LARGEST_VALUE))
        client.send(put(b"a", b"1"))
        self.assertEqual(client.receive(5), numbered(1))
        self.assert_ended(client.finish(put(b"b", bytes(LARGEST_VALUE)) + get(b"a")), 1, b"", "memory")
        self.assert_holds([(b"a", b"1")])


if __name__ == "__main__":
    unittest.main()
