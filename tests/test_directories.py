"""What DIR, its lock file and its data files may be, and what a run does that may open only few of them."""

import errno
import fcntl
import os
import resource
import shutil
import signal
import socket
import subprocess
import time
import unittest

from support import (
    DATA_FILE, LARGEST_VALUE, LOCK_FILE, StoreTest, found, get, numbered, program, put, record, run,
)

AT_ONCE = 10  # seconds that a refusal may take
NOBODY = 65_534


def make_folder(path):
    path.mkdir()


def make_socket(path):
    with socket.socket(socket.AF_UNIX) as it:
        it.bind(str(path))


def make_device(path):
    path.symlink_to("/dev/null")


# What is no regular file.
OTHER_KINDS = {"fifo": os.mkfifo, "folder": make_folder, "socket": make_socket, "device": make_device}


class Kinds(StoreTest):
    def refused(self, folder, word):
        ended = run("pipe", str(folder), given=put(b"a", b"1"), timeout=AT_ONCE)
        self.assert_ended(ended, 3, b"", word)

    def test_what_is_no_folder(self):
        for kind in ("fifo", "socket", "device"):
            with self.subTest(kind=kind):
                OTHER_KINDS[kind](self.folder / kind)
                self.refused(self.folder / kind, "directory: not a directory")
                self.refused(self.folder / kind / "below", "directory: not a directory")

    def test_a_link_to_a_folder(self):
        (self.folder / "real").mkdir()
        for link, to in (("link", "real"), ("link to a link", "link")):
            (self.folder / link).symlink_to(to)
        ended = run("pipe", str(self.folder / "link to a link"), given=put(b"a", b"1"))
        self.assert_ended(ended, 0, numbered(1))
        self.assertEqual((self.folder / "real" / DATA_FILE).stat().st_size, 24)

    def test_a_folder_that_is_not_there(self):
        (self.folder / "link").symlink_to("absent")
        self.refused(self.folder / "link", "directory: not found")
        self.refused(self.folder / ("n" * 300), f"directory: system error {errno.ENAMETOOLONG}")
        self.assertEqual([path.name for path in self.folder.iterdir()], ["link"])

    def test_a_lock_file_of_another_kind(self):
        for kind, make in OTHER_KINDS.items():
            with self.subTest(kind=kind):
                folder = self.folder / kind
                folder.mkdir()
                make(folder / LOCK_FILE)
                self.refused(folder, "directory: the lock file is not a regular file")
                self.assertEqual([path.name for path in folder.iterdir()], [LOCK_FILE])

    def test_a_data_file_of_another_kind(self):
        for name in (DATA_FILE, "4294967294.bitcask.hint", "bitcask.toml"):
            for kind, make in OTHER_KINDS.items():
                with self.subTest(name=name, kind=kind):
                    folder = self.folder / f"{kind} {name}"
                    folder.mkdir()
                    make(folder / name)
                    self.refused(folder, "disk")
                    self.assertEqual({path.name for path in folder.iterdir()}, {name, LOCK_FILE})


class Lock(StoreTest):
    def test_a_lock_that_another_process_has(self):
        with open(self.folder / LOCK_FILE, "wb") as lock:
            for way in (fcntl.LOCK_EX, fcntl.LOCK_SH):
                fcntl.flock(lock, way)
                self.assert_ended(self.pipe(put(b"a", b"1")), 3, b"", "lock")
            self.assertEqual(self.files(), {})
        self.assert_ended(self.pipe(put(b"a", b"1")), 0, numbered(1))


class Permissions(StoreTest):
    """The program runs as a user that permissions hold for, in a folder of this user's."""

    def setUp(self):
        super().setUp()
        self.user = {}
        if os.geteuid() == 0:
            self.user = {"user": NOBODY, "group": NOBODY, "extra_groups": []}
            os.chown(self.folder, NOBODY, NOBODY)
        # The built program may stand where that user can't go.
        self.program = shutil.copy(program(), self.folder)
        try:
            status = subprocess.run([self.program, "--version"], check=False, capture_output=True, **self.user).returncode
        except OSError as error:
            status = error
        if status != 0:
            self.skipTest(f"the program can't be run as another user: {status}")

    def opened(self, folder, status, output=b"", word=None):
        ended = subprocess.run([self.program, "pipe", str(folder)], input=put(b"a", b"1"), timeout=AT_ONCE,
                               capture_output=True, check=False, **self.user)
        self.assert_ended(ended, status, output, word)

    def made(self, name, lock=None):
        """A folder of the user's, with a lock file of this mode."""
        folder = self.folder / name
        folder.mkdir()
        if lock is not None:
            (folder / LOCK_FILE).touch()
            os.chmod(folder / LOCK_FILE, lock)
        for path in (folder, *folder.iterdir()):
            if self.user:
                os.chown(path, NOBODY, NOBODY)
        self.addCleanup(os.chmod, folder, 0o700)
        return folder

    def test_a_folder_that_may_not_be_read_or_written(self):
        for mode in (0o000, 0o100, 0o200, 0o300, 0o400, 0o500, 0o600):
            with self.subTest(mode=oct(mode)):
                folder = self.made(oct(mode))
                folder.chmod(mode)
                self.opened(folder, 3, b"", "directory: permission denied")
                folder.chmod(0o700)
                self.assertEqual(list(folder.iterdir()), [])
                self.opened(folder, 0, numbered(1))

    def test_a_folder_behind_one_that_may_not_be_searched(self):
        folder = self.made("outer")
        folder.chmod(0o600)
        self.opened(folder / "inner", 3, b"", "directory: permission denied")

    def test_a_lock_file_that_may_not_be_opened(self):
        for mode in (0o000, 0o200, 0o400):
            with self.subTest(mode=oct(mode)):
                self.opened(self.made(oct(mode), lock=mode), 3, b"", "directory: permission denied")

    def test_a_folder_that_may_not_be_written_and_has_a_lock_file(self):
        folder = self.made("read-only", lock=0o600)
        folder.chmod(0o500)
        self.opened(folder, 0, b"DISK\n")
        self.assertEqual([path.name for path in folder.iterdir()], [LOCK_FILE])

    def test_a_file_system_that_may_not_be_written(self):
        tool, there = shutil.which("mount"), self.made("mounted")
        if not tool or subprocess.run([tool, "-t", "tmpfs", "-o", "ro", "tmpfs", str(there)],
                                      capture_output=True, check=False).returncode:
            self.skipTest("a read-only file system can't be mounted here: it needs mount, and the right to call it")
        try:
            ended = run("pipe", str(there), given=put(b"a", b"1"), timeout=AT_ONCE)
        finally:
            subprocess.run(["umount", str(there)], check=True)
        self.assert_ended(ended, 3, b"", "directory: read-only file system")


def limited(kind, most):
    """Limits what the program may take."""
    return lambda: resource.setrlimit(kind, (most, most))


class Limits(StoreTest):
    def test_few_open_files(self):
        # Besides the three streams a run needs the folder, the lock, and one more.
        for most, word in ((4, "directory: too many open files"), (5, "disk")):
            with self.subTest(most=most):
                ended = self.pipe(put(b"a", b"1"), preexec_fn=limited(resource.RLIMIT_NOFILE, most))
                self.assert_ended(ended, 3, b"", word)
        # Three files, each of which is read again after the others.
        values = {b"%d" % number: bytes([number]) * LARGEST_VALUE for number in range(1, 8)}
        order = [b"1", b"7", b"4", b"1", b"6", b"2", b"7"]
        given = b"".join(put(*write) for write in values.items()) + b"".join(get(key) for key in order)
        replies = b"".join(map(numbered, range(1, 8))) + b"".join(found(values[key]) for key in order)
        for most in (6, 7, 16):
            with self.subTest(most=most):
                ended = self.pipe(given, preexec_fn=limited(resource.RLIMIT_NOFILE, most))
                self.assert_ended(ended, 0, replies)
                self.assertEqual(sorted(self.files()), [f"{number}.bitcask.data" for number in (1, 2, 3)])
                for name in self.files():
                    (self.folder / name).unlink()

    def test_an_append_that_stops_in_its_middle(self):
        def ignored():
            signal.signal(signal.SIGXFSZ, signal.SIG_IGN)
            resource.setrlimit(resource.RLIMIT_FSIZE, (44, 44))
        since = int(time.time())
        ended = self.pipe(put(b"a", b"1") + put(b"b", b"2") + get(b"a"), preexec_fn=ignored)
        self.assert_ended(ended, 0, numbered(1) + b"DISK\n" + found(b"1"))
        # The sync at the end has cut off what the append left.
        text = self.files()[DATA_FILE]
        moment = int.from_bytes(text[4:8], "big")
        self.assertTrue(since <= moment <= time.time())
        self.assertEqual(text, record(moment, 1, b"a", b"1"))

    def test_a_size_limit_ends_the_program_by_its_signal(self):
        ended = self.pipe(put(b"a", b"1") + put(b"b", b"2"), preexec_fn=limited(resource.RLIMIT_FSIZE, 24))
        self.assertEqual((ended.returncode, ended.stderr), (-signal.SIGXFSZ, b""))
        self.assertEqual(len(self.files()[DATA_FILE]), 24)


if __name__ == "__main__":
    unittest.main()
