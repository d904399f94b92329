"""How far a fill or an opening has come, which a terminal on standard error shows."""

import os
import pty
import tempfile
import unittest

from directories import LAST_SEQ, name_of, record_of
from support import DATA_FILE, StoreTest
from test_commands import filled, size_of
from traced import built, environment, library

FILLED = b"FILLED 3000 1000 %d\n" % size_of(filled(3_000))
BLANK = b"\r" + 48 * b" " + b"\r"


def opened(done, of):
    return b"\rbitcaskd: opened %d of %d files" % (done, of)


def puts(done, of):
    return b"\rbitcaskd: put %d of %d pairs" % (done, of)


class Progress(StoreTest):
    def setUp(self):
        super().setUp()
        logs = tempfile.TemporaryDirectory()
        self.addCleanup(logs.cleanup)
        self.log = os.path.join(logs.name, "log")

    def shown(self, command, *words, step=1, outputs=("stderr",), faults=""):
        """Runs a command with these of its outputs on a terminal, with a clock that goes on by `step` seconds each time that
        it is asked. Gives how it ended, and what the terminal was sent."""
        main, side = pty.openpty()
        env = environment(f"{built('clock.c')}:{library()}", os.path.realpath(self.folder), self.log, faults)
        env["CLOCK_STEP"] = str(step)
        ended = self.command(command, *words, env=env, **dict.fromkeys(outputs, side))
        os.close(side)
        sent = b""
        try:
            while piece := os.read(main, 4_096):
                sent += piece
        except OSError:  # Linux says so where nobody has the other side
            pass
        os.close(main)
        return ended, sent

    def test_a_fill(self):
        ended, sent = self.shown("fill", "3000")
        self.assertEqual((ended.returncode, ended.stdout), (0, FILLED))
        self.assertEqual(sent, b"".join(puts(done, 3_000) for done in (0, 1_024, 2_048)) + BLANK)

    def test_an_opening(self):
        self.make({name_of(file, "data"): record_of(5, file, b"%d" % file, b"v") for file in (1, 2, 5)})
        lines = b"".join(opened(done, 3) for done in (1, 2, 3)) + BLANK
        for command in ("pipe", "list", "check"):
            with self.subTest(command=command):
                ended, sent = self.shown(command)
                self.assertEqual((ended.returncode, sent), (0, lines))

    def test_it_goes_before_anything_is_printed(self):
        for files, count, lines, status in (
            ({}, 2, puts(0, 2) + BLANK + b"FILLED 2 2 50\r\n", 0),
            ({DATA_FILE: record_of(5, LAST_SEQ, b"a", b"1")}, 1,
             opened(1, 1) + BLANK + puts(0, 1) + BLANK + b"FULL seq\r\nbitcaskd: full\r\n", 9),
        ):
            with self.subTest(status=status):
                self.make(files)
                ended, sent = self.shown("fill", str(count), outputs=("stdout", "stderr"))
                self.assertEqual((ended.returncode, sent), (status, lines))

    def test_it_goes_where_the_opening_fails(self):
        self.make({name_of(file, "data"): record_of(5, file, b"a", b"v") for file in (1, 2)})
        ended, sent = self.shown("list", faults="pread:2:EIO")
        self.assertEqual((ended.returncode, sent), (3, opened(1, 2) + BLANK + b"bitcaskd: disk\r\n"))

    def test_none_of_a_work_that_takes_no_time(self):
        ended, sent = self.shown("fill", "3000", step=0)
        self.assertEqual((ended.returncode, sent), (0, b""))

    def test_none_without_a_terminal(self):
        ended, sent = self.shown("fill", "3000", outputs=())
        self.assert_ended(ended, 0, FILLED)
        self.assertEqual(sent, b"")


if __name__ == "__main__":
    unittest.main()
