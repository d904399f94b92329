"""SIGKILL at random moments while puts stream in: what was acknowledged is in the files, nothing else is, and the next
opening answers so."""

import pathlib
import random
import signal
import sys
import tempfile
import threading
import time
import unittest

from directories import ended_by_gets, opened
from support import LOCK_FILE, MOST_IN_FILE, SECONDS, Client, StoreTest, fault_of_folder, get, numbered, put, run

LONGEST_PAUSE = 0.005  # seconds
SOME_KEYS = 20  # that are asked for after a kill


class Kills(StoreTest):
    def kills(self, seed, count, longest, times):
        """Streams so many puts with values up to a length, and kills the run, again and again. Gives the counts of
        acknowledged puts, and those of data files."""
        print(f"(seed {seed}, {times} kills)", end=" ", file=sys.stderr, flush=True)
        chance, acknowledged, files = random.Random(seed), set(), set()
        writes = [(b"%d" % chance.randrange(1_000), chance.randbytes(chance.randrange(longest))) for _ in range(count)]
        given = b"".join(put(*write) for write in writes)
        for kill in range(times):
            mark, pause = chance.randrange(len(given)), chance.uniform(0, LONGEST_PAUSE)
            with self.subTest(seed=seed, kill=kill, mark=mark, pause=pause), tempfile.TemporaryDirectory() as top:
                folder, since = pathlib.Path(top) / "store", time.time()
                folder.mkdir()
                replies = self.killed(folder, given, mark, pause)
                heard = replies.count(b"\n")
                self.assertTrue(b"".join(map(numbered, range(1, heard + 2))).startswith(replies), "other replies")
                self.assertIsNone(fault_of_folder(folder, writes, heard, since))
                self.check_opening(folder, sorted({key for key, _ in writes[:SOME_KEYS]}))
                acknowledged.add(heard)
                files.add(len(list(folder.glob("*.bitcask.data"))))
        return acknowledged, files

    def check_opening(self, folder, keys):
        """The next run answers for these keys what the files hold."""
        it = opened({path.name: path.read_bytes() for path in folder.iterdir() if path.name != LOCK_FILE})
        ended = run("pipe", str(folder), given=b"".join(map(get, keys)))
        self.assertTrue((ended.returncode, ended.stdout) == ended_by_gets(it, keys), "other replies")

    def killed(self, folder, given, mark, pause):
        """Runs `pipe`, and kills it so many seconds after it was sent as many bytes as the mark says, while more are
        sent. Gives the replies."""
        marked = threading.Event()
        with open(folder.parent / "replies", "w+b") as output, Client("pipe", str(folder), stdout=output) as client:
            sender = threading.Thread(target=send, args=(client, given, mark, marked))
            sender.start()
            self.assertTrue(marked.wait(SECONDS))
            time.sleep(pause)
            client.process.kill()
            self.assertEqual(client.process.wait(SECONDS), -signal.SIGKILL)
            sender.join(SECONDS)
            output.seek(0)
            return output.read()

    def test_small_puts(self):
        acknowledged, _ = self.kills(8, 20_000, 1_000, 70)
        self.assertGreater(len(acknowledged), 20)

    def test_large_puts_that_fill_files(self):
        _, files = self.kills(9, 48, MOST_IN_FILE // 16, 30)
        self.assertLessEqual({1, 2}, files)


def send(client, given, mark, marked):
    """Sends the puts until nobody reads, and tells when the mark is reached."""
    client.send(memoryview(given)[:mark])
    marked.set()
    client.send(memoryview(given)[mark:])


if __name__ == "__main__":
    unittest.main()
