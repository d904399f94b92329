"""What the end-to-end tests share: the built program, ways to run it, and the bytes that it is to leave.

The program is the one that BITCASKD names, or else the one that the last `rt ci` or `rt run` left in the
crate's out/ folder. Where there is none, `rt run` proves and builds it, once.
"""

import functools
import os
import pathlib
import re
import select
import subprocess
import tempfile
import threading
import time
import unittest

# Also for the tests, which take all names from here.
from records import HEADER, LARGEST_KEY, LARGEST_VALUE, MOST_IN_FILE, fault_of_store, parsed, record

CRATE = pathlib.Path(__file__).resolve().parent.parent / "crates" / "bitcaskd"
DATA_FILE = "1.bitcask.data"
QUARTER = MOST_IN_FILE // 4 - HEADER.size - 1  # of a value: its record under a key of one byte is a quarter of a file
LOCK_FILE = "bitcask.write.lock"
SECONDS = 60  # that one run of the program may take


@functools.lru_cache(maxsize=None)
def program():
    """The path of the built program."""
    named = os.environ.get("BITCASKD")
    if named:
        return os.path.abspath(named)
    built = CRATE / "out" / "bitcaskd"
    if not built.exists():
        # It also runs the program, without words, so the status says nothing.
        subprocess.run(["rt", "run"], cwd=CRATE, stdin=subprocess.DEVNULL, check=False)
    if not built.exists():
        raise FileNotFoundError(f"{built}: run `rt ci` first")
    return str(built)


@functools.lru_cache(maxsize=None)
def commands():
    """The commands that the program's help names."""
    return set(re.findall(r"^  bitcaskd ([a-z]+)", run("--help").stdout.decode(), re.MULTILINE))


def in_memory():
    """A folder of the system in which a sync takes no time, or None where it has none."""
    folder = "/dev/shm"
    return folder if os.access(folder, os.W_OK) else None


def put(key, value):
    """The text of the request that puts the value under the key."""
    return b"PUT %d %d\n" % (len(key), len(value)) + key + value + b"\n"


def get(key):
    """The text of the request for the value of the key."""
    return b"GET %d\n" % len(key) + key + b"\n"


def numbered(seq):
    """The reply to a put."""
    return b"OK %d\n" % seq


def found(value):
    """The reply to a get of a key that has a value."""
    return b"VALUE %d\n" % len(value) + value + b"\n"


ABSENT = b"NONE\n"


def run(*words, given=b"", **options):
    """Runs the program on words and input to its end."""
    options = {"stdout": subprocess.PIPE, "stderr": subprocess.PIPE, "timeout": SECONDS, **options}
    if "stdin" not in options:
        options["input"] = given
    return subprocess.run([program(), *words], check=False, **options)


class Client:
    """A running program, whose input stays open between the requests that are sent."""

    def __init__(self, *words, **options):
        self.errors = tempfile.TemporaryFile()
        options = {"stdin": subprocess.PIPE, "stdout": subprocess.PIPE, **options}
        self.process = subprocess.Popen([program(), *words], bufsize=0, stderr=self.errors, **options)
        self.limit = threading.Timer(SECONDS, self.process.kill)
        self.limit.start()

    def __enter__(self):
        return self

    def __exit__(self, *_):
        self.limit.cancel()
        if self.process.poll() is None:
            self.process.kill()
        self.process.wait()
        for stream in (self.process.stdin, self.process.stdout, self.errors):
            if stream:
                stream.close()

    def send(self, text):
        """Writes the bytes, as many as the program still takes."""
        try:
            while text:
                text = text[self.process.stdin.write(text):]
        except BrokenPipeError:
            pass

    def receive(self, count):
        """Reads so many bytes of the replies, or fewer where the output ends or nothing comes for a while."""
        taken, until = b"", time.monotonic() + SECONDS
        while len(taken) < count:
            ready, _, _ = select.select([self.process.stdout], [], [], max(0, until - time.monotonic()))
            piece = os.read(self.process.stdout.fileno(), count - len(taken)) if ready else b""
            if not piece:
                break
            taken += piece
        return taken

    def receive_reply(self):
        """Reads one reply to a PUT or a GET, or a first part of one where the output ends."""
        reply = b""
        while not reply.endswith(b"\n"):
            byte = self.receive(1)
            reply += byte
            if not byte:
                return reply
        return reply + self.receive(int(reply[6:]) + 1) if reply.startswith(b"VALUE ") else reply

    def finish(self, given=b""):
        """Sends the last bytes and ends the input. Gives what a run to the end gives."""
        self.send(given)
        if self.process.stdin:
            self.process.stdin.close()
        return self.ended()

    def ended(self):
        """Waits for the program to end by itself. Gives what a run to the end gives."""
        output = self.process.stdout.read() if self.process.stdout else b""
        status = self.process.wait(SECONDS)
        self.errors.seek(0)
        return subprocess.CompletedProcess(self.process.args, status, output, self.errors.read())


class StoreTest(unittest.TestCase):
    """A test with an empty folder of its own."""

    maxDiff = 2000
    wants = ()  # the commands without which its tests are skipped

    def setUp(self):
        for command in self.wants:
            if command not in commands():
                self.skipTest(f"the program has no `{command}` yet")
        folder = tempfile.TemporaryDirectory()
        self.addCleanup(folder.cleanup)
        self.folder = pathlib.Path(folder.name)

    def pipe(self, given, **options):
        """Runs `pipe` over the test's folder to the end of the given input."""
        return run("pipe", str(self.folder), given=given, **options)

    def command(self, word, *words, **options):
        """Runs another command over the test's folder."""
        return run(word, str(self.folder), *words, **options)

    def make(self, files):
        """Puts these files into the folder, in the place of those that are there."""
        for path in self.folder.iterdir():
            path.unlink()
        for name, text in files.items():
            (self.folder / name).write_bytes(text)

    def client(self, **options):
        """Starts `pipe` over the test's folder."""
        client = Client("pipe", str(self.folder), **options)
        self.addCleanup(client.__exit__)
        return client

    def files(self):
        """The files of the folder but the lock, with their bytes."""
        return {path.name: path.read_bytes() for path in self.folder.iterdir() if path.name != LOCK_FILE}

    def assert_ended(self, ended, status, output=b"", word=None):
        """The run ended with this status and output, and named its cause by the word on standard error."""
        errors = b"bitcaskd: %s\n" % word.encode() if word else b""
        self.assertEqual((ended.returncode, ended.stderr), (status, errors))
        self.assertEqual(len(ended.stdout or b""), len(output))
        self.assertTrue((ended.stdout or b"") == output, "the output has other bytes")

    def assert_holds(self, writes, since=0, name=DATA_FILE, first=1):
        """The data file is exactly the records of these puts, numbered from `first`, with moments from `since` to now."""
        records, rest = parsed((self.folder / name).read_bytes())
        self.assertEqual((len(records), len(rest)), (len(writes), 0))
        for seq, (it, (key, value)) in enumerate(zip(records, writes), first):
            self.assertTrue((it.seq, it.key, it.value) == (seq, key, value), f"record {seq} is another")
            self.assertTrue(since <= it.moment <= int(time.time()), f"moment {it.moment} of record {seq}")


def fault_of_folder(folder, writes, acknowledged, since):
    """What is wrong with the data files in a folder of a run that began at this time, as `fault_of_store` tells it."""
    files = {int(path.name.split(".")[0]): path.read_bytes() for path in folder.glob("*.bitcask.data")}
    return fault_of_store(files, writes, acknowledged, range(int(since), int(time.time()) + 1))
