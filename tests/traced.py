"""Runs of the program under preload/calls.c, which logs its calls on files and makes chosen ones go wrong."""

import atexit
import functools
import os
import pathlib
import resource
import shutil
import subprocess
import tempfile
import typing
import unittest

from support import MOST_IN_FILE, SECONDS, StoreTest, run

MOST_BYTES = 4 * MOST_IN_FILE  # that a file may take in a run
SOURCES = pathlib.Path(__file__).resolve().parent / "preload"


@functools.lru_cache(maxsize=None)
def built(source):
    """The path of the library that this source makes, built once. Skips the test where that can't be done."""
    compiler = shutil.which("cc")
    if not compiler:
        raise unittest.SkipTest("needs a C compiler: there is no `cc` (Debian: apt-get install gcc libc6-dev)")
    folder = tempfile.TemporaryDirectory()
    atexit.register(folder.cleanup)
    library = os.path.join(folder.name, "library.so")
    words = [compiler, "-shared", "-fPIC", "-O1", "-Wall", "-Wextra", "-o", library, str(SOURCES / source)]
    ended = subprocess.run(words, capture_output=True, text=True, timeout=SECONDS, check=False)
    if ended.returncode:
        raise unittest.SkipTest(f"`cc` can't build {source} (Debian: apt-get install gcc libc6-dev): {ended.stderr}")
    return library


@functools.lru_cache(maxsize=None)
def library():
    """The path of the library that logs calls. Skips the test where the program doesn't load it."""
    path = built("calls.c")
    with tempfile.TemporaryDirectory() as folder:
        log = os.path.join(folder, "log")
        run("--version", env=environment(path, folder, log))
        if not os.path.exists(log):
            raise unittest.SkipTest("needs a program that loads libraries: this one seems to be linked statically")
    return path


def environment(path, folder, log, faults=""):
    """The environment for a run under the library, as its head says."""
    return {**os.environ, "LD_PRELOAD": path, "CALLS_FOLDER": folder, "CALLS_LOG": log, "CALLS_FAULTS": faults}


class Call(typing.NamedTuple):
    """A call of the log. `result` is what it answered, or the error's number below 0."""

    kind: str
    name: str  # below the directory, `.` for it, or stdin or stdout
    at: int  # the offset; of an open, the flags
    length: int  # what was asked for; of an open, 1 where it made the file
    result: int
    fault: str = ""  # what was made to go wrong
    to: str = ""  # of a rename

    @property
    def is_of_data(self):
        return self.name.endswith(".bitcask.data")


class Trace:
    """An empty folder for one run under the library, and the log of that run."""

    def __init__(self, top, faults=""):
        top = pathlib.Path(os.path.realpath(top))
        self.folder, self.log = top / "store", top / "log"
        self.folder.mkdir(parents=True)
        # For the start of the program. The limit ends a wrong one that writes for ever.
        self.options = {
            "env": environment(library(), str(self.folder), str(self.log), faults),
            "preexec_fn": lambda: resource.setrlimit(resource.RLIMIT_FSIZE, (MOST_BYTES, MOST_BYTES)),
        }

    def calls(self):
        """The calls of the run, in their order."""
        calls = []
        for line in self.log.read_text().splitlines()[1:]:
            kind, name, at, length, result, fault, to = line.split("\t")
            calls.append(Call(kind, name, int(at), int(length), int(result), fault, to))
        return calls


class TracedTest(StoreTest):
    """A test whose runs are traced, each in a folder of its own."""

    def setUp(self):
        super().setUp()
        library()
        self.traces = 0

    def trace(self, faults=""):
        self.traces += 1
        return Trace(self.folder / str(self.traces), faults)


def sync_faults(calls):
    """What a power failure could take, and mustn't, by the calls of a run that ended well: a line for each place."""
    faults, entries, changed, newest = [], set(), {}, None
    for call in calls:
        if call.result < 0:
            continue
        if call.kind in ("fsync", "fdatasync"):
            changed.pop(call.name, None)
            if call.name == ".":
                entries.clear()
        elif call.is_of_data and call.kind == "open":
            if call.at & os.O_ACCMODE != os.O_RDONLY and not call.at & os.O_APPEND:
                faults.append(f"{call.name} is opened for writing, and not for append")
            if call.length:
                faults += [f"{call.name} is made before {other} is synced" for other in changed]
                entries.add(call.name)
                newest = call.name
        elif call.is_of_data and call.kind in ("write", "pwrite", "ftruncate"):
            if call.name in entries:
                faults.append(f"{call.name} is written before the directory is synced")
            if call.name != newest:
                faults.append(f"{call.name} is written while {newest} is the newest")
            changed[call.name] = True
    faults += [f"the run ends before {name} is synced" for name in changed]
    faults += [f"the run ends before the directory is synced for {name}" for name in sorted(entries)]
    return faults
