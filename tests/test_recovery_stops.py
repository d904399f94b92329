"""A recovery that is stopped or fails at each of its calls, again within the next one: the next opening finds the same.

The directories have a merge in each of its states: before its list is there, with the list and none, some or all of
what the list asks for done, and two lists that name each other's files.
"""

import pathlib
import shutil
import tempfile
import unittest

from directories import ended_by_gets, hint_of, list_of, name_of, opened, record_of
from support import LOCK_FILE, get, in_memory, run
from traced import TracedTest

STOPPED = 125
KINDS = ("rename", "unlink", "fsync")  # the calls that change a directory, or make it durable
MOST_CALLS = 60  # of one kind in an opening
KEYS = [b"a", b"b", b"c", b"a key of more than thirty bytes, on the heap"]
GETS = b"".join(map(get, KEYS))


def records(*numbers):
    """Records with these numbers, each with a value of its own."""
    return b"".join(record_of(5, it, KEYS[it % len(KEYS)], None if it % 5 == 0 else b"value %d" % it) for it in numbers)


def merged_states():
    """Directories in which files 1 and 2 are merged into files 4 and 5, by the state that they are in."""
    first, second, third = records(1, 2, 3), records(4, 5), records(6, 7)
    outputs = {4: records(3), 5: records(4)}
    inputs = {name_of(1, "data"): first, name_of(1, "hint"): hint_of(first), name_of(2, "data"): second}
    others = {name_of(3, "data"): third, name_of(3, "hint"): hint_of(third)}
    temporary = {name_of(it, "temp"): text for it, text in outputs.items()}
    hints = {name_of(it, "hint"): hint_of(text) for it, text in outputs.items()}
    listing = list_of([1, 2], [4, 5])
    swap = {name_of(4, "swap"): listing}
    renamed = {name_of(it, "data"): text for it, text in outputs.items()}
    half = {name_of(4, "temp"): outputs[4], name_of(5, "data"): outputs[5]}
    yield "no list", {**inputs, **others, **temporary, **hints, name_of(4, "stmp"): listing, name_of(4, "htmp"): b"?"}
    yield "a list", {**inputs, **others, **temporary, **hints, **swap}
    yield "one output has its name", {**inputs, **others, **half, **hints, **swap}
    yield "both have", {**inputs, **others, **renamed, **hints, **swap}
    yield "one input is gone", {name_of(2, "data"): second, **others, **renamed, **hints, **swap}
    yield "both are gone", {**others, **renamed, **hints, **swap}


def linked_lists():
    """Two lists of which the second merges an output of the first, and lists that name each other's files."""
    files = {name_of(it, "data"): records(it, it + 6) for it in (1, 2, 3)}
    yield "a list of an output", {
        **files, name_of(5, "temp"): records(1, 2), name_of(6, "temp"): records(9),
        name_of(5, "swap"): list_of([1, 2], [5]), name_of(6, "swap"): list_of([5, 3], [6]),
    }
    yield "each other's files", {
        **files, name_of(5, "temp"): records(11), name_of(6, "temp"): records(12),
        name_of(5, "swap"): list_of([6, 1], [5]), name_of(6, "swap"): list_of([5, 2], [6]),
    }
    yield "an odd list", {**files, name_of(5, "temp"): records(1, 2), name_of(5, "swap"): list_of([1], [5])[:-1]}


def ended_over(files):
    """How a run ends that asks for each key: its status and its output."""
    return ended_by_gets(opened(files), KEYS)


class Stops(TracedTest):
    def setUp(self):
        super().setUp()
        folder = tempfile.TemporaryDirectory(dir=in_memory())
        self.addCleanup(folder.cleanup)
        self.folder = pathlib.Path(folder.name)

    def make(self, folder, files):
        shutil.rmtree(folder, ignore_errors=True)
        folder.mkdir()
        for name, text in files.items():
            (folder / name).write_bytes(text)

    def opening(self, files, faults):
        """Opens a directory of these files under the library. Gives how it ended, and the files that it left."""
        trace = self.trace(faults)
        self.make(trace.folder, files)
        ended = run("pipe", str(trace.folder), given=GETS, **trace.options)
        left = {path.name: path.read_bytes() for path in trace.folder.iterdir() if path.name != LOCK_FILE}
        shutil.rmtree(trace.folder.parent)
        return ended, left

    def each_fault(self, files, what):
        """Makes each call in turn go wrong so. Gives what each such opening left, with its fault."""
        for kind in KINDS:
            for nth in range(1, MOST_CALLS):
                faults = f"{kind}:{nth}:{what}"
                ended, left = self.opening(files, faults)
                if ended.returncode == 0:
                    break
                yield faults, ended, left
            else:
                self.fail(f"{MOST_CALLS} calls of {kind}")

    def check_whole(self, files, expected):
        ended, left = self.opening(files, "")
        self.assertEqual((ended.returncode, ended.stdout), expected)
        self.assertEqual(left, opened(files).files)
        self.assertEqual(ended_over(left), expected)

    def check_stops(self, files):
        expected, stops = ended_over(files), 0
        self.check_whole(files, expected)
        for first, ended, left in self.each_fault(files, "stop"):
            self.assertEqual(ended.returncode, STOPPED)
            for second, _, again in self.each_fault(left, "stop"):
                stops += 1
                with self.subTest(first=first, second=second):
                    self.assertEqual(ended_over(again), expected)
                    self.check_whole(again, expected)
        return stops

    def test_stops_within_a_recovery_and_within_the_next(self):
        for state, files in [*merged_states(), *linked_lists()]:
            with self.subTest(state=state):
                self.assertGreater(self.check_stops(files), 0)

    def test_calls_that_fail(self):
        for state, files in [*merged_states(), *linked_lists()]:
            expected = ended_over(files)
            for faults, ended, left in self.each_fault(files, "EIO"):
                with self.subTest(state=state, faults=faults):
                    self.assertNotEqual(ended.returncode, 0)
                    self.assertEqual(ended.stdout, b"")
                    self.assertEqual(ended_over(left), expected)
                    self.check_whole(left, expected)


if __name__ == "__main__":
    unittest.main()
