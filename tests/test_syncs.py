"""What a power failure may take is settled by the order of calls: what is synced, and when."""

import os
import random
import unittest

from support import DATA_FILE, QUARTER, found, get, numbered, put, run
from traced import Call, TracedTest, sync_faults

NEXT_FILE = "2.bitcask.data"
FOUR_PUTS = b"".join(put(key, b"v" * 100) for key in (b"a", b"b", b"a", b"c"))
FOUR_REPLIES = b"".join(map(numbered, range(1, 5)))


class Syncs(TracedTest):
    def pipe_traced(self, given, status=0, replies=b"", word=None, faults=""):
        """Runs `pipe` over a new folder, and gives its calls, whose writes make up the files."""
        trace = self.trace(faults)
        ended = run("pipe", str(trace.folder), given=given, **trace.options)
        self.assert_ended(ended, status, replies, word)
        calls = trace.calls()
        for path in trace.folder.glob("*.bitcask.data"):
            of_file = [call for call in calls if call.name == path.name]
            self.assertEqual([call.length for call in of_file if call.kind == "open"], [1])
            self.assertEqual(sum(call.result for call in of_file if call.kind == "write"), path.stat().st_size)
        return calls

    def made(self, calls):
        return [call.name for call in calls if call.kind == "open" and call.is_of_data]

    def test_every_end_of_the_input(self):
        no_request = b"SYNTAX %d\n" % len(FOUR_PUTS)
        for given, status, last, word in (
            (b"", 0, b"", None), (b"QUIT\n", 0, b"BYE\n", None), (b"DEL", 6, no_request, "syntax"), (b"\n", 6, no_request, "syntax"),
            (put(b"a", b"1")[:-1], 6, no_request, "syntax"),
        ):
            with self.subTest(end=given):
                calls = self.pipe_traced(FOUR_PUTS + given, status, FOUR_REPLIES + last, word)
                self.assertEqual(self.made(calls), [DATA_FILE])
                self.assertEqual(sync_faults(calls), [])

    def test_an_output_that_fails(self):
        trace = self.trace()
        with open("/dev/full", "wb") as full:
            ended = run("pipe", str(trace.folder), given=FOUR_PUTS, stdout=full, **trace.options)
        self.assert_ended(ended, 5, b"", "sink")
        self.assertEqual(self.made(trace.calls()), [DATA_FILE])
        self.assertEqual(sync_faults(trace.calls()), [])

    def test_a_full_file(self):
        value = random.Random(7).randbytes(QUARTER)
        given = b"".join(put(key, value) for key in (b"a", b"b", b"c", b"d", b"e")) + get(b"a")
        replies = b"".join(map(numbered, range(1, 6))) + found(value)
        calls = self.pipe_traced(given, 0, replies)
        self.assertEqual(self.made(calls), [DATA_FILE, NEXT_FILE])
        self.assertEqual(sync_faults(calls), [])

    def test_no_sync_where_nothing_was_put(self):
        self.assertEqual([call for call in self.pipe_traced(get(b"a"), 0, b"NONE\n") if call.kind == "fsync"], [])

    def test_a_program_without_fsync_is_told(self):
        calls = self.pipe_traced(FOUR_PUTS, 0, FOUR_REPLIES, faults="fsync:0:skip,fdatasync:0:skip")
        self.assertEqual(set(sync_faults(calls)), {
            f"{DATA_FILE} is written before the directory is synced", f"the run ends before {DATA_FILE} is synced",
            f"the run ends before the directory is synced for {DATA_FILE}",
        })

    def test_a_program_that_misses_one_sync_is_told(self):
        for missed, told in ((1, "written before the directory is synced"), (2, f"ends before {DATA_FILE} is synced")):
            with self.subTest(missed=missed):
                faults = sync_faults(self.pipe_traced(FOUR_PUTS, 0, FOUR_REPLIES, faults=f"fsync:{missed}:skip"))
                self.assertTrue(faults and told in faults[0], faults)

    def test_a_program_that_opens_without_append_is_told(self):
        calls = self.pipe_traced(FOUR_PUTS, 0, FOUR_REPLIES, faults="open:0:overwrite")
        self.assertEqual(sync_faults(calls), [f"{DATA_FILE} is opened for writing, and not for append"])


class WrongOrders(unittest.TestCase):
    """What the check tells of orders that a wrong program would have."""

    def test_orders(self):
        first, second = (Call("open", name, os.O_RDWR | os.O_CREAT | os.O_APPEND, 1, 5) for name in (DATA_FILE, NEXT_FILE))
        entries, synced, next_synced = (Call("fsync", name, 0, 0, 0) for name in (".", DATA_FILE, NEXT_FILE))
        write, next_write = (Call("write", name, 0, 24, 24) for name in (DATA_FILE, NEXT_FILE))
        sound = [first, entries, write, synced, second, entries, next_write, next_synced]
        self.assertEqual(sync_faults(sound), [])
        for calls, told in (
            ([first, write, entries, synced], [f"{DATA_FILE} is written before the directory is synced"]),
            ([first, entries, write], [f"the run ends before {DATA_FILE} is synced"]),
            ([first, entries, synced, write], [f"the run ends before {DATA_FILE} is synced"]),
            ([first, entries, write, synced._replace(result=-5)], [f"the run ends before {DATA_FILE} is synced"]),
            ([entries, first], [f"the run ends before the directory is synced for {DATA_FILE}"]),
            (sound[:3] + [second, synced] + sound[5:], [f"{NEXT_FILE} is made before {DATA_FILE} is synced"]),
            (sound[:5] + [next_write, entries, next_synced], [f"{NEXT_FILE} is written before the directory is synced"]),
            (sound + [write, synced], [f"{DATA_FILE} is written while {NEXT_FILE} is the newest"]),
            ([first._replace(at=os.O_RDWR | os.O_CREAT), entries], [f"{DATA_FILE} is opened for writing, and not for append"]),
        ):
            with self.subTest(told=told):
                self.assertEqual(sync_faults(calls), told)


if __name__ == "__main__":
    unittest.main()
