"""The check of data files refuses what a wrong program would leave."""

import unittest

from records import HEADER, MOST_IN_FILE, Record, fault_of_store, parsed, record

MOMENTS = range(100, 103)
WRITES = [(b"a", b"1"), (b"bc", b""), (b"a", b"2" * 50)]
ONE, TWO, THREE = (record(101, seq, *write) for seq, write in enumerate(WRITES, 1))
FULL = [(b"a", bytes(MOST_IN_FILE // 4 - HEADER.size - 1))] * 5
QUARTERS = [record(101, seq, *write) for seq, write in enumerate(FULL, 1)]


class Parsed(unittest.TestCase):
    def test_the_record_of_the_page(self):
        # Byte by byte, with the checksum that gzip gives.
        text = bytes.fromhex("dc1114cc 00000065 0001 00000001 0000000000000001 6131")
        self.assertEqual(ONE, text)
        self.assertEqual(parsed(text), ([Record(101, 1, b"a", b"1")], b""))

    def test_each_changed_bit(self):
        for at in range(8 * len(TWO)):
            text = bytearray(ONE + TWO + THREE)
            text[len(ONE) + at // 8] ^= 1 << at % 8
            records, rest = parsed(bytes(text))
            self.assertEqual((len(records), len(rest)), (1, len(TWO + THREE)), at)

    def test_each_cut(self):
        for at in range(len(ONE + TWO)):
            records, rest = parsed((ONE + TWO)[:at])
            self.assertEqual((len(records), len(rest)), (at >= len(ONE), at % len(ONE) if at >= len(ONE) else at), at)


class Stores(unittest.TestCase):
    def test_sound_ones(self):
        for files, acknowledged in (
            ([], 0), ([b""], 0), ([ONE], 0), ([ONE], 1), ([ONE + TWO + THREE], 3),
            *(([ONE + TWO[:at]], 1) for at in range(len(TWO))),
        ):
            self.assertIsNone(fault_of_store(numbered(files), WRITES, acknowledged, MOMENTS))
        for length in (0, 9, len(QUARTERS[4])):
            files = [b"".join(QUARTERS[:4]), QUARTERS[4][:length]]
            self.assertIsNone(fault_of_store(numbered(files), FULL, 4, MOMENTS))

    def test_wrong_ones(self):
        late = record(103, 2, *WRITES[1])
        for what, files, acknowledged in (
            ("an acknowledged put is lost", [ONE], 2),
            ("all are lost", [], 1),
            ("a part of an acknowledged one is there", [ONE + TWO[:-1]], 2),
            ("a record is missing between others", [ONE + THREE], 1),
            ("two have changed places", [TWO + ONE], 2),
            ("a record stands twice", [ONE + ONE], 1),
            ("a part, and then the whole record", [ONE + TWO[:12] + TWO], 1),
            ("a part of another record", [ONE + THREE[:24]], 1),
            ("a part with another moment", [ONE + late[:9]], 1),
            ("another moment", [ONE + late], 1),
            ("bytes behind all", [ONE + TWO + THREE + b"\0"], 3),
            ("zeros behind all", [ONE + TWO + bytes(30)], 2),
            ("a record that nobody put", [ONE + TWO + THREE + record(101, 4, b"d", b"")], 3),
            ("another value", [record(101, 1, b"a", b"2")], 1),
            ("another number", [record(101, 2, *WRITES[0])], 1),
            ("a file that isn't full before another", [ONE, TWO], 2),
            ("a file that isn't full before an empty one", [ONE, b""], 1),
            ("a file for no put", [ONE + TWO + THREE, b""], 3),
            ("a part in a file before another", [ONE + TWO[:5], TWO], 1),
        ):
            with self.subTest(what=what):
                self.assertIsNotNone(fault_of_store(numbered(files), WRITES, acknowledged, MOMENTS))
        self.assertIsNotNone(fault_of_store(numbered([b"".join(QUARTERS)]), FULL, 5, MOMENTS))
        self.assertIsNotNone(fault_of_store({2: ONE}, WRITES, 1, MOMENTS))


def numbered(files):
    return dict(enumerate(files, 1))


if __name__ == "__main__":
    unittest.main()
