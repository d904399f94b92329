"""A data file that would grow past its limit is closed, and the next one takes the record."""

import random
import unittest

from support import MOST_IN_FILE, QUARTER, StoreTest, found, get, numbered, put


class Rolling(StoreTest):
    def test_three_files_in_one_run(self):
        chance = random.Random(5)
        writes = [(key, chance.randbytes(QUARTER)) for key in (b"a", b"b", b"c", b"d", b"e", b"f", b"g", b"h", b"a")]
        newest = dict(writes)
        given = b"".join(put(*write) for write in writes) + b"".join(get(key) for key in newest)
        replies = b"".join(numbered(seq) for seq in range(1, 10)) + b"".join(found(value) for value in newest.values())
        self.assert_ended(self.pipe(given), 0, replies)
        self.assertEqual(sorted(self.sizes()), [(1, MOST_IN_FILE), (2, MOST_IN_FILE), (3, MOST_IN_FILE // 4)])
        for file in range(3):
            within = slice(4 * file, 4 * file + 4)
            self.assert_holds(writes[within], name=f"{file + 1}.bitcask.data", first=4 * file + 1)

    def test_a_record_that_misses_by_one_byte(self):
        chance = random.Random(6)
        writes = [(key, chance.randbytes(QUARTER)) for key in (b"a", b"b", b"c")]
        writes.append((b"d", chance.randbytes(QUARTER + 1)))
        given = b"".join(put(*write) + get(write[0]) for write in writes)
        replies = b"".join(numbered(seq) + found(value) for seq, (_, value) in enumerate(writes, 1))
        self.assert_ended(self.pipe(given), 0, replies)
        self.assertEqual(sorted(self.sizes()), [(1, MOST_IN_FILE // 4 * 3), (2, MOST_IN_FILE // 4 + 1)])
        self.assert_holds(writes[3:], name="2.bitcask.data", first=4)

    def sizes(self):
        """The number and the size of each data file of the folder."""
        return [(int(path.name.split(".")[0]), path.stat().st_size) for path in self.folder.glob("*.bitcask.data")]


if __name__ == "__main__":
    unittest.main()
