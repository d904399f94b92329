"""What a large value took is given back."""

import os
import pathlib
import re
import unittest

from support import LARGEST_VALUE, StoreTest, found, get, numbered, put

MIB = 1_048_576
KEPT = 2 * MIB  # of what large requests and replies took, at most


class Memory(StoreTest):
    def test_after_large_values(self):
        # So the C library gives each large block back as it is freed, and what is resident is in use.
        client = self.client(env={**os.environ, "MALLOC_MMAP_THRESHOLD_": str(MIB)})
        resident = pathlib.Path(f"/proc/{client.process.pid}/status")
        if not resident.exists():
            self.skipTest("there is no /proc to read what is resident")
        large = bytes(LARGEST_VALUE)
        sizes = []
        for seq in range(1, 7, 2):
            for request, reply in (
                (put(b"a", b"1"), numbered(seq)), (get(b"a"), found(b"1")),
                (put(b"b", large), numbered(seq + 1)), (get(b"b"), found(large)), (get(b"a"), found(b"1")),
            ):
                client.send(request)
                self.assertTrue(client.receive(len(reply)) == reply, "another reply")
                sizes.append(int(re.search(r"VmRSS:\s+(\d+)", resident.read_text())[1]) * 1024)
        self.assertLess(sizes[-1] - sizes[0], KEPT)
        self.assert_ended(client.finish(), 0)


if __name__ == "__main__":
    unittest.main()
