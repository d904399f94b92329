"""The day's work of the README: each command prints what the page says."""

import pathlib
import re
import subprocess
import unittest

from support import SECONDS, StoreTest, program

PAGE = pathlib.Path(__file__).resolve().parent.parent / "README.md"


class Day(StoreTest):
    wants = ("fill", "list", "check")

    def test_a_day(self):
        day = re.search(r"^## A day's work\n(.*?)^## ", PAGE.read_text(), re.MULTILINE | re.DOTALL)
        if day is None:
            self.skipTest("the README has no day's work")
        lines = [line[4:] for line in day[1].splitlines() if line.startswith("    ")]
        commands = "\n".join(line[2:] for line in lines if line.startswith("$ "))
        (self.folder / "bitcaskd").symlink_to(program())
        ended = subprocess.run(["bash", "-c", commands], cwd=self.folder, env={"PATH": f"{self.folder}:/usr/bin:/bin"},
                               stdin=subprocess.DEVNULL, capture_output=True, text=True, timeout=SECONDS, check=False)
        self.assertEqual(ended.stdout.splitlines(), [line for line in lines if not line.startswith("$ ")])
        self.assertEqual(ended.returncode, 0)


if __name__ == "__main__":
    unittest.main()
