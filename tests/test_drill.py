"""The command `drill`: scripts with what they print, those of docs/DRILL.md, and random ones against the model."""

import os
import pathlib
import random
import re
import sys
import unittest

from drill_model import MOST_LINES, drilled, line_of
from support import StoreTest, run

HERE = pathlib.Path(__file__).resolve().parent
PAGE = HERE.parent / "docs" / "DRILL.md"
SCRIPTS = int(os.environ.get("SCRIPTS", 10_000))
MOST_IN_SCRIPT = 40
KEYS = [b"x", b"y", b"z", b"~!", b"a", b"k" * 64]
NO_LINES = [
    b"", b"a", b"a put x", b"a put x ", b"a put  x 1", b"a put x 1 ", b" a put x 1", b"A put x 1", b"ab put x 1", b"a PUT x 1",
    b"a put x 1 2", b"a put " + b"k" * 65 + b" 1", b"a put x " + b"v" * 65, b"a put x \x7f", b"a put x \xc3\xa9", b"a put x\t1",
    b"a big x 16777217", b"a big x 01", b"a big x -1", b"a big x", b"a get", b"a get x y", b"a read x", b"a next", b"a next 256",
    b"a next x", b"a end 00", b"at", b"at 4294967296", b"at 1 2", b"fail 0 1", b"fail 1", b"fail 1 18446744073709551616",
    b"fail 1 1 1", b"fuse 1", b"fuse 18446744073709551616 0", b"fuse all 0", b"stop", b"stop ", b"stop some", b"stop 1 all",
    b"stop all 1 ", b"stop 18446744073709551616", b"stop 01", b"max 4096", b"ttl 0", b"max 4095", b"\r", b"a sync\r", b"a fold x",
    b"stop all" + b" 1" * 124, b"a move 0", b"a lend", b"\x00", b"a reap", b"a del x 1", b"b  sync", b"sync", b"read",
]


def with_sorted_pairs(lines):
    """The lines, with those of pairs in a row in order: a fold lists its pairs in any order."""
    sorted_lines, pairs = [], []
    for line in lines:
        if line.startswith(b"PAIR "):
            pairs.append(line)
            continue
        sorted_lines += [*sorted(pairs), line]
        pairs = []
    return sorted_lines + sorted(pairs)


class DrillTest(StoreTest):
    wants = ("drill",)

    def drill(self, script, **options):
        """Runs a script in an empty folder, and nothing is left there."""
        ended = run("drill", given=script, cwd=self.folder, **options)
        self.assertEqual(list(self.folder.iterdir()), [])
        return ended

    def assert_drilled(self, script):
        """The script prints what the model says."""
        ended = self.drill(script)
        lines, status = drilled(script, ended.stdout)
        self.assertEqual(ended.stdout.split(b"\n"), [*lines, b""])
        self.assertEqual((ended.returncode, ended.stderr), (status, b"bitcaskd: syntax\n" if status else b""))

    def assert_prints(self, script, printed):
        """The script prints this text, and the model says the same."""
        self.assert_drilled(script)
        lines = self.drill(script).stdout.split(b"\n")
        self.assertEqual(with_sorted_pairs(lines), with_sorted_pairs(printed.split(b"\n")))


class Written(DrillTest):
    def test_scripts(self):
        scripts = sorted((HERE / "drill").glob("*.script"))
        self.assertGreater(len(scripts), 5)
        for script in scripts:
            with self.subTest(script=script.name):
                self.assert_prints(script.read_bytes(), script.with_suffix(".out").read_bytes())

    def test_the_page(self):
        blocks = re.findall(r"```(script|printed)\n(.*?)```", PAGE.read_text(), re.DOTALL)
        self.assertEqual([kind for kind, _ in blocks], ["script", "printed"] * 3)
        texts = [text.encode() for _, text in blocks]
        for script, printed in zip(texts[::2], texts[1::2]):
            with self.subTest(script=script):
                self.assert_prints(script, printed)

    def test_what_is_no_line(self):
        before = b"a put x 1\n"
        for line in NO_LINES:
            with self.subTest(line=line):
                self.assertIsNone(line_of(line, True))
                self.assert_prints(before + line + b"\na sync\n", b"OK 1\nSYNTAX 10\n")
        for script in (b"max 4095\n", b"max 1073741825\n", b"ttl 4294967296\n", b"max 4096", b"a sync", b"x" * 300):
            with self.subTest(script=script):
                self.assert_prints(script, b"SYNTAX 0\n")

    def test_the_greatest_numbers(self):
        most = b"18446744073709551615"
        script = (b"max 1073741824\nttl 4294967295\nat 4294967295\nfail %s %s\nfuse %s %s\na put x 1\na get x\na read\n"
                  b"a next 255\nstop %s %s\n" % (most, most, most, most, most, most))
        self.assert_prints(script, b"OK 1\nLOAN\nVALUE 1\nNOFOLD 255\nREOPENED 1 1 0\n")

    def test_the_longest_line(self):
        self.assert_drilled(b"a put x 1\nstop all" + b" 1" * 123 + b" \n")
        self.assert_drilled(b"a put x 1\nstop all" + b" 1" * 122 + b" 10\n")

    def test_the_most_lines(self):
        script = b"at 1\n" * (MOST_LINES - 1) + b"a sync\n"
        self.assert_prints(script, b"SYNCED 0\n")
        self.assert_prints(script + b"a sync\n", b"SYNCED 0\nSYNTAX %d\n" % len(script))

    def test_large_values(self):
        self.assert_prints(b"a big x 16777216\na get x\na big x 0\na read\na get x\na read\nstop 0\na get x\n",
                           b"OK 1\nLOAN\nOK 2\nVALUE 16777216*x\nLOAN\nVALUE \nREOPENED 0 0 0\nNONE\n")


class Ends(DrillTest):
    def test_words(self):
        for words in (["drill", "d"], ["drill", ""], ["Drill"]):
            with self.subTest(words=words):
                self.assert_ended(run(*words, given=b"a sync\n", cwd=self.folder), 2, b"", "words")

    def test_no_line(self):
        self.assert_ended(self.drill(b""), 0)

    def test_input_that_can_not_be_read(self):
        at = os.open(self.folder, os.O_RDONLY)
        self.addCleanup(os.close, at)
        self.assert_ended(self.drill(None, stdin=at), 4, b"", "source")

    def test_output_to_a_full_device(self):
        with open("/dev/full", "wb") as full:
            self.assert_ended(self.drill(b"a sync\n", stdout=full), 5, b"", "sink")
            self.assert_ended(self.drill(b"no line\n", stdout=full), 5, b"", "sink")
            self.assert_ended(self.drill(b"at 3\n", stdout=full), 0)


class Random(DrillTest):
    def test_random_scripts(self):
        seed = int(os.environ.get("SEED", random.randrange(1 << 32)))
        print(f"(seed {seed}, {SCRIPTS} scripts)", end=" ", file=sys.stderr, flush=True)
        writer = Writer(random.Random(seed))
        for number in range(SCRIPTS):
            script = writer.script()
            with self.subTest(seed=seed, number=number, script=script):
                self.assert_drilled(script)


class Writer:
    """Writes scripts at random: events of some actors, folds, calls that fail and stops, and seldom what is no line."""

    def __init__(self, chance):
        self.chance = chance
        self.actors, self.keys, self.folds, self.readers = [], [], [], []

    def script(self):
        one_of = self.chance.choice
        lines = []
        if one_of((True, True, False)):
            lines.append(b"max %d" % one_of((4_096, 4_096, 5_000, 67_108_864)))
        if one_of((True, False)):
            lines.append(b"ttl %d" % one_of((0, 1, 5, 10, 4_294_967_295)))
        self.actors, self.keys = one_of(([b"a"], [b"a", b"b", b"z"])), one_of((KEYS[:2], KEYS))
        self.folds, self.readers = [], []  # those that may be open, and who may keep a loan
        lines += [self.line() for _ in range(self.chance.randrange(MOST_IN_SCRIPT - 1))]
        if self.chance.random() < 0.05:
            lines.insert(self.chance.randrange(len(lines) + 1), one_of(NO_LINES))
        text = b"\n".join(lines) + b"\n" * bool(lines)
        return text[:-1] if self.chance.random() < 0.02 else text

    def line(self):
        kinds = {self.write: 10, self.read: 8, self.fold: 10, self.disk: 3, self.at: 2, self.stop: 1}
        return self.chance.choices(list(kinds), kinds.values())[0]()

    def write(self):
        actor, key, one_of = self.chance.choice(self.actors), self.chance.choice(self.keys), self.chance.choice
        size = one_of((0, 64, 65, 1_000, 2_025, 4_050, 9_977, self.chance.randrange(5_000)))
        value = bytes(one_of(b"!x19~") for _ in range(one_of((1, 1, 2, 64))))
        return one_of((b"%s put %s %s" % (actor, key, value),) * 4 + (b"%s big %s %d" % (actor, key, size),)
                      + (b"%s del %s" % (actor, key), b"%s reap %s" % (actor, key)))

    def read(self):
        actor = self.chance.choice(self.actors)
        if self.readers and self.chance.random() < 0.4:
            return b"%s read" % self.readers.pop()
        if self.chance.random() < 0.3:
            return b"%s %s" % (actor, self.chance.choice((b"read", b"sync", b"sync")))
        self.readers.append(actor)
        return b"%s get %s" % (actor, self.chance.choice(self.keys))

    def fold(self):
        actor = self.chance.choice(self.actors)
        if not self.folds or self.chance.random() < 0.1:
            self.folds.append((actor, len(self.folds)))
            return b"%s fold" % actor
        it = self.chance.choice(self.folds)
        if self.chance.random() < 0.1:
            it = (actor, self.chance.randrange(3))
        if it in self.folds and self.chance.random() < 0.1:
            self.folds.remove(it)
            return b"%s end %d" % it
        return b"%s next %d" % it

    def disk(self):
        nth = self.chance.randrange(1, 6)
        return b"%s %d %d" % (self.chance.choice((b"fail", b"fail", b"fail", b"fuse")), nth, self.effect())

    def at(self):
        return b"at %d" % self.chance.choice((0, 1, 4, 5, 9, 10, 15, 4_294_967_295))

    def stop(self):
        self.folds, self.readers = [], []
        keep = self.chance.choice((b"all", b"%d" % self.effect()))
        return b" ".join([b"stop", keep, *(b"%d" % self.effect() for _ in range(self.chance.choice((0, 0, 0, 1, 2))))])

    def effect(self):
        return self.chance.choice((0, 0, 1, 21, 24, 25, 47, 48, self.chance.randrange(100), self.chance.randrange(5_000), (1 << 64) - 1))


if __name__ == "__main__":
    unittest.main()
