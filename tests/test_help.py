"""What the program says of itself, and that its page docs/man/bitcaskd.1 says the same."""

import os
import pathlib
import re
import unittest

from support import StoreTest, run

PAGE = pathlib.Path(__file__).resolve().parent.parent / "docs" / "man" / "bitcaskd.1"
HEADS = ("Usage:", "Requests\\.", "Replies to", "The report of", "Exit status")  # of the parts of the help
MACROS = re.compile(r"^\.[A-Z][a-z]\b|\b(?:Cm|Ar|Ic)\b")


class Help(StoreTest):
    def test_help(self):
        ended = run("--help")
        self.assert_ended(ended, 0, ended.stdout)
        text = ended.stdout.decode()
        for part in ("bitcaskd pipe DIR", "PUT", "GET", "DEL", "FOLD", "KEYS", "SYNC", "STAT", "QUIT", "--help", "--version"):
            self.assertIn(part, text)
        statuses = {tuple(line.split()[:2]) for line in text.splitlines() if line[:1] == " "}
        for status in [("1", "memory"), ("2", "words"), ("3", "directory"), ("3", "lock"), ("3", "disk"), ("4", "source"),
                       ("5", "sink"), ("6", "syntax"), ("7", "settings"), ("10", "long")]:
            self.assertIn(status, statuses)
        for reply in ("OK", "VALUE", "NONE", "PAIR", "KEY", "END", "SYNCED", "BYE", "MEMORY", "DISK", "READ", "DAMAGED", "FULL",
                      "SYNTAX"):
            self.assertRegex(text, rf"\b{reply}\b")
        for line in text.splitlines():
            self.assertLessEqual(len(line), 100)
            self.assertEqual(line, line.rstrip())

    def test_the_lines_of_a_request(self):
        text = run("--help").stdout.decode()
        for lines in (
            "  PUT k v    then k bytes of key (1 to 65535), v bytes of value (0 to 16777216) and a line feed.\n"
            "             The reply is OK and the number of the write.\n",
            "  GET k      then k bytes of key and a line feed. The reply is VALUE and the number of bytes, then\n"
            "             the bytes and a line feed; or NONE.\n",
        ):
            self.assertIn(lines, text)

    def test_version(self):
        ended = run("--version")
        self.assert_ended(ended, 0, ended.stdout)
        self.assertRegex(ended.stdout, rb"\Abitcaskd [0-9]+\.[0-9]+\.[0-9]+\n\Z")

    def test_neither_reads_its_input(self):
        with open(self.folder / "input", "w+b") as given:
            given.write(b"unread")
            given.seek(0)
            for word in ("--help", "--version"):
                self.assertEqual(run(word, stdin=given).returncode, 0)
            self.assertEqual(given.tell(), 0)

    def test_an_output_that_fails(self):
        for word in ("--help", "--version"):
            with self.subTest(word=word, output="full"), open("/dev/full", "wb") as full:
                self.assert_ended(run(word, stdout=full), 5, b"", "sink")
            with self.subTest(word=word, output="that nobody reads"):
                reading, writing = os.pipe()
                os.close(reading)
                ended = run(word, stdout=writing)
                os.close(writing)
                self.assert_ended(ended, 5, b"", "sink")
            with self.subTest(word=word, output="closed"):
                self.assert_ended(run(word, stdout=None, preexec_fn=lambda: os.close(1)), 5, b"", "sink")


def section(page, name):
    """The lines of a section of the page, or of a part of one."""
    return re.split(r"^\.(?:Sh|Ss) ", page.partition(f" {name}\n")[2], maxsplit=1, flags=re.MULTILINE)[0].splitlines()


def plain(line):
    """A line of the page without its macros."""
    return " ".join(MACROS.sub(" ", re.sub(r"\.?Fl Fl ", "--", line)).split())


def items(lines):
    """What the entries of the lists in these lines are of."""
    return [plain(line) for line in lines if line.startswith(".It ")]


def names(lines):
    """What stands in the first column of these lines of the help."""
    return [line.split("  ")[1] for line in lines if re.match("  [^ ]", line)]


def words(lines):
    """The words in capitals in these lines."""
    return set(re.findall(r"\b[A-Z]{2,}\b", " ".join(lines)))


class Page(unittest.TestCase):
    """The page has the commands, the requests, the replies and the statuses of the help, and no others."""

    maxDiff = None

    def setUp(self):
        self.page, self.help = PAGE.read_text(), run("--help").stdout.decode()
        self.usage, self.requests, self.refusals, self.report, self.statuses = map(self.part, HEADS)

    def part(self, head):
        """The lines of the help from the one that begins so to the next that begins a part."""
        found = re.search(f"^{head}.*?(?=^(?:{'|'.join(HEADS)})|\\Z)", self.help, re.MULTILINE | re.DOTALL)
        return found[0].splitlines() if found else []

    def test_commands(self):
        commands = names(self.usage)
        synopsis = "\n".join(section(self.page, "SYNOPSIS")).split(".Nm\n")[1:]
        self.assertEqual([" ".join(["bitcaskd", *map(plain, it.splitlines())]) for it in synopsis], commands)
        self.assertEqual([f"bitcaskd {it}" for it in items(section(self.page, "DESCRIPTION"))], commands)

    def test_requests(self):
        self.assertEqual(items(section(self.page, "Requests")), names(self.requests))

    def test_replies(self):
        refusals = set(names(self.refusals)) | set(re.findall("FULL [a-z]+", self.help))
        self.assertEqual(set(items(section(self.page, "Refusals"))), {it.partition(":")[0] for it in refusals})
        page = map(plain, section(self.page, "Requests") + section(self.page, "Refusals"))
        self.assertEqual(words(page), words(self.requests + self.refusals))

    def test_report(self):
        page = section(self.page, "REPORT")
        self.assertEqual({it.split()[0] for it in items(page)}, words(self.report) - {"GOOD"})
        self.assertLessEqual(words(self.report), words(map(plain, page)))

    def test_statuses(self):
        statuses = [" ".join(it.groups("")).strip() for it in map(re.compile(r" {2,3}(\d+)(?:  (\w+))?  ").match, self.statuses) if it]
        self.assertEqual(items(section(self.page, "EXIT STATUS")), statuses)
        reasons = re.findall(r"(?<!\w)'([a-z -]+)'(?!\w)", " ".join(" ".join(self.statuses).split()))
        self.assertEqual(re.findall(r"^\.Ql ([a-z -]+?)(?: ,)?$", "\n".join(section(self.page, "EXIT STATUS")), re.MULTILINE), reasons)

    def test_limits(self):
        numbers = set(re.findall(r"\b\d{3,}\b", self.help))
        self.assertLessEqual(numbers, set(re.findall(r"\b\d{3,}\b", self.page)))


if __name__ == "__main__":
    unittest.main()
