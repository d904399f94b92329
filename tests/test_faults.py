"""Each call of the system fails once, at each place of a run where it is made, and the run keeps its promises.

An interrupted call, or one that does a part, changes nothing. Any other error of a file refuses one request, by a line,
and the run goes on; one of a stream, of the opening or of the last sync ends it with the status of its cause. All other
replies are right, and the files hold the records of the puts that were answered, and at most a first part of one that
was refused since.
"""

import random
import re
import subprocess
import time
import typing
import unittest

from support import LOCK_FILE, QUARTER, Client, fault_of_folder, found, get, numbered, parsed, put, run
from traced import TracedTest, sync_faults

# What can go wrong with each kind of call.
ERRORS = {
    "open": ("EIO", "ENOSPC", "EINTR"),
    "getdents": ("EIO", "EINTR", "short"),
    "read": ("EIO", "EINTR", "short"),
    "write": ("EIO", "ENOSPC", "EINTR", "short"),
    "pread": ("EIO", "EINTR", "short"),
    "fsync": ("EIO", "ENOSPC", "EINTR"),
}
HARMLESS = ("EINTR", "short")
MOST_CALLS = 100  # of one kind in a run
LARGEST_KEPT = 1_000_000  # bytes of a file that stands until its test ends


REFUSED = (b"DISK\n", b"READ\n")


class Talk:
    """Puts and gets, and what a run that refuses some of them is to reply to the others."""

    def __init__(self):
        self.requests = []

    def put(self, key, value):
        self.requests.append((put(key, value), key, value))

    def get(self, key):
        self.requests.append((get(key), key, None))

    @property
    def puts(self):
        return [(key, value) for _, key, value in self.requests if value is not None]

    @property
    def text(self):
        return b"".join(text for text, _, _ in self.requests)

    def told(self, output):
        """What this output tells, as `Told`; its `fault` says where it is another than it may be."""
        held, it = {}, Told([], None, 0, 0, None)
        for _, key, value in self.requests:
            right = (numbered(len(it.writes) + 1) if value is not None
                     else found(held[key]) if key in held else b"NONE\n")
            reply = next((one for one in (right, *REFUSED) if output.startswith(one)), None)
            if reply is None:
                is_part = any(one.startswith(output) for one in (right, *REFUSED))
                return it._replace(fault=None if is_part else "the replies are other ones", next=(key, value))
            output, it = output[len(reply):], it._replace(replies=it.replies + 1)
            if reply != right:
                it = it._replace(refused=it.refused + 1, next=(key, value) if value is not None else it.next)
            elif value is not None:
                held[key] = value
                it = it._replace(writes=[*it.writes, (key, value)], next=None)
        return it._replace(fault="more than all replies" if output else None)

    def hold(self, trace):
        """Waits for each reply before the next request. Gives what a run to the end gives."""
        with Client("pipe", str(trace.folder), **trace.options) as client:
            output = b""
            for request, _, _ in self.requests:
                client.send(request)
                reply = client.receive_reply()
                output += reply
                if not reply.endswith(b"\n"):
                    break
            ended = client.finish()
        return subprocess.CompletedProcess(ended.args, ended.returncode, output + ended.stdout, ended.stderr)

    def hold_at_once(self, trace):
        """Sends the requests without waiting."""
        return run("pipe", str(trace.folder), given=self.text, **trace.options)


class Told(typing.NamedTuple):
    """What the replies of a run tell."""

    writes: list  # the puts that were answered OK
    next: tuple  # the put since, or None, that was refused or not answered: a first part of it may be there
    replies: int
    refused: int
    fault: str  # what is wrong with the replies, or None


def small_talk():
    chance, talk = random.Random(8), Talk()
    for key, length in ((b"a", 1), (b"b", 0), (b"a", 300), (b"long" * 50, 20), (b"c", 100_000)):
        talk.put(key, chance.randbytes(length))
        talk.get(b"a")
        talk.get(key)
    talk.get(b"none")
    return talk


def large_talk():
    """One that fills a data file."""
    chance, talk = random.Random(9), Talk()
    for key in (b"a", b"b", b"c", b"d", b"e"):
        talk.put(key, chance.randbytes(QUARTER))
    talk.get(b"a")
    return talk


def ends_of(call, served):
    """The statuses that a run may have for this call that failed, and the words for it on standard error, by the
    README's table. Once the store is opened a failing file refuses a request, or the last sync."""
    if call.name == "stdin":
        return (4,), ("source",)
    if call.name == "stdout":
        return (5,), ("sink",)
    if call.name == LOCK_FILE:
        return (3,), ("directory",)
    if call.name == "." and not served:
        # `directory` for the first opening, and `disk` for a listing.
        return (3,), ("directory", "disk")
    return (0, 3), ("disk",)


def is_not_retried(call):
    """An interrupted read of the directory's entries, at which the program gives up with the status of the table. The
    system interrupts no such read of a local directory."""
    return call.fault == "EINTR" and call.kind == "getdents"


def fault_of_ended(talk, told, ended, errors):
    """What is wrong with the status, the words and the replies of a run with these errors, or None.

    A failing file refuses a request; an error of another cause ends the run. Where the last sync fails too, the
    status is the disk's.
    """
    if told.fault:
        return told.fault
    if not errors:
        if (ended.returncode, ended.stderr, told.replies, told.refused) != (0, b"", len(talk.requests), 0):
            return f"status {ended.returncode} and {ended.stderr} after {len(ended.stdout)} bytes of replies"
        return None
    # A sync that failed makes each later one of that file or directory fail.
    if told.refused > len(errors) and not any(call.kind == "fsync" for call in errors):
        return f"{told.refused} requests were refused for {len(errors)} errors"
    ends = [ends_of(call, told.replies) for call in errors]
    statuses = {status for some, _ in ends for status in some}
    words = {word for _, some in ends for word in some}
    if ended.returncode == 0:
        whole = ended.stderr == b"" and told.replies == len(talk.requests)
        return None if whole and 0 in statuses else f"status 0 and {ended.stderr} after {told.replies} replies"
    said = re.fullmatch(rb"bitcaskd: ([a-z]+)(: [^\n]+)?\n", ended.stderr)
    if ended.returncode not in statuses or not said or said[1].decode() not in words:
        return f"status {ended.returncode} and {ended.stderr}, and not one of {statuses} with one of {words}"
    return None


class Faults(TracedTest):
    cuts = 0  # of data files, in the runs so far

    def hold(self, talk, faults, at_once=False):
        """Holds the talk in a new folder. Gives the calls that went wrong, and what is wrong with the run, or None."""
        trace, since = self.trace(faults), time.time()
        ended = talk.hold_at_once(trace) if at_once else talk.hold(trace)
        calls = trace.calls()
        self.cuts += sum(call.kind == "ftruncate" for call in calls)
        failed = [call for call in calls if call.fault]
        errors = [call for call in failed if call.fault in ("EIO", "ENOSPC")]
        if ended.returncode and not errors:
            errors = list(filter(is_not_retried, failed))
        told = talk.told(ended.stdout)
        # Where nobody waits for replies, many puts may be done whose replies can't be written.
        unheard = at_once and any(call.name == "stdout" for call in errors)
        writes = talk.puts if unheard else told.writes + [told.next] * bool(told.next and told.next[1] is not None)
        fault = fault_of_ended(talk, told, ended, errors)
        fault = fault or fault_of_folder(trace.folder, writes, len(told.writes), since)
        if not fault and not errors:
            fault = "; ".join(sync_faults(calls)) or None
        for path in trace.folder.iterdir():
            if path.stat().st_size > LARGEST_KEPT:
                path.unlink()
        return failed, fault

    def fail_each(self, talk, kind, *whats, at_once=False, first=1):
        """Makes the calls of the kind go wrong in turn: each one, and those right behind it where there is more that
        goes wrong. Ends with the run that makes no such call."""
        for nth in range(first, MOST_CALLS):
            faults = ",".join(f"{kind}:{nth + more}:{what}" for more, what in enumerate(whats))
            with self.subTest(faults=faults, at_once=at_once):
                failed, fault = self.hold(talk, faults, at_once)
                self.assertIsNone(fault, failed)
            if not failed:
                self.assertGreater(nth, first, f"no call of {kind}")
                return
        self.fail(f"{MOST_CALLS} calls of {kind}")

    def test_each_call_of_a_run(self):
        talk = small_talk()
        for at_once in (False, True):
            for kind, errors in ERRORS.items():
                for error in errors:
                    self.fail_each(talk, kind, error, at_once=at_once)

    def test_a_call_that_does_a_part_and_then_fails(self):
        talk = small_talk()
        for errors in (("short", "ENOSPC"), ("short", "short", "EIO"), ("EINTR", "short", "EINTR")):
            self.fail_each(talk, "write", *errors)
        files = [path.read_bytes() for path in self.folder.glob("*/store/*.bitcask.data")]
        self.assertGreater(self.cuts, 0, "no run cut off a first part of a record")
        self.assertFalse(any(parsed(text)[1] for text in files), "a run left a first part of a record")

    def test_every_call_does_a_part(self):
        for at_once in (False, True):
            faults = ",".join(f"{kind}:0:short" for kind, errors in ERRORS.items() if "short" in errors)
            failed, fault = self.hold(small_talk(), faults, at_once)
            self.assertIsNone(fault)
            self.assertGreater(len(failed), MOST_CALLS)

    def test_the_calls_at_a_full_file(self):
        talk = large_talk()
        self.fail_each(talk, "fsync", "EIO", first=2)
        self.fail_each(talk, "fsync", "EINTR", first=2, at_once=True)
        self.fail_each(talk, "open", "EIO", first=5)

    def test_a_program_that_writes_a_part_again_is_told(self):
        talk = small_talk()
        for nth in range(1, MOST_CALLS):
            failed, fault = self.hold(talk, f"write:{nth}:restart")
            if not failed:
                break
            with self.subTest(nth=nth):
                self.assertIsNotNone(fault, failed)
        self.assertGreater(nth, len(talk.requests))


if __name__ == "__main__":
    unittest.main()
