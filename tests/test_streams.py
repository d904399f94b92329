"""How the input is cut changes nothing, a client that waits is answered, and a fault of a stream has its status."""

import os
import random
import socket
import struct
import time
import unittest

from support import Client, StoreTest, found, get, numbered, put

PAUSE = 0.002  # seconds; long enough for the program to read what was sent


class Cuts(StoreTest):
    given = put(b"a", b"1") + get(b"a") + put(b"\n\n", b"GET 1\n") + get(b"\n\n") + get(b"no")
    replies = numbered(1) + found(b"1") + numbered(2) + found(b"GET 1\n") + b"NONE\n"

    def test_a_slow_writer_of_single_bytes(self):
        client = self.client()
        for at in range(len(self.given)):
            client.send(self.given[at:at + 1])
            time.sleep(PAUSE)
        self.assert_ended(client.finish(), 0, self.replies)
        self.assert_holds([(b"a", b"1"), (b"\n\n", b"GET 1\n")])

    def test_input_in_two_pieces_cut_at_each_byte(self):
        for at in range(len(self.given) + 1):
            with self.subTest(at=at):
                folder = self.folder / str(at)
                folder.mkdir()
                with Client("pipe", str(folder)) as client:
                    client.send(self.given[:at])
                    time.sleep(PAUSE)
                    self.assert_ended(client.finish(self.given[at:]), 0, self.replies)

    def test_pieces_of_any_size(self):
        chance = random.Random(5)
        value = chance.randbytes(200_000)
        given = b"".join(put(b"%d" % i, value[:1_000 * i]) + get(b"%d" % i) for i in range(1, 60))
        replies = b"".join(numbered(i) + found(value[:1_000 * i]) for i in range(1, 60))
        client, answered, at = self.client(), b"", 0
        for i in range(1, 60):
            size = len(put(b"%d" % i, value[:1_000 * i]) + get(b"%d" % i))
            middle = at + chance.randrange(size)
            client.send(given[at:middle])
            client.send(given[middle:at + size])
            answered += client.receive(len(numbered(i) + found(value[:1_000 * i])))
            at += size
        self.assertTrue(answered == replies, "the replies have other bytes")
        self.assert_ended(client.finish(), 0)

    def test_a_client_that_waits_for_each_reply(self):
        client, writes = self.client(), []
        for i in range(200):
            key, value = b"k%d" % (i % 7), b"v%d" % i
            writes.append((key, value))
            for request, reply in ((put(key, value), numbered(i + 1)), (get(key), found(value))):
                client.send(request)
                self.assertEqual(client.receive(len(reply)), reply)
        self.assert_ended(client.finish(), 0)
        self.assert_holds(writes)

    def test_a_whole_request_is_answered_while_the_next_is_cut(self):
        client = self.client()
        client.send(put(b"a", b"1") + get(b"a")[:-1])
        self.assertEqual(client.receive(5), numbered(1))
        client.send(b"\n" + b"PU")
        self.assertEqual(client.receive(10), found(b"1"))
        self.assert_ended(client.finish(b"T 1 0\nb\n"), 0, numbered(2))

    def test_the_input_ends_within_a_request(self):
        before = put(b"a", b"1")
        for request in (put(b"bc", b"\n23"), get(b"a\n"), b"PUT 65535 16777216\n"):
            for at in range(1, len(request)):
                with self.subTest(request=request, at=at):
                    folder = self.folder / f"{len(request)} {at}"
                    folder.mkdir()
                    with Client("pipe", str(folder)) as client:
                        self.assert_ended(client.finish(before + request[:at]), 6, numbered(1) + b"SYNTAX 11\n", "syntax")
                    self.assertEqual((folder / "1.bitcask.data").stat().st_size, 24)

    def test_the_input_ends_within_the_first_request(self):
        self.assert_ended(self.pipe(put(b"a", b"1")[:-1]), 6, b"SYNTAX 0\n", "syntax")
        self.assertEqual(self.files(), {})


class Faults(StoreTest):
    def test_output_that_nobody_reads(self):
        reading, writing = os.pipe()
        os.close(reading)
        ended = self.pipe(put(b"a", b"1") + get(b"a"), stdout=writing)
        os.close(writing)
        self.assert_ended(ended, 5, b"", "sink")
        self.assert_holds([(b"a", b"1")])

    def test_output_to_a_full_device(self):
        with open("/dev/full", "wb") as full:
            self.assert_ended(self.pipe(get(b"a"), stdout=full), 5, b"", "sink")
        self.assertEqual(self.files(), {})

    def test_a_reader_that_goes_away(self):
        client = self.client()
        client.send(put(b"a", b"1"))
        self.assertEqual(client.receive(5), numbered(1))
        client.process.stdout.close()
        client.process.stdout = None
        self.assert_ended(client.finish(get(b"a")), 5, b"", "sink")

    def test_no_reply_needs_no_output(self):
        with open("/dev/full", "wb") as full:
            self.assert_ended(self.pipe(b"", stdout=full), 0)

    def test_input_that_can_not_be_read(self):
        at = os.open(self.folder, os.O_RDONLY)
        self.addCleanup(os.close, at)
        self.assert_ended(self.pipe(None, stdin=at), 4, b"", "source")
        self.assertEqual(self.files(), {})

    def test_a_connection_that_breaks(self):
        with socket.create_server(("127.0.0.1", 0)) as door:
            peer = socket.create_connection(door.getsockname(), timeout=30)
            accepted, _ = door.accept()
        with peer, accepted:
            accepted.settimeout(None)
            client = self.client(stdin=accepted.fileno())
            peer.sendall(put(b"a", b"1") + get(b"a"))
            self.assertEqual(client.receive(15), numbered(1) + found(b"1"))
            peer.setsockopt(socket.SOL_SOCKET, socket.SO_LINGER, struct.pack("ii", 1, 0))
            peer.close()
            self.assert_ended(client.ended(), 4, b"", "source")
        self.assert_holds([(b"a", b"1")])


if __name__ == "__main__":
    unittest.main()
