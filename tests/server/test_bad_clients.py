"""Clients that go away, say nothing, or send what no client should; other clients are served as before."""
import random
import socket
import struct
import time

from parts import ServerTest, configuration
from talk import store, values

VERSION = b"VERSION tkoproxy 1\r\n"


class BadClients(ServerTest):
    def setUp(self):
        self.server = self.memcached("-I", "2m")
        self.through = self.proxy(configuration(only=[self.server]), threads=2)
        self.other = self.client(self.through.port)

    def tearDown(self):
        """The other client, and then a new one in the place of the bad one, are answered."""
        self.assertEqual(self.other.ask(store(b"end", b"well")), b"STORED\r\n")
        with self.through.client() as client:
            self.assertEqual(client.ask(b"get end\r\n"), values((b"end", b"well")))

    def test_that_goes_away_inside_a_request(self):
        self.other.ask(store(b"a", b"before"))
        for cut in (b"g", b"get a", b"set a 0 0 5\r\n", b"set a 0 0 5\r\nafter", b"set a 0 0 5\r\nafter\r",
                    b"set a 0 0 1048576\r\n" + b"x" * 1000000, b"set a 0 0 18446744073709551615\r\nx"):
            for way in (self.close, self.reset):
                with self.through.client() as client:
                    client.send(cut)
                    way(client)
        # One of the two workers is the other client's, so it is this one that the seven came to.
        with self.through.client() as client:
            self.assertEqual(client.ask(b"get a\r\n"), values((b"a", b"before")))

    def close(self, client):
        client.end_input()
        client.rest()

    def reset(self, client):
        client.socket.setsockopt(socket.SOL_SOCKET, socket.SO_LINGER, struct.pack("ii", 1, 0))

    def test_that_goes_away_before_its_replies(self):
        self.other.ask(store(b"large", b"x" * 1000000))
        for _ in range(5):
            with self.through.client() as client:
                client.send(b"get large\r\n" * 100)
                self.reset(client)
        self.assertEqual(len(self.other.ask(b"get large\r\n")), 1000000 + len(b"VALUE large 0 1000000\r\n\r\nEND\r\n"))

    def test_that_sends_nothing_for_long(self):
        silent = self.client(self.through.port)
        self.assertTrue(silent.is_quiet(3))
        self.assertEqual(silent.ask(b"version\r\n"), VERSION)
        silent.send(b"set slow 0 0 4\r\n")
        for byte in b"slow\r\n":
            self.assertTrue(silent.is_quiet(0.3))
            silent.send(bytes([byte]))
        self.assertEqual(silent.reply(), b"STORED\r\n")
        self.assertEqual(self.other.ask(b"get slow\r\n"), values((b"slow", b"slow")))
        silent.close()

    def test_a_line_that_is_too_long(self):
        with self.through.client() as client:
            client.send(b"version\r\n" + b"x" * 65537)
            self.assertEqual(client.rest(), VERSION + b"CLIENT_ERROR line too long\r\n")
        with self.through.client() as client:
            self.assertEqual(client.ask(b"x" * 65536 + b"\n"), b"ERROR\r\n")
            self.assertEqual(client.ask(b"get" + (b" " + b"k" * 250) * 261 + b"\r\n"), b"END\r\n")

    def test_data_that_are_skipped(self):
        before = self.through.status("VmRSS")
        with self.through.client() as client:
            client.send(b"set a 0 0 100000000\r\n")
            self.assertEqual(client.reply(), b"SERVER_ERROR object too large for cache\r\n")
            for _ in range(100):
                client.send(b"quit\r\n" + b"x" * 999994)
            self.assertEqual(client.ask(b"\r\nversion\r\n"), VERSION)
            self.assertEqual(client.ask(b"set a 0 0 3\r\nabcdef\0" + b"y" * 1000000 + b"\r\n"),
                             b"CLIENT_ERROR bad data chunk\r\n")
            self.assertEqual(client.ask(b"get a\r\n"), b"END\r\n")
        self.assertLess(self.through.status("VmRSS"), before + 8192)

    def test_no_line_of_another_protocol_gets_through(self):
        for line in (b"mg a v\r\n", b"ms a 1\r\nx\r\n", b"GET / HTTP/1.1\r\nHost: a\r\n\r\n",
                     b"*1\r\n$4\r\nPING\r\n", b"flush_all\r\n", b"shutdown\r\n", b"set a 0 0 1\rx\r\n",
                     b"get a\r\rflush_all\r\n"):
            self.other.ask(store(b"a", b"kept"))
            with self.through.client() as client:
                client.send(line + b"quit\r\n")
                for reply in client.rest().split(b"\r\n")[:-1]:
                    self.assertIn(reply.split()[0], (b"ERROR", b"CLIENT_ERROR"))
            self.assertEqual(self.other.ask(b"get a\r\n"), values((b"a", b"kept")))

    def test_of_the_binary_protocol_is_closed_at_once(self):
        # The 24 bytes of the header of a `get`, of the key `a`; then what else begins with such a byte.
        header = bytes([0, 0, 1, 0, 0, 0, 0, 0, 0, 0, 1]) + bytes(12)
        for first in (b"\x80", b"\x81"):
            for sent in (first + header, first + header + b"a", first, first + b"get a\r\nversion\r\n"):
                with self.subTest(sent=sent), self.through.client(limit=0.5) as client:
                    client.send(sent)
                    self.assertEqual(self.first_byte(client), b"")

    def first_byte(self, client):
        """The first byte that comes, or none at the end. Where the proxy left bytes unread the system resets."""
        try:
            return client.socket.recv(1)
        except ConnectionResetError:
            return b""

    def test_that_sends_a_byte_of_the_binary_protocol_later_is_answered(self):
        for late in (b"\x80", b"\x81"):
            with self.through.client() as client:
                self.assertEqual(client.ask(late.join((b"get", b"a\r\n"))), b"ERROR\r\n")
                self.assertEqual(client.ask(late + b"version\r\n"), b"ERROR\r\n")
                self.assertEqual(client.ask(b"version\r\n"), VERSION)

    def test_random_bytes(self):
        random.seed(3)
        words = [b"get ", b"set ", b"gets", b"incr ", b"a", b" 0", b" 0 1", b"99999999999999999999", b"\r\n", b"\n",
                 b" ", b"\0"]
        for _ in range(200):
            with self.through.client() as client:
                client.send(b"".join(random.choice(words + [random.randbytes(5)]) for _ in range(100)))
                client.end_input()
                client.rest()

    def test_a_slow_reader_does_not_hold_other_clients(self):
        value = random.Random(4).randbytes(1000000)
        self.other.ask(store(b"large", value))
        before = self.through.status("VmRSS")
        with self.through.client() as slow:
            slow.send(b"get large\r\n" * 100)
            time.sleep(0.5)
            for _ in range(20):
                self.assertTrue(self.other.ask(b"get large\r\n") == values((b"large", value)))
            # The replies that nobody reads are not kept.
            self.assertLess(self.through.status("VmRSS"), before + 16384)
            for _ in range(100):
                self.assertTrue(slow.reply() == values((b"large", value)))
