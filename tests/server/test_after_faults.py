"""After a client whose session ended by a fault, its worker serves another."""
import re
import socket
import struct

from parts import MODE, ServerTest, configuration
from talk import store, values

KEY = b"k"
VALUE = b"x" * 1048576
SERVED = values((b"a", b"1"))
# A connection that says nothing for so many seconds has failed.
LIMIT = 120
MIB = 1024


class AfterFaults(ServerTest):
    """One worker, which each of these faults must leave at work."""

    def setUp(self):
        self.server = self.memcached("-I", "2m")
        with self.server.client() as direct:
            self.assertEqual(direct.ask(store(b"a", b"1")), b"STORED\r\n")
            self.assertEqual(direct.ask(store(KEY, VALUE)), b"STORED\r\n")

    def served(self, **options):
        return self.proxy(configuration(only=[self.server]), threads=1, connections=2, timeout=60000, **options)

    def assert_another_is_served(self, proxy, note=b"note: 1 of 2 sessions ended by a fault\n"):
        """The same worker answers a second client, and the totals come after it."""
        with proxy.client(limit=LIMIT) as other:
            self.assertEqual(other.ask(b"get a\r\n"), SERVED)
        status, totals = proxy.end(LIMIT)
        self.assertEqual(status, 0)
        self.assertRegex(totals, r"^total request \d+\n")
        self.assertIn(note, proxy.error_text())

    def test_a_read_that_fails(self):
        proxy = self.served()
        client = proxy.client(limit=LIMIT)
        self.assertEqual(client.ask(b"version\r\n"), b"VERSION tkoproxy 1\r\n")
        client.socket.setsockopt(socket.SOL_SOCKET, socket.SO_LINGER, struct.pack("ii", 1, 0))
        client.close()
        self.assert_another_is_served(proxy)

    def test_a_write_that_fails(self):
        proxy = self.served(write_timeout=300)
        with proxy.client(limit=LIMIT) as client:
            client.send(b"get" + b" %s" % KEY * 60 + b"\r\n")
            self.assert_another_is_served(proxy)

    def test_a_line_that_is_too_long(self):
        proxy = self.served()
        with proxy.client(limit=LIMIT) as client:
            client.send(b"get " + b"a" * 70000)
            self.assertEqual(client.rest(), b"CLIENT_ERROR line too long\r\n")
        self.assert_another_is_served(proxy)

    def test_a_client_of_the_binary_protocol_is_no_fault(self):
        proxy = self.served()
        with proxy.client(limit=LIMIT) as client:
            client.send(b"\x80")
            self.assertEqual(client.rest(), b"")
        with proxy.client(limit=LIMIT) as other:
            self.assertEqual(other.ask(b"get a\r\n"), SERVED)
        self.assertEqual(proxy.end(LIMIT)[0], 0)
        self.assertNotIn(b"fault", proxy.error_text())

    def test_memory_that_runs_out(self):
        # The reply is larger than all addresses that the program has, since how many its threads set aside, and do not use,
        # differs from run to run. (An event-driven worker holds no reply above 64 MiB.)
        memory, count = (300, 1000) if MODE == "threads" else (60, 60)
        proxy = self.served(memory=memory * MIB)
        with proxy.client(limit=LIMIT) as client:
            client.send(b"get" + b" %s" % KEY * count + b"\r\n")
            self.assertEqual(client.rest(), b"")
        self.assert_another_is_served(proxy)
        self.assertTrue(re.search(rb"note: memory ran out in a session", proxy.error_text()))
