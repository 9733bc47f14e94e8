"""Where the proxy answers otherwise than memcached does: the tables of docs/protocol.md, each row seen on both."""
import subprocess
import time

import pylibmc
from pymemcache.client.base import Client as PymemcacheClient
from pymemcache.exceptions import MemcacheError, MemcacheUnknownCommandError

from parts import ServerTest, configuration
from ports import HOST
from talk import store, values

VERSION, END = b"VERSION tkoproxy 1\r\n", b"END\r\n"
LINE, KEY, LARGE = b"CLIENT_ERROR bad command line format\r\n", b"CLIENT_ERROR bad key\r\n", \
    b"SERVER_ERROR object too large for cache\r\n"
CHUNK, DELTA = b"CLIENT_ERROR bad data chunk\r\n", b"CLIENT_ERROR invalid numeric delta argument\r\n"
ERROR, LONG = b"ERROR\r\n", b"k" * 251
# A request, and all that memcached and the proxy answer to it; `version` shows where each reads on.
ANSWERS = [
    (b"get a\tb\r\n", END, KEY), (b"get a b\0\r\n", values((b"a", b"1")), KEY), (b"get %s\r\n" % LONG, LINE, KEY),
    (b"get\r\n", ERROR, LINE), (b"incr a\r\n", ERROR, LINE), (b"cas a 0 0 1\r\nx\r\n", ERROR * 2, LINE + ERROR),
    (b"incr a x\r\n", DELTA, LINE), (b"touch a x\r\n", b"CLIENT_ERROR invalid exptime argument\r\n", LINE),
    (b"touch a +5\r\n", b"TOUCHED\r\n", LINE),
    (b"set a 0 0 1 norply\r\n1\r\n", b"STORED\r\n", LINE + ERROR),
    (b"set a 4294967296 0 1\r\n1\r\n", b"STORED\r\n", LINE + ERROR),
    (b"set a 0 0 2\r\nxyz\r\n", CHUNK + ERROR, CHUNK),
    (b"set a 0 0 4294967295\r\nversion\r\n", LINE + b"VERSION 1", LARGE),
    (b"set a 0 0 18446744073709551615\r\nversion\r\n", LINE + b"VERSION 1", LARGE),
    (b"set a 0 0 2000000\r\nversion\r\n", b"", LARGE),
    (b"set a 0 0 2000000 noreply\r\nversion\r\n", b"", LARGE),
    (b"delete %s noreply\r\nversion\r\n" % LONG, b"VERSION 1", KEY + VERSION),
    (b"incr a x noreply\r\nversion\r\n", b"VERSION 1", LINE + VERSION),
    (b"set a 0 0 x noreply\r\nversion\r\n", b"VERSION 1", LINE + VERSION),
    (b"set a 0 0 2 noreply\r\nxyz\r\nversion\r\n", ERROR + b"VERSION 1", CHUNK + VERSION),
    (b"flush_all noreply\r\nversion\r\n", b"VERSION 1", ERROR + VERSION),
    (b"version x\r\n", b"VERSION 1", LINE), (b"quit x\r\nversion\r\n", b"", LINE + VERSION),
    (b"delete a 0\r\n", b"DELETED\r\n", LINE), (b"gat 0 b\r\n", END, ERROR), (b"mn\r\n", b"MN\r\n", ERROR),
    (b"verbosity 1\r\n", b"OK\r\n", ERROR), (b"cache_memlimit 64\r\n", b"OK\r\n", ERROR),
    (b"flush_all\r\n", b"OK\r\n", ERROR), (b"stats tko\r\n", ERROR, b"STAT 127.0.0.1:"),
    # A browser that a page made send this stores a value by the proxy, and memcached closes its connection.
    (b"POST / HTTP/1.1\r\nHost: x\r\n\r\nset z 0 0 1\r\ny\r\n", b"", ERROR * 3 + b"STORED\r\n"),
]


class Differences(ServerTest):
    def setUp(self):
        self.direct = self.memcached("-I", "4m")
        self.behind = self.memcached("-I", "4m")
        self.proxied = self.proxy(configuration(only=[self.behind]), threads=8)

    def ports(self):
        return self.direct.port, self.proxied.port

    def test_answers(self):
        for request, *wanted in ANSWERS:
            for port, expected in zip(self.ports(), wanted):
                with self.client(port) as client:
                    client.ask(store(b"a", b"1"))
                    client.send(request)
                    given = self.all_of(client, len(expected))
                    self.assertEqual((request[:60], given[:len(expected)]), (request[:60], expected))
                    if not expected.endswith(b" 1") and not expected.startswith(b"STAT"):
                        self.assertEqual((request[:60], given), (request[:60], expected))

    def all_of(self, client, least):
        """What came until nothing more came for 50 ms, once so many bytes are there."""
        given, last = b"", time.monotonic() + 5
        client.socket.settimeout(0.05)
        while time.monotonic() < last:
            try:
                piece = client.socket.recv(65536)
            except TimeoutError:
                if len(given) >= least:
                    break
                continue
            if not piece:
                break
            given += piece
        return given

    def test_a_value_above_a_mebibyte_marks_its_server_for_all(self):
        with self.behind.client() as client:
            client.ask(store(b"large", b"x" * 1048577))
        with self.client(self.proxied.port) as client:
            for mark in ("up:1", "up:2", "soft"):
                self.assertEqual(client.ask(b"get large\r\n"), b"SERVER_ERROR no server\r\n")
                self.assertTrue(self.proxied.marks()[self.behind.address].startswith(mark))
        with self.client(self.proxied.port) as other:
            self.assertEqual(other.ask(b"get small\r\n"), b"SERVER_ERROR no server\r\n")

    def test_a_value_that_is_too_large_leaves_the_old_one(self):
        # memcached deletes the value that it cannot replace.
        for port, left in ((self.memcached().port, None), (self.proxied.port, b"old")):
            client = PymemcacheClient((HOST, port), timeout=10, default_noreply=False)
            client.set("a", b"old")
            with self.assertRaises(Exception):
                client.set("a", b"x" * 1048577)
            self.assertEqual(client.get("a"), left)

    def test_a_fault_of_a_line_with_noreply_is_the_answer_to_the_next(self):
        answers = []
        for port in self.ports():
            client = PymemcacheClient((HOST, port), timeout=10)
            client.flush_all()
            try:
                answers.append(client.get("nothing"))
            except MemcacheUnknownCommandError:
                answers.append("unknown command")
        self.assertEqual(answers, [None, "unknown command"])

    def test_a_large_set_without_a_reply_makes_libmemcached_read_other_values(self):
        read = []
        for port in self.ports():
            client = self.pylibmc(port)
            for key in "abc":
                client.set(key, "value of " + key)
            client.behaviors = {"_noreply": 1}
            client.set("large", "x" * 1048577)
            read.append([client.get(key) for key in "abc"])
        self.assertEqual(read, [["value of a", "value of b", "value of c"], [None, "value of a", "value of b"]])

    def test_many_keys_on_one_line_end_the_session(self):
        names = [f"{number}-" + "k" * 240 for number in range(300)]
        direct, proxied = (PymemcacheClient((HOST, port), timeout=10) for port in self.ports())
        self.assertEqual(direct.get_many(names), {})
        with self.assertRaises((MemcacheError, OSError)):
            proxied.get_many(names)

    def test_a_binary_client_fails_at_once(self):
        behaviors = {"receive_timeout": 5000000}
        self.assertTrue(pylibmc.Client([f"{HOST}:{self.direct.port}"], binary=True, behaviors=behaviors).set("a", 1))
        began = time.monotonic()
        with self.assertRaises(pylibmc.Error):
            pylibmc.Client([f"{HOST}:{self.proxied.port}"], binary=True, behaviors=behaviors).set("a", 1)
        self.assertLess(time.monotonic() - began, 3)

    def pylibmc(self, port):
        return pylibmc.Client([f"{HOST}:{port}"], binary=False)

    def test_what_libraries_and_tools_ask_in_vain(self):
        for name, call in (("stats", lambda client: client.stats()), ("shutdown", lambda client: client.shutdown()),
                           ("cache_memlimit", lambda client: client.cache_memlimit(64)),
                           ("flush_all", lambda client: client.flush_all(noreply=False))):
            with self.assertRaises(MemcacheUnknownCommandError, msg=name):
                call(PymemcacheClient((HOST, self.proxied.port), timeout=10))
        for call in (lambda client: client.get_stats(), lambda client: client.flush_all()):
            call(self.pylibmc(self.direct.port))
            with self.assertRaises(pylibmc.Error):
                call(self.pylibmc(self.proxied.port))
        for tool in ("memcping", "memcstat", "memcdump", "memcflush"):
            status = [subprocess.run([tool, f"--servers={HOST}:{port}"], capture_output=True, timeout=60,
                                     stdin=subprocess.DEVNULL, check=False).returncode for port in self.ports()]
            self.assertEqual((tool, status), (tool, [0, 1]))
