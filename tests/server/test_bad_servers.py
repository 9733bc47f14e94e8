"""Servers that accept connections and do not answer as memcached does."""
import threading
import time

from fakes import key_of
from parts import ServerTest, configuration, only_in
from ports import wait_until
from talk import store, values

TIMEOUT = 1.0
# This machine may be busy with other work: what is said of times holds by a wide margin.
SLACK = 10
UNREADABLE = [
    b"what\r\n", b"\x80\x00\x00\x00\r\n", b"STORED\r\n", b"VALUE b 0 1\r\nx\r\nEND\r\n", b"VALUE a 0 1\r\nxEND\r\n",
    b"VALUE a 0 2\r\nx\r\nEND\r\n", b"VALUE a 0 1 1\r\nx\r\nEND\r\n", b"VALUE a 0 1048577\r\n",
    b"VALUE a 0 -1\r\n", b"VALUE a 0 1\r\nx\r\nVALUE a 0 1\r\nx\r\nEND\r\n", b"END x\r\n", b"\r\n", b"x" * 65537,
]


class BadServers(ServerTest):
    def before_memcached(self, behave, threads=1, **options):
        """A proxy whose first pool is a fake, and whose second has `a` with the value `far`; and a client."""
        self.server, far = self.fake(behave), self.memcached()
        with far.client() as direct:
            direct.ask(store(b"a", b"far"))
        options = {"timeout": int(TIMEOUT * 1000), "threads": threads + 1, **options}
        proxy = self.proxy(configuration(near=[self.server], far=[far]), **options)
        return proxy, self.client(proxy.port)

    def mark(self, proxy):
        return proxy.marks()[self.server.address]

    def test_one_that_never_answers(self):
        proxy, client = self.before_memcached(lambda *_: None)
        for mark in ("up:1", "up:2", "soft"):
            reply, seconds = client.timed(b"get a\r\n")
            self.assertEqual(reply, values((b"a", b"far")))
            self.assertGreater(seconds, TIMEOUT * 0.9)
            self.assertLess(seconds, TIMEOUT + SLACK)
            self.assertEqual(self.mark(proxy)[:4], mark)
        for _ in range(20):
            self.assertEqual(client.ask(b"get a\r\n"), values((b"a", b"far")))
        self.assertEqual(len(self.server.requests), 3)

    def test_a_reply_comes_before_a_probe_that_hangs(self):
        """The client asks all the time, so that the probe is due with a request."""
        probing, over, asked = threading.Event(), threading.Event(), []

        def hang(_, request):
            if request != b"version\r\n":
                return b""
            probing.set()
            over.wait(SLACK)
            return b"VERSION 1\r\n"

        def far(_, request):
            asked.append(request)
            return b"END\r\n"

        near, far = self.fake(hang), self.fake(far)
        proxy = self.proxy(configuration(near=[near], far=[far]), failures=1, first_delay=500, greatest_delay=500,
                           timeout=3 * SLACK * 1000)
        self.addCleanup(over.set)
        with proxy.client() as client:
            replies = 0
            while not probing.is_set():
                client.send(b"get a\r\n")
                replies += 1
                while client.is_quiet(0.01) and not (probing.is_set() and len(asked) < replies):
                    # The other server has answered this request, and its reply was not kept for the probe.
                    self.assertFalse(probing.is_set() and client.is_quiet(SLACK / 2), "the reply waits for the probe")
                if not probing.is_set():
                    self.assertEqual(client.reply(), b"END\r\n")
            over.set()

    def test_failures_of_all_workers_count_together(self):
        proxy, first = self.before_memcached(lambda *_: None, threads=4)
        others = [self.client(proxy.port) for _ in range(3)]
        for client in [first, *others[:2]]:
            client.send(b"get a\r\n")
        for client in [first, *others[:2]]:
            self.assertEqual(client.reply(), values((b"a", b"far")))
        self.assertEqual(self.mark(proxy)[:4], "soft")
        self.assertEqual(others[2].ask(b"get a\r\n"), values((b"a", b"far")))
        self.assertEqual(len(self.server.requests), 3)

    def test_one_that_makes_no_connection(self):
        deaf, far = self.deaf(), self.memcached()
        limit = 5
        proxy = self.proxy(configuration(near=[deaf], far=[far]), timeout=limit * 1000)
        client = self.client(proxy.port)
        reply, seconds = client.timed(b"get a\r\n")
        self.assertEqual(reply, b"END\r\n")
        self.assertGreater(seconds, limit * 0.9)
        self.assertRegex(proxy.marks()[deaf.address], r"^hard:\d+$")
        # It is not waited for again.
        self.assertLess(client.timed(b"get a\r\n")[1], limit * 0.9)

    def test_one_that_answers_byte_by_byte(self):
        def trickle(connection, _):
            for byte in values((b"a", b"near" * 10)):
                time.sleep(TIMEOUT / 3)
                connection.sendall(bytes([byte]))

        _, client = self.before_memcached(trickle)
        reply, seconds = client.timed(b"get a\r\n")
        self.assertEqual(reply, values((b"a", b"far")))
        self.assertLess(seconds, TIMEOUT + SLACK)

    @only_in("threads", "an event-driven worker has one time limit for a whole response")
    def test_one_that_sends_a_large_value_slowly(self):
        """It takes longer than the limit in all, and makes progress all the time."""
        large = b"x" * 1000000

        def slow(connection, request):
            answer = values((key_of(request), large))
            for place in range(0, len(answer), 150000):
                time.sleep(TIMEOUT * 0.3)
                connection.sendall(answer[place:place + 150000])

        proxy, client = self.before_memcached(slow)
        reply, seconds = client.timed(b"get a\r\n")
        self.assertEqual(len(reply), len(values((b"a", large))))
        self.assertGreater(seconds, TIMEOUT * 1.5)
        self.assertEqual(self.mark(proxy), "up:0")

    def test_one_that_takes_most_of_the_limit_each_time(self):
        limit = 5

        def slow(connection, request):
            answer = values((key_of(request), b"near"))
            time.sleep(limit * 0.3)
            connection.sendall(answer[:9])
            time.sleep(limit * 0.3)
            return answer[9:]

        proxy, client = self.before_memcached(slow, timeout=limit * 1000)
        # The next exchange on the connection has the whole limit again, and the time in between is no part of it.
        for pause in (0, limit * 0.6):
            time.sleep(pause)
            self.assertEqual(client.ask(b"get a\r\n"), values((b"a", b"near")))
        self.assertEqual(self.mark(proxy), "up:0")
        self.assertEqual(len(self.server.connections), 1)

    def test_one_that_answers_garbage(self):
        answers = []
        proxy, client = self.before_memcached(lambda *_: answers[-1], failures=len(UNREADABLE))
        for count, answer in enumerate(UNREADABLE, 1):
            answers.append(answer)
            self.assertEqual((answer[:80], client.ask(b"get a\r\n")), (answer[:80], values((b"a", b"far"))))
            self.assertEqual(self.mark(proxy)[:4 + count // 10], f"up:{count}" if count < len(UNREADABLE) else "soft:")
        # After an unreadable answer the connection is not used again.
        self.assertEqual(len(self.server.connections), len(UNREADABLE))

    def test_one_that_closes_inside_an_answer(self):
        def cut(connection, request):
            connection.sendall(b"VALUE a 0 5\r\nhe")
            return b""

        proxy, client = self.before_memcached(cut)
        self.assertEqual(client.ask(b"get a\r\n"), values((b"a", b"far")))
        self.assertEqual(self.mark(proxy), "up:1")

    def test_one_that_closes_after_each_answer(self):
        def once(connection, request):
            connection.sendall(values((key_of(request), b"near")))
            return b""

        proxy, client = self.before_memcached(once)
        # A connection that was closed before the next request is not used for it.
        for count in range(1, 9):
            self.assertEqual(client.ask(b"get a\r\n"), values((b"a", b"near")))
            self.assertEqual(self.mark(proxy), "up:0")
            wait_until(lambda: self.server.closed == count, SLACK, "the server closes the connection")
        # Without one a request may meet the close and go on to the next pool; the client sees no error.
        replies = {client.ask(b"get a\r\n") for _ in range(50)}
        self.assertLessEqual(replies, {values((b"a", b"near")), values((b"a", b"far"))})
        self.assertRegex(self.mark(proxy), "^up:[01]$")

    def test_one_that_answers_twice(self):
        second = threading.Semaphore(0)

        def twice(connection, request):
            connection.sendall(values((key_of(request), b"near")))
            time.sleep(0.002)
            connection.sendall(b"ERROR\r\n")
            second.release()

        proxy, client = self.before_memcached(twice)
        # A second answer that comes by itself is never that of the next request.
        for _ in range(20):
            self.assertEqual(client.ask(b"get a\r\n"), values((b"a", b"near")))
            self.assertTrue(second.acquire(timeout=SLACK))
        self.assertEqual(self.mark(proxy), "up:0")

    def test_one_that_answers_too_late(self):
        def late(connection, request):
            if len(self.server.requests) == 1:
                time.sleep(TIMEOUT * 1.5)
            return values((key_of(request), b"near " + key_of(request)))

        proxy, client = self.before_memcached(late)
        self.assertEqual(client.ask(b"get a\r\n"), values((b"a", b"far")))
        self.assertEqual(self.mark(proxy), "up:1")
        # The late answer comes meanwhile, and is given to nobody.
        for key, pause in ((b"b", 0), (b"c", TIMEOUT), (b"a", 0)):
            time.sleep(pause)
            self.assertEqual(client.ask(b"get %s\r\n" % key), values((key, b"near " + key)))
        self.assertEqual(self.mark(proxy), "up:0")

    def test_one_that_says_more_than_it_was_asked(self):
        said = threading.Semaphore(0)

        def chatter(connection, request):
            more = [b"END\r\n", b"ERROR\r\n", b"x"][len(self.server.requests) % 3]
            connection.sendall(values((key_of(request), b"near " + key_of(request))))
            time.sleep(0.02)
            connection.sendall(more)
            said.release()

        proxy, client = self.before_memcached(chatter)
        for key in (b"a", b"b", b"c", b"d"):
            self.assertEqual(client.ask(b"get %s\r\n" % key), values((key, b"near " + key)))
            self.assertTrue(said.acquire(timeout=SLACK))
        self.assertEqual(self.mark(proxy), "up:0")

    def test_one_that_says_more_in_the_same_piece(self):
        proxy, client = self.before_memcached(
            lambda _, request: values((key_of(request), b"near " + key_of(request))) + b"END\r\n")
        for key in (b"a", b"b", b"c", b"d"):
            self.assertEqual(client.ask(b"get %s\r\n" % key), values((key, b"near " + key)))
        self.assertEqual(self.mark(proxy), "up:0")

    def test_a_success_resets_the_count_of_failures(self):
        broken = [True, True, False, True, True, False]
        proxy, client = self.before_memcached(
            lambda _, request: b"what\r\n" if broken[len(self.server.requests) - 1] else b"END\r\n")
        marks = []
        for _ in broken:
            client.ask(b"get a\r\n")
            marks.append(self.mark(proxy))
        self.assertEqual(marks, ["up:1", "up:2", "up:0", "up:1", "up:2", "up:0"])

    def test_the_probes_of_many_that_hang_share_one_time_limit(self):
        limit, came = 0.5, []

        def hang(_, request):
            if request == b"version\r\n":
                came.append(time.monotonic())

        servers = {f"p{number}": [self.fake(hang)] for number in range(8)}
        config = configuration(**servers, far=[self.memcached()])
        proxy = self.proxy(config, timeout=int(limit * 1000), failures=1, first_delay=1000, greatest_delay=60000)
        # One request marks them all, so their probes are due together.
        self.assertEqual(self.client(proxy.port).ask(b"get a\r\n"), b"END\r\n")
        wait_until(lambda: len(came) == len(servers), 30, "each server is probed")
        # By itself each would hold the worker, and the client that it serves, for the whole limit.
        self.assertLess(came[-1] - came[0], limit * len(servers) / 2)

    def test_probes_go_on_until_one_is_answered(self):
        def ill_at_first(_, request):
            if request != b"version\r\n":
                return b"what\r\n" if self.server.count(b"version") == 0 else values((key_of(request), b"near"))
            return b"VERSION 1.6\r\n" if self.server.count(b"version") == 4 else b"what\r\n"

        # A client that says nothing, and one that has left.
        for stays in (True, False):
            proxy, client = self.before_memcached(ill_at_first, failures=1, first_delay=100, greatest_delay=200)
            self.assertEqual(client.ask(b"get a\r\n"), values((b"a", b"far")))
            if not stays:
                client.close()
            # The first after 0.1 s, each later one 0.2 s after the one before.
            seconds = wait_until(lambda: self.server.count(b"version") == 4, 10, "the probes come")
            self.assertGreater(seconds, 0.6)
            self.assertLess(seconds, 0.7 + SLACK)
            wait_until(lambda: self.mark(proxy) == "up:0", SLACK, "the mark is cleared")
            self.assertEqual(self.server.requests, [b"get a\r\n"] + [b"version\r\n"] * 4)
            with proxy.client() as later:
                self.assertEqual(later.ask(b"get a\r\n"), values((b"a", b"near")))
