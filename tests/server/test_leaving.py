"""Clients that leave at every place of a request, a thousand of them: what they asked for is counted exactly, and nothing
of them stays."""
import itertools
import re
import socket
import struct
import threading

from parts import MODE, ServerTest, configuration
from ports import wait_until
from talk import store, values

THREADS = 4
# How many KiB more may be resident once 800 more clients have left. What many clients of an event-driven worker hold at
# once is not given back to the system at once: it went up and down between 14 and 31 MiB over 5,000 clients.
MORE = 4096 if MODE == "threads" else 32 * 1024
# How long a test waits for what comes at once on an idle machine.
SLACK = 60
KINDS = ["request", "attempt", "skip", "reply", "no-server", "probe"]
LARGE = b"x" * 1000000
MANY = 4


class Server:
    """What the server answers; to a `get` of a key `slow-N` only once the client N has left."""

    def __init__(self):
        self.numbers = itertools.count()
        self.came, self.left = {}, {}

    def next_slow(self):
        key = b"slow-%d" % next(self.numbers)
        self.came[key], self.left[key] = threading.Event(), threading.Event()
        return key

    def behave(self, _, request):
        word, key = request.split()[:2] if b" " in request else (request.strip(), b"")
        if word == b"version":
            return b"VERSION 1\r\n"
        if word == b"set":
            return b"STORED\r\n"
        if key == b"large":
            return values((key, LARGE))
        if key in self.came:
            self.came[key].set()
            self.left[key].wait(SLACK)
        return b"END\r\n"


def close(client):
    client.close()


def reset(client):
    client.socket.setsockopt(socket.SOL_SOCKET, socket.SO_LINGER, struct.pack("ii", 1, 0))
    client.close()


def cut(sent):
    """A client that leaves where it has sent this, which is no whole request."""
    def leave(client, _, way):
        client.send(sent)
        way(client)
        return 0, 0
    return leave


def before_the_reply(client, server, way):
    key = server.next_slow()
    client.send(b"get " + key + b"\r\n")
    if not server.came[key].wait(SLACK):
        raise AssertionError("the request does not come to the server")
    way(client)
    server.left[key].set()
    return 1, 1


def inside_a_value(client, _, way):
    """Its four values are more than the system keeps for a client that does not read."""
    client.send(b"get" + b" large" * MANY + b"\r\n")
    client.file.read(100)
    way(client)
    return 1, MANY


def behind_a_reply(client, _, way):
    if client.ask(store(b"a", b"hello")) != b"STORED\r\n":
        raise AssertionError("the value is not stored")
    way(client)
    return 1, 1


# Each returns how many requests it made, and how many of them went to a server, a key for each.
PLACES = [*(cut(sent) for sent in (
    b"", b"g", b"get a", b"set a 0 0 5", b"set a 0 0 5\r\n", b"set a 0 0 5\r\nhe", b"set a 0 0 5\r\nhello",
    b"set a 0 0 5\r\nhello\r", b"set a 0 0 1000000\r\n" + LARGE[:500000], b"set a 0 0 18446744073709551615\r\nx")),
    before_the_reply, inside_a_value, behind_a_reply]
# Where a client closes its connection, and where it has it reset.
LEAVING = list(itertools.product(PLACES, (close, reset)))


class Leavers:
    """Clients on several threads, which leave at all these places in turn."""

    def __init__(self, server):
        self.server = server
        self.requests = self.attempts = self.cut_values = 0
        self.faults = []
        self.lock = threading.Lock()

    def go(self, proxy, count):
        """So many clients, as many for each thread."""
        threads = [threading.Thread(target=self.run, args=(proxy, range(place, count, THREADS)), daemon=True)
                   for place in range(THREADS)]
        for thread in threads:
            thread.start()
        for thread in threads:
            thread.join()

    def run(self, proxy, numbers):
        try:
            for number in numbers:
                leave, way = LEAVING[number % len(LEAVING)]
                made = leave(proxy.client(limit=SLACK), self.server, way)
                with self.lock:
                    self.requests += made[0]
                    self.attempts += made[1]
                    self.cut_values += leave is inside_a_value
        except Exception as error:  # Whatever ends a thread of clients is a fault.
            self.faults.append(repr(error))


class Leaving(ServerTest):
    def setUp(self):
        self.server = Server()
        self.far = self.fake(self.server.behave)
        self.leavers = Leavers(self.server)

    def leave(self, proxy, count):
        self.leavers.go(proxy, count)
        self.assertEqual(self.leavers.faults, [])

    def test_nothing_is_left_of_a_thousand_clients(self):
        proxy = self.proxy(configuration(only=[self.far]), connections=1000, threads=THREADS, timeout=60000)
        # Each worker has its connection to the server once all of them are busy at once.
        first = [self.client(proxy.port) for _ in range(THREADS)]
        for client in first:
            self.assertEqual(client.ask(b"get a\r\n"), b"END\r\n")
        files, tasks = proxy.files() - THREADS, proxy.status("Threads")
        for client in first:
            client.close()
        self.leave(proxy, 200)
        wait_until(lambda: proxy.files() == files, SLACK, f"no descriptor is open but the {files} of before")
        memory = proxy.status("VmRSS")
        self.leave(proxy, 1000 - THREADS - 200 - 1)
        wait_until(lambda: proxy.files() == files, SLACK, f"no descriptor is open but the {files} of before")
        self.assertEqual(proxy.status("Threads"), tasks)
        self.assertLess(proxy.status("VmRSS"), memory + MORE)
        with proxy.client(limit=SLACK) as last:
            self.assertEqual(proxy.marks_by(last), {self.far.address: "up:0"})
        asked = self.leavers.attempts + THREADS
        self.assert_ends(proxy, [self.leavers.requests + THREADS + 1, asked, 0, asked, 0, 0])
        self.assertEqual(len(self.far.requests), asked)
        # A client that leaves inside a value is a fault of its session.
        told = re.search(rb"note: (\d+) of 1000 sessions ended by a fault\n", proxy.error_text())
        self.assertGreaterEqual(int(told.group(1)), self.leavers.cut_values)

    def test_no_mark_stays_whose_worker_ended(self):
        near = self.closed()
        proxy = self.proxy(configuration(near=[near], far=[self.far]), connections=102, threads=THREADS, timeout=60000,
                           first_delay=4000000000, greatest_delay=4000000000)
        with proxy.client(limit=SLACK) as watch:
            looks = []

            def mark():
                """As the watching client is told, whose worker never comes to the closed port: the mark is another's."""
                looks.append(proxy.marks_by(watch)[near.address])
                return looks[-1]

            self.assertEqual(mark(), "up:0")
            with proxy.client(limit=SLACK) as first:
                self.assertEqual(first.ask(b"get a\r\n"), b"END\r\n")
            self.leave(proxy, 99)
            # The worker that made the mark is there, and nothing probes the closed port.
            self.assertRegex(mark(), "hard:")
            with proxy.client(limit=SLACK):
                pass
            # No client comes any more, so the three workers that have none end.
            wait_until(lambda: mark() == "up:0", SLACK, "the mark is given up")
        asked = self.leavers.attempts + 1
        self.assert_ends(proxy, [self.leavers.requests + 1 + len(looks), asked + 1, asked - 1, asked, 0, 0])

    def assert_ends(self, proxy, numbers):
        """It ends by itself, with these totals."""
        totals = "".join(f"total {kind} {number}\n" for kind, number in zip(KINDS, numbers))
        self.assertEqual(proxy.end(SLACK), (0, totals))
