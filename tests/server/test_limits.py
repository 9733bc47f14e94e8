"""Descriptors that run out, and clients that keep a worker waiting."""
import contextlib
import itertools
import resource
import socket
import threading
import time
import unittest

from parts import MODE, ServerTest, configuration, only_in
from ports import HOST, free_port, wait_until
from talk import Client, store, values
from test_metrics import ask, numbers_in

VERSION = b"VERSION tkoproxy 1\r\n"
NO_SERVER = b"SERVER_ERROR no server\r\n"
# This machine has other work to do.
SLACK = 10


@contextlib.contextmanager
def repeated(act, pause):
    """Meanwhile `act()` is called again and again, with a pause after each call, until it fails."""
    over = threading.Event()

    def repeat():
        with contextlib.suppress(OSError):
            while not over.is_set():
                act()
                over.wait(pause)

    thread = threading.Thread(target=repeat, daemon=True)
    thread.start()
    try:
        yield
    finally:
        over.set()
        thread.join()


def trickling(client, piece, pause):
    """Meanwhile this client sends the piece again and again."""
    return repeated(lambda: client.send(piece), pause)


class Descriptors(ServerTest):
    def clients(self, proxy, count):
        clients = [self.client(proxy.port) for _ in range(count)]
        for client in clients:
            client.send(b"version\r\n")
        return clients

    @only_in("threads", "workers need other descriptors there")
    def test_it_says_what_it_needs_and_has(self):
        servers = [self.closed() for _ in range(6)]
        for open_files, threads, line in (
                (1000, 4, b"note: 116 descriptors needed at most, 1000 allowed: 4 workers, 68 clients at once\n"),
                (128, 16, b"note: 224 descriptors needed at most, 128 allowed: 12 workers, 16 clients at once\n"),
                (20, 16, b"note: 224 descriptors needed at most, 20 allowed: 1 workers, 1 clients at once\n")):
            proxy = self.proxy(configuration(only=servers), open_files=open_files, threads=threads, log="off")
            self.assertEqual(proxy.error_text().splitlines(True)[-1], line)

    @only_in("events", "workers need other descriptors there")
    def test_it_says_what_event_driven_workers_need_and_have(self):
        servers = [self.closed() for _ in range(6)]
        for open_files, options, line in (
                (1000, {}, b"note: 1000 descriptors needed at most, 1000 allowed: 2 workers, 966 clients at once\n"),
                (1000, {"clients": 100},
                 b"note: 134 descriptors needed at most, 1000 allowed: 2 workers, 100 clients at once\n"),
                (60, {"threads": 4},
                 b"note: 60 descriptors needed at most, 60 allowed: 4 workers, 8 clients at once\n"),
                (60, {"threads": 8, "clients": 1000},
                 b"note: 1088 descriptors needed at most, 60 allowed: 4 workers, 8 clients at once\n"),
                (20, {"threads": 8, "clients": 1000},
                 b"note: 1088 descriptors needed at most, 20 allowed: 1 workers, 1 clients at once\n")):
            proxy = self.proxy(configuration(only=servers), open_files=open_files, log="off", **options)
            self.assertEqual(proxy.error_text().splitlines(True)[-1], line)

    @unittest.skipIf(resource.getrlimit(resource.RLIMIT_AS)[1] != resource.RLIM_INFINITY, "memory is limited here")
    def test_it_says_where_memory_has_no_limit(self):
        proxy = self.proxy(configuration(only=[self.closed()]), log="off", memory="unlimited")
        first, second = proxy.error_text().splitlines()
        self.assertEqual(first, b"note: no limit on memory is set (ulimit -v, LimitAS of the unit)")
        self.assertRegex(second, rb"^note: .* descriptors needed at most, ")

    def test_it_says_nothing_of_memory_that_has_a_limit(self):
        proxy = self.proxy(configuration(only=[self.closed()]), log="off", memory=4_000_000)
        self.assertRegex(proxy.error_text(), rb"\Anote: .* descriptors needed at most, [^\n]*\n\Z")

    @only_in("threads", "as many clients are served at once as there are workers")
    def test_more_clients_than_descriptors(self):
        server = self.memcached()
        proxy = self.proxy(configuration(only=[server]), open_files=60, threads=4)
        clients = self.clients(proxy, 80)
        for client in clients[:4]:
            self.assertEqual(client.reply(), VERSION)
        # 32 clients are connected, each with one descriptor; the others wait in the system's queue.
        held = len(clients[:32]) + 4
        wait_until(lambda: proxy.files() == held, 20, f"{held} files are open: {proxy.files()}")
        for client in clients[:4]:
            self.assertEqual(client.ask(store(b"a", b"x") + b"get a\r\n"), b"STORED\r\n")
            self.assertEqual(client.reply(), values((b"a", b"x")))
        self.assertEqual(proxy.marks_by(clients[0])[server.address], "up:0")
        for number, client in enumerate(clients):
            if number >= 4:
                self.assertEqual(client.reply(), VERSION)
            client.close()

    @only_in("events", "a worker serves many clients at once")
    def test_more_clients_of_event_driven_workers_than_descriptors(self):
        server = self.memcached()
        proxy = self.proxy(configuration(only=[server]), open_files=60, threads=4)
        clients = self.clients(proxy, 80)
        # So many are connected, each with one descriptor; the others wait in the system's queue.
        served, waiting = clients[:28], clients[28:]
        for client in served:
            self.assertEqual(client.reply(), VERSION)
        for client in served:
            self.assertEqual(client.ask(store(b"a", b"x") + b"get a\r\n"), b"STORED\r\n")
            self.assertEqual(client.reply(), values((b"a", b"x")))
        self.assertTrue(waiting[0].is_quiet(0.5))
        self.assertEqual(proxy.marks_by(served[0])[server.address], "up:0")
        for client, next_one in itertools.zip_longest(clients, waiting):
            client.close()
            if next_one:
                self.assertEqual(next_one.reply(), VERSION)

    @only_in("events", "a worker serves many clients at once")
    def test_a_lack_of_descriptors_of_event_driven_workers_marks_no_healthy_server(self):
        servers = [self.memcached() for _ in range(6)]
        proxy = self.proxy(configuration(only=servers), open_files=128, threads=4)
        clients = self.clients(proxy, 150)
        # 76 of them are connected, and each asks each server.
        for served in (clients[:76], clients[76:]):
            for client in served:
                self.assertEqual(client.reply(), VERSION)
                client.send(b"".join(b"get key-%d\r\n" % key for key in range(20)))
            for client in served:
                for _ in range(20):
                    self.assertEqual(client.reply(), b"END\r\n")
            self.assertEqual(set(proxy.marks_by(served[0]).values()), {"up:0"})
            for client in served:
                client.close()

    @only_in("threads", "as many clients are served at once as there are workers")
    def test_a_lack_of_descriptors_marks_no_healthy_server(self):
        servers = [self.memcached() for _ in range(6)]
        proxy = self.proxy(configuration(only=servers), open_files=128, threads=16)
        waiting = self.clients(proxy, 60)
        while waiting:
            # As many as there are workers; each asks each server.
            served, waiting = waiting[:12], waiting[12:]
            for client in served:
                self.assertEqual(client.reply(), VERSION)
            for client in served:
                client.send(b"".join(b"get key-%d\r\n" % key for key in range(60)))
            for client in served:
                for _ in range(60):
                    self.assertEqual(client.reply(), b"END\r\n")
                self.assertEqual(set(proxy.marks_by(client).values()), {"up:0"})
            for client in served:
                client.close()

    def test_it_accepts_again_after_a_lack_of_descriptors(self):
        proxy = self.proxy(configuration(only=[self.memcached()]), open_files=200)
        # It closes what it needed to begin with.
        time.sleep(0.5)
        proxy.limit_files(proxy.lowest_free_file())
        # An accept that waits already has its descriptor; it waits for a tenth of a second.
        time.sleep(0.5)
        with proxy.client() as client:
            used = proxy.seconds_used()
            client.send(b"version\r\n")
            self.assertTrue(client.is_quiet(11))
            # It does not wait in a busy loop.
            self.assertLess(proxy.seconds_used() - used, 2)
            proxy.limit_files(200)
            self.assertEqual(client.reply(), VERSION)
        with proxy.client() as client:
            self.assertEqual(client.ask(b"version\r\n"), VERSION)


class Trickling(ServerTest):
    """Clients that send on and on and complete no request, at the worker that marked a server."""

    def setUp(self):
        self.server = self.memcached()
        self.through = self.proxy(configuration(only=[self.server]), threads=2, first_delay=300, greatest_delay=300)

    def mark_by(self, client):
        self.server.kill()
        self.assertEqual(client.ask(b"get a\r\n"), NO_SERVER)

    def comes_back(self):
        self.server.start()
        wait_until(lambda: self.through.marks()[self.server.address] == "up:0", SLACK, "the mark is cleared")

    def test_a_line_that_never_ends(self):
        with self.through.client() as client:
            self.mark_by(client)
            client.send(b"get ")
            with trickling(client, b"x", 0.05):
                self.comes_back()
            # The rounds in between left the line as it was.
            self.assertEqual(client.ask(b"\r\n" + store(b"a", b"1") + b"get a\r\n"), b"END\r\n")
            self.assertEqual(client.reply(), b"STORED\r\n")
            self.assertEqual(client.reply(), values((b"a", b"1")))

    def test_skipped_data_that_never_end(self):
        with self.through.client() as client:
            self.mark_by(client)
            client.send(b"set a 0 0 2000000\r\n")
            with trickling(client, b"x", 0.05):
                self.comes_back()

    def test_a_bad_chunk_without_an_end(self):
        with self.through.client() as client:
            self.mark_by(client)
            client.send(b"set a 0 0 1\r\nxyz")
            with trickling(client, b"x", 0.05):
                self.comes_back()

    def test_lines_that_are_faults(self):
        with self.through.client() as client:
            self.mark_by(client)
            with trickling(client, b"stats\r\n", 0.05):
                self.comes_back()

    def test_clients_that_come_and_go(self):
        """None of them makes a request, and there are always more of them than workers, so that no worker waits."""
        server = self.fake(lambda *_: b"VERSION 1\r\n", is_open=False)
        proxy = self.proxy(configuration(only=[server]), threads=1, first_delay=300, greatest_delay=300)

        def come_and_go():
            with Client(proxy.port) as client:
                client.send(b"g")
                time.sleep(0.01)

        with proxy.client() as client, contextlib.ExitStack() as stack:
            self.assertEqual(client.ask(b"get a\r\n"), NO_SERVER)
            for _ in range(8):
                stack.enter_context(repeated(come_and_go, 0))
            client.close()
            server.open()
            wait_until(lambda: server.count(b"version") > 0, SLACK, "the server is probed")


class Patience(ServerTest):
    def test_a_client_that_stops_reading_leaves_its_worker(self):
        proxy = self.proxy(configuration(only=[self.memcached("-I", "2m")]), threads=1, write_timeout=500)
        with proxy.client() as deaf:
            self.assertEqual(deaf.ask(store(b"a", b"x" * 100000)), b"STORED\r\n")
            deaf.socket.setsockopt(socket.SOL_SOCKET, socket.SO_RCVBUF, 4096)
            deaf.send(b"get a\r\n" * 500)
            # The system takes some 4 MB for it before a write waits.
            with proxy.client(limit=30) as other:
                self.assertEqual(other.ask(b"version\r\n"), VERSION)
        self.assertIsNone(proxy.process.poll())

    def test_a_client_that_reads_a_few_bytes_leaves_its_worker(self):
        metrics = free_port()
        proxy = self.proxy(configuration(only=[self.memcached("-I", "2m")]), threads=1, write_timeout=500,
                           metrics=f"{HOST}:{metrics}")
        with proxy.client() as client:
            self.assertEqual(client.ask(store(b"a", b"x" * 1000000)), b"STORED\r\n")
        with socket.socket() as slow:
            # Set before it connects, so that the system sends to it in small pieces.
            slow.setsockopt(socket.SOL_SOCKET, socket.SO_RCVBUF, 2048)
            slow.connect((HOST, proxy.port))
            slow.sendall(b"get a\r\n" * 50)
            with repeated(lambda: slow.recv(1000), 0.05), proxy.client(limit=30) as other:
                self.assertEqual(other.ask(b"version\r\n"), VERSION)
                fault = 'tkoproxy_session_faults_total{kind="write"}'
                wait_until(lambda: numbers_in(ask(metrics)[2])[fault] == 1, SLACK, "its session ends by a fault")

    def test_a_client_that_takes_enough_in_each_span_gets_everything(self):
        proxy = self.proxy(configuration(only=[self.memcached("-I", "2m")]), threads=1, write_timeout=400)
        with proxy.client() as slow:
            slow.socket.setsockopt(socket.SOL_SOCKET, socket.SO_RCVBUF, 200000)
            self.assertEqual(slow.ask(store(b"a", b"x" * 1000000)), b"STORED\r\n")
            # A value takes longer than a span, and in each span some 800 KB are taken.
            slow.send(b"get a\r\n" * 8)
            slow.end_input()
            read = 0
            while chunk := slow.socket.recv(200000):
                read += len(chunk)
                time.sleep(0.1)
            self.assertEqual(read, 8 * len(values((b"a", b"x" * 1000000))))

    def test_a_client_that_takes_little_at_a_time_gets_everything(self):
        """More than it must, but less than the system's buffer for it must have free before it is said to be writable."""
        proxy = self.proxy(configuration(only=[self.memcached("-I", "2m")]), threads=1, write_timeout=1000)
        with proxy.client() as slow:
            self.assertEqual(slow.ask(store(b"a", b"x" * 1000000)), b"STORED\r\n")
            slow.socket.setsockopt(socket.SOL_SOCKET, socket.SO_RCVBUF, 65536)
            slow.send(b"get a\r\n" * 6)
            slow.end_input()
            read = 0
            while chunk := slow.socket.recv(50000):
                read += len(chunk)
                time.sleep(0.08)
            self.assertEqual(read, 6 * len(values((b"a", b"x" * 1000000))))

    def test_the_time_of_a_server_is_no_time_of_its_client(self):
        """The server takes longer than both limits, between two replies and before the first one."""
        slow = self.fake(lambda connection, request: time.sleep(1.5) or b"END\r\n")
        proxy = self.proxy(configuration(only=[slow]), threads=1, write_timeout=300, idle_timeout=1000)
        with proxy.client() as client:
            self.assertEqual(client.ask(b"version\r\nget a\r\nget b\r\n"), VERSION)
            self.assertEqual(client.reply(), b"END\r\n")
            self.assertEqual(client.reply(), b"END\r\n")
            self.assertEqual(client.ask(b"version\r\n"), VERSION)

    def test_clients_that_complete_no_request_lock_nobody_out(self):
        proxy = self.proxy(configuration(only=[self.memcached()]), threads=2, idle_timeout=1000)
        with proxy.client() as one, proxy.client() as other, trickling(one, b"x", 0.7), trickling(other, b"x", 0.7):
            time.sleep(0.2)
            with proxy.client(limit=1 + SLACK) as third:
                self.assertEqual(third.ask(b"version\r\n"), VERSION)
        self.assertIsNone(proxy.process.poll())

    def test_a_line_that_is_a_fault_is_no_request(self):
        proxy = self.proxy(configuration(only=[self.memcached()]), threads=1, idle_timeout=1000)
        with proxy.client() as faulty, trickling(faulty, b"stats\r\n", 0.3):
            time.sleep(0.1)
            with proxy.client(limit=1 + SLACK) as other:
                self.assertEqual(other.ask(b"version\r\n"), VERSION)

    def test_the_system_asks_whether_a_quiet_client_is_there(self):
        proxy = self.proxy(configuration(only=[self.memcached()]), threads=1)
        with proxy.client() as quiet:
            self.assertEqual(quiet.ask(b"version\r\n"), VERSION)
            ends = [f":{port:04X}" for port in (proxy.port, quiet.socket.getsockname()[1])]

            def timer():
                """What the proxy's socket waits for: 2 is the next keepalive."""
                with open("/proc/net/tcp", encoding="ascii") as file:
                    lines = [line.split() for line in file]
                return next(line[5][:2] for line in lines if [end[-5:] for end in line[1:3]] == ends)

            wait_until(lambda: timer() == "02", SLACK, "a keepalive is due")

    def test_a_client_that_reads_slowly_gets_everything(self):
        proxy = self.proxy(configuration(only=[self.memcached("-I", "2m")]), threads=1, write_timeout=1500)
        with proxy.client() as slow:
            slow.socket.setsockopt(socket.SOL_SOCKET, socket.SO_RCVBUF, 65536)
            self.assertEqual(slow.ask(store(b"a", b"x" * 1000000)), b"STORED\r\n")
            slow.send(b"get a\r\n" * 8)
            slow.end_input()
            read, began = 0, time.monotonic()
            while chunk := slow.socket.recv(400000):
                read += len(chunk)
                time.sleep(0.1)
            self.assertEqual(read, 8 * len(values((b"a", b"x" * 1000000))))
            self.assertGreater(time.monotonic() - began, 1.5)

    def test_a_silent_client_leaves_its_worker(self):
        proxy = self.proxy(configuration(only=[self.memcached()]), threads=1, idle_timeout=2000)
        with proxy.client() as silent:
            self.assertEqual(silent.ask(b"version\r\n"), VERSION)
            # What it sends in time keeps it connected.
            for _ in range(4):
                time.sleep(0.7)
                self.assertEqual(silent.ask(b"version\r\n"), VERSION)
            silent.send(b"get ")
            with proxy.client() as other:
                reply, seconds = other.timed(b"version\r\n")
                self.assertEqual(reply, VERSION)
                if MODE == "threads":
                    # (in events it need not wait for the worker)
                    self.assertGreater(seconds, 1)
                self.assertLess(seconds, 2 + SLACK)
            self.assertEqual(silent.rest(), b"")

    def test_a_silent_client_stays_without_a_limit(self):
        proxy = self.proxy(configuration(only=[self.memcached()]), threads=1, write_timeout=100)
        with proxy.client() as silent:
            self.assertTrue(silent.is_quiet(2))
            self.assertEqual(silent.ask(b"version\r\n"), VERSION)
