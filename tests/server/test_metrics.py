"""The metrics over HTTP: what they say of requests, servers, clients and the process, and clients that misuse them."""
import http.client
import re
import shutil
import socket
import subprocess
import threading
import time
import unittest

from parts import MODE, PROGRAM, ServerTest, configuration, only_in, serve_words
from ports import HOST, free_port, wait_until
from talk import fnv1a

try:
    from prometheus_client.parser import text_string_to_metric_families
except ImportError:
    text_string_to_metric_families = None

COUNTS = ("requests", "attempts", "skips", "replies", "no_server", "probes")
LOADS = ("clients", "connections", "waiting_bytes")
# The samples of a histogram: its buckets, the sum and the count.
OF_TIMES = 16 + 2
# Those of refused lines, commands, hits and misses, and the times of requests; and those of a server: sends, probes,
# outcomes, what event-driven workers have in flight to it, times and two marks.
OF_REQUESTS = 7 + 15 + 2 + OF_TIMES
OF_SERVER = 2 + 5 + (1 if MODE == "events" else 0) + OF_TIMES + 2


def ask(port, method="GET", path="/metrics", seconds=10):
    """The status, the headers and the body of an answer over HTTP, which may take so long."""
    connection = http.client.HTTPConnection(HOST, port, timeout=seconds)
    try:
        connection.request(method, path)
        answer = connection.getresponse()
        return answer.status, answer.headers, answer.read().decode()
    finally:
        connection.close()


def numbers_in(text):
    """The samples of a page, by their name and labels as they are written."""
    samples = [line.rsplit(" ", 1) for line in text.splitlines() if not line.startswith("#")]
    return {name: float(number) for name, number in samples}


def samples_by_prometheus(text):
    """The same as Prometheus' own parser reads them."""
    samples = {}
    for family in text_string_to_metric_families(text):
        for sample in family.samples:
            labels = ",".join(f'{name}="{value}"' for name, value in sample.labels.items())
            samples[sample.name + (f"{{{labels}}}" if labels else "")] = sample.value
    return samples


def send_while_taken(connection, size):
    """Sends a request with a header of this many bytes, until the connection ends."""
    try:
        connection.sendall(b"GET /metrics HTTP/1.1\r\nhost: x\r\nx: " + b"x" * size + b"\r\n\r\n")
    except OSError:
        pass


def trickles_to_the_end(connection):
    """Sends one byte more. Whether the connection has ended."""
    try:
        connection.sendall(b"x")
        return connection.recv(1000) == b""
    except TimeoutError:
        return False
    except OSError:
        return True


class Metrics(ServerTest):
    def metered(self, config, **options):
        """A proxy with metrics, and the port of these."""
        port = free_port()
        return self.proxy(config, metrics=f"{HOST}:{port}", **options), port

    def numbers(self, port):
        status, headers, text = ask(port)
        self.assertEqual((status, headers["content-type"]), (200, "text/plain; version=0.0.4; charset=utf-8"))
        return numbers_in(text)

    def counts(self, port):
        numbers = self.numbers(port)
        return tuple(numbers[f"tkoproxy_{name}_total"] for name in COUNTS)

    def test_numbers_are_those_of_the_requests_while_their_client_stays(self):
        server, down = self.memcached(), self.closed()
        proxy, port = self.metered(configuration(near=[down], far=[server]), threads=2)
        self.assertEqual(self.counts(port), (0, 0, 0, 0, 0, 0))
        with proxy.client() as client:
            self.assertEqual(client.ask(b"get a\r\n"), b"END\r\n")
            # The first target refused, which marked it; the second answered.
            self.assertEqual(self.counts(port), (1, 2, 0, 1, 0, 0))
            for done in range(1, 8):
                self.assertEqual(client.ask(b"get a b\r\n"), b"END\r\n")
                self.assertEqual(self.counts(port), (1 + done, 2 + 2 * done, 2 * done, 1 + 2 * done, 0, 0))
            self.assertEqual(client.ask(b"version\r\n"), b"VERSION tkoproxy 1\r\n")
            self.assertEqual(self.counts(port), (9, 16, 14, 15, 0, 0))
            numbers = self.numbers(port)
        self.assertEqual(numbers[f'tkoproxy_server_sends_total{{server="{down.address}"}}'], 1)
        self.assertEqual(numbers[f'tkoproxy_server_sends_total{{server="{server.address}"}}'], 15)

    def test_clients_and_their_sessions(self):
        proxy, port = self.metered(configuration(only=[self.memcached()]), threads=1)

        def clients():
            numbers = self.numbers(port)
            return tuple(numbers[f"tkoproxy_{name}"] for name in ("clients_connected", "clients_total", "sessions_total"))

        self.assertEqual(clients(), (0, 0, 0))
        with proxy.client() as first, proxy.client():
            self.assertEqual(first.ask(b"version\r\n"), b"VERSION tkoproxy 1\r\n")
            wait_until(lambda: clients() == (2, 2, 0), 5, "both clients are connected")
        wait_until(lambda: clients() == (0, 2, 2), 5, "both have left")

    def loads(self, port, workers):
        """The sums over so many event-driven workers of their clients, their connections and the bytes that wait."""
        numbers = self.numbers(port)
        samples = [[f'tkoproxy_worker_{name}{{worker="{worker}"}}' for worker in range(workers)] for name in LOADS]
        self.assertEqual(sorted(sum(samples, [])), sorted(name for name in numbers if name.startswith("tkoproxy_worker")))
        return tuple(sum(numbers[name] for name in of_all) for of_all in samples)

    @only_in("events", "a worker serves one client there")
    def test_what_event_driven_workers_serve(self):
        proxy, port = self.metered(configuration(only=[self.memcached()]), threads=2)
        self.assertEqual(self.loads(port, 2), (0, 0, 0))
        clients = [self.client(proxy.port) for _ in range(20)]
        for client in clients:
            self.assertEqual(client.ask(b"version\r\n"), b"VERSION tkoproxy 1\r\n")
        wait_until(lambda: self.loads(port, 2) == (20, 0, 0), 5, "each is a client of a worker")
        for client in clients:
            self.assertEqual(client.ask(b"get a\r\n"), b"END\r\n")
        wait_until(lambda: self.loads(port, 2) == (20, 2, 0), 5, "each worker has a connection to the server")
        for client in clients:
            client.close()
        wait_until(lambda: self.loads(port, 2) == (0, 2, 0), 5, "all have left")

    @only_in("events", "a worker serves one client there")
    def test_bytes_that_a_client_does_not_take(self):
        proxy, port = self.metered(configuration(only=[self.memcached()]), threads=1)
        with proxy.client() as deaf:
            self.assertEqual(deaf.ask(b"set a 0 0 1000000\r\n" + b"x" * 1000000 + b"\r\n"), b"STORED\r\n")
            deaf.send(b"get a\r\n" * 40)
            wait_until(lambda: self.loads(port, 1)[2] > 0, 20, "bytes wait for it")
        wait_until(lambda: self.loads(port, 1) == (0, 1, 0), 10, "it has left")

    @only_in("threads", "a worker serves many clients there")
    def test_workers_on_threads_have_no_loads(self):
        proxy, port = self.metered(configuration(only=[self.memcached()]), threads=2)
        with proxy.client() as client:
            self.assertEqual(client.ask(b"get a\r\n"), b"END\r\n")
            text = ask(port)[2]
            self.assertNotIn("tkoproxy_worker", text)
            self.assertNotIn("tkoproxy_server_in_flight", text)

    def in_flight(self, port, *servers):
        numbers = self.numbers(port)
        return [numbers[f'tkoproxy_server_in_flight{{server="{server.address}"}}'] for server in servers]

    @only_in("events", "workers on threads do not tell it")
    def test_requests_in_flight_are_those_of_all_workers(self):
        may_answer = threading.Event()
        slow, other = self.fake(lambda _connection, _request: may_answer.wait(60) and b"END\r\n"), self.memcached()
        proxy, port = self.metered(configuration(near=[slow], far=[other]), threads=2, timeout=30000)
        clients = [self.client(proxy.port) for _ in range(4)]
        for client in clients:
            self.assertEqual(client.ask(b"version\r\n"), b"VERSION tkoproxy 1\r\n")
        wait_until(lambda: self.loads(port, 2)[0] == 4, 5, "each is a client of a worker")
        self.assertEqual(self.in_flight(port, slow, other), [0, 0])
        for sent, client in enumerate(clients, 1):
            client.send(b"get a\r\n")
            wait_until(lambda: self.in_flight(port, slow, other) == [sent, 0], 5, "it is in flight")
        # The server still has the request of a client that has left.
        clients[0].close()
        time.sleep(0.5)
        self.assertEqual(self.in_flight(port, slow, other), [4, 0])
        may_answer.set()
        for client in clients[1:]:
            self.assertEqual(client.reply(), b"END\r\n")
        wait_until(lambda: self.in_flight(port, slow, other) == [0, 0], 5, "each was answered")

    @only_in("events", "workers on threads do not tell it")
    def test_requests_that_wait_for_a_connection_are_in_flight(self):
        deaf = self.deaf()
        proxy, port = self.metered(configuration(only=[deaf]), threads=1, timeout=3000)
        with proxy.client() as client:
            client.send(b"get a\r\n")
            wait_until(lambda: self.in_flight(port, deaf) == [1], 3, "it waits for the connection")
            self.assertEqual(client.reply(), b"SERVER_ERROR no server\r\n")
        wait_until(lambda: self.in_flight(port, deaf) == [0], 5, "it was given up")

    def test_a_server_dies_and_returns(self):
        server = self.memcached()
        proxy, port = self.metered(configuration(only=[server]), threads=1, first_delay=300, greatest_delay=300)

        def marks():
            numbers = self.numbers(port)
            names = [f'tkoproxy_server_marked{{server="{server.address}",mark="{mark}"}}' for mark in ("soft", "hard")]
            since = numbers.get(f'tkoproxy_server_marked_timestamp_seconds{{server="{server.address}"}}')
            return [numbers[name] for name in names], since

        self.assertEqual(marks(), ([0, 0], None))
        with proxy.client() as client:
            server.kill()
            before = time.time()
            self.assertEqual(client.ask(b"get a\r\n"), b"SERVER_ERROR no server\r\n")
            after = time.time()
            kinds, since = marks()
            self.assertEqual(kinds, [0, 1])
            self.assertTrue(before - 0.002 <= since <= after + 0.002, (before, since, after))
            probes = f'tkoproxy_server_probes_total{{server="{server.address}"}}'
            wait_until(lambda: self.numbers(port)[probes] >= 2, 10, "it is probed")
            self.assertEqual(marks(), ([0, 1], since))
            server.start()
            wait_until(lambda: marks() == ([0, 0], None), 10, "it is in use again")
            numbers = self.numbers(port)
            self.assertEqual(numbers[probes], numbers["tkoproxy_probes_total"])

    def test_marks_of_two_workers(self):
        """Each of two workers has marked a server of its own, and knows of no mark on the other's."""
        servers = [self.memcached(), self.memcached()]
        proxy, port = self.metered(configuration(only=servers), threads=2)
        hard = [f'tkoproxy_server_marked{{server="{server.address}",mark="hard"}}' for server in servers]
        with proxy.client() as one, proxy.client() as other:
            for client in (one, other):
                self.assertEqual(client.ask(b"version\r\n"), b"VERSION tkoproxy 1\r\n")
            for number, client in enumerate((one, other)):
                servers[number].kill()
                key = next(b"%d" % key for key in range(100) if fnv1a(b"%d" % key) % 2 == number)
                self.assertEqual(client.ask(b"get %s\r\n" % key), b"SERVER_ERROR no server\r\n")
            numbers = self.numbers(port)
            self.assertEqual([numbers[name] for name in hard], [1, 1])

    def test_a_hardened_mark_keeps_its_moment(self):
        server = self.memcached()
        proxy, port = self.metered(configuration(only=[server]), threads=1, failures=1, timeout=300, log="off",
                                   first_delay=500, greatest_delay=500)
        soft, hard = (f'tkoproxy_server_marked{{server="{server.address}",mark="{mark}"}}' for mark in ("soft", "hard"))
        since = f'tkoproxy_server_marked_timestamp_seconds{{server="{server.address}"}}'
        with proxy.client() as client:
            server.pause()
            self.assertEqual(client.ask(b"get a\r\n"), b"SERVER_ERROR no server\r\n")
            numbers = self.numbers(port)
            self.assertEqual((numbers[soft], numbers[hard]), (1, 0))
            server.kill()
            wait_until(lambda: self.numbers(port)[hard] == 1, 10, "the mark is hardened")
            hardened = self.numbers(port)
            self.assertEqual((hardened[soft], hardened[since]), (0, numbers[since]))

    def test_faults_by_kind(self):
        proxy, port = self.metered(configuration(only=[self.memcached()]), threads=1, idle_timeout=1000)

        def faults():
            numbers = self.numbers(port)
            return tuple(numbers[f'tkoproxy_session_faults_total{{kind="{kind}"}}']
                         for kind in ("read", "write", "line_too_long", "memory"))

        self.assertEqual(faults(), (0, 0, 0, 0))
        with proxy.client() as client:
            client.send(b"get " + b"a" * 70000)
            self.assertEqual(client.rest(), b"CLIENT_ERROR line too long\r\n")
        wait_until(lambda: faults() == (0, 0, 1, 0), 5, "a line was too long")
        with proxy.client() as client:
            self.assertEqual(client.rest(), b"")
        wait_until(lambda: faults() == (1, 0, 1, 0), 5, "a client was silent")

    def test_a_write_that_fails_is_a_fault(self):
        server = self.memcached()
        proxy, port = self.metered(configuration(only=[server]), threads=1, write_timeout=200)
        with proxy.client() as client:
            self.assertEqual(client.ask(b"set a 0 0 1000000\r\n" + b"x" * 1000000 + b"\r\n"), b"STORED\r\n")
            for _ in range(40):
                client.send(b"get a\r\n")
            wait_until(lambda: self.numbers(port)['tkoproxy_session_faults_total{kind="write"}'] == 1, 20, "it is a fault")

    def test_the_process(self):
        proxy, port = self.metered(configuration(only=[self.memcached()]), threads=2, open_files=200)
        with proxy.client() as client:
            self.assertEqual(client.ask(b"get a\r\n"), b"END\r\n")
            numbers = self.numbers(port)
            # (the connection that asked was open too; it is closed soon after its answer)
            wait_until(lambda: numbers["process_open_fds"] == proxy.files() + 1, 5, "its descriptors were counted")
            self.assertEqual(numbers["process_max_fds"], 200)
            resident = proxy.status("VmRSS") * 1024
            self.assertTrue(0.5 * resident < numbers["process_resident_memory_bytes"] < 2 * resident, (numbers, resident))

    def test_the_build_is_the_one_that_version_prints(self):
        proxy, port = self.metered(configuration(only=[self.memcached()]), threads=1)
        printed = subprocess.run([PROGRAM, "--version"], stdout=subprocess.PIPE, timeout=10, check=True).stdout.decode()
        version, sources = re.fullmatch(r"tkoproxy (\S+)\nsources ([0-9a-f]{64}), .*\n", printed).groups()
        lines = [line for line in ask(port)[2].splitlines() if "tkoproxy_build_info" in line]
        self.assertEqual([line.split()[:4] for line in lines[:2]], [
            ["#", "HELP", "tkoproxy_build_info", "1,"], ["#", "TYPE", "tkoproxy_build_info", "gauge"]])
        self.assertEqual(lines[2:], [f'tkoproxy_build_info{{version="{version}",sources="{sources}"}} 1'])

    def test_other_paths_and_methods(self):
        _, port = self.metered(configuration(only=[self.memcached()]), threads=1)
        for path in ("//", "/metrics/", "/metric", "/stats"):
            self.assertEqual(ask(port, path=path)[0], 404)
        for method in ("POST", "PUT", "DELETE", "OPTIONS"):
            status, headers, text = ask(port, method)
            self.assertEqual((status, headers["allow"], text), (405, "GET, HEAD", ""))
        self.assertEqual(ask(port, path="/metrics?name=x")[0], 200)
        with socket.create_connection((HOST, port), 10) as other:
            other.sendall(b"get a\r\n\r\n")
            self.assertIn(b" 400 ", other.recv(1000).split(b"\r\n")[0])

    def test_head_gets_the_header_of_the_page_alone(self):
        _, port = self.metered(configuration(only=[self.memcached()]), threads=1)
        status, headers, text = ask(port)
        self.assertEqual((status, int(headers["content-length"])), (200, len(text)))
        status, headers, text = ask(port, "HEAD")
        self.assertEqual((status, headers["content-type"], text), (200, "text/plain; version=0.0.4; charset=utf-8", ""))
        self.assertGreater(int(headers["content-length"]), 1000)
        self.assertEqual(ask(port, "HEAD", "/stats")[0], 404)

    def test_a_head_that_is_too_large_is_refused(self):
        _, port = self.metered(configuration(only=[self.memcached()]), threads=1)
        for size, status in ((7000, 200), (9000, 431), (1_000_000, 431)):
            with socket.create_connection((HOST, port), 10) as other:
                # (the answer may come before all of it was sent)
                sender = threading.Thread(target=send_while_taken, args=(other, size))
                sender.start()
                self.assertIn(b"HTTP/1.1 %d " % status, other.recv(1000))
                other.shutdown(socket.SHUT_RDWR)
                sender.join()
        with socket.create_connection((HOST, port), 10) as other:
            other.sendall(b"GET /metrics HTTP/1.1\r\nhost: x\r\ncontent-length: 1\r\n\r\n")
            self.assertIn(b"HTTP/1.1 413 ", other.recv(1000))

    def test_silent_clients_delay_no_worker_and_no_scrape(self):
        proxy, port = self.metered(configuration(only=[self.memcached()]), threads=1)
        silent = [socket.create_connection((HOST, port), 10) for _ in range(20)]
        try:
            silent[-1].sendall(b"GET /metr")
            with proxy.client() as client:
                for _ in range(50):
                    reply, seconds = client.timed(b"get a\r\n")
                    self.assertEqual(reply, b"END\r\n")
                    self.assertLess(seconds, 1)
                for _ in range(12):
                    silent.append(socket.create_connection((HOST, port), 10))
                    self.assertEqual(ask(port, seconds=5)[0], 200)
                    time.sleep(0.25)
        finally:
            for each in silent:
                each.close()

    def test_a_trickled_request_is_cut_off(self):
        _, port = self.metered(configuration(only=[self.memcached()]), threads=1)
        with socket.create_connection((HOST, port), 10) as slow:
            slow.settimeout(0.2)
            slow.sendall(b"GET /metrics HTTP/1.1\r\nx: ")
            # Bytes that come are no reason to stay.
            wait_until(lambda: trickles_to_the_end(slow), 30, "it is closed")
            self.assertEqual(ask(port)[0], 200)

    def test_a_request_in_pieces_is_answered(self):
        _, port = self.metered(configuration(only=[self.memcached()]), threads=1)
        with socket.create_connection((HOST, port), 10) as other:
            for piece in (b"GET /met", b"rics HTTP/1.1\r", b"\nhost: x\r\n", b"\r\n"):
                other.sendall(piece)
                time.sleep(0.1)
            self.assertIn(b"HTTP/1.1 200 ", other.recv(1000))

    def test_a_client_that_reads_nothing_is_closed(self):
        servers = [f"10.0.0.{number}:11211" for number in range(1, 200)]
        config = '{"pools": {"A": {"servers": [%s]}}, "route": "PoolRoute|A"}' % ",".join(f'"{name}"' for name in servers)
        _, port = self.metered(config, threads=1)
        with socket.socket() as deaf:
            deaf.setsockopt(socket.SOL_SOCKET, socket.SO_RCVBUF, 2048)
            deaf.connect((HOST, port))
            deaf.sendall(b"GET /metrics HTTP/1.1\r\nhost: x\r\n\r\n" * 100)
            of_workers = len(LOADS) if MODE == "events" else 0
            self.assertEqual(len(numbers_in(ask(port, seconds=30)[2])), 14 + 3 + OF_REQUESTS + 199 * OF_SERVER + 1 + of_workers)

    def test_it_ends_beside_a_client_that_stays(self):
        proxy, port = self.metered(configuration(only=[self.memcached()]), threads=1, connections=1)
        with socket.create_connection((HOST, port), 10):
            with proxy.client() as client:
                self.assertEqual(client.ask(b"get a\r\n"), b"END\r\n")
            self.assertEqual(proxy.end(10)[0], 0)

    def test_an_address_that_cannot_be_had(self):
        taken = self.memcached()
        none = "no address <host>:<port>"
        for address, why in (
                (f"{HOST}:{taken.port}", "Address already in use (os error 98)"), ("nowhere", none), (f"{HOST}:", none),
                ("203.0.113.1:80", "Cannot assign requested address (os error 99)"), ("", none)):
            words = serve_words(free_port(), configuration(only=[taken]), {"metrics": address})
            done = subprocess.run(words, stdin=subprocess.DEVNULL, capture_output=True, timeout=20, check=False)
            lines = f"metrics: {address}: {why}\nfault: metrics\n".encode()
            self.assertEqual((done.returncode, done.stdout, done.stderr), (1, b"", lines), address)

    @unittest.skipUnless(text_string_to_metric_families, "python3-prometheus-client is not installed")
    def test_prometheus_own_parser_reads_the_same(self):
        down = self.closed()
        proxy, port = self.metered(configuration(near=[down], far=[self.memcached()]), threads=2)
        with proxy.client() as client:
            self.assertEqual(client.ask(b"get a\r\n"), b"END\r\n")
        wait_until(lambda: self.numbers(port)["tkoproxy_sessions_total"] == 1, 5, "the session has ended")
        text = ask(port)[2]
        self.assertEqual(samples_by_prometheus(text), numbers_in(text))

    @unittest.skipUnless(shutil.which("promtool"), "promtool of the package prometheus is not installed")
    def test_promtool_finds_no_fault(self):
        down = self.closed()
        proxy, port = self.metered(configuration(near=[down], far=[self.memcached()]), threads=2)
        with proxy.client() as client:
            self.assertEqual(client.ask(b"get a\r\n"), b"END\r\n")
            text = ask(port)[2]
        done = subprocess.run(["promtool", "check", "metrics"], input=text.encode(), capture_output=True, timeout=60,
                              check=False)
        self.assertEqual((done.returncode, done.stdout, done.stderr), (0, b"", b""))

    @unittest.skipUnless(shutil.which("curl"), "curl is not installed")
    def test_curl_gets_the_page(self):
        _, port = self.metered(configuration(only=[self.memcached()]), threads=1)
        done = subprocess.run(["curl", "-sS", "--fail", f"http://{HOST}:{port}/metrics"], capture_output=True,
                              timeout=60, check=False)
        self.assertEqual((done.returncode, done.stderr), (0, b""))
        self.assertIn("tkoproxy_requests_total", numbers_in(done.stdout.decode()))
