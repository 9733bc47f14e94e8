"""How many clients are served at once, and the process as a whole: its end, its totals, its faults, what it holds."""
import re
import socket
import subprocess

from parts import MODE_WORDS, PROGRAM, ServerTest, configuration, only_in
from ports import HOST, free_port, wait_until
from talk import store, values

VERSION = b"VERSION tkoproxy 1\r\n"
# The most that there may be.
THREADS = 1024
KINDS = ["request", "attempt", "skip", "reply", "no-server", "probe"]


class Workers(ServerTest):
    @only_in("threads", "a worker serves one client at a time")
    def test_more_clients_than_workers(self):
        proxy = self.proxy(configuration(only=[self.memcached()]), threads=2)
        clients = [self.client(proxy.port) for _ in range(5)]
        for client in clients:
            client.send(b"version\r\n")
        served, waiting = clients[:2], clients[2:]
        for client in served:
            self.assertEqual(client.reply(), VERSION)
        while waiting:
            for client in waiting:
                self.assertTrue(client.is_quiet(0.2))
            for client in served:
                self.assertEqual(client.ask(b"version\r\n"), VERSION)
            # As soon as one leaves, the next in line is answered.
            served.pop(0).close()
            served.append(waiting.pop(0))
            self.assertEqual(served[-1].reply(), VERSION)

    def test_many_more_clients_than_workers(self):
        proxy = self.proxy(configuration(only=[self.memcached()]), threads=3)
        clients = [self.client(proxy.port) for _ in range(150)]
        for number, client in enumerate(clients):
            client.send(store(b"a", b"%d" % number) + b"get a\r\nquit\r\n")
        for number, client in enumerate(clients):
            self.assertRegex(client.rest(), rb"^STORED\r\nVALUE a 0 \d+\r\n\d+\r\nEND\r\n$")

    @only_in("threads", "it needs a worker for each; test_many_clients.py has more of them")
    def test_a_thousand_clients_at_once(self):
        self.allow_files(THREADS * (1 + 3) + 80)
        proxy = self.proxy(configuration(only=[self.memcached("-c", "2048")]), threads=THREADS, log="off")
        # Fewer where the system does not allow so many files.
        workers = int(re.search(rb"allowed: (\d+) workers", proxy.error_text()).group(1))
        clients = [self.client(proxy.port) for _ in range(min(1000, workers))]
        for number, client in enumerate(clients):
            client.send(store(b"key-%d" % number, b"%d" % number) + b"get key-%d\r\n" % number)
        for number, client in enumerate(clients):
            self.assertEqual(client.reply(), b"STORED\r\n")
            self.assertEqual(client.reply(), values((b"key-%d" % number, b"%d" % number)))
        # All are still connected, and each is answered.
        for client in reversed(clients):
            self.assertEqual(client.ask(b"version\r\n"), VERSION)

    def test_workers_overlap(self):
        def wait_for_b(_, request):
            if request == b"get a\r\n":
                wait_until(lambda: b"get b\r\n" in server.requests, 20, "the other client's request comes")
            return b"END\r\n"

        server = self.fake(wait_for_b)
        proxy = self.proxy(configuration(only=[server]), threads=2, timeout=30000)
        first, second = self.client(proxy.port), self.client(proxy.port)
        first.send(b"get a\r\n")
        wait_until(lambda: server.requests, 20, "the first request comes")
        self.assertEqual(second.ask(b"get b\r\n"), b"END\r\n")
        self.assertEqual(first.reply(), b"END\r\n")


class Ends(ServerTest):
    def totals(self, output):
        lines = re.findall(r"^total (\S+) (\d+)\n", output, re.M)
        self.assertEqual(output, "".join(f"total {kind} {number}\n" for kind, number in lines))
        self.assertEqual([kind for kind, _ in lines], KINDS)
        return [int(number) for _, number in lines]

    def test_it_ends_after_its_connections_with_its_totals(self):
        proxy = self.proxy(configuration(near=[self.closed()], far=[self.memcached()]), connections=3, threads=1)
        with proxy.client() as client:
            # Sent to the closed port, which is marked, and then to the other; each later key skips the marked one.
            self.assertEqual(client.ask(store(b"a", b"x")), b"STORED\r\n")
            self.assertEqual(client.ask(b"get a b a\r\n"), values((b"a", b"x"), (b"a", b"x")))
            self.assertEqual(client.ask(b"version\r\n"), VERSION)
        with proxy.client() as client:
            # A fault is no request.
            self.assertEqual(client.ask(b"nothing\r\n"), b"ERROR\r\n")
            client.send(b"delete a noreply\r\nstats tko\r\nquit\r\n")
            self.assertTrue(client.rest().endswith(b"END\r\n"))
        with proxy.client() as client:
            client.send(b"get a\r\nget a")
            client.end_input()
            self.assertEqual(client.rest(), b"END\r\n")
        status, output = proxy.end()
        self.assertEqual((status, self.totals(output)), (0, [7, 7, 5, 6, 0, 0]))

    def test_totals_without_a_server(self):
        proxy = self.proxy(configuration(only=[self.closed()]), connections=2, threads=1)
        for _ in range(2):
            with proxy.client() as client:
                client.send(b"get a\r\nquit\r\n")
                self.assertEqual(client.rest(), b"SERVER_ERROR no server\r\n")
        status, output = proxy.end()
        self.assertEqual((status, self.totals(output)), (0, [4, 1, 1, 0, 2, 0]))

    def test_totals_of_many_clients_and_of_probes(self):
        ill = self.fake(lambda *_: b"what\r\n")
        proxy = self.proxy(configuration(near=[ill], far=[self.memcached()]), connections=6, threads=6, failures=1,
                           first_delay=50, greatest_delay=50)
        clients = [self.client(proxy.port) for _ in range(6)]
        for _ in range(50):
            for client in clients:
                client.send(b"get a b\r\n")
            for client in clients:
                self.assertEqual(client.reply(), b"END\r\n")
        wait_until(lambda: ill.count(b"version") >= 3, 20, "the marked server is probed")
        for client in clients:
            client.close()
        status, output = proxy.end()
        sent = ill.count(b"get")
        self.assertEqual(status, 0)
        self.assert_totals(output, [300, 600 + sent, 600 - sent, 600, 0], ill)

    def test_totals_of_probes_without_a_client(self):
        """The worker that marked a server probes it while it has no client, and that is counted."""
        ill = self.fake(lambda *_: b"what\r\n")
        proxy = self.proxy(configuration(only=[ill]), connections=2, threads=1, failures=1, first_delay=50,
                           greatest_delay=50)
        with proxy.client() as client:
            client.send(b"get a\r\nquit\r\n")
            self.assertEqual(client.rest(), b"SERVER_ERROR no server\r\n")
        seen = ill.count(b"version")
        wait_until(lambda: ill.count(b"version") >= seen + 3, 20, "the marked server is probed")
        with proxy.client():
            pass
        status, output = proxy.end()
        self.assertEqual(status, 0)
        self.assert_totals(output, [2, 1, 0, 0, 1], ill)

    def assert_totals(self, output, others, probed):
        """The last one is how often this server was probed. A probe that is under way as the proxy ends is not in it."""
        *totals, probes = self.totals(output)
        self.assertEqual(totals, others)
        seen = probed.count(b"version")
        self.assertIn(probes, (seen - 1, seen))

    def test_it_does_not_end_while_a_client_is_served(self):
        proxy = self.proxy(configuration(only=[self.memcached()]), connections=1)
        with proxy.client() as client:
            self.assertTrue(client.is_quiet(0.5))
            self.assertIsNone(proxy.process.poll())
            self.assertEqual(client.ask(b"version\r\n"), VERSION)
        self.assertEqual(proxy.end()[0], 0)


    def test_it_can_be_started_again_on_its_port(self):
        config = configuration(only=[self.memcached()])
        proxy = self.proxy(config, connections=20)
        for _ in range(20):
            with proxy.client() as client:
                # So the program is the one that closes first, and its port has connections that linger.
                client.send(b"quit\r\n")
                self.assertEqual(client.rest(), b"")
        self.assertEqual(proxy.end()[0], 0)
        with self.proxy(config, port=proxy.port).client() as client:
            self.assertEqual(client.ask(b"version\r\n"), VERSION)


class Holds(ServerTest):
    def test_nothing_is_left_of_two_thousand_connections(self):
        servers, threads = [self.memcached(), self.memcached()], 3
        proxy = self.proxy(configuration(near=servers[:1], far=servers[1:]), threads=threads)
        # Each worker has met its server once all of them were busy at once.
        clients = [self.client(proxy.port) for _ in range(threads)]
        for client in clients:
            self.assertEqual(client.ask(b"get a\r\n"), b"END\r\n")
        for client in clients:
            client.close()
        self.connect(proxy, 300)
        files = proxy.files()
        memory, tasks = proxy.status("VmRSS"), proxy.status("Threads")
        self.connect(proxy, 2000)
        wait_until(lambda: proxy.files() <= files, 20, f"the files of before, {files}, are open, and no more")
        self.assertEqual(proxy.status("Threads"), tasks)
        self.assertLess(proxy.status("VmRSS"), memory + 1024)

    def connect(self, proxy, count):
        """So many connections, which end in turn by `quit`, by their client, inside a request and by a fault."""
        ends = [b"quit\r\n", b"", b"set a 0 0 9\r\nx", b"x" * 65537]
        for number in range(count):
            with proxy.client() as client:
                self.assertEqual(client.ask(store(b"a", b"x" * 1000)), b"STORED\r\n")
                client.send(ends[number % len(ends)])


def in_use(address):
    """What is said of an address at which something listens."""
    return b"listen: %s: Address already in use (os error 98)\nfault: listen\n" % address.encode()


class Faults(ServerTest):
    def test_faults_of_the_command_line(self):
        good = configuration(only=[self.memcached()])
        address = f"{HOST}:{free_port()}"
        for words, status, line in (
                (["--listen", address, "--config", "{}"], 1,
                 b"config: there is no object of pools\nfault: config no-pools\n"),
                (["--listen", address, "--config", good, "--threads", "1025"], 1,
                 b"settings: --threads 1025: from 1 to 1024\nfault: settings threads\n"),
                (["--listen", address, "--config", good, "--threads", "0"], 1,
                 b"settings: --threads 0: from 1 to 1024\nfault: settings threads\n"),
                (["--listen", address, "--config", good, "--first-delay", "0"], 1,
                 b"delays: --first-delay 0: at least 1\nfault: delays\n"),
                (["--listen", address, "--config", good, "--first-delay", "2", "--greatest-delay", "1"], 1,
                 b"delays: --first-delay 2: not above --greatest-delay 1\nfault: delays\n"),
                (["--listen", "nowhere", "--config", good], 1,
                 b"listen: nowhere: no address <host>:<port>\nfault: listen\n"),
                (["--listen", HOST + ":65536", "--config", good], 1,
                 b"listen: %s:65536: no address <host>:<port>\nfault: listen\n" % HOST.encode()),
                (["--listen", HOST + ":0x50", "--config", good], 1,
                 b"listen: %s:0x50: no address <host>:<port>\nfault: listen\n" % HOST.encode()),
                (["--listen", address], 2, None), (["--config", good], 2, None),
                (["--listen", address, "--config", good, "--threads", "many"], 2, None),
                (["--listen", address, "--config", good, "--timeout", "0"], 2, None)):
            self.ends_at_once(words, status, line)

    def test_a_port_in_use(self):
        config = configuration(only=[self.memcached()])
        with socket.create_server((HOST, free_port())) as taken:
            address = "%s:%d" % taken.getsockname()
            self.ends_at_once(["--listen", address, "--config", config], 1, in_use(address))
        proxy = self.proxy(config)
        address = f"{HOST}:{proxy.port}"
        self.ends_at_once(["--listen", address, "--config", config], 1, in_use(address))
        with proxy.client() as client:
            self.assertEqual(client.ask(b"version\r\n"), VERSION)

    def ends_at_once(self, words, status, line):
        result = subprocess.run([PROGRAM, "serve", *MODE_WORDS, *words], stdin=subprocess.DEVNULL, capture_output=True,
                                timeout=20, check=False)
        self.assertEqual((words, result.returncode, result.stdout), (words, status, b""))
        if line is not None:
            self.assertEqual((words, result.stderr), (words, line))
