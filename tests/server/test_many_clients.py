"""Thousands of clients of a few event-driven workers: each is answered, whatever the others do and the servers too."""
import re
import time

from crowd import Burden, Crowd
from parts import ServerTest, configuration, only_in
from ports import HOST, free_port, wait_until
from test_log import log_of
from test_metrics import ask, numbers_in
from talk import store, values

VERSION = b"VERSION tkoproxy 1\r\n"
NO_SERVER = b"SERVER_ERROR no server\r\n"
WORKERS = 2
MANY = 5000
# The standard streams, listeners and pollers of a process, and its connections to few servers.
SPARE = 200
# How long a test waits for what comes at once on an idle machine.
SLACK = 10
LARGE = b"x" * 100_000
MIB = b"y" * 1_048_576
# A time limit that no test comes to, in milliseconds.
NEVER_REACHED = 600_000
# More failures in a row than a server's death makes of the connections to it, and fewer than the requests that wait then.
ABOVE_CONNECTIONS = 50


@only_in("events", "there a worker serves many clients at once")
class ManyClients(ServerTest):
    def served(self, *servers, far=(), **options):
        pools = {"near": servers, "far": far} if far else {"only": servers}
        return self.proxy(configuration(**pools), threads=WORKERS, **options)

    def most_clients(self, wanted):
        """So many connections, or fewer where this process may not have so many files open, which a line then says."""
        allowed = self.allow_files(wanted + SPARE)
        count = min(wanted, allowed - SPARE)
        if count < wanted:
            print(f"{count} clients in place of {wanted}: {allowed} files may be open ", end="", flush=True)
        return count

    @staticmethod
    def bytes_that_wait(metrics):
        """How many bytes of replies the workers hold, as the metrics at this port tell."""
        numbers = numbers_in(ask(metrics)[2])
        return sum(numbers[f'tkoproxy_worker_waiting_bytes{{worker="{worker}"}}'] for worker in range(WORKERS))

    def test_five_thousand_clients_at_once(self):
        server, count = self.memcached(), self.most_clients(MANY)
        proxy = self.served(server, log="off")
        told = re.search(rb"allowed: 2 workers, (\d+) clients at once", proxy.error_text())
        self.assertGreaterEqual(int(told.group(1)), count)
        clients = [self.client(proxy.port) for _ in range(count)]
        for number, client in enumerate(clients):
            client.send(store(b"key-%d" % number, b"%d" % number) + b"get key-%d\r\n" % number)
        for number, client in enumerate(clients):
            self.assertEqual(client.reply(), b"STORED\r\n")
            self.assertEqual(client.reply(), values((b"key-%d" % number, b"%d" % number)))
        # All are still connected, and each is answered.
        for number, client in reversed(list(enumerate(clients))):
            self.assertEqual(client.ask(b"get key-%d\r\n" % number), values((b"key-%d" % number, b"%d" % number)))
        self.assertEqual(proxy.connections_to(server), WORKERS)

    def test_clients_that_all_connect_at_once_are_let_in(self):
        """More of them than are served at once: the others wait, and are answered as places come free."""
        proxy = self.served(self.memcached(), clients=50)
        crowd = [self.client(proxy.port) for _ in range(600)]
        for client in crowd:
            client.send(b"version\r\n")
        for client in crowd:
            self.assertEqual(client.reply(), VERSION)
            client.close()

    def test_no_more_clients_than_are_allowed(self):
        proxy = self.served(self.memcached(), clients=3)
        first = [self.client(proxy.port) for _ in range(3)]
        for client in first:
            self.assertEqual(client.ask(b"version\r\n"), VERSION)
        fourth = self.client(proxy.port)
        fourth.send(b"version\r\n")
        self.assertTrue(fourth.is_quiet(0.5))
        first[1].close()
        self.assertEqual(fourth.reply(), VERSION)
        self.assertEqual(first[0].ask(b"version\r\n"), VERSION)

    def test_good_clients_beside_nine_hundred_bad_ones(self):
        """None of the bad ones is ended meanwhile."""
        server, metrics = self.memcached("-I", "2m"), free_port()
        self.most_clients(1000)
        proxy = self.served(server, write_timeout=NEVER_REACHED, metrics=f"{HOST}:{metrics}")
        with proxy.client() as client:
            self.assertEqual(client.ask(store(b"large", LARGE)), b"STORED\r\n")
        burden = self.kept(Burden(proxy.port))
        burden.add(300)
        burden.add(300, first=b"set slow 0 0 100000\r\n", piece=b"x")
        burden.add(150, first=b"get large\r\n" * 200, taken=100, received=4096)
        burden.add(150, first=b"get large\r\n" * 200, received=4096)
        burden.start()
        # Once their sockets are full, at least 64 KiB of replies wait for each of the last.
        wait_until(lambda: self.bytes_that_wait(metrics) >= 150 * 65536, 6 * SLACK, "replies wait for them")
        good = [self.client(proxy.port) for _ in range(100)]
        for turn in range(30):
            for number, client in enumerate(good):
                key, value = b"good-%d" % number, b"%d" % turn
                self.assertEqual(client.ask(store(key, value)), b"STORED\r\n")
            for number, client in enumerate(good):
                self.assertEqual(client.ask(b"get good-%d\r\n" % number), values((b"good-%d" % number, b"%d" % turn)))
        for client in good[:10]:
            self.assertEqual(client.ask(b"get large\r\n"), values((b"large", LARGE)))
        self.assertGreater(self.bytes_that_wait(metrics), 0)
        self.assertEqual(numbers_in(ask(metrics)[2])["tkoproxy_clients_connected"], 1000)
        self.assertEqual(set(proxy.marks().values()), {"up:0"})

    def test_a_fresh_client_beside_three_hundred_that_trickle_through_replies_of_a_mebibyte(self):
        server = self.memcached("-I", "2m")
        proxy = self.served(server)
        with proxy.client() as client:
            self.assertEqual(client.ask(store(b"large", MIB)), b"STORED\r\n")
        burden = self.kept(Burden(proxy.port))
        burden.add(300, first=b"get large\r\n" * 3, taken=500, received=4096)
        burden.start()
        time.sleep(1)
        with proxy.client() as fresh:
            self.assertEqual(fresh.ask(b"version\r\n"), VERSION)
            self.assertTrue(fresh.ask(b"get large\r\n") == values((b"large", MIB)))

    def test_one_that_pipelines_thousands_of_requests_holds_nobody(self):
        proxy = self.proxy(configuration(only=[self.memcached()]), threads=1)
        with proxy.client() as greedy, proxy.client() as other:
            greedy.send(b"get a\r\n" * 50_000)
            for _ in range(20):
                self.assertEqual(other.ask(b"get a b c\r\n"), b"END\r\n")
            for _ in range(50_000):
                self.assertEqual(greedy.reply(), b"END\r\n")


@only_in("events", "there a worker serves many clients at once")
class ManyUnderFailures(ServerTest):
    """A thousand clients, while servers go and come."""

    def setUp(self):
        self.near, self.far = self.memcached(), self.memcached()
        self.allow_files(1000 + SPARE)

    def begin(self, **options):
        self.through = self.proxy(configuration(near=[self.near], far=[self.far]), threads=WORKERS, timeout=1000,
                                  first_delay=300, greatest_delay=300, **options)
        self.crowd = Crowd(self.through.port, 1000)
        self.addCleanup(self.crowd.stop)
        self.all_are_answered()

    def all_are_answered(self):
        """Each client gets three more answers."""
        before = [asker.answers for asker in self.crowd.askers]
        wait_until(lambda: self.crowd.faults or all(asker.answers >= least + 3 for asker, least
                                                    in zip(self.crowd.askers, before)), 30, "each client is answered")
        self.assertEqual(self.crowd.faults, [])

    def mark(self):
        return self.through.marks()[self.near.address]

    def comes_back(self):
        wait_until(lambda: self.mark() == "up:0", SLACK, "the mark is cleared")
        self.all_are_answered()
        before = self.near.count("cmd_get")
        wait_until(lambda: self.near.count("cmd_get") > before, SLACK, "its requests come again")

    def ends_well(self):
        self.crowd.stop()
        self.assertEqual(self.crowd.faults, [])
        self.assertGreater(self.crowd.hits(), 1000)

    def marks_made(self):
        """The kinds of the marks that the log tells of the first server."""
        lines = [line for line in log_of(self.through) if line.startswith(f"marked server={self.near.address} ")]
        return [re.search(r" mark=(\w+)", line).group(1) for line in lines]

    def test_a_server_that_is_killed_comes_back(self):
        self.begin(failures=ABOVE_CONNECTIONS)
        self.near.kill()
        wait_until(lambda: self.mark().startswith("hard"), SLACK, "the killed server is marked")
        self.all_are_answered()
        self.near.start()
        self.comes_back()
        self.ends_well()

    def test_a_server_that_is_stopped_comes_back(self):
        self.begin()
        self.near.pause()
        wait_until(lambda: self.mark().startswith("soft"), 3 + SLACK, "the stopped server is marked")
        self.all_are_answered()
        self.near.resume()
        self.comes_back()
        self.ends_well()

    def test_a_server_that_restarts_is_not_marked_soft(self):
        """A connection that ends is one failure, and not one for each of the 500 requests or so that wait on it. While
        a killed server ends, the system may still accept connections to it: these end too, and each of them is one more
        failure in a row. With the default of 3 failures, and 2 workers, one restart in ten made a soft mark on a busy
        machine, with 4 failures fewer than one in a hundred. So 50 are allowed here."""
        self.begin(failures=ABOVE_CONNECTIONS)
        for _ in range(5):
            self.near.kill()
            self.near.start()
            self.all_are_answered()
            wait_until(lambda: self.mark() == "up:0", SLACK, "no mark stays")
        self.comes_back()
        self.ends_well()
        self.assertLessEqual(set(self.marks_made()), {"hard"})

    def test_each_server_has_a_connection_of_each_worker(self):
        self.begin(failures=ABOVE_CONNECTIONS)
        self.assertEqual(self.through.connections_to(self.near), WORKERS)
        self.near.kill()
        wait_until(lambda: self.mark().startswith("hard"), SLACK, "the killed server is marked")
        self.all_are_answered()
        self.assertEqual(self.through.connections_to(self.far), WORKERS)
        self.near.start()
        self.comes_back()
        self.assertEqual(self.through.connections_to(self.near), WORKERS)
        self.ends_well()


@only_in("events", "there a worker serves many clients at once")
class Probed(ServerTest):
    def test_a_server_comes_back_while_the_clients_of_its_worker_trickle(self):
        """The one worker has a hundred clients that complete no request, and never rests."""
        server = self.memcached()
        proxy = self.proxy(configuration(only=[server]), threads=1, first_delay=300, greatest_delay=300)
        burden = self.kept(Burden(proxy.port, pause=0.01))
        burden.add(50, first=b"get ", piece=b"x")
        burden.add(50, first=b"set a 0 0 2000000\r\n", piece=b"x")
        burden.start()
        with proxy.client() as client:
            server.kill()
            self.assertEqual(client.ask(b"get a\r\n"), NO_SERVER)
            self.assertEqual(proxy.marks_by(client), {server.address: "hard:0"})
            server.start()
            wait_until(lambda: proxy.marks_by(client) == {server.address: "up:0"}, SLACK, "the mark is cleared")
            self.assertEqual(client.ask(b"get a\r\n"), b"END\r\n")
