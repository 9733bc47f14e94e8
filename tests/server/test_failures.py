"""Servers that are killed, paused and brought back while several clients keep asking."""
import random
import time

from load import Load
from parts import ServerTest, configuration
from ports import wait_until
from talk import fnv1a, store, values

NO_SERVER = b"SERVER_ERROR no server\r\n"
TIMEOUT = 1.0
DELAY = 0.3
# A worker is busy with other clients, and this machine perhaps with other work: what is said of times holds by a wide
# margin.
SLACK = 10


class Failures(ServerTest):
    def setUp(self):
        self.near = [self.memcached(), self.memcached()]
        self.far = [self.memcached()]
        delay = int(DELAY * 1000)
        self.through = self.proxy(configuration(near=self.near, far=self.far), threads=8, timeout=int(TIMEOUT * 1000),
                                  first_delay=delay, greatest_delay=delay)

    def load(self, clients=5):
        load = Load(self.through.port, clients)
        self.addCleanup(load.stop)
        wait_until(lambda: load.answers() > 500, 30, "the clients get answers")
        return load

    def mark(self, server):
        return self.through.marks()[server.address]

    def is_marked(self, *servers):
        marks = self.through.marks()
        return all(marks[server.address].split(":")[0] in ("soft", "hard") for server in servers)

    def is_up(self, *servers):
        marks = self.through.marks()
        return all(marks[server.address] == "up:0" for server in servers)

    def stays_marked(self, *servers, seconds=1.0):
        """The servers are marked all the time, and no other is."""
        ends = time.monotonic() + seconds
        while time.monotonic() < ends:
            self.assertTrue(self.is_marked(*servers))
            self.assertTrue(self.is_up(*(server for server in self.near + self.far if server not in servers)))
            time.sleep(0.01)

    def ends_well(self, load):
        load.stop()
        self.assertEqual(load.faults, [])
        self.assertGreater(load.hits, 100)

    def comes_back(self, server, load):
        """After the server was revived: its mark is cleared in time, its requests come, and no mark is made anew."""
        wait_until(lambda: self.is_up(server), DELAY + SLACK, "the mark is cleared")
        before = server.count("cmd_get")
        wait_until(lambda: server.count("cmd_get") > before, SLACK, "requests come to the server again")
        ends = time.monotonic() + 1.5
        while time.monotonic() < ends:
            self.assertEqual(self.through.marks(), {each.address: "up:0" for each in self.near + self.far})
            time.sleep(0.005)
        self.ends_well(load)

    def test_a_killed_server_comes_back(self):
        load = self.load()
        self.near[0].kill()
        wait_until(lambda: self.is_marked(self.near[0]), SLACK, "the killed server is marked")
        marked = time.monotonic()
        self.stays_marked(self.near[0])
        self.assertLess(load.slowest(since=marked), SLACK)
        self.near[0].start()
        self.comes_back(self.near[0], load)

    def test_a_stopped_server_comes_back(self):
        load = self.load()
        stopped = time.monotonic()
        self.near[0].pause()
        wait_until(lambda: self.is_marked(self.near[0]), 3 * TIMEOUT + SLACK, "the stopped server is marked")
        self.assertRegex(self.mark(self.near[0]), r"^soft:[0-7]$")
        self.stays_marked(self.near[0])
        # A client waits for one key that is not answered, or for two of one `get`, or for a probe.
        self.assertLess(load.slowest(since=stopped), 2 * TIMEOUT + SLACK)
        self.near[0].resume()
        self.comes_back(self.near[0], load)

    def test_a_stopped_server_that_is_killed_gets_a_hard_mark(self):
        self.near[0].pause()
        load = self.load()
        wait_until(lambda: self.mark(self.near[0]).startswith("soft"), 3 * TIMEOUT + SLACK, "the stopped server is marked")
        self.near[0].kill()
        wait_until(lambda: self.mark(self.near[0]).startswith("hard"), 2 * DELAY + TIMEOUT + SLACK,
                   "a refused probe makes the mark a hard one")
        self.ends_well(load)

    def test_a_large_value_for_a_stopped_server(self):
        large = store(b"a", b"x" * 1000000)
        self.near[fnv1a(b"a") % 2].pause()
        with self.through.client() as client:
            for _ in range(4):
                reply, seconds = client.timed(large)
                self.assertEqual(reply, b"STORED\r\n")
                self.assertLess(seconds, TIMEOUT + SLACK)
            self.assertTrue(client.ask(b"get a\r\n") == values((b"a", b"x" * 1000000)))

    def test_a_server_that_comes_back_at_once(self):
        load = self.load()
        for _ in range(3):
            self.near[1].kill()
            self.near[1].start()
            wait_until(lambda: self.is_up(*self.near), DELAY + SLACK, "no mark stays")
        # By then each worker has met the connection that was closed.
        time.sleep(1)
        self.comes_back(self.near[1], load)

    def test_servers_come_and_go(self):
        choice = random.Random(5)
        load = self.load()
        for _ in range(10):
            server = choice.choice(self.near)
            leave, come = choice.choice([(server.kill, server.start), (server.pause, server.resume)])
            leave()
            time.sleep(choice.uniform(0, 1))
            come()
            time.sleep(choice.uniform(0, 0.5))
        wait_until(lambda: self.is_up(*self.near, *self.far), DELAY + TIMEOUT + SLACK, "all marks are cleared")
        self.ends_well(load)

    def test_a_whole_pool_is_killed(self):
        load = self.load()
        for server in self.near:
            server.kill()
        wait_until(lambda: self.is_marked(*self.near), SLACK, "both servers are marked")
        before, marked = self.far[0].count("cmd_get"), time.monotonic()
        self.stays_marked(*self.near)
        self.assertGreater(self.far[0].count("cmd_get"), before + 100)
        self.assertLess(load.slowest(since=marked), SLACK)
        self.ends_well(load)

    def test_all_servers_are_killed(self):
        with self.through.client() as client:
            self.assertEqual(client.ask(store(b"a", b"x")), b"STORED\r\n")
            self.assertEqual(client.ask(b"get a\r\n"), values((b"a", b"x")))
            for server in self.near + self.far:
                server.kill()
            began = time.monotonic()
            for request in [b"get a\r\n", store(b"a", b"y"), b"get b c\r\n", b"incr a 1\r\n", b"delete a\r\n"] * 20:
                self.assertEqual(client.ask(request), NO_SERVER)
            # Nobody waited for a server: these are a hundred requests.
            self.assertLess(time.monotonic() - began, 50 * TIMEOUT)
            self.assertEqual(client.ask(b"version\r\n"), b"VERSION tkoproxy 1\r\n")
        self.assertTrue(self.is_marked(*self.near, *self.far))
        for server in self.near + self.far:
            server.start()
        wait_until(lambda: self.is_up(*self.near, *self.far), DELAY + SLACK, "all marks are cleared")
        with self.through.client() as client:
            self.assertEqual(client.ask(store(b"a", b"z")), b"STORED\r\n")
            self.assertEqual(client.ask(b"get a\r\n"), values((b"a", b"z")))


class Quiet(ServerTest):
    """Without load: several workers have a connection to a server that goes away and comes back unseen."""

    def test_a_server_that_was_away_gets_no_mark(self):
        server = self.memcached()
        proxy = self.proxy(configuration(near=[server], far=[self.memcached()]), threads=7, failures=3)
        clients = [self.client(proxy.port) for _ in range(6)]
        for client in clients:
            self.assertEqual(client.ask(b"get a\r\n"), b"END\r\n")
        server.kill()
        server.start()
        time.sleep(0.2)
        with server.client() as direct:
            direct.ask(store(b"a", b"back"))
        for client in clients:
            self.assertEqual(client.ask(b"get a\r\n"), values((b"a", b"back")))
            self.assertEqual(proxy.marks()[server.address], "up:0")
