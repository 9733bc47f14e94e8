"""Servers that are given by name, under a resolver that this test answers for, by naming.c."""
import os
import subprocess
import tempfile
import time

from parts import ServerTest, configuration
from ports import free_port, wait_until
from talk import store, values
from test_log import lines_of

HOST = "cache.test"
NO_SERVER = b"SERVER_ERROR no server\r\n"
# This machine has other work to do.
SLACK = 10
DELAYS = {"first_delay": 100, "greatest_delay": 100}


class Named:
    """A server's port under a name."""

    def __init__(self, port, host=HOST):
        self.address = f"{host}:{port}"


class Names(ServerTest):
    @classmethod
    def setUpClass(cls):
        cls.library = tempfile.TemporaryDirectory()
        cls.addClassCleanup(cls.library.cleanup)
        cls.naming = f"{cls.library.name}/naming.so"
        subprocess.run(["gcc", "-shared", "-fPIC", "-o", cls.naming, "naming.c"], check=True)

    def setUp(self):
        folder = tempfile.TemporaryDirectory()
        self.addCleanup(folder.cleanup)
        self.names, self.looked_up = f"{folder.name}/names", f"{folder.name}/looked_up"
        self.say(HOST, "hangs")

    def say(self, *words):
        """From now on the resolver answers so: a host and what is found, and so on."""
        lines = "".join(f"{host} {found}\n" for host, found in zip(words[::2], words[1::2]))
        with open(f"{self.names}.new", "w", encoding="ascii") as file:
            file.write(lines)
        os.rename(f"{self.names}.new", self.names)

    def look_ups(self):
        """The hosts that were looked up, in order."""
        try:
            with open(self.looked_up, encoding="ascii") as file:
                return file.read().split()
        except FileNotFoundError:
            return []

    def wait_for_look_ups(self, *hosts):
        wait_until(lambda: len(self.look_ups()) >= len(hosts), SLACK, f"look-ups of {hosts}")
        self.assertEqual(self.look_ups(), list(hosts))

    def proxy_of(self, config, **options):
        env = {**os.environ, "LD_PRELOAD": self.naming, "NAMES": self.names, "LOOKED_UP": self.looked_up}
        return self.proxy(config, env=env, **options)

    def look_ups_end(self, proxy, *lines):
        """Its log has come to say this, and nothing else, of look-ups."""
        said = lambda: [words for _, words in lines_of(proxy) if "resolved" in words]
        wait_until(lambda: len(said()) >= len(lines), SLACK, f"the log says {lines[-1:]}")
        self.assertEqual(said(), list(lines))

    def answers(self, client, request, reply):
        wait_until(lambda: client.ask(request) == reply, SLACK, f"{request!r} is answered {reply!r}")

    def test_a_resolver_that_hangs_delays_ready_no_more_than_a_request_its_time_limit(self):
        server = self.memcached()
        proxy = self.proxy_of(configuration(only=[Named(server.port)]), timeout=300, **DELAYS)
        client = self.client(proxy.port)
        # The server is marked by the first request, and its probes wait no longer than the limit either.
        for _ in range(20):
            self.assertEqual(client.ask(b"get a\r\n"), NO_SERVER)
        self.wait_for_look_ups(HOST)
        self.say(HOST, "127.0.0.1")
        self.answers(client, store(b"a", b"x"), b"STORED\r\n")

    def test_a_request_waits_for_the_first_look_up(self):
        server = self.memcached()
        proxy = self.proxy_of(configuration(only=[Named(server.port)]), timeout=20000)
        client = self.client(proxy.port)
        client.send(store(b"a", b"x"))
        self.wait_for_look_ups(HOST)
        self.assertTrue(client.is_quiet(0.3))
        self.say(HOST, "127.0.0.1")
        self.assertEqual(client.reply(), b"STORED\r\n")

    def test_a_resolver_that_hangs_leaves_other_servers_alone(self):
        server = self.memcached()
        near, far = Named(free_port()), server
        proxy = self.proxy_of(configuration(near=[near], far=[far]), timeout=300, threads=1)
        client = self.client(proxy.port)
        self.answers(client, store(b"a", b"x"), b"STORED\r\n")
        self.assertEqual(client.ask(b"get a\r\n"), values((b"a", b"x")))
        self.assertEqual(proxy.marks_by(client)[server.address], "up:0")

    def test_a_name_that_is_not_found_is_refused_at_once(self):
        self.say(HOST, "nothing")
        proxy = self.proxy_of(configuration(only=[Named(free_port())]), timeout=60000)
        client = self.client(proxy.port)
        self.assertEqual(client.ask(b"get a\r\n"), NO_SERVER)

    def test_a_name_that_cannot_be_looked_up_is_logged_and_again_when_that_changes(self):
        server = self.memcached()
        self.say(HOST, "nothing")
        proxy = self.proxy_of(configuration(only=[Named(server.port)]), **DELAYS)
        client, name = self.client(proxy.port), f"server={HOST}:{server.port}"
        lines = [f"unresolved {name} reason=unknown"]
        self.look_ups_end(proxy, *lines)
        # The server is marked, and each of its probes asks for a look-up.
        self.assertEqual(client.ask(b"get a\r\n"), NO_SERVER)
        for found, line in (("silence", f"unresolved {name} reason=no_answer"), ("127.0.0.1", f"resolved {name}")):
            before = len(self.look_ups())
            wait_until(lambda: len(self.look_ups()) > before + 3, SLACK, "more look-ups")
            self.look_ups_end(proxy, *lines)
            self.say(HOST, found)
            lines.append(line)
            self.look_ups_end(proxy, *lines)
        self.answers(client, store(b"a", b"x"), b"STORED\r\n")
        self.look_ups_end(proxy, *lines)

    def test_each_server_of_a_name_is_logged_once_its_look_up_ended(self):
        ports = [free_port(), free_port()]
        config = configuration(first=[Named(ports[0]), self.closed()], second=[Named(ports[1])])
        proxy = self.proxy_of(config, threads=1)
        self.wait_for_look_ups(HOST)
        self.look_ups_end(proxy)
        self.say(HOST, "nothing")
        self.look_ups_end(proxy, *(f"unresolved server={HOST}:{port} reason=unknown" for port in ports))

    def test_a_known_address_serves_while_the_resolver_hangs(self):
        server = self.memcached()
        self.say(HOST, "127.0.0.1")
        proxy = self.proxy_of(configuration(only=[Named(server.port)]), timeout=2000, **DELAYS)
        client = self.client(proxy.port)
        self.assertEqual(client.ask(store(b"a", b"x")), b"STORED\r\n")
        self.say(HOST, "hangs")
        server.kill()
        self.answers(client, b"get a\r\n", NO_SERVER)
        # The failed connect asked for a look-up, which hangs.
        wait_until(lambda: len(self.look_ups()) == 2, SLACK, "a look-up after the failed connect")
        server.start()
        self.answers(client, store(b"a", b"y"), b"STORED\r\n")
        self.assertEqual(len(self.look_ups()), 2)

    def test_a_name_is_looked_up_again_after_a_failed_connect(self):
        server = self.memcached()
        self.say(HOST, "127.0.0.2")
        proxy = self.proxy_of(configuration(only=[Named(server.port)]), **DELAYS)
        client = self.client(proxy.port)
        self.assertEqual(client.ask(b"get a\r\n"), NO_SERVER)
        # A look-up that finds nothing leaves the known address, and the next one finds another.
        self.say(HOST, "nothing")
        before = len(self.look_ups())
        wait_until(lambda: len(self.look_ups()) > before, SLACK, "a look-up after a failed probe")
        self.say(HOST, "127.0.0.1")
        self.answers(client, store(b"a", b"x"), b"STORED\r\n")

    def test_each_address_of_a_name_is_tried(self):
        server = self.memcached()
        self.say(HOST, "127.0.0.2,127.0.0.3,127.0.0.1")
        proxy = self.proxy_of(configuration(only=[Named(server.port)]))
        self.assertEqual(self.client(proxy.port).ask(store(b"a", b"x")), b"STORED\r\n")

    def test_all_workers_share_one_look_up_of_each_host(self):
        servers = [self.memcached(), self.memcached()]
        self.say(HOST, "127.0.0.1", "other.test", "127.0.0.1")
        named = [Named(server.port) for server in servers] + [Named(servers[0].port, "other.test")]
        proxy = self.proxy_of(configuration(only=named), threads=4)
        for _ in range(4):
            client = self.client(proxy.port)
            for key in range(20):
                self.assertEqual(client.ask(store(b"key-%d" % key, b"x")), b"STORED\r\n")
        self.wait_for_look_ups(HOST, "other.test")

    def test_an_ip_address_needs_no_look_up_and_no_thread(self):
        server = self.memcached()
        plain = self.proxy_of(configuration(only=[server]))
        self.assertEqual(self.client(plain.port).ask(store(b"a", b"x")), b"STORED\r\n")
        self.assertEqual(self.look_ups(), [])
        named = self.proxy_of(configuration(only=[Named(server.port)]))
        self.wait_for_look_ups(HOST)
        wait_until(lambda: named.status("Threads") == plain.status("Threads") + 1, SLACK, "one thread more")

    def test_a_look_up_that_hangs_does_not_delay_the_end(self):
        server = self.memcached()
        proxy = self.proxy_of(configuration(near=[server], far=[Named(free_port())]), connections=1)
        self.wait_for_look_ups(HOST)
        with proxy.client() as client:
            self.assertEqual(client.ask(store(b"a", b"x")), b"STORED\r\n")
        began = time.monotonic()
        status, _ = proxy.end()
        self.assertEqual(status, 0)
        self.assertLess(time.monotonic() - began, SLACK)
