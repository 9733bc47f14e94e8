"""Connections that cannot be made for what the proxy itself lacks, and servers of which some addresses are dead; in a
network namespace of each test's own. None of these tests measures a time."""
import errno
import os
import socket
import struct
import subprocess
import tempfile
import time
from datetime import timedelta

import namespace
from fakes import Deaf
from parts import ServerTest, configuration, only_in
from ports import HOST, wait_until
from talk import store, values
from test_log import lines_of
from test_names import Named

NAME = "cache.test"
STORED = b"STORED\r\n"
NO_SERVER = b"SERVER_ERROR no server\r\n"
# Where ports are used up, outgoing connections have these alone; so many to each server, or to the proxy.
PORTS = range(40000, 40004)
CLIENTS = 8
# What is lacking is logged at most once in this time.
LACKS_EVERY = timedelta(seconds=10)


class OwnNamespace(ServerTest):
    def setUp(self):
        self.addCleanup(namespace.leave, namespace.enter())

    def use_up_ports(self, server):
        """All ports that a connection to a server may have are taken, until what this returns is closed."""
        namespace.limit_ports(PORTS[0], PORTS[-1])
        taken = []
        while True:
            connection = self.kept(socket.socket())
            # It leaves nothing behind when it is closed.
            connection.setsockopt(socket.SOL_SOCKET, socket.SO_LINGER, struct.pack("ii", 1, 0))
            status = connection.connect_ex((HOST, server.port))
            if status == errno.EADDRNOTAVAIL:
                return taken
            self.assertEqual(status, 0)
            taken.append(connection)

    def is_logged(self, proxy, words):
        """Its log says this, at most once in ten seconds, and no server's mark changed."""
        said = lambda: [stamp for stamp, line in lines_of(proxy) if line == words]
        wait_until(said, 10, f"the log says {words}")
        stamps = said()
        for before, after in zip(stamps, stamps[1:]):
            self.assertGreaterEqual(after - before, LACKS_EVERY)
        self.assertFalse([line for _, line in lines_of(proxy) if line.startswith(("marked", "hardened"))])

    def is_unmarked(self, proxy, client):
        self.assertEqual(set(proxy.marks_by(client).values()), {"up:0"})


class TwoServers(OwnNamespace):
    def setUp(self):
        super().setUp()
        self.near, self.far = self.memcached(), self.memcached()


@only_in("events", "with threads whatever cannot be connected to is refused")
class OwnLack(TwoServers):
    """What the proxy lacks is no failure of a server."""

    def test_a_request_goes_on_to_its_next_target_without_a_port(self):
        taken = self.use_up_ports(self.near)
        proxy = self.proxy(configuration(near=[self.near], far=[self.far]), threads=2)
        client = self.client(proxy.port)
        for _ in range(50):
            self.assertEqual(client.ask(store(b"a", b"far")), STORED)
        self.is_unmarked(proxy, client)
        self.is_logged(proxy, f"lacking ports server={self.near.address}")
        self.assertEqual(self.far.count("cmd_set"), 50)
        for each in taken:
            each.close()
        self.assertEqual(client.ask(store(b"a", b"near")), STORED)
        self.assertEqual(self.near.count("cmd_set"), 1)

    def test_ports_that_are_lacking_for_ten_seconds_mark_no_server(self):
        taken = self.use_up_ports(self.near)
        proxy = self.proxy(configuration(near=[self.near], far=[self.far]), threads=2)
        clients = [self.client(proxy.port) for _ in range(4)]
        began = time.monotonic()
        while time.monotonic() - began < 1.2 * LACKS_EVERY.total_seconds():
            for client in clients:
                self.assertEqual(client.ask(store(b"a", b"far")), STORED)
            time.sleep(0.02)
        self.is_unmarked(proxy, clients[0])
        self.is_logged(proxy, f"lacking ports server={self.near.address}")
        for each in taken:
            each.close()
        self.assertEqual(clients[0].ask(store(b"a", b"near")), STORED)
        self.assertEqual(self.near.count("cmd_set"), 1)

    def test_a_probe_without_a_port_records_nothing(self):
        delays = {"first_delay": 100, "greatest_delay": 100}
        proxy = self.proxy(configuration(only=[self.near]), threads=1, failures=1, timeout=300, **delays)
        client = self.client(proxy.port)
        probed = f"probed server={self.near.address} mark=soft worker=0 outcome="
        said = lambda came: any(line.startswith(probed + came) for _, line in lines_of(proxy))
        self.near.pause()
        self.assertEqual(client.ask(b"get a\r\n"), NO_SERVER)
        taken = []

        def is_aborted():
            # A probe that had a port before leaves it now and then.
            taken.extend(self.use_up_ports(self.near))
            return said("aborted")

        wait_until(is_aborted, 20, "a probe has no port")
        self.assertEqual(proxy.marks_by(client), {self.near.address: "soft:0"})
        self.near.resume()
        for each in taken:
            each.close()
        wait_until(lambda: said("reply"), 20, "a probe is answered")
        self.assertEqual(client.ask(b"get a\r\n"), b"END\r\n")

    def test_without_a_port_and_another_target_there_is_an_error_at_once(self):
        taken = self.use_up_ports(self.near)
        proxy = self.proxy(configuration(only=[self.near]), timeout=600000)
        client = self.client(proxy.port)
        for _ in range(50):
            self.assertEqual(client.ask(b"get a\r\n"), NO_SERVER)
        self.is_unmarked(proxy, client)
        for each in taken:
            each.close()
        self.assertEqual(client.ask(store(b"a", b"x")), STORED)

    def test_a_connection_that_stands_serves_on_while_others_have_no_port(self):
        proxy = self.proxy(configuration(only=[self.near]), threads=1)
        client = self.client(proxy.port)
        self.assertEqual(client.ask(store(b"a", b"x")), STORED)
        self.use_up_ports(self.near)
        self.assertEqual(client.ask(b"get a\r\n"), values((b"a", b"x")))
        self.is_unmarked(proxy, client)

    def test_a_request_goes_on_to_its_next_target_without_a_descriptor(self):
        delays = {"first_delay": 100, "greatest_delay": 100}
        proxy = self.proxy(configuration(near=[self.near], far=[self.far]), threads=1, **delays)
        client = self.client(proxy.port)
        # The connection to the far server is there before descriptors are lacking, and none to the near one.
        self.near.kill()
        self.assertEqual(client.ask(store(b"a", b"far")), STORED)
        self.near.start()
        wait_until(lambda: proxy.marks_by(client)[self.near.address] == "up:0", 30, "the near server is unmarked")
        self.near.kill()
        self.near.start()
        wait_until(lambda: proxy.connections_to(self.near) == 0, 10, "its connection is closed")
        proxy.limit_files(proxy.lowest_free_file())
        for _ in range(50):
            self.assertEqual(client.ask(b"get a\r\n"), values((b"a", b"far")))
        self.is_unmarked(proxy, client)
        wait_until(lambda: "lacking descriptors" in [line for _, line in lines_of(proxy)], 10, "the log says so")
        proxy.limit_files(1000)
        self.assertEqual(client.ask(b"get a\r\n"), b"END\r\n")


@only_in("threads", "event-driven workers record nothing then")
class OwnLackWithThreads(TwoServers):
    """With a thread for each client any connection that cannot be made is refused."""

    def test_a_server_is_marked_if_there_is_no_port(self):
        self.use_up_ports(self.near)
        proxy = self.proxy(configuration(near=[self.near], far=[self.far]), threads=1)
        client = self.client(proxy.port)
        self.assertEqual(client.ask(store(b"a", b"far")), STORED)
        self.assertEqual(proxy.marks_by(client), {self.near.address: "hard:0", self.far.address: "up:0"})


class DeadAddresses(OwnNamespace):
    """A host some of whose addresses swallow connections."""

    def setUp(self):
        super().setUp()
        folder = tempfile.TemporaryDirectory()
        self.addCleanup(folder.cleanup)
        self.folder = folder.name
        subprocess.run(["gcc", "-shared", "-fPIC", "-o", f"{self.folder}/naming.so", "naming.c"], check=True)
        self.server = self.memcached()

    def deaf_at(self, host):
        return self.kept(Deaf(host, self.server.port))

    def proxy_at(self, *addresses, **options):
        """A proxy whose server's host has these addresses, in this order."""
        names = f"{self.folder}/names"
        with open(names, "w", encoding="ascii") as file:
            file.write(f"{NAME} {','.join(addresses)}\n")
        env = {**os.environ, "LD_PRELOAD": f"{self.folder}/naming.so", "NAMES": names, "LOOKED_UP": f"{self.folder}/log"}
        return self.proxy(configuration(only=[Named(self.server.port, NAME)]), env=env, **options)

    def serves_with(self, *addresses):
        """Clients of all workers are answered, and no server was marked."""
        for threads in (1, 2, 4):
            with self.subTest(threads=threads):
                proxy = self.proxy_at(*addresses, threads=threads, timeout=3000)
                for _ in range(CLIENTS):
                    with proxy.client() as client:
                        self.assertEqual(client.ask(store(b"a", b"x")), STORED)
                        self.assertEqual(client.ask(b"get a\r\n"), values((b"a", b"x")))
                        self.assertEqual(set(proxy.marks_by(client).values()), {"up:0"})

    def test_the_first_address_swallows_connections(self):
        self.deaf_at("::1")
        self.serves_with("::1", HOST)

    def test_the_last_address_swallows_connections(self):
        self.deaf_at("::1")
        self.serves_with(HOST, "::1")

    def test_two_of_three_addresses_swallow_connections(self):
        self.deaf_at("::1")
        self.deaf_at("127.0.0.2")
        self.serves_with("::1", "127.0.0.2", HOST)

    def test_one_address_refuses_and_the_other_swallows(self):
        self.deaf_at("127.0.0.2")
        self.serves_with("127.0.0.3", "127.0.0.2", HOST)

    @only_in("events", "with threads whatever cannot be connected to is refused")
    def test_an_address_that_refuses_hides_no_lack_at_the_one_that_served(self):
        proxy = self.proxy_at(HOST, "::1", threads=1)
        client = self.client(proxy.port)
        self.assertEqual(client.ask(store(b"a", b"x")), STORED)
        self.server.kill()
        self.server.start()
        wait_until(lambda: proxy.connections_to(self.server) == 0, 10, "its connection is closed")
        taken = self.use_up_ports(self.server)
        self.assertEqual(client.ask(b"get a\r\n"), NO_SERVER)
        self.is_unmarked(proxy, client)
        self.is_logged(proxy, f"lacking ports server={NAME}:{self.server.port}")
        for each in taken:
            each.close()
        self.assertEqual(client.ask(b"get a\r\n"), b"END\r\n")

    def test_a_server_whose_addresses_are_all_dead_is_marked(self):
        self.server.kill()
        self.deaf_at("::1")
        self.deaf_at("127.0.0.2")
        proxy = self.proxy_at("::1", "127.0.0.2", timeout=500)
        client = self.client(proxy.port)
        self.assertEqual(client.ask(b"get a\r\n"), NO_SERVER)
        self.assertNotIn("up:0", proxy.marks_by(client).values())
