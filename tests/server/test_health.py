"""The health over HTTP: its status and its text, as servers are marked and come back, and what else may be asked."""
import time

from parts import ServerTest, configuration
from ports import HOST, free_port, wait_until
from talk import fnv1a
from test_metrics import ask


def key_of(place, count):
    """A key whose server has this place in a pool of so many."""
    return next(b"%d" % key for key in range(1000) if fnv1a(b"%d" % key) % count == place)


class Health(ServerTest):
    def asked(self, config, **options):
        """A proxy that answers for its health, and the port where it does."""
        port = free_port()
        options = {"threads": 1, "first_delay": 300, "greatest_delay": 300, **options}
        return self.proxy(config, metrics=f"{HOST}:{port}", **options), port

    def health(self, port):
        """The status and the lines of the health, without the moments of marks."""
        status, headers, text = ask(port, path="/health")
        self.assertEqual(headers["content-type"], "text/plain; charset=utf-8")
        self.assertTrue(text.endswith("\n"), text)
        return status, [line.split(" since ")[0] for line in text.splitlines()]

    def mark(self, proxy, *keys):
        with proxy.client() as client:
            for key in keys:
                client.ask(b"get %s\r\n" % key)

    def test_a_pool_is_healthy_while_one_of_its_servers_is_in_use(self):
        near, far = [self.memcached(), self.memcached()], [self.memcached()]
        proxy, port = self.asked(configuration(near=near, far=far))
        in_use = ["pool near: 2 of 2 servers in use", "pool far: 1 of 1 servers in use"]
        self.assertEqual(self.health(port), (200, in_use))
        near[0].kill()
        self.mark(proxy, key_of(0, 2))
        one = ["pool near: 1 of 2 servers in use", f"  {near[0].address} hard", in_use[1]]
        self.assertEqual(self.health(port), (200, one))
        near[1].kill()
        self.mark(proxy, key_of(1, 2))
        none = ["pool near: 0 of 2 servers in use", *(f"  {server.address} hard" for server in near), in_use[1]]
        self.assertEqual(self.health(port), (503, none))
        near[1].start()
        wait_until(lambda: self.health(port) == (200, one), 10, "a server of the pool is in use again")
        near[0].start()
        wait_until(lambda: self.health(port) == (200, in_use), 10, "all are in use again")

    def test_the_pools_are_in_the_order_of_the_route(self):
        servers = [self.memcached() for _ in range(3)]
        _, port = self.asked(configuration(zebra=servers[:1], ant=servers[1:], mole=servers[1:2]))
        self.assertEqual(self.health(port), (200, [f"pool {name}: {count} of {count} servers in use"
                                                   for name, count in (("zebra", 1), ("ant", 2), ("mole", 1))]))

    def test_a_server_of_two_pools_is_out_of_use_in_both(self):
        down, server = self.closed(), self.memcached()
        proxy, port = self.asked(configuration(near=[down], far=[down, server]))
        self.mark(proxy, b"a")
        self.assertEqual(self.health(port), (503, [
            "pool near: 0 of 1 servers in use", f"  {down.address} hard",
            "pool far: 1 of 2 servers in use", f"  {down.address} hard"]))

    def test_a_soft_mark_takes_a_server_out_of_use_too(self):
        server = self.memcached()
        proxy, port = self.asked(configuration(only=[server]), failures=1, timeout=300)
        server.pause()
        before = time.time()
        self.mark(proxy, b"a")
        after = time.time()
        status, _, text = ask(port, path="/health")
        first, second = text.splitlines()
        self.assertEqual((status, first), (503, "pool only: 0 of 1 servers in use"))
        address, kind, since, moment = second.split()
        self.assertEqual((address, kind, since), (server.address, "soft", "since"))
        self.assertRegex(moment, r"\A\d+\.\d{3}\Z")
        self.assertTrue(before - 0.002 <= float(moment) <= after + 0.002, (before, moment, after))
        server.resume()
        wait_until(lambda: self.health(port)[0] == 200, 10, "it is in use again")

    def test_head_gets_the_status_and_the_header_alone(self):
        down = self.closed()
        proxy, port = self.asked(configuration(only=[down]))
        length = len("pool only: 1 of 1 servers in use\n")
        for status, least in ((200, length), (503, length + len(down.address))):
            got, headers, text = ask(port, "HEAD", "/health")
            self.assertEqual((got, headers["content-type"], text), (status, "text/plain; charset=utf-8", ""))
            self.assertGreaterEqual(int(headers["content-length"]), least)
            self.mark(proxy, b"a")

    def test_other_paths_and_methods(self):
        _, port = self.asked(configuration(only=[self.memcached()]))
        for path in ("/health/", "/healthz", "/healt", "/Health", "/metrics/health"):
            self.assertEqual(ask(port, path=path)[0], 404)
        for method in ("POST", "PUT", "DELETE", "OPTIONS"):
            status, headers, text = ask(port, method, "/health")
            self.assertEqual((status, headers["allow"], text), (405, "GET, HEAD", ""))
        self.assertEqual(ask(port, path="/health?full")[0], 200)
        self.assertEqual(ask(port)[0], 200)
