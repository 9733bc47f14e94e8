"""Which server of which pool a key is sent to, and how many servers of a pool are marked softly."""
import json
import types

from parts import ServerTest, configuration
from talk import fnv1a, store, values

KEYS = [b"key-%d" % i for i in range(200)]


class Pools(ServerTest):
    def test_a_key_is_on_the_server_of_its_hash_and_on_no_other(self):
        self.assertEqual([fnv1a(b"a"), fnv1a(b"foobar")], [0xE40C292C, 0xBF9CF968])
        near, far = [self.memcached() for _ in range(3)], [self.memcached()]
        client = self.client(self.proxy(configuration(near=near, far=far)).port)
        for key in KEYS:
            self.assertEqual(client.ask(store(key, key)), b"STORED\r\n")
        holders = [self.client(server.port) for server in near + far]
        for key in KEYS:
            held = [holder.ask(b"get %s\r\n" % key) == values((key, key)) for holder in holders]
            self.assertEqual(held, [place == fnv1a(key) % 3 for place in range(4)])
        request = b"get " + b" ".join(KEYS) + b"\r\n"
        self.assertEqual(client.ask(request), values(*((key, key) for key in KEYS)))

    def test_a_miss_is_an_answer(self):
        near, far = self.memcached(), self.memcached()
        client = self.client(self.proxy(configuration(near=[near], far=[far])).port)
        self.client(far.port).ask(store(b"a", b"far"))
        self.assertEqual(client.ask(b"get a\r\n"), b"END\r\n")

    def test_a_pool_that_does_not_answer_is_replaced_by_the_next(self):
        near, far = [self.closed(), self.memcached()], [self.memcached()]
        proxy = self.proxy(configuration(near=near, far=far))
        client = self.client(proxy.port)
        self.assertEqual(list(proxy.marks()), [server.address for server in near + far])
        for key in KEYS:
            self.assertEqual(client.ask(store(key, key)), b"STORED\r\n")
        holders = [self.client(server.port) for server in (near[1], far[0])]
        for key in KEYS:
            held = [holder.ask(b"get %s\r\n" % key) == values((key, key)) for holder in holders]
            self.assertEqual(held, [fnv1a(key) % 2 == 1, fnv1a(key) % 2 == 0])
        self.assertRegex(proxy.marks().pop(near[0].address), r"^hard:\d+$")

    def test_a_server_that_is_named_by_its_host(self):
        server = self.memcached()
        named = types.SimpleNamespace(address=f"localhost:{server.port}")
        proxy = self.proxy(configuration(only=[named]))
        self.assertEqual(self.ask_once(proxy, store(b"a", b"x")), b"STORED\r\n")
        self.assertEqual(self.client(server.port).ask(b"get a\r\n"), values((b"a", b"x")))
        self.assertEqual(proxy.marks(), {named.address: "up:0"})

    def test_one_server_in_both_pools_has_one_mark(self):
        server = self.closed()
        proxy = self.proxy(configuration(near=[server], far=[server]), threads=1)
        self.assertEqual(self.ask_once(proxy, b"get a\r\n"), b"SERVER_ERROR no server\r\n")
        self.assertEqual(proxy.marks(), {server.address: "hard:0"})

    def ask_once(self, proxy, request):
        with proxy.client() as client:
            return client.ask(request)

    def test_the_limit_of_soft_marks(self):
        garbage = [self.fake(lambda _, request: b"what\r\n") for _ in range(3)]
        proxy = self.proxy(configuration(near=garbage, far=[self.memcached()]), failures=1, limit=1)
        client = self.client(proxy.port)
        for key in KEYS[:20]:
            self.assertEqual(client.ask(b"get %s\r\n" % key), b"END\r\n")
        marks = [proxy.marks()[server.address].split(":")[0] for server in garbage]
        self.assertEqual(sorted(marks), ["soft", "up", "up"])

    def test_each_pool_has_its_own_limit_of_soft_marks(self):
        near, far = [[self.fake(lambda _, request: b"what\r\n") for _ in range(count)] for count in (3, 2)]
        config = json.loads(configuration(near=near, far=far, last=[self.memcached()]))
        config["pools"]["near"]["soft_limit"] = 1
        config["pools"]["far"]["soft_limit"] = 2
        proxy = self.proxy(json.dumps(config), failures=1, limit=0)
        client = self.client(proxy.port)
        for key in KEYS[:40]:
            self.assertEqual(client.ask(b"get %s\r\n" % key), b"END\r\n")
        marks = proxy.marks()
        # What near uses up is not far's.
        for pool, expected in ((near, ["soft", "up", "up"]), (far, ["soft", "soft"])):
            self.assertEqual(sorted(marks[server.address].split(":")[0] for server in pool), expected)
