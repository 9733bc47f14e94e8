"""The clients that people use, through the proxy and directly: pymemcache, pylibmc, and the tools of libmemcached."""
import os
import subprocess
import tempfile

import pylibmc
from pymemcache.client.base import Client as PymemcacheClient

from parts import ServerTest, configuration
from ports import HOST

# The tests of memccapable but for `quit` and those that need `version noreply`, `flush_all`, `verbosity` or `stats`,
# which the proxy does not take.
CAPABILITIES = ["get", "gets", "mget", "delete", "incr", "decr", "append", "prepend"]


def outcome(call, *words, **options):
    """What a call returned, or the name of its exception."""
    try:
        return call(*words, **options)
    except Exception as error:  # Whatever the client raises is compared.
        return type(error).__name__


class Clients(ServerTest):
    def setUp(self):
        self.direct = self.memcached("-I", "2m").port
        self.behind = self.memcached("-I", "2m")
        self.proxied = self.proxy(configuration(only=[self.behind])).port

    def compare(self, use):
        """`use(port)` gives a list of outcomes, which is the same through the proxy as directly."""
        expected = use(self.direct)
        self.assertGreater(len({repr(item) for item in expected}), 3)
        for place, (wanted, given) in enumerate(zip(expected, use(self.proxied))):
            self.assertTrue(wanted == given, f"call {place}: {given!r:.200} in place of {wanted!r:.200}")

    def test_pymemcache(self):
        self.compare(self.use_pymemcache)
        self.assertGreater(self.behind.count("cmd_set"), 10)

    def use_pymemcache(self, port):
        client = PymemcacheClient((HOST, port), connect_timeout=10, timeout=10)
        many = {f"many-{i}": b"%d" % i * i for i in range(60)}
        outcomes = [
            client.set("a", b"one", noreply=False), client.get("a"), client.gets("a"), client.get("nothing"),
            client.set("a", b"two", noreply=True), client.get("a"), client.add("a", b"no", noreply=False),
            client.add("b", b"yes", noreply=False), client.replace("b", b"more", noreply=False),
            client.replace("c", b"no", noreply=False), client.append("b", b"!", noreply=False),
            client.prepend("b", b"?", noreply=False), client.append("c", b"!", noreply=False), client.gets("b"),
            client.cas("b", b"new", client.gets("b")[1], noreply=False), client.cas("b", b"old", b"1", noreply=False),
            client.cas("nothing", b"x", b"1", noreply=False), client.get("b"),
            client.set_many(many, noreply=False), client.get_many(list(many)), client.gets_many(["a", "many-7"]),
            client.delete_many(["many-1", "many-2"], noreply=False), client.get_many(["many-1", "many-3"]),
            client.set("n", b"7", noreply=False), client.incr("n", 5), client.decr("n", 2), client.incr("nothing", 1),
            outcome(client.incr, "b", 1), client.incr("n", 1, noreply=True), client.get("n"),
            client.touch("a", 100, noreply=False), client.touch("nothing", 1, noreply=False),
            client.delete("a", noreply=False), client.delete("a", noreply=False), client.delete("b", noreply=True),
            client.get("b"), client.set("e", b"x", expire=-1, noreply=False), client.get("e"),
            outcome(client.set, "k" * 251, b"x", noreply=False), outcome(client.get, "with space"),
            client.set("f", b"flags", flags=1234, noreply=False), client.get("f"),
            client.set("big", bytes(range(256)) * 4096, noreply=False), client.get("big"),
            client.set("0", b"", noreply=False), client.get("0"),
        ]
        client.quit()
        return outcomes

    def test_pylibmc(self):
        self.compare(self.use_pylibmc)
        self.assertGreater(self.behind.count("cmd_set"), 10)

    def use_pylibmc(self, port):
        client = pylibmc.Client([f"{HOST}:{port}"], binary=False, behaviors={"cas": True, "tcp_nodelay": True})
        many = {f"many-{i}": {"number": i, "text": "x" * i} for i in range(60)}
        outcomes = [
            client.set("a", ["a list", 1, 2.5]), client.get("a"), client.get("nothing"), client.gets("a"),
            client.add("a", 1), client.add("b", "text"), client.replace("b", 12345678901), client.get("b"),
            client.replace("c", 1), client.cas("b", "new", client.gets("b")[1]), client.cas("b", "old", 1),
            client.get("b"), client.set_multi(many), client.get_multi(list(many)),
            client.delete_multi(["many-4", "many-5"]), client.get_multi(["many-4", "many-6"]),
            client.set("n", 7), client.incr("n", 5), client.decr("n", 2),
            outcome(client.incr, "nothing"), outcome(client.incr, "b"), client.set("s", "middle"),
            client.append("s", ">"), client.prepend("s", "<"), client.get("s"), client.delete("a"), client.delete("a"),
            client.get("a"), outcome(client.touch, "s", 100), client.set("e", "x", time=1000), client.get("e"),
            client.set("big", os.urandom(1) * 1000000), len(client.get("big")), outcome(client.set, "k" * 251, "x"),
        ]
        client.disconnect_all()
        return outcomes

    def test_tools_of_libmemcached(self):
        self.compare(self.use_tools)

    def use_tools(self, port):
        with tempfile.TemporaryDirectory() as folder:
            for name, text in (("one", "first\n"), ("two", "second\n"), ("large", "0123456789abcdef" * 60000)):
                with open(os.path.join(folder, name), "w", encoding="ascii") as file:
                    file.write(text)

            def tool(*words):
                result = subprocess.run([words[0], f"--servers={HOST}:{port}", *words[1:]], cwd=folder, timeout=60,
                                        stdin=subprocess.DEVNULL, capture_output=True, check=False)
                return words, result.returncode, result.stdout

            # Not memcping, which fails: it reads a version of three numbers.
            return [tool("memccp", "one", "two", "large"), tool("memccat", "one"), tool("memccat", "two"),
                    tool("memccat", "large"), tool("memccat", "one", "two"), tool("memccat", "nothing"),
                    tool("memcexist", "one"), tool("memcexist", "nothing"), tool("memctouch", "--expire=100", "one"),
                    tool("memcrm", "one"), tool("memcrm", "one"), tool("memccat", "one"), tool("memcexist", "one")]

    def test_memccapable(self):
        for port in (self.direct, self.proxied):
            for name in CAPABILITIES:
                self.assertIn("All tests passed", self.memccapable(port, f"ascii {name}"), name)

    def memccapable(self, port, name):
        words = ["memccapable", "-h", HOST, "-p", str(port), "-a", "-t", "5", "-T", name]
        result = subprocess.run(words, timeout=60, stdin=subprocess.DEVNULL, capture_output=True, check=False)
        return (result.stdout + result.stderr).decode()
