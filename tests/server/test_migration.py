"""nutcracker's files as configurations: examples/nutcracker-to-json, and keys that nutcracker itself put somewhere."""
import json
import os
import shutil
import subprocess
import tempfile
import unittest

from parts import HOST, ServerTest, start, stop
from ports import free_port, is_open, wait_until
from talk import Client, store

SCRIPT = os.path.join(os.path.dirname(__file__), "..", "..", "examples", "nutcracker-to-json")
LINES = "alpha:\n  listen: 127.0.0.1:{port}\n  hash: {hash}\n  distribution: {distribution}\n  servers:\n{servers}"
# What a file has in its pool, and what the pool of tkoproxy has; or the words with which it is refused.
CONVERTED = [
    ("  servers:\n   - b:11211:1\n   - a.x:11211:1\n",
     {"servers": ["b:11211", "a.x:11211"], "distribution": "ketama", "hash": "fnv1a_64"}),
    ("  hash: md5\n  hash_tag: \"{}\"\n  servers:\n   - h:2:3\n   - h:1:1\n",
     {"servers": ["h:1", "h:2"], "distribution": "ketama", "hash": "md5", "weights": [1, 3], "hash_tag": "{}"}),
    ("  servers:\n   - h:2:1 long\n   - h:11211:1\n",
     {"servers": ["h:11211", "h:2"], "distribution": "ketama", "hash": "fnv1a_64", "names": ["h", "long"]}),
    ("  distribution: modula\n  servers:\n   - h:2:2\n   - h:1:1\n",
     {"servers": ["h:1", "h:2", "h:2"], "distribution": "modula", "hash": "fnv1a_64"}),
]
REFUSED = [
    ("  hash: crc16\n  servers:\n   - h:1:1\n", "hash crc16 has no equivalent"),
    ("  distribution: random\n  servers:\n   - h:1:1\n", "distribution random has no equivalent"),
    ("  servers:\n   - /tmp/socket:1\n", "sockets of the file system have no equivalent"),
    ("  redis: true\n  servers:\n   - h:1:1\n", "it speaks Redis"),
    ("  servers:\n   - h:1:0\n", "has no weight"),
    ("  hash: md5\n", "there are no servers"),
    ("  servers:\n   - h:1:16777216\n   - h:2:1\n", "the weights are above 16777216 together"),
]


def convert(text):
    with tempfile.NamedTemporaryFile("w", suffix=".yml") as file:
        file.write(text)
        file.flush()
        return subprocess.run([SCRIPT, file.name], capture_output=True, text=True, timeout=20)


class Conversion(unittest.TestCase):
    def test_a_pool_of_nutcracker_has_an_equivalent(self):
        for text, wanted in CONVERTED:
            with self.subTest(text=text):
                self.assertEqual(json.loads(convert("alpha:\n" + text).stdout),
                                 {"pools": {"alpha": wanted}, "route": "PoolRoute|alpha"})

    def test_one_without_an_equivalent_is_refused_with_a_reason(self):
        for text, reason in REFUSED:
            with self.subTest(text=text):
                done = convert("alpha:\n" + text)
                self.assertEqual((done.returncode, done.stdout), (1, ""))
                self.assertIn(reason, done.stderr)


@unittest.skipUnless(shutil.which("nutcracker"), "nutcracker is not installed")
class Keys(ServerTest):
    def test_each_key_that_nutcracker_stored_is_found(self):
        for distribution, hash_name, count in (
                ("ketama", "fnv1a_64", 1), ("ketama", "md5", 12), ("ketama", "murmur", 25), ("ketama", "fnv1_32", 40),
                ("modula", "one_at_a_time", 17)):
            with self.subTest(distribution=distribution, hash=hash_name, count=count):
                self.find(distribution, hash_name, [self.memcached() for _ in range(count)])

    def find(self, distribution, hash_name, servers):
        port = free_port()
        lines = "".join(f"   - {HOST}:{server.port}:{1 + place % 3}\n" for place, server in enumerate(servers))
        text = LINES.format(port=port, hash=hash_name, distribution=distribution, servers=lines)
        with tempfile.NamedTemporaryFile("w", suffix=".yml") as file:
            file.write(text)
            file.flush()
            words = ["nutcracker", "-c", file.name, "-a", HOST, "-s", str(free_port())]
            self.addCleanup(stop, start(words, stdout=subprocess.DEVNULL, stderr=subprocess.DEVNULL))
            wait_until(lambda: is_open(port), 10, "nutcracker listens")
        keys = [b"key:%d" % number for number in range(20_000)]
        with Client(port) as old:
            for key in keys:
                self.assertEqual(old.ask(store(key, key)), b"STORED\r\n")
        proxied = self.proxy(convert(text).stdout)
        with Client(proxied.port) as new:
            missed = [key for key in keys if new.ask(b"get %s\r\n" % key) == b"END\r\n"]
        self.assertEqual(missed, [])
