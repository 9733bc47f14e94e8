"""Which server of a pool a key belongs to: where real peers put keys, and how keys move where pools change."""
import json
import os
import random
import subprocess
import unittest

from parts import PROGRAM

# Of each: what a client or proxy was set to, its servers, a key, and the place of the server that it asked.
with open(os.path.join(os.path.dirname(__file__), "placements.json")) as rows:
    PLACEMENTS = json.load(rows)
POOL_KEYS = ["servers", "distribution", "hash", "weights", "names", "hash_tag"]


def configuration_of(pool):
    return json.dumps({"pools": {"A": pool}, "route": "PoolRoute|A"})


def places_of(pool, keys):
    """The address of the target of each key, by `check`."""
    text = configuration_of(pool)
    found = []
    for start in range(0, len(keys), 500):
        words = [word for key in keys[start:start + 500] for word in ("--key", key)]
        lines = run(["check", "--config", text, *words]).splitlines()
        addresses = [line.split(" ", 2)[2] for line in lines if line.startswith("server ")]
        found += [addresses[int(line.rsplit(" ", 1)[1])] for line in lines if line.startswith("key ")]
    return found


def place_of_bytes(pool, key):
    """The address of the target of a key that is no UTF-8, by what `dry` would ask."""
    words = ["dry", "--config", configuration_of(pool), "--outcomes", "miss", "--trail"]
    lines = run(words, input=b"get %s\r\n" % key).splitlines()
    servers = list(dict.fromkeys(pool["servers"]))
    return servers[int(next(line for line in lines if line.startswith("trail ")).split()[2])]


def run(words, **options):
    done = subprocess.run([PROGRAM, *words], capture_output=True, check=True, timeout=60, **options)
    return done.stdout.decode()


class Placements(unittest.TestCase):
    def test_keys_are_where_real_peers_put_them(self):
        self.assertGreaterEqual(len(PLACEMENTS), 60)
        for row in PLACEMENTS:
            pool = {name: row[name] for name in POOL_KEYS if name in row}
            key = bytes.fromhex(row["key_hex"])
            with self.subTest(peer=row["peer"], kind=row["kind"], key=key):
                try:
                    [address] = places_of(pool, [key.decode()])
                except UnicodeDecodeError:
                    address = place_of_bytes(pool, key)
                self.assertEqual(address, pool["servers"][row["place"]])


class Movement(unittest.TestCase):
    """Pools that are made up at each run, by a seed that a failure names."""

    def setUp(self):
        self.seed = random.SystemRandom().randrange(2 ** 32)
        self.chance = random.Random(self.seed)
        self.keys = [f"key:{self.chance.randrange(2 ** 40):x}" for _ in range(2000)]

    def pool(self, distribution):
        """A pool of 2 to 64 servers, of which some have names of their own."""
        count = self.chance.randint(2, 64)
        servers = [f"10.{self.chance.randrange(256)}.{place}.1:{self.chance.choice([11211, 11300])}"
                   for place in range(count)]
        pool = {"servers": servers, "distribution": distribution, "hash": self.chance.choice(["fnv1a_64", "md5"])}
        if self.chance.random() < 0.5:
            pool["names"] = [f"cache-{self.chance.randrange(1000)}-{place}" for place in range(count)]
        return pool

    def test_a_server_that_joins_takes_keys_to_itself_alone(self):
        for distribution in ("consistent", "ketama"):
            pool = self.pool(distribution)
            fewer = {name: value[:-1] if isinstance(value, list) else value for name, value in pool.items()}
            before, after = places_of(fewer, self.keys), places_of(pool, self.keys)
            moved = [new for old, new in zip(before, after) if old != new]
            with self.subTest(seed=self.seed, pool=pool):
                if distribution == "consistent" or len(set(self.points(fewer)) | set(self.points(pool))) == 1:
                    self.assertLessEqual(set(moved), {pool["servers"][-1]})
                    self.assertEqual(len(moved), after.count(pool["servers"][-1]))

    def points(self, pool):
        lines = run(["check", "--config", configuration_of(pool)]).splitlines()
        return next(line for line in lines if line.startswith("points ")).split()[2:]

    def test_a_server_has_its_share_of_the_keys(self):
        pool = self.pool("ketama")
        pool["weights"] = [self.chance.randint(1, 4) for _ in pool["servers"]]
        counts = {address: 0 for address in pool["servers"]}
        for address in places_of(pool, self.keys):
            counts[address] += 1
        for address, weight in zip(pool["servers"], pool["weights"]):
            share = weight / sum(pool["weights"]) * len(self.keys)
            with self.subTest(seed=self.seed, pool=pool, address=address):
                # Six standard deviations of a sum of that many points and that many keys.
                spread = 6 * (share / (160 * weight * len(counts) / sum(pool["weights"])) ** 0.5 + share ** 0.5)
                self.assertAlmostEqual(counts[address], share, delta=spread)
