"""What the metrics count of requests, of refused lines and of what came from each server, and the times."""
import time
import unittest

from parts import ServerTest, configuration, only_in
from ports import HOST, free_port, wait_until
from talk import store, values
from test_metrics import ask, numbers_in

TIMES = ("tkoproxy_request_seconds", "tkoproxy_server_response_seconds")


class Counted(ServerTest):
    def metered(self, config, **options):
        """A proxy with metrics; its numbers are asked with `numbers`."""
        self.port = free_port()
        return self.proxy(config, metrics=f"{HOST}:{self.port}", **options)

    def numbers(self):
        status, _, text = ask(self.port)
        self.assertEqual(status, 200)
        return numbers_in(text)

    def labelled(self, name, label):
        """The numbers of a metric by the values of its one label, without those that are 0."""
        front = f'{name}{{{label}="'
        return {key[len(front):-2]: number for key, number in self.numbers().items()
                if key.startswith(front) and number}

    def outcomes(self, server):
        front = f'tkoproxy_server_outcomes_total{{server="{server.address}",outcome="'
        return {key[len(front):-2]: number for key, number in self.numbers().items()
                if key.startswith(front) and number}

    def test_requests_by_command(self):
        proxy = self.metered(configuration(only=[self.memcached()]), threads=1)
        self.assertEqual(self.labelled("tkoproxy_commands_total", "command"), {})
        with proxy.client() as client:
            for verb in (b"set", b"add", b"replace", b"append", b"prepend"):
                client.ask(verb + b" a 0 0 1\r\n1\r\n")
            client.ask(b"cas a 0 0 1 1\r\n1\r\n")
            for line in (b"get a", b"get a b", b"gets a", b"incr a 1", b"decr a 1", b"touch a 0", b"delete a", b"version"):
                client.ask(line + b"\r\n")
            client.send(b"delete a noreply\r\nquit\r\n")
            self.assertEqual(client.rest(), b"")
        words = ("gets", "set", "add", "replace", "append", "prepend", "cas", "incr", "decr", "touch", "quit")
        expected = {word: 1 for word in words} | {"get": 2, "delete": 2, "version": 1}
        self.assertEqual(self.labelled("tkoproxy_commands_total", "command"), expected)
        self.assertEqual(self.numbers()["tkoproxy_requests_total"], sum(expected.values()))

    def test_lines_that_are_refused(self):
        proxy = self.metered(configuration(only=[self.memcached()]), threads=1)
        with proxy.client() as client:
            for line in (b"foo", b"get", b"get " + b"k" * 251, b"set a 0 0 1\r\nxyz"):
                client.ask(line + b"\r\n")
            client.ask(b"set a 0 0 99999999\r\n")
        with proxy.client() as client:
            client.send(b"x" * 65537)
            self.assertEqual(client.rest(), b"CLIENT_ERROR line too long\r\n")
        with proxy.client() as client:
            client.send(b"\x80" + bytes(23))
            self.assertEqual(client.rest(), b"")
        # A client of the binary protocol counts once its session has ended.
        kinds = ("bad_chunk", "bad_key", "bad_line", "binary", "line_too_long", "too_large", "unknown_command")
        wait_until(lambda: "binary" in self.labelled("tkoproxy_refused_total", "kind"), 5, "the client is counted")
        refused = self.labelled("tkoproxy_refused_total", "kind")
        self.assertEqual(set(refused), set(kinds))
        self.assertEqual(refused | {"unknown_command": 1}, {kind: 1 for kind in kinds})
        numbers = self.numbers()
        self.assertEqual(numbers["tkoproxy_requests_total"], 0)
        self.assertEqual(numbers['tkoproxy_session_faults_total{kind="line_too_long"}'], 1)

    def test_keys_with_and_without_a_value(self):
        proxy = self.metered(configuration(only=[self.memcached()]), threads=1)
        with proxy.client() as client:
            self.assertEqual(client.ask(store(b"a", b"1")), b"STORED\r\n")
            self.assertEqual(client.ask(b"get a\r\n"), values((b"a", b"1")))
            self.assertEqual(client.ask(b"get b a c\r\n"), values((b"a", b"1")))
            self.assertEqual(client.ask(b"gets b\r\n"), b"END\r\n")
        numbers = self.numbers()
        self.assertEqual((numbers["tkoproxy_get_hits_total"], numbers["tkoproxy_get_misses_total"]), (2, 3))

    @only_in("events", "keys go to servers one after another there")
    def test_grouped_keys_count_each(self):
        server = self.memcached()
        proxy = self.metered(configuration(only=[server]), threads=1, keys_at_once=8, group_keys=True)
        with proxy.client() as client:
            self.assertEqual(client.ask(store(b"a", b"1")), b"STORED\r\n")
            self.assertEqual(client.ask(b"get b a c\r\n"), values((b"a", b"1")))
        numbers = self.numbers()
        self.assertEqual((numbers["tkoproxy_get_hits_total"], numbers["tkoproxy_get_misses_total"]), (1, 2))
        # The three keys were one request to the server.
        self.assertEqual(self.outcomes(server), {"reply": 2})
        self.assertEqual(numbers[f'tkoproxy_server_response_seconds_count{{server="{server.address}"}}'], 2)

    def test_what_came_of_requests_to_servers(self):
        good, down = self.memcached(), self.closed()
        cut = self.fake(lambda *_: b"VALUE a 0 1\r\nxyz\r\n")
        silent = self.fake(lambda *_: time.sleep(2) or b"END\r\n")
        servers = configuration(one=[down], two=[cut], three=[silent], four=[good])
        proxy = self.metered(servers, threads=1, timeout=300, failures=5)
        with proxy.client() as client:
            self.assertEqual(client.ask(b"get a\r\n"), b"END\r\n")
            self.assertEqual(client.ask(b"get a\r\n"), b"END\r\n")
        # The first server was marked by its refusal, so it was sent to once.
        self.assertEqual(self.outcomes(down), {"refused": 1})
        self.assertEqual(self.outcomes(cut), {"broken": 2})
        self.assertEqual(self.outcomes(silent), {"timeout": 2})
        self.assertEqual(self.outcomes(good), {"reply": 2})

    def times(self, name, labels=""):
        """How many times there are up to each bound, all of them, and their sum."""
        numbers = self.numbers()
        front, back = f'{name}_bucket{{le="', f'"{labels and "," + labels}}}'
        buckets = {key[len(front):-len(back)]: number for key, number in numbers.items()
                   if key.startswith(front) and key.endswith(back)}
        outer = f"{{{labels}}}" if labels else ""
        return buckets, numbers[f"{name}_count{outer}"], numbers[f"{name}_sum{outer}"]

    def test_times_of_a_slow_server(self):
        slow = self.fake(lambda *_: time.sleep(0.3) or b"END\r\n")
        proxy = self.metered(configuration(only=[slow]), threads=1, timeout=60000)
        with proxy.client() as client:
            self.assertEqual(client.ask(b"get a\r\n"), b"END\r\n")
            self.assertEqual(client.ask(b"version\r\n"), b"VERSION tkoproxy 1\r\n")
        buckets, count, total = self.times(TIMES[1], f'server="{slow.address}"')
        self.assertEqual((buckets["0.25"], buckets["+Inf"], count), (0, 1, 1))
        self.assertGreaterEqual(total, 0.29)
        bounds = [float(bound) for bound in buckets]
        self.assertEqual((len(bounds), bounds), (16, sorted(bounds)))
        self.assertEqual(list(buckets.values()), sorted(buckets.values()))
        # The request that the proxy answered itself took no time to speak of.
        buckets, count, total = self.times(TIMES[0])
        self.assertEqual((buckets["0.25"], buckets["+Inf"], count), (1, 2, 2))
        self.assertGreaterEqual(total, 0.29)

    def test_what_gets_no_response_has_no_time(self):
        down, good = self.closed(), self.memcached()
        proxy = self.metered(configuration(near=[down], far=[good]), threads=1)
        with proxy.client() as client:
            self.assertEqual(client.ask(b"get a\r\n"), b"END\r\n")
        self.assertEqual(self.times(TIMES[1], f'server="{down.address}"')[1:], (0, 0))
        self.assertEqual(self.times(TIMES[1], f'server="{good.address}"')[1], 1)
        self.assertEqual(self.times(TIMES[0])[1], 1)

    def test_times_of_pipelined_requests(self):
        slow = self.fake(lambda *_: time.sleep(0.1) or b"END\r\n")
        proxy = self.metered(configuration(only=[slow]), threads=1, timeout=60000)
        with proxy.client() as client:
            client.send(b"get a\r\nget b\r\nversion\r\nget c\r\n")
            replies = [client.reply() for _ in range(4)]
        self.assertEqual(replies, [b"END\r\n", b"END\r\n", b"VERSION tkoproxy 1\r\n", b"END\r\n"])
        _, count, total = self.times(TIMES[1], f'server="{slow.address}"')
        self.assertEqual(count, 3)
        self.assertGreaterEqual(total, 0.29)
        self.assertEqual(self.times(TIMES[0])[1], 4)

    def test_a_timeout_is_in_the_time_of_its_request(self):
        silent, good = self.fake(lambda *_: time.sleep(3) or b"END\r\n"), self.memcached()
        proxy = self.metered(configuration(near=[silent], far=[good]), threads=1, timeout=300)
        with proxy.client() as client:
            self.assertEqual(client.ask(b"get a\r\n"), b"END\r\n")
        self.assertEqual(self.times(TIMES[1], f'server="{silent.address}"')[1:], (0, 0))
        _, count, total = self.times(TIMES[0])
        self.assertEqual(count, 1)
        self.assertGreaterEqual(total, 0.29)


if __name__ == "__main__":
    unittest.main()
