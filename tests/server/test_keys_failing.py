"""Servers and clients that fail under a `get` of several keys at once, and large values in it."""
import random
import threading
import time

from fakes import key_of
from parts import MODE, only_in
from ports import wait_until
from several_keys import NO_SERVER, QUIET, SLACK, WAYS, WHY, KeysAtOnce, found, get, keys_on, value_of
from talk import fnv1a, store, values

MIB = 1_048_576


@only_in("events", WHY)
class Failing(KeysAtOnce):
    """Servers that fail under a `get` of many keys."""

    def far(self, keys):
        """A server that has all of these keys."""
        server = self.memcached()
        with server.client() as client:
            for key in keys:
                self.assertEqual(client.ask(store(key, value_of(key))), b"STORED\r\n")
        return server

    def all_of(self, keys):
        return values(*((key, value_of(key)) for key in keys))

    def test_each_key_fails_over_alone(self):
        near = [self.closed(), self.fake(lambda _, request: values((key_of(request), b"near")))]
        keys = [key for pair in zip(keys_on(0, 2, 30), keys_on(1, 2, 30)) for key in pair]
        proxy = self.over(8, near, [self.far(keys)])
        with proxy.client() as client:
            expected = [(key, b"near" if fnv1a(key) % 2 else value_of(key)) for key in keys]
            for _ in range(3):
                self.assertEqual(client.ask(get(*keys)), values(*expected))
        self.assertRegex(proxy.marks().pop(near[0].address), r"^hard:\d+$")
        self.assertEqual(near[1].count(b"get"), 90)

    def test_a_server_that_is_killed(self):
        """All keys are under way to it: that is one failure, and each of them goes on to the next pool."""
        near, held = self.held()
        keys = keys_on(0, 1, 100)
        proxy = self.over(100, [near], [self.far(keys)], timeout=60000)
        with proxy.client() as client:
            client.send(get(*keys))
            self.are_waiting(100, held)
            near.close()
            self.assertEqual(client.reply(), self.all_of(keys))
        self.assertEqual(proxy.marks()[near.address], "up:1")

    def test_a_server_that_is_killed_while_keys_are_left(self):
        near, held = self.held()
        keys = keys_on(0, 1, 100)
        proxy = self.over(16, [near], [self.far(keys)], timeout=60000)
        with proxy.client() as client:
            client.send(get(*keys))
            self.are_waiting(16, held)
            held.give(5)
            self.are_waiting(16, held)
            near.close()
            self.assertEqual(client.reply(), self.all_of(keys))
            # Those that were left found nobody there.
            self.assertRegex(proxy.marks()[near.address], r"^hard:\d+$")
            self.assertEqual(client.ask(get(*keys)), self.all_of(keys))

    def stopped(self, number, *others, count=100):
        """The reply to a `get` of many keys whose server is stopped, and the mark that this leaves. It takes one time
        limit, where one after another they would take three, for the failures that mark the server."""
        limit = 5
        near = self.memcached()
        keys = keys_on(0, 1, count)
        proxy = self.over(number, [near], *([server] for server in others), timeout=limit * 1000, failures=3)
        with proxy.client() as client:
            self.assertEqual(client.ask(b"get a b c\r\n"), b"END\r\n")
            near.pause()
            self.addCleanup(near.resume)
            reply, seconds = client.timed(get(*keys))
            self.assertGreater(seconds, limit * 0.9)
            self.assertLess(seconds, limit * 1.9)
            self.assertRegex(proxy.marks()[near.address], r"^soft:\d+$")
            # From then on it is passed over.
            again, seconds = client.timed(get(*keys))
            self.assertEqual(again, reply)
            self.assertLess(seconds, limit * 0.9)
        return reply

    def test_a_stopped_server_costs_one_time_limit(self):
        keys = keys_on(0, 1, 100)
        for number in (8, 100):
            with self.subTest(number=number):
                self.assertEqual(self.stopped(number, self.far(keys)), self.all_of(keys))

    def test_a_stopped_server_that_has_no_other_behind_it(self):
        self.assertEqual(self.stopped(8), NO_SERVER)

    def test_one_of_two_servers_is_stopped(self):
        """The other one's values wait for those of the next pool."""
        limit = 3
        near = [self.memcached(), self.memcached()]
        keys = [key for pair in zip(keys_on(0, 2, 50), keys_on(1, 2, 50)) for key in pair]
        proxy = self.over(100, near, [self.far(keys)], timeout=limit * 1000)
        with proxy.client() as client:
            for key in keys:
                self.assertEqual(client.ask(store(key, value_of(key))), b"STORED\r\n")
            near[0].pause()
            self.addCleanup(near[0].resume)
            reply, seconds = client.timed(get(*keys))
            self.assertEqual(reply, self.all_of(keys))
            self.assertGreater(seconds, limit * 0.9)
        self.assertEqual(proxy.marks()[near[1].address], "up:0")

    def test_an_unreadable_response_cuts_those_behind_it(self):
        """The one is a failure; those behind it on the connection go on to the next pool too."""
        near, held = self.held(lambda *_: b"what\r\n")
        keys = keys_on(0, 1, 20)
        proxy = self.over(20, [near], [self.far(keys)], timeout=60000)
        with proxy.client() as client:
            client.send(get(*keys))
            self.are_waiting(20, held)
            held.give()
            self.assertEqual(client.reply(), self.all_of(keys))
        self.assertEqual(proxy.marks()[near.address], "up:1")

    def test_a_value_of_another_key_is_unreadable(self):
        """A server that gives the values of two keys in another order than it was asked for them."""
        other = {b"a": b"b", b"b": b"a"}
        near, held = self.held(lambda _, request: found(_, get(other[key_of(request)])))
        far = self.far([b"a", b"b"])
        with self.over(2, [near], [far], timeout=60000).client() as client:
            client.send(get(b"a", b"b"))
            self.are_waiting(2, held)
            held.give()
            self.assertEqual(client.reply(), self.all_of([b"a", b"b"]))

    def test_a_value_that_comes_twice_is_unreadable(self):
        near, held = self.held(lambda _, request: found(_, request)[:-5] + found(_, request))
        far = self.far([b"a", b"b"])
        with self.over(2, [near], [far], timeout=60000).client() as client:
            client.send(get(b"a", b"b"))
            self.are_waiting(2, held)
            held.give()
            self.assertEqual(client.reply(), self.all_of([b"a", b"b"]))


@only_in("events", WHY)
class Leaving(KeysAtOnce):
    def test_a_client_that_leaves_meanwhile(self):
        """What is answered then goes to nobody else, and the connection to the server stays."""
        server, held = self.held()
        proxy = self.over(8, [server], timeout=60000)
        keys = keys_on(0, 1, 20)
        with proxy.client() as other:
            for _ in range(5):
                leaver = self.client(proxy.port)
                leaver.send(get(*keys))
                self.are_waiting(8, held)
                leaver.close()
                other.send(get(b"a", b"b", b"c"))
                replies = threading.Thread(target=self.answer_until, args=(held, b"c"), daemon=True)
                replies.start()
                self.assertEqual(other.reply(), values(*((key, value_of(key)) for key in (b"a", b"b", b"c"))))
                replies.join()
                self.answer_rest(held)
            self.assertEqual(proxy.marks_by(other), {server.address: "up:0"})
        self.assertEqual(len(server.connections), 1)

    def answer_until(self, held, last):
        """Answers all that comes, to the request for this key."""
        key = None
        while key != last:
            wait_until(lambda: held.waiting, SLACK, "a request comes")
            key = held.keys()[0]
            held.give()

    def answer_rest(self, held):
        """Answers all that still comes, until nothing does."""
        quiet = time.monotonic()
        while time.monotonic() < quiet + QUIET:
            if held.waiting:
                held.give()
                quiet = time.monotonic()
            time.sleep(0.01)

    def test_a_client_that_ends_its_input_gets_its_reply(self):
        server, held = self.held()
        with self.over(8, [server]).client() as client:
            client.send(get(b"a", b"b", b"c"))
            client.end_input()
            self.are_waiting(3, held)
            held.give(3)
            self.assertEqual(client.rest(), values(*((key, value_of(key)) for key in (b"a", b"b", b"c"))))


class Large(KeysAtOnce):
    def setUp(self):
        self.keys = [b"large-%d" % number for number in range(12)]
        self.value = random.Random(49).randbytes(MIB)
        self.servers = [self.memcached("-I", "2m", "-m", "256") for _ in range(3)]

    def test_values_of_a_mebibyte(self):
        for number, way in WAYS:
            with self.subTest(number=number, **way), self.over(number, self.servers, **way).client() as client:
                for key in self.keys:
                    self.assertEqual(client.ask(store(key, self.value)), b"STORED\r\n")
                for _ in range(3):
                    self.assertTrue(client.ask(get(*self.keys)) == values(*((key, self.value) for key in self.keys)))

    def test_beside_small_ones_and_a_client_that_reads_slowly(self):
        for number, way in WAYS:
            proxy = self.over(number, self.servers, **way)
            with self.subTest(number=number, **way), proxy.client() as slow, proxy.client() as other:
                for key in self.keys[:4]:
                    self.assertEqual(slow.ask(store(key, self.value)), b"STORED\r\n")
                self.assertEqual(slow.ask(store(b"small", b"x")), b"STORED\r\n")
                asked = [b"small", *self.keys[:4], b"nowhere", b"small"]
                slow.send(get(*asked) + get(b"small", b"small"))
                if MODE == "events":
                    self.assertEqual(other.ask(get(b"small")), values((b"small", b"x")))
                time.sleep(0.5)
                expected = [(b"small", b"x"), *((key, self.value) for key in self.keys[:4]), (b"small", b"x")]
                self.assertTrue(slow.reply() == values(*expected))
                self.assertEqual(slow.reply(), values((b"small", b"x"), (b"small", b"x")))

    @only_in("events", WHY)
    def test_values_that_came_early_count_in_the_bound(self):
        """80 MiB of them wait for the first key, whose server is silent: above 64 MiB their client ends without a reply, as
        soon as the time of that key has passed, and no other client does."""
        silent, held = self.held()
        quick = self.fake(lambda _, request: values((key_of(request), self.value)))
        proxy = self.over(256, [silent, quick], timeout=5000)
        with proxy.client() as greedy, proxy.client() as other:
            greedy.send(get(*keys_on(0, 2, 1), *keys_on(1, 2, 80)))
            self.assertEqual(greedy.rest(), b"")
            key = keys_on(1, 2, 1)[0]
            self.assertTrue(other.ask(get(key)) == values((key, self.value)))
        self.assertEqual(len(held.waiting), 1)
