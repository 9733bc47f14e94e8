"""A `get` of several keys of which some are under way at once (`--keys-at-once`): what its reply is, and for which keys
requests are out."""
import itertools
import random

from fakes import key_of
from parts import only_in
from ports import wait_until
from several_keys import (BUSY, NUMBERS, QUIET, SLACK, WHY, KeysAtOnce, Rows, found, get, keys_on, value_of,
                          values_of)
from talk import values


class Replies(Rows):
    def setUp(self):
        up, down = self.fake(self.answer), self.closed()
        self.servers = [up, down]
        there, gone = keys_on(0, 2, 9), keys_on(1, 2, 3)
        self.have(value=there[:3], missing=there[3:6], error=there[6:], down=gone)

    def answer(self, connection, request):
        return BUSY if self.kinds[key_of(request)] == "error" else self.values_there(connection, request)

    def over_each(self, rows):
        for number in NUMBERS:
            proxy = self.over(number, self.servers)
            self.each_row(proxy, rows, number=number)
            self.assertEqual(proxy.marks()[self.servers[0].address], "up:0")

    def test_each_kind_at_each_place_of_three_keys(self):
        self.over_each(self.rows_of_three())

    def test_a_key_that_is_asked_for_twice(self):
        self.over_each(self.rows_with_a_key_twice())

    def test_one_key_alone(self):
        self.over_each(self.rows_of_one())

    def test_each_key_that_is_asked_for_is_counted(self):
        """Also those behind the first one, which fails and is the whole reply."""
        keys = [*self.keys["value"], *self.keys["missing"]]
        for number, kind in itertools.product(NUMBERS, ("value", "error")):
            first, asked = self.keys[kind][0], 7 if kind == "value" else min(number, 7)
            with self.subTest(number=number, kind=kind):
                proxy = self.over(number, self.servers, connections=1)
                with proxy.client() as client:
                    client.send(get(first, *keys) + b"quit\r\n")
                    self.assertEqual(client.rest(), self.expected(b"get", [first, *keys]))
                kinds = {"request": 2, "attempt": asked, "skip": 0, "reply": asked, "no-server": 0, "probe": 0}
                totals = "".join(f"total {kind} {count}\n" for kind, count in kinds.items())
                self.assertEqual(proxy.end(), (0, totals))

    def test_other_requests_between_in_their_order(self):
        """Pipelined, so that each reply has to wait for those before it."""
        good, bad = self.keys["value"], self.keys["error"]
        for number in NUMBERS:
            with self.subTest(number=number), self.over(number, self.servers).client() as client:
                client.send(b"version\r\n" + get(*good) + b"what\r\n" + get(good[0], bad[0]))
                client.send(get(good[1]) + b"quit\r\n")
                self.assertEqual(client.rest(), b"".join([
                    b"VERSION tkoproxy 1\r\n", self.expected(b"get", good), b"ERROR\r\n", BUSY,
                    self.expected(b"get", good[1:2])]))


@only_in("events", WHY)
class UnderWay(KeysAtOnce):
    """How many requests are out, and for which keys."""

    def test_so_many_at_once_and_no_more(self):
        for number, count in ((1, 5), (2, 5), (8, 20), (256, 300)):
            with self.subTest(number=number):
                server, held = self.held()
                keys = keys_on(0, 1, count)
                with self.over(number, [server], timeout=60000).client() as client:
                    client.send(get(*keys))
                    self.are_waiting(number, held)
                    self.assertEqual(held.keys(), keys[:number])
                    held.give()
                    # As one is answered the next is asked for.
                    self.are_waiting(number, held)
                    self.assertEqual(held.keys(), keys[1:number + 1])
                    for asked in range(number + 1, count):
                        held.give()
                        wait_until(lambda: len(held.waiting) == number, SLACK, f"key {asked} is asked for")
                    held.give(number)
                    self.assertEqual(client.reply(), values(*((key, value_of(key)) for key in keys)))
                self.assertEqual([key_of(request) for request in server.requests], keys)
                self.assertEqual(held.most, number)

    def test_a_get_of_fewer_keys(self):
        server, held = self.held()
        with self.over(8, [server]).client() as client:
            client.send(get(b"a", b"b", b"c"))
            self.are_waiting(3, held)
            held.give(3)
            self.assertEqual(client.reply(), values(*((key, value_of(key)) for key in (b"a", b"b", b"c"))))

    def test_each_client_has_so_many(self):
        server, held = self.held()
        keys = keys_on(0, 1, 10)
        proxy = self.over(4, [server])
        with proxy.client() as one, proxy.client() as other:
            one.send(get(*keys))
            self.are_waiting(4, held)
            other.send(get(*keys))
            self.are_waiting(8, held)
            for _ in range(20):
                wait_until(lambda: held.waiting, SLACK, "a request comes")
                held.give()
            for client in (one, other):
                self.assertEqual(client.reply(), values(*((key, value_of(key)) for key in keys)))
        self.assertEqual(len(server.connections), 1)

    def test_the_next_request_waits_for_the_reply(self):
        server, held = self.held()
        with self.over(4, [server]).client() as client:
            client.send(get(b"a", b"b") + get(b"c", b"d"))
            self.are_waiting(2, held)
            held.give()
            self.are_waiting(1, held)
            held.give()
            self.are_waiting(2, held)
            self.assertEqual(held.keys(), [b"c", b"d"])
            held.give(2)
            for keys in ((b"a", b"b"), (b"c", b"d")):
                self.assertEqual(client.reply(), values(*((key, value_of(key)) for key in keys)))

    def test_no_key_is_asked_for_far_ahead_of_one_that_waits(self):
        """However fast the others are answered: so few keys were asked for in vain where the first one fails."""
        (slow, held), quick = self.held(lambda *_: BUSY), self.fake(found)
        keys = keys_on(0, 2, 1) + keys_on(1, 2, 20)
        proxy = self.over(4, [slow, quick])
        with proxy.client() as client:
            client.send(get(*keys))
            self.are_waiting(1, held)
            self.assertEqual([key_of(request) for request in quick.requests], keys[1:4])
            self.assertTrue(client.is_quiet(QUIET))
            held.give()
            self.assertEqual(client.reply(), BUSY)
            self.assertEqual(len(quick.requests), 3)
            # The values that had come are no part of the next reply.
            self.assertEqual(client.ask(get(keys[5])), values((keys[5], value_of(keys[5]))))

    def test_after_a_failed_key_no_other_is_asked_for(self):
        """The reply waits for those under way, which may stand before it."""
        (slow, held), quick = self.held(), self.fake(lambda *_: BUSY)
        keys = keys_on(0, 2, 2) + keys_on(1, 2, 1) + keys_on(0, 2, 20)[2:]
        with self.over(4, [slow, quick]).client() as client:
            client.send(get(*keys))
            self.are_waiting(3, held)
            held.give(2)
            self.are_waiting(1, held)
            self.assertTrue(client.is_quiet(QUIET))
            held.give()
            self.assertEqual(client.reply(), BUSY)
            self.assertEqual([key_of(request) for request in slow.requests], [*keys[:2], keys[3]])

    def test_the_values_are_in_the_order_of_the_keys(self):
        """In whatever order four servers answer, each of which has two of the keys."""
        choice = random.Random(47)
        pairs = [self.held() for _ in range(4)]
        keys = [key for group in zip(*(keys_on(place, 4, 2) for place in range(4))) for key in group]
        proxy = self.over(8, [server for server, _ in pairs])
        with proxy.client() as client:
            for word, order in itertools.product((b"get", b"gets"), itertools.permutations(range(4))):
                choice.shuffle(keys)
                client.send(get(*keys, word=word))
                for place in order:
                    held = pairs[place][1]
                    wait_until(lambda: len(held.waiting) == 2, SLACK, "both requests have come")
                    held.give(2)
                with self.subTest(word=word, order=order):
                    self.assertEqual(client.reply(), values_of(word, *((key, value_of(key)) for key in keys)))

    def test_many_clients_get_their_own_values(self):
        servers = [self.fake(found) for _ in range(3)]
        names = [b"shared-%d" % number for number in range(100)]
        self.many_clients_get_their_own_values(self.over(8, servers, threads=2), names, 48)
