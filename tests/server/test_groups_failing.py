"""Servers that fail under a `get` whose keys they get in one line (`--group-keys`): each of its keys goes on to the
next pool by itself, and what failed is counted once."""
import itertools

from parts import only_in
from ports import HOST, free_port, wait_until
from several_keys import BUSY, NO_SERVER, SLACK, WHY, KeysAtOnce, found, get, keys_on, value_of, values_of
from talk import fnv1a
from test_log import log_of
from test_metrics import ask, numbers_in

WORDS = (b"get", b"gets")
KEYS = [b"a", b"b", b"c", b"d"]
# The time limit of an exchange where a server is silent, in milliseconds. The others have to answer within it.
LIMIT = 1000
# The value of a key, as a server gives it to `get` and to `gets`.
LINE = b"VALUE %s 0 1\r\nx\r\n"
CAS_LINE = b"VALUE %s 0 1 7\r\nx\r\n"


def lines(*keys, word=b"get"):
    return b"".join((CAS_LINE if word == b"gets" else LINE) % key for key in keys)


class Failing(KeysAtOnce):
    def all_of(self, keys, word=b"get"):
        return values_of(word, *((key, value_of(key)) for key in keys))


@only_in("events", WHY)
class Unreadable(Failing):
    """Answers that are none to a `get` of several keys: the connection is shut, and each key goes on."""

    def assert_unreadable(self, answer, word=b"get"):
        """Whatever follows such an answer, which is all that comes of it: nothing more is awaited."""
        near, far = self.fake(lambda *_: answer), self.fake(found)
        proxy = self.grouped(8, [near], [far], failures=4096, timeout=60000)
        with proxy.client() as client:
            for failed in (1, 2):
                self.assertEqual(client.ask(get(*KEYS, word=word)), self.all_of(KEYS, word))
                self.assertEqual(proxy.marks_by(client)[near.address], f"up:{failed}")
        # A connection that failed is not used again.
        self.assertEqual([len(near.connections), len(far.connections)], [2, 1])
        for server in (near, far):
            self.assertEqual(server.requests, [get(*KEYS, word=word)] * 2)

    def each(self, word, answers):
        for answer in answers:
            with self.subTest(word=word, answer=answer):
                self.assert_unreadable(answer, word)

    def test_a_value_that_nobody_asked_for(self):
        for word in WORDS:
            self.each(word, [lines(b"x", word=word) + b"END\r\n", lines(*KEYS, b"x", word=word) + b"END\r\n",
                             lines(b"a", b"x", b"b", word=word) + b"END\r\n"])

    def test_a_value_that_comes_twice(self):
        for word in WORDS:
            self.each(word, [lines(b"a", b"a", word=word) + b"END\r\n", lines(*KEYS, b"b", word=word) + b"END\r\n",
                             lines(b"b", b"a", b"b", word=word) + b"END\r\n"])

    def test_as_soon_as_the_first_line_shows_it(self):
        """The data of such a value need not come, nor what is behind it."""
        self.each(b"get", [b"VALUE x 0 1000000\r\n", lines(b"a") + b"VALUE a 0 1000000\r\n",
                           lines(*KEYS) + b"VALUE x 0 5\r\n"])

    def test_a_cas_number_that_is_too_much_or_missing(self):
        self.each(b"get", [lines(*KEYS, word=b"gets") + b"END\r\n", lines(b"a") + lines(b"b", word=b"gets")])
        self.each(b"gets", [lines(*KEYS) + b"END\r\n", lines(b"a", word=b"gets") + lines(b"b")])

    def test_values_that_something_else_than_an_end_follows(self):
        self.each(b"get", [lines(b"a") + BUSY, lines(*KEYS) + b"ERROR\r\n", lines(b"a") + b"STORED\r\n",
                           lines(b"a")[:-2] + b"yy" + lines(b"b"), lines(b"a", b"b") + b"END x\r\n"])

    def test_no_list_of_values(self):
        self.each(b"get", [b"what\r\n", b"STORED\r\n", b"\r\n", b"VALUE a 0 1048577\r\n", b"x" * 65537])


@only_in("events", WHY)
class Rows(Failing):
    """What a `get` gives of whose keys some are on a server that fails, in the first, a middle or the last place."""

    def test_each_place_of_keys_on_a_server_that_fails(self):
        """Their values come from the next pool, and each `get` is one failure of it, however many keys it had there."""
        for answer in (b"what\r\n", b"", lines(b"a")):
            near = [self.fake(found), self.fake(lambda *_: answer)]
            proxy = self.grouped(8, near, [self.fake(found), self.fake(found)], failures=4096)
            good, bad = keys_on(0, 2, 4), keys_on(1, 2, 4)
            failed = 0
            with proxy.client() as client:
                for word, row in itertools.product(WORDS, itertools.product((good, bad), repeat=4)):
                    keys = [keys[place] for place, keys in enumerate(row)]
                    failed += bad in row
                    with self.subTest(answer=answer, word=word, bad=[keys is bad for keys in row]):
                        self.assertEqual(client.ask(get(*keys, word=word)), self.all_of(keys, word))
                        self.assertEqual([proxy.marks_by(client)[server.address] for server in near],
                                         ["up:0", f"up:{failed}"])

    def test_a_value_that_is_missing_behind_a_failure(self):
        """Each key is what the next pool has of it."""
        near, far = self.fake(lambda *_: b""), self.memcached()
        with self.grouped(8, [near], [far]).client() as client:
            self.assertEqual(client.ask(b"set b 0 0 1\r\nx\r\n"), b"STORED\r\n")
            self.assertEqual(client.ask(get(*KEYS)), values_of(b"get", (b"b", b"x")))

    def test_a_key_that_is_asked_for_twice_of_a_server_that_fails(self):
        """Each time in a line of its own. The one is a failure, and what was behind it on its connection goes on too."""
        near, far = self.fake(lambda *_: b"what\r\n"), self.fake(found)
        proxy = self.grouped(8, [near], [far])
        with proxy.client() as client:
            self.assertEqual(client.ask(get(b"a", b"b", b"a")), self.all_of([b"a", b"b", b"a"]))
            self.assertEqual(proxy.marks_by(client)[near.address], "up:1")
        self.assertEqual(far.requests, [get(b"a", b"b"), get(b"a")])


@only_in("events", WHY)
class Dead(Failing):
    """Servers that are silent or gone under a `get` of 100 keys."""

    def silent(self):
        return self.fake(lambda *_: None)

    def marked_by(self, proxy):
        """What its log says of marks, once it says something."""
        def lines():
            return [line for line in log_of(proxy) if line.startswith("marked")]
        wait_until(lines, SLACK, "the mark is in the log")
        return lines()

    def test_a_silent_server_costs_one_time_limit_once(self):
        """It is asked once, for all keys, and so is the server of the next pool. No key is sent to it a second time."""
        keys = keys_on(0, 1, 100)
        for far, expected, replies in ((self.fake(found), self.all_of(keys), 100), (self.silent(), NO_SERVER, 0)):
            near = self.silent()
            proxy = self.grouped(100, [near], [far], connections=1, timeout=LIMIT)
            with self.subTest(replies=replies), proxy.client() as client:
                client.send(get(*keys))
                self.assertEqual(client.reply(), expected)
                self.assertEqual(proxy.marks_by(client)[near.address], "up:1")
                client.send(b"quit\r\n")
                client.rest()
            self.assertEqual([near.requests, far.requests], [[get(*keys)], [get(*keys)]])
            kinds = {"request": 3, "attempt": 200, "skip": 0, "reply": replies, "no-server": 100 - replies, "probe": 0}
            self.assertEqual(proxy.end(), (0, "".join(f"total {kind} {count}\n" for kind, count in kinds.items())))

    def test_a_silent_server_is_marked_by_so_many_groups(self):
        """Three of them here. From then on it is passed over."""
        near, far = self.silent(), self.fake(found)
        proxy = self.grouped(100, [near], [far], timeout=LIMIT, failures=3)
        keys = keys_on(0, 1, 100)
        with proxy.client() as client:
            for mark in ("up:1", "up:2", "soft", "soft"):
                self.assertEqual(client.ask(get(*keys)), self.all_of(keys))
                self.assertEqual(proxy.marks_by(client)[near.address][:4], mark)
        self.assertEqual(near.requests, [get(*keys)] * 3)
        self.assertEqual(self.marked_by(proxy), [f"marked server={near.address} mark=soft worker=0 outcome=timeout count=3"])

    def test_a_silent_server_that_is_marked_while_keys_are_left(self):
        """The others of the same `get` pass it over."""
        near, far = self.silent(), self.fake(found)
        keys = keys_on(0, 1, 100)
        with self.grouped(8, [near], [far], timeout=LIMIT, failures=1).client() as client:
            self.assertEqual(client.ask(get(*keys)), self.all_of(keys))
        self.assertEqual(near.requests, [get(*keys[:8])])

    def test_a_server_that_is_killed(self):
        """That is one failure, and each of the keys goes on to the next pool, to its own server there."""
        near, held = self.held()
        far = [self.fake(found) for _ in range(3)]
        keys = keys_on(0, 1, 100)
        proxy = self.grouped(100, [near], far, timeout=60000)
        with proxy.client() as client:
            client.send(get(*keys))
            self.are_waiting(1, held)
            near.close()
            self.assertEqual(client.reply(), self.all_of(keys))
        self.assertEqual(proxy.marks()[near.address], "up:1")
        for place, server in enumerate(far):
            self.assertEqual(server.requests, [get(*(key for key in keys if fnv1a(key) % 3 == place))])

    def test_a_server_that_refuses(self):
        """Which marks it at once, as one failure."""
        near, far = self.closed(), self.fake(found)
        proxy = self.grouped(100, [near], [far])
        keys = keys_on(0, 1, 100)
        with proxy.client() as client:
            for _ in range(3):
                self.assertEqual(client.ask(get(*keys)), self.all_of(keys))
        self.assertEqual(far.requests, [get(*keys)] * 3)
        self.assertEqual(self.marked_by(proxy), [f"marked server={near.address} mark=hard worker=0 outcome=refused count=1"])

    def test_one_of_two_servers_is_silent(self):
        """The other one's values wait for those of the next pool."""
        near, far = [self.silent(), self.fake(found)], [self.fake(found), self.fake(found)]
        keys = [key for pair in zip(keys_on(0, 2, 50), keys_on(1, 2, 50)) for key in pair]
        proxy = self.grouped(100, near, far, timeout=LIMIT)
        with proxy.client() as client:
            self.assertEqual(client.ask(get(*keys)), self.all_of(keys))
            self.assertEqual([proxy.marks_by(client)[server.address] for server in near], ["up:1", "up:0"])
        self.assertEqual([server.requests for server in [*near, *far]],
                         [[get(*keys[::2])], [get(*keys[1::2])], [get(*keys[::2])], []])

    def test_an_unreadable_line_cuts_those_behind_it(self):
        """The one is a failure. Those behind it on the connection, of another client too, go on to the next pool."""
        near, held = self.held(lambda *_: b"what\r\n")
        far = self.fake(found)
        proxy = self.grouped(8, [near], [far], timeout=60000)
        with proxy.client() as one, proxy.client() as other:
            one.send(get(*KEYS))
            self.are_waiting(1, held)
            other.send(get(*KEYS[:2]))
            self.are_waiting(2, held)
            held.give()
            self.assertEqual(one.reply(), self.all_of(KEYS))
            self.assertEqual(other.reply(), self.all_of(KEYS[:2]))
            self.assertEqual(proxy.marks_by(one)[near.address], "up:1")

    def test_the_metrics_count_keys(self):
        """Also those of a line that failed; the mark is one, and its failures are lines."""
        port = free_port()
        near, far = self.silent(), self.fake(found)
        keys = keys_on(0, 1, 100)
        proxy = self.grouped(100, [near], [far], timeout=LIMIT, failures=2, metrics=f"{HOST}:{port}")

        def numbers():
            named = numbers_in(ask(port)[2])
            return [named[f"tkoproxy_{name}_total"] for name in ("attempts", "skips", "replies", "no_server")] + [
                named[f'tkoproxy_server_sends_total{{server="{server.address}"}}'] for server in (near, far)]

        with proxy.client() as client:
            for expected in ([200, 0, 100, 0, 100, 100], [400, 0, 200, 0, 200, 200], [500, 100, 300, 0, 200, 300]):
                self.assertEqual(client.ask(get(*keys)), self.all_of(keys))
                self.assertEqual(numbers(), expected)


@only_in("events", WHY)
class Leaving(Failing):
    def test_a_client_that_leaves_meanwhile(self):
        """What is answered then goes to nobody else, and the connection to the server stays."""
        server, held = self.held()
        proxy = self.grouped(8, [server], timeout=60000)
        with proxy.client() as other:
            for _ in range(5):
                leaver = self.client(proxy.port)
                leaver.send(get(*KEYS))
                self.are_waiting(1, held)
                leaver.close()
                other.send(get(b"a", b"x"))
                self.are_waiting(2, held)
                held.give(2)
                self.assertEqual(other.reply(), self.all_of([b"a", b"x"]))
            self.assertEqual(proxy.marks_by(other), {server.address: "up:0"})
        self.assertEqual(len(server.connections), 1)
