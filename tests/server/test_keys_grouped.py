"""A `get` of several keys of which those that go to one server go out as one `get` (`--group-keys`): what its reply is,
what each server is asked, and what a server may answer."""
import itertools
import random
import time

from parts import only_in
from several_keys import BUSY, QUIET, WHY, KeysAtOnce, Rows, found, get, keys_on, value_of, values_of

WORDS = (b"get", b"gets")
# How many keys are under way at once: so many that a row is cut, and so many that none is.
NUMBERS = (2, 3, 256)


def cut(answer, *sizes):
    """The answer in pieces, the first of these sizes and then the rest."""
    places = [0, *itertools.accumulate(sizes), len(answer)]
    return [answer[start:end] for start, end in zip(places, places[1:])]


@only_in("events", WHY)
class Replies(Rows):
    """An error is the answer to all keys of a line, so one server has all keys that get an error."""

    def setUp(self):
        self.servers = [self.fake(self.values_there), self.fake(lambda *_: BUSY), self.closed()]
        there, wrong, gone = keys_on(0, 3, 6), keys_on(1, 3, 3), keys_on(2, 3, 3)
        self.have(value=there[:3], missing=there[3:], error=wrong, down=gone)

    def over_each(self, rows):
        for number in NUMBERS:
            proxy = self.grouped(number, self.servers)
            self.each_row(proxy, rows, number=number)
            marks = proxy.marks()
            self.assertEqual([marks[server.address] for server in self.servers[:2]], ["up:0", "up:0"])

    def test_each_kind_at_each_place_of_three_keys(self):
        self.over_each(self.rows_of_three())

    def test_a_key_that_is_asked_for_twice(self):
        self.over_each(self.rows_with_a_key_twice())

    def test_one_key_alone(self):
        self.over_each(self.rows_of_one())

    def test_other_requests_between_in_their_order(self):
        """Pipelined, so that each reply has to wait for those before it."""
        good, bad = self.keys["value"], self.keys["error"]
        for number in NUMBERS:
            with self.subTest(number=number), self.grouped(number, self.servers).client() as client:
                client.send(b"version\r\n" + get(*good) + b"what\r\n" + get(good[0], *bad))
                client.send(get(good[1]) + b"quit\r\n")
                self.assertEqual(client.rest(), b"".join([
                    b"VERSION tkoproxy 1\r\n", self.expected(b"get", good), b"ERROR\r\n", BUSY,
                    self.expected(b"get", good[1:2])]))

    def test_each_key_is_counted(self):
        """Also where several go out as one `get`, and those behind one that fails and is the whole reply."""
        good = [*self.keys["value"], *self.keys["missing"]]
        for bad in ([], self.keys["error"]):
            keys = [*bad, *good]
            with self.subTest(keys=len(keys)):
                proxy = self.grouped(256, self.servers, connections=1)
                with proxy.client() as client:
                    client.send(get(*keys) + b"quit\r\n")
                    self.assertEqual(client.rest(), self.expected(b"get", keys))
                count = len(keys)
                kinds = {"request": 2, "attempt": count, "skip": 0, "reply": count, "no-server": 0, "probe": 0}
                totals = "".join(f"total {kind} {number}\n" for kind, number in kinds.items())
                self.assertEqual(proxy.end(), (0, totals))


@only_in("events", WHY)
class Requests(KeysAtOnce):
    """What each server is asked."""

    def assert_asked(self, server, *requests):
        self.assertEqual(server.requests, list(requests))

    def test_one_get_for_the_keys_of_each_server(self):
        """In the order of the keys, with the words of the request."""
        for word in WORDS:
            servers = [self.fake(found) for _ in range(3)]
            keys = [key for three in zip(*(keys_on(place, 3, 10) for place in range(3))) for key in three]
            with self.subTest(word=word), self.grouped(30, servers).client() as client:
                self.assertEqual(client.ask(get(*keys, word=word)),
                                 values_of(word, *((key, value_of(key)) for key in keys)))
                for place, server in enumerate(servers):
                    self.assert_asked(server, get(*keys[place::3], word=word))

    def test_a_line_has_at_most_the_keys_that_are_under_way(self):
        for number, count in ((2, 5), (8, 20), (256, 300)):
            server = self.fake(found)
            keys = keys_on(0, 1, count)
            with self.subTest(number=number), self.grouped(number, [server]).client() as client:
                self.assertEqual(client.ask(get(*keys)), values_of(b"get", *((key, value_of(key)) for key in keys)))
                self.assert_asked(server, *(get(*keys[place:place + number]) for place in range(0, count, number)))

    def test_the_longest_keys_that_a_request_can_name(self):
        """261 of 250 bytes make a line of 65,516 bytes. 256 of them go out as one, of 64,261 or 64,262 bytes."""
        keys = [b"%0250d" % number for number in range(261)]
        for word in WORDS:
            server = self.fake(found)
            with self.subTest(word=word), self.grouped(256, [server]).client() as client:
                self.assertTrue(client.ask(get(*keys, word=word)) ==
                                values_of(word, *((key, value_of(key)) for key in keys)))
                self.assertEqual([len(request) for request in server.requests], [64258 + len(word), 1257 + len(word)])
                self.assert_asked(server, get(*keys[:256], word=word), get(*keys[256:], word=word))

    def test_a_key_that_a_line_has_already_goes_out_in_another_one(self):
        for keys, lines in (((b"a", b"a"), [(b"a",), (b"a",)]),
                            ((b"a", b"b", b"a"), [(b"a", b"b"), (b"a",)]),
                            ((b"a", b"a", b"b", b"b", b"a"), [(b"a", b"b"), (b"a", b"b"), (b"a",)])):
            server = self.fake(found)
            with self.subTest(keys=keys), self.grouped(8, [server]).client() as client:
                self.assertEqual(client.ask(get(*keys)), values_of(b"get", *((key, value_of(key)) for key in keys)))
                self.assert_asked(server, *(get(*line) for line in lines))

    def test_one_key_goes_out_as_ever(self):
        server = self.fake(found)
        with self.grouped(8, [server]).client() as client:
            for word in WORDS:
                self.assertEqual(client.ask(get(b"a", word=word)), values_of(word, (b"a", value_of(b"a"))))
            self.assert_asked(server, b"get a\r\n", b"gets a\r\n")

    def test_no_key_is_asked_for_far_ahead_of_one_that_waits(self):
        """And those that come to be under way together then go out as one `get`."""
        (slow, held), quick = self.held(), self.fake(found)
        first, *others = keys_on(0, 2, 1) + keys_on(1, 2, 9)
        with self.grouped(4, [slow, quick]).client() as client:
            client.send(get(first, *others))
            self.are_waiting(1, held)
            self.assert_asked(quick, get(*others[:3]))
            self.assertTrue(client.is_quiet(QUIET))
            held.give()
            self.assertEqual(client.reply(), values_of(b"get", *((key, value_of(key)) for key in (first, *others))))
            self.assert_asked(quick, get(*others[:3]), get(*others[3:7]), get(*others[7:]))

    def test_keys_of_two_clients_are_never_in_one_line(self):
        server, held = self.held()
        proxy = self.grouped(8, [server])
        with proxy.client() as one, proxy.client() as other:
            one.send(get(b"a", b"b"))
            self.are_waiting(1, held)
            other.send(get(b"b", b"c"))
            self.are_waiting(2, held)
            held.give(2)
            self.assertEqual(one.reply(), found(None, get(b"a", b"b")))
            self.assertEqual(other.reply(), found(None, get(b"b", b"c")))
        self.assert_asked(server, get(b"a", b"b"), get(b"b", b"c"))

    def test_many_clients_get_their_own_values(self):
        servers = [self.fake(found) for _ in range(3)]
        names = [b"shared-%d" % number for number in range(40)]
        self.many_clients_get_their_own_values(self.grouped(8, servers, threads=2), names, 51)

    def test_a_server_that_is_slow_with_a_line_gets_the_next_one_behind_it(self):
        quick, (slow, held) = self.fake(found), self.held()
        keys = keys_on(0, 2, 2) + keys_on(1, 2, 4)
        with self.grouped(4, [quick, slow]).client() as client:
            client.send(get(*keys))
            # The first two keys are answered, so two more may be under way.
            self.are_waiting(2, held)
            self.assert_asked(slow, get(*keys[2:4]), get(*keys[4:]))
            held.give(2)
            self.assertEqual(client.reply(), values_of(b"get", *((key, value_of(key)) for key in keys)))
        self.assertEqual(len(slow.connections), 1)


@only_in("events", WHY)
class Lists(KeysAtOnce):
    """What a server may answer to a `get` of several keys."""
    KEYS = [b"a", b"b", b"c", b"d"]

    def setUp(self):
        self.server = self.fake(self.answer)
        self.over_it = self.grouped(8, [self.server])
        self.one = self.client(self.over_it.port)

    def answer(self, connection, _):
        for piece in self.pieces[:-1]:
            connection.sendall(piece)
            time.sleep(0.002)
        return self.pieces[-1]

    def assert_taken(self, pieces, expected, word=b"get"):
        """The server answers so, in these pieces, and the client gets that. It is no failure of the server, whose
        connection stays."""
        self.pieces = pieces
        asked = len(self.server.requests)
        for _ in range(2):
            self.assertTrue(self.one.ask(get(*self.KEYS, word=word)) == expected)
        self.assertEqual(self.over_it.marks_by(self.one), {self.server.address: "up:0"})
        self.assertEqual(self.server.requests[asked:], [get(*self.KEYS, word=word)] * 2)
        self.assertEqual(len(self.server.connections), 1)

    def test_values_in_any_order(self):
        for word, order in itertools.product(WORDS, itertools.permutations(self.KEYS)):
            with self.subTest(word=word, order=order):
                self.assert_taken([found(None, get(*order, word=word))], found(None, get(*self.KEYS, word=word)), word)

    def test_values_of_some_of_the_keys(self):
        for count in range(len(self.KEYS)):
            for there in itertools.combinations(self.KEYS, count):
                with self.subTest(there=there):
                    answer = found(None, get(*there)) if there else b"END\r\n"
                    self.assert_taken([answer], answer)

    def test_a_list_that_comes_in_pieces(self):
        """Cut at each of its bytes."""
        answer = found(None, get(*self.KEYS, word=b"gets"))
        for place in range(1, len(answer)):
            with self.subTest(place=place):
                self.assert_taken(cut(answer, place), answer, b"gets")

    def test_values_that_look_like_the_protocol(self):
        """And flags and cas numbers of each key, which come back as they are."""
        texts = [b"END\r\n", b"\r\nEND\r\n", b"VALUE a 0 1\r\nx\r\nEND\r\n", b""]
        lines = [b"VALUE %s %d %d %d\r\n%s\r\n" % (key, 2 ** 32 - 1 - place, len(text), 2 ** 64 - 1 - place, text)
                 for place, (key, text) in enumerate(zip(self.KEYS, texts))]
        expected = b"".join(lines) + b"END\r\n"
        self.assert_taken([b"".join(reversed(lines)) + b"END\r\n"], expected, b"gets")

    def test_long_values_in_one_list(self):
        """Which are kept where they came in, and are cut anywhere."""
        choice = random.Random(50)
        pairs = [(key, choice.randbytes(size)) for key, size in zip(self.KEYS, (100_000, 3, 1_048_576, 70_000))]
        answer = values_of(b"get", *pairs)
        self.assert_taken(cut(answer, 50_000, 50_100, 900_000, 5, 7), answer)
        self.assert_taken([values_of(b"get", *reversed(pairs))], answer)

    def test_an_error_is_the_answer_to_all_keys(self):
        """And no failure of the server."""
        for answer in (BUSY, b"ERROR\r\n", b"CLIENT_ERROR why\r\n"):
            with self.subTest(answer=answer):
                self.assert_taken([answer], answer)
