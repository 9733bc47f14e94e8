"""Large values: while 64 KiB of a connection come in each time limit, its server is neither silent nor late. So clients
of large values get no server marked. What waits behind them for longer than the limit goes on to its next target, if it
has one, and else waits on. A server that sends less is found."""
import random
import threading
import time

from fakes import key_of
from parts import ServerTest, configuration, only_in
from ports import wait_until
from talk import values

LIMIT = 3
# What a server sends in one piece, once in each such part of the time limit.
PIECE, PART = 100_000, 0.3


LARGE = random.Random(65).randbytes(5 * PIECE)


def slowly_sent(connection, request):
    """The value of the key 0 is large, and takes longer than the time limit; the others are small."""
    if key_of(request) != b"0":
        return values((key_of(request), b"small"))
    text = values((b"0", LARGE))
    for at in range(0, len(text), PIECE):
        connection.sendall(text[at:at + PIECE])
        time.sleep(PART * LIMIT)
    return None


def ask_all(clients, key=b"get %d\r\n"):
    for number, client in enumerate(clients):
        client.send(key % number)


@only_in("events", "there the requests of many clients wait on one connection")
class OneConnection(ServerTest):
    """One worker, whose clients have one connection to the server."""

    def over(self, behave, clients=4, far=False, **options):
        self.server = self.fake(behave)
        pools = {"near": [self.server]}
        if far:
            self.far = self.fake(lambda _, request: values((key_of(request), b"far")))
            pools["far"] = [self.far]
        options = {"timeout": LIMIT * 1000, "threads": 1, **options}
        self.running = self.proxy(configuration(**pools), **options)
        return [self.client(self.running.port) for _ in range(clients)]

    def mark(self):
        return self.running.marks()[self.server.address]

    def ask_behind(self, clients, first=b"get 0\r\n"):
        """The first client asks for the large value, and then the others for small ones of the same server."""
        clients[0].send(first)
        wait_until(lambda: self.server.requests, LIMIT, "the large value is asked for")
        ask_all(clients[1:], b"get other-%d\r\n")

    def check_replies(self, clients, key, place):
        for number, client in enumerate(clients):
            self.assertEqual(client.reply(), values((key % number, place)))

    def test_a_large_value_takes_longer_than_the_limit(self):
        """It comes in pieces of more than 64 KiB, and others wait behind it for all of that time."""
        clients = self.over(slowly_sent)
        self.ask_behind(clients)
        self.assertEqual(clients[0].reply(), values((b"0", LARGE)))
        self.check_replies(clients[1:], b"other-%d", b"small")
        self.assertEqual(self.mark(), "up:0")
        self.assertEqual(len(self.server.connections), 1)

    def test_those_behind_it_go_on(self):
        """They have another target. What comes for them at last is dropped, and what follows is that of who asks next."""
        clients = self.over(slowly_sent, far=True)
        self.ask_behind(clients)
        self.check_replies(clients[1:], b"other-%d", b"far")
        self.assertEqual(clients[0].reply(), values((b"0", LARGE)))
        ask_all(clients, b"get again-%d\r\n")
        self.check_replies(clients, b"again-%d", b"small")
        self.assertEqual(self.server.count(b"get"), 1 + 3 + 4)
        self.assertEqual(self.far.count(b"get"), 3)
        self.assertEqual(self.mark(), "up:0")
        self.assertEqual(len(self.server.connections), 1)

    def test_later_keys_of_its_own_client_wait_on(self):
        """Their responses come after the large one in any case, and the others go on past them."""
        clients = self.over(slowly_sent, far=True, keys_at_once=4)
        self.ask_behind(clients, first=b"get 0 one two\r\n")
        self.check_replies(clients[1:], b"other-%d", b"far")
        self.assertEqual(clients[0].reply(), values((b"0", LARGE), (b"one", b"small"), (b"two", b"small")))
        self.assertEqual(self.far.count(b"get"), 3)
        self.assertEqual(self.mark(), "up:0")
        self.assertEqual(len(self.server.connections), 1)

    def test_the_connection_ends_once_they_went_on(self):
        """Nobody waits for what it still had to bring, so that is no failure."""
        def behave(connection, request):
            return slowly_sent(connection, request) or b""

        clients = self.over(behave, far=True)
        self.ask_behind(clients)
        self.check_replies(clients[1:], b"other-%d", b"far")
        self.assertEqual(clients[0].reply(), values((b"0", LARGE)))
        wait_until(lambda: self.server.closed, LIMIT, "the server ended the connection")
        self.assertEqual(self.mark(), "up:0")
        clients[0].send(b"get again\r\n")
        self.assertEqual(clients[0].reply(), values((b"again", b"small")))
        self.assertEqual(len(self.server.connections), 2)

    def test_one_that_answers_small_values_slowly(self):
        """The last answer would come after more than twice the time limit. Nobody waits for it: the first request that
        is late is a failure, and the others go on with it."""
        def behave(_, request):
            time.sleep(PART * LIMIT)
            return values((key_of(request), b"near"))

        clients = self.over(behave, clients=8, far=True)
        ask_all(clients)
        replies = [client.reply() for client in clients]
        for number, reply in enumerate(replies):
            self.assertIn(reply, [values((b"%d" % number, place)) for place in (b"near", b"far")])
        self.assertTrue(any(b"near" in reply for reply in replies))
        self.assertTrue(any(b"far" in reply for reply in replies))
        self.assertEqual(self.mark(), "up:1")
        self.assertEqual(len(self.server.connections), 1)

    def test_one_that_drips_is_found(self):
        """Bytes come all the time, and they are too few. That is one failure, of the first request. The others go on."""
        over = threading.Event()
        self.addCleanup(over.set)

        def behave(connection, request):
            for byte in values((key_of(request), b"near" * 1000)):
                connection.sendall(bytes([byte]))
                if over.wait(LIMIT / 10):
                    return b""

        clients = self.over(behave, far=True)
        for mark in ("up:1", "up:2", "soft"):
            ask_all(clients)
            for number, client in enumerate(clients):
                self.assertEqual(client.reply(), values((b"%d" % number, b"far")))
            self.assertEqual(self.mark()[:4], mark)

    def test_one_that_is_silent_fails_for_each_that_waits(self):
        clients = self.over(lambda *_: None, far=True)
        ask_all(clients)
        for number, client in enumerate(clients):
            self.assertEqual(client.reply(), values((b"%d" % number, b"far")))
        self.assertEqual(self.mark()[:4], "soft")
        self.assertEqual(len(self.server.connections), 1)

    def test_one_that_is_silent_after_a_large_value(self):
        """It came before those behind it were due, and then the server is silent for all of them."""
        large = random.Random(66).randbytes(PIECE)
        others_wait = threading.Event()

        def behave(_, request):
            if key_of(request) != b"0":
                return None
            others_wait.wait(LIMIT / 2)
            return values((b"0", large))

        clients = self.over(behave, far=True)
        clients[0].send(b"get 0\r\n")
        wait_until(lambda: self.server.requests, LIMIT, "the large value is asked for")
        ask_all(clients[1:], b"get other-%d\r\n")
        time.sleep(LIMIT / 10)
        others_wait.set()
        self.assertEqual(clients[0].reply(), values((b"0", large)))
        for number, client in enumerate(clients[1:]):
            self.assertEqual(client.reply(), values((b"other-%d" % number, b"far")))
        self.assertEqual(self.mark()[:4], "soft")
        self.assertEqual(len(self.server.connections), 1)
