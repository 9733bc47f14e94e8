"""Values of any bytes and size, long keys, many keys, and requests that come in pieces or all at once."""
import random
import time

from parts import ServerTest, configuration
from talk import store, values

KEY = b"k" * 250
LARGEST = 1048576


class Values(ServerTest):
    def setUp(self):
        # The item of memcached is larger than its value.
        self.server = self.memcached("-I", "2m")
        self.direct = self.client(self.server.port)
        self.proxied = self.client(self.proxy(configuration(only=[self.server])).port)

    def test_values_of_any_bytes_and_size(self):
        random.seed(1)
        for size in (0, 1, 65535, 65536, LARGEST):
            value = random.randbytes(size)
            self.assertEqual(self.proxied.ask(store(KEY, value, flags=9)), b"STORED\r\n")
            expected = values((KEY, value), flags=9)
            self.assertTrue(self.direct.ask(b"get %s\r\n" % KEY) == expected, f"{size} bytes did not reach the server")
            self.assertTrue(self.proxied.ask(b"get %s\r\n" % KEY) == expected, f"{size} bytes did not come back")

    def test_the_largest_value_in_small_pieces(self):
        value = random.Random(3).randbytes(LARGEST)
        request = store(KEY, value)
        for place in range(0, len(request), 4096):
            self.proxied.send(request[place:place + 4096])
        self.assertEqual(self.proxied.reply(), b"STORED\r\n")
        self.assertTrue(self.direct.ask(b"get %s\r\n" % KEY) == values((KEY, value)))

    def test_responses_about_as_long_as_the_kept_buffer(self):
        # A response of more than 65,536 bytes keeps the buffer that it came in, and goes out from there.
        for size in range(65490, 65520, 3):
            value = random.Random(size).randbytes(size)
            self.direct.ask(store(b"k", value, flags=7))
            for request in (b"get k\r\n", b"gets k\r\n"):
                expected = self.direct.ask(request)
                self.assertTrue(self.proxied.ask(request) == expected, f"{request} of {size} bytes")

    def test_long_and_short_values_in_one_get_and_in_one_piece(self):
        for key, size in ((b"short", 3), (b"long", 100000), (b"longer", 300000)):
            self.direct.ask(store(key, random.Random(size).randbytes(size)))
        gets = [b"get short\r\n", b"get long\r\n", b"get short long none longer short longer\r\n", b"get none\r\n",
                b"get long long short\r\n", b"gets longer\r\n", b"get short\r\n"]
        expected = b"".join(self.direct.ask(request) for request in gets)
        self.proxied.send(b"".join(gets))
        self.assertTrue(b"".join(self.proxied.reply() for _ in gets) == expected)

    def test_values_that_look_like_the_protocol(self):
        for value in (b"\r\n", b"END\r\n", b"\r\nEND\r\n", b"\0\r\0\n", b"VALUE k 0 1\r\nx\r\nEND\r\n", b"\n" * 1000):
            self.assertEqual(self.proxied.ask(store(b"k", value)), b"STORED\r\n")
            self.assertEqual(self.direct.ask(b"get k\r\n"), values((b"k", value)))
            self.assertEqual(self.proxied.ask(b"get k\r\n"), values((b"k", value)))

    def test_keys_of_all_bytes_that_a_key_may_have(self):
        every_byte = bytes(byte for byte in range(33, 256) if byte != 127)
        for key in (b"x", KEY, every_byte, b"\xff" * 250):
            self.assertEqual(self.proxied.ask(store(key, b"here")), b"STORED\r\n")
            self.assertEqual(self.direct.ask(b"get %s\r\n" % key), values((key, b"here")))
            self.assertEqual(self.proxied.ask(b"get %s\r\n" % key), values((key, b"here")))

    def test_a_hundred_keys_in_one_get(self):
        keys = [b"%d-" % i + b"k" * 245 for i in range(100)]
        for key in keys[::3]:
            self.direct.ask(store(key, key[::-1]))
        request = b"get " + b" ".join(keys) + b"\r\n"
        expected = self.direct.ask(request)
        self.assertEqual(expected, values(*((key, key[::-1]) for key in keys[::3])))
        self.assertEqual(self.proxied.ask(request), expected)

    def test_noreply(self):
        for request in (store(b"a", b"5", more=b" noreply"), b"incr a 2 noreply\r\n", b"touch a 100 noreply\r\n",
                        store(b"b", b"x", b"add", more=b" noreply"), store(b"b", b"y", b"append", more=b" noreply"),
                        store(b"c", b"z", b"replace", more=b" noreply"), b"delete nothing noreply\r\n"):
            self.proxied.send(request)
        self.assertEqual(self.proxied.ask(b"get a b c\r\n"), values((b"a", b"7"), (b"b", b"xy")))
        self.proxied.send(b"delete a noreply\r\n")
        self.assertEqual(self.proxied.ask(b"get a\r\n"), b"END\r\n")


class Spellings(ServerTest):
    def test_a_long_value_goes_out_in_the_written_form(self):
        value = random.Random(4).randbytes(100000)
        spellings = [b"VALUE k 0 100000\r\n%s\r\nEND\r\n", b"VALUE k 0 100000\n%s\r\nEND\r\n",
                     b"VALUE k 00 100000\r\n%s\r\nEND\r\n", b"VALUE  k 0 0100000 \r\n%s\r\nEND\n",
                     b" VALUE k 0 100000\r\n%s\r\n END \r\n"]
        answers = iter([each % value for each in spellings])
        server = self.fake(lambda connection, request: next(answers))
        client = self.client(self.proxy(configuration(only=[server])).port)
        for spelling in spellings:
            self.assertTrue(client.ask(b"get k\r\n") == values((b"k", value)), spelling)


# The same replies each time that it is sent, so none with a cas number.
REQUESTS = [
    b"delete a\r\n", store(b"a", b"one\r\ntwo"), b"get a b\r\n", b"nothing\r\n", store(b"b", b"\0\n", b"add"),
    b"get a b\n", store(b"n", b"1", more=b" noreply"), b"incr n 9\r\n", store(b"a", b"!", b"append"), b"get  a\r\n",
    b"get " + KEY + b"\r\n", b"delete b\r\n", b"touch a 0\r\n", store(b"a", b"", b"set"), b"get a n\r\n", b"\r\n",
]


class Pieces(ServerTest):
    def setUp(self):
        direct = self.client(self.memcached().port)
        # The conversation ends as it begins, but for `a`, which its first request deletes.
        direct.ask(store(b"a", b""))
        self.expected = b"".join(self.ask(direct, request) for request in REQUESTS)
        behind = self.memcached()
        self.client(behind.port).ask(store(b"a", b""))
        self.port = self.proxy(configuration(only=[behind])).port
        self.whole = b"".join(REQUESTS)

    def ask(self, client, request):
        if b"noreply" not in request:
            return client.ask(request)
        client.send(request)
        return b""

    def send_in_pieces(self, pieces, pause=0.0):
        client = self.client(self.port)
        for piece in pieces:
            client.send(piece)
            time.sleep(pause)
        client.end_input()
        self.assertEqual(client.rest(), self.expected)

    def test_all_at_once(self):
        self.send_in_pieces([self.whole])

    def test_byte_by_byte(self):
        self.send_in_pieces([self.whole[at:at + 1] for at in range(len(self.whole))], pause=0.0005)

    def test_cut_in_two_at_odd_places(self):
        for at in range(1, len(self.whole), 13):
            self.send_in_pieces([self.whole[:at], self.whole[at:]], pause=0.005)

    def test_pieces_of_random_length(self):
        random.seed(2)
        for _ in range(10):
            cuts = sorted(random.sample(range(1, len(self.whole)), 20))
            ends = zip([0] + cuts, cuts + [len(self.whole)])
            self.send_in_pieces([self.whole[begin:end] for begin, end in ends], pause=0.002)

    def test_thousands_of_requests_at_once(self):
        client = self.client(self.port)
        client.send(b"".join(store(b"p%d" % i, b"%d" % i, more=b" noreply") + b"get p%d\r\n" % i for i in range(5000)))
        client.end_input()
        self.assertEqual(client.rest(), b"".join(values((b"p%d" % i, b"%d" % i)) for i in range(5000)))

    def test_a_request_that_the_end_of_input_cuts_is_not_answered(self):
        for cut in (b"get a", b"set a 0 0 5\r\nhe", b"set a 0 0 2\r\nhe\r", b"x"):
            client = self.client(self.port)
            client.send(b"version\r\n" + cut)
            client.end_input()
            self.assertEqual(client.rest(), b"VERSION tkoproxy 1\r\n")
