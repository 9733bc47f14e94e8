"""Every command and reply of the protocol, compared with the same bytes sent to memcached."""
from parts import ServerTest, configuration
from talk import store

# A conversation: every command, with each reply that memcached gives to it.
CONVERSATION = [
    b"get a\r\n", store(b"a", b"one"), b"get a\r\n", b"gets a\r\n", b"get a a nothing a\r\n", b"gets nothing a\r\n",
    store(b"a", b"two", flags=4294967295), b"get a\r\n", b"gets a\r\n",
    store(b"a", b"no", b"add"), store(b"b", b"yes", b"add"), b"get b\r\n",
    store(b"c", b"no", b"replace"), store(b"b", b"no longer", b"replace", flags=7), b"get b c\r\n",
    store(b"c", b"no", b"append"), store(b"c", b"no", b"prepend"),
    store(b"b", b"!", b"append"), store(b"b", b"?", b"prepend"), b"get b\r\n",
    b"gets b\r\n", store(b"b", b"late", b"cas", more=b" 1"), store(b"c", b"no", b"cas", more=b" 1"), b"get b\r\n",
    store(b"n", b"10"), b"incr n 5\r\n", b"decr n 6\r\n", b"decr n 60\r\n", b"get n\r\n",
    b"incr n 18446744073709551615\r\n", b"incr n 2\r\n", b"incr nothing 1\r\n", b"decr nothing 1\r\n", b"incr b 1\r\n",
    b"touch a 100\r\n", b"touch nothing 100\r\n", b"get a\r\n", b"delete a\r\n", b"delete a\r\n", b"get a\r\n",
    store(b"e", b"gone", expiry=-1), b"get e\r\n", store(b"e", b"here", expiry=100), b"get e\r\n", b"touch e -1\r\n",
    b"get e\r\n", store(b"e", b""), b"get e\r\n", b"get  n   b \r\n", b"get n\n",
]
REPLIES = {b"STORED", b"NOT_STORED", b"EXISTS", b"NOT_FOUND", b"DELETED", b"TOUCHED", b"VALUE", b"END", b"CLIENT_ERROR",
           b"9", b"15", b"0", b"1", b"18446744073709551615"}

# What the proxy answers by itself, by docs/protocol.md.
BAD_LINE = b"CLIENT_ERROR bad command line format\r\n"
BAD_KEY = b"CLIENT_ERROR bad key\r\n"
TOO_LARGE = b"SERVER_ERROR object too large for cache\r\n"
VERSION = b"VERSION tkoproxy 1\r\n"
OWN_ANSWERS = [
    (b"version\r\n", VERSION), (b"\r\n", b"ERROR\r\n"), (b"nothing\r\n", b"ERROR\r\n"), (b"GET a\r\n", b"ERROR\r\n"),
    (b"stats\r\n", b"ERROR\r\n"), (b"stats items\r\n", b"ERROR\r\n"), (b"stats tko x\r\n", b"ERROR\r\n"),
    (b"flush_all\r\n", b"ERROR\r\n"), (b"verbosity 1\r\n", b"ERROR\r\n"), (b"gat 1 a\r\n", b"ERROR\r\n"),
    (b"gats 1 a\r\n", b"ERROR\r\n"), (b"shutdown\r\n", b"ERROR\r\n"), (b"mg a v\r\n", b"ERROR\r\n"),
    (b"get\r\n", BAD_LINE), (b"delete a 0\r\n", BAD_LINE), (b"incr a\r\n", BAD_LINE), (b"incr a -1\r\n", BAD_LINE),
    (b"incr a 18446744073709551616\r\n", BAD_LINE), (b"touch a +5\r\n", BAD_LINE), (b"version 1\r\n", BAD_LINE),
    (b"set a 4294967296 0 1\r\n", BAD_LINE), (b"set a 0 0 -1\r\n", BAD_LINE), (b"cas a 0 0 1\r\n", BAD_LINE),
    (b"set a 0 9223372036854775808 1\r\n", BAD_LINE), (b"delete a norply\r\n", BAD_LINE),
    (b"get " + b"k" * 251 + b"\r\n", BAD_KEY), (b"get a\tb\r\n", BAD_KEY), (b"get a\0\r\n", BAD_KEY),
    (b"get a " + b"k" * 251 + b"\r\n", BAD_KEY), (b"get a\x7f\r\n", BAD_KEY), (b"delete a\r\r\n", BAD_KEY),
    (store(b"k" * 251, b"skipped\r\n"), BAD_KEY), (store(b"a", b"x" * 1048577), TOO_LARGE),
    (b"set a 0 0 2\r\nxyz\r\n", b"CLIENT_ERROR bad data chunk\r\n"),
]

# What a server is sent for a request: (what the client sends, what arrives).
SENT = [
    (b"incr  a 007\r\n", b"incr a 7\r\n"), (b" get   a \n", b"get a\r\n"), (b"gets b\r\n", b"gets b\r\n"),
    (b"set a 00 -0 2\r\nhi\r\n", b"set a 0 0 2\r\nhi\r\n"), (b"set a 1 2 1 noreply\r\nx\r\n", b"set a 1 2 1\r\nx\r\n"),
    (b"delete a noreply\r\n", b"delete a\r\n"), (b"touch a -7\r\n", b"touch a -7\r\n"),
    (b"cas a 1 2 1 9 noreply\r\nx\r\n", b"cas a 1 2 1 9\r\nx\r\n"), (b"decr a 3 noreply\r\n", b"decr a 3\r\n"),
]


class Commands(ServerTest):
    def test_the_conversation_is_that_with_memcached(self):
        expected = self.talk(self.memcached().port)
        self.assertEqual({reply.split()[0] for reply in expected}, REPLIES)
        proxied = self.proxy(configuration(only=[self.memcached()]))
        for request, wanted, given in zip(CONVERSATION, expected, self.talk(proxied.port)):
            self.assertEqual((request, given), (request, wanted))

    def talk(self, port):
        client = self.client(port)
        return [client.ask(request) for request in CONVERSATION]

    def test_a_value_that_memcached_refuses(self):
        direct, behind = self.memcached(), self.memcached()
        proxy = self.proxy(configuration(only=[behind]))
        too_large_for_it = store(b"a", b"x" * 1048576)
        expected = self.client(direct.port).ask(too_large_for_it)
        self.assertEqual(expected[:12], b"SERVER_ERROR")
        client = self.client(proxy.port)
        self.assertEqual(client.ask(too_large_for_it), expected)
        self.assertEqual(client.ask(b"get a\r\n"), b"END\r\n")
        self.assertEqual(proxy.marks(), {behind.address: "up:0"})

    def test_what_the_proxy_answers_itself(self):
        client = self.client(self.proxy(configuration(only=[self.memcached()])).port)
        for request, wanted in OWN_ANSWERS:
            self.assertEqual((request[:80], client.ask(request)), (request[:80], wanted))
            self.assertEqual((request[:80], client.ask(b"version\r\n")), (request[:80], VERSION))
        # Answered before the data come, which never end.
        self.assertEqual(client.ask(b"set a 0 0 18446744073709551615\r\n"), TOO_LARGE)

    def test_quit_ends_the_connection_without_a_reply(self):
        client = self.client(self.proxy(configuration(only=[self.memcached()])).port)
        client.send(b"version\r\nquit\r\nversion\r\n")
        self.assertEqual(client.rest(), VERSION)

    def test_replies_of_a_server_go_to_the_client_as_they_are(self):
        for line in (b"ERROR\r\n", b"CLIENT_ERROR some text\r\n", b"SERVER_ERROR out of memory  \r\n"):
            server = self.fake(lambda _, request, line=line: line)
            proxy = self.proxy(configuration(first=[server], second=[self.memcached()]))
            client = self.client(proxy.port)
            for request in (b"get a\r\n", store(b"a", b"x"), b"incr a 1\r\n", b"get a b\r\n"):
                self.assertEqual((request, client.ask(request)), (request, line))
            self.assertEqual(proxy.marks()[server.address], "up:0")

    def test_the_longest_line_of_a_server(self):
        for spaces, reply in ((65530, b"ERROR\r\n"), (65531, b"SERVER_ERROR no server\r\n")):
            server = self.fake(lambda _, request, spaces=spaces: b"ERROR" + b" " * spaces + b"\r\n")
            client = self.client(self.proxy(configuration(only=[server])).port)
            self.assertEqual((spaces, client.ask(b"get a\r\n")), (spaces, reply))

    def test_what_a_server_is_sent(self):
        server = self.fake(lambda _, request: b"ERROR\r\n")
        client = self.client(self.proxy(configuration(only=[server])).port)
        client.send(b"".join(request for request, _ in SENT) + b"quit\r\n")
        client.rest()
        self.assertEqual(server.requests, [sent for _, sent in SENT])

    def test_several_keys_are_sent_one_by_one(self):
        server = self.fake(lambda _, request: b"END\r\n")
        client = self.client(self.proxy(configuration(only=[server])).port)
        self.assertEqual(client.ask(b"get a b a\r\n"), b"END\r\n")
        self.assertEqual(server.requests, [b"get a\r\n", b"get b\r\n", b"get a\r\n"])

    def test_the_expiry_is_replaced_at_a_later_target(self):
        server = self.fake(lambda _, request: b"STORED\r\n")
        for limit, expiries in ((60, {0: 60, 59: 59, 60: 60, 61: 60, -1: -1}), (0, {0: 0, 59: 59, 61: 61, -1: -1})):
            proxy = self.proxy(configuration(first=[self.closed()], second=[server], failover_exptime=limit))
            client = self.client(proxy.port)
            for given, sent in expiries.items():
                self.assertEqual(client.ask(store(b"a", b"x", expiry=given)), b"STORED\r\n")
                self.assertEqual(server.requests[-1], store(b"a", b"x", expiry=sent))
