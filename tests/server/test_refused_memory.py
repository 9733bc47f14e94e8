"""Each call for memory refused in turn: the fault is `memory` alone, and what was written by then is right."""
import itertools
import socket
import threading
from pathlib import Path

from parts import configuration, only_in, serve_words, stop
from ports import free_port, wait_until
from refusing import RefusingTest
from talk import Client, store, values

TWO = '{"pools":{"A":{"servers":["h:1","h:2"]},"B":{"servers":["h:3"]}},' \
      '"route":{"type":"FailoverRoute","children":["PoolRoute|A","PoolRoute|B"]}}'
# Texts that are no configurations, each for another reason.
BAD = ['{', '[]', '{"route":"x"}', '{"pools":{"A":{"servers":[]}},"route":"x"}', '{"pools":{"A":{"servers":["h:0"]}}}',
       '{"pools":{"A":{"servers":["h:1"],"soft_limit":257}}}', TWO.replace('"type"', '"failover_exptime":-1,"type"'),
       TWO.replace("PoolRoute|B", "PoolRoute|C")]
SCHEDULE = b"schedule 1\nservers 2\nthreads 2\nfailures 1\nlimit 1\ntries 8\nstamp 0\n" \
           b"begin 0 soft 0\nrun 0\nbegin 1 soft 1\nrun 1\n"
NOTES = b"note: 1 of 2 sessions ended by a fault\nnote: memory ran out in a session or in a round\n"


def rest_after(client, requests):
    """What comes back until the connection ends. It may be cut where the program has ended, or the session."""
    reply = b""
    try:
        client.send(requests)
        while more := client.socket.recv(4096):
            reply += more
    except ConnectionError:
        pass
    return reply


class RefusedMemory(RefusingTest):
    def each_refused(self, words, data=b""):
        """What the program comes to where its first call for memory is refused, where its second one is, and so on."""
        for call in itertools.count(1):
            came, refused = self.run_refused(words, data, {"REFUSED_CALL": call})
            if not refused:
                return
            yield call, came

    def assert_each_refused(self, *words, data):
        whole, _ = self.run_refused(words, data, {})
        short = 0
        for call, came in self.each_refused(words, data):
            # The program may do without a piece of memory that it asks for.
            if came != whole:
                short += 1
                status, output, errors = came
                self.assertEqual((status, errors), (1, b"fault: memory\n"), f"call {call} of {words}")
                self.assertTrue(whole[1].startswith(output), f"call {call} of {words}: {output}")
        self.assertGreater(short, 0)

    def test_failover(self):
        self.assert_each_refused("dry", "--servers", "2", "--failures", "2", "--outcomes", "refused,miss", "--trail",
                                 data=b"get a\r\n")

    def test_several_keys(self):
        self.assert_each_refused("dry", "--outcomes", "hit:x,hit:yz,timeout", "--trail", data=b"gets a b\r\nget c d\r\n")

    def test_an_answer_that_is_cut(self):
        self.assert_each_refused("dry", "--servers", "2", "--outcomes",
                                 "bytes:56414c55452061203020350d0a6865,line:STORED", data=b"get a\r\nset a 0 0 1\r\nx\r\n")

    def test_faults_and_own_answers(self):
        self.assert_each_refused("dry", data=b"set a 0 0 2\r\nxyz\r\nversion\r\nnothing\r\nstats tko\r\nquit\r\n")

    def test_a_configuration(self):
        self.assert_each_refused("dry", "--config", TWO, "--outcomes", "refused,line:STORED", "--trail",
                                 data=b"set a 0 0 1\r\nx\r\nstats tko\r\n")

    def test_texts_that_are_no_configurations(self):
        """No text is accepted or refused for another reason. The line before that of the fault may be left out."""
        for text in BAD:
            words = ["check", "--config", text]
            (status, output, errors), _ = self.run_refused(words, b"", {})
            self.assertEqual((status, output), (1, b""))
            reason, fault = errors.splitlines(keepends=True)
            seen = set()
            for call, (status, output, errors) in self.each_refused(words):
                self.assertEqual((status, output), (1, b""), f"call {call} of {words}")
                seen.add(errors)
            memory = b"fault: memory\n"
            self.assertLessEqual(seen, {memory, fault, reason + fault, reason + memory}, text)
            self.assertIn(memory, seen, text)

    def test_a_schedule(self):
        self.assert_each_refused("replay", data=SCHEDULE)

    def serve_with(self, config, requests, refused, more):
        """What a client gets, what the program then comes to, and whether there was such a call."""
        port = free_port()
        options = {"connections": 1, "threads": 1, **more}
        process, told = self.start_refused(serve_words(port, config, options), {"REFUSED_CALL": refused})
        with told:
            reply = self.conversation(port, requests) if process.stdout.readline() == b"ready\n" else b""
            _, errors = process.communicate()
            stop(process)
            return reply, process.returncode, errors, bool(told.read())

    def conversation(self, port, requests):
        """What comes back to a client, whose connection may be refused where the program has ended."""
        try:
            with Client(port, limit=600) as client:
                return rest_after(client, requests)
        except ConnectionError:
            return b""

    def assert_each_refused_to_a_client(self, server, exchange_of, **more):
        """Each call is refused while a client sends these requests, to which these replies are due. The program may have
        more options."""
        noted = 0
        for call in itertools.count(1):
            requests, whole = exchange_of(call)
            reply, status, errors, refused = self.serve_with(configuration(only=[server]), requests, call, more)
            self.assertTrue(whole.startswith(reply), f"call {call}: {len(reply)} bytes, {reply[:200]}")
            if not refused:
                break
            noted += errors.endswith(b"note: memory ran out in a session or in a round\n")
            self.assertTrue(status == 0 or status == 1 and errors.endswith(b"fault: memory\n"), f"call {call}: {errors}")
            # No client is cut short in silence, also not one that is closed as it is accepted.
            if status == 0 and reply != whole:
                self.assertIn(b" clients sessions=1 faults=1\n", errors, f"call {call}")
        self.assertTrue((reply, status) == (whole, 0))
        self.assertGreater(noted, 0)

    def test_a_client_of_the_server(self):
        def exchange_of(call):
            key = b"key-%d" % call
            requests = b"get %s\r\n" % key + store(key, b"x") + b"get %s b\r\nquit\r\n" % key
            return requests, b"END\r\nSTORED\r\n" + values((key, b"x"))

        self.assert_each_refused_to_a_client(self.memcached(), exchange_of)

    def test_long_values(self):
        """Values that are not copied: alone, several in one reply, and one that comes in many pieces."""
        server = self.memcached()
        long, longer = (b"long", b"x" * 100000), (b"longer", b"y" * 300000)
        with server.client() as client:
            for key, value in (long, longer):
                client.ask(store(key, value))
        requests = b"get long\r\nget longer none long\r\n" + store(*long) + b"gets none\r\nget longer\r\nquit\r\n"
        whole = values(long) + values(longer, long) + b"STORED\r\nEND\r\n" + values(longer)
        self.assert_each_refused_to_a_client(server, lambda call: (requests, whole))

    def test_what_came_of_a_send_is_told_once(self):
        """A server that refuses is marked. Where memory runs out after that, the log says so all the same."""
        near, ended = self.closed(), 0
        config = configuration(near=[near], far=[self.fake(lambda *_: b"END\r\n")])
        for call in itertools.count(1):
            reply, _, errors, refused = self.serve_with(config, b"get a\r\nquit\r\n", call, {})
            if not refused:
                break
            marked, released = (errors.count(b" %s server=%s " % (word, near.address.encode()))
                                for word in (b"marked", b"released"))
            self.assertLessEqual(marked, 1, f"call {call}")
            if released and not reply:
                ended += 1
                self.assertEqual(marked, 1, f"call {call}: {errors}")
        self.assertEqual(reply, b"END\r\n")
        self.assertGreater(ended, 0)

    def several_keys(self, **way):
        """Where memory runs out for one key, nothing of its reply is sent, and those under way answer no later request."""
        server = self.memcached()
        pairs = [(b"long", b"x" * 100000), (b"a", b"1"), (b"b", b"22"), (b"c", b"333")]
        with server.client() as client:
            for key, value in pairs:
                client.ask(store(key, value))
        requests = b"get a none b c a\r\nget long a long\r\ngets none none\r\nget c\r\nquit\r\n"
        long, one, two, three = pairs
        whole = values(one, two, three, one) + values(long, one, long) + b"END\r\n" + values(three)
        self.assert_each_refused_to_a_client(server, lambda call: (requests, whole), keys_at_once=3, **way)

    @only_in("events", "there several keys may be under way")
    def test_several_keys_at_once(self):
        self.several_keys()

    @only_in("events", "there several keys may be under way")
    def test_several_keys_in_one_get(self):
        self.several_keys(group_keys=True)

    def beside_with(self, refused):
        """What a client gets whose request is under way while memory runs out for the next one on its connection, before
        that is sent; and whether there was such a call for memory, until it was sent or its client closed."""
        counted, asked, over = Path(self.folder.name, "counted"), threading.Event(), threading.Event()

        def behave(_, request):
            if request == b"get first\r\n":
                asked.set()
                over.wait(60)
            return b"END\r\n"

        port, server = free_port(), self.fake(behave)
        options = {"connections": 2, "threads": 1, "log": "off", "timeout": 60000}
        process, told = self.start_refused(serve_words(port, configuration(only=[server]), options),
                                           {"REFUSED_CALL": refused, "REFUSED_FROM": counted})
        with told:
            self.assertEqual(process.stdout.readline(), b"ready\n")
            with Client(port) as first, Client(port) as second:
                first.send(b"get first\r\n")
                self.assertTrue(asked.wait(60))
                # (so that the second client was accepted)
                self.assertEqual(second.ask(b"version\r\n"), b"VERSION tkoproxy 1\r\n")
                counted.touch()
                second.send(b"get second\r\n")
                wait_until(lambda: self.has_come(server.connections[0]) or not second.is_quiet(0.01), 60,
                           "the second request is sent, or its client closed")
                counted.unlink()
                over.set()
                reply = first.reply()
            process.communicate()
            stop(process)
            return reply, bool(told.read())

    @staticmethod
    def has_come(connection):
        """Whether bytes lie there that were not read yet."""
        try:
            return connection.recv(1, socket.MSG_PEEK | socket.MSG_DONTWAIT) != b""
        except BlockingIOError:
            return False

    @only_in("events", "there clients share a connection")
    def test_a_request_that_is_not_begun_cuts_no_other(self):
        for call in itertools.count(1):
            reply, refused = self.beside_with(call)
            self.assertEqual(reply, b"END\r\n", f"call {call}")
            if not refused:
                break
        self.assertGreater(call, 1)

    def late_server(self, counted):
        """A server that is not open yet. Its answer to a probe is long, and a `get` removes this file."""
        def behave(_, request):
            if request == b"version\r\n":
                return b"VERSION " + b"1" * 20000 + b"\r\n"
            counted.unlink(missing_ok=True)
            return b"END\r\n"

        return self.fake(behave, is_open=False)

    def probe_with(self, refused):
        """What a client gets after a probe, what the program prints on standard error, how often the server was probed,
        and whether there was such a call for memory, from the probe on until the client's request was sent. The log
        is off, since its thread takes memory too."""
        counted = Path(self.folder.name, "counted")
        port, server = free_port(), self.late_server(counted)
        delays = {"timeout": 5000, "first_delay": 20, "greatest_delay": 20}
        options = {"connections": 2, "threads": 1, "log": "off", **delays}
        process, told = self.start_refused(serve_words(port, configuration(only=[server]), options),
                                           {"REFUSED_CALL": refused, "REFUSED_FROM": counted})
        with told:
            self.assertEqual(process.stdout.readline(), b"ready\n")
            reply = self.get_after_a_probe(port, server, counted)
            # Where the probe was not over by then, the request did not come to the server, which removes this file.
            counted.unlink(missing_ok=True)
            with Client(port) as client:
                wait_until(lambda: client.ask(b"get a\r\n") == b"END\r\n", 10, "the server is in use again")
                client.send(b"quit\r\n")
            _, errors = process.communicate()
            stop(process)
            self.assertEqual(process.returncode, 0)
            return reply, errors, server.count(b"version"), bool(told.read())

    def get_after_a_probe(self, port, server, counted):
        """What a client gets that found the server closed, once the server was open and was probed. Calls for memory
        are counted from its opening on."""
        with Client(port) as client:
            self.assertEqual(client.ask(b"get a\r\n"), b"SERVER_ERROR no server\r\n")
            counted.touch()
            server.open()
            wait_until(lambda: server.count(b"version"), 10, "the server is probed")
            return rest_after(client, b"get a\r\nquit\r\n")

    @only_in("threads", "which call is which is told of a worker that waits for the probe")
    def test_a_probe(self):
        """Where memory runs out in a probe, or in the request after it, the session ends. The probe is made again."""
        probes = []
        for call in itertools.count(1):
            reply, errors, probed, refused = self.probe_with(call)
            probes.append(probed)
            if not refused:
                break
            self.assertEqual(reply, b"", f"call {call}")
            self.assertTrue(errors.endswith(NOTES), f"call {call}: {errors}")
        self.assertEqual(reply, b"END\r\n")
        self.assertNotIn(b"fault", errors)
        # Refused are the text of the probe, which is then not sent, the room for the answer, more of it, and the
        # answer's text. The rest is of the request.
        self.assertEqual(probes, [1, 2, 2, 2] + [1] * (len(probes) - 4))

    @only_in("events", "a probe is no part of a session there")
    def test_a_probe_of_an_event_driven_worker(self):
        """Where memory runs out in a probe, or in the request after it, the server is in use again all the same."""
        ended = 0
        for call in itertools.count(1):
            reply, errors, probed, refused = self.probe_with(call)
            self.assertIn(reply, (b"END\r\n", b"SERVER_ERROR no server\r\n", b""), f"call {call}")
            self.assertGreater(probed, 0, f"call {call}")
            if not refused:
                break
            ended += reply == b""
            if reply == b"":
                self.assertTrue(errors.endswith(NOTES), f"call {call}: {errors}")
        self.assertNotEqual(reply, b"")
        self.assertGreater(ended, 0)
