"""Requests for more than a worker should hold: the room of replies, and a proxy whose memory is limited."""
from parts import MODE, ServerTest, configuration, only_in
from ports import wait_until
from talk import store, values

KEY = b"k"
VALUE = b"x" * 1048576
VERSION = b"VERSION tkoproxy 1\r\n"
# In KiB, as the sizes in /proc are.
MIB = 1024
# How many values one reply has. An event-driven worker holds at most 64 MiB of replies.
MANY = 150 if MODE == "threads" else 50
# A connection that says nothing for so many seconds has failed.
LIMIT = 600


def get_of(count):
    return b"get" + b" %s" % KEY * count + b"\r\n"


class Memory(ServerTest):
    def setUp(self):
        self.server = self.memcached("-I", "2m")
        with self.server.client() as direct:
            self.assertEqual(direct.ask(store(KEY, VALUE)), b"STORED\r\n")

    def served(self, **options):
        return self.proxy(configuration(only=[self.server]), timeout=60000, **options)

    def assert_values(self, client, count):
        """The client gets the value so many times, and nothing else."""
        lines = values((KEY, VALUE)).removesuffix(b"END\r\n")
        for place in range(count):
            self.assertTrue(client.file.read(len(lines)) == lines, f"value {place} of {count}")
        self.assertEqual(client.reply(), b"END\r\n")

    def test_the_room_of_a_reply_is_given_back(self):
        proxy = self.served(threads=1)
        with proxy.client(limit=LIMIT) as client:
            self.assertEqual(client.ask(b"version\r\n"), VERSION)
            before = proxy.status("VmRSS")
            client.send(get_of(MANY))
            self.assert_values(client, MANY)
            # It held all values at once, and the client is still connected.
            self.assertGreater(proxy.status("VmHWM"), before + MANY * MIB)
            wait_until(lambda: proxy.status("VmRSS") < before + 10 * MIB, LIMIT,
                       "the room of the reply is given back")
            self.assertEqual(client.ask(b"version\r\n"), VERSION)

    def test_a_long_value_is_held_once(self):
        proxy = self.served(threads=1)
        with proxy.client(limit=LIMIT) as client:
            self.assertEqual(client.ask(b"get none\r\n"), b"END\r\n")
            proxy.forget_peak()
            before = proxy.status("VmRSS")
            client.send(get_of(1))
            self.assert_values(client, 1)
            self.assertLess(proxy.status("VmHWM"), before + 1.5 * MIB)

    def end_of_a_greedy_client(self, proxy, count):
        """One client asks for so many values at once and gets nothing, and two others are answered. What the proxy, which
        ends after these three, then has on standard error."""
        with proxy.client(limit=LIMIT) as other:
            self.assertEqual(other.ask(b"version\r\n"), VERSION)
            with proxy.client(limit=LIMIT) as greedy:
                greedy.send(get_of(count))
                self.assertEqual(greedy.rest(), b"")
            with proxy.client(limit=LIMIT) as later:
                for client in (other, later):
                    client.send(get_of(3))
                    self.assert_values(client, 3)
                    self.assertEqual(proxy.marks_by(client)[self.server.address], "up:0")
        self.assertEqual(proxy.end(LIMIT)[0], 0)
        return proxy.error_text()

    def test_a_reply_larger_than_the_memory_ends_its_session_alone(self):
        # The reply is larger than all addresses that the program has, since how many its threads set aside, and do not use,
        # differs from run to run. (An event-driven worker holds no reply above 64 MiB.)
        memory, count = (600, 2000) if MODE == "threads" else (60, 60)
        proxy = self.served(threads=2, memory=memory * MIB, connections=3)
        self.assertIn(b"note: memory ran out in a session or in a round\n", self.end_of_a_greedy_client(proxy, count))

    @only_in("events", "the replies of a worker have no bound in threads")
    def test_a_reply_above_the_bound_of_its_worker_ends_its_session_alone(self):
        proxy = self.served(threads=2, connections=3)
        text = self.end_of_a_greedy_client(proxy, 2000)
        self.assertIn(b"note: 1 of 3 sessions ended by a fault\n", text)
        self.assertNotIn(b"memory ran out", text)

    def test_as_many_keys_as_a_line_may_have(self):
        # 65,536 bytes with the CR.
        most = 32766
        with self.served(threads=1).client(limit=LIMIT) as client:
            self.assertEqual(client.ask(b"get" + b" a" * most + b"\r\n"), b"END\r\n")
            self.assertEqual(client.ask(b"get" + b" a" * most + b" \r\n"), b"CLIENT_ERROR line too long\r\n")
            self.assertEqual(client.rest(), b"")
