"""Clients that pipeline lines which the proxy answers itself, without end: the others get their answers all the same, no
server is marked for it, and each of these lines has its own answer."""
import itertools
import threading

from load import Load
from parts import MODE, ServerTest, configuration
from ports import wait_until
from talk import Client

FLOODS, GOOD = 40, 4
# So many answers each good client gets on average beside the floods.
ANSWERS = 30
# How many lines of a client are without an answer at most.
PIPELINED = 500
WORKERS = {"events": 2, "threads": FLOODS + GOOD + 2}[MODE]


class Flood:
    """A client that sends a line again and again, some hundred before it reads their answers, until it is to end."""

    def __init__(self, port, line, answer):
        self.port, self.line, self.answer = port, line, answer
        self.over = threading.Event()
        self.fault, self.answers = None, 0
        self.thread = threading.Thread(target=self.run, daemon=True)
        self.thread.start()

    def run(self):
        try:
            with Client(self.port, limit=60) as client:
                while not self.over.is_set():
                    client.send(self.line * PIPELINED)
                    self.take(client)
        except Exception as error:  # Whatever ends a client is a fault.
            self.fault = repr(error)

    def take(self, client):
        wanted = self.answer * PIPELINED
        read = client.file.read(len(wanted))
        if read != wanted:
            raise AssertionError(f"{self.line!r} was answered by {read[:200]!r}")
        self.answers += PIPELINED

    def end(self):
        self.over.set()
        self.thread.join()


class Floods(ServerTest):
    def setUp(self):
        self.servers = [self.memcached() for _ in range(3)]
        self.running = self.proxy(configuration(near=self.servers[:2], far=self.servers[2:]), threads=WORKERS)
        self.up = {server.address: "up:0" for server in self.servers}

    def beside(self, *lines):
        """Good clients beside floods of these lines, each with the answer to it."""
        floods = [Flood(self.running.port, *each) for each in itertools.islice(itertools.cycle(lines), FLOODS)]
        load = Load(self.running.port, GOOD)
        try:
            wait_until(lambda: load.answers() >= GOOD * ANSWERS or load.faults, 120, "the good clients are answered")
            wait_until(lambda: all(it.answers or it.fault for it in floods), 120, "each flood is answered")
        finally:
            load.stop()
            for flood in floods:
                flood.end()
        self.assertEqual(load.faults, [])
        self.assertEqual([it.fault for it in floods if it.fault], [])
        self.assertEqual(self.running.marks(), self.up)

    def status(self):
        """The reply to `stats tko`."""
        return b"".join(b"STAT %s up:0\r\n" % server.address.encode() for server in self.servers) + b"END\r\n"

    def test_version(self):
        self.beside((b"version\r\n", b"VERSION tkoproxy 1\r\n"))

    def test_empty_lines(self):
        self.beside((b"\r\n", b"ERROR\r\n"))

    def test_status(self):
        self.beside((b"stats tko\r\n", self.status()))

    def test_all_of_them_and_words_that_are_no_command(self):
        self.beside((b"version\r\n", b"VERSION tkoproxy 1\r\n"), (b"\r\n", b"ERROR\r\n"),
                    (b"stats tko\r\n", self.status()), (b"unknown words\r\n", b"ERROR\r\n"))
