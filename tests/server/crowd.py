"""Many connections on one thread: clients that ask and check, clients that are a burden, and streams of requests."""
import random
import selectors
import socket
import struct
import threading
import time

from load import KEYS, value_of
from ports import HOST
from talk import store, values

# A request that takes longer hangs.
HANGS = 10


def connected(port, received=None):
    """A connection that does not wait, whose end takes few bytes at once where their number is given."""
    made = socket.socket()
    if received:
        # Set before it connects, so that it is told to the other side.
        made.setsockopt(socket.SOL_SOCKET, socket.SO_RCVBUF, received)
    made.settimeout(HANGS)
    made.connect((HOST, port))
    made.setsockopt(socket.IPPROTO_TCP, socket.TCP_NODELAY, 1)
    made.setblocking(False)
    return made


class Asker:
    """A client that has one request out at a time. Its keys are those of load.py, so each value is right or wrong."""

    def __init__(self, port, seed):
        self.choice = random.Random(seed)
        self.socket = connected(port)
        self.answers = self.hits = 0
        self.ask()

    def ask(self):
        self.key = self.choice.choice(KEYS)
        self.is_store = self.choice.random() < 0.3
        request = store(self.key, value_of(self.key)) if self.is_store else b"get %s\r\n" % self.key
        self.reply, self.began = b"", time.monotonic()
        # (the system takes so few bytes whole)
        self.socket.sendall(request)

    def is_whole(self):
        if self.is_store or not self.reply.startswith(b"VALUE"):
            return self.reply.endswith(b"\r\n")
        return self.reply.endswith(b"\r\nEND\r\n")

    def expected(self):
        return [b"STORED\r\n"] if self.is_store else [b"END\r\n", values((self.key, value_of(self.key)))]

    def read(self):
        """The fault that it met, if any."""
        piece = self.socket.recv(65536)
        if not piece:
            return f"the connection ended after {self.reply[:80]!r}"
        self.reply += piece
        if not self.is_whole():
            return None
        self.answers += 1
        self.hits += self.reply.startswith(b"VALUE")
        if self.reply in self.expected():
            return None
        return f"{self.reply[:80]!r} is the answer about {self.key!r}"


class Crowd:
    """So many such clients, which ask on and on, on a thread of their own."""

    def __init__(self, port, clients):
        self.faults = []
        self.running = True
        self.askers = [Asker(port, seed) for seed in range(clients)]
        self.thread = threading.Thread(target=self.run, daemon=True)
        self.thread.start()

    def run(self):
        with selectors.DefaultSelector() as selector:
            for asker in self.askers:
                selector.register(asker.socket, selectors.EVENT_READ, asker)
            try:
                while self.faults == [] and selector.get_map():
                    self.turn(selector)
            except Exception as error:  # Whatever ends the clients is a fault.
                self.faults.append(repr(error))

    def turn(self, selector):
        for key, _ in selector.select(1):
            asker = key.data
            fault = asker.read()
            if fault:
                self.faults.append(fault)
            elif asker.is_whole() and self.running:
                asker.ask()
            elif asker.is_whole():
                selector.unregister(asker.socket)
        first = min((key.data.began for key in selector.get_map().values()), default=time.monotonic())
        waits = time.monotonic() - first
        if waits > HANGS + 5:
            self.faults.append(f"a client has waited for {waits:.0f} s")

    def answers(self):
        return sum(asker.answers for asker in self.askers)

    def least(self):
        """How many answers the client has that has fewest."""
        return min(asker.answers for asker in self.askers)

    def hits(self):
        return sum(asker.hits for asker in self.askers)

    def stop(self):
        """Each client waits for its last answer."""
        self.running = False
        self.thread.join()
        for asker in self.askers:
            asker.socket.close()


class Burden:
    """Clients that no server is glad of, on a thread of their own: each sends the next piece of its bytes and takes
    some of what came, once in each span. Nothing that becomes of them is a fault."""

    def __init__(self, port, pause=0.05):
        self.port = port
        self.pause = pause
        self.clients = []
        self.over = threading.Event()
        self.thread = threading.Thread(target=self.run, daemon=True)

    def add(self, count, first=b"", piece=b"", taken=0, received=None):
        """So many clients that send some bytes at once and then a piece in each span, and take so many bytes then."""
        for _ in range(count):
            client = connected(self.port, received)
            self.send(client, first)
            self.clients.append((client, piece, taken))

    @staticmethod
    def send(client, piece):
        try:
            client.send(piece)
        except OSError:
            pass

    @staticmethod
    def take(client, most):
        """How many bytes were there."""
        try:
            return len(client.recv(most))
        except OSError:
            return 0

    def start(self):
        self.thread.start()
        return self

    def run(self):
        while not self.over.wait(self.pause):
            for client, piece, taken in self.clients:
                if piece:
                    self.send(client, piece)
                if taken:
                    self.take(client, taken)

    def close(self):
        self.over.set()
        if self.thread.ident:
            self.thread.join()
        for client, _, _ in self.clients:
            # Without waiting for what the other side still has.
            client.setsockopt(socket.SOL_SOCKET, socket.SO_LINGER, struct.pack("ii", 1, 0))
            client.close()


class Stream:
    """A connection on which requests are sent in pieces of any length, and all that comes back. The last of them is
    `quit`, so that the other side ends it."""

    def __init__(self, port, data, choice):
        self.socket = connected(port)
        self.data = data
        self.choice = choice
        self.sent = 0
        self.came = bytearray()

    def write(self):
        most = self.choice.choice([1, 7, 100, 3000, 70000, 1000000])
        self.sent += self.socket.send(self.data[self.sent:self.sent + self.choice.randint(1, most)])

    def events(self):
        return selectors.EVENT_READ | (selectors.EVENT_WRITE if self.sent < len(self.data) else 0)

    def serve(self, events):
        """Whether the other side has not ended the connection."""
        if events & selectors.EVENT_WRITE and self.sent < len(self.data):
            self.write()
        if events & selectors.EVENT_READ:
            piece = self.socket.recv(1 << 20)
            self.came += piece
            return piece != b""
        return True


def talked(port, requests, choice):
    """What comes back on as many connections as there are texts of requests, each until its end."""
    streams = [Stream(port, data, choice) for data in requests]
    with selectors.DefaultSelector() as selector:
        for stream in streams:
            selector.register(stream.socket, stream.events(), stream)
        while selector.get_map():
            ready = selector.select(6 * HANGS)
            if not ready:
                raise AssertionError(f"nothing comes, and {len(selector.get_map())} connections are open")
            for key, events in ready:
                if key.data.serve(events):
                    selector.modify(key.data.socket, key.data.events(), key.data)
                else:
                    selector.unregister(key.data.socket)
                    key.data.socket.close()
    return [bytes(stream.came) for stream in streams]
