"""Servers that are not memcached: each does with a request what a test needs."""
import socket
import threading

from ports import HOST, free_port

STORES = (b"set", b"add", b"replace", b"append", b"prepend", b"cas")


class Fake:
    """Calls `behave(connection, request)` for each request that comes, on a thread for each connection, and keeps the
    bytes of all requests. A closed connection, or an answer of b"", ends the connection; None answers nothing."""

    def __init__(self, behave, is_open=True):
        self.behave = behave
        self.requests = []
        self.connections = []
        # How many connections it has closed itself.
        self.closed = 0
        self.listener = socket.socket()
        self.listener.setsockopt(socket.SOL_SOCKET, socket.SO_REUSEADDR, 1)
        self.listener.bind((HOST, free_port()))
        self.address = "%s:%d" % self.listener.getsockname()
        if is_open:
            self.open()

    def open(self):
        """From now on it accepts connections. Before, they are refused."""
        self.listener.listen()
        threading.Thread(target=self.accept, daemon=True).start()

    def accept(self):
        while True:
            try:
                connection, _ = self.listener.accept()
            except OSError:
                return
            connection.setsockopt(socket.IPPROTO_TCP, socket.TCP_NODELAY, 1)
            self.connections.append(connection)
            threading.Thread(target=self.serve, args=(connection,), daemon=True).start()

    def serve(self, connection):
        with connection, connection.makefile("rb") as file:
            self.answer_all(connection, file)
        self.closed += 1

    def answer_all(self, connection, file):
        try:
            for request in requests(file):
                self.requests.append(request)
                answer = self.behave(connection, request)
                if answer == b"":
                    return
                if answer is not None:
                    connection.sendall(answer)
        except OSError:
            pass

    def close(self):
        # An accept that waits is not ended by a close alone.
        for each in [self.listener, *self.connections]:
            try:
                each.shutdown(socket.SHUT_RDWR)
            except OSError:
                pass
        self.listener.close()

    def count(self, word):
        return sum(request.split()[0] == word for request in list(self.requests))


class Closed:
    """A port that nobody listens at, and that nobody else can take."""

    def __init__(self):
        self.socket = socket.socket()
        self.socket.bind((HOST, 0))
        self.address = "%s:%d" % self.socket.getsockname()

    def close(self):
        self.socket.close()


class Deaf:
    """A port whose listener accepts nobody, and whose queue is full: a connection to it is never made."""

    def __init__(self, host=HOST, port=None):
        self.family = socket.AF_INET6 if ":" in host else socket.AF_INET
        self.listener = socket.create_server((host, port or free_port()), family=self.family, backlog=0)
        self.address = "%s:%d" % self.listener.getsockname()[:2]
        self.waiting = []
        while self.fill():
            pass

    def fill(self):
        """One more connection in the queue, unless it is full."""
        connection = socket.socket(self.family)
        self.waiting.append(connection)
        connection.settimeout(0.2)
        try:
            connection.connect(self.listener.getsockname())
        except socket.timeout:
            return False
        return True

    def close(self):
        for each in [self.listener, *self.waiting]:
            each.close()


def requests(file):
    """The requests of a connection, each with its data."""
    for line in file:
        words = line.split()
        if words and words[0] in STORES:
            line += file.read(int(words[4]) + 2)
        yield line


def key_of(request):
    return request.split()[1]
