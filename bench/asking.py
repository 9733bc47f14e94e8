"""Clients on one thread, each of which asks again and again, one `get` at a time; what they got is counted. It runs in a
process of its own, which can be stopped: `asking.py PORT CLIENTS KEYS`. For each line that it reads it prints how many
answers came and how many of them were errors; at the end of its input it ends."""
import os
import selectors
import sys

sys.path.insert(0, os.path.join(os.path.dirname(os.path.abspath(__file__)), "..", "tests", "server"))
from crowd import connected  # noqa: E402
from talk import store, values  # noqa: E402

VALUE = b"v" * 100


def names_of(count):
    return [b"key-%02d" % number for number in range(count)]


def stores(count):
    """What puts the values there that are asked for."""
    return [store(name, VALUE) for name in names_of(count)]


class Asking:
    def __init__(self, port, clients, keys):
        self.port = port
        self.request = b"get " + b" ".join(names_of(keys)) + b"\r\n"
        self.due = values(*((name, VALUE) for name in names_of(keys)))
        self.answers = self.errors = 0
        self.selector = selectors.DefaultSelector()
        self.selector.register(sys.stdin, selectors.EVENT_READ)
        for _ in range(clients):
            self.begin()

    def begin(self):
        client = connected(self.port)
        self.selector.register(client, selectors.EVENT_READ, bytearray())
        client.sendall(self.request)

    def take(self, client, reply):
        """What came to a client. A wrong value ends all."""
        piece = client.recv(65536)
        reply += piece
        if not piece:
            self.selector.unregister(client)
            client.close()
            self.errors += 1
            self.answers += 1
            self.begin()
        elif self.is_whole(reply):
            if reply != self.due and not (reply.startswith((b"SERVER_ERROR", b"END")) and reply.endswith(b"\r\n")):
                raise SystemExit(f"bench: a wrong answer: {bytes(reply[:200])!r}")
            self.answers += 1
            self.errors += reply != self.due
            reply.clear()
            client.sendall(self.request)

    def is_whole(self, reply):
        """The values are as long as those that are due; anything else is a line."""
        if reply.startswith(b"VALUE"):
            return len(reply) >= len(self.due)
        return reply.endswith(b"\r\n")

    def run(self):
        while True:
            for key, _ in self.selector.select():
                if key.data is not None:
                    self.take(key.fileobj, key.data)
                elif sys.stdin.readline():
                    print(self.answers, self.errors, flush=True)
                else:
                    return


if __name__ == "__main__":
    Asking(*map(int, sys.argv[1:4])).run()
