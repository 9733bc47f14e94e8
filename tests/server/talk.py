"""A client of one raw connection, which sends bytes as they are given; and what it sends and gets."""
import socket
import time


class Client:
    def __init__(self, port, limit=10):
        self.socket = socket.create_connection(("127.0.0.1", port), limit)
        self.socket.setsockopt(socket.IPPROTO_TCP, socket.TCP_NODELAY, 1)
        self.file = self.socket.makefile("rb")

    def __enter__(self):
        return self

    def __exit__(self, *_):
        self.close()

    def close(self):
        self.file.close()
        self.socket.close()

    def send(self, data):
        self.socket.sendall(data)

    def end_input(self):
        self.socket.shutdown(socket.SHUT_WR)

    def rest(self):
        """Everything up to the end of the connection."""
        return self.file.read()

    def reply(self):
        """One whole reply: a line, or the lines and data up to `END`."""
        reply = b""
        while True:
            line = self.file.readline()
            if not line.endswith(b"\n"):
                raise EOFError(f"the connection ended in a reply: {reply + line!r}")
            reply += line
            word, *words = line.split() or [b""]
            if word == b"VALUE":
                reply += self.file.read(int(words[2]) + 2)
            elif word != b"STAT":
                return reply

    def ask(self, request):
        self.send(request)
        return self.reply()

    def timed(self, request):
        """The reply, and the seconds until it was there."""
        began = time.monotonic()
        reply = self.ask(request)
        return reply, time.monotonic() - began

    def is_quiet(self, seconds):
        """Whether nothing comes for so long, neither a byte nor the end."""
        self.socket.settimeout(seconds)
        try:
            self.socket.recv(1, socket.MSG_PEEK)
            return False
        except socket.timeout:
            return True
        finally:
            self.socket.settimeout(10)


def store(key, value, word=b"set", expiry=0, flags=0, more=b""):
    """The bytes of a storage request."""
    return b"%s %s %d %d %d%s\r\n%s\r\n" % (word, key, flags, expiry, len(value), more, value)


def values(*pairs, flags=0):
    """The reply to `get` with these keys and values."""
    return b"".join(b"VALUE %s %d %d\r\n%s\r\n" % (key, flags, len(value), value) for key, value in pairs) + b"END\r\n"


def fnv1a(key):
    """FNV-1a of 32 bits, by its public definition."""
    value = 2166136261
    for byte in key:
        value = (value ^ byte) * 16777619 % 2 ** 32
    return value
