"""The event log on standard error: the death and the return of a server, and a log that nobody reads."""
import fcntl
import os
import re
import resource
import struct
import subprocess
import tempfile
import termios
import threading
import time
from datetime import datetime

from parts import ServerTest, configuration, serve_words, start, stop
from ports import HOST, free_port, is_open, wait_until
from talk import Client

STAMP = re.compile(r"^\d{4}-\d\d-\d\dT\d\d:\d\d:\d\d\.\d{3}Z ")
# For so many the log has room.
EVENTS = 4096


def without_count(line):
    return re.sub(r" count=\d+$", "", line)


def lines_of(proxy):
    """The time and the words of each line of its log so far."""
    lines = [line.split(" ", 1) for line in proxy.error_text().decode().splitlines() if STAMP.match(line)]
    return [(datetime.fromisoformat(stamp.replace("Z", "+00:00")), words) for stamp, words in lines]


def log_of(proxy):
    """The lines of its log so far, without their times. Lines that differ in their count alone are one line."""
    kept = []
    for _, line in lines_of(proxy):
        if not kept or without_count(line) != without_count(kept[-1]):
            kept.append(line)
    return kept


def address_of(client):
    """The address of a client, as its proxy sees it."""
    host, port = client.socket.getsockname()
    return f"{host}:{port}"


class Log(ServerTest):
    def waits_for(self, proxy, words):
        wait_until(lambda: any(words in line for line in log_of(proxy)), 20, f"the log says {words}")

    def test_a_server_dies_and_returns(self):
        server = self.memcached()
        proxy = self.proxy(configuration(only=[server]), threads=1, failures=2, first_delay=200, greatest_delay=200)
        name = f"server={server.address}"
        with proxy.client() as client:
            self.assertEqual(client.ask(b"get a\r\n"), b"END\r\n")
            server.kill()
            self.assertEqual(client.ask(b"get a\r\n"), b"SERVER_ERROR no server\r\n")
            self.waits_for(proxy, "probed")
            server.start()
            self.waits_for(proxy, "unmarked")
            self.assertEqual(client.ask(b"get a\r\n"), b"END\r\n")
        first, second, *lines = log_of(proxy)
        self.assertEqual([first, second], ["started servers=1", f"listening address={HOST}:{proxy.port}"])
        self.assertEqual([without_count(line) for line in lines], [
            f"marked {name} mark=hard worker=0 outcome=refused",
            f"probed {name} mark=hard worker=0 outcome=refused",
            f"probed {name} mark=hard worker=0 outcome=reply",
            f"unmarked {name} mark=up worker=0 outcome=reply"])
        # The probes are counted from the mark on, and what they lead to has the count of the last.
        counts = [int(line.rsplit("=", 1)[1]) for line in lines]
        self.assertEqual((counts[0], counts[1]), (1, 1))
        self.assertGreater(counts[2], counts[1])
        self.assertEqual(counts[3], counts[2])

    def test_a_soft_mark_is_hardened_and_released(self):
        server = self.memcached()
        proxy = self.proxy(configuration(only=[server]), threads=1, failures=1, timeout=300, connections=1,
                           first_delay=1000, greatest_delay=1000)
        name = f"server={server.address}"
        with proxy.client() as client:
            server.pause()
            self.assertEqual(client.ask(b"get a\r\n"), b"SERVER_ERROR no server\r\n")
            server.kill()
            self.waits_for(proxy, "hardened")
        self.assertEqual(proxy.end(30)[0], 0)
        lines = [without_count(line) for line in log_of(proxy)[2:] if not line.startswith("probed")]
        self.assertEqual(lines, [
            f"marked {name} mark=soft worker=0 outcome=timeout",
            f"hardened {name} mark=hard worker=0 outcome=refused",
            f"released {name} mark=up worker=0 outcome=none",
            "ended"])

    def test_timeouts_that_mark_no_server_are_told_once_in_ten_seconds(self):
        server = self.memcached()
        proxy = self.proxy(configuration(only=[server]), threads=1, failures=5, timeout=300)
        with proxy.client() as client:
            server.pause()
            for _ in range(4):
                self.assertEqual(client.ask(b"get a\r\n"), b"SERVER_ERROR no server\r\n")
            self.waits_for(proxy, f"slow server={server.address} count=1")
            self.assertEqual(client.ask(b"get a\r\n"), b"SERVER_ERROR no server\r\n")
            self.waits_for(proxy, f"marked server={server.address} mark=soft worker=0 outcome=timeout count=5")
        # Four timed out without a mark within ten seconds, and the fifth marked it.
        self.assertEqual([line for line in log_of(proxy) if line.startswith("slow")],
                         [f"slow server={server.address} count=1"])

    def test_what_came_of_a_send_is_told_before_the_next_one_is_answered(self):
        near, is_told = self.closed(), threading.Event()
        far = self.fake(lambda *_: b"END\r\n" if is_told.wait(20) else b"")
        proxy = self.proxy(configuration(near=[near], far=[far]), threads=1, timeout=60000)
        with proxy.client() as client:
            client.send(b"get a\r\n")
            self.waits_for(proxy, f"marked server={near.address} mark=hard worker=0 outcome=refused")
            self.assertTrue(client.is_quiet(0.1))
            is_told.set()
            self.assertEqual(client.reply(), b"END\r\n")

    def test_clients_that_end_by_a_fault_are_told_as_a_sum(self):
        proxy = self.proxy(configuration(only=[self.memcached()]), threads=1, connections=3)
        for request in (b"version\r\n", b"get " + b"a" * 70000, b"get " + b"a" * 70000):
            with proxy.client() as client:
                client.send(request)
                client.end_input()
                client.rest()
        self.assertEqual(proxy.end(30)[0], 0)
        lines = [line for line in log_of(proxy)[2:] if not line.startswith("refused ")]
        self.assertEqual(lines[-2:], ["clients sessions=3 faults=2", "ended"])
        # A sum is written at most once in some seconds, so a slow machine may have written one before.
        self.assertTrue(all(line.startswith("clients ") for line in lines[:-1]), lines)

    def refused(self, proxy):
        return [line for _, line in lines_of(proxy) if line.startswith("refused ")]

    def test_refused_lines_are_told_once_in_ten_seconds_with_their_client(self):
        proxy = self.proxy(configuration(only=[self.memcached()]), threads=2)
        with proxy.client() as first, proxy.client() as second:
            for _ in range(3):
                self.assertEqual(first.ask(b"flush_all\r\n"), b"ERROR\r\n")
            self.assertEqual(second.ask(b"gat 0 a\r\n"), b"ERROR\r\n")
            self.assertEqual(second.ask(b"get\r\n"), b"CLIENT_ERROR bad command line format\r\n")
            told = [f"refused kind=unknown_command count=1 client={address_of(first)}",
                    f"refused kind=bad_line count=1 client={address_of(second)}"]
            wait_until(lambda: len(self.refused(proxy)) >= 2, 10, "the log says both")
            self.assertEqual(self.refused(proxy), told)
            # The three that were not told are counted by the next line of their kind.
            wait_until(lambda: first.ask(b"flush_all\r\n") and len(self.refused(proxy)) > 2, 20, "ten seconds pass")
            again = rf"refused kind=unknown_command count=(\d+) client={address_of(first)}"
            self.assertGreaterEqual(int(re.fullmatch(again, self.refused(proxy)[2])[1]), 4)

    def test_a_client_of_the_binary_protocol_is_told(self):
        proxy = self.proxy(configuration(only=[self.memcached()]), threads=1)
        with proxy.client() as client:
            address = address_of(client)
            client.send(b"\x80" + bytes(23))
            wait_until(lambda: self.refused(proxy), 10, "the log says it")
        self.assertEqual(self.refused(proxy), [f"refused kind=binary count=1 client={address}"])

    def test_without_a_log(self):
        proxy = self.proxy(configuration(only=[self.closed()]), threads=1, log="off")
        with proxy.client() as client:
            self.assertEqual(client.ask(b"get a\r\n"), b"SERVER_ERROR no server\r\n")
        self.assertEqual(log_of(proxy), [])

    def test_of_a_name_the_log_has_the_address_that_was_bound(self):
        port = free_port()
        words = serve_words(port, configuration(only=[self.closed()]), {"threads": 1})
        words[words.index(f"{HOST}:{port}")] = f"localhost:{port}"
        process = start(words, stdout=subprocess.DEVNULL, stderr=subprocess.PIPE)
        self.addCleanup(process.stderr.close)
        self.addCleanup(stop, process)
        told = next(line for line in process.stderr if b" listening " in line)
        self.assertIn(told[25:], [f"listening address={host}:{port}\n".encode() for host in (HOST, "[::1]")])

    def test_a_log_that_nobody_reads_stops_no_worker(self):
        port, (reader, writer) = free_port(), os.pipe()
        self.addCleanup(os.close, reader)
        room = fcntl.fcntl(writer, fcntl.F_SETPIPE_SZ, 4096)
        ill = [self.fake(lambda *_: b"what\r\n") for _ in range(8)]
        pools = {f"pool-{number}": [server] for number, server in enumerate(ill)}
        words = serve_words(port, configuration(**pools),
                            {"threads": 1, "failures": 1, "limit": len(ill), "first-delay": 1, "greatest-delay": 1})
        process = start(words, stdout=subprocess.DEVNULL, stderr=writer)
        self.addCleanup(stop, process)
        os.close(writer)
        wait_until(lambda: is_open(port), 20, "clients can connect")
        unread = lambda: struct.unpack("i", fcntl.ioctl(reader, termios.FIONREAD, b"\0" * 4))[0]
        with Client(port) as client:
            def is_full():
                self.assertEqual(client.ask(b"get a\r\n"), b"SERVER_ERROR no server\r\n")
                return room - unread() < 200

            wait_until(is_full, 60, "the log fills its pipe")
            # Its writer waits now. The worker goes on, far past what the log has room for: each probe is an event.
            while sum(server.count(b"version") for server in ill) < EVENTS + 200:
                client.send(b"get a\r\n" * 100)
                for _ in range(100):
                    self.assertEqual(client.reply(), b"SERVER_ERROR no server\r\n")
            # Once somebody reads, it is told how many events there was no room for.
            with open(os.dup(reader), "rb") as log:
                told = next(line for line in log if b" lost events=" in line)
            self.assertRegex(told[25:], rb"^lost events=[1-9][0-9]*\n$")
        self.assertIsNone(process.poll())

    def begin(self, errors, **given):
        """The port of a program over one server that refuses, and the program, whose log goes to this descriptor."""
        port = free_port()
        words = serve_words(port, configuration(only=[self.closed()]),
                            {"threads": 1, "first-delay": 60_000, "greatest-delay": 60_000})
        process = start(words, stdout=subprocess.DEVNULL, stderr=errors, **given)
        self.addCleanup(stop, process)
        wait_until(lambda: is_open(port), 20, "clients can connect")
        return port, process

    def marks(self, port):
        with Client(port) as client:
            self.assertEqual(client.ask(b"get a\r\n"), b"SERVER_ERROR no server\r\n")

    def test_lines_that_cannot_be_written_are_counted(self):
        reader, writer = os.pipe()
        os.set_blocking(writer, False)
        fill(writer)
        port, _ = self.begin(writer)
        os.close(writer)
        self.marks(port)
        # Some of the events `started`, `listening` and `marked` are lost as long as nobody reads.
        time.sleep(2)
        with open(reader, "rb") as log:
            self.assertRegex(log.readline(), rb"^#+\n$")
            count = re.fullmatch(rb"\S+ lost events=([1-3])\n", log.readline())
            written = [log.readline() for _ in range(3 - int(count.group(1)))]
        self.assertTrue(all(STAMP.match(line.decode()) for line in written), written)

    def test_a_torn_line_is_ended_before_the_next(self):
        with tempfile.TemporaryFile() as errors:
            text = lambda: os.pread(errors.fileno(), 10_000, 0)
            # The signal of a file that has grown to its limit is ignored here, and so by a program that keeps signals.
            port, process = self.begin(errors, restore_signals=False)
            wait_until(lambda: b" listening " in text(), 20, "the log has begun")
            whole, limits = len(text()), resource.prlimit(process.pid, resource.RLIMIT_FSIZE)
            resource.prlimit(process.pid, resource.RLIMIT_FSIZE, (whole + 10, limits[1]))
            self.marks(port)
            wait_until(lambda: len(text()) == whole + 10, 20, "a part of a line is written")
            resource.prlimit(process.pid, resource.RLIMIT_FSIZE, limits)
            wait_until(lambda: text().endswith(b" lost events=1\n"), 20, "it is said that a line was lost")
            torn, lost, _ = text()[whole:].split(b"\n")
        self.assertEqual(len(torn), 10)
        self.assertTrue(STAMP.match(lost.decode()), lost)


def fill(pipe):
    """Writes into a pipe that does not block until nothing more can be written."""
    for piece in (b"#" * 4096, b"#"):
        try:
            while True:
                os.write(pipe, piece)
        except BlockingIOError:
            pass
