"""Pauses: the proxy is stopped for longer than its servers have for a response, alone or with all that is around it, and
then goes on. No server failed, so no client gets an error and no server is marked. A pause stops processes, and the
program takes what the clock shows for one, so these tests hold however long a stop really lasts."""
import os
import signal
import subprocess
import sys
import time

from parts import MODE, ServerTest, configuration, only_in, start, stop
from ports import wait_until
from talk import store, values

TIMEOUT = 1.0
# So long a stop lasts, and so long what was stopped goes on before the next one.
STOP, BETWEEN = 1.5 * TIMEOUT, 0.05 * TIMEOUT
HERE = os.path.dirname(os.path.abspath(__file__))
# Clients in a process of their own, which can be stopped as well: they say how many answers they have, and then `over`
# with what was wrong.
CROWD = """
import sys, time
from crowd import Crowd
crowd = Crowd(int(sys.argv[1]), int(sys.argv[2]))
while sys.stdin.readline():
    print(crowd.answers(), len(crowd.faults), flush=True)
crowd.stop()
print("over", crowd.faults, flush=True)
"""


class StoppableCrowd:
    """Clients that ask and check, in a process of their own."""

    def __init__(self, port, clients):
        self.process = start([sys.executable, "-B", "-c", CROWD, str(port), str(clients)], cwd=HERE, text=True,
                             stdin=subprocess.PIPE, stdout=subprocess.PIPE)

    def progress(self):
        """How many answers they have, and how many of them were wrong."""
        self.process.stdin.write("\n")
        self.process.stdin.flush()
        answers, faults = map(int, self.process.stdout.readline().split())
        return answers, faults

    def end(self):
        """What was wrong, once each client has its last answer."""
        self.process.stdin.close()
        return self.process.stdout.readline()

    def close(self):
        stop(self.process)
        self.process.stdin.close()
        self.process.stdout.close()


def stop_all(processes):
    """Returns once each of them has stopped."""
    for process in processes:
        process.send_signal(signal.SIGSTOP)
    for process in processes:
        os.waitid(os.P_PID, process.pid, os.WSTOPPED | os.WNOWAIT)


def go_on(processes):
    for process in processes:
        process.send_signal(signal.SIGCONT)


def pause(processes):
    stop_all(processes)
    time.sleep(STOP)
    go_on(processes)
    time.sleep(BETWEEN)


def workers_for(clients):
    """With `--mode threads` each client needs a worker of its own, and the one that asks for the marks too."""
    return clients + 1 if MODE == "threads" else 2


class Pauses(ServerTest):
    def setup(self, clients, **options):
        self.servers = [self.memcached(), self.memcached()]
        self.running = self.proxy(configuration(only=self.servers), timeout=int(TIMEOUT * 1000),
                                  threads=workers_for(clients), **options)
        self.crowd = self.kept(StoppableCrowd(self.running.port, clients))
        self.more(clients)

    def more(self, count):
        """So many answers more came, none of them wrong."""
        before, _ = self.crowd.progress()
        wait_until(lambda: self.crowd.progress()[0] >= before + count or self.crowd.progress()[1], 60, "answers")
        self.assertEqual(self.crowd.progress()[1], 0)

    def stops(self, clients, processes, times):
        """Stops of these processes, each so many times in a row."""
        for _ in range(3):
            for _ in range(times):
                pause(processes)
            self.more(10 * clients)
        self.assertEqual(self.crowd.end(), "over []\n")
        self.assertNotIn(b" marked ", self.running.error_text())
        self.assertEqual(set(self.running.marks().values()), {"up:0"})

    def everything(self):
        return [self.running.process, self.crowd.process, *(server.process for server in self.servers)]

    def test_of_the_proxy(self):
        self.setup(50)
        self.stops(50, [self.running.process], 1)

    def test_of_everything(self):
        self.setup(50)
        self.stops(50, self.everything(), 1)

    def test_of_the_proxy_three_times_in_a_row(self):
        self.setup(50)
        self.stops(50, [self.running.process], 3)

    def test_of_everything_three_times_in_a_row(self):
        self.setup(200)
        self.stops(200, self.everything(), 3)

    @only_in("events", "there several keys may be under way")
    def test_with_several_keys_at_once(self):
        self.setup(50, keys_at_once=64)
        self.stops(50, [self.running.process], 1)

    def test_a_quiet_client_stays(self):
        """It is quiet for longer than it may be, but for the pause."""
        proxy = self.proxy(configuration(only=[self.memcached()]), timeout=int(TIMEOUT * 1000), idle_timeout=4000)
        client = self.client(proxy.port)
        self.assertEqual(client.ask(b"get a\r\n"), b"END\r\n")
        stop_all([proxy.process])
        time.sleep(5)
        go_on([proxy.process])
        self.assertEqual(client.ask(b"get a\r\n"), b"END\r\n")

    def test_a_server_that_stays_silent_is_found(self):
        """Also where the proxy pauses more often than any request outlasts."""
        near, far = self.memcached(), self.memcached()
        with far.client() as direct:
            direct.ask(store(b"a", b"far"))
        proxy = self.proxy(configuration(near=[near], far=[far]), timeout=int(TIMEOUT * 1000))
        near.pause()
        client = self.client(proxy.port)
        client.send(b"get a\r\n")
        for _ in range(5):
            pause([proxy.process])
        self.assertEqual(client.reply(), values((b"a", b"far")))
        self.assertEqual(proxy.marks()[near.address], "up:1")
