"""What the tests run: memcached servers and the proxy, each on a free port of 127.0.0.1.

Every process is ended by its own handle, also where a test fails. TKO_MODE is the proxy's `--mode`; without it the
program is given none, and serves in its default mode."""
import atexit
import json
import os
import re
import resource
import select
import signal
import subprocess
import tempfile
import unittest

from fakes import Closed, Deaf, Fake
from ports import HOST, free_port, is_open, wait_until
from talk import Client

PROGRAM = os.environ["TKOPROXY"]
MODE = os.environ.get("TKO_MODE", "events")
MODE_WORDS = ["--mode", MODE] if "TKO_MODE" in os.environ else []
# A line of the event log: its time, the event, which may have two words, and what is told of it.
LOG_LINE = rb"\d{4}-\d\d-\d\dT\d\d:\d\d:\d\d\.\d{3}Z [a-z]+( [a-z]+)?( [a-z]+=[^ \n]+)*"
# As /proc/net/tcp lists them.
HOST_AS_LISTED, ESTABLISHED = "0100007F", "01"
started = []


def start(words, **options):
    process = subprocess.Popen(words, **{"stdin": subprocess.DEVNULL, **options})
    started.append(process)
    return process


def stop(process):
    if process.poll() is None:
        process.kill()
    process.wait()
    if process in started:
        started.remove(process)


@atexit.register
def stop_all():
    for process in list(started):
        stop(process)


def only_in(mode, why):
    """Of a test, or of all tests of a class, that hold in this mode alone."""
    return unittest.skipUnless(MODE == mode, f"in {mode} alone: {why}")


class Memcached:
    """A memcached server, which can be killed, paused and started again on its port."""

    def __init__(self, *options):
        self.options = options
        self.port = free_port()
        self.address = f"{HOST}:{self.port}"
        self.start()

    def start(self):
        user = ["-u", "nobody"] if os.getuid() == 0 else []
        self.process = start(["memcached", "-l", HOST, "-p", str(self.port), "-U", "0", *user, *self.options],
                             stderr=subprocess.DEVNULL)
        wait_until(self.is_listening, 10, f"memcached listens at {self.address}")

    def is_listening(self):
        if self.process.poll() is not None:
            raise AssertionError(f"memcached ended with status {self.process.returncode}")
        return is_open(self.port)

    def client(self):
        return Client(self.port)

    def count(self, name):
        """A number of `stats`, for example cmd_get."""
        with self.client() as client:
            return int(re.search(rb"STAT %s (\d+)" % name.encode(), client.ask(b"stats\r\n")).group(1))

    def pause(self):
        """Returns once all of its threads have stopped: until then it may answer. The state is looked at and not taken
        (WNOWAIT), so a server that is stopped already counts as stopped again."""
        self.process.send_signal(signal.SIGSTOP)
        os.waitid(os.P_PID, self.process.pid, os.WSTOPPED | os.WNOWAIT)

    def resume(self):
        self.process.send_signal(signal.SIGCONT)

    def kill(self):
        stop(self.process)


def configuration(failover_exptime=60, **pools):
    """The configuration of a failover route over these pools, in the order given; a pool is a list of servers."""
    named = {name: {"servers": [server.address for server in servers]} for name, servers in pools.items()}
    children = [f"PoolRoute|{name}" for name in pools]
    return json.dumps({"pools": named, "route": {"type": "FailoverRoute", "children": children,
                                                 "failover_exptime": failover_exptime}})


def serve_words(port, config, options):
    """An option that is True is a switch, which has no value."""
    named = []
    for name, value in options.items():
        named += ["--" + name.replace("_", "-"), *([] if value is True else [str(value)])]
    return [PROGRAM, "serve", *MODE_WORDS, "--listen", f"{HOST}:{port}", "--config", config, *named]


class Proxy:
    """The running program, from its line `ready` on. It may have `open_files` files open and `memory` KiB of addresses,
    where these are given, and another environment. A server may take long to answer, since this machine may be busy,
    unless a test says otherwise."""

    def __init__(self, config, port=None, open_files=None, memory=None, env=None, **options):
        options = {"timeout": 5000, **options}
        self.port = port or free_port()
        self.errors = tempfile.TemporaryFile()
        # Limits are set in a shell, since a fork with threads beside it may hang.
        limits = "".join(f"ulimit -S -{which} {most} && " for which, most in (("n", open_files), ("v", memory)) if most)
        limited = ["sh", "-c", f'{limits}exec "$@"', "sh"] if limits else []
        self.process = start(limited + serve_words(self.port, config, options), bufsize=0, stdout=subprocess.PIPE,
                             stderr=self.errors, env=env)
        ready, _, _ = select.select([self.process.stdout], [], [], 20)
        line = self.process.stdout.readline() if ready else b"nothing"
        if line != b"ready\n":
            _, text = self.close()
            raise AssertionError(f"the program printed {line!r}, and on standard error {text!r}")

    def error_text(self):
        # The program writes at the offset that this descriptor shares with it, so reading must not move it.
        return os.pread(self.errors.fileno(), os.fstat(self.errors.fileno()).st_size, 0)

    def client(self, **options):
        return Client(self.port, **options)

    def marks(self):
        """The mark of each server, by its address, as `stats tko` tells it on a connection of its own."""
        with self.client() as client:
            return self.marks_by(client)

    def marks_by(self, client):
        """The same, as it tells it this client."""
        lines = client.ask(b"stats tko\r\n").decode().split("\r\n")
        return dict(line.split()[1:] for line in lines if line.startswith("STAT"))

    def status(self, name):
        """A number of /proc/PID/status, for example VmRSS in KiB."""
        with open(f"/proc/{self.process.pid}/status", encoding="ascii") as file:
            return int(re.search(rf"^{name}:\s+(\d+)", file.read(), re.M).group(1))

    def forget_peak(self):
        """From now on VmHWM is the most resident memory since then."""
        with open(f"/proc/{self.process.pid}/clear_refs", "w", encoding="ascii") as file:
            file.write("5")

    def limit_files(self, count):
        """From now on it may have so many files open."""
        _, hard = resource.prlimit(self.process.pid, resource.RLIMIT_NOFILE)
        resource.prlimit(self.process.pid, resource.RLIMIT_NOFILE, (count, hard))

    def seconds_used(self):
        """The processor time that it took."""
        with open(f"/proc/{self.process.pid}/stat", encoding="ascii") as file:
            fields = file.read().rsplit(")", 1)[1].split()
        return (int(fields[11]) + int(fields[12])) / os.sysconf("SC_CLK_TCK")

    def connections_to(self, server):
        """How many connections of this machine to the server stand: those of the proxy, if nobody else has one."""
        ends = f"{HOST_AS_LISTED}:{server.port:04X}"
        with open("/proc/net/tcp", encoding="ascii") as file:
            return sum(words[2] == ends and words[3] == ESTABLISHED for words in map(str.split, file))

    def files(self):
        return len(os.listdir(f"/proc/{self.process.pid}/fd"))

    def lowest_free_file(self):
        """The number of the descriptor that it would get next: below this limit it gets none."""
        used = {int(name) for name in os.listdir(f"/proc/{self.process.pid}/fd")}
        return next(number for number in range(len(used) + 1) if number not in used)

    def end(self, seconds=10):
        """Waits until the program ends by itself. Its status, and what it printed after `ready`."""
        status = self.process.wait(seconds)
        return status, self.process.stdout.read().decode()

    def close(self):
        running = self.process.poll() is None
        stop(self.process)
        self.process.stdout.close()
        with self.errors:
            text = self.error_text()
        return running, text


class ServerTest(unittest.TestCase):
    """A test whose servers and proxies are ended after it, and whose proxy keeps running and reports no fault."""

    def memcached(self, *options):
        server = Memcached(*options)
        self.addCleanup(server.kill)
        return server

    def fake(self, behave, is_open=True):
        """A server that answers each request by `behave(connection, request)`, once it is open."""
        return self.kept(Fake(behave, is_open))

    def closed(self):
        """A port that refuses connections."""
        return self.kept(Closed())

    def deaf(self):
        """A port that neither makes nor refuses connections."""
        return self.kept(Deaf())

    def proxy(self, config, **options):
        proxy = Proxy(config, **options)
        self.addCleanup(self.close_proxy, proxy, "connections" in options)
        return proxy

    def close_proxy(self, proxy, may_end):
        running, text = proxy.close()
        self.assertTrue(running or may_end, "the program ended before the test did")
        self.assertRegex(text, rb"\A(warning: [^\n]+\n)*(note: [^\n]+\n|" + LOG_LINE + rb"\n)+\Z")

    def client(self, port, **options):
        return self.kept(Client(port, **options))

    def allow_files(self, count):
        """This process and those that it starts may have so many files open, if the system allows it. How many they
        may have."""
        before = resource.getrlimit(resource.RLIMIT_NOFILE)
        self.addCleanup(resource.setrlimit, resource.RLIMIT_NOFILE, before)
        soft, hard = before
        wanted = count if hard == resource.RLIM_INFINITY else min(count, hard)
        if soft != resource.RLIM_INFINITY and soft < wanted:
            resource.setrlimit(resource.RLIMIT_NOFILE, (wanted, hard))
        soft, _ = resource.getrlimit(resource.RLIMIT_NOFILE)
        return count if soft == resource.RLIM_INFINITY else soft

    def kept(self, part):
        """Until the test has ended, and then closed."""
        self.addCleanup(part.close)
        return part
