"""The three proxies as bench/failover starts them, each before two servers of its own: `near`, which fails, and `far`.

The numbers are the same for all: an exchange with a server may take 200 ms, a server is out of use after three
failures, and it is tried again after 2 seconds. docs/performance.md says why each setting is what it is."""
import collections
import subprocess

import targets

# A part of the run: what it is called, what begins it, how, and whether the first server answers in it.
Phase = collections.namedtuple("Phase", ["name", "moment", "act", "answers"])
# Counts of requests, and microseconds, as bench/load/timeline.rs prints them.
Slice = collections.namedtuple("Slice", ["answered", "errors", "closed", "slowest"])

TIMEOUT, FAILURES, RETRY = 200, 3, 2000
NAMES = ["tkoproxy", "nutcracker", "haproxy"]

NUTCRACKER = """bench:
  listen: {listen}
  hash: fnv1a_64
  distribution: ketama
  timeout: {timeout}
  preconnect: true
  auto_eject_hosts: true
  server_failure_limit: {failures}
  server_retry_timeout: {retry}
  servers:
   - {near}:1
   - {far}:1
"""

HAPROXY = """global
  maxconn 2000
defaults
  mode tcp
  retries 3
  option redispatch 1
  timeout connect {timeout}ms
  timeout server {timeout}ms
  timeout check {timeout}ms
  timeout client 60s
listen bench
  bind {listen}
  option tcp-check
  tcp-check send version\\r\\n
  tcp-check expect string VERSION
  default-server check inter {retry}ms fastinter {timeout}ms fall {failures} rise 1
  default-server observe layer4 error-limit {failures} on-error mark-down on-marked-down shutdown-sessions
  server near {near} on-marked-up shutdown-backup-sessions
  server far {far} backup
"""


def tkoproxy(program, near, far, connections):
    config = {"pools": {"near": {"servers": [near]}, "far": {"servers": [far], "soft_limit": 0}},
              "route": {"type": "FailoverRoute", "children": ["PoolRoute|near", "PoolRoute|far"]}}
    workers = {"--mode": "events"} if targets.has_modes(program) else {"--threads": connections}
    options = {**workers, "--timeout": TIMEOUT, "--failures": FAILURES, "--first-delay": RETRY, "--greatest-delay": RETRY}
    return targets.tkoproxy_of("tkoproxy", program, config, [str(word) for pair in options.items() for word in pair])


class Pair:
    """A proxy, its two servers, and the load on it. `stack` ends all of their processes."""

    def __init__(self, name, given, folder, load, stack):
        """`load` are the programs that fill a server and that keep asking."""
        self.name = name
        self.connections = given.connections
        self.stack = stack
        self.near, self.far = self.server(), self.server()
        for server in (self.near, self.far):
            subprocess.run([load["load"], server.address, "fill", "100"], check=True)
        self.proxy = self.started(given.program, folder)
        stack.callback(self.proxy.stop)
        words = [given.connections, given.rate, given.seconds, given.slice]
        self.asking = subprocess.Popen([load["timeline"], self.proxy.address, *map(str, words)],
                                       stdin=subprocess.PIPE, stdout=subprocess.PIPE, text=True)
        stack.callback(self.asking.wait)
        stack.callback(self.asking.kill)

    def server(self, port=None):
        made = targets.memcached(self.connections, port=port)
        self.stack.callback(made.stop)
        return made

    def started(self, program, folder):
        near, far = self.near.address, self.far.address
        if self.name == "tkoproxy":
            return tkoproxy(program, near, far, self.connections)
        start, template = {"nutcracker": (targets.nutcracker_of, NUTCRACKER),
                           "haproxy": (targets.haproxy_of, HAPROXY)}[self.name]
        return start(template, folder, near=near, far=far, timeout=TIMEOUT, failures=FAILURES, retry=RETRY)

    def connect(self):
        if self.asking.stdout.readline() != "connected\n":
            raise SystemExit(f"bench: the load has no connections to {self.name}")

    def begin(self):
        print(file=self.asking.stdin, flush=True)

    def kill(self):
        self.near.stop()

    def restart(self):
        self.near = self.server(self.near.port)

    def pause(self):
        self.near.pause()

    def resume(self):
        self.near.resume()

    def slices(self, seconds):
        """What the load says at its end, which comes within so many seconds."""
        output, _ = self.asking.communicate(timeout=seconds)
        if self.asking.returncode:
            raise SystemExit(f"bench: the load on {self.name} ended with status {self.asking.returncode}")
        return [Slice(*map(int, line.split())) for line in output.splitlines()]


PHASES = [
    Phase("before", None, None, True),
    Phase("killed", "kill", Pair.kill, False),
    Phase("started again", "restart", Pair.restart, True),
    Phase("stopped", "stop", Pair.pause, False),
    Phase("resumed", "resume", Pair.resume, True),
]
