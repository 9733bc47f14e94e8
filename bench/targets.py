"""What is measured: memcached, and the proxies before it, each on a port of its own."""
import ipaddress
import json
import os
import shutil
import signal
import subprocess
import sys
import tempfile

sys.path.insert(0, os.path.join(os.path.dirname(os.path.abspath(__file__)), "..", "tests", "server"))
from ports import HOST, free_port, is_open, wait_until  # noqa: E402

TICKS = os.sysconf("SC_CLK_TCK")

# The time limit of an exchange, in milliseconds, where no server is to fail: longer than the machine stands still.
PATIENT = 10_000

NUTCRACKER = """bench:
  listen: {listen}
  hash: fnv1a_32
  distribution: modula
  timeout: {timeout}
  preconnect: true
  server_connections: 1
  servers:
{servers}
"""

HAPROXY = """global
  maxconn {connections}
defaults
  mode tcp
  timeout connect 1s
  timeout client 60s
  timeout server 60s
listen bench
  bind {listen}
  server one {server}
"""


class Target:
    """A process that listens at an address, and the processor time that it used so far."""

    def __init__(self, name, words, port, errors=subprocess.DEVNULL):
        self.name = name
        self.port = port
        self.address = f"{HOST}:{port}"
        self.process = subprocess.Popen(words, stdin=subprocess.DEVNULL, stdout=subprocess.DEVNULL,
                                        stderr=errors)
        try:
            wait_until(lambda: self.process.poll() is not None or is_open(port), 10, f"{name} listens")
        except BaseException:
            self.stop()
            raise
        if self.process.poll() is not None:
            raise SystemExit(f"bench: {name} ended with status {self.process.returncode}")

    def processor_seconds(self):
        with open(f"/proc/{self.process.pid}/stat", encoding="ascii") as file:
            fields = file.read().rpartition(")")[2].split()
        return (int(fields[11]) + int(fields[12])) / TICKS

    def resident_bytes(self):
        with open(f"/proc/{self.process.pid}/statm", encoding="ascii") as file:
            return int(file.read().split()[1]) * os.sysconf("SC_PAGE_SIZE")

    def pause(self):
        self.process.send_signal(signal.SIGSTOP)

    def resume(self):
        self.process.send_signal(signal.SIGCONT)

    def stop(self):
        self.process.kill()
        self.process.wait()


def hosts(count):
    """So many addresses of this machine alone."""
    return [str(ipaddress.IPv4Address(HOST) + place) for place in range(count)]


def memcached(connections, threads=4, port=None, servers=1):
    """So many from the load itself and from two proxies, which keep theirs while another is measured, and from a tkoproxy
    with as many workers as many to each of these addresses, which make one memcached so many servers to a proxy; memcached
    takes 1,024 unless it is told otherwise. It has room for 1,000 values of 1,000,000 bytes."""
    port = port or free_port()
    user = ["-u", "nobody"] if os.getuid() == 0 else []
    return Target("memcached", ["memcached", "-l", ",".join(hosts(servers)), "-p", str(port), "-U", "0",
                                "-t", str(threads), "-m", "2048", "-I", "2m",
                                "-c", str(max(1024, (3 + servers) * connections + 16 * servers + 64)), *user],
                  port)


# The most workers that a tkoproxy has.
MOST_WORKERS = 1024


def has_option(program, option):
    """Whether `serve` of this tkoproxy has it."""
    told = subprocess.run([program, "serve", "--help"], stdout=subprocess.PIPE, text=True, check=True).stdout
    return f"{option} " in told


def has_modes(program):
    """Whether it has `--mode`. An earlier one has none, and serves as that of threads."""
    return has_option(program, "--mode")


def modes(program):
    """The words for each mode that the program has, by its name."""
    names = ["threads", "events"] if has_modes(program) else []
    return {name: ["--mode", name] for name in names} or {"threads": []}


def threads_mode(program):
    """The words for workers each of which serves one client at a time."""
    return modes(program)["threads"]


def tkoproxy_threads(name, program, servers, connections):
    """The program with as many workers as there are connections, one for each."""
    return tkoproxy_of(name, program, config_of(servers),
                       [*threads_mode(program), "--threads", str(connections), "--timeout", str(PATIENT)])


def tkoproxy_events(name, program, servers, workers, *more, **keys):
    """The program with so many event-driven workers, with more options and more keys of the pool."""
    return tkoproxy_of(name, program, config_of(servers, **keys),
                       ["--mode", "events", "--threads", str(workers), "--timeout", str(PATIENT), *more])


def config_of(servers, **keys):
    return {"pools": {"all": {"servers": servers, **keys}}, "route": "PoolRoute|all"}


def tkoproxy_of(name, program, config, options, errors=subprocess.DEVNULL):
    port = free_port()
    words = [program, "serve", "--listen", f"{HOST}:{port}", "--config", json.dumps(config), *options]
    return Target(name, words, port, errors)


def nutcracker(servers, folder):
    return nutcracker_of(NUTCRACKER, folder, timeout=PATIENT, servers="\n".join(f"   - {server}:1" for server in servers))


def nutcracker_of(template, folder, **fields):
    port = free_port()
    path = written(folder, template.format(listen=f"{HOST}:{port}", **fields))
    return Target("nutcracker", ["nutcracker", "-c", path, "-a", HOST, "-s", str(free_port())], port)


def haproxy(server, folder, connections):
    return haproxy_of(HAPROXY, folder, server=server, connections=max(1000, connections + 100))


def haproxy_of(template, folder, **fields):
    port = free_port()
    path = written(folder, template.format(listen=f"{HOST}:{port}", **fields))
    return Target("haproxy", ["haproxy", "-db", "-f", path], port)


def written(folder, text):
    handle, path = tempfile.mkstemp(dir=folder)
    with os.fdopen(handle, "w") as file:
        file.write(text)
    return path


def is_here(program):
    return shutil.which(program) is not None or os.access(program, os.X_OK)
