"""Free ports of 127.0.0.1, and waiting for what comes."""
import itertools
import os
import random
import socket
import time

HOST = "127.0.0.1"
FIRST = 10000
# Tests that run side by side may set the seed of `random` alike.
numbers = random.SystemRandom()


def is_open(port):
    with socket.socket() as probe:
        return probe.connect_ex((HOST, port)) == 0


def ports_here():
    """The ports below those that the kernel gives to outgoing connections, so that none of these takes one meanwhile. Of
    programs that run side by side, each of which may start servers at any time, each has ports of its own: TKO_PORTS says
    which of how many parts, as 0/4."""
    with open("/proc/sys/net/ipv4/ip_local_port_range", encoding="ascii") as file:
        end = max(int(file.read().split()[0]), 20000)
    part, parts = map(int, os.environ.get("TKO_PORTS", "0/1").split("/"))
    return range(FIRST + part, end, parts)


# In an order of their own each time.
ports_left = itertools.cycle(numbers.sample(ports_here(), len(ports_here())))


def free_port():
    """A port at which nothing listens. A test may leave it closed, so it is given again only after all others were."""
    return next(port for port in ports_left if not is_open(port))


def wait_until(holds, seconds, what):
    """Waits until `holds()`, and returns the seconds that it took."""
    began = time.monotonic()
    while not holds():
        if time.monotonic() - began > seconds:
            raise AssertionError(f"not within {seconds} s: {what}")
        time.sleep(0.01)
    return time.monotonic() - began
