"""Network namespaces: a test in one of its own has all ports and both loopback addresses for itself, and may set how many
ports there are. What it starts is in it too."""
import ctypes
import fcntl
import os
import socket
import struct
import unittest

NEW_NETWORK = 0x40000000
IFF_UP, GET_FLAGS, SET_FLAGS = 1, 0x8913, 0x8914
RANGE = "/proc/sys/net/ipv4/ip_local_port_range"
libc = ctypes.CDLL(None, use_errno=True)


def check(status):
    if status != 0:
        raise OSError(ctypes.get_errno(), os.strerror(ctypes.get_errno()))


def enter():
    """This thread is in a network namespace of its own from now on, whose loopback interface is up. Returns the one that
    it was in, as a file, or skips the test where the system allows none."""
    before = os.open("/proc/thread-self/ns/net", os.O_RDONLY)
    try:
        check(libc.unshare(NEW_NETWORK))
    except OSError as error:
        os.close(before)
        raise unittest.SkipTest(f"no network namespace: {error}") from error
    with socket.socket() as any_socket:
        request = struct.pack("16sh22x", b"lo", 0)
        _, flags = struct.unpack("16sh22x", fcntl.ioctl(any_socket, GET_FLAGS, request))
        fcntl.ioctl(any_socket, SET_FLAGS, struct.pack("16sh22x", b"lo", flags | IFF_UP))
    return before


def leave(before):
    check(libc.setns(before, NEW_NETWORK))
    os.close(before)


def limit_ports(first, last):
    """Outgoing connections of this namespace have these ports alone."""
    with open(RANGE, "w", encoding="ascii") as file:
        file.write(f"{first} {last}")
