"""What figures depend on: the machine, what else it did, and the programs."""
import datetime
import hashlib
import os
import re
import subprocess
import textwrap
import threading
import time

import targets

VERSIONS = {"memcached": "--version", "nutcracker": "--version", "haproxy": "-v"}


def processor():
    with open("/proc/cpuinfo", encoding="utf-8") as file:
        model = re.search(r"^model name\s*:\s*(.*)$", file.read(), re.M)
    return re.sub(r"\s*\((R|TM)\)", "", model.group(1)) if model else os.uname().machine


def tick_counts():
    """Of all processors since the start of the machine: user, nice, system, idle, iowait, irq, softirq, steal."""
    with open("/proc/stat", encoding="ascii") as file:
        return [int(field) for field in file.readline().split()[1:9]]


def ticks():
    """Of all processors since the start of the machine: all, and those without work."""
    fields = tick_counts()
    return sum(fields), fields[3] + fields[4]


def busy_percent(seconds=2):
    """The share of the processors' time that is in use now, before anything is measured."""
    before = ticks()
    time.sleep(seconds)
    everything, idle = (after - one for after, one in zip(ticks(), before))
    return 100 * (everything - idle) / max(1, everything)


def version(name):
    words = [name, VERSIONS[name]]
    text = subprocess.run(words, stdout=subprocess.PIPE, stderr=subprocess.STDOUT, text=True, check=False).stdout
    found = re.search(r"\d+\.\d+\.\d+", text)
    return f"{name} {found.group()}" if found else name


def digest(path):
    """The beginning of the SHA-256 of a program."""
    with open(path, "rb") as file:
        return hashlib.sha256(file.read()).hexdigest()[:12]


def circumstances(program):
    """Two sentences for the document and the picture, of the moment before the measurement."""
    now = datetime.datetime.now(datetime.timezone.utc)
    busy = busy_percent()
    versions = [version(name) for name in VERSIONS if targets.is_here(name)]
    return [f"{now:%d %B %Y, %H:%M} UTC, on {os.cpu_count()} processors ({processor()}), of whose time other work took "
            f"{busy:.0f} % just before.",
            f"tkoproxy of SHA-256 {digest(program)}.., {', '.join(versions)}; TCP's congestion control is "
            f"{congestion_control()}."]


def congestion_control():
    """Which one TCP has here. It says how loopback behaves too: bbr paces what it sends."""
    try:
        with open("/proc/sys/net/ipv4/tcp_congestion_control", encoding="ascii") as file:
            return file.read().strip()
    except OSError:
        return "unknown"


class Stolen:
    """How much of the processors' time the host of a virtual machine took since this began."""

    def __init__(self):
        self.before = tick_counts()

    def percent(self):
        used = [after - before for after, before in zip(tick_counts(), self.before)]
        return 100 * used[7] / max(1, sum(used))


class Disturbance:
    """What else went on since this began, in processors: how much the host of a virtual machine took, and how much all
    processes had together but those that are measured, whose processor time `own` gives."""

    def __init__(self, own):
        self.own = own
        self.began = time.monotonic()
        self.before = tick_counts()
        self.own_before = own()

    def processors(self):
        """Those that the host took, and those of other work."""
        seconds = max(1e-6, time.monotonic() - self.began)
        used = [(after - before) / targets.TICKS for after, before in zip(tick_counts(), self.before)]
        user, nice, system, _, _, irq, softirq, stolen = used
        working = user + nice + system + irq + softirq - (self.own() - self.own_before)
        return stolen / seconds, max(0.0, working / seconds)


class Pauses:
    """What a host does to a virtual machine while something is measured: how much of the processors' time it takes, and how
    long all stands still. A thread sleeps again and again, and notes by how much it overslept."""

    NAP = 0.02

    def __init__(self):
        self.longest = 0.0
        self.stolen = Stolen()
        threading.Thread(target=self.watch, daemon=True).start()

    def watch(self):
        while True:
            began = time.monotonic()
            time.sleep(self.NAP)
            self.longest = max(self.longest, time.monotonic() - began - self.NAP)

    def __str__(self):
        return (f"Meanwhile the host took {self.stolen.percent():.0f} % of the processors' time, and the longest pause of the "
                f"machine was {self.longest:.2f} s.")


def paragraph(notes):
    """The same for a document."""
    return textwrap.fill(" ".join(notes), 120)
