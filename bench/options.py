"""What the command lines of bench/run, bench/failover and bench/figures share."""
import argparse
import math
import os
import subprocess
import sys

import targets

HERE = os.path.dirname(os.path.abspath(__file__))
TOP = os.path.dirname(HERE)
BUILT = os.path.join(TOP, "crates", "tkoproxy", "out", "tkoproxy")
RELEASED = os.path.join(TOP, "release", "tkoproxy-x86_64-linux")
PACKAGES = ["memcached", "nutcracker", "haproxy", "rustc"]


def within(kind, least, most):
    """Reads a number of these, and refuses another."""
    def read(text):
        try:
            number = kind(text)
        except ValueError:
            number = math.nan
        if not least <= number <= most:
            raise argparse.ArgumentTypeError(f"{text!r} is no number from {least} to {most}")
        return number
    return read


def listed(read):
    """Words of which `read` reads each, with commas."""
    return lambda text: [read(word) for word in text.split(",")]


def executable(path):
    if not (os.path.isfile(path) and os.access(path, os.X_OK)):
        raise argparse.ArgumentTypeError(f"there is no program {path}")
    return path


def picture(path):
    """The path of an SVG that can be written."""
    if not os.path.isdir(os.path.dirname(path) or "."):
        raise argparse.ArgumentTypeError(f"there is no folder for {path}")
    return path


def parser(name, text, released=False):
    """A parser with the options that all of them have."""
    made = argparse.ArgumentParser(prog=name, description=text, formatter_class=argparse.RawDescriptionHelpFormatter)
    made.add_argument("--install", action="store_true", help="first install what is missing with apt-get")
    built = os.path.isfile(BUILT) and not released
    which = "the released one" if released else "the one that was built here, else the released one"
    made.add_argument("--program", metavar="PATH", type=executable, default=BUILT if built else RELEASED,
                      help=f"the tkoproxy to measure ({which})")
    return made


def prepare(given, name, needed):
    """Installs what is missing, if that was asked for, and ends where what is needed is not there."""
    if given.install:
        install()
    for program in needed:
        if not targets.is_here(program):
            raise SystemExit(f"bench: {program} is missing; {name} --install installs it")
    print(f"bench: tkoproxy is {os.path.relpath(given.program)}", file=sys.stderr)


def install():
    wanted = [name for name in PACKAGES if not targets.is_here(name)]
    if wanted:
        print("bench: installing with apt-get:", *wanted, file=sys.stderr)
        subprocess.run(["apt-get", "-qq", "update"], check=True)
        subprocess.run(["apt-get", "-qq", "-y", "--no-install-recommends", "install", *wanted], check=True,
                       stdout=sys.stderr, env={**os.environ, "DEBIAN_FRONTEND": "noninteractive"})


def compiled(name, folder):
    """The program of bench/load/NAME.rs."""
    path = os.path.join(folder, name)
    subprocess.run(["rustc", "-O", "-o", path, os.path.join(HERE, "load", f"{name}.rs")], check=True)
    return path
