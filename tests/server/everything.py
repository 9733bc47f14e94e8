"""Runs the tests of this folder, or those that are named, and ends with status 1 where one fails.

Each file is a process of its own, for each mode, and as many run side by side as there are processors. Those that look at
what the proxy's process holds or takes run at the end, one after another."""
import glob
import os
import queue
import signal
import subprocess
import sys
import time
import unittest
from concurrent.futures import ThreadPoolExecutor

# The longest first, so that none of them is left at the end.
LONGEST = ["test_many_clients", "test_refused_memory", "test_limits", "test_keys_failing", "test_groups_failing"]
ALONE = ["test_memory"]
running = []


def files():
    return sorted(path[:-len(".py")] for path in glob.glob("test_*.py"))


def run_here(names):
    """Runs the tests of these names in this process."""
    # So the servers are ended where the tests are.
    signal.signal(signal.SIGTERM, signal.default_int_handler)
    tests = unittest.defaultTestLoader.loadTestsFromNames(names)
    result = unittest.TextTestRunner(stream=sys.stdout, verbosity=2).run(tests)
    return result.wasSuccessful() and result.testsRun > 0


def run_file(name, mode, ports):
    """Runs the tests of a file in a process of its own, whose servers listen at these ports (ports.py). Prints what it
    printed, and returns whether they passed."""
    began, said = time.monotonic(), {"stdout": subprocess.PIPE, "stderr": subprocess.STDOUT, "text": True}
    named = {"TKO_PORTS": ports, **({"TKO_MODE": mode} if mode else {})}
    process = subprocess.Popen([sys.executable, "-B", __file__, name], env=os.environ | named, stdin=subprocess.DEVNULL, **said)
    running.append(process)
    text, _ = process.communicate()
    running.remove(process)
    is_well = process.returncode == 0
    print(f"tests/server: {label(name, mode)}, {time.monotonic() - began:.0f} s{'' if is_well else ': FAILED'}")
    print(text, end="", flush=True)
    return is_well


def run_in_a_part(parts, name, mode):
    """Runs the tests of a file with a part of the ports that no other one has meanwhile."""
    part = parts.get()
    try:
        return run_file(name, mode, part)
    finally:
        parts.put(part)


def label(name, mode):
    return f"{name} in {mode or 'the default mode'}"


def end_all(*_):
    for process in [*running]:
        process.terminate()
    sys.exit(1)


def run_side_by_side(modes):
    signal.signal(signal.SIGTERM, end_all)
    rank = {name: place for place, name in enumerate(LONGEST)}
    names = sorted(files(), key=lambda it: rank.get(it, len(rank)))
    jobs = [(name, mode) for name in names for mode in modes]
    at_once, parts = len(os.sched_getaffinity(0)), queue.SimpleQueue()
    for part in range(at_once):
        parts.put(f"{part}/{at_once}")
    with ThreadPoolExecutor(at_once) as pool:
        given = {it: pool.submit(run_in_a_part, parts, *it) for it in jobs if it[0] not in ALONE}
    well = {job: it.result() for job, it in given.items()}
    well |= {it: run_file(*it, "0/1") for it in jobs if it[0] in ALONE}
    failed = [label(*job) for job, is_well in well.items() if not is_well]
    print(f"tests/server: {len(well) - len(failed)} of {len(well)} files passed", *failed, sep="\ntests/server: FAILED: ")
    return not failed


def main():
    os.chdir(os.path.dirname(os.path.abspath(__file__)))
    if sys.argv[1:]:
        sys.exit(0 if run_here(sys.argv[1:]) else 1)
    mode = os.environ.get("TKO_MODE")
    modes = ["threads", "events"] if mode == "both" else [mode] if mode else []
    sys.exit(0 if run_side_by_side(modes or [None]) else 1)


main()
