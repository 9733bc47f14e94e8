"""The kit's own `rt`, loaded as a module, so that the gate runs the kit's checks and not copies of them, and the ways
in which the kits differ that the gate was read against."""
import importlib.machinery
import importlib.util
import os
import shutil
import sys

import stamps

# The gate replaces parts of these kits' `rt` (see once.py): with another kit they have to be read again.
WRITTEN_FOR = ("rattle-kit-13b logic dac8208d650f15bf", "rattle-kit-13f logic dac8208d650f15bf")


def load():
    """Returns the kit's `rt` as a module, or ends the gate where it is another kit than those that it was written for:
    `./test` then runs public commands of `rt` alone."""
    found = shutil.which("rt") or stop("there is no rt on the PATH")
    path = os.path.realpath(found)
    loader = importlib.machinery.SourceFileLoader("rt_main", path)
    rt = importlib.util.module_from_spec(importlib.util.spec_from_loader("rt_main", loader))
    loader.exec_module(rt)
    with open(f"{rt.KIT}/KIT-ID", encoding="utf-8") as it:
        kit = it.read().strip()
    if kit not in WRITTEN_FOR:
        stop(f"it was written for {' and '.join(WRITTEN_FOR)}, and this is {kit}: ./test runs public commands of rt alone "
             "until tests/gate/once.py was read against this kit and tests/gate/kit.py changed")
    stamps.install(rt.rtlib.Crate)
    return rt


def has_store(rt):
    """Whether this kit's `rt ci` keeps what it passed for later runs, and adds a task for each check of an edit."""
    return hasattr(rt, "Kept")


def whole_run(rt):
    """Runs the kit's gate, which takes nothing of an earlier run."""
    return rt.ci(anew=True) if has_store(rt) else rt.ci()


def is_refused(rt, verdict):
    """Whether the kit's verdict on an edit is that the prover refused it."""
    return verdict == rt.REFUSED if has_store(rt) else verdict


def refused(rt):
    """The kit's verdict on an edit that the prover refused."""
    return rt.REFUSED if has_store(rt) else True


def missed(rt):
    """The kit's verdict on an edit that the prover let pass."""
    return rt.MISSED if has_store(rt) else False


def failing(rt, verdict):
    """What to make of a verdict other than `refused`: the edit fails, also where this kit lets it pass since it cannot be
    read or applied. What the kit could not settle stays so."""
    return verdict if has_store(rt) and verdict not in rt.SETTLED else missed(rt)


def stop(why):
    print(f"tests/gate: {why}", file=sys.stderr)
    sys.exit(2)
