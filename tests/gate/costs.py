"""What the checks of a run took, for each crate, and what those of the run before took, as docs/contributing.md says."""
import os
import re
import sys
from dataclasses import dataclass

WHAT = ("proof", "tests", "edits")
ROW = re.compile(r"^\| (\w+) \| ([\d.]+) \| ([\d.]+) \| ([\d.]+) \| [\d.]+ \| ([\d.]+) \| ([\d.]+) \|$", re.M)
# What is reckoned for a check of a crate that the table lacks, in processor minutes.
UNKNOWN = 1.0
# How far a crate may be above its budget before it is told: machines, and what runs beside a check, differ that much.
TOLERANCE = 1.15


@dataclass(frozen=True)
class Usual:
    """The processor minutes of a crate's checks, the bytes that one of their processes held at most, and the minutes that
    its proof and its edits may take together."""

    minutes: dict
    held: float
    budget: float


def usual(document="docs/contributing.md"):
    """Returns for each crate of the document's table what its checks took."""
    with open(document, encoding="utf-8") as it:
        rows = ROW.findall(it.read())
    return {
        crate: Usual(dict(zip(WHAT, map(float, minutes))), 1e9 * float(held), float(budget))
        for crate, *minutes, held, budget in rows
    }


def minutes_of(known, crate, what):
    return known[crate].minutes[what] if crate in known else UNKNOWN


def longest_chain(crates, known):
    """Returns the names of the crates on that chain of libraries whose proofs take longest one after another."""
    chains = {}
    # (each crate comes after those below it)
    for crate in crates:
        below = max((chains[it.name] for it in crate.deps), default=(0.0, ()))
        chains[crate.name] = (below[0] + minutes_of(known, crate.name, "proof"), (*below[1], crate.name))
    return set(max(chains.values(), default=(0.0, ()))[1])


def timed(file):
    """Returns the words before a command that have it note what it took in this file."""
    return [sys.executable, "-B", f"{os.path.dirname(os.path.realpath(__file__))}/timed.py", file]


def file_in(room):
    """The file of this folder in which the commands of a run note what they took."""
    return f"{room}/costs"


def install(rt, room):
    """Has each command of `rt` note what it took in the file of this folder, and returns that file."""
    file = file_in(room)
    guarded = rt.rtlib.guarded
    rt.rtlib.guarded = lambda: [*guarded(), *timed(file)]
    return file


def spent_in(file):
    """Returns what each crate took: the processor minutes of its checks, and the bytes of its largest process."""
    spent = {}
    with open(file, encoding="utf-8") as it:
        for crate, what, seconds, kibibytes in map(str.split, it):
            minutes, held = spent.get(crate, (dict.fromkeys(WHAT, 0.0), 0.0))
            minutes[what] += float(seconds) / 60
            spent[crate] = minutes, max(held, 1024.0 * int(kibibytes))
    return spent


def report(file, known):
    """Yields what each crate took as rows of the document's table, with the budgets that it has there, and then a line for
    each crate that took more."""
    spent = spent_in(file)
    yield "| Crate | Proof | Tests | Edits | Together | GB | Budget |"
    yield "|---|---|---|---|---|---|---|"
    for crate, (minutes, held) in spent.items():
        yield row(crate, minutes, held, known[crate].budget if crate in known else together(minutes))
    whole = {what: sum(minutes[what] for minutes, _ in spent.values()) for what in WHAT}
    most = max((held for _, held in spent.values()), default=0.0)
    yield row("all", whole, most, known["all"].budget if "all" in known else together(whole))
    for crate, (minutes, _) in spent.items():
        took = together(minutes)
        if crate in known and took > TOLERANCE * known[crate].budget:
            yield f"gate: note: {crate} took {took:.1f} processor minutes, and its budget is {known[crate].budget:.1f}"


def together(minutes):
    """What is counted against the budget: the proofs of tests are kept most of the time."""
    return minutes["proof"] + minutes["edits"]


def row(crate, minutes, held, budget):
    numbers = [*minutes.values(), together(minutes), held / 1e9, budget]
    return f"| {crate} | {' | '.join(f'{it:.1f}' for it in numbers)} |"
