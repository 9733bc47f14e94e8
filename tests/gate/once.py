"""The kit's `rt ci`, each thing proved once.

1. Each library is proved once, from nothing, into a folder that this run makes and removes. Its tests and its edits are
   checked over what that proof left there. `rt ci` proves the library for each of the three.
2. What passed is kept for later runs, under a key that covers all that it rests on (keeping.py, keys.py, store.py).
3. Must-fail edits are tried many in one check (edits.py), and the checks of one crate's edits side by side.
4. An edit passes only if a clause refuses it, and the gate says which.
5. A line says how far the run is as each check ends (progress.py), and memory is reckoned by what checks were seen to
   hold (costs.py).
6. The sources of a crate are hashed once for each look at them (stamps.py).
7. The check of an edit offers no proof files (offers.py).

Everything else is the kit's own code: the rules on the text, the handles, the last line of each check, the runs."""
import os
import re
import shutil
import tempfile
import threading
from collections import Counter

import costs
import keeping
import kit
import progress
from late import Late
from edits import Tries, batches
from keys import Keys

KEPT_WORK = "( incremental=trusted)?"

# How much of the memory that the kit reckons for a check from nothing is set aside for one over kept work.
OVER_PROOF = 0.6
# What is set aside for a check whose memory was seen: a fifth more, for what has changed since.
OVER_SEEN = 1.2


def said(text):
    print(text, flush=True)


def install(rt, is_fresh):
    """Replaces the parts of the kit's `rt` that the changes above are about. Returns the folder of the proofs, which is
    removed when it is closed."""
    room = tempfile.TemporaryDirectory(prefix="gate-proved-")
    spent = costs.install(rt, room.name)
    accept_kept_work(rt)
    late = Late()
    rt.Crate = crate_proved_once(rt, room.name, late)
    # (when it is first asked for, the kit has looked at the tree)
    kept = lambda: of_run(rt, room.name, is_fresh, late)
    tried = Tries(rt, lambda crate: proved(room.name, crate), kept)
    if kit.has_store(rt):
        rt.Kept = kept_by_no_run(rt)
        rt.add_edits = lambda tasks, crate, edits, *others: add_edits(rt, tried, tasks, crate, edits)
    else:
        rt.must_fail_all = lambda crate, edits, flags: [tried.verdicts[it] for it in edits]
    in_lanes = rt.in_lanes

    def proved_once(tasks):
        known = costs.usual()
        tasks = dict(rearranged(rt, tasks, tried, known))
        tasks = without_what_is_done(tasks, lambda name: tried.proved(tried.keeping.known.crates[name]))
        given = in_lanes(progress.told(tasks, known, rt.processors(), said, tried.keeping.has))
        if not tried.keeping.taken:
            said("Processor minutes of the checks, and what one of their processes held at most:")
            print(*costs.report(spent, known), sep="\n", flush=True)
        said("\n".join([tried.keeping.told(), *[late.told()] * bool(late.names)]))
        tried.keeping.prune()
        return given

    rt.in_lanes = proved_once
    return room


def of_run(rt, room, is_fresh, late):
    """What is kept of earlier runs, for this one."""
    kept, crates = keeping.opened(said), rt.rtlib.crates_below(os.getcwd())
    return keeping.Keeping(Keys(os.getcwd(), rt.KIT, crates), room, kept, said, is_fresh, late.names)


def accept_kept_work(rt):
    """Has the last line of a check also name the kept work that it rests on, which is this run's."""
    end = r" statements=trusted\n\Z"
    if not rt.rtlib.VERDICT.pattern.endswith(end):
        kit.stop("the last line of a check is held to another pattern than the one that this gate knows")
    pattern = rt.rtlib.VERDICT.pattern.removesuffix(end)
    rt.rtlib.VERDICT = re.compile(f"{pattern} statements=trusted{KEPT_WORK}\\n\\Z", re.M)


def kept_by_no_run(rt):
    class Kept(rt.Kept):
        """The kit's store of what earlier runs passed, of which this run makes no use: its checks of tests and edits rest
        on kept work, which those of the kit's own gate do not."""

        def __init__(self, crates, anew=True):
            super().__init__(crates, anew)
            self.at = None

        def tell(self):
            """(that nothing is kept is meant)"""

    return Kept


def crate_proved_once(rt, room, late):
    class Crate(rt.Crate):
        """A crate whose proof is kept in a folder of this run, for its tests and its edits."""

        # The folder of the work that a check begins with and leaves.
        work = None

        def ci(self, flags, tests):
            self.work = None if self.is_program and not tests else f"{room}/{self.name}{'.tests' * tests}"
            if tests:
                return late.run_tests(self) if late else self.tests_over(proved(room, self), flags)
            status = super().ci(flags, tests)
            if self.work and not status:
                os.rename(self.work, proved(room, self))
            return status

        def tests_over(self, work, flags):
            """Proves the tests over the crate's proof, and runs them. The kit's gate would run them at its end."""
            if os.path.isdir(work):
                shutil.copytree(work, self.work, copy_function=os.link)
            made = f"{self.folder}/out/{self.name}_tests"
            status = super().ci(flags, True)
            if not status and os.path.isfile(made):
                status = 0 if rt.run(self, True) else 1
                os.remove(made)
            shutil.rmtree(self.work, ignore_errors=True)
            return status

        def words(self, flags, **how):
            words = super().words(flags, **how)
            return words + (["--incremental", self.work] if self.work else [])

        def build_rlib(self, flags, anew):
            # (rattle keeps no statements over kept work)
            self.cuts_libraries = False
            return super().build_rlib(flags, anew)

    return Crate


def without_what_is_done(tasks, proved):
    """Has the work of each crate's proof removed after the last of its tasks: that of all crates together is some 15 GB."""
    left, lock = Counter(name for name, *_ in tasks), threading.Lock()

    def told(name, call):
        def run(given, jobs):
            try:
                return call(given, jobs)
            finally:
                with lock:
                    left[name] -= 1
                if not left[name]:
                    shutil.rmtree(proved(name), ignore_errors=True)

        return run

    return {key: (*rest, told(key[0], call)) for key, (*rest, call) in tasks.items()}


def proved(room, crate):
    """What the crate's proof left. rattle replaces files and writes into none."""
    return f"{room}/{crate.name}.proved"


def rearranged(rt, tasks, tried, known):
    """Leaves out the checks whose verdict is kept, has tests wait for their crate's proof, and gives the proofs on the longest
    chain two jobs at least. Where the kit has one task for all edits of a crate, each check of them becomes a task."""
    crates, kept = tried.keeping.known.crates, tried.keeping
    chain = costs.longest_chain(crates.values(), known) if rt.processors() >= 4 else ()
    for key, (waits, lines, needs, call) in tasks.items():
        name, what = key[:2]
        crate = crates[name]
        if what == "tests":
            # (with no lines, so that they come last)
            yield key, ([*waits, (name, "proof")], 0, held(known, name, OVER_PROOF * needs), kept.tests(crate, call))
        elif what == "edits" and not kit.has_store(rt):
            tries = tries_of(rt, tried, crate, rt.edits_of(crate)[0])
            yield from tries.items()
            # (what is left to this task is to say what came of them)
            yield key, ([*waits, *tries], 0, 0, call)
        elif what == "proof" and name in chain:
            yield key, (waits, lines, held(known, name, needs, processes=2), kept.proof(crate, with_two_jobs(call)))
        elif what == "proof":
            yield key, (waits, lines, held(known, name, needs), kept.proof(crate, call))
        else:
            yield key, (waits, lines, held(known, name, needs), call)


def held(known, name, reckoned, processes=1):
    """The memory to set aside for a check of so many processes: what was seen, where that is less than what is reckoned."""
    return min(reckoned, OVER_SEEN * processes * known[name].held) if name in known else reckoned


def with_two_jobs(call):
    """A proof's call with two jobs at least, for a proof that others wait for longer than for what runs beside it."""
    return lambda given, jobs: call(given, max(jobs, 2))


def tries_of(rt, tried, crate, edits):
    """Returns a task for each check of those of these edits whose verdict is not kept."""
    proof, lines, needs = (crate.name, "proof"), crate.count(rb"\n"), held(costs.usual(), crate.name, OVER_PROOF * rt.need(crate))
    each = enumerate(batches(rt, crate, tried.without_kept(crate, edits)))
    call = lambda batch: tried.keeping.edits(crate, tried.task(crate, batch, proof))
    return {(crate.name, "edits", at): ([proof], lines, needs, call(batch)) for at, batch in each}


def add_edits(rt, tried, tasks, crate, edits):
    """Adds a task for each check of the crate's edits. Returns what gives their results, in the edits' order, and what
    gives those of earlier runs, as the kit's function of this name: of the latter there are none."""
    tasks.update(tries_of(rt, tried, crate, edits))
    return lambda given: [tried.verdicts[it] for it in edits], dict
