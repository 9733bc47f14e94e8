"""The tasks of a run of the gate, of which those whose verdict is kept are not run again.

A task is one of the kit's lanes: what it waits for, its lines, its memory, and a call that gets what the others gave and a
number of jobs, and returns whether all is well. Its name begins with that of a crate and `proof`, `tests` or `edits`."""
import os
import threading
import time
from collections import Counter

import keys
import store

KINDS = ("proof", "tests", "edits")


class Keeping:
    """What is known of the verdicts of this run, from earlier runs and from its own checks. Without a store, or where the
    run is to be fresh, all of them are made now."""

    def __init__(self, known, room, kept, say, is_fresh=False, unproved=()):
        self.known, self.room, self.kept, self.say, self.is_fresh = known, room, kept, say, is_fresh
        # The crates whose tests passed with no proof, of which that is not kept.
        self.unproved = unproved
        self.stamps = {it: known.stamps(it) for it in known.crates}
        self.keys = known.now()
        # How many verdicts of each kind were made now, and how many were kept.
        self.made, self.taken = Counter(), Counter()
        # The crates whose library and work are where the checks read them.
        self.placed, self.lock = set(), threading.RLock()
        self.lacking = {name for name, it in known.crates.items() if self.lacks(it)}

    def verdict(self, key):
        return self.kept.find(key) if self.kept and not self.is_fresh else None

    def has(self, name, what):
        """Whether nothing has to be checked for the crate's proof or its tests. Edits with a kept verdict are no task."""
        if what == "tests" and not self.known.crates[name].has_tests():
            return True
        key = self.keys[name] if what == "proof" else keys.of_tests(self.keys[name])
        return what != "edits" and self.verdict(key) is not None

    def keep(self, name, key, verdict, parts=None):
        """Keeps a verdict on the crate, unless a file that it rests on was written to since the run began, even if it is now
        as it was."""
        if not self.kept:
            return
        if self.known.stamps(name) != self.stamps[name]:
            self.say(f"gate: {name}: its sources changed during this run, so nothing is kept of it")
            return
        if self.is_fresh:
            self.kept.drop(key)
        try:
            self.kept.keep(key, {**verdict, "made": time.strftime("%Y-%m-%d %H:%M")}, parts)
        except OSError as error:
            self.say(f"gate: {name}: this verdict is not kept: {error.strerror}")

    def proof(self, crate, call):
        """A task's call that proves the crate, or finds it proved."""
        key = self.keys[crate.name]

        def run(given, jobs):
            if not all(given[low.name, "proof"] for low in crate.below()):
                return call(given, jobs)
            found = self.verdict(key)
            if found and (self.has_placed(crate) or not self.is_wanted(crate)):
                return self.was_kept(crate.name, "proof", found)
            is_well = self.now("proof", crate.below(), call, given, jobs)
            if is_well:
                self.placed.add(crate.name)
                self.keep(crate.name, key, {}, self.parts(crate))
            return is_well

        return run

    def tests(self, crate, call):
        """A task's call that proves the crate's tests and runs them, or finds that they passed."""
        key = keys.of_tests(self.keys[crate.name])

        def run(given, jobs):
            if not given[crate.name, "proof"] or not crate.has_tests():
                return call(given, jobs)
            found = self.verdict(key)
            if found:
                return self.was_kept(crate.name, "tests", found)
            is_well = self.now("tests", [*crate.below(), crate], call, given, jobs)
            if is_well and crate.name not in self.unproved:
                self.keep(crate.name, key, {})
            return is_well

        return run

    def edits(self, crate, call):
        """A task's call that tries some edits of the crate."""

        def run(given, jobs):
            if given[crate.name, "proof"]:
                self.place([*crate.below(), crate])
            return call(given, jobs)

        return run

    def now(self, what, crates, call, given, jobs):
        """Runs a check over these libraries."""
        self.place(crates)
        self.made[what] += 1
        return call(given, jobs)

    def of_edit(self, crate, edit):
        """What was said of an edit when it was refused, or None."""
        found = self.verdict(keys.of_edit(self.keys[crate.name], edit))
        return f"{found['text']} (kept, of {found['made']})" if found else None

    def keep_edit(self, crate, edit, text):
        self.keep(crate.name, keys.of_edit(self.keys[crate.name], edit), {"text": text})

    def was_kept(self, name, what, found):
        self.taken[what] += 1
        self.say(f"gate: {name} {what}: kept, of {found['made']}")
        return True

    def parts(self, crate):
        """What a proof leaves, and where: of a program what two compilers made, else the library, and the work that checks of
        its tests and edits rest on."""
        out = f"{crate.folder}/out"
        if crate.is_program:
            return {it: f"{out}/{it}" for it in (crate.name, f"{crate.name}.by-rattle") if os.path.exists(f"{out}/{it}")}
        return {"rlib": f"{out}/rlib", "work": self.work(crate)}

    def work(self, crate):
        return f"{self.room}/{crate.name}.proved"

    def is_wanted(self, crate):
        """Whether a check of this run may read what the crate's proof left. A program is run in each run."""
        return crate.is_program or any(
            it.name in self.lacking for it in self.known.crates.values() if it is crate or crate in it.below())

    def lacks(self, crate):
        """Whether a verdict on the crate, its tests or its edits is to be made."""
        proof = self.keys[crate.name]
        each = [proof, *[keys.of_edit(proof, it) for it in keys.edits_of(crate)]]
        return not all(map(self.verdict, each + [keys.of_tests(proof)] * crate.has_tests()))

    def place(self, crates):
        """Has what the proofs of these crates left where the checks above read it."""
        for crate in crates:
            if not self.has_placed(crate):
                raise OSError(f"what was kept of {crate.name} is damaged, and removed now: run the gate once more")

    def has_placed(self, crate):
        with self.lock:
            if crate.name not in self.placed and self.has_taken(crate):
                self.placed.add(crate.name)
            return crate.name in self.placed

    def has_taken(self, crate):
        """Takes what was kept of the crate's proof: its work only where a check of this run rests on it. An entry that is not
        as it was kept is removed."""
        key, out = self.keys[crate.name], f"{crate.folder}/out"
        os.makedirs(out, exist_ok=True)
        found = self.verdict(key)
        wanted = [it for it in found["sums"] if it != "work" or crate.name in self.lacking] if found else []
        is_whole = found and all(
            self.kept.take(key, it, self.work(crate) if it == "work" else f"{out}/{it}") for it in wanted)
        if found and not is_whole:
            self.kept.drop(key)
        return is_whole

    def prune(self):
        if self.kept:
            self.kept.prune()

    def told(self):
        """How many verdicts were made and kept."""
        each = ", ".join(f"{it} {self.made[it]} now and {self.taken[it]} kept" for it in KINDS)
        return f"gate: verdicts made now and kept of earlier runs: {each}"


def opened(say, at=None):
    """The store of this machine, or None where it is not to be used, which is said."""
    at = at or store.usual_place()
    why = store.why_not_ours(at)
    try:
        if not why:
            kept = store.Store(at)
            kept.prune()
            return kept
    except OSError as error:
        why = error.strerror
    say(f"gate: {at} is not used: {why}. Nothing is kept of this run")
    return None
