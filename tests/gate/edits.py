"""Must-fail edits: which of them are tried in one check, and what came of each.

Edits in the bodies of different functions change no contract, so one check of these functions and of what they call
judges each edit by itself. An edit of such a batch counts as refused only if a clause in its own function refuses it,
and only if no function without an edit is refused. What one check of a batch did not judge is tried in the next, without
what it judged, as long as each judges some: of a function that calls another edited one a check says that alone. Every
other edit is tried alone, by the kit's own procedure, and so is each that these did not refuse."""
import functools
import os
import re
import shutil
import signal
import tempfile
import threading
import time

import kit
import offers
from places import changed_function
from refusals import refusals

# rattle's status where the name of an `--only` fits no function, or several.
NO_SUCH_NAME = 2
ONLY = re.compile(r"only=(\d+) proved=(\d+)")


class Tries:
    """What this run has found out of the edits."""

    def __init__(self, rt, proved, kept=lambda: None):
        self.rt, self.kept = rt, kept
        # The folder of a crate's proof.
        self.proved = proved
        # For each edit what its try came to, and what to say, as the kit's `must_fail` returns it.
        self.verdicts = {}
        # Of each thread: what its last check printed, and the words before the command of its next one.
        self.own = threading.local()
        self.checked, guarded = rt.checked, rt.rtlib.guarded
        rt.checked = self.recorded
        rt.rtlib.guarded = lambda: [*guarded(), *getattr(self.own, "words", [])]

    @functools.cached_property
    def keeping(self):
        """What is kept of earlier runs, and for later ones, where the run has that."""
        return self.kept()

    def recorded(self, *given):
        """The kit's `checked`, which also leaves what it printed to this thread."""
        self.own.ran = self.checked(*given)
        return self.own.ran

    def without_kept(self, crate, edits):
        """Returns the edits of which no verdict is kept."""
        for edit in edits:
            text = self.keeping.of_edit(crate, edit)
            if text:
                self.keeping.taken["edits"] += 1
                self.verdicts[edit] = kit.refused(self.rt), text
        return [it for it in edits if it not in self.verdicts]

    def settle(self, crate, verdicts):
        """Takes these verdicts, and keeps those on edits that were refused."""
        self.verdicts.update(verdicts)
        for edit, (kind, text) in verdicts.items() if self.keeping else ():
            self.keeping.made["edits"] += 1
            if kit.is_refused(self.rt, kind):
                self.keeping.keep_edit(crate, edit, text)

    def task(self, crate, batch, proof):
        """A task of the kit's lanes that tries these edits."""

        def run(given, jobs):
            if given[proof]:
                self.try_batch(crate, batch)

        return run

    def try_batch(self, crate, batch):
        began = time.time()
        is_in_bodies = all(changed_function(it, crate.folder) for it in batch)
        judged, left = {}, batch if is_in_bodies else []
        while left and (found := self.together(crate, left)):
            judged |= found
            left = [it for it in left if it not in found]
        self.settle(crate, judged)
        self.settle(crate, {edit: self.alone(crate, edit) for edit in batch if edit not in judged})
        self.rt.say(f"{crate.name}: {len(batch)} must-fail edits, {len(judged)} of them judged with others, "
                    f"{time.time() - began:.0f} s")

    def together(self, crate, batch):
        """Checks all edits of the batch at once. Returns the verdict on each whose own function is refused."""
        functions = {edit: changed_function(edit, crate.folder) for edit in batch}
        texts = together(self.rt, crate, batch, functions)[1]
        ran = self.of_functions(crate, texts, functions.values())
        if not is_judged(self.rt, ran, texts):
            return {}
        found = refusals(ran.stdout, crate.name)
        if any(not any(it.is_called(refusal.name) for it in functions.values()) for refusal in found):
            return {}
        own = {edit: [it for it in found if functions[edit].is_called(it.name)] for edit in batch}
        return {edit: self.verdict(crate, edit, refused) for edit, refused in own.items() if refused}

    def alone(self, crate, edit):
        """The kit's verdict on one edit; it fails too where no clause at the code refuses it, or where the edit cannot
        be read or applied, which the kit lets pass."""
        kind, text = self.over_proof(crate, edit=edit)
        if kit.is_refused(self.rt, kind):
            return self.verdict(crate, edit, refusals(self.own.ran.stdout, crate.name))
        return kit.failing(self.rt, kind), text

    def of_functions(self, crate, texts, functions):
        """A check of the edited functions and what they call: no caller sees another contract. Where one of the names fits
        several functions, all of the crate is checked."""
        ran = self.over_proof(crate, texts, only=[word for it in functions for word in ("--only", it.end())])
        return self.over_proof(crate, texts) if ran.returncode == NO_SUCH_NAME else ran

    def over_proof(self, crate, texts=None, edit=None, only=()):
        """A check of the edited crate over a copy of what its proof left. It writes files anew, so links will do."""
        flags = ["--jobs", "1", *only]
        with tempfile.TemporaryDirectory(prefix="gate-edit-") as room:
            self.own.words = offers.copied_without(self.proved(crate), f"{room}/kept")
            try:
                if edit:
                    return self.rt.must_fail(crate, edit, flags, f"{room}/kept")
                return self.not_killed(crate, texts, flags, f"{room}/kept")
            finally:
                self.own.words = []

    def not_killed(self, *given):
        """A check, and the same once more where it was killed, most likely for memory, as the kit does for one edit."""
        ran = self.checked(*given)
        return self.checked(*given) if ran.returncode == -signal.SIGKILL else ran

    def verdict(self, crate, edit, refused):
        """Returns what the edit's try came to, and what to say, from the functions that were refused."""
        label = f"must-fail {crate.name}/{os.path.basename(edit)}"
        by_clause = [it for it in refused if it.at_code]
        if by_clause:
            place = by_clause[0]
            return kit.refused(self.rt), f"{label}: refused, as it must be, in {place.name}: {place.at_code[0][:220]}"
        written = [it.in_proofs[0] for it in refused if it.in_proofs] or ["no reason was printed"]
        text = (f"{label}: NOT REFUSED BY A CLAUSE: only a written proof no longer fits, which says little of the "
                f"contract (change a value, or plant it in a caller): {written[0][:200]}")
        return kit.missed(self.rt), text


def is_judged(rt, ran, texts):
    """Whether the prover read the edited texts and refused the crate, as the kit's `must_fail` asks of one edit."""
    lines = ran.stdout.rstrip("\n").split("\n")
    is_read = not any(rt.unread(it, texts) for it in lines) and not rt.rtlib.STALE.search(ran.stdout)
    only = ONLY.fullmatch(lines[-1])
    is_refused = int(only[2]) < int(only[1]) if only else lines[-1].startswith("logic=not-proved")
    return is_read and ran.returncode == 1 and is_refused


def batches(rt, crate, edits):
    """Returns lists of edits that are tried together. An edit that changes no body, or none alone, has its own list."""
    fits = [it for it in edits if not rt.read_edit(it, crate.folder)[1]]
    whole = {it: changed_function(it, crate.folder) for it in fits}
    left, found = [it for it in fits if whole[it]], [[it] for it in edits if not whole.get(it)]
    while left:
        batch = together(rt, crate, left, whole)[0]
        found.append(batch)
        left = [it for it in left if it not in batch]
    return found


def together(rt, crate, edits, whole):
    """Returns as many of the edits as change different functions and apply to one text, and that text's files."""
    batch, texts = [], {}
    with tempfile.TemporaryDirectory(prefix="gate-edits-") as room:
        shutil.copytree(f"{crate.folder}/src", f"{room}/src")
        for edit in edits:
            changed, why = rt.read_edit(edit, room)
            if why or whole[edit] in [whole[it] for it in batch]:
                continue
            batch.append(edit)
            texts.update(changed)
            for path, text in changed.items():
                with open(f"{room}/{path}", "w", encoding="utf-8") as it:
                    it.write(text)
    return batch, texts
