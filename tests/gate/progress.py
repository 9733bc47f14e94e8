"""How far a run of the gate is: a line as each check ends, with the share of the usual work that is done and about how
long the rest takes."""
import threading
import time

import costs

# Below this share of the work the pace of the run says too little, and that of idle processors is taken.
FEW = 0.1
# A task that took less, in seconds, had nothing to check, as the tests of a crate without any.
NOTHING = 1


def weights(keys, known, is_kept):
    """Returns the usual processor minutes of each task, of which those with a kept verdict take none. The checks of one
    crate's edits share those of its edits."""
    kinds = [key[:2] for key in keys]
    usual = {key: 0.0 if is_kept(*key[:2]) else costs.minutes_of(known, *key[:2]) for key in keys}
    return {key: minutes / kinds.count(key[:2]) for key, minutes in usual.items()}


def time_text(seconds):
    return f"{seconds / 60:.0f} min" if seconds >= 90 else f"{seconds:.0f} s"


class Progress:
    """What of a run's work is done."""

    def __init__(self, keys, known, processors, say, is_kept, now=time.monotonic):
        self.weights, self.processors, self.say, self.now = weights(keys, known, is_kept), processors, say, now
        self.whole, self.done, self.began = sum(self.weights.values()), 0.0, now()
        self.running, self.lock = set(), threading.Lock()
        count = {what: sum(key[1] == what and not is_kept(*key[:2]) for key in keys) for what in costs.WHAT}
        say(f"gate: {count['proof']} crates are to be proved, the tests of {count['tests']} to be proved and run, and wrong "
            f"programs to be tried in {count['edits']} checks. That usually takes {self.whole:.0f} processor minutes, so "
            f"about {self.whole / processors:.0f} minutes on {processors} processors")

    def left(self):
        """Returns how many seconds are left at the pace of this run, or at the usual one while little is done."""
        open_share = 1 - self.done / self.whole if self.whole else 0.0
        if open_share > 1 - FEW:
            return open_share * self.whole * 60 / self.processors
        return (self.now() - self.began) * open_share / (1 - open_share)

    def told(self, key, call):
        """The call of a task, which says so when it ends."""

        def run(given, jobs):
            began = self.now()
            with self.lock:
                self.running.add(key)
            try:
                return call(given, jobs)
            finally:
                self.end(key, self.now() - began)

        return run

    def end(self, key, took):
        with self.lock:
            self.running.discard(key)
            self.done += self.weights[key]
            if took >= NOTHING and self.weights[key]:
                self.say(self.line(key, took))

    def line(self, key, took):
        beside = ", ".join(sorted({f"{crate} {what}" for crate, what, *_ in self.running})) or "nothing else"
        share = 100 * self.done / self.whole if self.whole else 100
        return (f"gate: {share:.0f} % done, {time_text(self.now() - self.began)} gone, about {time_text(self.left())} "
                f"left: {key[0]} {key[1]} took {time_text(took)}; running: {beside}")


def told(tasks, known, processors, say, is_kept):
    """Has each of the kit's tasks say when it ends."""
    progress = Progress(list(tasks), known, processors, say, is_kept)
    return {key: (*rest, progress.told(key, call)) for key, (*rest, call) in tasks.items()}
