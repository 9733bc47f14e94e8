"""Tests that are run and not proved, since a run that has to end in time has come too far.

A run has such a time where TKO_TEST_PROOF_MINUTES is set: tests whose check would begin later are run by the kit's
`rt try --test`, which builds a crate and all below it from their sources, and takes a fifth of the time. What such a run
did not prove it says, and does not keep. Left out is that such a test meets what its callees require and that it ends."""
import os
import re
import subprocess
import time

LISTED = re.compile(r"^tests: (\d+)$", re.M)
PASSED = re.compile(r"^test result: ok\. (\d+) passed; 0 failed; 0 ignored;.*^run=ended status=0 .*proved=no$", re.M | re.S)


class Late:
    """Whether it is late, and the crates whose tests were not proved for that."""

    def __init__(self):
        self.minutes, self.began, self.names = os.environ.get("TKO_TEST_PROOF_MINUTES"), time.monotonic(), []

    def __bool__(self):
        return bool(self.minutes) and time.monotonic() - self.began > 60 * float(self.minutes)

    def run_tests(self, crate):
        """Runs the tests of the crate, and returns 0 where all that it lists passed."""
        self.names.append(crate.name)
        how = {"cwd": crate.folder, "stdin": subprocess.DEVNULL, "stdout": subprocess.PIPE, "stderr": subprocess.STDOUT}
        ran = subprocess.run(["rt", "try", "--test"], errors="replace", **how)
        print(ran.stdout, f"{crate.name}: its tests were run and not proved\n", end="", file=crate.out, flush=True)
        listed, passed = LISTED.search(ran.stdout), PASSED.search(ran.stdout)
        return 0 if ran.returncode == 0 and listed and passed and listed[1] == passed[1] != "0" else 1

    def told(self):
        return f"gate: tests that were run and not proved, after {self.minutes} minutes: {' '.join(self.names)}"
