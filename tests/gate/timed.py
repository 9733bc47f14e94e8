"""timed.py FILE COMMAND..: runs a check and adds a line to the file: its crate, what it checked, its processor seconds, and
the most memory that one of its processes held, in KiB."""
import os
import resource
import subprocess
import sys

# The file that tries the tests of the crate whose folder this is.
TRY = "/trying.py"


def crate_of(words):
    """The crate that the command checks, or none. A try has no word for it."""
    if any(it.endswith(TRY) for it in words):
        return os.path.basename(os.getcwd())
    return words[words.index("--crate-name") + 1] if "--crate-name" in words else None


def what(words):
    """A crate's proof, its tests, or its edits, which are checked in copies of the crate's folder."""
    if os.path.basename(os.getcwd()).startswith("rt-edit-"):
        return "edits"
    return "tests" if "--test" in words else "proof"


def main(file, *words):
    status = subprocess.call(words)
    used = resource.getrusage(resource.RUSAGE_CHILDREN)
    crate = crate_of(words)
    if crate:
        with open(file, "a", encoding="utf-8") as it:
            it.write(f"{crate} {what(words)} {used.ru_utime + used.ru_stime:.1f} {used.ru_maxrss}\n")
    if status < 0:
        os.kill(os.getpid(), -status)
    return status


if __name__ == "__main__":
    sys.exit(main(*sys.argv[1:]))
