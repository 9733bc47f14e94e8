"""The folder in which the gate keeps what passed, for later runs on this machine.

An entry is a folder under its key: the verdict, and what a proof left for the checks above it, packed, with its sums. It is
put together beside its place and moved there, so that a run that is killed leaves none in part. Entries that no run
has used for ten days go, and the oldest of what is more than 20 GB, or leaves a run too little of the disk."""
import contextlib
import errno
import fcntl
import json
import os
import shutil
import tarfile
import tempfile
import time

from keys import sum_of_file

MOST_BYTES = 20_000_000_000
# What a run itself may write beside it.
LEAST_FREE = 15_000_000_000
MOST_SECONDS = 10 * 24 * 3600
SECONDS_OF_A_RUN = 24 * 3600
VERDICT = "verdict.json"


def usual_place():
    """The folder of this user's kept verdicts."""
    cache = os.environ.get("XDG_CACHE_HOME") or os.path.expanduser("~/.cache")
    return f"{cache}/tkoproxy-gate"


def why_not_ours(at):
    """Why what is kept in this folder is not to be believed, or None: somebody else may write to it."""
    is_there = os.path.lexists(at)
    if is_there and (os.path.islink(at) or not os.path.isdir(at)):
        return "it is no folder"
    found = os.stat(at) if is_there else None
    if found and found.st_uid != os.geteuid():
        return "it belongs to another user"
    return "others may write to it" if found and found.st_mode & 0o022 else None


class Store:
    """What earlier runs kept."""

    def __init__(self, at, now=time.time, most_bytes=MOST_BYTES, free=lambda at: shutil.disk_usage(at).free):
        self.at, self.now, self.most_bytes, self.free = at, now, most_bytes, free
        os.makedirs(at, mode=0o700, exist_ok=True)

    @contextlib.contextmanager
    def locked(self, how):
        """Keeps entries from being removed while one is read, by another run too."""
        with open(f"{self.at}/lock", "a", encoding="utf-8") as it:
            fcntl.flock(it, how)
            yield

    def find(self, key):
        """The verdict of an entry, or None."""
        try:
            with open(f"{self.at}/{key}/{VERDICT}", encoding="utf-8") as it:
                verdict = json.load(it)
            self.touch(f"{self.at}/{key}")
        except (OSError, ValueError):
            return None
        return verdict

    def touch(self, entry):
        """Says of an entry that it was used now."""
        os.utime(f"{entry}/{VERDICT}", (self.now(), self.now()))

    def keep(self, key, verdict, parts=None):
        """Keeps a verdict, with copies of these files and folders by their names. One that is there already stays. Where too
        little of the disk is free that is an OSError, as where it is full."""
        if parts and self.free(self.at) < LEAST_FREE:
            raise OSError(errno.ENOSPC, os.strerror(errno.ENOSPC))
        made = tempfile.mkdtemp(prefix="new-", dir=self.at)
        try:
            packed = {name: pack(path, f"{made}/{name}") for name, path in (parts or {}).items()}
            said = {
                **verdict,
                "sums": {name: sum_of_file(path) for name, path in packed.items()},
                "size": sum(map(os.path.getsize, packed.values())),
            }
            with open(f"{made}/{VERDICT}", "w", encoding="utf-8") as it:
                json.dump(said, it)
            self.touch(made)
            with self.locked(fcntl.LOCK_SH), contextlib.suppress(OSError):
                os.rename(made, f"{self.at}/{key}")
        finally:
            shutil.rmtree(made, ignore_errors=True)

    def take(self, key, name, to):
        """Unpacks a part of an entry, and returns whether that was done: not where it is no more as it was kept."""
        with self.locked(fcntl.LOCK_SH), contextlib.suppress(OSError):
            verdict, packed = self.find(key), f"{self.at}/{key}/{name}.tar.gz"
            if verdict and sum_of_file(packed) == verdict["sums"].get(name):
                unpack(packed, to)
                return True
        return False

    def drop(self, key):
        with self.locked(fcntl.LOCK_EX):
            shutil.rmtree(f"{self.at}/{key}", ignore_errors=True)

    def prune(self):
        """Removes what no run has used for long, and then the oldest until the rest fits."""
        with self.locked(fcntl.LOCK_EX):
            found = sorted(self.entries(), reverse=True)
            room = sum(size for _, _, size in found) + self.free(self.at) - LEAST_FREE
            held = 0
            for used, key, size in found:
                held += size
                if held > min(self.most_bytes, room) or used < self.now() - MOST_SECONDS:
                    shutil.rmtree(f"{self.at}/{key}", ignore_errors=True)

    def entries(self):
        """Of each entry when it was last used, its key and its size. What has no verdict is of a run that goes on, or was
        killed, and then goes a day later."""
        for key in os.listdir(self.at):
            if key == "lock":
                continue
            path = f"{self.at}/{key}"
            try:
                with open(f"{path}/{VERDICT}", encoding="utf-8") as it:
                    yield os.path.getmtime(f"{path}/{VERDICT}"), key, json.load(it)["size"]
            except (OSError, ValueError, KeyError):
                yield os.path.getmtime(path) - MOST_SECONDS + SECONDS_OF_A_RUN, key, 0


def pack(path, to):
    """Packs a file or a folder, quickly rather than small: a third of it is left. Returns the packed file."""
    with tarfile.open(f"{to}.tar.gz", "w:gz", compresslevel=1) as it:
        it.add(path, os.path.basename(to))
    return f"{to}.tar.gz"


def unpack(packed, to):
    """Puts what was packed at this path."""
    with tempfile.TemporaryDirectory(dir=os.path.dirname(to)) as room, tarfile.open(packed) as it:
        it.extractall(room)
        shutil.rmtree(to, ignore_errors=True)
        os.replace(f"{room}/{os.path.basename(packed).removesuffix('.tar.gz')}", to)
