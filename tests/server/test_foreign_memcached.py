"""memcached's own tests, `t/*.t` of Debian's source package, with the proxy between them and memcached.

`foreign/memcached-debug` stands where they look for memcached. They are skipped where apt has no such package."""
import concurrent.futures
import os
import re
import shutil
import signal
import subprocess
import tempfile
import unittest

HERE = os.path.dirname(os.path.abspath(__file__))
# The files whose commands the proxy takes, with the tests that fail; docs/protocol.md has the reason of each.
FAILING = {
    "binary-get": set(), "bogus-commands": set(), "cas": {15}, "flags": set(),
    "getset": {536, 539}, "incrdecr": set(), "issue_108": {2, 3, 4}, "issue_152": {2}, "issue_192": set(),
    "issue_3": {2, 4, 5, 6, 7}, "issue_68": set(), "issue_70": {3}, "malicious-commands": {1, 2, 3},
    "multiversioning": set(), "noreply": set(), "quit": set(), "touch": set(),
}
# The files that end before their last test, and after how many: `getset` sends a line that is too long, and `issue_70`
# waits for the answer to a request whose first bytes are counted as data. Where perl has sent its line before the
# connection closes, it goes on without one: later tests tell nothing.
CUT = {"getset": 540, "issue_70": 3}
# How long the file that waits may take; the others end by themselves.
SECONDS = {"issue_70": 8}
# What the proxy does not take is left out of a file that needs little of it.
LEFT_OUT = {"noreply": ("flush_all", "verbosity")}


def run(words, seconds, **options):
    """The status and the output of a command in a session of its own, of which nothing is left after it."""
    with tempfile.TemporaryFile() as output:
        process = subprocess.Popen(words, stdin=subprocess.DEVNULL, stdout=output, stderr=subprocess.STDOUT,
                                   start_new_session=True, **options)
        try:
            process.wait(seconds)
        except subprocess.TimeoutExpired:
            pass
        finally:
            # What it started may outlive it.
            end_session(process.pid)
            process.wait()
        output.seek(0)
        return process.returncode, output.read().decode(errors="replace")


def end_session(number):
    try:
        os.killpg(number, signal.SIGKILL)
    except ProcessLookupError:
        pass


def sources():
    """Lines for apt with the sources of Debian where it has the packages."""
    form = "$(ORIGIN) deb-src $(REPO_URI) $(RELEASE) $(COMPONENT)"
    _, text = run(["apt-get", "indextargets", "--format", form, "Created-By: Packages"], 20)
    return sorted({line[len("Debian "):] for line in text.split("\n") if line.startswith("Debian deb-src ")})


def fetch(folder):
    """The path of the source package's `t`, or the reason why there is none. The system's own lists stay as they are."""
    if not shutil.which("apt-get") or not shutil.which("dpkg-source"):
        return None, "apt-get or dpkg-source is not installed"
    for part in ("lists", "cache"):
        os.mkdir(os.path.join(folder, part))
    with open(os.path.join(folder, "sources.list"), "w", encoding="ascii") as file:
        file.write("\n".join(sources()) + "\n")
    settings = {"Dir::Etc::sourcelist": f"{folder}/sources.list", "Dir::Etc::sourceparts": "-",
                "Dir::State::lists": f"{folder}/lists", "Dir::Cache": f"{folder}/cache", "APT::Sandbox::User": "root",
                "Acquire::Languages": "none", "Acquire::Retries": "1", "Acquire::http::Timeout": "10"}
    apt = ["apt-get", "-qq", *(word for pair in settings.items() for word in ("-o", "=".join(pair)))]
    for words in (["update", "--error-on=any"], ["source", "--download-only", "memcached"]):
        status, text = run(apt + words, 60, cwd=folder)
        if status != 0:
            return None, f"apt has no source package of memcached: {text.strip()[-200:]}"
    package = [name for name in os.listdir(folder) if name.endswith(".dsc")][0]
    status, text = run(["dpkg-source", "--no-check", "-x", package, "source"], 30, cwd=folder)
    return (os.path.join(folder, "source", "t"), None) if status == 0 else (None, text)


class MemcachedSuite(unittest.TestCase):
    def setUp(self):
        if run(["perl", "-MTest::More", "-e1"], 10)[0] != 0:
            self.skip("perl has no Test::More")
        folder = tempfile.TemporaryDirectory()
        self.addCleanup(folder.cleanup)
        tests, reason = fetch(folder.name)
        if tests is None:
            self.skip(reason)
        self.folder = os.path.dirname(tests)
        for name in ("foreign/memcached-debug", "foreign/timedrun"):
            os.symlink(os.path.join(HERE, name), os.path.join(self.folder, os.path.basename(name)))

    def skip(self, reason):
        print(f"tests/server: memcached's own tests are skipped: {reason}", flush=True)
        self.skipTest(reason)

    def test_its_own_tests_fail_where_the_documents_say(self):
        for name, words in LEFT_OUT.items():
            self.leave_out(os.path.join(self.folder, "t", f"{name}.t"), words)
        with concurrent.futures.ThreadPoolExecutor(4) as pool:
            for name, (planned, ended, failing) in zip(FAILING, pool.map(self.outcome, FAILING)):
                with self.subTest(file=name):
                    self.assertGreater(planned, 0)
                    last = CUT.get(name, planned)
                    failing = {number for number in failing if number <= last}
                    self.assertEqual((min(ended, last), failing), (last, FAILING[name]))

    def outcome(self, name):
        """How many tests a file has, how many of them ended, and which failed. A file of which none ended is run once
        more: it chooses a port itself, which another test here may have taken."""
        return next(filter(lambda found: found[1], (self.tried(name) for _ in range(2))), (0, 0, set()))

    def tried(self, name):
        _, output = run(["perl", "-I", "t/lib", f"t/{name}.t"], SECONDS.get(name, 60), cwd=self.folder)
        planned = re.findall(r"^1\.\.(\d+)", output, re.M)
        ended = re.findall(r"^(not )?ok (\d+)", output, re.M)
        return int(planned[0]) if planned else 0, len(ended), {int(number) for failed, number in ended if failed}

    def leave_out(self, path, words):
        with open(path, encoding="utf-8") as file:
            lines = [line for line in file if not any(word in line for word in words)]
        with open(path, "w", encoding="utf-8") as file:
            file.writelines(lines)
