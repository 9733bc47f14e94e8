"""Starts on a machine that lacks something: the program prints `ready` and serves, or it ends and never prints it."""
import os
import select
import shutil
import subprocess
import tempfile
import unittest

import parts
from parts import ServerTest, configuration, serve_words, start, stop
from ports import HOST, free_port
from talk import Client

VERSION = b"VERSION tkoproxy 1\r\n"
WORKERS = 4
# A user that has no other process.
USER = 54242
# A start that says nothing for so many seconds hangs.
LIMIT = 20


class Starting(ServerTest):
    def start(self, limited, output=subprocess.PIPE, **user):
        """The port of a program that is started by these words, and its process."""
        port = free_port()
        _, *words = serve_words(port, self.config, {"threads": WORKERS, "log": "off"})
        process = start([*limited, self.program, *words], stdout=output, stderr=subprocess.PIPE, bufsize=0, **user)
        self.addCleanup(self.close, process)
        return port, process

    def close(self, process):
        stop(process)
        if process.stdout:
            process.stdout.close()
        process.stderr.close()

    def assertEnded(self, process, fault):
        """The program ends with status 1 and this fault."""
        self.assertEqual(process.wait(LIMIT), 1)
        self.assertEqual(process.stderr.read().splitlines()[-1], fault)

    def is_ready(self, process):
        """Whether a program prints `ready`. Else it ends since memory is lacking, and prints nothing."""
        came, _, _ = select.select([process.stdout], [], [], LIMIT)
        self.assertTrue(came, "the program prints `ready`, or ends")
        line = process.stdout.readline()
        if line == b"ready\n":
            return True
        self.assertEqual(line, b"")
        self.assertEnded(process, b"fault: memory")
        return False

    def assertServesAll(self, port):
        """As many clients as there are workers are answered while all are connected."""
        clients = []
        try:
            clients.extend(Client(port, limit=LIMIT) for _ in range(WORKERS))
            self.assertEqual([client.ask(b"version\r\n") for client in clients], [VERSION] * WORKERS)
        finally:
            for client in clients:
                client.close()


class Warnings(ServerTest):
    def test_what_is_odd_is_said_before_ready(self):
        """The warnings that `check` prints of a configuration, before the notes, and those alone."""
        config = configuration(only=[self.memcached()]).replace('"route"', '"rout":1,"route"')
        checked = subprocess.run([parts.PROGRAM, "check", "--config", config], stdout=subprocess.PIPE, check=True)
        warnings = [line for line in checked.stdout.splitlines() if line.startswith(b"warning: ")]
        self.assertEqual(warnings, [b'warning: key "rout" is ignored'])
        said = self.proxy(config).error_text().splitlines()
        self.assertEqual([line for line in said if line.startswith(b"warning: ")], warnings)
        self.assertEqual(said[0], warnings[0])

    def test_a_check_of_the_same_words_leaves_a_running_proxy_alone(self):
        proxy = self.proxy(configuration(only=[self.memcached()]), metrics=f"{HOST}:{free_port()}")
        words = proxy.process.args
        checked = subprocess.run([*words, "--check"], capture_output=True, timeout=LIMIT, check=True)
        self.assertEqual((checked.stdout, checked.stderr), (b"valid\n", b""))
        started = subprocess.run(words, capture_output=True, timeout=LIMIT)
        self.assertEqual((started.returncode, started.stdout), (1, b""))
        self.assertEqual(started.stderr.splitlines()[-1], b"fault: listen")
        self.assertEqual(proxy.client().ask(b"version\r\n"), VERSION)

    def test_an_ordinary_configuration_has_none(self):
        said = self.proxy(configuration(only=[self.memcached()])).error_text()
        self.assertNotIn(b"warning: ", said)


@unittest.skipUnless(os.getuid() == 0, "only root may run a program as a user that may have few threads")
class FewThreads(Starting):
    def setUp(self):
        self.config = configuration(only=[self.memcached()])
        # Where the program was built that user may read nothing.
        folder = tempfile.TemporaryDirectory()
        self.addCleanup(folder.cleanup)
        os.chmod(folder.name, 0o755)
        self.program = shutil.copy(parts.PROGRAM, folder.name)
        os.chmod(self.program, 0o755)

    def test_each_worker_has_a_thread_or_the_program_ends(self):
        # One thread accepts.
        for threads in range(1, WORKERS + 3):
            with self.subTest(threads=threads):
                limited = ["prlimit", f"--nproc={threads}:{threads}"]
                port, process = self.start(limited, user=USER, group=USER, extra_groups=[])
                self.assertEqual(self.is_ready(process), threads > WORKERS)
                if threads > WORKERS:
                    self.assertServesAll(port)
                stop(process)


class LittleMemory(Starting):
    def setUp(self):
        self.config = configuration(only=[self.memcached()])
        self.program = parts.PROGRAM

    def test_each_worker_has_its_memory_or_the_program_ends(self):
        ready, answered = [], []
        for memory in range(14_000, 60_001, 500):
            with self.subTest(memory=memory):
                port, process = self.start(["prlimit", f"--as={memory * 1024}"])
                ready.append(self.is_ready(process))
                answered.append(ready[-1] and self.is_answered(port))
                # A session that lacks memory ends, and the program stays.
                self.assertEqual(process.poll(), None if ready[-1] else 1)
                stop(process)
        self.assertEqual({False, True}, set(ready), "some are too small")
        self.assertTrue(answered[-1])

    def is_answered(self, port):
        with Client(port, limit=LIMIT) as client:
            try:
                return client.ask(b"version\r\n") == VERSION
            except (ConnectionError, EOFError):
                return False

    def test_an_output_that_is_full_is_a_fault(self):
        with open("/dev/full", "wb") as full:
            _, process = self.start([], output=full)
        self.assertEnded(process, b"fault: write")
