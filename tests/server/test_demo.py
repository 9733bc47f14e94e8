"""The command `demo`, where all goes well and where a port, a thread or a connection is refused. The README has what it
prints, and tests/documents compares it."""
import errno
import os
import re
import subprocess

from parts import LOG_LINE, PROGRAM, only_in, start, stop
from refusing import RefusingTest
from talk import Client

NOTES = (b"Two pools of one server each, near and far, behind the proxy:\n",
         b"The server of near goes away. The proxy asks far at once:\n",
         b"The server of near is back, and empty. The proxy finds it by a probe:\n",
         b"The client leaves, and the proxy ends with its totals:\n")
WRONG = b"fault: demo: a reply is not the one that is due\n"
NO_PORT = b"fault: demo: no port of 127.0.0.1\n"
NO_THREAD = b"fault: demo: no thread\n"


@only_in("events", "demo chooses its mode itself")
class Demo(RefusingTest):
    def notes(self, output):
        """How many of the notes are in the output, of which none is left out."""
        has = [note in output for note in NOTES]
        self.assertEqual(has, sorted(has, reverse=True))
        return sum(has)

    def test_it_prints_the_same_at_each_run(self):
        runs = [start([PROGRAM, "demo"], stdout=subprocess.PIPE, stderr=subprocess.PIPE) for _ in range(3)]
        came = [(run.communicate(timeout=60), run.returncode) for run in runs]
        for run in runs:
            stop(run)
        for (output, errors), status in came:
            self.assertEqual((status, errors, self.notes(output)), (0, b"", 4))
            self.assertEqual(output, came[0][0][0])

    def test_a_reply_that_the_story_does_not_need_ends_it(self):
        # The proxy's first connection to near is refused, so the value is in far when near goes away.
        (status, output, errors), refused = self.run_refused(
            ["demo"], b"", {"REFUSED_CONNECT": 2, "REFUSED_ERRNO": errno.ECONNREFUSED})
        self.assertTrue(refused)
        self.assertEqual((status, errors, self.notes(output)), (1, WRONG, 2))
        self.assertRegex(output, rb"> get greeting\n< V[^\x00]*\Z")

    def test_a_proxy_that_cannot_be_reached(self):
        (status, output, errors), _ = self.run_refused(
            ["demo"], b"", {"REFUSED_CONNECT": 1, "REFUSED_ERRNO": errno.ECONNREFUSED})
        self.assertEqual((status, output, errors), (1, b"", NO_PORT))

    def test_no_port(self):
        for call, notes in ((1, 0), (2, 0), (3, 0), (4, 2)):
            with self.subTest(bind=call):
                (status, output, errors), refused = self.run_refused(
                    ["demo"], b"", {"REFUSED_BIND": call, "REFUSED_ERRNO": errno.EADDRINUSE})
                self.assertTrue(refused)
                self.assertEqual((status, errors, self.notes(output)), (1, NO_PORT, notes))

    def test_no_thread(self):
        for call in (1, 2, 3):
            with self.subTest(thread=call):
                came, refused = self.run_refused(["demo"], b"", {"REFUSED_THREAD": call})
                self.assertTrue(refused)
                self.assertEqual(came, (1, b"", NO_THREAD))

    def test_no_memory(self):
        for call in (1, 20, 40, 80, 160):
            with self.subTest(call=call):
                (status, _, errors), refused = self.run_refused(["demo"], b"", {"REFUSED_CALL": call})
                if refused and status:
                    self.assertEqual(status, 1)
                    self.assertIn(errors, (b"fault: memory\n", WRONG, NO_PORT, NO_THREAD))
                else:
                    self.assertEqual((status, errors), (0, b""))

    def test_an_output_that_fails(self):
        for call in (1, 2, 3, 12):
            with self.subTest(write=call):
                (status, _, errors), refused = self.run_refused(["demo"], b"", {"REFUSED_WRITE": call})
                self.assertTrue(refused)
                self.assertEqual((status, errors), (1, b"fault: write\n"))

    def test_it_stays_until_its_input_ends(self):
        process = start([PROGRAM, "demo", "--stay"], stdin=subprocess.PIPE, stdout=subprocess.PIPE,
                        stderr=subprocess.PIPE)
        try:
            output = b""
            while not re.search(rb"nc 127\.0\.0\.1 \d+\n", output):
                piece = os.read(process.stdout.fileno(), 4096)
                self.assertTrue(piece, output)
                output += piece
            self.assertEqual(self.notes(output), 3)
            with Client(int(output.split()[-1])) as client:
                self.assertEqual(client.ask(b"get greeting\r\n"), b"VALUE greeting 0 5\r\nhello\r\nEND\r\n")
            more, log = process.communicate(b"this ends it\n", timeout=20)
        finally:
            stop(process)
        self.assertEqual((process.returncode, more), (0, b""))
        lines = log.splitlines()
        self.assertTrue(all(re.fullmatch(LOG_LINE, line) for line in lines), log)
        self.assertEqual([line.split()[1] for line in lines][-2:], [b"probed", b"unmarked"])
