"""One read or one write of `dry` or `replay` fails or is interrupted, at each place of a row of tests/rows in turn; and
an accept of `serve` fails."""
import errno
import itertools
import shlex
from importlib.machinery import SourceFileLoader
from importlib.util import module_from_spec, spec_from_loader
from pathlib import Path

from parts import configuration, serve_words, stop
from ports import free_port
from refusing import RefusingTest
from talk import Client

TESTS = Path(__file__).resolve().parent.parent
NAMES = {"dry.txt": ["first_is_marked_second_answers", "cut_answer_is_broken", "expiry_replaced_on_failover",
                     "keys_are_routed_one_by_one", "first_key_without_values_gives_the_reply",
                     "noreply_writes_nothing"],
         "schedules.txt": ["run_of_an_idle_thread"]}


class Row:
    """A row whose input is one request, or a schedule. The program writes the replies and then, after the end of input,
    the trails, or the run."""

    def __init__(self, row):
        self.name, self.words, self.data = row.name, shlex.split(row.command)[1:], row.texts["<"]
        output = row.texts[">"]
        self.replies = output.partition(b"trail ")[0] if "dry" in self.words else b""
        self.at_end = output.removeprefix(self.replies)
        self.whole = (0, output, b"")

    def ways(self):
        """Ways to read and write: the variables of refusing.c, the pieces that are read and those that are written."""
        yield {}, [self.data], [text for text in (self.replies, self.at_end) if text]
        yield {"BYTE_BY_BYTE": 1}, single_bytes(self.data), single_bytes(self.replies + self.at_end)


def single_bytes(data):
    return [data[place:place + 1] for place in range(len(data))]


def rows():
    """The rows of these names, as tests/command_line reads them."""
    loader = SourceFileLoader("command_line", str(TESTS / "command_line"))
    command_line = module_from_spec(spec_from_loader(loader.name, loader))
    loader.exec_module(command_line)
    named = lambda file: {row.name: row for row in command_line.rows_of(TESTS / "rows" / file)}
    return [Row(named(file)[name]) for file, names in NAMES.items() for name in names]


class FailingEnds(RefusingTest):
    def runs(self, row, call, number, way):
        """What the row comes to where its first such call fails, where its second one does, and so on to its last."""
        for place in itertools.count(1):
            came, failed = self.run_refused(row.words, row.data, {call: place, "REFUSED_ERRNO": number, **way})
            if not failed:
                self.assertEqual(came, row.whole)
                return
            yield came

    def assert_runs(self, row, call, number, way, expected):
        self.assertEqual(list(self.runs(row, call, number, way)), expected, f"{call} of {row.name} {way}")

    def test_a_read_that_fails(self):
        """What was read by then is answered: nothing, where the request is not whole. No trails follow, and no run."""
        for row in rows():
            for way, read, _ in row.ways():
                expected = [(1, b"", b"fault: read\n")] * len(read) + [(1, row.replies, b"fault: read\n")]
                self.assert_runs(row, "REFUSED_READ", errno.EIO, way, expected)

    def test_a_write_that_fails(self):
        """What was written by then stays, and nothing follows it."""
        for row in rows():
            for way, _, written in row.ways():
                expected = [(1, b"".join(written[:place]), b"fault: write\n") for place in range(len(written))]
                self.assert_runs(row, "REFUSED_WRITE", errno.EIO, way, expected)

    def test_an_interrupted_read_is_made_again(self):
        for row in rows():
            for way, read, _ in row.ways():
                self.assert_runs(row, "REFUSED_READ", errno.EINTR, way, [row.whole] * (len(read) + 1))

    def test_an_interrupted_write_is_made_again(self):
        for row in rows():
            for way, _, written in row.ways():
                self.assert_runs(row, "REFUSED_WRITE", errno.EINTR, way, [row.whole] * len(written))


class BrokenClients(RefusingTest):
    def test_a_client_whose_socket_cannot_be_set_up_ends_nothing(self):
        """Its connection is closed, and the next client is accepted and served."""
        port = free_port()
        words = serve_words(port, configuration(only=[self.closed()]), {"connections": 2})
        process, told = self.start_refused(words, {"REFUSED_NODELAY": 1}, text=True)
        with told, process.stdout, process.stderr:
            self.addCleanup(stop, process)
            self.assertEqual(process.stdout.readline(), "ready\n")
            with Client(port) as broken:
                self.assertEqual(broken.rest(), b"")
            self.assertEqual(told.read(1), b"x")
            with Client(port) as client:
                self.assertEqual(client.ask(b"version\r\n"), b"VERSION tkoproxy 1\r\n")
            self.assertEqual(process.wait(20), 0)


class BrokenListeners(RefusingTest):
    def test_a_broken_listener_is_a_fault(self):
        port = free_port()
        words = serve_words(port, configuration(only=[self.closed()]), {"log": "off"})
        process, told = self.start_refused(words, {"REFUSED_ACCEPT": 1, "REFUSED_ERRNO": errno.EINVAL})
        with told, process.stdout, process.stderr:
            self.addCleanup(stop, process)
            self.assertEqual(process.stdout.readline(), b"ready\n")
            with Client(port):
                self.assertEqual(process.wait(20), 1)
            self.assertEqual((process.stdout.read(), process.stderr.read().splitlines()[-1]), (b"", b"fault: accept"))
            self.assertEqual(told.read(1), b"x")
