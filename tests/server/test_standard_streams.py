"""The program whose standard streams are closed as it begins: no socket gets the number of one."""
import os

from parts import ServerTest, configuration, serve_words, start, stop
from ports import free_port, is_open, wait_until
from talk import Client

INPUT, OUTPUT, ERRORS = range(3)


class StandardStreams(ServerTest):
    def start_without(self, *closed):
        """The process of a program that a shell started with these streams closed, and its port."""
        port = free_port()
        words = serve_words(port, configuration(only=[self.closed()]), {"threads": 1})
        redirected = " ".join(f"{stream}>&-" for stream in closed)
        process = start(["sh", "-c", f'exec "$@" {redirected}', "sh", *words])
        self.addCleanup(stop, process)
        wait_until(lambda: is_open(port), 20, "the program listens")
        return process, port

    def assert_held(self, *closed):
        """`/dev/null` is open in the place of each, and a client whose request is logged gets its reply alone."""
        process, port = self.start_without(*closed)
        for stream in closed:
            self.assertEqual(os.readlink(f"/proc/{process.pid}/fd/{stream}"), os.devnull)
        with Client(port) as client:
            for _ in range(2):
                self.assertEqual(client.ask(b"get a\r\n"), b"SERVER_ERROR no server\r\n")
            self.assertEqual(client.ask(b"version\r\n"), b"VERSION tkoproxy 1\r\n")
        self.assertIsNone(process.poll())

    def test_no_standard_error(self):
        self.assert_held(ERRORS)

    def test_no_standard_output(self):
        self.assert_held(OUTPUT)

    def test_none_of_them(self):
        self.assert_held(INPUT, OUTPUT, ERRORS)

    def test_streams_that_are_open_stay_what_they_are(self):
        proxy = self.proxy(configuration(only=[self.closed()]))
        for stream, target in ((INPUT, os.devnull), (OUTPUT, "pipe:"), (ERRORS, "/")):
            self.assertTrue(os.readlink(f"/proc/{proxy.process.pid}/fd/{stream}").startswith(target))
