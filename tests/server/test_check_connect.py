"""`check --connect`: each server of a configuration is asked for its version, all at once."""
import subprocess
import tempfile
import threading

from parts import PROGRAM, ServerTest, configuration, only_in
from ports import HOST, free_port
from refusing import RefusingTest

NOTE = b"note: no server may hold a value above 1 MiB (memcached -I above 1m): it would be marked\n"
# More than a busy machine needs for an answer, where one comes.
LONG = 20000
SHORT = 300


def check(config, timeout, *words, **options):
    """Status, standard output and standard error."""
    run = subprocess.run([PROGRAM, "check", "--config", config, "--connect", "--timeout", str(timeout), *words],
                         stdin=subprocess.DEVNULL, stdout=subprocess.PIPE, stderr=subprocess.PIPE, timeout=60,
                         check=False, **options)
    return run.returncode, run.stdout, run.stderr


class Together:
    """Servers that answer only once all of them have been asked."""

    def __init__(self, count):
        self.asked = threading.Barrier(count, timeout=30)

    def answer(self, _connection, _request):
        self.asked.wait()
        return b"VERSION together\r\n"


@only_in("events", "check has no mode")
class CheckConnect(ServerTest):
    def came(self, servers, timeout=LONG):
        """The status, and what was printed of these servers after all else: of each what follows its address, and the
        totals."""
        config = configuration(only=servers)
        status, output, errors = check(config, timeout)
        self.assertEqual(errors, b"")
        alone = subprocess.run([PROGRAM, "check", "--config", config], stdin=subprocess.DEVNULL, stdout=subprocess.PIPE,
                               timeout=60, check=True).stdout
        self.assertTrue(alone.endswith(NOTE))
        self.assertEqual(output[:len(alone)], alone)
        *lines, totals = output[len(alone):].decode("ascii").splitlines()
        words = [line.split(" ", 3) for line in lines]
        self.assertEqual([tuple(it[:3]) for it in words],
                         [("server", str(number), server.address) for number, server in enumerate(servers)])
        return status, [it[3] for it in words], totals

    def answers(self, *answer):
        """A server for each of these bytes, with which it answers."""
        return [self.fake(lambda _connection, _request, text=text: text) for text in answer]

    def test_one_of_three_memcacheds_is_stopped(self):
        servers = [self.memcached() for _ in range(3)]
        status, came, totals = self.came(servers)
        self.assertEqual((status, totals), (0, "total server 3 version 3 answer 0 refused 0 timeout 0 broken 0"))
        for it in came:
            self.assertRegex(it, r"\Aversion \d+\.\d+")
        servers[1].kill()
        status, came, totals = self.came(servers)
        self.assertEqual((status, came[1]), (3, "refused"))
        self.assertEqual(totals, "total server 3 version 2 answer 0 refused 1 timeout 0 broken 0")
        self.assertEqual(came[0], came[2])

    def test_what_came_is_told_apart(self):
        silent = self.fake(lambda _connection, _request: None)
        servers = [self.closed(), self.deaf(), silent, *self.answers(b"", b"VERSION 1.6.18\r\n")]
        status, came, totals = self.came(servers, SHORT)
        self.assertEqual(status, 3)
        self.assertEqual(came, ["refused", "timeout", "timeout", "broken", "version 1.6.18"])
        self.assertEqual(totals, "total server 5 version 1 answer 0 refused 1 timeout 2 broken 1")
        self.assertEqual(silent.requests, [b"version\r\n"])

    def test_another_answer_is_printed(self):
        long = b"x" * 79 + b"\x1b[2J" + b"y" * 5000
        servers = self.answers(b"ERROR\r\n", b"SERVER_ERROR out of order\r\n",
                               b"HTTP/1.1 400 Bad Request\r\nServer: a\r\n", b"-ERR unknown command 'version'\r\n",
                               b"\x00\\\xff\n", long + b"\r\n", b"VERSION \r\n", b"\r\n")
        status, came, totals = self.came(servers)
        self.assertEqual(status, 3)
        self.assertEqual(came, ["answer ERROR", "answer SERVER_ERROR out of order", "answer HTTP/1.1 400 Bad Request",
                                "answer -ERR unknown command 'version'", "answer \\x00\\x5c\\xff",
                                "answer " + "x" * 79 + "\\x1b..", "answer VERSION ", "answer "])
        self.assertEqual(totals, "total server 8 version 0 answer 8 refused 0 timeout 0 broken 0")

    def test_a_version_that_is_no_text_is_shown_by_printable_bytes(self):
        status, came, _ = self.came(self.answers(b"VERSION 1\x1b[31m\xe9\r\n"))
        self.assertEqual((status, came), (0, ["version 1\\x1b[31m\\xe9"]))

    def test_an_answer_may_come_in_pieces(self):
        def pieces(connection, _request):
            for byte in b"VERSION 7\r":
                connection.sendall(bytes([byte]))
            return b"\n"
        self.assertEqual(self.came([self.fake(pieces)])[:2], (0, ["version 7"]))

    def test_an_answer_that_has_no_end(self):
        def endless(connection, _request):
            while True:
                connection.sendall(b"z" * 65536)
        cut = self.fake(lambda connection, _request: connection.sendall(b"VERSION 1") or b"")
        half = self.fake(lambda connection, _request: connection.sendall(b"VERSION 1"))
        status, came, _ = self.came([self.fake(endless), cut], SHORT * 10)
        self.assertEqual((status, came), (3, ["answer " + "z" * 80 + "..", "broken"]))
        self.assertEqual(self.came([half], SHORT)[:2], (3, ["timeout"]))

    def test_all_are_asked_at_once(self):
        together = Together(40)
        servers = [self.fake(together.answer) for _ in range(40)]
        status, came, _ = self.came(servers)
        self.assertEqual((status, set(came)), (0, {"version together"}))

    def test_as_many_as_a_configuration_may_have(self):
        together = Together(256)
        servers = [self.fake(together.answer) for _ in range(256)]
        status, came, totals = self.came(servers)
        self.assertEqual((status, set(came)), (0, {"version together"}))
        self.assertEqual(totals, "total server 256 version 256 answer 0 refused 0 timeout 0 broken 0")

    def test_a_server_of_several_pools_is_asked_once(self):
        near, far = self.answers(b"VERSION near\r\n", b"VERSION far\r\n")
        status, output, errors = check(configuration(a=[near, far, near], b=[far, near]), LONG)
        self.assertEqual((status, errors), (0, b""))
        self.assertEqual(output[output.index(NOTE) + len(NOTE):].decode(), (
            f"server 0 {near.address} version near\nserver 1 {far.address} version far\n"
            "total server 2 version 2 answer 0 refused 0 timeout 0 broken 0\n"))
        self.assertEqual([len(it.requests) for it in (near, far)], [1, 1])

    def test_names_are_looked_up(self):
        server, = self.answers(b"VERSION named\r\n")
        named, unknown = f"localhost:{server.address.split(':')[1]}", "no-such-host.invalid:11211"
        config = configuration(only=[server]).replace(server.address, named)
        status, output, _ = check(config, LONG)
        self.assertEqual((status, output.splitlines()[-2].decode()), (0, f"server 0 {named} version named"))
        status, output, _ = check(config.replace(named, unknown), LONG)
        self.assertEqual((status, output.splitlines()[-2].decode()), (3, f"server 0 {unknown} refused"))

    def test_the_file_of_a_configuration_and_its_keys(self):
        server, = self.answers(b"VERSION 1\r\n")
        with tempfile.NamedTemporaryFile("w", encoding="ascii") as file:
            file.write(configuration(only=[server]))
            file.flush()
            run = subprocess.run([PROGRAM, "check", "--config-file", file.name, "--key", "a", "--keys-from", "-",
                                  "--connect"], input=b"a\nb\n", stdout=subprocess.PIPE, timeout=60, check=False)
        lines = run.stdout.decode().splitlines()
        self.assertEqual((run.returncode, lines[-4:]), (0, [
            "keys 2 refused 0", 'keys "only" 2', f"server 0 {server.address} version 1",
            "total server 1 version 1 answer 0 refused 0 timeout 0 broken 0"]))

    def test_no_server_is_asked_where_the_check_fails(self):
        server, = self.answers(b"VERSION 1\r\n")
        config = configuration(only=[server])
        self.assertEqual(check(config.replace("PoolRoute|only", "PoolRoute|other"), LONG), (
            1, b"", b'config: the route names pool "other", which is not there\nfault: config no-such-pool\n'))
        status, output, errors = check(config, LONG, "--keys-from", "/no/such/file")
        self.assertEqual((status, output, errors.splitlines()[-1]), (1, b"", b"fault: keys file"))
        self.assertEqual(subprocess.run([PROGRAM, "check", "--config", config], stdout=subprocess.DEVNULL, timeout=60,
                                        check=False).returncode, 0)
        self.assertEqual(server.requests, [])


@only_in("events", "check has no mode")
class CheckConnectRefused(RefusingTest):
    def words(self, *servers):
        return ["check", "--config", configuration(only=servers), "--connect", "--timeout", str(SHORT)]

    def test_where_the_system_gives_no_thread_servers_are_asked_in_turn(self):
        servers = [self.fake(lambda _connection, _request: b"VERSION 1\r\n") for _ in range(3)]
        for call in (1, 2):
            with self.subTest(thread=call):
                (status, output, errors), refused = self.run_refused(
                    self.words(*servers), b"", {"REFUSED_THREAD": call})
                self.assertTrue(refused)
                self.assertEqual((status, errors, output.count(b" version 1\n")), (0, b"", 3))

    def test_where_it_gives_none_for_look_ups(self):
        class Named:
            address = f"localhost:{free_port()}"
        (status, _, errors), refused = self.run_refused(self.words(Named), b"", {"REFUSED_THREAD": 1})
        self.assertTrue(refused)
        self.assertEqual((status, errors), (1, b"fault: memory\n"))

    def test_where_memory_runs_out(self):
        server = self.fake(lambda _connection, _request: b"VERSION 1\r\n")
        for call in (1, 20, 40, 80, 160):
            with self.subTest(call=call):
                (status, _, errors), refused = self.run_refused(self.words(server), b"", {"REFUSED_CALL": call})
                self.assertEqual((status, errors), (1, b"fault: memory\n") if refused and status else (0, b""))

    def test_an_output_that_fails(self):
        server = self.fake(lambda _connection, _request: b"VERSION 1\r\n")
        for call in (1, 2):
            with self.subTest(write=call):
                (status, _, errors), refused = self.run_refused(self.words(server), b"", {"REFUSED_WRITE": call})
                self.assertTrue(refused)
                self.assertEqual((status, errors), (1, b"fault: write\n"))
