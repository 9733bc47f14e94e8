"""The page for people: what it shows of pools, servers, clients and workers, and what a browser makes of it."""
import html.parser
import json
import re
import threading
import time

from parts import MODE, ServerTest, configuration, only_in
from ports import HOST, free_port, wait_until
from test_health import key_of
from test_metrics import ask, numbers_in

COLUMNS = ["Server", "State", "Since", "Probed by", "In flight", "Sent", "Replies", "Timeouts", "Refused", "Broken",
           "Aborted", "Half took", "99\xa0% took"]
OUTCOMES = {"reply": "Replies", "timeout": "Timeouts", "refused": "Refused", "broken": "Broken", "aborted": "Aborted"}
# Elements that have no end.
VOID = ("meta",)


class Page(html.parser.HTMLParser):
    """The page as a browser reads it: its tables by their captions, the numbers above them, and all its tags."""

    def __init__(self, text):
        super().__init__()
        self.text, self.tags, self.open, self.tables, self.items = text, [], [], [], {}
        self.words, self.label = "", None
        self.feed(text)
        self.close()
        assert self.open == [], f"not closed: {self.open}"

    def handle_starttag(self, tag, attributes):
        self.tags.append((tag, dict(attributes)))
        self.words = ""
        if tag in VOID:
            return
        self.open.append(tag)
        if tag == "table":
            self.tables.append({"caption": None, "columns": [], "rows": []})
        elif tag == "tr" and "tbody" in self.open:
            self.tables[-1]["rows"].append([])

    def handle_data(self, data):
        self.words += data

    def handle_endtag(self, tag):
        last = self.open.pop()
        assert last == tag, f"{tag} ends {last}"
        if tag == "b":
            self.pool = self.words
        elif tag == "caption":
            self.tables[-1]["caption"] = self.words
            self.tables[-1]["pool"] = getattr(self, "pool", None) if "servers in use" in self.words else None
        elif tag in ("th", "td"):
            place = self.tables[-1]["rows"][-1] if "tbody" in self.open else self.tables[-1]["columns"]
            place.append(self.words)
        elif tag == "dt":
            self.label = self.words
        elif tag == "dd":
            self.items[self.label] = self.words
        elif tag == "h1":
            self.heading = self.words
        self.words = ""

    def pools(self):
        """The pools in order: the name, how many servers are in use, and each server's row by the columns."""
        found = []
        for table in self.tables:
            if table["pool"] is not None:
                assert table["columns"] == COLUMNS, table["columns"]
                found.append((table["pool"], table["caption"].removeprefix(": ").removesuffix(" servers in use"),
                              [dict(zip(COLUMNS, row, strict=True)) for row in table["rows"]]))
        return found

    def workers(self):
        return [table["rows"] for table in self.tables if table["pool"] is None]

    def is_refreshed(self):
        return any(tag == "meta" and attributes.get("http-equiv") == "refresh" for tag, attributes in self.tags)


class StatusPage(ServerTest):
    def asked(self, config, **options):
        """A proxy that shows its page, and the port where it does."""
        port = free_port()
        options = {"threads": 1, "first_delay": 300, "greatest_delay": 300, **options}
        return self.proxy(config, metrics=f"{HOST}:{port}", **options), port

    def page(self, port, path="/"):
        status, headers, text = ask(port, path=path)
        self.assertEqual((status, headers["content-type"], headers["cache-control"]),
                         (200, "text/html; charset=utf-8", "no-store"))
        return Page(text)

    def states(self, port):
        return [(pool, use, [(row["Server"], row["State"]) for row in rows])
                for pool, use, rows in self.page(port).pools()]

    def mark(self, proxy, *keys):
        with proxy.client() as client:
            for key in keys:
                client.ask(b"get %s\r\n" % key)

    def test_pools_and_servers_are_in_the_order_of_the_route(self):
        servers = [self.memcached() for _ in range(3)]
        _, port = self.asked(configuration(zebra=servers[:1], ant=servers[1:], mole=servers[1:2]))
        self.assertEqual(self.states(port), [
            ("zebra", "1 of 1", [(servers[0].address, "in use")]),
            ("ant", "2 of 2", [(server.address, "in use") for server in servers[1:]]),
            ("mole", "1 of 1", [(servers[1].address, "in use")])])

    def test_a_server_that_is_down_is_said_to_be_so_until_it_is_back(self):
        server, other = self.memcached(), self.memcached()
        proxy, port = self.asked(configuration(only=[server, other]), threads=3)
        self.mark(proxy, key_of(0, 2), key_of(1, 2))
        server.kill()
        self.mark(proxy, key_of(0, 2))
        wait_until(lambda: b"mark=hard" in proxy.error_text(), 10, "the mark is in the log")
        worker = re.search(rb" marked server=\S+ mark=hard worker=(\d+) ", proxy.error_text())[1].decode()
        (name, use, (row, beside)), = self.page(port).pools()
        self.assertEqual((name, use, row["Server"], row["State"]), ("only", "1 of 2", server.address, "hard mark"))
        # (workers on threads do not tell when they probe)
        probe = r", (next probe (now|in 0\.[1-3] s)|probe under way)" if MODE == "events" else ""
        self.assertRegex(row["Probed by"], rf"\Aworker {worker}{probe}\Z")
        self.assertRegex(row["Since"], r"\Afor \d s\Z")
        with proxy.client() as client:
            line = f"STAT {server.address} hard:{worker}\r\n".encode()
            self.assertIn(line, client.ask(b"stats tko\r\n"))
        self.assertEqual((beside["State"], beside["Since"], beside["Probed by"]), ("in use", "", ""))
        server.start()
        wait_until(lambda: self.states(port)[0][1] == "2 of 2", 10, "the server is in use again")

    def test_a_soft_mark_is_said_in_other_words(self):
        server = self.memcached()
        proxy, port = self.asked(configuration(only=[server]), failures=1, timeout=300)
        server.pause()
        self.mark(proxy, b"a")
        (_, use, (row,)), = self.page(port).pools()
        self.assertEqual((use, row["State"], row["Timeouts"]), ("0 of 1", "soft mark", "1"))
        server.resume()
        wait_until(lambda: self.states(port)[0][1] == "1 of 1", 10, "the server is in use again")

    def probed_by(self, port):
        (_, _, (row,)), = self.page(port).pools()
        return row["Probed by"]

    def next_probe(self, port):
        """In how many seconds the only server is probed next, as the page says it; None where it says none."""
        found = re.fullmatch(r"worker 0, next probe in (\d+\.\d) s", self.probed_by(port))
        return found and float(found[1])

    @only_in("events", "workers on threads do not tell it")
    def test_when_the_next_probe_comes(self):
        proxy, port = self.asked(configuration(only=[self.closed()]), first_delay=20000, greatest_delay=20000)
        self.mark(proxy, b"a")
        wait_until(lambda: self.next_probe(port), 5, "it has a next probe")
        before = self.next_probe(port)
        self.assertTrue(10 < before <= 20, before)
        time.sleep(2)
        self.assertTrue(before - 10 < self.next_probe(port) <= before - 1.5, before)

    @only_in("events", "workers on threads do not tell it")
    def test_while_a_probe_has_no_answer(self):
        server = self.fake(lambda _connection, _request: None)
        proxy, port = self.asked(configuration(only=[server]), failures=1, timeout=1500, first_delay=1500,
                                 greatest_delay=1500)
        self.mark(proxy, b"a")
        wait_until(lambda: self.next_probe(port), 5, "it has a next probe")
        wait_until(lambda: self.probed_by(port) == "worker 0, probe under way", 10, "it is probed")
        wait_until(lambda: self.next_probe(port), 10, "it has a next probe again")

    def test_requests_in_flight(self):
        may_answer = threading.Event()
        slow, other = self.fake(lambda _connection, _request: may_answer.wait(60) and b"END\r\n"), self.memcached()
        proxy, port = self.asked(configuration(near=[slow], far=[other]), timeout=30000)

        def in_flight():
            return [row["In flight"] for _, _, rows in self.page(port).pools() for row in rows]

        is_told = MODE == "events"
        with proxy.client() as client:
            wait_until(lambda: in_flight() == (["0", "0"] if is_told else ["–", "–"]), 5, "there are none")
            client.send(b"get a\r\n")
            wait_until(lambda: in_flight() == (["1", "0"] if is_told else ["–", "–"]), 5, "one is in flight")
            may_answer.set()
            self.assertEqual(client.reply(), b"END\r\n")
        wait_until(lambda: in_flight() == (["0", "0"] if is_told else ["–", "–"]), 5, "it was answered")

    def test_names_are_escaped(self):
        name = """<b>&"'</b><script>"""
        server = self.memcached()
        config = json.dumps({"pools": {name: {"servers": [server.address]}},
                             "route": {"type": "FailoverRoute", "children": [f"PoolRoute|{name}"]}})
        _, port = self.asked(config)
        page = self.page(port)
        self.assertEqual([pool for pool, _, _ in page.pools()], [name])
        self.assertIn("&lt;b&gt;&amp;&quot;&#39;&lt;/b&gt;&lt;script&gt;", page.text)

    def test_nothing_runs_in_it_and_nothing_comes_from_elsewhere(self):
        _, port = self.asked(configuration(only=[self.memcached()]))
        page = self.page(port)
        self.assertTrue(page.text.startswith("<!DOCTYPE html>\n<html lang=\"en\">"))
        for word in ("http:", "https:", "src=", "url(", "@import", "javascript"):
            self.assertNotIn(word, page.text)
        tags = {tag for tag, _ in page.tags}
        self.assertLessEqual(tags, {"html", "head", "meta", "title", "style", "body", "header", "h1", "p", "a", "dl",
                                    "div", "dt", "dd", "table", "caption", "b", "thead", "tbody", "tr", "th", "td"})
        links = [attributes["href"] for tag, attributes in page.tags if tag == "a"]
        self.assertEqual(links, ["/?refresh=0", "/metrics", "/health"])
        self.assertFalse([name for _, attributes in page.tags for name in attributes if name.startswith("on")])
        self.assertEqual({attributes["scope"] for tag, attributes in page.tags if tag == "th"}, {"col", "row"})

    def test_it_is_refreshed_unless_it_is_asked_not_to_be(self):
        _, port = self.asked(configuration(only=[self.memcached()]))
        for path, is_refreshed in (("/", True), ("/?", True), ("/?refresh=1", True), ("/?refresh=0", False)):
            self.assertEqual(self.page(port, path).is_refreshed(), is_refreshed, path)

    def test_head_other_methods_and_other_paths(self):
        _, port = self.asked(configuration(only=[self.memcached()]))
        status, headers, text = ask(port, "HEAD", "/")
        self.assertEqual((status, headers["content-type"], text), (200, "text/html; charset=utf-8", ""))
        self.assertGreater(int(headers["content-length"]), 1000)
        for method in ("POST", "PUT", "DELETE", "OPTIONS"):
            status, headers, text = ask(port, method, "/")
            self.assertEqual((status, headers["allow"], text), (405, "GET, HEAD", ""))
        for path in ("//", "/index.html", "/status", "/favicon.ico"):
            self.assertEqual(ask(port, path=path)[0], 404, path)

    def test_its_numbers_are_those_of_the_metrics(self):
        server, down = self.memcached(), self.closed()
        proxy, port = self.asked(configuration(first=[server, down], second=[server]))
        with proxy.client() as client:
            client.ask(b"set a 0 0 1\r\nx\r\n")
            for key in range(40):
                client.ask(b"get %d\r\n" % key)
            client.ask(b"get a\r\n")
            client.ask(b"bad\r\n")
            time.sleep(0.3)
            page, numbers = self.page(port), numbers_in(ask(port)[2])
            again = self.page(port)
            self.assertEqual(page.items["Clients connected"], "1")
        self.assertEqual([row for _, _, rows in page.pools() for row in rows if row["State"] == "in use"],
                         [row for _, _, rows in again.pools() for row in rows if row["State"] == "in use"])
        whole = {"Requests": "requests_total", "Hits": "get_hits_total", "Misses": "get_misses_total"}
        for label, name in whole.items():
            self.assertEqual(float(page.items[label]), numbers["tkoproxy_" + name], label)
        refused = sum(number for name, number in numbers.items() if name.startswith("tkoproxy_refused_total"))
        self.assertEqual(float(page.items["Refused"]), refused)
        for _, _, rows in page.pools():
            for row in rows:
                label = f'{{server="{row["Server"]}"'
                self.assertEqual(float(row["Sent"]), numbers[f"tkoproxy_server_sends_total{label}}}"])
                flying = numbers.get(f"tkoproxy_server_in_flight{label}}}")
                self.assertEqual(row["In flight"], "–" if flying is None else f"{flying:.0f}")
                for outcome, column in OUTCOMES.items():
                    self.assertEqual(float(row[column]), numbers[
                        f'tkoproxy_server_outcomes_total{label},outcome="{outcome}"}}'], column)
        build = next(name for name in numbers if name.startswith("tkoproxy_build_info"))
        self.assertIn(f'version="{page.heading.removeprefix("tkoproxy ")}"', build)

    def test_the_times_of_the_last_minute(self):
        server = self.memcached()
        proxy, port = self.asked(configuration(only=[server]))
        row = self.page(port).pools()[0][2][0]
        self.assertEqual((row["Half took"], row["99\xa0% took"]), ("", ""))
        with proxy.client() as client:
            for _ in range(300):
                client.ask(b"get a\r\n")
        page = self.page(port)
        row = page.pools()[0][2][0]
        for column in ("Half took", "99\xa0% took"):
            self.assertRegex(row[column], r"\A(at most (\d+|0\.\d+|2\.5) m?s|over 10 s)\Z")
        self.assertRegex(page.items["Requests a second"], r"\A\d+\.\d\Z")

    def test_the_event_driven_workers(self):
        _, port = self.asked(configuration(only=[self.memcached()]), threads=3)
        workers = self.page(port).workers()
        if MODE != "events":
            self.assertEqual(workers, [])
            return
        (rows,) = workers
        self.assertEqual([row[0] for row in rows], ["worker 0", "worker 1", "worker 2"])
        self.assertTrue(all(re.fullmatch(r"\d+", cell) for row in rows for cell in row[1:]))

    def test_a_page_of_256_servers_is_below_a_megabyte(self):
        server = self.memcached()
        names = [f"127.0.{place // 100}.{place % 100 + 1}:{server.port}" for place in range(256)]
        config = json.dumps({"pools": {"many": {"servers": names}},
                             "route": {"type": "FailoverRoute", "children": ["PoolRoute|many"]}})
        _, port = self.asked(config)
        page = self.page(port)
        self.assertLess(len(page.text), 1_000_000)
        self.assertEqual([row["Server"] for row in page.pools()[0][2]], names)
