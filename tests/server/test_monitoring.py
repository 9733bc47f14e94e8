"""The alerting rules and the dashboard of packaging/ against the page of the running program: each metric and label
that they name is on the page, and each one of the page is in the dashboard."""
import http.client
import json
import os
import re
import shutil
import subprocess
import tempfile
import time
import unittest
import urllib.parse

import promql
from parts import ServerTest, configuration, only_in, start, stop
from ports import HOST, free_port, wait_until

HERE = os.path.dirname(os.path.abspath(__file__))
SAMPLE = re.compile(r"^([a-z_]+)(?:\{(.*)\})? \S+$", re.M)
# What a scrape adds to each metric, and the one that it makes itself.
OF_SCRAPE = {"job", "instance"}
OF_PROMETHEUS = {"up": {}}
# Metrics of the page that the dashboard leaves out, each with the reason.
LEFT_OUT = {}
PANELS = {"row", "stat", "timeseries", "table", "state-timeline"}
LINK = re.compile(r"docs/[\w-]+\.md#[\w-]+")


def get(port, path):
    connection = http.client.HTTPConnection(HOST, port, timeout=10)
    try:
        connection.request("GET", path)
        return connection.getresponse().read().decode()
    finally:
        connection.close()


def metrics_of(page):
    """The metrics of a page: by name the labels, and by label its values."""
    metrics = {}
    for name, labels in SAMPLE.findall(page):
        of_metric = metrics.setdefault(name, {})
        for label, value in re.findall(r'(\w+)="([^"]*)"', labels):
            of_metric.setdefault(label, set()).add(value)
    return metrics


def unmatched(metric, matchers):
    """The matchers that this metric's labels and values never meet, as far as they name values."""
    for label, operator, value in matchers:
        if label not in metric:
            if label not in OF_SCRAPE:
                yield f"there is no label {label}"
        elif not value.startswith("$"):
            wanted = value.split("|") if operator in ("=~", "!~") else [value]
            yield from (f'{label} is never "{it}"' for it in wanted if it not in metric[label])


def faults_of(query, metrics):
    """What a query names and the page does not have, or what its result has not that shows it."""
    for name, matchers in query.selectors:
        if name not in metrics:
            yield f"{query.where}: there is no metric {name}"
        else:
            yield from (f"{query.where}: {name}: {fault}" for fault in unmatched(metrics[name], matchers))
    there = OF_SCRAPE.union(*(metrics.get(name, {}) for name in query.names()))
    kept = promql.groupings(query.expression, "by") or there
    yield from (f"{query.where}: there is no label {label}" for label in query.labels() - there)
    yield from (f"{query.where}: the result has no label {label}" for label in query.shown - kept)


def anchors(name):
    """The anchors of a document's headings, as git's web pages make them."""
    with open(os.path.join(promql.TOP, name), encoding="utf-8") as file:
        headings = re.findall(r"^#+ (.*)$", file.read(), re.M)
    return {re.sub(r"[^\w\- ]", "", heading.lower()).replace(" ", "-") for heading in headings}


def overlap(one, other):
    """Whether two places of panels have a field of the grid in common."""
    return (one["x"] < other["x"] + other["w"] and other["x"] < one["x"] + one["w"]
            and one["y"] < other["y"] + other["h"] and other["y"] < one["y"] + one["h"])


class Watched(ServerTest):
    """A proxy that has metrics, a server that answers and one that it has marked."""

    def watched(self):
        """The port of the metrics."""
        port, server = free_port(), self.fake(lambda _connection, _request: b"END\r\n")
        proxy = self.proxy(configuration(near=[self.closed()], far=[server]), metrics=f"{HOST}:{port}", threads=2)
        with proxy.client() as client:
            self.assertEqual(client.ask(b"get a\r\n"), b"END\r\n")
        return port


class Names(Watched):
    def setUp(self):
        self.metrics = metrics_of(get(self.watched(), "/metrics"))
        self.known = self.metrics | OF_PROMETHEUS

    @only_in("events", "workers on threads have no metrics of their own")
    def test_what_the_alerts_name_is_on_the_page(self):
        queries = [alert.query() for alert in promql.alerts()]
        self.assertGreater(len(queries), 10)
        self.assertEqual([fault for query in queries for fault in faults_of(query, self.known)], [])

    @only_in("events", "workers on threads have no metrics of their own")
    def test_what_the_dashboard_names_is_on_the_page(self):
        queries = [*promql.queries_of_dashboard()]
        self.assertEqual([fault for query in queries for fault in faults_of(query, self.known)], [])

    def test_what_is_on_the_page_is_in_the_dashboard(self):
        queries = [*promql.queries_of_dashboard()]
        for name, labels in self.metrics.items():
            named = [query.labels() for query in queries if name in query.names()]
            self.assertEqual(bool(named), name not in LEFT_OUT, f"{name} in the dashboard")
            self.assertLessEqual(set(labels), set().union(*named), f"the labels of {name} in the dashboard")
        self.assertLessEqual(set(LEFT_OUT), set(self.metrics))


class Alerts(unittest.TestCase):
    def test_each_says_what_to_do_and_where_that_is_written(self):
        names = [alert.name for alert in promql.alerts()]
        self.assertEqual(len(names), len(set(names)))
        for alert in promql.alerts():
            self.assertIn(alert.fields["severity"], ("critical", "warning"), alert.name)
            links = LINK.findall(alert.fields["description"])
            self.assertTrue(links, alert.name)
            for name, anchor in (link.split("#") for link in links):
                self.assertIn(anchor, anchors(name), alert.name)

    def test_the_document_has_a_row_for_each(self):
        with open(os.path.join(promql.TOP, "docs", "monitoring.md"), encoding="utf-8") as file:
            rows = re.findall(r"^\| `(Tkoproxy\w+)` \| (\w+) \|", file.read(), re.M)
        self.assertEqual(rows, [(alert.name, alert.fields["severity"]) for alert in promql.alerts()])

    def test_each_fires_in_a_case(self):
        with open(os.path.join(HERE, "alerts.yml"), encoding="utf-8") as file:
            fired = set(re.findall(r'alertname="(\w+)"', file.read()))
        self.assertEqual(fired, {alert.name for alert in promql.alerts()})

    @unittest.skipUnless(shutil.which("promtool"), "promtool of the package prometheus is not installed")
    def test_promtool_finds_no_fault_and_they_fire_when_they_should(self):
        for words in (["check", "rules", promql.RULES], ["test", "rules", os.path.join(HERE, "alerts.yml")]):
            done = subprocess.run(["promtool", *words], capture_output=True, text=True, timeout=60, check=False)
            self.assertEqual((done.returncode, done.stderr), (0, ""), done.stdout)
            self.assertIn("SUCCESS", done.stdout)


class Dashboard(unittest.TestCase):
    def test_it_has_nothing_of_one_machine(self):
        board = promql.dashboard()
        self.assertEqual((board["uid"], "id" in board), ("tkoproxy", False))
        for part in [*board["panels"], *sum((it.get("targets", []) for it in board["panels"]), [])]:
            if part.get("type") != "row":
                self.assertEqual(part["datasource"], {"type": "prometheus", "uid": "${DS_PROMETHEUS}"})
        variables = {it["name"]: it["type"] for it in board["templating"]["list"]}
        self.assertEqual(variables["DS_PROMETHEUS"], "datasource")

    def test_its_panels_stand_in_rows_beside_each_other(self):
        panels = promql.dashboard()["panels"]
        self.assertLessEqual({panel["type"] for panel in panels}, PANELS)
        self.assertEqual([panel["id"] for panel in panels], [*range(1, len(panels) + 1)])
        places = [panel["gridPos"] for panel in panels]
        self.assertEqual([(one, other) for place, one in enumerate(places) for other in places[:place]
                          if overlap(one, other)], [])
        for panel in panels:
            self.assertLessEqual(panel["gridPos"]["x"] + panel["gridPos"]["w"], 24, panel["title"])
            self.assertEqual("description" in panel, panel["type"] != "row", panel["title"])

    def test_each_expression_asks_for_the_chosen_proxies(self):
        for query in promql.queries_of_dashboard():
            for name, matchers in query.selectors:
                if query.where not in ("$job", "$instance"):
                    self.assertIn(("instance", "=~", "$instance"), matchers, f"{query.where}: {name}")
                    self.assertIn(("job", "=~", "$job"), matchers, f"{query.where}: {name}")


@unittest.skipUnless(shutil.which("prometheus"), "prometheus is not installed")
class OverPrometheus(Watched):
    """Prometheus itself scrapes the proxy, by these rules, and answers what the dashboard asks."""

    def prometheus(self, port):
        """Its own port. It scrapes the metrics at this one each second."""
        folder = tempfile.TemporaryDirectory()
        self.addCleanup(folder.cleanup)
        scrapes = [{"job_name": "tkoproxy", "static_configs": [{"targets": [f"{HOST}:{port}"]}]}]
        with open(os.path.join(folder.name, "prometheus.yml"), "w", encoding="ascii") as file:
            # (each JSON is YAML)
            json.dump({"global": {"scrape_interval": "1s", "evaluation_interval": "1s"},
                       "rule_files": [os.path.realpath(promql.RULES)], "scrape_configs": scrapes}, file)
        own = free_port()
        process = start(["prometheus", f"--config.file={file.name}", f"--storage.tsdb.path={folder.name}/data",
                         f"--web.listen-address={HOST}:{own}", "--log.level=error"], stderr=subprocess.DEVNULL)
        self.addCleanup(stop, process)
        return own

    def asked(self, port, what, **words):
        """What its API answers, or None where it does not yet."""
        try:
            answer = json.loads(get(port, f"/api/v1/{what}?{urllib.parse.urlencode(words)}"))
        except (OSError, ValueError):
            return None
        self.assertEqual(answer["status"], "success", words)
        return answer["data"]

    def states(self, port):
        """Each alert by its name: the health of its rule and its state."""
        groups = (self.asked(port, "rules") or {"groups": []})["groups"]
        return {rule["name"]: (rule["health"], rule["state"]) for group in groups for rule in group["rules"]}

    @only_in("events", "workers on threads have no metrics of their own")
    def test_each_panel_shows_something_and_each_rule_is_evaluated(self):
        port = self.prometheus(self.watched())
        seen = {"query": "count_over_time(up[1m]) >= 4"}
        wait_until(lambda: (self.asked(port, "query", **seen) or {}).get("result"), 120, "the proxy is scraped")
        for query in promql.queries_of_dashboard():
            data = self.asked(port, "query", query=promql.as_chosen(query.expression), time=time.time())
            self.assertTrue(data["result"], query.where)
            for series in data["result"]:
                self.assertLessEqual(query.shown, set(series["metric"]), query.where)
        wanted = {alert.name: ("ok", "inactive") for alert in promql.alerts()}
        wanted["TkoproxyServerHardMarked"] = ("ok", "pending")
        wait_until(lambda: self.states(port) == wanted, 60, "each rule is evaluated")
