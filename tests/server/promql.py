"""What the alerting rules and the dashboard of packaging/ ask of the metrics: expressions, and the names in these.

It knows the forms of PromQL that the two files use, and no others: promtool says whether an expression is one."""
import json
import os
import re

TOP = os.path.join(os.path.dirname(os.path.abspath(__file__)), "..", "..")
RULES = os.path.join(TOP, "packaging", "prometheus-alerts.yml")
DASHBOARD = os.path.join(TOP, "packaging", "grafana-dashboard.json")
KEYWORDS = {"and", "or", "unless", "bool", "offset"}
GROUPING = re.compile(r"\b(by|without|on|ignoring|group_left|group_right)\s*\(([^)]*)\)")
NAME = re.compile(r"\b([a-zA-Z_:][\w:]*)\b(?!\s*\()(?:\s*\{([^}]*)\})?")
MATCHER = re.compile(r'(\w+)\s*(=~|!~|!=|=)\s*"([^"]*)"')


def groupings(expression, *words):
    """The labels of each grouping by one of these words."""
    return {label for word, labels in GROUPING.findall(expression) if word in words
            for label in re.findall(r"\w+", labels)}


def selectors(expression):
    """Each metric that is named, with its matchers as (label, operator, value)."""
    bare = re.sub(r"\[[^\]]*\]", "", GROUPING.sub("", expression))
    return [(name, MATCHER.findall(matchers)) for name, matchers in NAME.findall(bare) if name not in KEYWORDS]


class Query:
    """An expression, and the labels that what shows its result names: those of a legend, or of an annotation."""

    def __init__(self, where, expression, shown):
        self.where, self.expression, self.shown = where, expression, set(shown)
        self.selectors = selectors(expression)

    def names(self):
        return {name for name, _ in self.selectors}

    def labels(self):
        """Every label that it names."""
        matched = {label for _, matchers in self.selectors for label, _, _ in matchers}
        return matched | groupings(self.expression, *("by", "without", "on", "ignoring")) | self.shown


class Alert:
    """An alerting rule: its name, and its fields by their names, a text of several lines as one line."""

    def __init__(self, text):
        lines = text.split("\n")
        self.name, self.fields = lines[0], {}
        for line in lines[1:]:
            if field := re.match(r" +(\w+):(?: +(.*))?$", line):
                name, value = field.groups()
                self.fields[name] = "" if value in (None, ">-") else value
            elif line.strip() and not line.strip().startswith("#"):
                self.fields[name] = f"{self.fields[name]} {line.strip()}".strip()

    def query(self):
        told = self.fields["summary"] + self.fields["description"]
        return Query(self.name, self.fields["expr"], re.findall(r"\$labels\.(\w+)", told))


def alerts():
    with open(RULES, encoding="utf-8") as file:
        return [Alert(text) for text in re.split(r"^ +- alert: ", file.read(), flags=re.M)[1:]]


def dashboard():
    with open(DASHBOARD, encoding="utf-8") as file:
        return json.load(file)


def queries_of_dashboard():
    board = dashboard()
    for panel in board["panels"]:
        for target in panel.get("targets", []):
            yield Query(panel["title"], target["expr"], re.findall(r"\{\{(\w+)\}\}", target["legendFormat"]))
    for variable in board["templating"]["list"]:
        if variable["type"] == "query":
            named = re.fullmatch(r"label_values\((.*), (\w+)\)", variable["query"]["query"])
            yield Query("$" + variable["name"], named[1], [named[2]])


def as_chosen(expression):
    """An expression of the dashboard where all of each variable is chosen."""
    ranges = expression.replace("$__rate_interval", "1m").replace("$__range", "1m")
    return re.sub(r"\$\w+", ".*", ranges)
