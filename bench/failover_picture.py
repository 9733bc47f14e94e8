"""The picture of bench/failover: a column for each proxy, and a row for each of three measures, over time."""
import collections
import math

import svg
from pairs import FAILURES, PHASES, RETRY, TIMEOUT

LEFT, TOP, RIGHT, BOTTOM = 72, 142, 16, 92
WIDTH, HEIGHT = 960, 610
GAP_X, GAP_Y = 18, 30
TITLE = "What clients see while one of two servers fails"
TITLES = {"nutcracker": "nutcracker (twemproxy)"}
# The least and the greatest time of the third row, in ms.
LEAST, GREATEST = 0.1, 3000


# A measure: the label of its axis; what a proxy's slices have of it; which share of the axis a value takes; the values
# and texts of its ticks; what is written above a proxy's panel.
Row = collections.namedtuple("Row", ["label", "values", "share", "ticks", "summary"])


def linear(label, values, greatest, summary):
    step = svg.round_step(greatest)
    ticks = [(place * step, f"{place * step:,}") for place in range(int(greatest // step) + 1)]
    return Row(label, values, lambda value: value / greatest / 1.05, ticks, summary)


def requests_row(given):
    pace = given.connections * given.rate

    def summary(slices):
        answered = sum(one.answered for one in slices)
        return f"{100 * answered / (pace * given.seconds):.1f} % of {pace:,.0f} requests a second"

    def values(slices):
        return [one.answered * 1000 / given.slice for one in slices]

    return linear("requests a second", values, pace, summary)


def errors_row(measured, given):
    def values(slices):
        return [one.errors * 1000 / given.slice for one in slices]

    def summary(slices):
        count = sum(one.errors for one in slices)
        return f"{count:,} error{'' if count == 1 else 's'}"

    greatest = max(max(values(slices)) for slices in measured.values())
    return linear("errors a second", values, max(greatest, 4000 / given.slice), summary)


def slowest_row():
    def values(slices):
        return [one.slowest / 1000 for one in slices]

    def share(value):
        return math.log(max(1, value / LEAST)) / math.log(GREATEST / LEAST)

    ticks = [(value, f"{value:,}") for value in (0.1, 1, 10, 100, 1000)]
    return Row("slowest request, ms", values, share, ticks, lambda slices: f"slowest {max(values(slices)):,.0f} ms")


class Box:
    """The heights between which a row is drawn."""

    def __init__(self, place, count):
        self.height = (HEIGHT - TOP - BOTTOM - GAP_Y * (count - 1)) / count
        self.roof = TOP + place * (self.height + GAP_Y)
        self.floor = self.roof + self.height

    def at(self, share):
        return self.floor - self.height * min(1, share)


class Column:
    """Where the times of one proxy are drawn."""

    def __init__(self, place, count, given):
        self.width = (WIDTH - LEFT - RIGHT - GAP_X * (count - 1)) / count
        self.left = LEFT + place * (self.width + GAP_X)
        self.right = self.left + self.width
        self.given = given

    def at(self, seconds):
        return self.left + self.width * seconds / self.given.seconds

    def begin(self, place):
        """Of the phase of this number."""
        return self.at(place * self.given.phase)


def ground(column, box):
    """Shaded while the first server does not answer."""
    for place, phase in enumerate(PHASES):
        if not phase.answers:
            width = column.begin(place + 1) - column.begin(place)
            yield svg.rectangle(column.begin(place), box.roof, width, box.height, svg.SHADE)


def panel(column, box, row, slices, colour):
    yield from ground(column, box)
    for tick, _ in row.ticks:
        yield svg.line(column.left, box.at(row.share(tick)), column.right, box.at(row.share(tick)))
    xs = [column.at(place * column.given.slice / 1000) for place in range(len(slices) + 1)]
    yield svg.steps(xs, [box.at(row.share(value)) for value in row.values(slices)], box.floor, colour)
    for place in range(1, len(PHASES)):
        yield svg.line(column.begin(place), box.roof, column.begin(place), box.floor, svg.GREY, dashes="3 3")
    yield svg.line(column.left, box.floor, column.right, box.floor, svg.INK)
    # The names of the moments are between the first panel and its summary.
    yield svg.text(column.left, box.roof - (24 if box.roof == TOP else 6), row.summary(slices))


def heading(column, name):
    yield svg.text(column.left, TOP - 44, TITLES.get(name, name), 14, colour=svg.COLOURS[name], bold=True)
    for place, phase in enumerate(PHASES[1:], 1):
        yield svg.text(column.begin(place), TOP - 6, phase.moment, 10, "middle", svg.GREY)


def triangle(x, y):
    return svg.polygon([(x, y + 2), (x - 4, y + 9), (x + 4, y + 9)], svg.INK)


def returns(column, name, used, y):
    """A triangle where the first server was asked again."""
    for place, phase in enumerate(PHASES):
        if name in used.get(phase.name, {}):
            yield triangle(column.at(place * column.given.phase + used[phase.name][name]), y)


def time_axis(column, floor):
    for place in range(len(PHASES) + 1):
        yield svg.text(column.begin(place), floor + 16, f"{place * column.given.phase:g}", 10, "middle", svg.GREY)
    yield svg.text((column.left + column.right) / 2, floor + 32, "seconds", 11, "middle", svg.GREY)


def vertical_axis(row, box):
    yield svg.text(16, (box.floor + box.roof) / 2, row.label, 11, "middle", turned=True)
    for tick, words in row.ticks:
        yield svg.text(LEFT - 6, box.at(row.share(tick)) + 3.5, words, 10, "end", svg.GREY)


def frame(notes, given):
    yield svg.text(16, 28, TITLE, 17, bold=True)
    yield svg.text(16, 48, f"The first of two memcached servers of each proxy is killed, started again, stopped "
                           f"(SIGSTOP) and resumed. {given.connections} connections, each at a pace of", 11,
                   colour=svg.GREY)
    yield svg.text(16, 63, f"{given.rate:g} requests a second. Time limit {TIMEOUT} ms, {FAILURES} failures, "
                           f"tried again after {RETRY / 1000:g} s. Shaded: the server does not answer.",
                   11, colour=svg.GREY)
    yield triangle(20, HEIGHT - 47)
    yield svg.text(30, HEIGHT - 38, "the first server is asked again", 11, colour=svg.GREY)
    for place, note in enumerate(notes):
        yield svg.text(16, HEIGHT - 22 + 14 * place, note, 10, colour=svg.GREY)


def drawn(measured, used, given, notes):
    """The SVG. `measured` has the slices of each proxy, and `used` when each asked its first server again."""
    shapes = list(frame(notes, given))
    rows = [requests_row(given), errors_row(measured, given), slowest_row()]
    boxes = [Box(place, len(rows)) for place in range(len(rows))]
    for row, box in zip(rows, boxes):
        shapes += vertical_axis(row, box)
    for place, (name, slices) in enumerate(measured.items()):
        column = Column(place, len(measured), given)
        shapes += heading(column, name)
        for row, box in zip(rows, boxes):
            shapes += panel(column, box, row, slices, svg.COLOURS[name])
        shapes += returns(column, name, used, boxes[0].floor)
        shapes += time_axis(column, boxes[-1].floor)
    return svg.document(WIDTH, HEIGHT, TITLE, shapes)
