"""The table of bench/run as bars: a panel for each kind of requests and size of values, in it a group for each number
of connections, and in the group a bar for each target, with a thin line from the least to the greatest of its rounds. In
the place of a target that was disturbed stands that word."""
import svg

LEFT, TOP, RIGHT, BOTTOM = 62, 104, 16, 66
WIDTH, ROW = 1240, 150
GAP_X, GAP_Y = 70, 58
TITLE = "Requests answered a second"


def distinct(values):
    return list(dict.fromkeys(values))


def short(rate):
    """A rate in three or four characters."""
    return f"{rate / 1000:.0f}k" if rate >= 9950 else f"{rate / 1000:.1f}k"


class Panel:
    """Where the bars of one kind and one size stand, with an axis of its own."""

    def __init__(self, left, roof, width, greatest):
        self.left, self.roof, self.width, self.floor = left, roof, width, roof + ROW
        self.greatest = greatest * 1.12

    def at(self, rate):
        return self.floor - ROW * rate / self.greatest

    def axis(self):
        step = svg.round_step(self.greatest)
        for place in range(int(self.greatest // step) + 1):
            y = self.at(place * step)
            yield svg.line(self.left, y, self.left + self.width, y)
            yield svg.text(self.left - 6, y + 3.5, f"{place * step:,}", 10, "end", svg.GREY)

    def group(self, place, count, words, rates):
        """The bars of one number of connections."""
        width = self.width / count
        left = self.left + width * (place + 0.06)
        bar = width * 0.88 / len(rates)
        for number, (name, spread) in enumerate(rates.items()):
            yield from self.bar(left + number * bar, bar, svg.COLOURS[name], spread)
        yield svg.text(self.left + width * (place + 0.5), self.floor + 15, words, 11, "middle", svg.GREY)


    def bar(self, x, width, colour, spread):
        """The bar of a target, or that it was disturbed."""
        middle = x + width / 2
        if spread is None:
            yield svg.text(middle + 3, self.floor - 3, "disturbed", 8, colour=svg.GREY, turned=True)
            return
        least, rate, greatest = spread
        yield svg.rectangle(x + 1, self.at(rate), width - 2, self.floor - self.at(rate), colour)
        if least < greatest:
            yield svg.line(middle, self.at(least), middle, self.at(greatest), svg.INK)
        if width >= 20:
            yield svg.text(middle, self.at(greatest) - 3, short(rate), 10 if width >= 26 else 8, "middle")


def connections(number):
    return f"{number} connection{'' if number == 1 else 's'}"


def panel(rates, kind, size, left, roof, width):
    """`rates` are those of this kind and size, by the number of connections."""
    spreads = [spread for row in rates.values() for spread in row.values() if spread]
    made = Panel(left, roof, width, max((greatest for _, _, greatest in spreads), default=1))
    yield svg.text(left, roof - 8, f"{kind}, values of {size:,} bytes", 12, bold=True)
    yield from made.axis()
    for place, (number, row) in enumerate(rates.items()):
        words = connections(number) if len(rates) <= 3 else f"{number}"
        yield from made.group(place, len(rates), words, row)
    if len(rates) > 3:
        yield svg.text(left + width, made.floor + 30, "connections", 11, "end", svg.GREY)
    yield svg.line(left, made.floor, left + width, made.floor, svg.INK)


def legend(names):
    x = 16
    for name in names:
        words = "memcached itself" if name == "memcached" else name
        yield svg.rectangle(x, 46, 12, 12, svg.COLOURS[name])
        yield svg.text(x + 18, 56, words, 12)
        x += 45 + 7.5 * len(words)


def names_in(rates):
    """The targets of all cases, in the order of the longest row, and then those that it lacks."""
    return distinct(name for row in sorted(rates.values(), key=len, reverse=True) for name in row)


def drawn(rates, notes):
    """The SVG of the requests a second by (kind, size, connections) and the name of the target: the least, the median and
    the greatest of its rounds, or None where it was disturbed."""
    kinds, sizes = distinct(case[0] for case in rates), distinct(case[1] for case in rates)
    width = (WIDTH - LEFT - RIGHT - GAP_X * (len(sizes) - 1)) / len(sizes)
    height = TOP + len(kinds) * (ROW + GAP_Y) - GAP_Y + BOTTOM
    shapes = [svg.text(16, 28, TITLE, 17, bold=True), *legend(names_in(rates))]
    for row, kind in enumerate(kinds):
        for column, size in enumerate(sizes):
            own = {case[2]: rate for case, rate in rates.items() if case[:2] == (kind, size)}
            if own:
                shapes += panel(own, kind, size, LEFT + column * (width + GAP_X), TOP + row * (ROW + GAP_Y), width)
    for place, note in enumerate(notes):
        shapes.append(svg.text(16, height - 24 + 14 * place, note, 10, colour=svg.GREY))
    return svg.document(WIDTH, height, TITLE, shapes)
