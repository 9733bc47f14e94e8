"""Shapes of an SVG, as text. Distances are pixels from the upper left corner."""
from html import escape

INK, GREY, GRID, SHADE = "#222222", "#555555", "#dddddd", "#f1e4e4"
COLOURS = {"memcached": "#7f7f7f", "tkoproxy": "#0072b2", "nutcracker": "#d55e00", "haproxy": "#009e73",
           "before": "#cc79a7", "tkoproxy threads": "#56b4e9", "tkoproxy keys at once": "#004b75",
           "tkoproxy keys grouped": "#f0b400", "tkoproxy spread": "#8a6fc0"}


def number(value):
    """With at most one decimal place."""
    return f"{value:.1f}".removesuffix(".0")


def text(x, y, words, size=11, anchor="start", colour=INK, bold=False, turned=False):
    extra = ' font-weight="bold"' if bold else ""
    if turned:
        extra += f' transform="rotate(-90 {number(x)} {number(y)})"'
    return (f'<text x="{number(x)}" y="{number(y)}" font-size="{size}" text-anchor="{anchor}" fill="{colour}"{extra}>'
            f'{escape(words)}</text>')


def line(x, y, other_x, other_y, colour=GRID, width=1.0, dashes=""):
    extra = f' stroke-dasharray="{dashes}"' if dashes else ""
    return (f'<line x1="{number(x)}" y1="{number(y)}" x2="{number(other_x)}" y2="{number(other_y)}" '
            f'stroke="{colour}" stroke-width="{width}"{extra}/>')


def rectangle(x, y, width, height, colour):
    return (f'<rect x="{number(x)}" y="{number(y)}" width="{number(width)}" height="{number(height)}" '
            f'fill="{colour}"/>')


def polygon(points, colour):
    places = " ".join(f"{number(x)},{number(y)}" for x, y in points)
    return f'<polygon points="{places}" fill="{colour}"/>'


def steps(xs, ys, floor, colour):
    """A filled shape from the floor, as high as each of the ys from its x to the next one."""
    parts = [f"M{number(xs[0])} {number(floor)}"]
    for y, to in zip(ys, xs[1:]):
        parts.append(f"V{number(y)}H{number(to)}")
    return f'<path d="{"".join(parts)}V{number(floor)}Z" fill="{colour}"/>'


def document(width, height, title, shapes):
    """A white ground makes it readable on a dark page too."""
    head = (f'<svg xmlns="http://www.w3.org/2000/svg" role="img" viewBox="0 0 {width} {height}" width="{width}" '
            f'height="{height}" font-family="DejaVu Sans, Verdana, Arial, sans-serif">')
    lines = [head, f"<title>{escape(title)}</title>", rectangle(0, 0, width, height, "#ffffff"), *shapes, "</svg>"]
    return "\n".join(lines) + "\n"


def round_step(greatest, most=4):
    """The least of 1, 2 and 5 times a power of ten of which at most so many are in the greatest value."""
    power = 1
    while True:
        for factor in (1, 2, 5):
            if greatest / (factor * power) <= most:
                return factor * power
        power *= 10
