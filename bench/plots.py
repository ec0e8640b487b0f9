"""Plots as SVG: a small one for each family, edges against seconds or megabytes, both by their logarithms."""
import math
from typing import NamedTuple
from xml.sax.saxutils import escape

WIDTH, HEIGHT, COLUMNS = 190, 130, 4      # of a small plot, and how many stand side by side
LEFT, TOP, GAP = 52, 34, 26
FONT = 'font-family="sans-serif" font-size="10"'
COLOURS = {'mincut': '#c8553d', 'lemon-ni': '#2f6f9f', 'lemon-ho': '#5b8c5a', 'igraph': '#b98b2d', 'networkx': '#7a7f85', 'boost': '#8a6bb1',
           'value': '#2f6f9f', 'count': '#b98b2d', 'cactus': '#c8553d'}


class Axes(NamedTuple):
    """The logarithms of the lowest and the highest number of edges, and the decades of what is plotted."""
    x_low: float
    x_high: float
    y_low: int
    y_high: int

    def x(self, edges):
        return (math.log10(edges) - self.x_low) / (self.x_high - self.x_low) * (WIDTH - GAP)

    def y(self, amount):
        return (HEIGHT - GAP) * (1 - (math.log10(amount) - self.y_low) / (self.y_high - self.y_low))


def decades(numbers):
    low, high = math.floor(math.log10(min(numbers))), math.ceil(math.log10(max(numbers)))
    return low, max(high, low + 1)


def axes_of(panels):
    points = [point for lines in panels.values() for line in lines.values() for point in line]
    x_low, x_high = (math.log10(pick(edges for edges, _ in points)) for pick in (min, max))
    return Axes(x_low, max(x_high, x_low + 0.1), *decades([amount for _, amount in points]))


def power(exponent):
    return f'{10 ** exponent:,}' if 0 <= exponent <= 3 else f'{10.0 ** exponent:g}' if -3 <= exponent < 0 else f'10^{exponent}'


def grid_lines(axes, has_x_labels, has_y_labels):
    """The lines at the decades, with numbers at the edges of the whole picture."""
    width, height = WIDTH - GAP, HEIGHT - GAP
    for exponent in range(math.ceil(axes.x_low), math.floor(axes.x_high) + 1):
        x = axes.x(10.0 ** exponent)
        yield f'<path d="M{x:.1f} 0V{height}" stroke="#dde1e5"/>'
        if has_x_labels:
            yield f'<text x="{x:.1f}" y="{height + 12}" text-anchor="middle" fill="#555">10^{exponent}</text>'
    for exponent in range(axes.y_low, axes.y_high + 1):
        y = axes.y(10.0 ** exponent)
        yield f'<path d="M0 {y:.1f}H{width}" stroke="#dde1e5"/>'
        if has_y_labels:
            yield f'<text x="-5" y="{y + 3:.1f}" text-anchor="end" fill="#555">{power(exponent)}</text>'


def curve(points, colour, axes):
    places = [f'{axes.x(edges):.1f},{axes.y(amount):.1f}' for edges, amount in points]
    if len(places) > 1:
        yield f'<polyline points="{" ".join(places)}" fill="none" stroke="{colour}" stroke-width="1.5"/>'
    for place in places:
        x, y = place.split(',')
        yield f'<circle cx="{x}" cy="{y}" r="2.2" fill="{colour}"/>'


def panel(title, lines, axes, has_x_labels, has_y_labels):
    yield from grid_lines(axes, has_x_labels, has_y_labels)
    for name, points in lines.items():
        yield from curve(points, COLOURS[name], axes)
    yield f'<text x="{(WIDTH - GAP) / 2}" y="-5" text-anchor="middle">{escape(title)}</text>'


def legend(names, titles):
    x = LEFT
    for name in names:
        yield f'<circle cx="{x}" cy="12" r="4" fill="{COLOURS[name]}"/><text x="{x + 8}" y="15.5">{escape(titles.get(name, name))}</text>'
        x += 26 + 6 * len(titles.get(name, name))


def picture(panels, titles, y_title):
    """The text of an SVG file; `panels` has for the title of each small plot the points of each line, by its name."""
    panels = {title: {name: points for name, points in lines.items() if points} for title, lines in panels.items()}
    panels = {title: lines for title, lines in panels.items() if lines}
    rows = -(-len(panels) // COLUMNS)
    width, height = LEFT + COLUMNS * WIDTH, TOP + max(rows, 1) * (HEIGHT + 6) + 22
    parts = [f'<svg xmlns="http://www.w3.org/2000/svg" viewBox="0 0 {width} {height}" width="{width}" height="{height}" {FONT}>',
             f'<rect width="{width}" height="{height}" fill="#fff"/>']
    if not panels:
        return '\n'.join([*parts, f'<text x="{LEFT}" y="{TOP + 20}">not measured yet</text>', '</svg>', ''])
    axes, names = axes_of(panels), [name for name in COLOURS if any(name in lines for lines in panels.values())]
    parts += legend(names, titles)
    for place, (title, lines) in enumerate(panels.items()):
        row, column = divmod(place, COLUMNS)
        parts.append(f'<g transform="translate({LEFT + column * WIDTH} {TOP + 10 + row * (HEIGHT + 6)})">')
        parts += panel(title, lines, axes, place + COLUMNS >= len(panels), column == 0)
        parts.append('</g>')
    middle = TOP + rows * (HEIGHT + 6) / 2
    parts.append(f'<text x="{LEFT + COLUMNS * WIDTH / 2}" y="{height - 6}" text-anchor="middle">edges</text>')
    parts.append(f'<text transform="translate(11 {middle:.0f}) rotate(-90)" text-anchor="middle">{escape(y_title)}</text>')
    return '\n'.join([*parts, '</svg>', ''])
