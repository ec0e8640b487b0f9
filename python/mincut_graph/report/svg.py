"""Pieces of SVG that both pictures are made of. What can be picked has an attribute: `data-vertex`, `data-link`, `data-node` or
`data-edge`; the script of the page finds the nearest of these to the pointer, and writes names and weights into the empty group
`overlay`, at one size whatever the zoom is."""
from __future__ import annotations

import colorsys
from collections.abc import Sequence
from xml.sax.saxutils import escape, quoteattr

from .layout import Point

LEAST_SIZE = (460.0, 400.0)            # pixels of a picture
PANE = (680.0, 580.0)                  # pixels of a picture on the screen
LETTER = 6.6                           # pixels of a letter there
LONGEST_LABEL = 22


def colour(i: int) -> str:
    """A light colour of its own for each node."""
    red, green, blue = colorsys.hls_to_rgb((0.13 + i * 0.381966) % 1.0, 0.82 - 0.06 * (i % 2), 0.6)
    return f'#{round(255 * red):02x}{round(255 * green):02x}{round(255 * blue):02x}'


def short(text: str, most: int = LONGEST_LABEL) -> str:
    return text if len(text) <= most else text[:most - 1] + '…'


def width_of(text: str, size: float) -> float:
    """About the pixels of a text of this size, rather more than less."""
    return size * sum(0.4 if sign in "iljftr.,:;|!'()[] " else 0.98 if sign in 'mwMW@%—…' else 0.76 if sign.isupper() else 0.64 for sign in text)


def line(kind: str, a: Point, b: Point, extra: str = '') -> str:
    return f'<line class="{kind}" x1="{a[0]:.1f}" y1="{a[1]:.1f}" x2="{b[0]:.1f}" y2="{b[1]:.1f}"{extra}/>'


def words(kind: str, x: float, y: float, text: str, extra: str = '') -> str:
    return f'<text class="{kind}" x="{x:.1f}" y="{y:.1f}"{extra}>{escape(text)}</text>'


def group(kind: str, parts: Sequence[str]) -> str:
    return f'<g class="{kind}">' + '\n'.join(parts) + '</g>'


def pickable(kind: str, attribute: str, name: str, content: str) -> str:
    """A group that can be picked, by the pointer or by the keyboard; its name is read aloud."""
    return f'<g class="{kind}" {attribute} tabindex="-1" role="button" aria-label={quoteattr(name)}>{content}</g>'


def margin_of(points: Sequence[Point], pixels: tuple[float, float]) -> tuple[float, float]:
    """The margins that leave so many pixels on the screen, to the sides and above and below, for names that have one size there."""
    wide, high = (max(max(line) - min(line), 1.0) for line in zip(*points))
    unit = max(wide / (PANE[0] - 2 * pixels[0]), high / (PANE[1] - 2 * pixels[1]), LEAST_SIZE[1] / PANE[1])
    return unit * pixels[0], unit * pixels[1]


def picture(name: str, label: str, parts: Sequence[str], points: Sequence[Point], margin: tuple[float, float]) -> str:
    """An SVG element around these points, with a margin to the sides and one above and below."""
    left, right = min(x for x, _ in points) - margin[0], max(x for x, _ in points) + margin[0]
    top, bottom = min(y for _, y in points) - margin[1], max(y for _, y in points) + margin[1]
    wide, high = max(right - left, LEAST_SIZE[0]), max(bottom - top, LEAST_SIZE[1])
    left, top = (left + right - wide) / 2, (top + bottom - high) / 2
    head = f'<svg id="{name}" viewBox="{left:.0f} {top:.0f} {wide:.0f} {high:.0f}" role="group" aria-label={quoteattr(label)}>'
    return '\n'.join([head, *parts, '<g class="overlay" aria-hidden="true"></g></svg>'])
