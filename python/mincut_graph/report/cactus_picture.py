"""The picture of the cactus: boxes with names where there are few nodes, else discs on circles around its middle."""
from __future__ import annotations

import math
from collections import Counter
from collections.abc import Sequence
from typing import Optional

from ..cactus import Cactus
from ..graph import Graph
from .layout import Point, large_cactus_places, small_cactus_places
from .spacing import Size, spaced
from .svg import LETTER, colour, group, line, margin_of, picture, pickable, short, width_of, words

SMALL_CACTUS = 40                      # nodes with boxes
WIDEST_BOXES = (1080.0, 860.0)         # pixels of such a picture; one that needs more has discs
LEAF_ROOM = 24                         # pixels for a leaf along the circle of a large cactus
NAMED = 400                            # nodes of a cactus whose names all have room on the screen
BOX_STEP = 116                         # pixels of one step


def cactus_picture(graph: Graph, cactus: Cactus) -> str:
    """The cactus: a box or a disc for each node, a dot for one without vertices, thick lines for bridges, closed figures for cycles."""
    if len(cactus.nodes) <= SMALL_CACTUS:
        sizes = [box_size(node, graph) for node in cactus.nodes]
        places = box_places(cactus, sizes)
        if all(max(line) - min(line) <= most for line, most in zip(zip(*places), WIDEST_BOXES)):
            nodes = [box(i, node, graph, places[i]) for i, node in enumerate(cactus.nodes)]
            margin = (max(wide for wide, _ in sizes) / 2 + 30, 40.0)
            return drawn(cactus, places, nodes, margin)
    units, angles = large_cactus_places(len(cactus.nodes), cactus.bridges, cactus.cycles)
    places = [(LEAF_ROOM * x, LEAF_ROOM * y) for x, y in units]
    blocks_at = Counter(i for block in [*cactus.bridges, *cactus.cycles] for i in block)
    nodes = [disc(i, node, graph, places[i], angles[i] if blocks_at[i] == 1 else None) for i, node in enumerate(cactus.nodes)]
    names = [len(str(graph.names[v])) for node in cactus.nodes for v in node[:1]]
    room = 16 + LETTER * min(26, max(names)) if len(nodes) <= NAMED else 40.0
    return drawn(cactus, places, nodes, margin_of(places, (room, room)))


def drawn(cactus: Cactus, places: list[Point], nodes: list[str], margin: tuple[float, float]) -> str:
    shapes = [f'<polygon class="cycle" points="{corners(cycle, places)}"/>' for cycle in cactus.cycles]
    parts = [group('cycles', shapes), group('edges', edges(cactus, places)), group('nodes', nodes)]
    return picture('cactus', 'The cactus of its minimum cuts', parts, places, margin)


def corners(cycle: Sequence[int], places: Sequence[Point]) -> str:
    return ' '.join(f'{places[i][0]:.1f},{places[i][1]:.1f}' for i in cycle)


def edges(cactus: Cactus, places: Sequence[Point]) -> list[str]:
    """All edges, numbered as in `Cactus.edges()`."""
    parts = []
    for k, (i, j, (kind, number)) in enumerate(cactus.edges()):
        name = f'bridge {i} – {j}' if kind == 'bridge' else f'edge {i} – {j} of cycle {number}'
        lines = line('seen', places[i], places[j]) + line('hit', places[i], places[j])
        parts.append(pickable(f'edge {kind}', f'data-edge="{k}"', name, lines))
    return parts


# Boxes

def box_places(cactus: Cactus, sizes: Sequence[Size]) -> list[Point]:
    """Where the middles of the boxes stand, in pixels: none lies on another, or on a bridge or an edge of a cycle that is not its own."""
    places = small_cactus_places(len(cactus.nodes), cactus.bridges, cactus.cycles)
    lines = [(i, j) for i, j, _ in cactus.edges()]
    return spaced([(BOX_STEP * x, BOX_STEP * y) for x, y in places], sizes, lines)


def label_lines(node: Sequence[int], graph: Graph) -> list[str]:
    """The vertices of a node in at most three lines of about 20 signs."""
    lines = ['']
    for v in node:
        name = short(str(graph.names[v]))
        if lines[-1] and len(lines[-1]) + len(name) > 20:
            lines.append('')
        lines[-1] += f', {name}' if lines[-1] else name
    return lines if len(lines) <= 3 else [*lines[:2], f'… {len(node)} in all']


def box_size(node: Sequence[int], graph: Graph) -> Size:
    """Width and height of the box of a node with these vertices, or of its dot."""
    if not node:
        return 14.0, 14.0
    lines = label_lines(node, graph)
    return max(36.0, max(width_of(text, 15) for text in lines) + 16), 18.0 * len(lines) + 12


def node_group(i: int, node: Sequence[int], graph: Graph, shape: str, extra: str = '') -> str:
    names = ', '.join(str(graph.names[v]) for v in node[:20]) + (', …' if len(node) > 20 else '')
    name = f'node {i}: {names}' if node else f'node {i}, without vertices'
    return pickable(f'node{"" if node else " empty"}', f'data-node="{i}"{extra}', name, shape)


def box(i: int, node: Sequence[int], graph: Graph, place: Point) -> str:
    x, y = place
    if not node:
        return node_group(i, node, graph, f'<circle cx="{x:.1f}" cy="{y:.1f}" r="7"/>' + words('number', x + 11, y - 8, str(i)))
    lines = label_lines(node, graph)
    wide, high = box_size(node, graph)
    shape = f'<rect x="{x - wide / 2:.1f}" y="{y - high / 2:.1f}" width="{wide:.1f}" height="{high}" rx="9" style="fill:{colour(i)}"/>'
    shape += ''.join(words('inside', x, y - 9 * len(lines) + 14 + 18 * k, text) for k, text in enumerate(lines))
    return node_group(i, node, graph, shape + words('number', x + wide / 2 + 3, y - high / 2 + 3, str(i)))


# Discs

def disc(i: int, node: Sequence[int], graph: Graph, place: Point, angle: Optional[float]) -> str:
    """A disc as large as the node has vertices; with the direction in which the name of a leaf points away from its middle."""
    x, y = place
    radius = 4.0 if not node else min(8 + 1.6 * math.sqrt(len(node) - 1), 40)
    fill = f' style="fill:{colour(i)}"' if node else ''
    extra = '' if angle is None else f' data-angle="{math.degrees(angle) % 360:.0f}"'
    return node_group(i, node, graph, f'<circle cx="{x:.1f}" cy="{y:.1f}" r="{radius:.1f}"{fill}/>', extra)
