"""The picture of the graph."""
from __future__ import annotations

import math
from collections.abc import Sequence

from ..graph import Graph
from .amounts import Amounts
from .layout import Point, graph_places, pushed_apart
from .svg import LETTER, colour, group, line, margin_of, picture, pickable, words

SMALL_GRAPH = 40                       # vertices whose discs are large
GRAPH_STEP = 92                        # pixels of one step
WIDEST, LEAST_STEP = 1000, 13          # pixels of a graph, whose steps are shorter then, and of such a step
MAP_SIZE = (760.0, 600.0)              # pixels of a map
MAP_GAP = 26.0                         # pixels between two vertices of a map
PART_GAP = 80.0                        # pixels between two components
LONGEST_INSIDE = 3                     # signs of a name that stands in its disc
THINNEST, BROADEST = 1.4, 4.0          # pixels of a link


def graph_picture(graph: Graph, node_of: Sequence[int], plan: Sequence[Sequence[int]], amounts: Amounts) -> str:
    """The graph: each vertex has the colour of its node, links in some minimum cut have another colour, the plan's links are dashed."""
    places = on_map(graph) if graph.positions is not None else laid_out(graph)
    radius = radius_of(graph)
    parts = [group('links', links(graph, places, node_of, amounts)),
             group('plan', [line('new', places[i], places[j]) for i, j in plan]),
             group('vertices', vertices(graph, places, node_of, radius))]
    longest = 0 if shows_inside(graph) else min(26, max(len(str(name)) for name in graph.names))
    return picture('graph', 'The graph', parts, places, margin_of(places, (20 + LETTER * min(longest, 14) / 1.4, 36)))


def on_map(graph: Graph) -> list[Point]:
    """The places of a map in pixels; degrees of longitude are shortened by the latitude. Vertices at one place are moved apart a little."""
    assert graph.positions is not None
    middle = sum(up for _, up in graph.positions) / len(graph.positions)
    degrees = all(-180 <= right <= 180 and -90 <= up <= 90 for right, up in graph.positions)
    shrink = math.cos(math.radians(middle)) if degrees else 1.0
    xs, ys = [shrink * right for right, _ in graph.positions], [-up for _, up in graph.positions]
    unit = min(size / ((max(line) - min(line)) or 1e-9) for size, line in zip(MAP_SIZE, (xs, ys)))
    xs, ys = [unit * x for x in xs], [unit * y for y in ys]
    pushed_apart(xs, ys, MAP_GAP if len(xs) <= SMALL_GRAPH else MAP_GAP / 2)
    return list(zip(xs, ys))


def laid_out(graph: Graph) -> list[Point]:
    """The places of a graph without a map, in pixels; components stand side by side, the largest first."""
    near = graph.neighbours()
    found: list[Point] = [(0.0, 0.0)] * len(near)
    left = 0.0
    for part in sorted(graph.components(), key=len, reverse=True):
        number = {v: k for k, v in enumerate(part)}
        places = graph_places([[number[u] for u in near[v]] for v in part])
        extent = max(max(line) - min(line) for line in zip(*places))
        step = max(LEAST_STEP, min(GRAPH_STEP, WIDEST / max(extent, 1.0)))
        shift_x, shift_y = min(x for x, _ in places), sum(y for _, y in places) / len(places)
        for v, (x, y) in zip(part, places):
            found[v] = (left + step * (x - shift_x), step * (y - shift_y))
        left = max(found[v][0] for v in part) + PART_GAP
    return found


def shows_inside(graph: Graph) -> bool:
    return len(graph.names) <= SMALL_GRAPH and max(len(str(name)) for name in graph.names) <= LONGEST_INSIDE


def radius_of(graph: Graph) -> int:
    return 15 if shows_inside(graph) else 9 if len(graph.names) <= SMALL_GRAPH else 5


def links(graph: Graph, places: Sequence[Point], node_of: Sequence[int], amounts: Amounts) -> list[str]:
    """The links, the heavier the broader."""
    least, most = min(w for _, _, w in graph.edges), max(w for _, _, w in graph.edges)
    parts = []
    for k, (i, j, w) in enumerate(graph.edges):
        kind = 'link parted' if node_of[i] != node_of[j] else 'link'
        share = 0.35 if least == most else math.sqrt((w - least) / (most - least))
        width = THINNEST + (BROADEST - THINNEST) * share
        seen = line('seen', places[i], places[j], f' style="stroke-width:{width:.1f}px"')
        name = f'link {graph.names[i]} – {graph.names[j]}, {amounts.text(w)}'
        parts.append(pickable(kind, f'data-link="{k}"', name, seen))
    return parts


def vertices(graph: Graph, places: Sequence[Point], node_of: Sequence[int], radius: int) -> list[str]:
    parts = []
    for i, (x, y) in enumerate(places):
        name = str(graph.names[i]) + ('' if graph.masses is None else f', mass {graph.masses[i]:,}')
        shape = f'<circle cx="{x:.1f}" cy="{y:.1f}" r="{radius}" style="fill:{colour(node_of[i])}"/>'
        label = words('inside', x, y + 5, str(graph.names[i])) if shows_inside(graph) else ''
        parts.append(pickable('vertex', f'data-vertex="{i}"', name, shape + label))
    return parts
