"""Where the vertices of a graph and the nodes of its cactus stand in a picture. All places are (right, down) in units of one step."""
from __future__ import annotations

import heapq
import math
from collections import Counter
from collections.abc import Mapping, Sequence
from dataclasses import dataclass
from typing import Optional

Point = tuple[float, float]
Lengths = list[dict[int, float]]

STEPS = 5_000_000                      # pairs that are looked at, a few seconds' work
LEAST_GAP = 0.4                        # steps between two vertices
CROWD = 7                              # blocks at a node that have room around it at one step
GROWTHS = (1.0, 0.6, 0.35, 0.2)        # of the circles of a large cactus, of which the one that needs least room is taken
FLOWER = 3                             # leaves of a node without other branches that stand in a circle around it


# A graph

def graph_places(near: Sequence[Sequence[int]]) -> list[Point]:
    """Places whose distances fit the numbers of steps between the vertices of a connected graph: a start by pivots, then stress
    majorization (Gansner, Koren and North, 2004). `near` has the neighbours of each vertex."""
    count = len(near)
    if count == 1:
        return [(0.0, 0.0)]
    distances = [steps_from(near, i) for i in range(count)]
    xs, ys = pivot_places(distances)
    weights = [[0.0 if i == j else 1.0 / (d * d) for j, d in enumerate(row)] for i, row in enumerate(distances)]
    for _ in range(max(8, min(200, STEPS // (count * count)))):
        for i in range(count):
            xs[i], ys[i] = pulled(xs[i], ys[i], xs, ys, distances[i], weights[i])
    pushed_apart(xs, ys, LEAST_GAP)
    return list(zip(xs, ys))


def pushed_apart(xs: list[float], ys: list[float], gap: float) -> None:
    """Moves vertices that are nearer to each other than this away from each other."""
    for _ in range(10):
        order = sorted(range(len(xs)), key=xs.__getitem__)
        for k, i in enumerate(order):
            for j in order[k + 1:]:
                if xs[j] - xs[i] >= gap:
                    break
                away_x, away_y = xs[j] - xs[i], ys[j] - ys[i]
                length = math.hypot(away_x, away_y)
                if length < 1e-6 * gap:
                    away_x, away_y, length = 1e-6 * gap * math.cos(i), 1e-6 * gap * math.sin(i), 1e-6 * gap
                if length < gap:
                    push = (gap - length) / 2 / length
                    xs[i], ys[i], xs[j], ys[j] = xs[i] - push * away_x, ys[i] - push * away_y, xs[j] + push * away_x, ys[j] + push * away_y


def pulled(x: float, y: float, xs: list[float], ys: list[float], lengths: Sequence[float], weights: Sequence[float]) -> Point:
    """Where a point wants to be, for all others where they are."""
    sum_x = sum_y = total = 0.0
    for other_x, other_y, length, weight in zip(xs, ys, lengths, weights):
        if weight:
            away_x, away_y = x - other_x, y - other_y
            share = length / (math.sqrt(away_x * away_x + away_y * away_y) or 1e-9)
            sum_x += weight * (other_x + share * away_x)
            sum_y += weight * (other_y + share * away_y)
            total += weight
    return sum_x / total, sum_y / total


def steps_from(near: Sequence[Sequence[int]], start: int) -> list[int]:
    """The number of steps from one vertex to each."""
    steps = [-1] * len(near)
    steps[start] = 0
    reached = [start]
    for i in reached:
        for j in near[i]:
            if steps[j] < 0:
                steps[j] = steps[i] + 1
                reached.append(j)
    return steps


def pivot_places(distances: list[list[int]]) -> tuple[list[float], list[float]]:
    """Places by the distances to some far vertices (Pivot MDS, Brandes and Pich, 2006): the two directions of greatest spread."""
    count = len(distances)
    pivots = [0]
    far = list(distances[0])
    while len(pivots) < min(count, 30):
        pivots.append(max(range(count), key=far.__getitem__))
        far = [min(a, b) for a, b in zip(far, distances[pivots[-1]])]
    rows = [[float(distances[p][i] ** 2) for p in pivots] for i in range(count)]
    column_means = [sum(column) / count for column in zip(*rows)]
    mean = sum(column_means) / len(pivots)
    table = []
    for row in rows:
        row_mean = sum(row) / len(row)
        table.append([-(entry - row_mean - column + mean) / 2 for entry, column in zip(row, column_means)])
    axes: list[list[float]] = []
    for turn in range(2):
        axes.append(main_axis(table, axes, turn))
    found = [[sum(a * b for a, b in zip(row, axis)) for row in table] for axis in axes]
    spread = max([1e-9, *(abs(x) for x in found[0])])
    scale = max(max(row) for row in distances) / 2 / spread
    shaken = [[scale * x + 0.01 * math.sin(7.0 * i + k) for i, x in enumerate(line)] for k, line in enumerate(found)]
    return shaken[0], shaken[1]


def main_axis(table: list[list[float]], others: list[list[float]], turn: int) -> list[float]:
    """The direction of greatest spread that stands upright on the others, by power iteration."""
    width = len(table[0])
    axis = [math.cos(1.0 + turn + 3.0 * k) for k in range(width)]
    for _ in range(60):
        for other in others:
            share = sum(a * b for a, b in zip(axis, other))
            axis = [a - share * b for a, b in zip(axis, other)]
        sums = [sum(a * b for a, b in zip(row, axis)) for row in table]
        axis = [sum(s * row[k] for s, row in zip(sums, table)) for k in range(width)]
        length = math.sqrt(sum(a * a for a in axis)) or 1.0
        axis = [a / length for a in axis]
    return axis


# A small cactus

def small_cactus_places(count: int, bridges: Sequence[Sequence[int]], cycles: Sequence[Sequence[int]]) -> list[Point]:
    """Places of the nodes of a cactus with up to some 40 nodes: in circles around its middle, and from there moved to where the lengths
    of the ways fit best, as long as no two lines come to cross."""
    near = cactus_lengths(count, bridges, cycles)
    at = blocks_at(count, bridges, cycles)
    places = dict(enumerate(circles_around(middle_of(at, [])[0], at)))
    lines = [(i, j) for i, j in bridges] + [pair for cycle in cycles for pair in zip(cycle, [*cycle[1:], cycle[0]])]
    spread(places, near, lines)
    return upright([places[i] for i in range(count)])


def cactus_lengths(count: int, bridges: Sequence[Sequence[int]], cycles: Sequence[Sequence[int]]) -> Lengths:
    """How far two nodes of one block should stand apart: a step for a bridge, more where many meet, and the chords of a regular polygon
    for a cycle."""
    near: Lengths = [{} for _ in range(count)]
    ends = Counter(i for block in [*bridges, *cycles] for i in block)
    for i, j in bridges:
        near[i][j] = near[j][i] = max(1.0, ends[i] / CROWD, ends[j] / CROWD)
    for cycle in cycles:
        size = len(cycle)
        for p, i in enumerate(cycle):
            for q, j in enumerate(cycle):
                if i != j:
                    near[i][j] = math.sin(math.pi * abs(p - q) / size) / math.sin(math.pi / size)
    return near


def blocks_at(count: int, bridges: Sequence[Sequence[int]], cycles: Sequence[Sequence[int]]) -> list[list[list[int]]]:
    at: list[list[list[int]]] = [[] for _ in range(count)]
    for block in [list(bridge) for bridge in bridges] + [list(cycle) for cycle in cycles]:
        for i in block:
            at[i].append(block)
    return at


def tree_below(root: int, at: list[list[list[int]]]) -> tuple[list[int], dict[int, list[list[int]]]]:
    """(the nodes from the root downwards, the blocks below each as lists of their other nodes, in the order of the block)."""
    seen, order = {root}, [root]
    below: dict[int, list[list[int]]] = {}
    for i in order:
        below[i] = []
        for block in at[i]:
            place = block.index(i)
            fresh = [j for j in block[place + 1:] + block[:place] if j not in seen]
            if fresh:
                seen.update(fresh)
                order += fresh
                below[i].append(fresh)
    return order, below


def circles_around(root: int, at: list[list[list[int]]]) -> list[Point]:
    """Nodes on circles around the root by their depth, each in the sector of its branch: no two lines cross."""
    order, blocks = tree_below(root, at)
    below = {i: [j for block in found for j in block] for i, found in blocks.items()}
    leaves: dict[int, int] = {}
    for i in reversed(order):
        leaves[i] = sum(leaves[j] for j in below[i]) or 1
    step = max(1.0, leaves[root] / (2 * math.pi))
    depth, sector = {root: 0}, {root: (0.0, 2 * math.pi)}
    places: dict[int, Point] = {}
    for i in order:
        low, high = sector[i]
        angle = (low + high) / 2
        places[i] = (step * depth[i] * math.cos(angle), step * depth[i] * math.sin(angle))
        slots = leaves[i] if i != root else leaves[root] + sum(len(block) > 1 for block in blocks[root])
        room = min(high - low, 2 * math.acos(depth[i] / (depth[i] + 1))) if i != root else high
        low = angle - room / 2
        for block in blocks[i]:
            for j in block:
                depth[j] = depth[i] + 1
                sector[j] = (low, low + room * leaves[j] / slots)
                low = sector[j][1]
            low += room / slots if i == root and len(block) > 1 else 0.0
    return [places[i] for i in range(len(at))]


def all_distances(near: Lengths) -> list[dict[int, float]]:
    """The lengths of the shortest ways between all pairs."""
    table = []
    for start in range(len(near)):
        length: dict[int, float] = {}
        todo = [(0.0, start)]
        while todo:
            here, i = heapq.heappop(todo)
            if i not in length:
                length[i] = here
                for j, step in near[i].items():
                    heapq.heappush(todo, (here + step, j))
        table.append(length)
    return table


def spread(places: dict[int, Point], near: Lengths, lines: list[tuple[int, int]]) -> None:
    """Moves all to where their distances fit the lengths of the shortest ways best; neighbours count eight times."""
    names = list(places)
    wanted = all_distances(near)
    lengths = [[wanted[i][j] for j in names] for i in names]
    weights = [[0.0 if i == j else (8.0 if j in near[i] else 1.0) / wanted[i][j] ** 2 for j in names] for i in names]
    work = len(names) ** 2 + 10 * len(lines) * len(names)
    for _ in range(max(5, min(150, STEPS // work))):
        xs, ys = [places[i][0] for i in names], [places[i][1] for i in names]
        for i in names:
            x, y = places[i]
            goal = pulled(x, y, xs, ys, lengths[i], weights[i]) if len(names) > 1 else (x, y)
            for share in (1.0, 0.3):
                spot = (x + share * (goal[0] - x), y + share * (goal[1] - y))
                if may_move(i, spot, places, lines):
                    places[i] = spot
                    xs[i], ys[i] = spot
                    break


def turns_left(a: Point, b: Point, c: Point) -> bool:
    return (b[0] - a[0]) * (c[1] - a[1]) - (b[1] - a[1]) * (c[0] - a[0]) > 0


def cross(a: Point, b: Point, c: Point, d: Point) -> bool:
    """Whether the lines from a to b and from c to d cross."""
    return turns_left(a, b, c) != turns_left(a, b, d) and turns_left(c, d, a) != turns_left(c, d, b)


def may_move(i: int, spot: Point, places: Mapping[int, Point], lines: list[tuple[int, int]]) -> bool:
    """Whether node i can move straight to the spot so that no line comes to cross another or goes over a node."""
    old = places[i]
    mine = [k if j == i else j for j, k in lines if i in (j, k)]
    others = [(places[j], places[k], j, k) for j, k in lines if i not in (j, k)]
    if any(cross(old, spot, a, b) for a, b, _, _ in others):
        return False
    for j in mine:
        if any(cross(spot, places[j], a, b) for a, b, k, m in others if j not in (k, m)):
            return False
    return all(keeps_clear(old, spot, other, [places[j] for j in mine if j != k]) for k, other in places.items() if k != i)


def keeps_clear(old: Point, spot: Point, other: Point, ends: list[Point]) -> bool:
    """Whether a node that moves from `old` to `spot`, with lines to the ends, stays off another node."""
    length = math.hypot(spot[0] - other[0], spot[1] - other[1])
    if length < 0.6 and length < math.hypot(old[0] - other[0], old[1] - other[1]):
        return False
    return all(len({turns_left(old, spot, other), turns_left(spot, end, other), turns_left(end, old, other)}) > 1 for end in ends)


def upright(places: list[Point]) -> list[Point]:
    """The places turned so that their longest direction is downwards, with the first in the upper half."""
    mid_x = sum(x for x, _ in places) / len(places)
    mid_y = sum(y for _, y in places) / len(places)
    xx = sum((x - mid_x) ** 2 for x, _ in places)
    yy = sum((y - mid_y) ** 2 for _, y in places)
    xy = sum((x - mid_x) * (y - mid_y) for x, y in places)
    turn = math.pi / 2 - math.atan2(2 * xy, xx - yy) / 2
    cos, sin = math.cos(turn), math.sin(turn)
    turned = [((x - mid_x) * cos - (y - mid_y) * sin, (x - mid_x) * sin + (y - mid_y) * cos) for x, y in places]
    return [(-x, -y) for x, y in turned] if turned[0][1] > 0 else turned


# A large cactus

def large_cactus_places(count: int, bridges: Sequence[Sequence[int]], cycles: Sequence[Sequence[int]]) -> tuple[list[Point], list[float]]:
    """(places, angles) of any cactus: circles around the node, or the cycle, in its middle; each branch has a sector as wide as its leaves
    need. A node whose branches all are leaves has these in a circle around it. One unit is the room of a leaf along its circle; an angle
    says in which direction a node lies from the middle, or from the node in whose circle it stands."""
    at = blocks_at(count, bridges, cycles)
    middle, ring = middle_of(at, cycles)
    order, blocks = tree_below(middle, at)
    if ring:
        blocks[middle] = [block for block in blocks[middle] if not set(block) <= set(ring)]
        order = [*ring, *(i for i in order if i not in set(ring))]
    tops = ring or [middle]
    depth = depths(order, blocks, dict.fromkeys(tops, 1.0 if ring else 0.0))
    below = {i: [j for block in found for j in block] for i, found in blocks.items()}
    flowers = {i: flower_of(blocks[i], below, i in tops) for i in order if len(tops) > 1 or i not in tops}
    best: Optional[tuple[float, dict[int, Point], dict[int, float]]] = None
    for growth in GROWTHS:
        found = circles(order, below, depth, tops, flowers, growth)
        if best is None or found[0] < best[0]:
            best = found
    assert best is not None
    return [best[1][i] for i in range(count)], [best[2][i] for i in range(count)]


def circles(order: list[int], below: dict[int, list[int]], depth: dict[int, float], tops: Sequence[int],
            flowers: dict[int, Optional[Flower]], growth: float) -> tuple[float, dict[int, Point], dict[int, float]]:
    """(radius of all, places, angles) of a cactus on circles, where each circle behind the first is larger by that share of the first."""
    reach = {i: depth[i] if depth[i] <= 1 else 1 + growth * (depth[i] - 1) for i in order}
    need: dict[int, float] = {}
    for i in reversed(order):
        flower = flowers.get(i)
        inner = sum(need[j] for j in below[i]) if flower is None else 0.0
        need[i] = max(inner, (1.0 if flower is None else 2 * flower.radius + 1.5) / max(reach[i], 1.0))
    whole = sum(need[i] for i in tops)
    angles = sector_angles(order, below, need, tops)
    step = max(3.0, (3.0 if max(depth.values()) < 6 else 2.0) / growth, whole / (2 * math.pi))
    places = {i: around((0.0, 0.0), step * reach[i], angles[i]) for i in order}
    for i, flower in flowers.items():
        if flower is not None:
            middle = around(places[i], flower.radius, angles[i]) if flower.whole else places[i]
            places[i] = places[i] if flower.cycle or not flower.whole else middle
            for j, turn in zip(below[i], flower.turns):
                angles[j] = angles[i] + turn
                places[j] = around(middle, flower.radius, angles[j])
    return max(math.hypot(x, y) for x, y in places.values()), places, angles


@dataclass
class Flower:
    """Leaves that stand in a circle: around the node at which they hang, or, if they are a cycle with it, around the middle of that
    cycle. `turns` are their angles from the direction in which that node lies; where it is in the cycle in the middle of the picture
    they stand in the outer half of the circle alone."""
    radius: float
    turns: list[float]
    cycle: bool
    whole: bool


def flower_of(blocks: list[list[int]], below: dict[int, list[int]], in_middle: bool) -> Optional[Flower]:
    """The flower of all that hangs at a node; None where that is no flower."""
    leaves = [j for block in blocks for j in block]
    if len(leaves) < FLOWER or any(below[j] for j in leaves):
        return None
    count = len(leaves)
    if len(blocks) == 1:
        turns = [math.pi + 2 * math.pi * (k + 1) / (count + 1) for k in range(count)]
        return Flower(max(1.5, (count + 1) / (2 * math.pi)), turns, True, True)
    if any(len(block) > 1 for block in blocks):
        return None
    if in_middle:
        return Flower(max(2.0, count / math.pi), [math.pi * ((k + 0.5) / count - 0.5) for k in range(count)], False, False)
    return Flower(max(2.0, (count + 1) / (2 * math.pi)), [math.pi * (2 * (k + 1) / (count + 1) - 1) for k in range(count)], False, True)


def around(middle: Point, radius: float, angle: float) -> Point:
    return middle[0] + radius * math.cos(angle), middle[1] + radius * math.sin(angle)


def depths(order: list[int], blocks: dict[int, list[list[int]]], depth: dict[int, float]) -> dict[int, float]:
    """How far out each node lies: one step for a bridge; the nodes of a cycle make a bow."""
    for i in order:
        for block in blocks[i]:
            for k, j in enumerate(block):
                depth[j] = depth[i] + (1.0 if len(block) == 1 else 0.4 + 0.7 * math.sin(math.pi * (k + 0.5) / len(block)))
    return depth


def sector_angles(order: list[int], below: dict[int, list[int]], need: dict[int, float], tops: Sequence[int]) -> dict[int, float]:
    """The middle of the sector of each node: as wide as its branch needs, within that of the node above."""
    whole = sum(need[i] for i in tops) or 1.0
    sectors: dict[int, Point] = {}
    low = -math.pi / 2
    for i in tops:
        sectors[i] = (low, low + 2 * math.pi * need[i] / whole)
        low = sectors[i][1]
    for i in order:
        low, high = sectors[i]
        wide, inner = high - low, sum(need[j] for j in below[i]) / need[i]
        low = (low + high) / 2 - wide / 2 * min(1.0, inner)
        for j in below[i]:
            sectors[j] = (low, low + wide * need[j] / need[i])
            low = sectors[j][1]
    return {i: (low + high) / 2 for i, (low, high) in sectors.items()}


def middle_of(at: list[list[list[int]]], cycles: Sequence[Sequence[int]]) -> tuple[int, list[int]]:
    """(node, cycle): a node of whose branches none has more than half of all nodes, and the longest cycle at it if that has a tenth of
    all nodes, else an empty list."""
    order, below = tree_below(0, at)
    size: dict[int, int] = {}
    for i in reversed(order):
        size[i] = 1 + sum(size[j] for block in below[i] for j in block)
    middle = 0
    while True:
        heavy = [j for block in below[middle] for j in block if 2 * size[j] > len(at)]
        if not heavy:
            break
        middle = heavy[0]
    ring = max((cycle for cycle in cycles if middle in cycle), key=len, default=[])
    if len(ring) < max(4, len(at) / 10):
        return middle, []
    place = list(ring).index(middle)
    return middle, [*ring[place:], *ring[:place]]
