"""Boxes are moved until none lies on another, and none on a line between two others."""
from __future__ import annotations

import math
from collections.abc import Sequence

from .layout import Point, may_move

Size = tuple[float, float]

JOINED_GAP, GAP = 34.0, 12.0           # pixels between two boxes with a line between them, and between any other two
LINE_GAP = 9.0                         # pixels between a box and a line
LEAST = 4.0                            # pixels that suffice for all gaps in the end
STEPS, ROUNDS, GROWTH = 30, 22, 1.09   # moves before all is made larger, how often that is, and by which factor


def spaced(places: Sequence[Point], sizes: Sequence[Size], lines: Sequence[tuple[int, int]]) -> list[Point]:
    """The places, moved so far that boxes of these sizes have room. No two lines come to cross; where moves do not suffice the whole
    picture is made larger."""
    spots = dict(enumerate(places))
    for _ in range(ROUNDS):
        for _ in range(STEPS):
            if not moved(spots, sizes, lines):
                break
        if not covered(spots, sizes, lines):
            break
        spots = {i: (GROWTH * x, GROWTH * y) for i, (x, y) in spots.items()}
    return [spots[i] for i in range(len(places))]


def moved(spots: dict[int, Point], sizes: Sequence[Size], lines: Sequence[tuple[int, int]]) -> bool:
    """Moves each box a little away from what it lies on; whether there was anything to move."""
    pushes = [[0.0, 0.0] for _ in sizes]
    joined = {frozenset(pair) for pair in lines}
    for i in range(len(sizes)):
        for j in range(i):
            x, y = apart(spots[i], spots[j], sizes[i], sizes[j], JOINED_GAP if frozenset((i, j)) in joined else GAP)
            for k, sign in ((i, 0.5), (j, -0.5)):
                pushes[k][0] += sign * x
                pushes[k][1] += sign * y
    for i, j in lines:
        for k in range(len(sizes)):
            if k not in (i, j):
                x, y = aside(spots[k], sizes[k], spots[i], spots[j], LINE_GAP)
                for node, sign in ((k, 0.7), (i, -0.3), (j, -0.3)):
                    pushes[node][0] += sign * x
                    pushes[node][1] += sign * y
    found = False
    for i, (x, y) in enumerate(pushes):
        if abs(x) + abs(y) > 0.5:
            found = True
            spot = (spots[i][0] + x, spots[i][1] + y)
            if may_move(i, spot, spots, list(lines)):
                spots[i] = spot
    return found


def apart(a: Point, b: Point, size_a: Size, size_b: Size, gap: float) -> Point:
    """By how much box a has to move away from box b, the shorter way of sideways and upwards; (0, 0) where they are apart."""
    x, y = a[0] - b[0], a[1] - b[1]
    side, up = (size_a[0] + size_b[0]) / 2 + gap - abs(x), (size_a[1] + size_b[1]) / 2 + gap - abs(y)
    if side <= 0 or up <= 0:
        return 0.0, 0.0
    return (math.copysign(side, x), 0.0) if side < up else (0.0, math.copysign(up, y))


def aside(place: Point, size: Size, a: Point, b: Point, gap: float) -> Point:
    """By how much a box has to move away from the line between a and b; (0, 0) where it lies off that line."""
    if not meets(place, (size[0] + 2 * gap, size[1] + 2 * gap), a, b):
        return 0.0, 0.0
    length = math.hypot(b[0] - a[0], b[1] - a[1]) or 1e-9
    across = ((a[1] - b[1]) / length, (b[0] - a[0]) / length)
    distance = (place[0] - a[0]) * across[0] + (place[1] - a[1]) * across[1]
    reach = abs(across[0]) * size[0] / 2 + abs(across[1]) * size[1] / 2 + gap
    push = math.copysign(max(reach - abs(distance), 0.0), distance)
    return push * across[0], push * across[1]


def meets(place: Point, size: Size, a: Point, b: Point) -> bool:
    """Whether the line between a and b comes into a box (Liang and Barsky, 1984)."""
    low, high = 0.0, 1.0
    for from_a, step, half in ((a[0] - place[0], b[0] - a[0], size[0] / 2), (a[1] - place[1], b[1] - a[1], size[1] / 2)):
        if abs(step) < 1e-9:
            if abs(from_a) > half:
                return False
            continue
        first, last = sorted(((-half - from_a) / step, (half - from_a) / step))
        low, high = max(low, first), min(high, last)
    return low < high


def covered(spots: dict[int, Point], sizes: Sequence[Size], lines: Sequence[tuple[int, int]]) -> bool:
    """Whether a box lies on another, or on a line between two others."""
    count = len(sizes)
    if any(apart(spots[i], spots[j], sizes[i], sizes[j], LEAST) != (0.0, 0.0) for i in range(count) for j in range(i)):
        return True
    return any(meets(spots[k], (sizes[k][0] + 2 * LEAST, sizes[k][1] + 2 * LEAST), spots[i], spots[j])
               for i, j in lines for k in range(count) if k not in (i, j))
