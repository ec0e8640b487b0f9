"""The minimum cuts of a small graph by trying all sides.

A side is an ascending tuple of vertices without vertex 1. Nothing here uses the program.
"""
from collections.abc import Sequence

from .cactuses import Side
from .graphs import Graph


def minimum_cuts(graph: Graph) -> tuple[int, list[Side]]:
    """(value, sides): the least weight of a cut and all sides of that weight, ascending. For n >= 2, at most about 16."""
    n, edges = graph
    towards = [[0] * n for _ in range(n)]
    for u, v, w in edges:
        towards[u - 1][v - 1] += w
        towards[v - 1][u - 1] += w
    degree = [sum(row) for row in towards]
    weight = {0: 0}
    best, found = None, []
    for mask in range(2, 1 << n, 2):
        low = (mask & -mask).bit_length() - 1
        rest = mask & (mask - 1)
        row = towards[low]
        weight[mask] = weight[rest] + degree[low] - 2 * sum(row[v] for v in range(low + 1, n) if rest >> v & 1)
        if best is None or weight[mask] < best:
            best, found = weight[mask], []
        if weight[mask] == best:
            found.append(mask)
    return best, sorted(tuple(v + 1 for v in range(n) if mask >> v & 1) for mask in found)


def balance(masses: Sequence[int], side: Sequence[int]) -> int:
    """The lesser of the masses of the two sides of a cut, where the masses of the vertices stand in their order."""
    mass = sum(masses[v - 1] for v in side)
    return min(mass, sum(masses) - mass)
