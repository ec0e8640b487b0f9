"""The minimum cuts of a cactus in the order of their balance, most balanced first."""
from __future__ import annotations

import heapq
from bisect import bisect_left
from collections.abc import Iterator
from dataclasses import dataclass

from ..cactus import Cactus
from ..graph import Graph


@dataclass(frozen=True)
class Place:
    """One minimum cut. `edges`: the edges of the cactus that are cut, one bridge or two edges of a cycle, by their places in
    `Cactus.edges()`. The side without vertex 0 is `order[low:high]` of `Places`. `balance`: the smaller of the masses of both sides."""
    edges: tuple[int, ...]
    low: int
    high: int
    balance: int


class Places:
    """The minimum cuts of a graph, from its canonical cactus, whose nodes are numbered as they are entered: so the vertices at and under
    a node, and those of neighbours in a cycle, stand side by side in `order`."""

    def __init__(self, cactus: Cactus, graph: Graph):
        self.cactus, self.graph = cactus, graph
        self.order = [v for node in cactus.nodes for v in node]
        self.total = graph.mass(range(len(graph.names)))
        self.before = [0]
        for v in self.order:
            self.before.append(self.before[-1] + graph.mass([v]))
        self.start = [0]
        for node in cactus.nodes:
            self.start.append(self.start[-1] + len(node))
        self.last = last_below(cactus)
        self.place = {v: k for k, v in enumerate(self.order)}

    def end(self, node: int) -> int:
        """The place in `order` behind the vertices at and under a node."""
        return self.start[self.last[node] + 1]

    def balance(self, low: int, high: int) -> int:
        mass = self.before[high] - self.before[low]
        return min(mass, self.total - mass)

    def side(self, place: Place) -> list[int]:
        """The vertices of the lighter side, of two equal ones of that without vertex 0; ascending."""
        inside = sorted(self.order[place.low:place.high])
        if 2 * (self.before[place.high] - self.before[place.low]) <= self.total:
            return inside
        return sorted(self.order[:place.low] + self.order[place.high:])

    def links(self, side: list[int], near: list[list[tuple[int, int]]]) -> list[tuple[int, int, int]]:
        """The edges (i, j, w) of the graph between this side and the rest, i in the side; `near` has (neighbour, weight) of each vertex."""
        inside = set(side)
        return [(i, j, w) for i in side for j, w in near[i] if j not in inside]

    def by_balance(self) -> Iterator[Place]:
        """Each minimum cut once, the most balanced first; a few steps for each that is asked for."""
        bounds, first_edges = [], []
        heap: list[tuple[int, int, int, int, int, int]] = []
        edge = len(self.cactus.bridges)
        for k, (_, lower) in enumerate(self.cactus.bridges):
            low, high = self.start[lower], self.end(lower)
            heap.append((-self.balance(low, high), low, high, -1, k, 0))
        for k, cycle in enumerate(self.cactus.cycles):
            bounds.append([self.start[i] for i in cycle[1:]] + [self.end(cycle[-1])])
            first_edges.append(edge)
            edge += len(cycle)
            masses = [self.before[bound] for bound in bounds[k]]
            for p in range(len(cycle) - 1):
                heap += self.starts(bounds[k], masses, k, p)
        heapq.heapify(heap)
        shared = self.skipped()
        while heap:
            balance, low, high, k, p, q = heapq.heappop(heap)
            if k < 0:
                yield Place((p,), low, high, -balance)
                continue
            rising, q = q > 0, abs(q)
            if not (p == 0 and q == len(bounds[k]) - 1 and k in shared):
                yield Place((first_edges[k] + p, first_edges[k] + q), low, high, -balance)
            heap_next = q + 1 if rising else q - 1
            if p < heap_next < len(bounds[k]):
                heapq.heappush(heap, self.entry(bounds[k], k, p, heap_next, rising))

    def starts(self, bounds: list[int], masses: list[int], k: int, p: int) -> list[tuple[int, int, int, int, int, int]]:
        """The two best cuts of edge p of a cycle with a later one: of those that take off half of the mass or more, and of the others.
        `masses` are those before each bound."""
        peak = max(p + 1, bisect_left(masses, masses[p] + self.total / 2, p + 1))
        found = [self.entry(bounds, k, p, peak, True)] if peak < len(bounds) else []
        return found + ([self.entry(bounds, k, p, peak - 1, False)] if peak - 1 > p else [])

    def entry(self, bounds: list[int], k: int, p: int, q: int, rising: bool) -> tuple[int, int, int, int, int, int]:
        low, high = bounds[p], bounds[q]
        return -self.balance(low, high), low, high, k, p, q if rising else -q

    def skipped(self) -> set[int]:
        """The cycles whose top has no vertices and lies in one other cycle alone: cutting both their edges there is a cut of the other."""
        shared = self.cactus.shared_nodes()
        return {k for k, cycle in enumerate(self.cactus.cycles) if cycle[0] in shared}


def last_below(cactus: Cactus) -> list[int]:
    """For each node the greatest number of a node at or under it."""
    last = list(range(len(cactus.nodes)))
    above = {lower: upper for upper, lower in cactus.bridges}
    above.update({i: cycle[0] for cycle in cactus.cycles for i in cycle[1:]})
    for i in range(len(last) - 1, 0, -1):
        last[above[i]] = max(last[above[i]], last[i])
    return last
