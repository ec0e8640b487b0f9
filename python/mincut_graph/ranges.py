"""The minimum cuts of a connected graph, read off its canonical cactus without solving it again.

The nodes of that cactus are numbered as they are entered, so the vertices at and under a node, and those of neighbours in a cycle, stand
side by side in one list of all vertices: each minimum cut is a range of it, which does not have vertex 0.
"""
from __future__ import annotations

from bisect import bisect_left, bisect_right
from collections.abc import Callable, Iterator, Sequence
from itertools import accumulate
from typing import Optional

from .cactus import Cactus

Range = tuple[int, int]


class Ranges:
    """`order`: all vertices. A range (low, high) is the side `order[low:high]` of one minimum cut, and no two ranges are the same cut."""

    def __init__(self, cactus: Cactus, masses: Optional[Sequence[int]] = None):
        self.cactus = cactus
        self.order = [v for node in cactus.nodes for v in node]
        self.start = [0, *accumulate(len(node) for node in cactus.nodes)]
        self.before: list[int] = [0, *accumulate((1 if masses is None else masses[v]) for v in self.order)]
        self.node_of = cactus.node_of()
        self.shared = cactus.shared_nodes()
        self.above, self.depth, self.block = [0] * len(cactus.nodes), [0] * len(cactus.nodes), [(-1, 0)] * len(cactus.nodes)
        for k, (upper, lower) in enumerate(cactus.bridges):
            self.above[lower], self.block[lower] = upper, (-1 - k, 0)
        for k, cycle in enumerate(cactus.cycles):
            for place, i in enumerate(cycle[1:], 1):
                self.above[i], self.block[i] = cycle[0], (k, place)
        for i in range(1, len(cactus.nodes)):
            self.depth[i] = self.depth[self.above[i]] + 1
        self.last = list(range(len(cactus.nodes)))
        for i in range(len(self.last) - 1, 0, -1):
            self.last[self.above[i]] = max(self.last[self.above[i]], self.last[i])
        self.bounds = [[*(self.start[i] for i in cycle[1:]), self.end(cycle[-1])] for cycle in cactus.cycles]

    def end(self, node: int) -> int:
        """The place in `order` behind the vertices at and under a node."""
        return self.start[self.last[node] + 1]

    def side(self, cut: Range) -> list[int]:
        """The vertices of the side without vertex 0, ascending."""
        return sorted(self.order[cut[0]:cut[1]])

    def bridges(self) -> Iterator[Range]:
        return ((self.start[lower], self.end(lower)) for _, lower in self.cactus.bridges)

    def repeated(self, cycle: int) -> bool:
        """Whether both edges at the top of this cycle are a cut of another cycle: its top has no vertices and lies in these two alone."""
        return self.cactus.cycles[cycle][0] in self.shared

    def all(self) -> Iterator[Range]:
        """Each minimum cut once."""
        yield from self.bridges()
        for k, bounds in enumerate(self.bounds):
            last = len(bounds) - 1
            for p, low in enumerate(bounds):
                for q in range(p + 1, last if p == 0 and self.repeated(k) else len(bounds)):
                    yield low, bounds[q]

    # By balance

    def balance(self, cut: Range) -> int:
        """The lesser of the masses of both sides."""
        mass: int = self.before[cut[1]] - self.before[cut[0]]
        return min(mass, self.before[-1] - mass)

    def balanced(self, least: int) -> Iterator[Range]:
        """The minimum cuts of this balance or more, in a few steps for each border of a cycle and each cut."""
        if least <= 0:
            yield from self.all()
            return
        yield from (cut for cut in self.bridges() if self.balance(cut) >= least)
        for k, bounds in enumerate(self.bounds):
            masses = [self.before[bound] for bound in bounds]
            for p, low in enumerate(bounds):
                first = bisect_left(masses, masses[p] + least, p + 1)
                behind = bisect_right(masses, masses[p] + self.before[-1] - least, p + 1)
                for q in range(first, behind):
                    if not (p == 0 and q == len(bounds) - 1 and self.repeated(k)):
                        yield low, bounds[q]

    def best(self) -> Range:
        """A minimum cut whose balance is as great as any, the first by its range of several."""
        return min(self.good(), key=lambda cut: (-self.balance(cut), cut))

    def good(self) -> Iterator[Range]:
        """Of all cuts with one border those two that are nearest to half of the mass, and all bridges."""
        yield from self.bridges()
        for bounds in self.bounds:
            masses = [self.before[bound] for bound in bounds]
            for p, low in enumerate(bounds[:-1]):
                half = bisect_left(masses, masses[p] + self.before[-1] / 2, p + 1)
                yield from ((low, bounds[q]) for q in (half - 1, half) if p < q < len(bounds))

    # Two vertices

    def path(self, u: int, v: int) -> tuple[list[tuple[int, int, int]], int]:
        """(blocks, repeats): the blocks between the nodes of two vertices, as (cycle, place, place) with two places in it, the first the
        lesser, or as (-1 - bridge, 0, 0); and how many minimum cuts that part the two are cuts of two of these cycles."""
        blocks: list[tuple[int, int, int]] = []
        i, j = self.node_of[u], self.node_of[v]
        repeats = 0
        while i != j:
            if self.depth[i] < self.depth[j]:
                i, j = j, i
            number, place = self.block[i]
            repeats += i in self.shared
            if number == self.block[j][0] and number >= 0 and self.depth[i] == self.depth[j]:
                beside = self.block[j][1]
                repeats += j in self.shared
                return [*blocks, (number, min(place, beside), max(place, beside))], repeats
            blocks.append((number, 0, place))
            i = self.above[i]
        return blocks, repeats

    def parting_count(self, u: int, v: int) -> int:
        """How many minimum cuts have these two vertices on two sides; a few steps for each block between them."""
        blocks, repeats = self.path(u, v)
        count = -repeats
        for number, first, second in blocks:
            size = len(self.cactus.cycles[number]) if number >= 0 else 2
            count += (second - first) * (size - second + first) if number >= 0 else 1
        return count

    def parting(self, u: int, v: int) -> set[Range]:
        """The minimum cuts that have these two vertices on two sides."""
        found: set[Range] = set()
        for number, first, second in self.path(u, v)[0]:
            if number < 0:
                lower = self.cactus.bridges[-1 - number][1]
                found.add((self.start[lower], self.end(lower)))
                continue
            bounds = self.bounds[number]
            found.update((bounds[p], bounds[q]) for p in range(first, second) for q in range(second, len(bounds)))
            found.update((bounds[p], bounds[q]) for p in range(first) for q in range(first, second))
        return found

    # Each vertex

    def lighter_counts(self) -> list[int]:
        """For each vertex the number of minimum cuts of whose lighter side it is; of two equal sides that without vertex 0 counts."""
        total, n = self.before[-1], len(self.order)
        steps = [0] * (n + 1)

        def add(low: int, high: int, times: int) -> None:
            steps[low] += times
            steps[high] -= times

        def add_cut(low: int, high: int, times: int = 1) -> None:
            if 2 * (self.before[high] - self.before[low]) <= total:
                add(low, high, times)
            else:
                add(0, n, times)
                add(low, high, -times)

        for cut in self.bridges():
            add_cut(*cut)
        for k, bounds in enumerate(self.bounds):
            self.add_cycle(bounds, add)
            if self.repeated(k):
                add_cut(bounds[0], bounds[-1], -1)
        by_place = list(accumulate(steps[:-1]))
        counts = [0] * n
        for place, v in enumerate(self.order):
            counts[v] = by_place[place]
        return counts

    def add_cycle(self, bounds: list[int], add: Callable[[int, int, int], None]) -> None:
        """Adds the lighter sides of all pairs of borders of a cycle, in a few steps for each border and not for each pair.

        Stretch s lies between the borders s and s + 1. From border p the ranges to the borders up to t are the lighter sides: t - s of
        them have stretch s, where s is p or more. Beyond t the rest is the lighter side: it has each stretch before p every time, and
        stretch s beyond t as often as a range ends at or before it, s - t times. `jumps` and `rises` have the steps of these numbers from
        stretch to stretch, and the steps of the steps."""
        masses, half, size = [self.before[bound] for bound in bounds], self.before[-1] // 2, len(bounds)
        rises, jumps = [0] * (size + 1), [0] * (size + 1)
        for p in range(size - 1):
            t = bisect_right(masses, masses[p] + half, p + 1) - 1
            jumps[p] += t - p
            rises[p + 1] -= 1
            rises[t + 1] += 1
            heavy = size - 1 - t
            if heavy:
                add(0, bounds[0], heavy)
                add(bounds[-1], len(self.order), heavy)
                jumps[0] += heavy
                jumps[p] -= heavy
                rises[t + 1] += 1
        slope = level = 0
        for s in range(size - 1):
            slope += rises[s]
            level += slope + jumps[s]
            add(bounds[s], bounds[s + 1], level)
