"""What the page shows: the answers of the program, and what they say of each link."""
from __future__ import annotations

from bisect import bisect_right
from collections.abc import Mapping, Sequence
from dataclasses import dataclass, field
from itertools import islice
from typing import Any, Optional

from ..cactus import Cactus
from ..cuts import MinimumCuts
from ..graph import Graph
from ..program import Program
from .amounts import Amounts
from .extras import checked_changes, checked_levels
from .places import Place, Places

MOST_PLACES = 500                      # rows of the list of places
MOST_WORK = 4_000_000                  # rows of that list times vertices


@dataclass
class Findings:
    """Vertices are places in the graph; `plan` and `sets` are those of the job `augment`. Where the graph has several components there
    is no cactus, and nothing that comes of it."""
    graph: Graph
    components: list[list[int]]
    amounts: Amounts
    cactus: Optional[Cactus] = None
    count: int = 0
    balance: int = 0
    side: list[int] = field(default_factory=list)      # the lighter one
    plan: list[list[int]] = field(default_factory=list)
    sets: list[list[int]] = field(default_factory=list)
    places: list[Place] = field(default_factory=list)
    levels: list[dict[str, Any]] = field(default_factory=list)
    what_if: list[dict[str, Any]] = field(default_factory=list)

    def node_of(self) -> list[int]:
        """The node of the cactus in which each vertex is, or its component where there is no cactus."""
        found = [0] * len(self.graph.names)
        for i, members in enumerate(self.components if self.cactus is None else self.cactus.nodes):
            for v in members:
                found[v] = i
        return found


def findings_of(cuts: MinimumCuts, amounts: Amounts, levels: Optional[Sequence[Mapping[str, Any]]],
                what_if: Optional[Sequence[Mapping[str, Any]]]) -> Findings:
    """Raises what the jobs cactus, count, balanced and augment raise, and BadInput for levels or changes of another form."""
    graph, limit = cuts.graph, cuts.time_limit
    found = Findings(graph, graph.components(), amounts)
    found.levels, found.what_if = checked_levels(graph, levels or []), checked_changes(graph, what_if or [])
    if len(found.components) > 1:
        return found
    program = Program(cuts.program, cuts.workers)
    found.cactus = cuts.fastest().cactus(graph, limit)
    _, found.count = cuts.fastest().count(graph, limit)
    _, found.balance, side = program.balanced(graph, limit)
    if 2 * graph.mass(side) > graph.mass(range(len(graph.names))):
        side = sorted(set(range(len(graph.names))) - set(side))
    found.side = side
    _, found.plan, found.sets = program.augment(graph, limit)
    rows = max(20, min(MOST_PLACES, MOST_WORK // len(graph.names)))
    found.places = list(islice(Places(found.cactus, graph).by_balance(), rows))
    return found


# In how many places a link is

def link_counts(graph: Graph, cactus: Cactus, node_of: Sequence[int]) -> dict[int, int]:
    """The number of minimum cuts that have each link which is in one; the links are numbered as in the graph."""
    above = {lower: (-1, 1, upper) for upper, lower in cactus.bridges}
    above.update({i: (k, place, cycle[0]) for k, cycle in enumerate(cactus.cycles) for place, i in enumerate(cycle) if place})
    shared = {frozenset(found) for found in cactus.shared_nodes().values()}
    counts = {}
    for number, (i, j, _) in enumerate(graph.edges):
        if node_of[i] != node_of[j]:
            counts[number] = cuts_between(node_of[i], node_of[j], above, cactus.cycles, shared)
    return counts


def cuts_between(a: int, b: int, above: Mapping[int, tuple[int, int, int]], cycles: Sequence[Sequence[int]],
                 shared: set[frozenset[int]]) -> int:
    """The number of minimum cuts that part two nodes. `above` has the cycle of the block over each node, or -1, the node's place in it,
    and its top. Nodes are numbered as they are entered, so the greater of two is never above the other, and what lies between the first
    node below the top of a cycle and a later one hangs at that cycle. Two cycles that share an empty node of their own have one cut in
    common, which counts once."""
    total = 0
    way: tuple[list[int], list[int]] = ([], [])
    while a != b:
        low, high = min(a, b), max(a, b)
        cycle, place, top = above[high]
        way[a < b].append(cycle)
        if cycle < 0:
            total, high = total + 1, top
        elif low < cycles[cycle][1]:
            total, high = total + place * (len(cycles[cycle]) - place), top
        else:
            beside = bisect_right(cycles[cycle], low, 1) - 1
            total, high = total + (place - beside) * (len(cycles[cycle]) - place + beside), cycles[cycle][beside]
        a, b = (low, high) if a < b else (high, low)
    blocks = way[0] + way[1][::-1]
    return total - sum(frozenset(pair) in shared for pair in zip(blocks, blocks[1:]) if pair[0] >= 0)
