"""New links in real capacities, and a good set of candidates that raises the value to a target."""
from __future__ import annotations

from collections.abc import Callable, Sequence
from fractions import Fraction
from typing import Any, NamedTuple, Optional

from .cactus import Cactus
from .changes import Triple, changed
from .errors import BadInput, Disconnected
from .graph import Graph
from .numbers import fraction_of, whole_numbers
from .ranges import Ranges

Solver = Callable[[Graph], Cactus]
Valuer = Callable[[Graph], int]
SHOWN = 8                              # names of a side that is told


class Chosen(NamedTuple):
    """`taken`: the numbers of the candidates of the set, in the order in which they were taken."""
    taken: list[int]
    cost: float
    before: int
    after: int
    target: int


def links_of_capacity(graph: Graph, edges: Sequence[Sequence[int]], capacity: Optional[int]) -> list[Triple]:
    """These edges with this capacity, or with the least weight in the graph."""
    if capacity is None:
        capacity = min(w for _, _, w in graph.edges)
    whole, = whole_numbers([capacity], lambda _: 'the capacity')
    if whole == 0:
        raise BadInput('the capacity is 0; it has to be 1 or more')
    return [(i, j, whole) for i, j in edges]


def chosen_candidates(graph: Graph, edges: Sequence[Triple], costs: Optional[Sequence[Any]], target: Optional[int],
                      solve: Solver, value: Valuer) -> Chosen:
    """A set of candidates that raises the value to the target, from which none can be left out.

    One is added at a time: the one that costs least for each minimum cut that it parts and each unit by which it lifts it. At the end
    those that later ones made needless are taken off again, the dearest first. Where all candidates together reach the target, each
    minimum cut below it is parted by one that is left, so there is always a next one."""
    prices = prices_of(costs, len(edges))
    before, scores = scored(graph, solve)
    wanted = before + 1 if target is None else target
    if before < wanted:
        check_reach(graph, edges, before, wanted, solve, value)
    taken: list[int] = []
    current, reached = graph, before
    while reached < wanted:
        worth = {k: scores(i, j) * min(w, wanted - reached) for k, (i, j, w) in enumerate(edges) if k not in taken}
        best = min((k for k in worth if worth[k]), key=lambda k: (prices[k] / worth[k], -worth[k], k))
        taken.append(best)
        current = changed(current, [edges[best]])
        reached, scores = scored(current, solve)
    for k in sorted(taken, key=lambda k: -prices[k]):
        rest = [other for other in taken if other != k]
        lower = value(changed(graph, [edges[other] for other in rest])) if rest else before
        if lower >= wanted:
            taken, reached = rest, lower
    total = sum((prices[k] for k in taken), Fraction(0))
    return Chosen(taken, int(total) if total.denominator == 1 else float(total), before, reached, wanted)


def prices_of(costs: Optional[Sequence[Any]], count: int) -> list[Fraction]:
    if costs is None:
        return [Fraction(1)] * count
    if len(costs) != count:
        raise BadInput(f'{count} candidates and {len(costs)} costs; give one cost for each')
    prices = [fraction_of(cost, f'the cost of candidate {k}') for k, cost in enumerate(costs, 1)]
    for k, price in enumerate(prices, 1):
        if price < 0:
            raise BadInput(f'the cost of candidate {k} is {costs[k - 1]}; it has to be 0 or more')
    return prices


def scored(graph: Graph, solve: Solver) -> tuple[int, Callable[[int, int], int]]:
    """(value, score): the score of two vertices is the number of minimum cuts that part them; 1 or 0 where the graph is not connected."""
    try:
        cactus = solve(graph)
    except Disconnected:
        part_of = {i: number for number, places in enumerate(graph.components()) for i in places}
        return 0, lambda i, j: int(part_of[i] != part_of[j])
    return cactus.value, Ranges(cactus).parting_count


def check_reach(graph: Graph, edges: Sequence[Triple], before: int, wanted: int, solve: Solver, value: Valuer) -> None:
    """Raises BadInput where all candidates together do not reach the target; it names what is weakest then."""
    grown = changed(graph, edges)
    most = value(grown)
    if most >= wanted:
        return
    try:
        ranges = Ranges(solve(grown))
        side = ranges.side(ranges.best())
    except Disconnected:
        side = min(grown.components(), key=len)
    names = ', '.join(str(grown.names[i]) for i in side[:SHOWN]) + (', ..' if len(side) > SHOWN else '')
    raise BadInput(f'all {len(edges)} candidates together raise the value from {before} to {most}, and not to {wanted}; '
                   f'give some that join {names} with the rest')
