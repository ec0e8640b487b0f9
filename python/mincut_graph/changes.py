"""Graphs made from a graph: with links added or taken away, its parts each by itself, and without what hangs on one link."""
from __future__ import annotations

from collections.abc import Iterable, Sequence
from dataclasses import replace

from .errors import Refused, UnknownName
from .graph import MOST_WEIGHT, Graph

Triple = tuple[int, int, int]


def with_edges(graph: Graph, names: Sequence[int], edges: Iterable[Triple]) -> Graph:
    """The graph on these vertices, given by their places, with these edges between places in `names`; without notes."""
    whole = len(names) == len(graph.names)
    masses, positions = graph.masses, graph.positions
    return replace(graph, names=graph.names if whole else [graph.names[i] for i in names], edges=list(edges),
                   masses=masses if whole or masses is None else [masses[i] for i in names],
                   positions=positions if whole or positions is None else [positions[i] for i in names], notes=())


def changed(graph: Graph, added: Iterable[Triple] = (), removed: Iterable[tuple[int, int]] = ()) -> Graph:
    """The graph with links added, which add up with those that are there, and links taken away whole.

    Raises UnknownName for a link to take away that is not there, and Refused where the weights become too large together."""
    table = {(i, j): w for i, j, w in graph.edges}
    for i, j in removed:
        if table.pop((min(i, j), max(i, j)), None) is None:
            raise UnknownName(f'the graph has no link {graph.names[i]} - {graph.names[j]} to take away')
    for i, j, w in added:
        pair = (min(i, j), max(i, j))
        table[pair] = table.get(pair, 0) + w
    if sum(table.values()) > MOST_WEIGHT:
        raise Refused(1, 'with the new links the weights add up to more than 2^61; divide all by a common divisor')
    return with_edges(graph, range(len(graph.names)), [(*pair, w) for pair, w in sorted(table.items())])


def divided(graph: Graph, parts: Sequence[Sequence[int]]) -> tuple[list[Graph], list[Triple]]:
    """(graphs, edges): the graph on each of these disjoint sets of places, and the edges that have not both ends in one of them.

    One pass over the edges, however many parts there are."""
    part_of, new = [-1] * len(graph.names), [0] * len(graph.names)
    for number, places in enumerate(parts):
        for place, i in enumerate(places):
            part_of[i], new[i] = number, place
    inside: list[list[Triple]] = [[] for _ in parts]
    between = []
    for i, j, w in graph.edges:
        if part_of[i] == part_of[j] >= 0:
            inside[part_of[i]].append((new[i], new[j], w))
        else:
            between.append((i, j, w))
    return [with_edges(graph, places, edges) for places, edges in zip(parts, inside)], between


def peeled(graph: Graph) -> tuple[list[int], list[Triple]]:
    """(core, stubs): vertices with one neighbour are taken off, again and again, each a triple (vertex, neighbour, weight) in the order
    in which they go; the core are the ascending places of those that stay. A tree leaves one vertex."""
    near: list[dict[int, int]] = [{} for _ in graph.names]
    for i, j, w in graph.edges:
        near[i][j] = near[j][i] = w
    todo = [i for i, others in enumerate(near) if len(others) == 1]
    gone: dict[int, tuple[int, int]] = {}
    for i in todo:
        if len(near[i]) != 1:
            continue
        (j, w), = near[i].items()
        gone[i] = (j, w)
        near[i].clear()
        del near[j][i]
        if len(near[j]) == 1:
            todo.append(j)
    return [i for i in range(len(near)) if i not in gone], [(i, j, w) for i, (j, w) in gone.items()]
