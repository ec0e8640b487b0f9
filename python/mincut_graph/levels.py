"""What comes after the first minimum cuts: the parts that minimum cuts leave whole, each cut by its own minimum cuts again.

Let c be the value of a graph. A set of vertices whose own subgraph has a value above c is parted by no minimum cut of the graph, since
such a cut would cut that subgraph by c or less. So it lies within one node of the cactus, and going down from node to node finds, for
each k, the maximal sets whose subgraphs have value k or more: with unit weights the k-edge-connected subgraphs.
"""
from __future__ import annotations

from collections import deque
from collections.abc import Callable, Sequence
from dataclasses import dataclass, field
from typing import Any, Optional

from .cactus import Cactus
from .changes import divided, peeled
from .errors import BadInput, Disconnected, NoCut
from .graph import Graph
from .results import Link

Solver = Callable[[Graph], Cactus]


@dataclass(frozen=True)
class Part:
    """Vertices that stay together until the minimum cuts of their own subgraph separate them.

    `number`: its place in `Levels.parts`; `above`: that of the part it comes from, None for the first. `vertices`: two or more, but for a
    graph whose core is one vertex. `value`: that of its subgraph, 0 where it is not connected, None for one vertex. `links`: those
    between the pieces into which it comes apart, none where it is not cut further. These pieces are `parts`, by their numbers, and the
    vertices `alone`."""
    number: int
    above: Optional[int]
    vertices: list[Any]
    value: Optional[int]
    links: list[Link]
    parts: list[int]
    alone: list[Any]


@dataclass(frozen=True)
class Levels:
    """The parts of a graph as a tree. `parts[0]` is the whole graph, and each part stands behind the one it comes from.

    `up_to`: parts of this value or more were not cut further; None where all were. `stubs`: links to what was taken off before, each with
    the vertex that went as its source, in the order in which they went."""
    parts: list[Part]
    up_to: Optional[int] = None
    stubs: list[Link] = field(default_factory=list)

    def __repr__(self) -> str:
        top = self.parts[0]
        return f'Levels({len(top.vertices)} vertices of value {top.value}, {len(self.parts)} parts, {len(self.stubs)} stubs)'

    def at(self, value: int) -> list[list[Any]]:
        """The maximal sets whose own subgraph has this value or more, and each other vertex by itself. They are in the order of their first
        vertices, without stubs. Raises BadInput above `up_to`. Takes a few steps for each part and vertex.

        >>> from mincut_graph import MinimumCuts
        >>> MinimumCuts([('a', 'b'), ('b', 'c'), ('c', 'a'), ('c', 'd')]).levels().at(2)
        [['a', 'b', 'c'], ['d']]"""
        if self.up_to is not None and value > self.up_to:
            raise BadInput(f'these levels go up to {self.up_to}; ask for levels up to {value}')
        found, todo = [], [0]
        for number in todo:
            part = self.parts[number]
            if part.value is not None and part.value >= value:
                found.append(part.vertices)
            else:
                found += [[vertex] for vertex in (part.vertices if part.value is None else part.alone)]
                todo += part.parts
        place = {vertex: k for k, vertex in enumerate(self.parts[0].vertices)}
        return sorted((list(vertices) for vertices in found), key=lambda vertices: place[vertices[0]])

    def level_of(self) -> dict[Any, int]:
        """For each vertex the greatest value of a part that has it, 0 for one without a link. A stub has its heaviest link.

        >>> from mincut_graph import MinimumCuts
        >>> MinimumCuts([('a', 'b'), ('b', 'c'), ('c', 'a'), ('c', 'd')]).levels().level_of()
        {'a': 2, 'b': 2, 'c': 2, 'd': 1}"""
        level = {vertex: 0 for vertex in self.parts[0].vertices}
        for part in self.parts:
            for vertex in part.vertices:
                level[vertex] = max(level[vertex], part.value or 0)
        for stub in self.stubs:
            for vertex in stub[:2]:
                level[vertex] = max(level.get(vertex, 0), stub.weight)
        return level


def levels_of(graph: Graph, solve: Solver, up_to: Optional[int] = None, without_stubs: bool = False) -> Levels:
    """The levels of a graph; `solve` gives the canonical cactus of a part, or raises Disconnected, and is called once for each part of
    three vertices or more."""
    if not graph.names:
        raise NoCut('the graph has no vertex, so it has no parts')
    stubs: list[Link] = []
    if without_stubs:
        core, taken = peeled(graph)
        stubs = [Link(graph.names[i], graph.names[j], w) for i, j, w in taken]
        graph = divided(graph, [core])[0][0]
    parts: list[Part] = []
    waiting: deque[tuple[Optional[int], Graph]] = deque([(None, graph)])
    while waiting:
        above, one = waiting.popleft()
        number = len(parts)
        part, pieces = part_of(number, above, one, solve, up_to)
        first = number + 1 + len(waiting)
        part.parts.extend(range(first, first + len(pieces)))
        parts.append(part)
        waiting.extend((number, piece) for piece in pieces)
    return Levels(parts, up_to, stubs)


def part_of(number: int, above: Optional[int], graph: Graph, solve: Solver, up_to: Optional[int]) -> tuple[Part, list[Graph]]:
    """(part, pieces): the part that this graph is, and the graphs of two vertices or more into which it comes apart."""
    value, pieces = pieces_of(graph, solve)
    if value is None or (up_to is not None and value >= up_to):
        return Part(number, above, list(graph.names), value, [], [], []), []
    graphs, between = divided(graph, [piece for piece in pieces if len(piece) > 1])
    links = [Link(graph.names[i], graph.names[j], w) for i, j, w in between]
    alone = [graph.names[piece[0]] for piece in pieces if len(piece) == 1]
    return Part(number, above, list(graph.names), value, links, [], alone), graphs


def pieces_of(graph: Graph, solve: Solver) -> tuple[Optional[int], Sequence[Sequence[int]]]:
    """(value, pieces): what no minimum cut parts, as ascending lists of places in the order of their first; the components of a graph of
    value 0. Of two vertices nothing is to be found out."""
    if len(graph.names) == 1:
        return None, []
    if len(graph.names) == 2:
        return sum(w for _, _, w in graph.edges), [[0], [1]]
    try:
        cactus = solve(graph)
    except Disconnected:
        return 0, graph.components()
    return cactus.value, sorted((node for node in cactus.nodes if node), key=lambda node: node[0])
