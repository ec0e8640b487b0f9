"""A graph as the program takes it: names of vertices, each edge once with a whole weight, masses, and what was noticed on the way."""
from __future__ import annotations

from array import array
from collections import Counter
from collections.abc import Hashable, Iterable, Sequence
from dataclasses import dataclass, field, replace
from typing import Any, Optional, Union

from .edges import Columns, Edges, Merged, edges_of, merged, metis_bytes
from .errors import BadInput, Refused
from .numbers import whole_numbers

Position = tuple[float, float]
MOST_WEIGHT = 1 << 61                  # of all edges together, as in the program
MOST_VERTICES = 4_194_304              # as there
TOO_HEAVY = 'the weights add up to more than 2^61; divide all by a common divisor, or round them'
ARROWS = ('the graph is directed, and minimum cuts are those of an undirected one; '
          'to take each arrow as an edge: --undirected, or undirected=True')


@dataclass
class RawGraph:
    """A graph as a file or another library has it: loops, parallel edges and weights of any form.

    `edges` has triples (i, j, weight) of places in `names`, counted from 0: a list, or `Edges`, which keeps them as columns. `masses` and
    `positions`, where there are any, have one entry for each vertex; a position is (right, up). `notes` are sentences for whoever gave the
    graph. `directed`: whether edges are arrows; `arrows` is then what is said where they may not be taken as edges. `origin` is the file,
    and `lines` has the line of each edge in it, for what is said of a weight."""
    names: list[Any]
    edges: Sequence[tuple[int, int, Any]]
    masses: Optional[list[Any]] = None
    positions: Optional[list[Position]] = None
    notes: list[str] = field(default_factory=list)
    directed: bool = False
    arrows: str = ARROWS
    origin: str = ''
    lines: Optional[Sequence[int]] = None

    def edge_called(self, k: int) -> str:
        """The weight of edge k, as an error names it."""
        i, j, _ = self.edges[k]
        return f'{self.line_of(k)}the weight of the edge {self.names[i]} - {self.names[j]}'

    def line_of(self, k: int) -> str:
        return '' if self.lines is None else f'line {self.lines[k]}: '


class Text(Edges):
    """Edges that stand in METIS text, once each and with whole weights, and are read from it when they are asked for.

    `text`: the METIS text. `origin`: the file that it comes from. `masses`: the masses in it, or None."""
    text: bytes
    origin: str
    masses: Optional[list[int]]


@dataclass(frozen=True)
class Graph:
    """A weighted undirected graph.

    `names`: n different names. `edges`: triples (i, j, w) with 0 <= i < j < n, ascending, each pair once, w a whole number above 0; a list
    of these becomes `Edges`, a sequence that keeps them as columns. `masses`: n whole numbers, or None where each vertex has mass 1.
    `positions`: n pairs (right, up), or None."""
    names: list[Hashable]
    edges: Sequence[tuple[int, int, int]]
    masses: Optional[list[int]] = None
    positions: Optional[list[Position]] = None
    notes: tuple[str, ...] = ()

    def __post_init__(self) -> None:
        try:
            object.__setattr__(self, 'edges', edges_of(self.edges, whole=True))
        except OverflowError:
            raise Refused(1, TOO_HEAVY) from None

    @property
    def columns(self) -> Columns:
        """The edges as arrays: of their first ends, of their second ends and of their weights."""
        assert isinstance(self.edges, Edges)
        return self.edges.columns

    def mass(self, vertices: Sequence[int]) -> int:
        """The mass of these vertices, given by their places."""
        return len(vertices) if self.masses is None else sum(self.masses[i] for i in vertices)

    def components(self) -> list[list[int]]:
        """The components, each as the ascending list of its places; in the order of their first vertices."""
        above = list(range(len(self.names)))
        heads, tails, _ = self.columns
        for i, j in zip(heads, tails):
            while above[i] != i:
                above[i] = i = above[above[i]]
            while above[j] != j:
                above[j] = j = above[above[j]]
            if i < j:
                above[j] = i
            else:
                above[i] = j
        found: dict[int, list[int]] = {}
        for i, up in enumerate(above):
            above[i] = above[up]       # a vertex is never above a lesser one, and all lesser ones are at their first by now
            found.setdefault(above[i], []).append(i)
        return list(found.values())

    def neighbours(self) -> list[list[int]]:
        """For each vertex the places of its neighbours, ascending."""
        near: list[list[int]] = [[] for _ in self.names]
        heads, tails, _ = self.columns
        for i, j in zip(heads, tails):
            near[j].append(i)
        for i, j in zip(heads, tails):
            near[i].append(j)
        return near

    def part(self, places: Sequence[int]) -> Graph:
        """The graph on these vertices alone, given by their ascending places."""
        return self.parts([places])[0]

    def parts(self, groups: Sequence[Sequence[int]]) -> list[Graph]:
        """The graph on each of some disjoint groups of vertices alone, given by their ascending places; all edges are gone through once."""
        group, place = [-1] * len(self.names), [0] * len(self.names)
        for g, places in enumerate(groups):
            for k, i in enumerate(places):
                group[i], place[i] = g, k
        columns = [(array('I'), array('I'), array('Q')) for _ in groups]
        for i, j, w in self.edges:
            if group[i] == group[j] >= 0:
                heads, tails, weights = columns[group[i]]
                heads.append(place[i])
                tails.append(place[j])
                weights.append(w)
        return [replace(self, names=[self.names[i] for i in places], edges=Edges(*columns[g]),
                        masses=None if self.masses is None else [self.masses[i] for i in places],
                        positions=None if self.positions is None else [self.positions[i] for i in places])
                for g, places in enumerate(groups)]

    def largest(self) -> Graph:
        """The component with most vertices, of several such the first; a note says what was left out."""
        parts = self.components()
        if len(parts) < 2:
            return self
        kept = self.part(max(parts, key=len))
        left_out = len(self.names) - len(kept.names)
        note = f'{counted(left_out, "vertex", "vertices")} outside the largest component left out'
        return replace(kept, notes=(*self.notes, note))

    def metis_text(self) -> bytes:
        """The graph as METIS text, the form that the program reads; vertices are numbered from 1 in the order of the names. Where the
        graph is that of a METIS file it is this file, as it stands."""
        if isinstance(self.edges, Text) and self.masses is self.edges.masses:
            return self.edges.text
        return metis_bytes(len(self.names), self.columns, self.masses)


def counted(number: int, one: str, many: str) -> str:
    """A number with its noun, as '1 edge' or '2 edges'."""
    return f'{number:,} {one if number == 1 else many}'


def finished(raw: RawGraph, scale: int = 1, undirected: bool = False) -> Graph:
    """The graph with whole weights, times `scale`, parallel edges added up, loops and edges of weight 0 left out.

    Raises BadInput for a directed graph that is not to be taken as undirected, for a name that stands twice, and for weights and masses
    that are no whole numbers of 0 or more; Refused where the weights add up to more than 2^61. It takes about a microsecond for each edge
    and as much for each vertex; a METIS file is taken as it is, unread, if `scale` is 1."""
    if isinstance(raw.edges, Text) and scale == 1 and raw.masses is raw.edges.masses:
        return Graph(raw.names, raw.edges, raw.masses, raw.positions, tuple(raw.notes))
    try:
        return checked(raw, scale, undirected)
    except BadInput as fault:
        raise BadInput(f'{raw.origin}: {fault}') from None if raw.origin else fault


def checked(raw: RawGraph, scale: int, undirected: bool) -> Graph:
    if raw.directed and not undirected:
        raise BadInput(raw.arrows)
    if len(set(raw.names)) < len(raw.names):
        raise BadInput(f'two vertices have the name {Counter(raw.names).most_common(1)[0][0]!r}')
    edges = edges_of(raw.edges)
    weights = whole_numbers(edges.columns.weights, raw.edge_called, scale)
    masses = None if raw.masses is None else list(whole_numbers(raw.masses, lambda k: f'the mass of the vertex {raw.names[k]}', kind='masses'))
    found = merged(len(raw.names), edges.columns.heads, edges.columns.tails, column_of(edges, weights))
    notes = (*raw.notes, *left_out(found))
    if scale != 1:
        notes = (*notes, f'all weights are multiplied by {scale}, and so is the value')
    return Graph(raw.names, found.edges, masses, raw.positions, notes)


def column_of(edges: Edges, weights: Sequence[int]) -> array[int]:
    """The weights as a column of 64 bits; raises Refused where those that count add up to more than 2^61."""
    heads, tails, _ = edges.columns
    if sum(weights) > MOST_WEIGHT:
        weights = [0 if i == j else w for i, j, w in zip(heads, tails, weights)]
        if sum(weights) > MOST_WEIGHT:
            raise Refused(1, TOO_HEAVY)
    return weights if isinstance(weights, array) else array('Q', weights)


def left_out(found: Merged) -> list[str]:
    """Notes on the edges that are in no cut, and on those that were added to others."""
    notes = []
    if found.loops:
        notes.append(f'{counted(found.loops, "loop", "loops")} left out: no cut has one')
    if found.parallel:
        notes.append(f'{counted(found.parallel, "parallel edge", "parallel edges")} added to the first between the same vertices')
    if found.empty:
        notes.append(f'{counted(found.empty, "edge", "edges")} of weight 0 left out')
    return notes
