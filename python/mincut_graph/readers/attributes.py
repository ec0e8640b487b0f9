"""Graphs whose vertices and edges have named attributes, as GraphML, GML and Pajek have them."""
from __future__ import annotations

from array import array
from collections.abc import Mapping
from typing import Any, Optional

from ..edges import Edges
from ..errors import BadInput, UnknownName
from ..graph import Position, RawGraph, counted
from ..numbers import fraction_of
from .headings import one_weight
from .options import ReadOptions

LABELS = ('label', 'name')
PLACES = (('longitude', 'latitude', 1.0), ('lon', 'lat', 1.0), ('lng', 'lat', 1.0), ('x', 'y', -1.0))


class AttributeGraph:
    """`vertices`: the attributes of each vertex by its name in the file. Edges are kept as columns: the numbers of their ends in `ends`,
    and for each attribute its value at each edge, None where it has none, up to the last that has one."""

    def __init__(self, directed: bool = False) -> None:
        self.vertices: dict[str, Mapping[str, Any]] = {}
        self.directed = directed
        self.ends: dict[Any, int] = {}
        self.heads, self.tails = array('I'), array('I')
        self.attributes: dict[str, list[Any]] = {}

    def add_edge(self, u: Any, v: Any, attributes: Mapping[str, Any]) -> None:
        """An edge between two vertices, which may be added later."""
        for key, entry in attributes.items():
            column = self.attributes.setdefault(key, [])
            if len(column) < len(self.heads):
                column.extend([None] * (len(self.heads) - len(column)))
            column.append(entry)
        self.heads.append(self.ends.setdefault(u, len(self.ends)))
        self.tails.append(self.ends.setdefault(v, len(self.ends)))

    def raw_graph(self, options: ReadOptions) -> RawGraph:
        place = {name: i for i, name in enumerate(self.vertices)}
        missing = next((name for name in self.ends if name not in place), self)
        if missing is not self:
            raise BadInput(f'an edge has the end {missing!r}, which is no vertex')
        new = array('I', [place[name] for name in self.ends])
        notes: list[str] = []
        names = self.names(options.name, notes)
        edges = Edges(array('I', map(new.__getitem__, self.heads)), array('I', map(new.__getitem__, self.tails)), self.weights(options, notes))
        masses = None if options.mass is None else self.column(options.mass)
        return RawGraph(names, edges, masses, self.positions(), notes, self.directed)

    def names(self, wanted: Optional[str], notes: list[str]) -> list[Any]:
        """The attribute that is asked for, or a label that each vertex has and no two share, or the names in the file."""
        if wanted is not None:
            return [str(name) for name in self.column(wanted)]
        for label in LABELS:
            found = [str(attributes.get(label, '')).strip() for attributes in self.vertices.values()]
            if all(found) and len(set(found)) == len(found):
                return found
            if all(found) and found:
                notes.append(f'two vertices share a {label}, so vertices go by their ids')
        return list(self.vertices)

    def column(self, attribute: str) -> list[Any]:
        """This attribute of each vertex."""
        known = sorted({key for attributes in self.vertices.values() for key in attributes})
        if attribute not in known:
            raise UnknownName(f'no vertex has the attribute {attribute!r}; there are: {", ".join(known) or "none"}')
        for name, attributes in self.vertices.items():
            if attribute not in attributes:
                raise BadInput(f'the vertex {name} has no {attribute!r}')
        return [attributes[attribute] for attributes in self.vertices.values()]

    def weights(self, options: ReadOptions, notes: list[str]) -> list[Any]:
        """The weight of each edge: the attribute asked for, or one with a usual name, or 1; and 1 where an edge has none."""
        known, count = sorted(self.attributes), len(self.heads)
        try:
            attribute = options.weight if options.weight is not None else None if options.unweighted else one_weight(known)
        except ValueError as names:
            raise BadInput(f'several attributes may be the weights: {names}; name one by --weight') from None
        if attribute is None:
            notes.append('each edge weighs 1' + (f'; --weight takes one of: {", ".join(known)}' if known else ''))
            return [1] * count
        if attribute not in known:
            raise UnknownName(f'no edge has the attribute {attribute!r}; there are: {", ".join(known) or "none"}')
        column = self.attributes[attribute] + [None] * (count - len(self.attributes[attribute]))
        without = column.count(None)
        if options.weight is None and attribute != 'weight':
            notes.append(f'weights in {attribute!r}')
        if without:
            notes.append(f'{counted(without, "edge", "edges")} without {attribute!r}, which weigh 1')
        return [1 if entry is None else entry for entry in column]

    def positions(self) -> Optional[list[Position]]:
        """Where the vertices are on a map, as (right, up), if each has a place."""
        lower = [{key.lower(): value for key, value in attributes.items()} for attributes in self.vertices.values()]
        for right, up, sign in PLACES:
            if lower and all(right in attributes and up in attributes for attributes in lower):
                try:
                    return [(float(fraction_of(attributes[right], right)), sign * float(fraction_of(attributes[up], up))) for attributes in lower]
                except BadInput:
                    continue
        return None
