"""Pajek's .net files: *Vertices with names and places, then *Edges, *Edgeslist, *Arcs, *Arcslist or *Matrix."""
from __future__ import annotations

import re
from typing import Any

from ..errors import BadInput
from ..graph import MOST_VERTICES, RawGraph
from ..matrices import unsymmetric
from .attributes import AttributeGraph
from .options import ReadOptions

WORD = re.compile(r'"([^"]*)"|(\S+)')


class Pajek:
    """A file as far as it was read: one line after the other is given to `take`."""

    def __init__(self) -> None:
        self.graph = AttributeGraph()
        self.count, self.section, self.row = 0, '', 0
        self.matrix: dict[tuple[int, int], str] = {}

    def take(self, words: list[str]) -> None:
        if words[0].startswith('*'):
            self.section, self.row = words[0].lower(), 0
            if self.section == '*vertices':
                if self.graph.vertices:
                    raise BadInput('has a second network; leave one')
                self.count = int(words[1])
                if self.count > MOST_VERTICES:
                    raise BadInput(f'has more than {MOST_VERTICES:,} vertices')
                self.graph.vertices = {str(i): {} for i in range(1, self.count + 1)}
            elif self.section not in ('*network', '*edges', '*arcs', '*edgeslist', '*arcslist', '*matrix'):
                raise BadInput(f'has a section {words[0]}, which is not read')
        elif self.section == '*vertices':
            self.vertex(words)
        elif self.section in ('*edges', '*arcs'):
            self.graph.add_edge(words[0], words[1], {'weight': words[2]} if len(words) > 2 else {})
            self.graph.directed |= self.section == '*arcs'
        elif self.section in ('*edgeslist', '*arcslist'):
            for word in words[1:]:
                self.graph.add_edge(words[0], word, {})
            self.graph.directed |= self.section == '*arcslist'
        elif self.section == '*matrix':
            self.matrix_row(words)
        else:
            raise BadInput('is no Pajek file: it does not begin with *Vertices')

    def vertex(self, words: list[str]) -> None:
        attributes: dict[str, Any] = {'label': words[1]} if len(words) > 1 else {}
        if len(words) > 3 and all(re.fullmatch(r'-?[\d.]+', word) for word in words[2:4]):
            attributes.update(x=words[2], y=words[3])
        if words[0] not in self.graph.vertices:
            raise BadInput(f'has a vertex {words[0]}, and *Vertices says 1 to {self.count}')
        self.graph.vertices[words[0]] = attributes

    def matrix_row(self, words: list[str]) -> None:
        """Row i has the weights towards each vertex; those left of the diagonal are the same again where the matrix is symmetric."""
        self.row += 1
        if self.row > self.count or len(words) != self.count:
            raise BadInput(f'the matrix is not {self.count} by {self.count}')
        self.matrix.update({(self.row, j): word for j, word in enumerate(words, 1) if word != '0'})

    def finish(self) -> None:
        """Takes in the matrix, if there is one: each edge once where it is symmetric; that of another matrix is directed."""
        mirrored = all(self.matrix.get((j, i)) == w for (i, j), w in self.matrix.items())
        self.graph.directed |= not mirrored
        for (i, j), w in self.matrix.items():
            if i <= j or not mirrored:
                self.graph.add_edge(str(i), str(j), {'weight': w})


def read_pajek(text: str, options: ReadOptions) -> RawGraph:
    reader = Pajek()
    for number, line in enumerate(text.splitlines(), 1):
        words = [quoted or word for quoted, word in WORD.findall(line)]
        if not words or words[0].startswith('%'):
            continue
        try:
            reader.take(words)
        except (IndexError, ValueError) as fault:
            raise BadInput(f'line {number}: {fault if isinstance(fault, BadInput) else "a number or a vertex is missing"}') from None
    reader.finish()
    raw = reader.graph.raw_graph(options)
    if raw.directed and reader.matrix:
        raw.arrows = unsymmetric(raw.names, [(i - 1, j - 1, w) for (i, j), w in reader.matrix.items()])
    return raw
