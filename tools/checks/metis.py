"""The reader and the writer of METIS text.

The reader is plain and strict: it reads word by word in the order of the file and names the first fault and its line, as the program has
to. Text that is known to be good it takes faster, on trust.
"""
from __future__ import annotations

from collections.abc import Iterator, Sequence
from typing import NamedTuple

from .graphs import Edge, Graph

LIMIT_VERTICES = 4_194_304
LIMIT_EDGES = 16_777_216
LIMIT_SUM = 1 << 62
LIMIT_NUMBER = 1 << 64
MOST_CONSTRAINTS = 32
MOST_DIGITS = 20


class Fault(Exception):
    """The kind of the first fault, and the number of its line."""
    def __init__(self, kind: str, line: int):
        super().__init__(kind, line)
        self.kind = kind
        self.line = line


class Header(NamedTuple):
    """The numbers of vertices and edges; whether there are sizes, how many vertex weights, and whether edges have weights."""
    n: int
    m: int
    sizes: bool
    weights: int
    edge_weights: bool


class File(NamedTuple):
    """A graph, and for each vertex its first weight, or 1 where there are none."""
    graph: Graph
    masses: list[int]


def number(word: bytes, line: int) -> int:
    """The number of a word of digits, below 2^64."""
    if not word.isdigit() or len(word.lstrip(b'0')) > MOST_DIGITS or int(word) >= LIMIT_NUMBER:
        raise Fault('BadNumber', line)
    return int(word)


def words_of(line: bytes) -> list[bytes]:
    """The words of a line, with blanks, tabs and carriage returns between them."""
    return [word for word in line.replace(b'\t', b' ').replace(b'\r', b' ').split(b' ') if word]


def read_header(words: list[bytes], line: int) -> Header:
    """What the words of the first line say."""
    n = number(words[0], line)
    if n > LIMIT_VERTICES:
        raise Fault('TooManyVertices', line)
    if len(words) < 2:
        raise Fault('HeaderWords', line)
    m = number(words[1], line)
    if m > LIMIT_EDGES:
        raise Fault('TooManyEdges', line)
    form = words[2] if len(words) > 2 else b'0'
    if len(form) > 3 or any(byte not in b'01' for byte in form):
        raise Fault('BadFormat', line)
    sizes, weights, edge_weights = (byte == 49 for byte in form.rjust(3, b'0'))
    count = number(words[3], line) if len(words) > 3 else 1
    if weights and not 1 <= count <= MOST_CONSTRAINTS:
        raise Fault('BadConstraints', line)
    if len(words) > 4:
        raise Fault('HeaderWords', line)
    return Header(n, m, sizes, count if weights else 0, edge_weights)


class Judged:
    """The vertex lines of a file that is judged word by word."""
    def __init__(self, header: Header):
        self.header = header
        self.masses, self.rows, self.lines = [], [], []
        self.entries, self.total = 0, 0

    def put(self, words: list[bytes], line: int) -> None:
        """Takes the next vertex line."""
        leading = self.header.sizes + self.header.weights
        before = [number(word, line) for word in words[:leading]]
        if len(words) < leading:
            raise Fault('WordMissing', line)
        self.masses.append(before[self.header.sizes] if self.header.weights else 1)
        self.rows.append(list(self.row_of(words[leading:], line)))
        self.lines.append(line)

    def row_of(self, words: list[bytes], line: int) -> Iterator[tuple[int, int]]:
        """The neighbours of a vertex line with their weights."""
        header, vertex, place = self.header, len(self.rows) + 1, 0
        while place < len(words):
            to, weight = number(words[place], line), 1
            if self.entries == 2 * header.m:
                raise Fault('TooManyEntries', line)
            if not 1 <= to <= header.n:
                raise Fault('NeighbourRange', line)
            if to == vertex:
                raise Fault('SelfLoop', line)
            if header.edge_weights:
                place += 1
                if place == len(words):
                    raise Fault('WordMissing', line)
                weight = number(words[place], line)
                if weight == 0:
                    raise Fault('ZeroWeight', line)
                if self.total + weight > LIMIT_SUM:
                    raise Fault('WeightSum', line)
            place += 1
            self.total += weight
            self.entries += 1
            yield to, weight

    def edges(self, count: int) -> list[Edge]:
        """The edges, at the end of a file of so many lines."""
        if len(self.rows) < self.header.n:
            raise Fault('MissingLines', count)
        if self.entries < 2 * self.header.m:
            raise Fault('TooFewEntries', count)
        for row, line in zip(self.rows, self.lines):
            if len({to for to, _ in row}) < len(row):
                raise Fault('Repeated', line)
        table = [dict(row) for row in self.rows]
        for vertex, (row, line) in enumerate(zip(self.rows, self.lines), 1):
            for to, weight in row:
                if table[to - 1].get(vertex) != weight:
                    raise Fault('Unsymmetric', line)
        return [(u, v, w) for u, row in enumerate(table, 1) for v, w in sorted(row.items()) if u < v]


class Trusted:
    """The vertex lines of a file that is known to be good."""
    def __init__(self, header: Header):
        self.header = header
        self.masses, self.found = [], []

    def put(self, words: list[bytes], line: int) -> None:
        """Takes the next vertex line."""
        leading, u = self.header.sizes + self.header.weights, len(self.masses) + 1
        numbers = list(map(int, words))
        self.masses.append(numbers[self.header.sizes] if self.header.weights else 1)
        if self.header.edge_weights:
            self.found += [(u, v, w) for v, w in zip(numbers[leading::2], numbers[leading + 1::2]) if u < v]
        else:
            self.found += [(u, v, 1) for v in numbers[leading:] if u < v]

    def edges(self, count: int) -> list[Edge]:
        """The edges, at the end of a file of so many lines."""
        return sorted(self.found)


def read(text: bytes, trusted: bool = False) -> File:
    """The graph and the masses of a file; raises the first fault. Of a file that is trusted, faults are not looked for."""
    lines = text.split(b'\n')
    if lines[-1] == b'':
        lines.pop()
    body = None
    for count, line in enumerate(lines, 1):
        if line.startswith(b'%'):
            continue
        words = words_of(line)
        if body is None:
            if words:
                body = (Trusted if trusted else Judged)(read_header(words, count))
        elif len(body.masses) < body.header.n:
            body.put(words, count)
        elif words:
            raise Fault('ExtraLine', count)
    if body is None:
        raise Fault('NoHeader', len(lines))
    return File((body.header.n, body.edges(len(lines))), body.masses)


def lines_of(graph: Graph, leading: Sequence[Sequence[int]] | None = None, sizes: bool = False) -> Iterator[str]:
    """The lines of the graph as METIS text, with weights only where some edge does not weigh 1. The ends of an edge may stand in
    either order. Where `leading` is given it has the words that begin each vertex line: a size, if there are sizes, and weights."""
    n, edges = graph
    weighted = any(w != 1 for _, _, w in edges)
    rows = [[] for _ in range(n)]
    for u, v, w in edges:
        rows[u - 1].append((v, w))
        rows[v - 1].append((u, w))
    count = len(leading[0]) - sizes if leading else 0
    form = f'{int(sizes)}{int(count > 0)}{int(weighted)}'
    yield f'{n} {len(edges)}' + (f' {form} {count}\n' if count > 1 else f' {form}\n' if form != '000' else '\n')
    for i, row in enumerate(rows):
        row.sort()
        before = [str(word) for word in leading[i]] if leading else []
        yield ' '.join(before + [f'{v} {w}' if weighted else str(v) for v, w in row]) + '\n'


def text_of(graph: Graph, leading: Sequence[Sequence[int]] | None = None, sizes: bool = False) -> str:
    """The graph as METIS text; `lines_of` says what stands in it."""
    return ''.join(lines_of(graph, leading, sizes))
