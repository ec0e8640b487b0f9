"""METIS text: a header `n m [fmt [ncon]]`, then one line for each vertex. It goes to the program as it stands; what is read of it here is
the header and the masses, and the edges when they are asked for. The reader is as strict as the program and finds the same faults."""
from __future__ import annotations

from array import array
from collections.abc import Iterator
from itertools import compress
from typing import NamedTuple, Optional

from ..edges import Columns, Edges, merged
from ..errors import BadInput, UnknownName
from ..faults import sentence
from ..graph import MOST_VERTICES, RawGraph, Text
from .options import ReadOptions

MOST_EDGES, MOST_CONSTRAINTS = 16_777_216, 32
MOST_SUM, MOST_NUMBER, MOST_DIGITS = 1 << 62, 1 << 64, 20
ODD_BLANKS = bytes.maketrans(b'\x0b\x0c', b'??')      # blanks to Python, and parts of a word to the program


class Fault(Exception):
    """The first fault of a text: its kind, as the program calls it, and the number of its line."""

    def __init__(self, kind: str, line: int):
        super().__init__(kind, line)
        self.kind, self.line = kind, line


class Header(NamedTuple):
    """The numbers of vertices and edges; how many sizes and weights a vertex has; whether edges have weights; the line and its end."""
    n: int
    m: int
    sizes: int
    weights: int
    weighted: bool
    line: int
    end: int


def read_metis(content: bytes, options: ReadOptions, origin: str = '') -> RawGraph:
    """The vertices are named by their numbers, from 1. The first weight of a vertex is its mass."""
    for wanted, what in ((options.weight, 'weight'), (options.mass, 'mass'), (options.name, 'name')):
        if wanted is not None:
            raise UnknownName(f'METIS text has no names for its columns, so no {what} {wanted!r}; leave --{what} out')
    try:
        text = MetisText(content, origin)
    except Fault as fault:
        hint = '; an edge list is read by --read edges' if fault.kind == 'BadNumber' and options.format_guessed else ''
        raise BadInput(sentence(fault.kind, fault.line) + hint) from None
    if options.unweighted:
        columns = text.columns
        return RawGraph(text.names, Edges(columns.heads, columns.tails, array('Q', [1]) * len(columns.heads)), text.masses, origin=origin)
    return RawGraph(text.names, text, text.masses, origin=origin)


class MetisText(Text):
    """The edges of a METIS text, which are read when they are asked for; what is wrong with them is told then."""

    def __init__(self, content: bytes, origin: str):
        """Raises Fault where the header, or the masses, have one."""
        self.given: Optional[Columns] = None
        self.text, self.origin = content, origin
        self.header = header_of(content)
        self.names = list(range(1, self.header.n + 1))
        self.masses = None if self.header.weights == 0 else masses_of(content, self.header)

    @property
    def columns(self) -> Columns:
        if self.given is None:
            try:
                self.given = columns_of(self.text, self.header)
            except Fault as fault:
                raise BadInput(f'{self.origin}{": " if self.origin else ""}{sentence(fault.kind, fault.line)}') from None
        return self.given

    def __len__(self) -> int:
        return self.header.m if self.given is None else len(self.given.heads)


def number_of(word: bytes, line: int) -> int:
    if not word.isdigit() or len(word.lstrip(b'0')) > MOST_DIGITS or int(word) >= MOST_NUMBER:
        raise Fault('BadNumber', line)
    return int(word)


def header_of(content: bytes) -> Header:
    """What the first line says that is not blank and no comment."""
    start = line = 0
    while True:
        if start >= len(content):
            raise Fault('NoHeader', content.count(b'\n') + (not content.endswith(b'\n') and content != b''))
        end = content.find(b'\n', start)
        end = len(content) if end < 0 else end
        line += 1
        text = content[start:end].translate(ODD_BLANKS)
        if not text.startswith(b'%') and text.strip():
            return header_in(text.split(), line, min(end + 1, len(content)))
        start = end + 1


def header_in(words: list[bytes], line: int, end: int) -> Header:
    n = number_of(words[0], line)
    if n > MOST_VERTICES:
        raise Fault('TooManyVertices', line)
    if len(words) < 2:
        raise Fault('HeaderWords', line)
    m = number_of(words[1], line)
    if m > MOST_EDGES:
        raise Fault('TooManyEdges', line)
    form = words[2] if len(words) > 2 else b'0'
    if len(form) > 3 or form.strip(b'01'):
        raise Fault('BadFormat', line)
    sizes, weights, weighted = (byte == 49 for byte in form.rjust(3, b'0'))
    count = number_of(words[3], line) if len(words) > 3 else 1
    if weights and not 1 <= count <= MOST_CONSTRAINTS:
        raise Fault('BadConstraints', line)
    if len(words) > 4:
        raise Fault('HeaderWords', line)
    return Header(n, m, int(sizes), count if weights else 0, weighted, line, end)


def lines_of(content: bytes, header: Header) -> Iterator[tuple[int, bytes]]:
    """The lines after the header with their numbers, without comments."""
    lines = content[header.end:].split(b'\n')
    if lines and not lines[-1]:
        lines.pop()
    for number, line in enumerate(lines, header.line + 1):
        if not line.startswith(b'%'):
            yield number, line.translate(ODD_BLANKS)


def masses_of(content: bytes, header: Header) -> list[int]:
    """The first weight of each vertex. Where a line has none, the first fault of the whole text is raised."""
    masses: list[int] = []
    try:
        for number, line in lines_of(content, header):
            if len(masses) < header.n:
                masses.append(number_of(line.split(None, header.sizes + 1)[header.sizes], number))
    except (Fault, IndexError):
        columns_of(content, header)
        raise
    if len(masses) < header.n:
        columns_of(content, header)
    return masses


class Rows:
    """The vertex lines of a text, as far as they were taken: the ends and weights of the entries, and the line of each vertex."""

    def __init__(self, header: Header):
        self.header = header
        self.heads, self.tails, self.weights, self.lines = array('I'), array('I'), array('Q'), array('Q')
        self.entries = self.total = 0

    def take(self, words: list[bytes], line: int) -> None:
        """The line of the next vertex; a line as it should be is taken at once, another one is judged word by word."""
        header, vertex = self.header, len(self.lines)
        if vertex == header.n:
            if words:
                raise Fault('ExtraLine', line)
            return
        leading = header.sizes + header.weights
        numbers = list(map(int, words)) if b''.join(words).isdigit() or not words else []
        tails = numbers[leading::2] if header.weighted else numbers[leading:]
        weights = numbers[leading + 1::2] if header.weighted else [1] * len(tails)
        entries, total = self.entries + len(tails), self.total + sum(weights)
        if (len(numbers) != len(words) or len(numbers) < leading or len(tails) != len(weights) or vertex + 1 in tails
                or tails and (min(tails) < 1 or max(tails) > header.n or min(weights) < 1) or max(numbers, default=0) >= MOST_NUMBER
                or entries > 2 * header.m or total > MOST_SUM):
            self.judge(words, line)
        self.entries, self.total = entries, total
        self.heads.extend([vertex] * len(tails))
        self.tails.extend([to - 1 for to in tails])
        self.weights.extend(weights)
        self.lines.append(line)

    def judge(self, words: list[bytes], line: int) -> None:
        """Raises the first fault of a line, if it has one, word by word."""
        header, leading, vertex = self.header, self.header.sizes + self.header.weights, len(self.lines) + 1
        for word in words[:leading]:
            number_of(word, line)
        if len(words) < leading:
            raise Fault('WordMissing', line)
        entries, total, place = self.entries, self.total, leading
        while place < len(words):
            to, weight = number_of(words[place], line), 1
            if entries == 2 * header.m:
                raise Fault('TooManyEntries', line)
            if not 1 <= to <= header.n:
                raise Fault('NeighbourRange', line)
            if to == vertex:
                raise Fault('SelfLoop', line)
            if header.weighted:
                place += 1
                if place == len(words):
                    raise Fault('WordMissing', line)
                weight = number_of(words[place], line)
                if weight == 0:
                    raise Fault('ZeroWeight', line)
                if total + weight > MOST_SUM:
                    raise Fault('WeightSum', line)
            place, entries, total = place + 1, entries + 1, total + weight

    def columns(self, line: int) -> Columns:
        """The edges, at the end of a text of so many lines."""
        header, count = self.header, len(self.lines)
        if count < header.n:
            raise Fault('MissingLines', line)
        if self.entries < 2 * header.m:
            raise Fault('TooFewEntries', line)
        down, up = (array('B', map(way, self.heads, self.tails)) for way in (int.__lt__, int.__gt__))
        found, other = (merged(count, *(array(column.typecode, compress(column, way)) for column in self.three())) for way in (down, up))
        if found.parallel or other.parallel or found.edges.columns != other.edges.columns:
            self.compare()
        return found.edges.columns

    def three(self) -> tuple[array[int], array[int], array[int]]:
        return self.heads, self.tails, self.weights

    def compare(self) -> None:
        """Raises what is wrong where the entries are not those of both ends of each edge, once each."""
        table: dict[tuple[int, int], int] = {}
        repeated = []
        for i, j, w in zip(*self.three()):
            if (i, j) in table:
                repeated.append(i)
            table[i, j] = w
        if repeated:
            raise Fault('Repeated', self.lines[repeated[0]])
        raise Fault('Unsymmetric', self.lines[next(i for i, j, w in zip(*self.three()) if table.get((j, i)) != w)])


def columns_of(content: bytes, header: Header) -> Columns:
    """The edges in a text; raises its first fault."""
    rows = Rows(header)
    for number, line in lines_of(content, header):
        rows.take(line.split(), number)
    return rows.columns(content.count(b'\n') + (not content.endswith(b'\n')))


def looks_like_metis(content: bytes) -> bool:
    """Whether a text with numbers alone has as many lines and words as its first line says as a header of METIS."""
    first = content[:content.find(b'\n') + 1].split()
    if len(first) != 2 or not b''.join(first).isdigit():
        return False
    return content.count(b'\n') + (not content.endswith(b'\n')) == int(first[0]) + 1 and len(content.split()) == 2 + 2 * int(first[1])
