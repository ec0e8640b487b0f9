"""Matrix Market files: a square symmetric matrix of weights, coordinates or a whole table."""
from __future__ import annotations

from array import array
from collections.abc import Iterator, Sequence
from typing import Any

from ..edges import Edges
from ..errors import BadInput
from ..graph import MOST_VERTICES, RawGraph
from ..matrices import of_entries
from ..numbers import fraction_of
from .content import Content
from .lines import plain_number
from .options import ReadOptions


def read_matrix_market(content: Content, options: ReadOptions) -> RawGraph:
    """Rows have their numbers as names. Entries at one place add up; a matrix that is not symmetric is directed."""
    lines = iter(enumerate(content.lines(), 1))
    banner = next(lines, (1, ''))[1].lower().split()
    if len(banner) != 5 or banner[0] != '%%matrixmarket' or banner[1] != 'matrix':
        raise BadInput('line 1: is no banner of Matrix Market: %%MatrixMarket matrix coordinate integer symmetric')
    form, field, symmetry = banner[2:]
    if form not in ('coordinate', 'array') or field not in ('real', 'integer', 'pattern') or symmetry not in ('symmetric', 'general'):
        raise BadInput(f'line 1: a matrix that is {form} {field} {symmetry} is no graph with weights')
    rows = ((number, line.split()) for number, line in lines if line.strip() and not line.startswith('%'))
    try:
        size = [int(word) for word in next(rows, (0, []))[1]]
        if size[0] != size[1] or not 0 <= size[0] <= MOST_VERTICES:
            raise BadInput(f'a matrix of {size[0]} by {size[1]} is no graph; it has to be square, with a row for each vertex, '
                           f'at most {MOST_VERTICES:,}')
        found = Entries(size[0])
        if form == 'coordinate':
            found.coordinates(rows, field == 'pattern' or options.unweighted)
        else:
            found.table(rows, symmetry == 'symmetric')
    except (IndexError, ValueError, OverflowError) as fault:
        raise fault if isinstance(fault, BadInput) else BadInput('an entry has too few numbers, or a place that is none') from None
    if form == 'coordinate' and size[2:] != [len(found.heads)]:
        raise BadInput(f'has {len(found.heads)} entries, and its head says {size[2] if len(size) > 2 else "no number"}')
    if len(found.heads) and not 1 <= min(min(found.heads), min(found.tails)) <= max(max(found.heads), max(found.tails)) <= size[0]:
        raise BadInput(f'has an entry outside the rows 1 to {size[0]}')
    return found.raw_graph(symmetry == 'symmetric')


class Entries:
    """The entries of a matrix as columns; rows and columns count from 1."""

    def __init__(self, size: int):
        self.size = size
        self.heads, self.tails = array('I'), array('I')
        self.weights: list[Any] = []
        self.whole = True

    def coordinates(self, rows: Iterator[tuple[int, list[str]]], pattern: bool) -> None:
        heads, tails, weights = self.heads, self.tails, self.weights
        for line, words in rows:
            heads.append(int(words[0]))
            tails.append(int(words[1]))
            weights.append(1 if pattern else self.number(words[2], line))

    def table(self, rows: Iterator[tuple[int, list[str]]], half: bool) -> None:
        """A whole matrix, column after column; of a symmetric one from the diagonal downwards."""
        numbers = [self.number(word, line) for line, words in rows for word in words]
        due = self.size * (self.size + 1) // 2 if half else self.size * self.size
        if len(numbers) != due:
            raise BadInput(f'has {len(numbers)} numbers, and its head says {due}')
        places = ((i, j) for j in range(1, self.size + 1) for i in range(j if half else 1, self.size + 1))
        for (i, j), w in zip(places, numbers):
            if w:
                self.heads.append(i)
                self.tails.append(j)
                self.weights.append(w)

    def number(self, word: str, line: int) -> object:
        if plain_number(word) and len(word) < 19:
            return int(word)
        exact = fraction_of(word, f'line {line}: a weight')
        if exact.denominator == 1 and 0 <= exact < 1 << 63:
            return int(exact)
        self.whole = False
        return exact

    def raw_graph(self, half: bool) -> RawGraph:
        heads, tails = (array('I', [k - 1 for k in ends]) for ends in (self.heads, self.tails))
        weights: Sequence[Any] = array('Q', self.weights) if self.whole else self.weights
        names: list[Any] = list(range(1, self.size + 1))
        return RawGraph(names, Edges(heads, tails, weights)) if half else of_entries(names, heads, tails, weights)
