"""Edges as three columns of numbers, and from there to edges that stand once each and to METIS text."""
from __future__ import annotations

from array import array
from bisect import bisect_left
from collections.abc import Iterable, Iterator, Sequence
from itertools import chain, islice
from operator import le
from typing import Any, NamedTuple, Optional, Union, overload

from .numpy_or_not import numpy_for

Triple = tuple[int, int, Any]
ROW_END = -1                           # ends the row of a vertex among its numbers, which are 0 or more
NUMBERS_AT_ONCE = 1 << 18
KEY_BITS, PART_BITS = 30, 8


class Columns(NamedTuple):
    """`heads` and `tails`: places of the ends, 32 bits each. `weights`: numbers of 64 bits, or weights as a file has them."""
    heads: array[int]
    tails: array[int]
    weights: Sequence[Any]


class Edges(Sequence[Triple]):
    """The triples (i, j, weight) of a graph, kept as `columns`; it has a length, goes by index and can be gone through like a list."""

    def __init__(self, heads: array[int], tails: array[int], weights: Sequence[Any]):
        self.given: Optional[Columns] = Columns(heads, tails, weights)

    @property
    def columns(self) -> Columns:
        assert self.given is not None
        return self.given

    def __len__(self) -> int:
        return len(self.columns.heads)

    def __iter__(self) -> Iterator[Triple]:
        return zip(*self.columns)

    @overload
    def __getitem__(self, place: int) -> Triple: ...

    @overload
    def __getitem__(self, place: slice) -> list[Triple]: ...

    def __getitem__(self, place: Union[int, slice]) -> Union[Triple, list[Triple]]:
        heads, tails, weights = self.columns
        if isinstance(place, slice):
            return list(zip(heads[place], tails[place], weights[place]))
        return heads[place], tails[place], weights[place]

    def __eq__(self, other: object) -> bool:
        if not isinstance(other, Sequence) or isinstance(other, (str, bytes)):
            return NotImplemented
        return len(self) == len(other) and all(mine == its for mine, its in zip(self, other))

    def __repr__(self) -> str:
        shown = ', '.join(map(str, self[:3]))
        return f'Edges([{shown}{", .." if len(self) > 3 else ""}])'


def edges_of(triples: Iterable[Triple], whole: bool = False) -> Edges:
    """The triples as columns; with `whole` the weights are a column of 64 bits. Raises OverflowError for what does not go into these."""
    if isinstance(triples, Edges):
        return triples
    rows = list(triples)
    weights = [w for _, _, w in rows]
    return Edges(array('I', [i for i, _, _ in rows]), array('I', [j for _, j, _ in rows]), array('Q', weights) if whole else weights)


# Each pair once

class Merged(NamedTuple):
    """`edges`: those that a cut can feel, each pair once and ascending; and how many were left out, or added to another."""
    edges: Edges
    loops: int
    parallel: int
    empty: int


def merged(count: int, heads: array[int], tails: array[int], weights: array[int]) -> Merged:
    """The edges of a graph of `count` vertices, whose weights add up to less than 2^63."""
    numpy = numpy_for(len(heads))
    return merged_by_numpy(numpy, count, heads, tails, weights) if numpy else merged_by_hand(count, heads, tails, weights)


def merged_by_hand(count: int, heads: array[int], tails: array[int], weights: array[int]) -> Merged:
    """Goes by parts of the vertices, as what is done with all edges at once seldom finds in the processor's cache what it needs."""
    bits, within = key_bits(count)
    base, all_ones = (1 << within) - 1, (1 << bits) - 1
    parts = [(array('I'), array('Q')) for _ in range(0, count, base + 1)]
    loops = empty = 0
    for i, j, w in zip(heads, tails, weights):
        if i > j:
            i, j = j, i
        if i == j:
            loops += 1
        elif w == 0:
            empty += 1
        else:
            keys, its = parts[i >> within]
            keys.append((i & base) << bits | j)
            its.append(w)
    low, high, sums = array('I'), array('I'), array('Q')
    for first, part in zip(range(0, count, base + 1), parts):
        found = added_up(*part)
        ascending = sorted(found)
        low.extend([first + (key >> bits) for key in ascending])
        high.extend([key & all_ones for key in ascending])
        sums.extend(map(found.__getitem__, ascending))
    return Merged(Edges(low, high, sums), loops, len(heads) - loops - empty - len(low), empty)


def key_bits(count: int) -> tuple[int, int]:
    """(bits, within): a key has the last `within` bits of one vertex, which it has among those of its part, before the `bits` bits of
    another. Keys are below 2^30, which Python compares fastest, and there are some hundred parts at least, if there are as many vertices."""
    bits = count.bit_length()
    return bits, max(0, min(bits - PART_BITS, KEY_BITS - bits))


def added_up(keys: array[int], weights: array[int]) -> dict[int, int]:
    """The weight of each key, of one that stands several times the sum."""
    found = dict(zip(keys, weights))
    if len(found) < len(keys):
        found = dict.fromkeys(found, 0)
        for key, w in zip(keys, weights):
            found[key] += w
    return found


def merged_by_numpy(numpy: Any, count: int, heads: array[int], tails: array[int], weights: array[int]) -> Merged:
    first, second, weigh = numpy.frombuffer(heads, 'u4'), numpy.frombuffer(tails, 'u4'), numpy.frombuffer(weights, 'u8')
    apart, felt = first != second, weigh != 0
    kept = apart & felt
    low = numpy.minimum(first, second)[kept].astype('u8')
    keys, weigh = low * count + numpy.maximum(first, second)[kept], weigh[kept]
    order = numpy.argsort(keys, kind='stable')
    keys, weigh = keys[order], weigh[order]
    starts = numpy.flatnonzero(numpy.concatenate((numpy.ones(min(1, len(keys)), bool), keys[1:] != keys[:-1])))
    if len(starts) < len(keys):
        keys, weigh = keys[starts], numpy.add.reduceat(weigh, starts)
    loops = len(heads) - int(apart.sum())
    edges = Edges(column(keys // max(count, 1), 'I'), column(keys % max(count, 1), 'I'), column(weigh, 'Q'))
    return Merged(edges, loops, int(kept.sum()) - len(keys), int((apart & ~felt).sum()))


def column(numbers: Any, code: str) -> array[int]:
    """An array of numpy as a column of 32 (I) or 64 (Q) bits."""
    found = array(code)
    found.frombytes(numbers.astype('u4' if code == 'I' else 'u8').tobytes())
    return found


# METIS text

def metis_bytes(count: int, edges: Columns, masses: Optional[Sequence[int]]) -> bytes:
    """METIS text of a graph of `count` vertices, numbered from 1; the weights are left out where each is 1."""
    heads, tails, weights = edges
    weighted = weights.count(1) != len(weights)
    form = f' 0{int(masses is not None)}{int(weighted)}' if weighted or masses is not None else ''
    numpy = numpy_for(len(heads))
    rows = pieces_of(rows_by_numpy(numpy, count, edges, weighted)) if numpy else rows_by_hand(count, edges, weighted)
    pieces = [f'{count} {len(heads)}{form}\n'.encode()]
    if masses is None:
        pieces += map(text_of, rows)
    else:
        lines = chain.from_iterable(text_of(piece).split(b'\n')[:-1] for piece in rows)
        pieces.append(b''.join(b'%d %s\n' % (mass, line) for mass, line in zip(masses, lines)))
    return b''.join(pieces)


def rows_by_hand(count: int, edges: Columns, weighted: bool) -> Iterator[list[int]]:
    """The numbers of each vertex' line, ending with ROW_END: its neighbours ascending, each with its weight if they are `weighted`; those
    of some vertices at a time, by parts as in `merged_by_hand`."""
    if not all(map(le, edges.heads, islice(edges.heads, 1, None))):
        edges = edges_of(sorted(zip(*edges)), whole=True).columns
    within = key_bits(count)[1]
    above = [(array('I'), array('I'), array('Q')) for _ in range(0, count, 1 << within)]
    for i, j, w in zip(*edges):
        at, to, its = above[j >> within]
        at.append(j)
        to.append(i)
        its.append(w)
    start = 0
    for first, part in zip(range(0, count, 1 << within), above):
        last = min(first + (1 << within), count)
        end = bisect_left(edges.heads, last, start)
        rows: list[list[int]] = [[] for _ in range(first, last)]
        enter(rows, first, Columns(*part), weighted)
        enter(rows, first, Columns(edges.heads[start:end], edges.tails[start:end], edges.weights[start:end]), weighted)
        for row in rows:
            row.append(ROW_END)
        yield list(chain.from_iterable(rows))
        start = end


def enter(rows: list[list[int]], first: int, edges: Columns, weighted: bool) -> None:
    """Adds the tail of each edge, and its weight if they are `weighted`, to the row of its head; the rows are those of `first` and on."""
    if weighted:
        for at, to, w in zip(*edges):
            row = rows[at - first]
            row.append(to + 1)
            row.append(w)
    else:
        for at, to in zip(edges.heads, edges.tails):
            rows[at - first].append(to + 1)


def rows_by_numpy(numpy: Any, count: int, edges: Columns, weighted: bool) -> Any:
    heads, tails = (numpy.frombuffer(ends, 'u4').astype('i8') for ends in edges[:2])
    at, to = numpy.concatenate((tails, heads)), numpy.concatenate((heads, tails))
    order = numpy.argsort(at, kind='stable')
    width = 2 if weighted else 1
    places = numpy.arange(len(at)) * width + at[order]
    rows = numpy.full(len(at) * width + count, ROW_END, 'i8')
    rows[places] = to[order] + 1
    if weighted:
        weights = numpy.frombuffer(edges.weights, 'u8').astype('i8')
        rows[places + 1] = numpy.concatenate((weights, weights))[order]
    return rows


def pieces_of(rows: Any) -> Iterator[list[int]]:
    """The numbers in lists of some length, each ending with the end of a row."""
    rest: list[int] = []
    for start in range(0, len(rows), NUMBERS_AT_ONCE):
        rest += rows[start:start + NUMBERS_AT_ONCE].tolist()
        end = next((k for k in range(len(rest), 0, -1) if rest[k - 1] == ROW_END), 0)
        yield rest[:end]
        rest = rest[end:]


def text_of(piece: list[int]) -> bytes:
    return (b'%d ' * len(piece) % tuple(piece)).replace(b'%d ' % ROW_END, b'\n').replace(b' \n', b'\n')
