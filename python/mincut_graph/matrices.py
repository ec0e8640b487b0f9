"""Graphs that are matrices or arrays: of numpy, of scipy, and the entries of a matrix in a file. numpy is used where it is there."""
from __future__ import annotations

from array import array
from collections.abc import Hashable, Iterable, Sequence
from typing import Any, Optional

from .edges import Edges, column
from .errors import BadInput
from .graph import RawGraph
from .numpy_or_not import numpy as numpy_module
from .numpy_or_not import numpy_for

Names = Optional[Sequence[Hashable]]
SMALL = 3                              # a square array of up to so many rows may also be a list of edges
LEAST_FACTOR = 1 << 63


def of_matrix(matrix: Any, names: Names) -> RawGraph:
    """A square symmetric matrix, dense or sparse: the entry in row i and column j is the weight of the edge between i and j, and 0 where
    there is none; entries of a sparse one at the same place add up. Without `names` a row has its number, counted from 0."""
    numpy = numpy_module()
    shape = tuple(matrix.shape)
    if len(shape) != 2 or shape[0] != shape[1]:
        raise BadInput(f'a matrix of {" by ".join(map(str, shape))} is no graph; it has to be square, with a row for each vertex')
    if hasattr(matrix, 'tocoo'):
        sparse = matrix.tocoo()
        rows, columns, weights = sparse.row, sparse.col, sparse.data
    else:
        dense = numpy.asarray(matrix)
        if dense.dtype.kind not in 'biuf':
            return symmetric(names_of(shape[0], names), [(i, j, w) for i, row in enumerate(dense.tolist()) for j, w in enumerate(row) if w])
        if shape[0] <= SMALL and dense.diagonal().any():
            raise BadInput(f'an array of {shape[0]} by {shape[0]} may be a matrix of weights or a list of edges; for the second give array.tolist(), '
                           'for the first one with zeros on its diagonal')
        rows, columns = numpy.nonzero(dense)
        weights = dense[rows, columns]
    return by_numpy(numpy, names_of(shape[0], names), rows, columns, weights)


def names_of(count: int, names: Names) -> list[Any]:
    """The names of the rows; raises BadInput where they are not as many."""
    if names is None:
        return list(range(count))
    if len(names) != count:
        raise BadInput(f'the matrix has {count} rows, and there are {len(names)} names; give one for each')
    return list(names)


def by_numpy(numpy: Any, names: list[Any], rows: Any, columns: Any, weights: Any) -> RawGraph:
    """The graph of the entries of a matrix, as arrays of numpy; the places count from 0."""
    count = max(len(names), 1)
    weights = weights.astype('i8') if weights.dtype.kind == 'b' or weights.dtype.kind in 'iu' and weights.dtype.itemsize < 8 else weights
    keys = rows.astype('i8') * count + columns
    order = numpy.argsort(keys, kind='stable')
    keys, weights = keys[order], weights[order]
    starts = numpy.flatnonzero(numpy.concatenate((numpy.ones(min(1, len(keys)), bool), keys[1:] != keys[:-1])))
    if len(starts) < len(keys):
        keys, weights = keys[starts], numpy.add.reduceat(weights, starts)
    keys, weights = keys[weights != 0], weights[weights != 0]
    rows, columns = keys // count, keys % count
    mirror = numpy.argsort(columns * count + rows, kind='stable')
    if not (numpy.array_equal((columns * count + rows)[mirror], keys) and equal(numpy, weights[mirror], weights)):
        entries = list(zip(rows.tolist(), columns.tolist(), weights.tolist()))
        return RawGraph(names, entries, directed=True, arrows=unsymmetric(names, entries))
    half = rows <= columns
    return RawGraph(names, Edges(column(rows[half], 'I'), column(columns[half], 'I'), whole_column(numpy, weights[half])))


def equal(numpy: Any, first: Any, second: Any) -> bool:
    """Whether two arrays of numbers are the same, where NaN is the same as NaN: it is told later, with its place."""
    return bool((first == second).all()) or first.dtype.kind == 'f' and bool(((first == second) | (numpy.isnan(first) & numpy.isnan(second))).all())


def whole_column(numpy: Any, weights: Any) -> Sequence[Any]:
    """A column of 64 bits where all weights are whole numbers of 0 or more; else what they are, for an error to name the one that is not."""
    kind = weights.dtype.kind
    if kind in 'iu' and not (len(weights) and weights.min() < 0):
        return column(weights, 'Q')
    if kind == 'f' and bool(((weights >= 0) & (weights < LEAST_FACTOR) & (weights == numpy.floor(weights))).all()):
        return column(weights, 'Q')
    found: list[Any] = weights.tolist()
    return found


def symmetric(names: list[Any], entries: Iterable[tuple[int, int, Any]]) -> RawGraph:
    """The graph of the entries of a matrix, of which those at one place add up. Where it is not symmetric the graph is directed."""
    table: dict[tuple[int, int], Any] = {}
    for i, j, w in entries:
        table[i, j] = table[i, j] + w if (i, j) in table else w
    triples = [(i, j, w) for (i, j), w in sorted(table.items()) if w]
    if any(table.get((j, i), 0) != w for i, j, w in triples):
        return RawGraph(names, triples, directed=True, arrows=unsymmetric(names, triples))
    return RawGraph(names, [(i, j, w) for i, j, w in triples if i <= j])


def of_entries(names: list[Any], rows: array[int], columns: array[int], weights: Sequence[Any]) -> RawGraph:
    """The graph of the entries of a matrix, given as columns."""
    numpy = numpy_for(len(rows))
    if numpy and isinstance(weights, array):
        return by_numpy(numpy, names, numpy.frombuffer(rows, 'u4'), numpy.frombuffer(columns, 'u4'), numpy.frombuffer(weights, 'u8'))
    return symmetric(names, zip(rows, columns, weights))


def unsymmetric(names: list[Any], entries: Sequence[tuple[int, int, Any]]) -> str:
    """What is said of a matrix that is not symmetric: its first two entries that differ."""
    table = {(i, j): w for i, j, w in entries}
    i, j, w = next((i, j, w) for i, j, w in entries if table.get((j, i), 0) != w)
    half = ' (only half of the matrix is there: A + A.T has both)' if all((j, i) not in table for i, j in table if i != j) else ''
    return (f'the matrix is not symmetric: its entry in row {names[i]}, column {names[j]} is {w}, and that in row {names[j]}, column {names[i]} '
            f'is {table.get((j, i), 0)}{half}; to take each entry as an edge: --undirected, or undirected=True')


# Lists of edges

def of_edge_array(edges: Any) -> Optional[RawGraph]:
    """The edges in the rows of an array of numbers of numpy: two ends, and a weight if there is a third column. None for an array of
    other things."""
    numpy = numpy_module()
    edges = numpy.asarray(edges)
    if edges.ndim != 2 or edges.shape[1] not in (2, 3):
        raise BadInput(f'an array of {" by ".join(map(str, edges.shape))} is no graph; it has to have rows u, v or u, v, weight, '
                       'or be a square matrix of weights')
    if edges.dtype.kind not in 'iuf':
        return None
    ends = edges[:, :2]
    if edges.dtype.kind == 'f':
        odd = numpy.flatnonzero(~((ends == numpy.floor(ends)) & (abs(ends) < 1 << 53)).all(axis=1))
        if len(odd):
            raise BadInput(f'row {odd[0]} of the array is {edges[odd[0]].tolist()}, and its ends are no whole numbers')
        ends = ends.astype('i8')
    names, first, inverse = numpy.unique(ends.ravel(), return_index=True, return_inverse=True)
    order = numpy.argsort(first, kind='stable')
    place = numpy.empty(len(names), 'u4')
    place[order] = numpy.arange(len(names), dtype='u4')
    numbers = place[inverse.ravel()]
    weights = whole_column(numpy, edges[:, 2]) if edges.shape[1] == 3 else array('Q', [1]) * len(edges)
    return RawGraph(names[order].tolist(), Edges(column(numbers[::2], 'I'), column(numbers[1::2], 'I'), weights))
