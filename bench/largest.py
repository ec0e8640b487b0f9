"""Two graphs of the greatest size that the program takes: 4,194,304 vertices and 16,777,216 edges without weights. One is a random tree
with further random edges, the other a torus of 2,048 by 2,048 vertices, each joined to its eight neighbours. bench/measure.py makes and
measures them with --largest; their files have 260 MB each."""
import numpy

VERTICES = 4_194_304
EDGES = 16_777_216
SIDE = 2_048
LINES_AT_ONCE = 65_536


def random_graph(seed):
    """The ends of the edges of a random tree and of further random edges, all distinct, numbered from 0."""
    rng = numpy.random.default_rng(seed)
    upper = (rng.random(VERTICES - 1) * numpy.arange(1, VERTICES)).astype(numpy.int64)
    keys = upper * VERTICES + numpy.arange(1, VERTICES)
    while len(keys) < EDGES:
        ends = rng.integers(0, VERTICES, (2, EDGES - len(keys) + 1_000))
        low, high = ends.min(axis=0), ends.max(axis=0)
        further = numpy.setdiff1d((low * VERTICES + high)[low < high], keys)
        keys = numpy.concatenate([keys, rng.permutation(further)[:EDGES - len(keys)]])
    return keys // VERTICES, keys % VERTICES


def mesh():
    """The ends of the edges of the torus, each vertex with its right, lower, and both lower diagonal neighbours."""
    vertex = numpy.arange(VERTICES)
    row, column = vertex // SIDE, vertex % SIDE
    steps = ((0, 1), (1, 0), (1, 1), (1, -1))
    ends = [(row + down) % SIDE * SIDE + (column + right) % SIDE for down, right in steps]
    return numpy.tile(vertex, len(steps)), numpy.concatenate(ends)


GRAPHS = {'random': lambda: random_graph(1), 'mesh': mesh}


def write(path, name):
    """Writes the graph of that name in METIS format, the neighbours of each vertex ascending."""
    one, other = GRAPHS[name]()
    start = numpy.concatenate([one, other])
    end = numpy.concatenate([other, one])
    order = numpy.argsort(start * VERTICES + end, kind='stable')
    neighbours = (end[order] + 1).tolist()
    places = numpy.concatenate([[0], numpy.cumsum(numpy.bincount(start, minlength=VERTICES))]).tolist()
    with open(path, 'w', buffering=1 << 20) as out:
        out.write(f'{VERTICES} {EDGES}\n')
        for first in range(0, VERTICES, LINES_AT_ONCE):
            rows = range(first, min(first + LINES_AT_ONCE, VERTICES))
            out.writelines(' '.join(map(str, neighbours[places[v]:places[v + 1]])) + '\n' for v in rows)
