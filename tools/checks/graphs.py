"""The graphs that the checks make: random ones of many kinds, all by a seeded `random.Random`, and their components.

A graph is (n, edges): edges (u, v, w) with 1 <= u < v <= n, ascending. A maker takes a source of random numbers and the most
vertices that its graph may have. Large graphs whose minimum cuts are known by a formula are in `families`.
"""
from __future__ import annotations

import itertools
from collections.abc import Callable, Iterable, Sequence
from random import Random

Edge = tuple[int, int, int]
Graph = tuple[int, list[Edge]]
Pair = tuple[int, int]
Weighted = list[tuple[Pair, int]]

SMALL = 14  # vertices of the largest graphs of which all sides are tried


# Parts of graphs

def graph_of(n: int, weights: Iterable[tuple[Pair, int]]) -> Graph:
    """The graph of pairs with weights; the ends may stand in either order, and equal pairs add up."""
    table: dict[Pair, int] = {}
    for (u, v), w in weights:
        pair = (min(u, v), max(u, v))
        table[pair] = table.get(pair, 0) + w
    return n, [(u, v, w) for (u, v), w in sorted(table.items())]


def relabelled(rng: Random, graph: Graph) -> Graph:
    """The same graph with its vertices numbered anew at random."""
    n, edges = graph
    names = list(range(1, n + 1))
    rng.shuffle(names)
    return graph_of(n, [((names[u - 1], names[v - 1]), w) for u, v, w in edges])


def side_by_side(pieces: Iterable[Graph]) -> Graph:
    """One graph of all these, with no edge between two of them."""
    n, edges = 0, []
    for size, some in pieces:
        edges += [(u + n, v + n, w) for u, v, w in some]
        n += size
    return n, edges


def components_of(graph: Graph) -> list[list[int]]:
    """The components as ascending lists, in the order of their least vertices."""
    n, edges = graph
    near = [[] for _ in range(n + 1)]
    for u, v, _ in edges:
        near[u].append(v)
        near[v].append(u)
    found, parts = [False] * (n + 1), []
    for start in range(1, n + 1):
        if not found[start]:
            found[start], part = True, [start]
            for u in part:
                for v in near[u]:
                    if not found[v]:
                        found[v] = True
                        part.append(v)
            parts.append(sorted(part))
    return parts


def ring_of(vertices: Sequence[int], weight: int) -> Weighted:
    """A ring through these vertices in this order."""
    return [((vertices[i], vertices[(i + 1) % len(vertices)]), weight) for i in range(len(vertices))]


def clique_of(vertices: Iterable[int], weight: int) -> Weighted:
    """Edges between all pairs."""
    return [((u, v), weight) for u, v in itertools.combinations(vertices, 2)]


def ring_of_cliques(count: int, size: int) -> Weighted:
    """So many cliques of so many vertices in a ring, with edges of weight 1."""
    weights = []
    for first in range(1, count * size, size):
        weights += clique_of(range(first, first + size), 1)
        weights.append(((first + size - 1, (first + size - 1) % (count * size) + 1), 1))
    return weights


def random_tree(rng: Random, n: int, weigh: Callable[[], int]) -> Weighted:
    """Each vertex joined to a random lesser one."""
    return [((v, rng.randrange(1, v)), weigh()) for v in range(2, n + 1)]


def random_pairs(rng: Random, n: int, share: float, weigh: Callable[[], int]) -> Weighted:
    """Of all pairs about this share."""
    return [((u, v), weigh()) for u, v in itertools.combinations(range(1, n + 1), 2) if rng.random() < share]


# Kinds of random graphs

def tiny(rng: Random, most: int) -> Graph:
    """No, one or two vertices."""
    n = rng.choice([0, 1, 1, 2, 2])
    return n, [(1, 2, rng.choice([1, 7, 1 << 61]))] if n == 2 and rng.random() < 0.8 else []


def sparse(rng: Random, most: int) -> Graph:
    """A tree and some further edges."""
    n = rng.randrange(3, most + 1)
    tree = random_tree(rng, n, lambda: rng.randrange(1, 4))
    return graph_of(n, tree + random_pairs(rng, n, 1.5 / n, lambda: rng.randrange(1, 4)))


def dense(rng: Random, most: int) -> Graph:
    """Most pairs, of weight 1 or 2."""
    n = rng.randrange(3, most + 1)
    return graph_of(n, random_tree(rng, n, lambda: 1) + random_pairs(rng, n, 0.8, lambda: rng.choice([1, 1, 2])))


def unit(rng: Random, most: int) -> Graph:
    """Random pairs of weight 1."""
    n = rng.randrange(2, most + 1)
    return graph_of(n, random_pairs(rng, n, rng.choice([0.3, 0.5, 0.7]), lambda: 1))


def ring(rng: Random, most: int) -> Graph:
    """One ring of even weights."""
    n = rng.randrange(3, most + 1)
    return graph_of(n, ring_of(range(1, n + 1), rng.choice([1, 1, 5])))


def uneven_ring(rng: Random, most: int) -> Graph:
    """One ring whose edges weigh 1 or 2."""
    n = rng.randrange(3, most + 1)
    return graph_of(n, [(pair, rng.choice([1, 1, 2])) for pair, _ in ring_of(range(1, n + 1), 1)])


def tree(rng: Random, most: int) -> Graph:
    """A tree whose edges weigh 1 or 2."""
    n = rng.randrange(2, most + 1)
    return graph_of(n, random_tree(rng, n, lambda: rng.choice([1, 1, 1, 2])))


def clique(rng: Random, most: int) -> Graph:
    """All pairs, of one weight."""
    n = rng.randrange(3, most + 1)
    return graph_of(n, clique_of(range(1, n + 1), rng.choice([1, 3])))


def grid_of(rows: int, columns: int) -> Graph:
    """The grid of so many rows and columns."""
    at = lambda i, j: 1 + i * columns + j
    right = [((at(i, j), at(i, j + 1)), 1) for i in range(rows) for j in range(columns - 1)]
    down = [((at(i, j), at(i + 1, j)), 1) for i in range(rows - 1) for j in range(columns)]
    return graph_of(rows * columns, right + down)


def named(rng: Random, most: int) -> Graph:
    """Paths, stars, wheels, grids and complete bipartite graphs."""
    n = rng.randrange(4, most + 1)
    name = rng.choice(['path', 'star', 'wheel', 'grid', 'bipartite'])
    if name == 'path':
        return graph_of(n, [((v, v + 1), 1) for v in range(1, n)])
    if name == 'star':
        return graph_of(n, [((1, v), 1) for v in range(2, n + 1)])
    if name == 'wheel':
        return graph_of(n, ring_of(range(2, n + 1), 1) + [((1, v), 1) for v in range(2, n + 1)])
    if name == 'grid':
        return grid_of(*rng.choice([size for size in [(2, 2), (2, 3), (2, 4), (2, 5), (3, 3)] if size[0] * size[1] <= most]))
    part = rng.randrange(1, n)
    return graph_of(n, [((u, v), 1) for u in range(1, part + 1) for v in range(part + 1, n + 1)])


def glued_blocks(rng: Random, most: int, ring_only: bool) -> tuple[int, Weighted, list[list[int]]]:
    """Rings, single links and cliques glued at vertices, so that every block can be cut with the same weight 24.

    Answers (number of vertices, edges as pairs with weights, the blocks as lists of vertices)."""
    n, weights, blocks = 1, [], []
    while n < most and (n < 3 or rng.random() < 0.85):
        at = rng.randrange(1, n + 1)
        free = most - n
        kind = rng.choice(['ring'] if ring_only else ['ring', 'ring', 'link', 'clique'])
        if kind == 'ring' and free >= 2:
            fresh = list(range(n + 1, n + 1 + rng.randrange(2, min(free, 5) + 1)))
            weights += ring_of([at] + fresh, 12)
        elif kind == 'clique' and free >= 3:
            size = rng.choice([size for size in (4, 5, 7) if size - 1 <= free])
            fresh = list(range(n + 1, n + size))
            weights += clique_of([at] + fresh, 24 // (size - 1))
        else:
            fresh = [n + 1]
            weights.append(((at, n + 1), 24))
        blocks.append([at] + fresh)
        n += len(fresh)
    return n, weights, blocks


def rings(rng: Random, most: int) -> Graph:
    """Rings glued at vertices."""
    n, weights, _ = glued_blocks(rng, most, True)
    return graph_of(n, weights)


def blocks(rng: Random, most: int) -> Graph:
    """Rings, single links and cliques glued at vertices."""
    n, weights, _ = glued_blocks(rng, most, False)
    return graph_of(n, weights)


def hollow(rng: Random, most: int) -> Graph:
    """Glued blocks in which vertices of two or three blocks are taken out and their blocks joined directly.

    Where the vertex stood the cactus has a node without vertices."""
    n, weights, block_list = glued_blocks(rng, most + 3, rng.random() < 0.5)
    where = {v: [i for i, block in enumerate(block_list) if v in block] for v in range(1, n + 1)}
    inside = {}
    for i, block in enumerate(block_list):
        for pair in itertools.combinations(sorted(block), 2):
            inside[pair] = i
    edges = [(min(pair), max(pair), w, inside[min(pair), max(pair)]) for pair, w in weights]
    gone = set()
    for v in range(1, n + 1):
        near = any(v in block and gone & set(block) for block in block_list)
        if not near and len(where[v]) in (2, 3) and (rng.random() < 0.6 or n - len(gone) > most):
            links = [(a + b - v, w, i) for a, b, w, i in edges if v in (a, b)]
            edges = [edge for edge in edges if v not in edge[:2]]
            for (a, x, i), (b, y, j) in itertools.combinations(links, 2):
                if i != j:
                    edges.append((min(a, b), max(a, b), max(1, x * y // (24 * (len(where[v]) - 1))), -1))
            gone.add(v)
    kept = [v for v in range(1, n + 1) if v not in gone][:most]
    place = {v: i + 1 for i, v in enumerate(kept)}
    return graph_of(len(kept), [((place[u], place[v]), w) for u, v, w, _ in edges if u in place and v in place])


def blown_up(rng: Random, most: int) -> Graph:
    """A ring, or glued blocks, whose vertices became groups that heavy edges hold together."""
    n, weights, _ = glued_blocks(rng, max(3, most // 2), rng.random() < 0.5)
    groups = {v: [v] for v in range(1, n + 1)}
    heavy = []
    for v in range(n + 1, rng.randrange(n, most) + 2):
        if v <= most:
            at = rng.randrange(1, n + 1)
            heavy.append(((rng.choice(groups[at]), v), rng.choice([30, 1000, 1 << 50])))
            groups[at].append(v)
    size = n + len(heavy)
    return graph_of(size, heavy + [((rng.choice(groups[u]), rng.choice(groups[v])), w) for (u, v), w in weights])


def heavy_edges(rng: Random, most: int) -> Graph:
    """Weights from 1 to 2^55."""
    n = rng.randrange(3, most + 1)
    weigh = lambda: rng.choice([1, 2, 3, 10 ** 6, 1 << 40, 1 << 55])
    return graph_of(n, random_tree(rng, n, weigh) + random_pairs(rng, n, 0.4, weigh))


def band(rng: Random, most: int) -> Graph:
    """A closed band: a ring joined to itself at a distance, or two or three rings side by side with rungs; at times with one edge that is
    heavier, or a vertex on an edge."""
    if most < 6:
        return ring(rng, most)
    rings = rng.choice([some for some in (1, 1, 1, 2, 3) if 3 * some < most])
    k = rng.randrange(5 if rings == 1 else 3, (most - 1) // rings + 1)
    along, across = rng.choice([(1, 1), (2, 1), (3, 1), (5, 1), (1, 2)])
    at = lambda i, v: 1 + i % rings * k + v % k
    weights = [pair for i in range(rings) for pair in ring_of([at(i, v) for v in range(k)], along)]
    if rings == 1:
        distance = rng.randrange(2, k // 2 + 1)
        weights += [((at(0, v), at(0, v + distance)), across) for v in range(k if 2 * distance < k else k // 2)]
    else:
        weights += [((at(i, v), at(i + 1, v)), across) for i in range(rings if rings > 2 else 1) for v in range(k)]
    (u, v), w = weights[0]
    change = rng.randrange(4)
    if change == 0:
        weights[0] = (u, v), 5 * w
    n = rings * k
    if change == 1:
        n += 1
        weights[:1] = [((u, n), w), ((v, n), w)]
    return graph_of(n, weights)


def two_pieces(rng: Random, most: int) -> Graph:
    """A graph and one to three vertices apart from it."""
    first = rng.choice([sparse, ring, dense])(rng, most - 3)
    second = rng.choice([(1, []), (2, [(1, 2, 3)]), (3, [(1, 2, 1), (2, 3, 1)])])
    return side_by_side([first, second])


Maker = Callable[[Random, int], Graph]
# Each kind with its share.
KINDS: dict[str, tuple[Maker, int]] = {
    'tiny': (tiny, 1), 'sparse': (sparse, 4), 'dense': (dense, 3), 'unit': (unit, 3), 'ring': (ring, 1), 'uneven ring': (uneven_ring, 1),
    'tree': (tree, 2), 'clique': (clique, 1), 'named': (named, 2), 'rings': (rings, 5), 'blocks': (blocks, 5), 'hollow': (hollow, 8),
    'blown up': (blown_up, 4), 'heavy edges': (heavy_edges, 2), 'band': (band, 4), 'two pieces': (two_pieces, 1)}
# The kinds of larger graphs, whose minimum cuts are not too many.
LARGE: list[Maker] = [ring, tree, rings, blocks, blocks, hollow, hollow, blown_up]


def random_graph(rng: Random, most: int = 10) -> tuple[str, Graph]:
    """(name of the kind, graph): a random graph of one of the kinds, with at most this many vertices."""
    name = rng.choices(list(KINDS), [share for _, share in KINDS.values()])[0]
    graph = relabelled(rng, KINDS[name][0](rng, most))
    if graph[0] > 1 and name != 'two pieces' and rng.random() < 0.02:
        n, edges = graph
        graph = n, [edge for edge in edges if n not in edge[:2]]
    assert all(w > 0 for _, _, w in graph[1]) and sum(w for _, _, w in graph[1]) <= 1 << 61
    return name, graph


def connected_graph(rng: Random, most: int) -> tuple[str, Graph]:
    """(name of its kind, a connected random graph of two vertices or more); a large one where `most` is above `SMALL`."""
    while True:
        if most <= SMALL:
            kind, graph = random_graph(rng, most)
        else:
            maker = rng.choice(LARGE)
            kind, graph = maker.__name__, relabelled(rng, maker(rng, rng.randrange(SMALL, most + 1)))
        if graph[0] > 1 and len(components_of(graph)) == 1:
            return kind, graph


# Several components

def some_pieces(rng: Random, most: int) -> Graph:
    """Two to five pieces, at most so many vertices in all."""
    pieces, left = [], most
    while left > 0 and len(pieces) < 5 and (len(pieces) < 2 or rng.random() < 0.6):
        size = rng.randrange(1, max(2, min(left, 6)))
        piece = (size, []) if size < 3 else rng.choice([sparse, ring, dense])(rng, size)
        pieces.append((2, [(1, 2, 3)]) if size == 2 else piece)
        left -= pieces[-1][0]
    return relabelled(rng, side_by_side(pieces))


def many_pieces(rng: Random) -> Graph:
    """Many components, most of them single vertices."""
    count = rng.choice([rng.randrange(6, 14), rng.randrange(14, 60), rng.randrange(60, 200), 126, 127, 128, 129])
    pieces = [rng.choice([(1, []), (1, []), (2, [(1, 2, 1)]), (3, [(1, 2, 1), (2, 3, 5)])]) for _ in range(count)]
    return relabelled(rng, side_by_side(pieces))


def path_and_singles(rng: Random, n: int, count: int) -> Graph:
    """A path and single vertices: so many vertices and components in all."""
    path = n - count + 1, [(v, v + 1, 1) for v in range(1, n - count + 1)]
    return relabelled(rng, side_by_side([path] + [(1, [])] * (count - 1)))


# Vertex weights

def some_masses(rng: Random, n: int) -> list[int]:
    """Masses from 0 up to some greatest one."""
    greatest = rng.choice([0, 1, 1, 3, 10, 1000, 1 << 26, (1 << 64) - 1])
    return [rng.choice([0, 1, rng.randrange(greatest + 1), greatest]) for _ in range(n)]


def leading_of(rng: Random, n: int) -> tuple[bool, list[list[int]] | None, list[int]]:
    """(whether there are sizes, the words that begin each vertex line or None, the masses of the vertices)."""
    count = rng.choice([0, 0, 1, 1, 2, 3])
    sizes = count > 0 and rng.random() < 0.3
    greatest = rng.choice([1, 3, 10, (1 << 64) - 1])
    weigh = lambda: rng.choice([0, 1, rng.randrange(greatest + 1), greatest])
    leading = [[rng.randrange(5)] * sizes + [weigh() for _ in range(count)] for _ in range(n)]
    masses = [words[int(sizes)] for words in leading] if count else [1] * n
    return sizes, leading if count and n else None, masses
