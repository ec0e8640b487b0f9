"""Large graphs of known kinds, most of them with facts about their minimum cuts that a formula gives.

Each family takes a number of vertices, which it may round, and a source of random numbers, and answers (vertices, edges as triples,
facts). Facts that are known stand under `value`, `count` (of the minimum cuts), `shape` (nodes, bridges and cycles, where there is one
normal cactus but for the order) and `balance` (the best one).
"""
import itertools
import math
from collections.abc import Callable, Sequence
from random import Random

from .answers_by_hand import trial_facts
from .graphs import Edge, ring_of_cliques as cliques_in_a_ring

Facts = dict[str, object]
Made = tuple[int, list[Edge], Facts]


def ring_edges(vertices: Sequence[int], weight: int = 1) -> list[Edge]:
    return [(vertices[i], vertices[(i + 1) % len(vertices)], weight) for i in range(len(vertices))]


def ring(n: int, rng: Random) -> Made:
    n = max(n, 4)
    return n, ring_edges(range(1, n + 1)), {'value': 2, 'count': n * (n - 1) // 2, 'shape': (n, 0, 1), 'balance': n // 2}


def ring_of_rings(n: int, rng: Random) -> Made:
    """A ring of k vertices, at each of which hangs a further ring of k vertices."""
    k = max(4, math.isqrt(n))
    edges = ring_edges(range(1, k + 1))
    for v in range(1, k + 1):
        start = k + (v - 1) * (k - 1)
        edges += ring_edges([v] + list(range(start + 1, start + k)))
    return k * k, edges, {'value': 2, 'count': (k + 1) * k * (k - 1) // 2, 'shape': (k * k, 0, k + 1), 'balance': k * (k // 2)}


def chain_of_rings(n: int, rng: Random) -> Made:
    """Rings of four vertices, each with a vertex in common with the next and the opposite one with the last, numbered at random: a
    cactus of one cycle below the other."""
    k = max(4, n // 3)
    n, edges = 3 * k + 1, []
    for first in range(1, n, 3):
        edges += ring_edges([first, first + 1, first + 3, first + 2])
    return n, shuffled(n, edges, rng), {'value': 2, 'count': 6 * k, 'shape': (n, 0, k), 'balance': n // 2}


def squares(n: int, rng: Random) -> Made:
    """The graph of the job `trial`: rings of four vertices, joined to a ring at opposite corners; each edge weighs 2."""
    k = max(4, n // 4)
    edges = []
    for j in range(k):
        edges += ring_edges(range(4 * j + 1, 4 * j + 5), 2) + [(4 * j + 3, 4 * ((j + 1) % k) + 1, 2)]
    return 4 * k, edges, dict(trial_facts(4 * k), shape=(3 * k, 2 * k, 1))


def mesh(rows: int, columns: int, around: bool) -> list[Edge]:
    at = lambda i, j: 1 + (i % rows) * columns + j % columns
    edges = [(at(i, j), at(i, j + 1), 1) for i in range(rows) for j in range(columns if around else columns - 1)]
    return edges + [(at(i, j), at(i + 1, j), 1) for i in range(rows if around else rows - 1) for j in range(columns)]


def grid(n: int, rng: Random) -> Made:
    rows = max(3, math.isqrt(n))
    columns = max(3, n // rows)
    return rows * columns, mesh(rows, columns, False), {'value': 2, 'count': 4, 'shape': (5, 4, 0), 'balance': 1}


def torus(n: int, rng: Random) -> Made:
    rows = max(3, math.isqrt(n))
    columns = max(3, n // rows)
    n = rows * columns
    return n, mesh(rows, columns, True), {'value': 4, 'count': n, 'shape': (n + 1, n, 0), 'balance': 1}


def path(n: int, rng: Random) -> Made:
    return n, [(v, v + 1, 1) for v in range(1, n)], {'value': 1, 'count': n - 1, 'shape': (n, n - 1, 0), 'balance': n // 2}


def star(n: int, rng: Random) -> Made:
    return n, [(1, v, 1) for v in range(2, n + 1)], {'value': 1, 'count': n - 1, 'shape': (n, n - 1, 0), 'balance': 1}


def tree(n: int, rng: Random) -> Made:
    names = list(range(1, n + 1))
    rng.shuffle(names)
    above = [rng.randrange(i) for i in range(1, n)]
    below = [1] * n
    best = 0
    for i in range(n - 1, 0, -1):
        below[above[i - 1]] += below[i]
        best = max(best, min(below[i], n - below[i]))
    edges = [(names[i], names[above[i - 1]], 1) for i in range(1, n)]
    return n, edges, {'value': 1, 'count': n - 1, 'shape': (n, n - 1, 0), 'balance': best}


def wheel(n: int, rng: Random) -> Made:
    n = max(n, 5)
    edges = ring_edges(range(2, n + 1)) + [(1, v, 1) for v in range(2, n + 1)]
    return n, edges, {'value': 3, 'count': n - 1, 'shape': (n, n - 1, 0), 'balance': 1}


def clique(n: int, rng: Random) -> Made:
    n = max(n, 4)
    edges = [(u, v, 1) for u in range(1, n) for v in range(u + 1, n + 1)]
    return n, edges, {'value': n - 1, 'count': n, 'shape': (n + 1, n, 0), 'balance': 1}


def random_sparse(n: int, rng: Random) -> Made:
    """A random tree and twice as many further edges, weights 1 to 10."""
    table = {(rng.randrange(1, v), v): rng.randrange(1, 11) for v in range(2, n + 1)}
    most = min(3 * n, n * (n - 1) // 2)
    while len(table) < most:
        u, v = rng.randrange(1, n + 1), rng.randrange(1, n + 1)
        if u != v:
            table[min(u, v), max(u, v)] = rng.randrange(1, 11)
    return n, [(u, v, w) for (u, v), w in table.items()], {}


def random_dense(n: int, rng: Random) -> Made:
    """About half of all pairs, weights 1 to 10."""
    edges = [(u, v, rng.randrange(1, 11)) for u in range(1, n) for v in range(u + 1, n + 1) if v == u + 1 or rng.random() < 0.5]
    return n, edges, {}


def dense_clusters(n: int, rng: Random) -> Made:
    """About half of all pairs, weights 1 to 10,000, and n/2 times as much within two clusters (after Nagamochi, Ono and Ibaraki)."""
    cluster = [rng.random() < 0.5 for _ in range(n + 1)]
    weight = lambda u, v: rng.randrange(1, 10_001) * (max(1, n // 2) if cluster[u] == cluster[v] else 1)
    edges = [(u, v, weight(u, v)) for u in range(1, n) for v in range(u + 1, n + 1) if v == u + 1 or rng.random() < 0.5]
    return n, edges, {}


CLIQUE_SIZE = 8


def ring_of_cliques(n: int, rng: Random) -> Made:
    """Cliques of eight vertices, joined to a ring by single edges."""
    k, count = CLIQUE_SIZE, max(4, n // CLIQUE_SIZE)
    edges = [(u, v, w) for (u, v), w in cliques_in_a_ring(count, k)]
    return k * count, edges, {'value': 2, 'count': count * (count - 1) // 2, 'shape': (count, 0, 1), 'balance': k * (count // 2)}


METRO, ACCESS = 6, 12


def carrier(n: int, rng: Random, meshed: bool, single_share: float) -> tuple[int, list[Edge], int, int]:
    """A backbone, a metro ring between each two neighbours of it, and access nodes at the metro rings.

    The backbone is a ring, or a ring with the links to the next but one as well. A metro ring is a path of six nodes between two
    backbone nodes. An access node has one link, or two links to neighbours in its metro ring. Answers (vertices, edges, the
    number of access nodes with one link, the number of cuts that two links make where no access node has one link)."""
    size = max(5, n // (1 + METRO + ACCESS))
    edges = [(v, v % size + 1, 1) for v in range(1, size + 1)]
    if meshed:
        edges += [(v, (v + 1) % size + 1, 1) for v in range(1, size + 1)]
    last, single, pairs = size, 0, 0
    for v in range(1, size + 1):
        metro = [v] + list(range(last + 1, last + METRO + 1)) + [v % size + 1]
        last += METRO
        edges += [(metro[i], metro[i + 1], 1) for i in range(METRO + 1)]
        doubled = set()
        for _ in range(ACCESS):
            last += 1
            place = rng.randrange(1, METRO)
            edges.append((metro[place], last, 1))
            if rng.random() < single_share:
                single += 1
            else:
                edges.append((metro[place + 1], last, 1))
                doubled.add(place)
                pairs += 1
        open_links = METRO + 1 - len(doubled)
        pairs += open_links * (open_links - 1) // 2
    return last, edges, single, pairs


def network(n: int, rng: Random) -> Made:
    """A meshed backbone; one access node in ten has a single link."""
    n, edges, single, _ = carrier(n, rng, True, 0.1)
    return n, edges, {'value': 1, 'count': single, 'shape': (single + 1, single, 0), 'balance': 1} if single else {}


def network_dual(n: int, rng: Random) -> Made:
    """A backbone ring; every access node has two links."""
    n, edges, _, pairs = carrier(n, rng, False, 0.0)
    return n, edges, {'value': 2, 'count': pairs}


def shuffled(n: int, edges: list[Edge], rng: Random) -> list[Edge]:
    """The same edges with the vertices numbered at random."""
    names = list(range(1, n + 1))
    rng.shuffle(names)
    return [(names[u - 1], names[v - 1], w) for u, v, w in edges]


def thick_ring(n: int, rng: Random) -> Made:
    """A ring of edges of weight 2, numbered at random, with one further vertex at an edge of weight 3: two edges of the ring weigh more
    than the one cut, and that shows only all around it."""
    n = max(n, 5)
    edges = ring_edges(range(1, n), 2) + [(1, n, 3)]
    return n, shuffled(n, edges, rng), {'value': 3, 'count': 1, 'shape': (2, 1, 0), 'balance': 1}


def prism(n: int, rng: Random) -> Made:
    """Two rings with a rung from each vertex to its mate, numbered at random; one rung has a vertex in its middle."""
    k = max(n // 2, 4)
    edges = ring_edges(range(1, k + 1)) + ring_edges(range(k + 1, 2 * k + 1)) + [(v, k + v, 1) for v in range(2, k + 1)]
    edges += [(1, 2 * k + 1, 1), (k + 1, 2 * k + 1, 1)]
    return 2 * k + 1, shuffled(2 * k + 1, edges, rng), {'value': 2, 'count': 1, 'shape': (2, 1, 0), 'balance': 1}


def ring_lattice(n: int, rng: Random) -> Made:
    """A ring in which each vertex is joined to the two nearest on either side, numbered at random: each vertex alone is a minimum cut,
    and there is no other."""
    n = max(n, 7)
    edges = ring_edges(range(1, n + 1)) + [(v, (v + 1) % n + 1, 1) for v in range(1, n + 1)]
    return n, shuffled(n, edges, rng), {'value': 4, 'count': n, 'shape': (n + 1, n, 0), 'balance': 1}


def narrow_torus(n: int, rng: Random) -> Made:
    """A torus of four by many, numbered at random: each vertex alone is a minimum cut, and there is no other."""
    k = max(n // 4, 5)
    edges = mesh(4, k, True)
    return 4 * k, shuffled(4 * k, edges, rng), {'value': 4, 'count': 4 * k, 'shape': (4 * k + 1, 4 * k, 0), 'balance': 1}


def all_alone(n: int, value: int) -> Facts:
    """Where each vertex alone is a minimum cut, and there is no other."""
    return {'value': value, 'count': n, 'shape': (n + 1, n, 0), 'balance': 1}


def opposite_ring(n: int, rng: Random) -> Made:
    """A ring of edges of weight 2 with an edge of weight 1 from each vertex to the opposite one, numbered along."""
    k = max(n // 2, 4)
    n = 2 * k
    return n, ring_edges(range(1, n + 1), 2) + [(v, k + v, 1) for v in range(1, k + 1)], all_alone(n, 5)


def ring_at_a_quarter(n: int, rng: Random) -> Made:
    """A ring in which each vertex is joined to those a quarter further on either side, numbered along."""
    n = max(n, 12)
    edges = ring_edges(range(1, n + 1)) + [(v + 1, (v + n // 4) % n + 1, 1) for v in range(n)]
    return n, edges, all_alone(n, 4)


def torus_along(n: int, rng: Random) -> Made:
    """A torus of three by many, numbered along."""
    k = max(n // 3, 5)
    return 3 * k, mesh(3, k, True), all_alone(3 * k, 4)


def three_way_torus(n: int, rng: Random) -> Made:
    """A torus of three by many with a diagonal in each square, numbered along."""
    k = max(n // 3, 5)
    at = lambda i, j: 1 + (i % 3) * k + j % k
    edges = mesh(3, k, True) + [(at(i, j), at(i + 1, j + 1), 1) for i in range(3) for j in range(k)]
    return 3 * k, edges, all_alone(3 * k, 6)


def all_in_pairs(n: int, value: int) -> Facts:
    """Where each vertex alone is a minimum cut, and each of the n / 2 pairs that a heavy edge joins, and there is no other."""
    return {'value': value, 'count': 3 * n // 2, 'shape': (3 * n // 2 + 1, 3 * n // 2, 0), 'balance': 2}


def hexagons(n: int, rng: Random) -> Made:
    """Four rings numbered along, with edges of weight 2 that make hexagons between each ring and the next, and the last and the first."""
    k = max(n // 4, 6)
    k -= k % 2
    at = lambda i, j: 1 + (i % 4) * k + j % k
    edges = [(at(i, j), at(i, j + 1), 1) for i in range(4) for j in range(k)]
    edges += [(at(i, j), at(i + 1, j), 2) for i in range(4) for j in range(k) if (i + j) % 2 == 0]
    return 4 * k, edges, all_in_pairs(4 * k, 4)


def spoked(n: int, shift: int) -> Made:
    """A ring numbered along, a spoke of weight 2 at each vertex, and edges of weight 1 from the end of each spoke to that of the one
    so many further."""
    k = max(n // 2, 12)
    edges = ring_edges(range(1, k + 1)) + [(k + 1 + v, k + 1 + (v + shift) % k, 1) for v in range(k)]
    return 2 * k, edges + [(v, k + v, 2) for v in range(1, k + 1)], all_in_pairs(2 * k, 4)


def petersen(n: int, rng: Random) -> Made:
    """Such a ring with spokes to the next but one, numbered along."""
    return spoked(n, 2)


def petersen_by_three(n: int, rng: Random) -> Made:
    """Such a ring with spokes to the third, numbered along."""
    return spoked(n, 3)


def petersen_scattered(n: int, rng: Random) -> Made:
    """Such a ring with spokes to the next but one, numbered at random."""
    n, edges, known = spoked(n, 2)
    return n, shuffled(n, edges, rng), known


def regular(n: int, rng: Random) -> Made:
    """Two rings through all vertices, each in an order of its own at random, so each vertex has degree four."""
    n = max(n, 8)
    table = {}
    for _ in range(2):
        names = list(range(1, n + 1))
        rng.shuffle(names)
        for u, v, w in ring_edges(names):
            table[min(u, v), max(u, v)] = table.get((min(u, v), max(u, v)), 0) + w
    return n, [(u, v, w) for (u, v), w in table.items()], {}


def hypercube(n: int, rng: Random) -> Made:
    """A hypercube whose edges weigh 1 in the first direction, 2 in the second and so on, numbered at random."""
    k = max(n.bit_length() - 1, 4)
    n = 1 << k
    edges = [(v + 1, (v | 1 << i) + 1, i + 1) for v in range(n) for i in range(k) if not v >> i & 1]
    return n, shuffled(n, edges, rng), all_alone(n, k * (k + 1) // 2)


def random_unweighted(n: int, rng: Random) -> Made:
    """A random tree and further edges, eight for each vertex in all."""
    pairs = {(rng.randrange(1, v), v) for v in range(2, n + 1)}
    most = min(8 * n, n * (n - 1) // 2)
    while len(pairs) < most:
        u, v = rng.randrange(1, n + 1), rng.randrange(1, n + 1)
        if u != v:
            pairs.add((min(u, v), max(u, v)))
    return n, [(u, v, 1) for u, v in pairs], {}


def attachment(n: int, rng: Random) -> Made:
    """Preferential attachment: each vertex is joined to four earlier ones, chosen by their degrees at random."""
    n = max(n, 6)
    edges = [(u, v, 1) for v in range(2, 6) for u in range(1, v)]
    ends = [end for u, v, _ in edges for end in (u, v)]
    for v in range(6, n + 1):
        chosen = set()
        while len(chosen) < 4:
            chosen.add(rng.choice(ends))
        for u in sorted(chosen):
            edges.append((u, v, 1))
            ends += (u, v)
    return n, edges, {}


def cubic(n: int, rng: Random) -> Made:
    """A ring through all vertices and a matching of them, each in an order of its own at random, so each vertex has degree three."""
    n = max(n - n % 2, 8)
    table = {}
    for step in (1, 2):
        names = list(range(1, n + 1))
        rng.shuffle(names)
        for u, v, w in ring_edges(names)[::step]:
            pair = min(u, v), max(u, v)
            table[pair] = table.get(pair, 0) + w
    return n, [(u, v, w) for (u, v), w in table.items()], {}


def tree_of_cliques(n: int, rng: Random) -> Made:
    """Cliques of eight vertices, each joined by one edge to an earlier one that is chosen at random."""
    size, edges = 8, []
    k = max(n // size, 2)
    for clique in range(k):
        first = clique * size + 1
        edges += [(u, v, 1) for u in range(first, first + size) for v in range(u + 1, first + size)]
        if clique:
            edges.append((rng.randrange(1, first), first, 1))
    return k * size, edges, {'value': 1, 'count': k - 1, 'shape': (k, k - 1, 0)}


def tetrahedra(n: int, rng: Random) -> Made:
    """The tetrahedra of a mesh: a cube of cubes, each cut into six around a diagonal; those with a common face are joined."""
    k = max(2, round((n / 6) ** (1 / 3)))
    orders = list(itertools.permutations(range(3)))
    at = lambda cube, order: 1 + 6 * (cube[0] * k * k + cube[1] * k + cube[2]) + orders.index(order)
    edges = []
    for cube in itertools.product(range(k), repeat=3):
        for order in orders:
            # The corners of a tetrahedron are reached by steps along these axes, one after the other.
            a, b, c = order
            edges += [(at(cube, order), at(cube, other), 1) for other in ((b, a, c), (a, c, b)) if order < other]
            # Its last face, away from the first corner, is the first one of a tetrahedron of the next cube along the first axis.
            if cube[a] + 1 < k:
                following = tuple(place + (axis == a) for axis, place in enumerate(cube))
                edges.append((at(cube, order), at(following, (b, c, a)), 1))
    return 6 * k ** 3, edges, {}


# Each family with its number of vertices for a number of edges.
FAMILIES: dict[str, tuple[Callable[[int, Random], Made], Callable[[int], int]]] = {
    'ring': (ring, lambda m: m),
    'ring_of_rings': (ring_of_rings, lambda m: m),
    'chain_of_rings': (chain_of_rings, lambda m: m * 3 // 4),
    'squares': (squares, lambda m: m * 4 // 5),
    'grid': (grid, lambda m: m // 2),
    'torus': (torus, lambda m: m // 2),
    'thick_ring': (thick_ring, lambda m: m),
    'prism': (prism, lambda m: m * 2 // 3),
    'ring_lattice': (ring_lattice, lambda m: m // 2),
    'narrow_torus': (narrow_torus, lambda m: m // 2),
    'opposite_ring': (opposite_ring, lambda m: m * 2 // 3),
    'ring_at_a_quarter': (ring_at_a_quarter, lambda m: m // 2),
    'torus_along': (torus_along, lambda m: m // 2),
    'three_way_torus': (three_way_torus, lambda m: m // 3),
    'hexagons': (hexagons, lambda m: m * 2 // 3),
    'petersen': (petersen, lambda m: m * 2 // 3),
    'petersen_by_three': (petersen_by_three, lambda m: m * 2 // 3),
    'petersen_scattered': (petersen_scattered, lambda m: m * 2 // 3),
    'regular': (regular, lambda m: m // 2),
    'cubic': (cubic, lambda m: m * 2 // 3),
    'hypercube': (hypercube, lambda m: max(1 << k for k in range(4, 26) if k << (k - 1) <= max(m, 32))),
    'path': (path, lambda m: m + 1),
    'star': (star, lambda m: m + 1),
    'tree': (tree, lambda m: m + 1),
    'wheel': (wheel, lambda m: m // 2 + 1),
    'clique': (clique, lambda m: (1 + math.isqrt(1 + 8 * m)) // 2),
    'random_sparse': (random_sparse, lambda m: m // 3),
    'random_unweighted': (random_unweighted, lambda m: m // 8),
    'random_dense': (random_dense, lambda m: 2 * math.isqrt(m)),
    'dense_clusters': (dense_clusters, lambda m: 2 * math.isqrt(m)),
    'ring_of_cliques': (ring_of_cliques, lambda m: m * 8 // 29),
    'tree_of_cliques': (tree_of_cliques, lambda m: m * 8 // 29),
    'attachment': (attachment, lambda m: m // 4),
    'tetrahedra': (tetrahedra, lambda m: m // 2),
    'network': (network, lambda m: m * 19 // 32),
    'network_dual': (network_dual, lambda m: m * 19 // 32),
}
