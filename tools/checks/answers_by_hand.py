"""The right answers of the program for small graphs, read off the definitions: status, text, line on standard error.

Nothing here uses the program. Graphs in several components may be larger: their minimum cuts are the unions of components without
vertex 1.
"""
import itertools
import re
from collections.abc import Sequence

from . import canonical_by_hand as canonical
from .cactuses import Side
from .cuts_by_hand import balance, minimum_cuts
from .graphs import Edge, Graph, components_of, graph_of
from .metis import LIMIT_EDGES

Parts = list[list[int]]
Right = tuple[int, list[str] | None, str]

MOST_NUMBERS = 1 << 30       # of a list: its cuts times the vertices
MOST_SUMS = 1 << 32          # of a best balance: components times one more than all mass
MOST_COUNTED = 127           # components of which the cuts are counted
MOST_TRIED = 12              # components of which all unions are tried for a best balance here
MOST_WEIGHT = 1 << 61        # of all edges after insertions


def lines(*parts: str) -> str:
    """The text of these lines."""
    return ''.join(part + '\n' for part in parts)


def listing(value: int, sides: list[Side]) -> str:
    """The text of `cuts` and `part`."""
    return lines(f'value {value}', f'cuts {len(sides)}', *(' '.join(map(str, side)) for side in sides))


def balanced_text(value: int, masses: Sequence[int], side: Side) -> str:
    """The text of `balanced`."""
    return lines(f'value {value}', f'balance {balance(masses, side)}', 'side ' + ' '.join(map(str, side)))


# Several components

def unions_of(parts: Parts) -> list[Side]:
    """All nonempty unions of components without that of vertex 1, in the order of lists."""
    chosen = itertools.chain.from_iterable(itertools.combinations(parts[1:], k) for k in range(1, len(parts)))
    return sorted(tuple(sorted(itertools.chain.from_iterable(some))) for some in chosen)


def greatest_balance(parts: Parts, masses: Sequence[int]) -> int:
    """The greatest balance of a union of components, by all sums that those without vertex 1 can make."""
    total, sums = sum(masses), {0}
    for part in parts[1:]:
        mass = sum(masses[v - 1] for v in part)
        sums |= {some + mass for some in sums}
    return max(min(some, total - some) for some in sums)


def best_union(parts: Parts, masses: Sequence[int]) -> Side:
    """Some union of components of the greatest balance."""
    made = {0: ()}
    for k, part in enumerate(parts[1:], 1):
        mass = sum(masses[v - 1] for v in part)
        made = {**{some + mass: (*chosen, k) for some, chosen in made.items()}, **made}
    best = greatest_balance(parts, masses)
    chosen = next(chosen for some, chosen in made.items() if min(some, sum(masses) - some) == best) or (1,)
    return tuple(sorted(v for k in chosen for v in parts[k]))


def is_union(parts: Parts, side: list[int]) -> bool:
    """Whether the list is a nonempty union of components without that of vertex 1, ascending."""
    inside = set(side)
    whole = all(inside.issuperset(part) or inside.isdisjoint(part) for part in parts)
    return whole and bool(side) and 1 not in inside and side == sorted(inside) and max(side) <= sum(map(len, parts))


def fault_of_balanced(parts: Parts, masses: Sequence[int], text: str) -> str | None:
    """What is wrong with the text of `balanced` for a graph in several components, or None."""
    found = re.fullmatch(r'value 0\nbalance (\d+)\nside (\d+(?: \d+)*)\n', text)
    if found is None:
        return 'the text has not the form of `balanced`'
    side = list(map(int, found[2].split()))
    if not is_union(parts, side):
        return 'the side is no union of components without vertex 1'
    if balance(masses, side) != int(found[1]):
        return f'the side has the balance {balance(masses, side)}'
    best = greatest_balance(parts, masses)
    return None if int(found[1]) == best else f'the best balance is {best}'


def wanted_apart(words: list[str], graph: Graph, masses: Sequence[int], parts: Parts) -> Right:
    """The right answer of a graph in two or more components, as `wanted` gives it; of `balanced` all best texts, in order, or None
    where they are too many to be tried."""
    job, count, n = words[0], len(parts), graph[0]
    if job == 'value':
        return 0, [lines('value 0')], ''
    if job in ('cactus', 'grow', 'augment'):
        return 0, [lines(f'disconnected {count}')], ''
    number = 2 ** (count - 1) - 1
    if job == 'count':
        if count > MOST_COUNTED:
            return 8, [''], lines(f'count too large: {count} components')
        return 0, [lines('value 0', f'count {number}')], ''
    if job == 'balanced':
        if count * (sum(masses) + 1) > MOST_SUMS:
            return 9, [''], lines(f'balance too large: {count} components, weight {sum(masses)}')
        if count > MOST_TRIED:
            return 0, None, ''
        best = greatest_balance(parts, masses)
        return 0, [balanced_text(0, masses, side) for side in unions_of(parts) if balance(masses, side) == best], ''
    if number * n > MOST_NUMBERS:
        return 6, [''], lines(f'list too large: 2^{count - 1}-1 cuts, {n} vertices')
    return 0, [listing(0, asked_for(words, unions_of(parts), masses))], ''


# One component

def asked_for(words: list[str], sides: list[Side], masses: Sequence[int]) -> list[Side]:
    """The sides that the words of `cuts` or `part` ask for."""
    if words[0] == 'part':
        u, v = map(int, words[1:])
        return [side for side in sides if (u in side) != (v in side)]
    least = int(words[2]) if len(words) > 1 else 0
    return [side for side in sides if balance(masses, side) >= least]


def triples_of(words: list[str]) -> list[Edge]:
    """The insertions that the words of `grow` name."""
    numbers = list(map(int, words[1:]))
    return [tuple(numbers[k:k + 3]) for k in range(0, len(numbers), 3)]


def with_edges(graph: Graph, triples: Sequence[Edge]) -> Graph:
    """The graph with these weights added to its edges, or with these edges made."""
    n, edges = graph
    return graph_of(n, [((u, v), w) for u, v, w in [*edges, *triples]])


def cactus_text(graph: Graph) -> str:
    """The text of `cactus`."""
    return canonical.canonical(graph[0], *minimum_cuts(graph)).text()


def grown_text(graph: Graph, triples: Sequence[Edge]) -> str:
    """The text of `grow`."""
    steps = []
    for k in range(1, len(triples) + 1):
        value, sides = minimum_cuts(with_edges(graph, triples[:k]))
        steps.append(f'step {k} value {value} count {len(sides)}')
    return lines(*steps) + cactus_text(with_edges(graph, triples))


def augment_text(graph: Graph) -> str:
    """The text with the edges that the canonical cactus gives."""
    value, sides = minimum_cuts(graph)
    sets = canonical.end_nodes(canonical.canonical(graph[0], value, sides))
    edges = canonical.opposite_edges(sets)
    return lines(f'value {value}', f'edges {len(edges)}', *(f'edge {u} {v}' for u, v in edges),
                 f'sets {len(sets)}', *(' '.join(map(str, ['set', *members])) for members in sorted(sets)))


def wanted_joined(words: list[str], graph: Graph, masses: Sequence[int]) -> Right:
    """The right answer of a connected graph, as `wanted` gives it."""
    job = words[0]
    if job == 'cactus':
        return 0, [cactus_text(graph)], ''
    if job == 'grow':
        return 0, [grown_text(graph, triples_of(words))], ''
    if job == 'augment':
        return 0, [augment_text(graph)], ''
    value, sides = minimum_cuts(graph)
    if job == 'value':
        return 0, [lines(f'value {value}')], ''
    if job == 'count':
        return 0, [lines(f'value {value}', f'count {len(sides)}')], ''
    if job == 'balanced':
        best = max(balance(masses, side) for side in sides)
        return 0, [balanced_text(value, masses, next(side for side in sides if balance(masses, side) == best))], ''
    return 0, [listing(value, asked_for(words, sides, masses))], ''


# Any graph, and none

def trial_facts(number: int) -> dict[str, int]:
    """What the job `trial` prints of the graph that it makes: rings of four vertices, joined to a ring at opposite corners."""
    k = number // 4
    return {'vertices': 4 * k, 'edges': 5 * k, 'value': 4, 'count': k * (k - 1) // 2 + 2 * k, 'balance': 4 * (k // 2)}


def trial_text(number: int) -> str:
    """The text of `trial`."""
    return lines(*(f'{name} {fact}' for name, fact in trial_facts(number).items()))


def named_vertices(words: list[str]) -> list[int]:
    """The vertices that the words name, in their order."""
    if words[0] == 'part':
        return list(map(int, words[1:]))
    return [vertex for u, v, _ in triples_of(words) for vertex in (u, v)] if words[0] == 'grow' else []


def too_large_at(graph: Graph, triples: Sequence[Edge]) -> int | None:
    """The number of the first insertion after which the graph is above its limits, or None."""
    pairs = {(u, v) for u, v, _ in graph[1]}
    total = sum(w for _, _, w in graph[1])
    for k, (u, v, w) in enumerate(triples, 1):
        pairs.add((min(u, v), max(u, v)))
        total += w
        if total > MOST_WEIGHT or len(pairs) > LIMIT_EDGES:
            return k
    return None


def wanted(words: list[str], graph: Graph, masses: Sequence[int]) -> Right:
    """The right answer to words that are a command, without those on workers: (status, list of the texts on standard output that
    are right, standard error). A connected graph must be small, and has one text. Where the list is None, `fault_of_balanced` judges."""
    n = graph[0]
    for vertex in named_vertices(words):
        if not 1 <= vertex <= n:
            return 7, [''], lines(f'vertex {vertex} not in 1..{n}')
    large = too_large_at(graph, triples_of(words)) if words[0] == 'grow' else None
    if large is not None:
        return 10, [''], lines(f'grow too large at edge {large}')
    if n < 2:
        return 0, [lines('no cut')], ''
    parts = components_of(graph)
    return wanted_apart(words, graph, masses, parts) if len(parts) > 1 else wanted_joined(words, graph, masses)
