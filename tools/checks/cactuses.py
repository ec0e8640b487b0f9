"""Cactuses: a strict reader of their text, their cuts, and what is special about one.

A cactus is flat here, as in the text: nodes with their vertices, bridges as pairs of nodes, cycles as lists of nodes. A side is the
ascending tuple of the vertices that come apart from node 0.
"""
import itertools
from collections.abc import Iterable
from dataclasses import dataclass
from random import Random

from .metis import LIMIT_VERTICES

MOST_VALUE = 1 << 62
BELOW = 1 << 64
MOST_DIGITS = 20

Side = tuple[int, ...]


@dataclass
class Cactus:
    """Value, number of vertices, the vertices of each node, bridges as pairs of nodes, cycles as lists of nodes."""
    value: int
    n: int
    nodes: list[list[int]]
    bridges: list[tuple[int, int]]
    cycles: list[list[int]]

    def text(self) -> str:
        """The text, as the job `cactus` prints it."""
        lines = [f'cactus {self.value} {self.n} {len(self.nodes)} {len(self.bridges)} {len(self.cycles)}']
        lines += [' '.join(map(str, ['node', i, *node])) for i, node in enumerate(self.nodes)]
        lines += [f'bridge {i} {j}' for i, j in self.bridges]
        lines += [' '.join(map(str, ['cycle', *cycle])) for cycle in self.cycles]
        return '\n'.join(lines) + '\n'


# The text

class Malformed(Exception):
    """A text that breaks a rule, with the number of the line that breaks it first."""
    def __init__(self, line: int):
        super().__init__(line)
        self.line = line


class Lines:
    """The lines of a text, which are taken one after the other; `at` is the number of the last one that was taken."""
    def __init__(self, text: bytes):
        self.lines = text.split(b'\n')
        self.unended = self.lines.pop() != b''
        self.at = 0

    def require(self, holds: bool) -> None:
        """Refuses the line that was taken last, unless this holds."""
        if not holds:
            raise Malformed(self.at)

    def numbers(self, word: bytes) -> list[int]:
        """The numbers behind the first word of the next line, which must be this word; all parted by single spaces."""
        self.at += 1
        self.require(self.at <= len(self.lines))
        words = self.lines[self.at - 1].split(b' ')
        self.require(words[0] == word)
        for digits in words[1:]:
            self.require(digits.isdigit() and (digits == b'0' or not digits.startswith(b'0')))
        return [int(digits) if len(digits) <= MOST_DIGITS else BELOW for digits in words[1:]]

    def end(self) -> None:
        """Refuses what stands behind the lines that were taken."""
        if len(self.lines) > self.at or self.unended:
            raise Malformed(self.at + 1)


def read_nodes(lines: Lines, n: int, count: int) -> list[list[int]]:
    """The vertices of each node: none twice, ascending, and vertex 1 first of all."""
    nodes, seen = [], set()
    for i in range(count):
        numbers = lines.numbers(b'node')
        vertices = numbers[1:]
        ascending = all(a < b for a, b in zip(vertices, vertices[1:]))
        lines.require(numbers[:1] == [i] and ascending and all(1 <= v <= n and v not in seen for v in vertices))
        lines.require(i > 0 or vertices[:1] == [1])
        seen.update(vertices)
        nodes.append(vertices)
    return nodes


def read_bridge(lines: Lines, node_count: int) -> tuple[int, int]:
    """A bridge from a lesser node to a greater one."""
    numbers = lines.numbers(b'bridge')
    lines.require(len(numbers) == 2 and numbers[0] < numbers[1] < node_count)
    return numbers[0], numbers[1]


def read_cycle(lines: Lines, node_count: int) -> list[int]:
    """A cycle of three nodes or more, the least one first."""
    numbers = lines.numbers(b'cycle')
    lines.require(len(numbers) >= 3 and len(set(numbers)) == len(numbers) and max(numbers) < node_count and numbers[0] == min(numbers))
    return numbers


def read(text: bytes) -> Cactus:
    """The cactus that the bytes state, by the strict rules; raises `Malformed` with the first line that breaks one."""
    lines = Lines(text)
    header = lines.numbers(b'cactus')
    lines.require(len(header) == 5)
    value, n, node_count, bridge_count, cycle_count = header
    lines.require(value <= MOST_VALUE and 1 <= n <= LIMIT_VERTICES and max(header[2:]) < BELOW)
    nodes = read_nodes(lines, n, node_count)
    bridges = [read_bridge(lines, node_count) for _ in range(bridge_count)]
    cycles = [read_cycle(lines, node_count) for _ in range(cycle_count)]
    lines.end()
    cactus = Cactus(value, n, nodes, bridges, cycles)
    joined = 1 + len(bridges) + sum(len(cycle) - 1 for cycle in cycles)
    if sum(map(len, nodes)) < n or node_count != joined or len(reached(cactus)) < node_count:
        raise Malformed(lines.at + 1)
    return cactus


def first_fault(text: bytes) -> int:
    """The line of the first fault of the text of a cactus, 0 where there is none."""
    try:
        read(text)
    except Malformed as refusal:
        return refusal.line
    return 0


# Its cuts

def edges_of(cactus: Cactus) -> list[tuple[int, int, tuple]]:
    """All edges: (i, j, name), where the name is ('bridge', number) or ('cycle', number, place)."""
    edges = [(i, j, ('bridge', k)) for k, (i, j) in enumerate(cactus.bridges)]
    for k, cycle in enumerate(cactus.cycles):
        edges += [(cycle[p], cycle[(p + 1) % len(cycle)], ('cycle', k, p)) for p in range(len(cycle))]
    return edges


def reached(cactus: Cactus, removed: Iterable[tuple] = ()) -> set[int]:
    """The nodes that node 0 reaches without the edges of the removed names."""
    near, removed = {}, set(removed)
    for i, j, name in edges_of(cactus):
        if name not in removed:
            near.setdefault(i, []).append(j)
            near.setdefault(j, []).append(i)
    found, todo = {0}, [0]
    while todo:
        for j in near.get(todo.pop(), ()):
            if j not in found:
                found.add(j)
                todo.append(j)
    return found


def side_without(cactus: Cactus, removed: Iterable[tuple]) -> Side:
    """The vertices that node 0 does not reach without these edges."""
    kept = reached(cactus, removed)
    return tuple(sorted(v for i, node in enumerate(cactus.nodes) if i not in kept for v in node))


def sides_of(cactus: Cactus) -> list[Side]:
    """The side of each cut: one bridge, or two edges of one cycle. A side may stand in the list more than once."""
    cuts = [[('bridge', k)] for k in range(len(cactus.bridges))]
    for k, cycle in enumerate(cactus.cycles):
        cuts += [[('cycle', k, p), ('cycle', k, q)] for p, q in itertools.combinations(range(len(cycle)), 2)]
    return [side_without(cactus, cut) for cut in cuts]


def blocks_at(cactus: Cactus) -> list[list[int]]:
    """For each node how many bridges and how many cycles it lies in."""
    counts = [[0, 0] for _ in cactus.nodes]
    for i, j in cactus.bridges:
        counts[i][0] += 1
        counts[j][0] += 1
    for cycle in cactus.cycles:
        for i in cycle:
            counts[i][1] += 1
    return counts


def is_normal(cactus: Cactus) -> bool:
    """Every node without vertices lies in two blocks or more, and where it lies in just two, they are cycles."""
    for node, (bridges, cycles) in zip(cactus.nodes, blocks_at(cactus)):
        if not node and (bridges + cycles < 2 or (bridges + cycles == 2 and cycles < 2)):
            return False
    return True


def count_of_normal(cactus: Cactus) -> int:
    """The number of different sides of a normal cactus, without making them."""
    shared = sum(1 for node, counts in zip(cactus.nodes, blocks_at(cactus)) if not node and counts == [0, 2])
    return len(cactus.bridges) + sum(len(cycle) * (len(cycle) - 1) // 2 for cycle in cactus.cycles) - shared


def crossing(sides: Iterable[Side]) -> bool:
    """Whether two of the sides overlap without one holding the other. Vertex 1 is outside both, so all corners are there."""
    sets = [set(side) for side in sides]
    return any(a & b and a - b and b - a for a, b in itertools.combinations(sets, 2))


def features(cactus: Cactus, sides: Iterable[Side]) -> list[str]:
    """What is special about a cactus with these sides, as names to count."""
    counts = blocks_at(cactus)
    empty = [counts[i] for i, node in enumerate(cactus.nodes) if not node]
    found = {'with cuts that cross': crossing(sides),
             'bridges': cactus.bridges,
             'cycles': cactus.cycles,
             'bridges and cycles': cactus.bridges and cactus.cycles,
             'two cycles or more': len(cactus.cycles) > 1,
             'cycles that share a node': any(cycles > 1 for _, cycles in counts),
             'nodes with several vertices': any(len(node) > 1 for node in cactus.nodes),
             'nodes without vertices': empty,
             'nodes without vertices in two cycles only': [0, 2] in empty,
             'nodes without vertices in a cycle and elsewhere': any(bridges + cycles > 2 and cycles for bridges, cycles in empty),
             'more nodes than vertices': len(cactus.nodes) > cactus.n}
    return [name for name, holds in found.items() if holds]


def random_cactus(rng: Random) -> Cactus:
    """A random cactus: bridges and cycles at random nodes, nodes with any number of vertices, numbered as they come."""
    size = rng.randrange(1, 9)
    node_count, bridges, cycles = 1, [], []
    for _ in range(rng.randrange(0, size)):
        at = rng.randrange(node_count)
        if rng.random() < 0.5:
            bridges.append((at, node_count))
            node_count += 1
        else:
            more = rng.randrange(2, 5)
            cycles.append([at] + list(range(node_count, node_count + more)))
            node_count += more
    nodes = [[] for _ in range(node_count)]
    nodes[0].append(1)
    n = 1
    for i in rng.sample(range(node_count), node_count):
        for _ in range(rng.choice([0, 1, 1, 1, 2]) if i else 0):
            n += 1
            nodes[i].append(n)
    if rng.random() < 0.3:
        more = rng.randrange(1, 4)
        nodes[0] += range(n + 1, n + more + 1)
        n += more
    return Cactus(rng.choice([0, 1, 2, 10, 1 << 62]), n, nodes, bridges, cycles)
