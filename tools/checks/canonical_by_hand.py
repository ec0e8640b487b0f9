"""The canonical cactus of a set of sides, read off its definition, and what else such a cactus says.

A cactus is canonical where it is normal, each cycle has four nodes or more, the blocks of a node ascend by the least vertex below
them, and in each cycle the least vertex at or under the first child is less than that at or under the last. The sides alone tell
it: the set below a block is a side that lies in no greater one of the same place; two of the greatest sides inside a block's set
overlap just where the block is a cycle. Sides are frozensets here. Nothing uses the program.
"""
from collections.abc import Iterable
from dataclasses import dataclass

from .cactuses import Cactus, Side, blocks_at, is_normal, side_without

Vertices = frozenset[int]


@dataclass
class Node:
    """The vertices of a node, and its blocks: lists of children, one for a bridge, three or more for a cycle."""
    vertices: list[int]
    blocks: list[list['Node']]


def greatest_within(sides: Iterable[Vertices], whole: Vertices) -> list[Vertices]:
    """The sides properly inside a set, those first that lie in no other such side."""
    within = sorted((side for side in sides if side < whole), key=len, reverse=True)
    return [side for k, side in enumerate(within) if not any(side < greater for greater in within[:k])]


def overlap(sets: list[Vertices]) -> bool:
    """Whether two of the sets have a common vertex."""
    return any(a & b for k, a in enumerate(sets) for b in sets[:k])


def cycle_of(sides: list[Vertices], whole: Vertices, tops: list[Vertices]) -> list[Node]:
    """The children of the cycle whose set is `whole`, where `tops` are all of it but the last child, and all but the first."""
    assert len(tops) == 2 and tops[0] | tops[1] == whole, 'no cactus has these sides'
    first = min(whole - tops[0], whole - tops[1], key=min)
    beginnings = sorted((side for side in sides if first <= side <= whole), key=len)
    assert beginnings[0] == first and beginnings[-1] == whole, 'no cactus has these sides'
    sets = [first] + [longer - shorter for shorter, longer in zip(beginnings, beginnings[1:])]
    return [node_of(sides, child) for child in sets]


def block_of(sides: list[Vertices], whole: Vertices) -> list[Node]:
    """The block whose set is `whole`, as the list of its children."""
    tops = greatest_within(sides, whole)
    return cycle_of(sides, whole, tops) if overlap(tops) else [node_of(sides, whole)]


def node_of(sides: list[Vertices], whole: Vertices) -> Node:
    """The node with this set at and under it."""
    sides = [side for side in sides if side <= whole]
    tops = greatest_within(sides, whole)
    if overlap(tops):
        return Node([], [cycle_of(sides, whole, tops)])
    return Node(sorted(whole.difference(*tops)), [block_of(sides, top) for top in sorted(tops, key=min)])


def flatten(n: int, value: int, root: Node) -> Cactus:
    """The flat cactus: nodes numbered in the order in which the tree is entered, bridges and cycles as their first children are."""
    nodes, bridges, cycles = [], [], []

    def enter(node):
        number = len(nodes)
        nodes.append(node.vertices)
        for children in node.blocks:
            first = len(nodes)
            place = len(bridges) if len(children) == 1 else len(cycles)
            (bridges if len(children) == 1 else cycles).append(None)
            numbers = [number, first] + [enter(child) for child in children][1:]
            if len(children) == 1:
                bridges[place] = tuple(numbers)
            else:
                cycles[place] = numbers
        return number

    enter(root)
    return Cactus(value, n, nodes, bridges, cycles)


def canonical(n: int, value: int, sides: Iterable[Side]) -> Cactus:
    """The canonical cactus over the vertices 1 to n whose sides are these."""
    return flatten(n, value, node_of([frozenset(side) for side in sides], frozenset(range(1, n + 1))))


# The definition, asked of a flat cactus

def blocks_below(cactus: Cactus) -> list[list[tuple[Side, list[int]]]]:
    """For each node the blocks of which it is the first node: (set below, numbers of the other nodes)."""
    below = [[] for _ in cactus.nodes]
    for k, (i, j) in enumerate(cactus.bridges):
        below[i].append((side_without(cactus, [('bridge', k)]), [j]))
    for k, cycle in enumerate(cactus.cycles):
        ends = [('cycle', k, 0), ('cycle', k, len(cycle) - 1)]
        below[cycle[0]].append((side_without(cactus, ends), cycle[1:]))
    return below


def fault_of_canonical(cactus: Cactus) -> str | None:
    """What keeps a well-formed flat cactus from being canonical and numbered as it is entered, or None."""
    if not is_normal(cactus):
        return 'it is not normal'
    for k, cycle in enumerate(cactus.cycles):
        if len(cycle) < 4:
            return f'cycle {cycle} has three nodes'
        last = len(cycle) - 1
        first_set = side_without(cactus, [('cycle', k, 0), ('cycle', k, 1)])
        last_set = side_without(cactus, [('cycle', k, last - 1), ('cycle', k, last)])
        if min(first_set) > min(last_set):
            return f'cycle {cycle} goes the other way'
    below = blocks_below(cactus)
    order, todo = [], [0]
    while todo:
        i = todo.pop()
        order.append(i)
        in_order = sorted(below[i], key=lambda block: min(block[0]))
        todo += [j for _, children in reversed(in_order) for j in reversed(children)]
    if order != list(range(len(cactus.nodes))):
        return f'the nodes are entered in the order {order}'
    if cactus.bridges != sorted(cactus.bridges, key=lambda bridge: bridge[1]):
        return 'the bridges do not ascend by child'
    if cactus.cycles != sorted(cactus.cycles, key=lambda cycle: cycle[1]):
        return 'the cycles do not ascend by first child'
    return None


# Augmentation

def end_nodes(cactus: Cactus) -> list[list[int]]:
    """The vertices of the nodes that lie in just one block, in the order of the nodes."""
    return [node for node, (bridges, cycles) in zip(cactus.nodes, blocks_at(cactus)) if bridges + cycles == 1]


def opposite_edges(sets: list[list[int]]) -> list[tuple[int, int]]:
    """The edges that join the least vertex of each set with that of the set half their number further on."""
    half = len(sets) // 2
    return sorted(tuple(sorted((sets[i][0], sets[i + half][0]))) for i in range(len(sets) - half))
