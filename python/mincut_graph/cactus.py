"""The cactus: all minimum cuts of a connected graph at once."""
from __future__ import annotations

from collections.abc import Hashable, Iterator, Sequence
from dataclasses import dataclass
from typing import Any

from .errors import MincutError

Block = tuple[str, int]


@dataclass
class Cactus:
    """All minimum cuts: remove one bridge, or two edges of one cycle, and two sides of a minimum cut are left; each is one of these.

    `value` is the weight of a minimum cut. `nodes` has a list of vertices for each node, perhaps empty; node 0 has the first vertex.
    `bridges` are pairs of nodes, `cycles` lists of three or more nodes, whose last is joined with its first."""
    value: int
    nodes: list[list[Any]]
    bridges: list[tuple[int, int]]
    cycles: list[list[int]]

    def edges(self) -> list[tuple[int, int, Block]]:
        """(node, node, block) of all edges; a block is ('bridge', k) or ('cycle', k)."""
        found: list[tuple[int, int, Block]] = [(i, j, ('bridge', k)) for k, (i, j) in enumerate(self.bridges)]
        for k, cycle in enumerate(self.cycles):
            found += [(i, j, ('cycle', k)) for i, j in zip(cycle, cycle[1:] + cycle[:1])]
        return found

    def node_of(self) -> dict[Any, int]:
        """The node of each vertex. No minimum cut separates two vertices of one node."""
        return {vertex: i for i, node in enumerate(self.nodes) for vertex in node}

    def count(self) -> int:
        """The number of minimum cuts. Only at a node without vertices that lies in just two blocks, both cycles, are two cuts the same."""
        return (len(self.bridges) + sum(len(cycle) * (len(cycle) - 1) // 2 for cycle in self.cycles) - len(self.shared_nodes()))

    def shared_nodes(self) -> dict[int, list[int]]:
        """The nodes without vertices that lie in two cycles and no other block, each with the numbers of these cycles."""
        cycles_at: dict[int, list[int]] = {i: [] for i, node in enumerate(self.nodes) if not node}
        for k, cycle in enumerate(self.cycles):
            for i in cycle:
                if i in cycles_at:
                    cycles_at[i].append(k)
        for i, j in self.bridges:
            cycles_at.pop(i, None)
            cycles_at.pop(j, None)
        return {i: found for i, found in cycles_at.items() if len(found) == 2}

    def renamed(self, names: Sequence[Hashable]) -> Cactus:
        """The same cactus with names[v] in the place of each vertex v."""
        return Cactus(self.value, [[names[v] for v in node] for node in self.nodes], list(self.bridges), [list(cycle) for cycle in self.cycles])

    def to_networkx(self) -> Any:
        """The cactus as a graph of networkx; nodes have `vertices`, edges have `block`. Needs networkx."""
        import networkx
        graph = networkx.Graph()
        graph.add_nodes_from((i, {'vertices': node}) for i, node in enumerate(self.nodes))
        graph.add_edges_from((i, j, {'block': block}) for i, j, block in self.edges())
        return graph


def read_cactus(lines: Sequence[Sequence[str]]) -> Cactus:
    """The cactus in the lines that the program prints, each a list of words; vertices are places, counted from 0."""
    nodes = [[int(word) - 1 for word in line[2:]] for line in lines if line[0] == 'node']
    bridges = [(int(line[1]), int(line[2])) for line in lines if line[0] == 'bridge']
    cycles = [[int(word) for word in line[1:]] for line in lines if line[0] == 'cycle']
    if lines[0][3:] != [str(len(nodes)), str(len(bridges)), str(len(cycles))]:
        raise MincutError('the text of the cactus is not whole')
    return Cactus(int(lines[0][1]), nodes, bridges, cycles)


# The canonical cactus

def canonical(cactus: Cactus) -> Cactus:
    """The canonical cactus with the sides of this one, which is normal and has places, counted from 0, as vertices.

    Each cycle has four nodes or more, the blocks of a node ascend by the least vertex below them, a cycle is gone through in the
    direction in which the least vertex at or under its first child is less than that at or under its last, and nodes are numbered as
    they are entered from that of vertex 0."""
    nodes, blocks = without_triangles(cactus)
    root = next(i for i, node in enumerate(nodes) if 0 in node)
    below = rooted(len(nodes), blocks, root)
    least = least_below(nodes, below, root)
    for i in below:
        for block in below[i]:
            if least[block[0]] > least[block[-1]]:
                block.reverse()
        below[i].sort(key=lambda block: min(least[j] for j in block))
    return flattened(cactus.value, nodes, below, root)


def without_triangles(cactus: Cactus) -> tuple[list[list[int]], list[list[int]]]:
    """(nodes, blocks) where each cycle of three nodes has become a node without vertices that three bridges join to them. A node
    without vertices that would then lie in two blocks, one of them a bridge, is that node itself."""
    nodes = [list(node) for node in cactus.nodes]
    blocks = [list(bridge) for bridge in cactus.bridges] + [list(cycle) for cycle in cactus.cycles]
    degree = [0] * len(nodes)
    for block in blocks:
        for i in block:
            degree[i] += 1
    same = list(range(len(nodes)))
    found = []
    for block in blocks:
        block = [home(same, i) for i in block]
        if len(block) != 3:
            found.append(block)
            continue
        spare = [i for i in block if not nodes[i] and degree[i] == 2]
        if spare:
            hub = spare[0]
        else:
            hub = len(nodes)
            nodes.append([])
            degree.append(0)
            same.append(hub)
        for i in spare[1:]:
            same[i] = hub
        degree[hub] = 3
        found += [[hub, i] for i in block if i not in spare]
    return nodes, [[home(same, i) for i in block] for block in found]


def home(same: list[int], i: int) -> int:
    while same[i] != i:
        i = same[i]
    return i


def rooted(count: int, blocks: list[list[int]], root: int) -> dict[int, list[list[int]]]:
    """For each node the blocks below it: lists of the other nodes of a block in its order. Entered from the root downwards."""
    at: list[list[list[int]]] = [[] for _ in range(count)]
    for block in blocks:
        for i in block:
            at[i].append(block)
    below: dict[int, list[list[int]]] = {}
    todo: list[tuple[int, object]] = [(root, None)]
    for i, above in todo:
        below[i] = []
        for block in at[i]:
            if block is not above:
                place = block.index(i)
                children = block[place + 1:] + block[:place]
                below[i].append(children)
                todo += [(j, block) for j in children]
    return below


def least_below(nodes: list[list[int]], below: dict[int, list[list[int]]], root: int) -> dict[int, int]:
    """The least vertex at or under each node."""
    least: dict[int, int] = {}
    for i in reversed(list(below)):
        least[i] = min([*nodes[i], *(least[j] for block in below[i] for j in block)])
    return least


def flattened(value: int, nodes: list[list[int]], below: dict[int, list[list[int]]], root: int) -> Cactus:
    """Nodes numbered as they are entered, bridges and cycles in the order of their first children."""
    number: dict[int, int] = {}
    blocks: list[list[int]] = []
    steps: list[Iterator[int]] = [iter([root])]
    while steps:
        i = next(steps[-1], None)
        if i is None:
            steps.pop()
            continue
        number[i] = len(number)
        steps.append(iter([j for block in below[i] for j in block]))
        blocks += [[i, *block] for block in below[i]]
    named = sorted(([number[i] for i in block] for block in blocks), key=lambda block: block[1])
    return Cactus(value, [sorted(nodes[i]) for i in number], [(block[0], block[1]) for block in named if len(block) == 2],
                  [block for block in named if len(block) > 2])
