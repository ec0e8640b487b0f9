"""The plain programs themselves, on a few graphs and texts whose cuts and faults are known.

    tools/check known

The other checks compare the program with these.
"""
import argparse
from collections.abc import Iterator

from .. import cactuses, metis, running
from ..canonical_by_hand import canonical, fault_of_canonical
from ..cuts_by_hand import minimum_cuts
from ..graphs import clique_of, components_of, graph_of, ring_of

GOOD = b'cactus 5 3 2 1 0\nnode 0 1 2\nnode 1 3\nbridge 0 1\n'
# Broken texts, each with the line of its first fault.
FAULTS = [(GOOD[:-11], 4), (b'cactus 5 3 2 0 0\nnode 0 1 2\nnode 1 3\n', 4), (GOOD.replace(b'node 1 3', b'node 1 2'), 3), (b'', 1),
          (GOOD[:-1], 4), (GOOD + b'\n', 5), (GOOD + b'x', 5), (GOOD.replace(b'0 1 2', b'0 2'), 2), (GOOD.replace(b'1 0\n', b'1 00\n'), 1)]
OTHER_WAY = b'cactus 2 4 4 0 1\nnode 0 1\nnode 1 4\nnode 2 3\nnode 3 2\ncycle 0 1 2 3\n'
# Graphs with their canonical cactuses, a slash for each line feed.
CANONICAL = [
    (b'3 3\n2 3\n1 3\n1 2\n', 'cactus 2 3 4 3 0/node 0 1/node 1/node 2 2/node 3 3/bridge 0 1/bridge 1 2/bridge 1 3/'),
    (b'4 4\n2 4\n1 3\n2 4\n1 3\n', 'cactus 2 4 4 0 1/node 0 1/node 1 2/node 2 3/node 3 4/cycle 0 1 2 3/'),
    (b'6 8 1\n2 2 4 1 6 1\n1 2 3 2\n2 2 4 1 6 1\n1 1 3 1 5 2\n4 2 6 2\n1 1 3 1 5 2\n',
     'cactus 4 6 7 0 2/node 0 1/node 1 2/node 2 3/node 3/node 4 4/node 5 5/node 6 6/cycle 0 1 2 3/cycle 3 4 5 6/'),
]

Known = tuple[str, object, object]


def known_cuts() -> Iterator[Known]:
    """(name, what is found, what is known) of small graphs and their minimum cuts."""
    yield 'cuts of a square', minimum_cuts(graph_of(4, ring_of([1, 2, 3, 4], 1))), (2, [(2,), (2, 3), (2, 3, 4), (3,), (3, 4), (4,)])
    yield 'cuts of a clique', minimum_cuts(graph_of(4, clique_of([1, 2, 3, 4], 1))), (3, [(2,), (2, 3, 4), (3,), (4,)])
    yield 'cuts of a triangle', minimum_cuts((3, [(1, 2, 5), (1, 3, 1), (2, 3, 4)])), (5, [(3,)])
    for n in range(3, 11):
        yield f'cuts of a ring of {n}', len(minimum_cuts(graph_of(n, ring_of(range(1, n + 1), 1)))[1]), n * (n - 1) // 2
    yield 'components', components_of((5, [(1, 2, 1), (3, 4, 1)])), [[1, 2], [3, 4], [5]]
    yield 'components of nothing', components_of((0, [])), []


def known_texts() -> Iterator[Known]:
    """The same of texts of cactuses and of files."""
    yield 'sides of a cactus', cactuses.sides_of(cactuses.read(GOOD)), [(3,)]
    yield 'text of a cactus', cactuses.read(GOOD).text().encode(), GOOD
    for text, line in FAULTS:
        yield f'fault of {text!r}', cactuses.first_fault(text), line
    for text, cactus in CANONICAL:
        graph = metis.read(text).graph
        found = canonical(graph[0], *minimum_cuts(graph))
        yield f'cactus of {text!r}', found.text(), cactus.replace('/', '\n')
        yield f'that cactus of {text!r}', fault_of_canonical(found), None
        yield f'{text!r} on trust', metis.read(text, trusted=True), metis.read(text)
        yield f'{text!r} once more', metis.read(metis.text_of(graph).encode()).graph, graph
    yield 'a cycle', fault_of_canonical(cactuses.read(OTHER_WAY)), 'cycle [0, 1, 2, 3] goes the other way'


def add_options(parser: argparse.ArgumentParser) -> None:
    """This check has no options."""


def main(options: argparse.Namespace) -> int:
    told = [*known_cuts(), *known_texts()]
    return running.tell_end(options.job, f'{len(told)} answers', [f'DIFFERS {name}: {found} and not {known}' for name, found, known in told
                                                                  if found != known])
