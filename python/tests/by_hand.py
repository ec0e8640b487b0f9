"""Answers for small graphs by trying all sides, in this process: for tests that want many of them."""
import sys
from itertools import combinations

import pytest
from checks.cuts_by_hand import minimum_cuts
from checks.graphs import components_of

from mincut_graph.cactus import read_cactus
from mincut_graph.errors import Disconnected


def checked_form(graph):
    """A `Graph` as the checks have theirs, with vertices from 1."""
    return len(graph.names), [(i + 1, j + 1, w) for i, j, w in graph.edges]


def cactus_of(graph):
    """The canonical cactus of a `Graph` of two vertices or more; raises Disconnected."""
    if sys.version_info < (3, 10):
        pytest.skip('tools/checks makes the canonical cactus with Python 3.10 or later')
    from checks.answers_by_hand import cactus_text
    form = checked_form(graph)
    parts = len(components_of(form))
    if parts > 1:
        raise Disconnected(parts)
    return read_cactus([line.split() for line in cactus_text(form).splitlines()])


def value_of(graph):
    """The least weight of a cut of a `Graph`."""
    return minimum_cuts(checked_form(graph))[0]


def best_sets(graph, least):
    """The maximal sets of places whose own subgraph has this value or more, and all other vertices by themselves; by trying all sets."""
    places = range(len(graph.names))
    found = []
    for size in range(len(graph.names), 1, -1):
        for chosen in combinations(places, size):
            if not any(set(chosen) <= kept for kept in found) and value_of(graph.part(chosen)) >= least:
                found.append(set(chosen))
    return sorted(map(sorted, [*found, *({i} for i in places if not any(i in kept for kept in found))]))
