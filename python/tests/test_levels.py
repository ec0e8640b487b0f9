"""What comes after the first minimum cuts: against all sets of vertices, and against networkx."""
import os
import random

import pytest
from by_hand import best_sets, cactus_of

from conftest import needs_program

from mincut_graph import BadInput, MinimumCuts, NoCut, TimedOut
from mincut_graph.levels import levels_of

# Two squares with both diagonals, joined by a link, with a tail of two at one and one vertex at the other.
SQUARES = [*((f'{name}{i}', f'{name}{j}') for name in 'pq' for i in range(4) for j in range(i)), ('p0', 'q0'), ('p1', 't1'), ('t1', 't2'),
           ('q3', 's')]


def random_cuts(rng, most, weights):
    """A random graph, perhaps in several components, with one vertex or more."""
    n, share = rng.randint(2, most), rng.random()
    pairs = [(i, j, rng.choice(weights)) for j in range(n) for i in range(j) if rng.random() < share]
    return MinimumCuts(pairs + [(0, 0)], library=False)


def test_two_squares():
    levels = MinimumCuts(SQUARES).levels()
    assert levels.at(3) == [['p1', 'p0', 'p2', 'p3'], ['q1', 'q0', 'q2', 'q3'], ['t1'], ['t2'], ['s']]
    assert levels.at(1) == [levels.parts[0].vertices] and len(levels.at(4)) == 11
    assert [(part.value, len(part.vertices), part.above) for part in levels.parts] == [(1, 11, None), (3, 4, 0), (3, 4, 0)]
    assert sorted(levels.parts[0].links) == [('p0', 'q0', 1), ('p1', 't1', 1), ('q3', 's', 1), ('t1', 't2', 1)]
    assert levels.parts[0].parts == [1, 2] and levels.parts[0].alone == ['t1', 't2', 's']
    assert levels.level_of() == {vertex: 3 if vertex[0] in 'pq' else 1 for vertex in levels.parts[0].vertices}
    assert repr(levels) == 'Levels(11 vertices of value 1, 3 parts, 0 stubs)'


def test_without_stubs():
    cuts = MinimumCuts(SQUARES)
    levels = cuts.levels(without_stubs=True)
    assert levels.stubs == [('t2', 't1', 1), ('s', 'q3', 1), ('t1', 'p1', 1)]
    assert [(part.value, len(part.vertices)) for part in levels.parts] == [(1, 8), (3, 4), (3, 4)]
    assert levels.level_of() == cuts.levels().level_of()
    tree = MinimumCuts([('a', 'b', 5), ('b', 'c', 2), ('b', 'd')]).levels(without_stubs=True)
    assert [part.value for part in tree.parts] == [None] and len(tree.stubs) == 3
    assert tree.at(1) == [tree.parts[0].vertices]
    with pytest.raises(NoCut):
        MinimumCuts([]).levels()


def test_up_to():
    levels = MinimumCuts(SQUARES).levels(up_to=1)
    assert len(levels.parts) == 1 and levels.at(1) == [levels.parts[0].vertices] and levels.parts[0].links == []
    with pytest.raises(BadInput, match='up to 1; ask for levels up to 2'):
        levels.at(2)


def test_each_part_is_solved_once():
    asked = []

    def solve(graph):
        asked.append(tuple(graph.names))
        return cactus_of(graph)
    rng = random.Random(8)
    for _ in range(30):
        graph = random_cuts(rng, 9, [1, 2, 5]).graph
        asked.clear()
        levels = levels_of(graph, solve)
        assert len(set(asked)) == len(asked) and set(asked) == {tuple(part.vertices) for part in levels.parts if len(part.vertices) > 2}
        cut = [link for part in levels.parts for link in part.links]
        assert sorted((link.source, link.target, link.weight) for link in cut) == \
            sorted((graph.names[i], graph.names[j], w) for i, j, w in graph.edges), 'in the end each link is cut, and once'


def test_a_long_chain_of_levels():
    """Each cut takes one vertex off, so the tree is as deep as the graph has vertices."""
    n = 15
    cuts = MinimumCuts([(i, i + 1, n - i) for i in range(n)][::-1], library=False)
    levels = levels_of(cuts.graph, cactus_of)
    assert [part.value for part in levels.parts] == list(range(1, n + 1)) and max(len(part.parts) for part in levels.parts) == 1


@pytest.mark.parametrize('weights', [[1], [1, 2, 3]])
def test_against_all_sets(weights):
    rng = random.Random(len(weights))
    for _ in range(60):
        graph = random_cuts(rng, 7, weights).graph
        if len(graph.names) < 2:
            continue
        levels, place = levels_of(graph, cactus_of), {name: i for i, name in enumerate(graph.names)}
        for k in range(1, 8):
            assert sorted(sorted(place[v] for v in found) for found in levels.at(k)) == best_sets(graph, k)
        again = levels_of(graph, cactus_of, without_stubs=True)
        assert again.level_of() == levels.level_of()


def test_against_networkx():
    networkx = pytest.importorskip('networkx')
    rng = random.Random(70)
    for _ in range(150):
        compare_with_networkx(networkx, rng, 11)


@needs_program
def test_larger_graphs_against_networkx():
    networkx = pytest.importorskip('networkx')
    rng = random.Random(71)
    for _ in range(40):
        n = rng.randint(10, 60)
        graph = networkx.gnp_random_graph(n, rng.uniform(1, 8) / n, seed=rng.randrange(1 << 30))
        cuts = MinimumCuts([*graph.edges, *((v, v) for v in graph)], library=False)
        levels = cuts.levels()
        for k in range(1, 2 + max(degree for _, degree in graph.degree())):
            assert set(map(frozenset, levels.at(k))) == set(map(frozenset, networkx.k_edge_subgraphs(graph, k)))


def test_one_time_limit_for_all_parts(write):
    """The limit is for the call, and not for each run of the program."""
    program = write('late', f'#!/bin/sh\n[ -e "$0.once" ] && exec sleep 60\ntouch "$0.once"\nexec {os.environ["MINCUT"]} "$@"\n')
    os.chmod(program, 0o755)
    with pytest.raises(TimedOut, match='within 3 seconds'):
        MinimumCuts(SQUARES, program=program, time_limit=3).levels()


def compare_with_networkx(networkx, rng, most):
    """The sets of each level of a random graph with unit weights are the k-edge-connected subgraphs of networkx."""
    cuts = random_cuts(rng, most, [1])
    graph = networkx.Graph([(cuts.names[i], cuts.names[j]) for i, j, _ in cuts.graph.edges])
    graph.add_nodes_from(cuts.names)
    levels = levels_of(cuts.graph, cactus_of)
    for k in range(1, 2 + max(degree for _, degree in graph.degree())):
        assert set(map(frozenset, levels.at(k))) == set(map(frozenset, networkx.k_edge_subgraphs(graph, k))), (k, cuts.graph.edges)
