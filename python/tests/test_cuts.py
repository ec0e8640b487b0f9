"""MinimumCuts by the program: lists of edges, networkx, igraph, scipy, and what has no answer."""
import os
import signal
import subprocess
import sys
import time

import pytest
from conftest import TAKES_INTERRUPTS, random_graphs

import mincut_graph
from mincut_graph import MinimumCuts
from mincut_graph.cactus import Cactus, canonical
from mincut_graph.program import Program

SQUARE = [('a', 'b'), ('b', 'c'), ('c', 'd'), ('d', 'a', 1)]
SLOW = '#!/bin/sh\necho $$ > "$0.pid"\nexec sleep 60\n'


def test_square():
    cuts = MinimumCuts(SQUARE)
    assert (cuts.value(), cuts.count()) == (2, 6)
    assert cuts.sides() == [['b'], ['b', 'c'], ['b', 'c', 'd'], ['c'], ['c', 'd'], ['d']]
    assert cuts.sides(parting=('b', 'd')) == [['b'], ['b', 'c'], ['c', 'd'], ['d']]
    assert cuts.sides(least=2) == [['b', 'c'], ['c', 'd']]
    assert cuts.cut().value == 2 and cuts.cut().side in cuts.sides()
    assert (cuts.cut_below(2), cuts.cut_below(3)) == (None, cuts.cut())
    assert cuts.cuts_below(2, 5) == [] and [(weight, side in cuts.sides()) for weight, side in cuts.cuts_below(3, 1)] == [(2, True)]
    assert cuts.balanced() == (2, ['b', 'c'])
    cactus = cuts.cactus()
    assert (cactus.value, sorted(cactus.node_of()), cactus.bridges, cactus.cycles) == (2, ['a', 'b', 'c', 'd'], [], [[0, 1, 2, 3]])
    assert (len(cactus.edges()), cactus.count()) == (4, 6)


def test_names_weights_and_masses():
    edges = [(10, (1, 2), 2), ((1, 2), 10, 3), ('x', (1, 2), 1), ('x', 'x', 9), (10, 'x', 0)]
    cuts = MinimumCuts(edges, mass={10: 5, (1, 2): 1, 'x': 2}, workers=2)
    assert (cuts.value(), cuts.sides(), cuts.balanced()) == (1, [['x']], (2, ['x']))
    assert [note.split()[:2] for note in cuts.notes] == [['1', 'loop'], ['1', 'parallel'], ['1', 'edge']]


def test_weights_are_whole_numbers():
    assert MinimumCuts([(1, 2, 2.0), (2, 3, '3')]).value() == 2
    assert MinimumCuts([(1, 2, 0.1), (2, 3, 0.25)], scale=20).value() == 2
    with pytest.raises(ValueError, match='multiply all by 20 '):
        MinimumCuts([(1, 2, 0.1), (2, 3, 0.25)])
    with pytest.raises(ValueError, match='round them first'):
        MinimumCuts([(1, 2, 0.12345678901)])
    for weight in (-1, float('nan'), float('inf'), 'heavy', None, '1e999'):
        with pytest.raises(mincut_graph.BadInput):
            MinimumCuts([(1, 2, weight)])


def test_no_answer():
    for graph in ([], [('a', 'a')]):
        with pytest.raises(mincut_graph.NoCut):
            MinimumCuts(graph).cactus()
        with pytest.raises(mincut_graph.NoCut):
            MinimumCuts(graph).cut()
    apart = MinimumCuts([(1, 2), (3, 4), (4, 5)])
    assert (apart.value(), apart.count()) == (0, 1)
    assert apart.cut() == apart.cut_below(1) == (0, [3, 4, 5]) and apart.cut_below(0) is None
    with pytest.raises(mincut_graph.Disconnected) as caught:
        apart.cactus()
    assert caught.value.components == 2
    assert apart.largest().sides() == [[4, 5], [5]]
    with pytest.raises(KeyError, match='no vertex 9'):
        apart.sides(parting=(1, 9))
    with pytest.raises(ValueError):
        apart.sides(least=1, parting=(1, 2))
    with pytest.raises(mincut_graph.Refused) as refused:
        MinimumCuts([(1, 2, 1 << 62)]).value()
    assert refused.value.status == 1
    with pytest.raises(mincut_graph.BadWords):
        MinimumCuts(SQUARE).run('value', '3')


def test_against_all_cuts():
    for n, edges, value, sides in random_graphs(40):
        cuts = MinimumCuts([(1, 1)] + edges)
        assert (cuts.value(), cuts.count()) == (value, len(sides))
        if cuts.names == sorted(cuts.names):
            assert [tuple(cuts.place[v] for v in side) for side in cuts.sides()] == [tuple(side) for side in sides]


def test_lists_are_those_of_the_program():
    """Read off the cactus, and not asked for."""
    for n, edges, _, _ in random_graphs(60):
        cuts = MinimumCuts(edges, mass={v: v % 3 for edge in edges for v in edge[:2]})
        ends = (cuts.names[0], cuts.names[-1])
        for asked, words in (({}, (None, None)), ({'least': 2}, (2, None)), ({'parting': ends}, (None, (0, n - 1)))):
            assert cuts.sides(**asked) == [cuts.named(side) for side in Program().sides(cuts.graph, *words)[1]]
        assert cuts.balanced().balance == Program().balanced(cuts.graph)[1]


def test_a_graph_is_solved_once(write):
    program = write('counted', f'#!/bin/sh\necho "$1" >> "$0.words"\nexec {os.environ["MINCUT"]} "$@"\n')
    os.chmod(program, 0o755)
    cuts = MinimumCuts(SQUARE, program=program)
    for _ in range(2):
        assert cuts.cut_below(2) is None and (cuts.cut().value, cuts.cut_below(3)) == (2, cuts.cut())
        assert (cuts.value(), cuts.count(), len(cuts.sides()), len(cuts.sides(least=2)), cuts.balanced().balance) == (2, 6, 6, 2, 2)
        assert len(cuts.sides(parting=('b', 'd'))) == 4 and cuts.cactus().count() == 6 and cuts.augment()
        assert len(cuts.sites()) == 4 and cuts.cut_links()[0].places == 3 and cuts.levels().at(2) == [['a', 'b', 'c', 'd']] and cuts.state()
    apart = MinimumCuts([(1, 2), (3, 4), (4, 5)], program=program)
    for _ in range(2):
        assert (apart.value(), apart.count(), apart.sides(), apart.balanced()) == (0, 1, [[3, 4, 5]], (2, [3, 4, 5]))
        assert apart.cut() == (0, [3, 4, 5])
    with open(program + '.words') as words:
        assert words.read().split() == ['value', 'cactus', 'augment'] + ['value', 'count', 'cuts', 'balanced']


def test_what_is_given_is_judged():
    cuts = MinimumCuts(SQUARE)
    for call, line in ((lambda: cuts.links('ab'), "'ab' is a text"), (lambda: cuts.links(5), '5 is no list'), (lambda: cuts.sides(parting=('a',)), 'two vertices'),
                       (lambda: cuts.what_if(remove=[('a', 'b', 1)]), 'two vertices'), (lambda: cuts.levels(up_to='x'), 'whole number'),
                       (lambda: cuts.sides(least=1.5), 'whole number'), (lambda: cuts.failures(processes=0), '1 or more'), (lambda: cuts.grow(3), 'is no list'),
                       (lambda: cuts.candidates([('a', 'c')], target=-1), '0 or more'), (lambda: cuts.candidates([('a', 'c')], costs=7), 'is no list'),
                       (lambda: cuts.grow(['ab']), "'ab' is a text"), (lambda: cuts.cut_below(1.5), 'whole number'), (lambda: cuts.cut_below(None), 'whole number'), (lambda: cuts.cuts_below(2, None), 'whole number')):
        with pytest.raises(mincut_graph.BadInput, match=line):
            call()


def test_what_is_given_back_may_be_changed():
    cuts = MinimumCuts(SQUARE)
    cuts.cactus().cycles[0].clear()
    cuts.cactus().nodes.clear()
    cuts.sides().clear()
    cuts.augment().sets.clear()
    assert (cuts.cactus().cycles, len(cuts.sides()), len(cuts.augment().sets)) == ([[0, 1, 2, 3]], 6, 4)
    assert repr(cuts) == 'MinimumCuts(4 vertices, 4 links, value 2)'
    balance, side = cuts.balanced()
    assert (balance, side) == cuts.balanced() and cuts.balanced().side == side


def test_augment_and_grow():
    cuts = MinimumCuts(SQUARE)
    assert cuts.augment() == ([('a', 'c'), ('b', 'd')], [['a'], ['b'], ['c'], ['d']])
    steps, cactus = cuts.grow([('a', 'c'), ('b', 'd', 1)])
    assert (steps, len(cactus.nodes), len(cactus.bridges)) == ([(2, 2), (3, 4)], 5, 4)


def test_canonical_cactus():
    for _, edges, _, _ in random_graphs(60):
        cuts = MinimumCuts(edges)
        told = Program().cactus(cuts.graph)
        assert canonical(turned(told)) == told


def turned(cactus):
    """The same cuts by another cactus: stars of three bridges at an empty node are cycles, and all else stands the other way round."""
    nodes, bridges, cycles = [list(node) for node in cactus.nodes], list(cactus.bridges), [list(cycle) for cycle in cactus.cycles]
    for i, node in enumerate(nodes):
        star = [bridge for bridge in bridges if i in bridge]
        if not node and len(star) == 3 and not any(i in cycle for cycle in cycles) and i == len(nodes) - 1:
            bridges = [bridge for bridge in bridges if i not in bridge]
            cycles.append([a + b - i for a, b in star])
            nodes.pop()
    last = len(nodes) - 1
    return Cactus(cactus.value, nodes[::-1], [(last - j, last - i) for i, j in bridges][::-1],
                  [[last - i for i in cycle[::-1]] for cycle in cycles][::-1])


# Time and interrupts

def test_time_limit(write):
    program = slow_program(write)
    start = time.monotonic()
    with pytest.raises(mincut_graph.TimedOut, match='0.3 seconds'):
        MinimumCuts(SQUARE, program=program, time_limit=0.3).value()
    with pytest.raises(TimeoutError):
        MinimumCuts(SQUARE, program=program).sides(time_limit=0.2)
    assert time.monotonic() - start < 20 and not alive(program)


def test_interrupt_leaves_nothing_behind(write):
    program = slow_program(write)
    code = f'{TAKES_INTERRUPTS}from mincut_graph import MinimumCuts\nMinimumCuts([(1, 2)], program={program!r}).value()'
    child = subprocess.Popen([sys.executable, '-c', code], stderr=subprocess.PIPE, env={**os.environ, 'PYTHONPATH': os.pathsep.join(sys.path)})
    while not os.path.exists(program + '.pid') or not open(program + '.pid').read():
        time.sleep(0.05)
    assert alive(program)
    child.send_signal(signal.SIGINT)
    _, err = child.communicate(timeout=30)
    assert b'KeyboardInterrupt' in err and not alive(program)


def slow_program(write):
    program = write('slow', SLOW)
    os.chmod(program, 0o755)
    return program


def alive(program):
    with open(program + '.pid') as numbers:
        try:
            os.kill(int(numbers.read()), 0)
        except ProcessLookupError:
            return False
    return True


def test_no_program(monkeypatch, tmp_path):
    for path in (str(tmp_path / 'nothing'), str(tmp_path)):
        with pytest.raises(mincut_graph.NoProgram, match='MINCUT'):
            MinimumCuts(SQUARE, program=path).value()
    monkeypatch.delenv('MINCUT')
    monkeypatch.setenv('PATH', '')
    monkeypatch.setattr('mincut_graph.places.checkout', lambda: None)
    with pytest.raises(mincut_graph.NoProgram, match='was not found'):
        MinimumCuts(SQUARE).value()


def test_the_repository_builds_its_program_first(monkeypatch, tmp_path):
    program = tmp_path / 'mincut'
    program.write_text('#!/bin/sh\necho "$@" >> "$0.words"\n[ "$1" = --build ] && exit $(cat "$0.status")\necho value 7\n')
    program.chmod(0o755)
    (tmp_path / 'mincut.status').write_text('11')
    monkeypatch.setattr('mincut_graph.places.checkout', lambda: tmp_path)
    with pytest.raises(mincut_graph.Failed, match='could not be proved and built'):
        MinimumCuts(SQUARE, program=str(program)).value()
    (tmp_path / 'mincut.status').write_text('0')
    assert [MinimumCuts(SQUARE, program=str(program)).value() for _ in range(2)] == [7, 7]
    assert (tmp_path / 'mincut.words').read_text().split() == ['--build', '--build', 'value', 'value']


# Other libraries

def test_networkx_values():
    networkx = pytest.importorskip('networkx')
    for seed in range(10):
        graph = networkx.connected_watts_strogatz_graph(12, 4, 0.4, seed=seed)
        for k, (_, _, data) in enumerate(graph.edges(data=True)):
            data['weight'] = k % 5 + 1
        assert MinimumCuts(graph).value() == networkx.stoer_wagner(graph)[0]


def test_networkx_cactus():
    networkx = pytest.importorskip('networkx')
    graph = networkx.cycle_graph(['hub', 'x', 'y', 'z'])
    graph.add_edge('hub', 'far', weight=2)
    networkx.set_node_attributes(graph, {'hub': 1, 'x': 1, 'y': 1, 'z': 1, 'far': 4}, 'load')
    cuts = MinimumCuts(graph, mass='load')
    assert cuts.balanced() == (4, ['far'])
    cactus = cuts.cactus().to_networkx()
    assert (len(cactus), cactus.number_of_edges()) == (5, 5)
    assert sorted(v for _, vertices in cactus.nodes(data='vertices') for v in vertices) == ['far', 'hub', 'x', 'y', 'z']
    with pytest.raises(mincut_graph.UnknownName):
        MinimumCuts(graph, mass='nothing')


def test_networkx_multigraph_and_directed():
    networkx = pytest.importorskip('networkx')
    assert MinimumCuts(networkx.MultiGraph([(1, 2), (1, 2), (2, 3)])).sides() == [[3]]
    arrows = networkx.DiGraph([(1, 2), (2, 3)])
    with pytest.raises(ValueError, match='directed'):
        MinimumCuts(arrows)
    assert MinimumCuts(arrows, undirected=True).count() == 2


def test_igraph():
    igraph = pytest.importorskip('igraph')
    for n in range(4, 9):
        graph = igraph.Graph.Ring(n)
        graph.es['weight'] = [3] * n
        cuts = MinimumCuts(graph)
        assert (cuts.value(), cuts.count()) == (int(graph.mincut_value(capacity='weight')), n * (n - 1) // 2)
    graph = igraph.Graph.TupleList([('a', 'b'), ('b', 'c')])
    graph.vs['size'] = [1, 2, 3]
    assert MinimumCuts(graph).sides() == [['b', 'c'], ['c']]
    assert MinimumCuts(graph, mass='size').balanced() == (3, ['c'])
    with pytest.raises(ValueError, match='directed'):
        MinimumCuts(igraph.Graph(directed=True))


def test_scipy():
    sparse = pytest.importorskip('scipy.sparse')
    weights = sparse.csr_array([[7, 1, 2], [1, 0, 0], [2, 0, 0]])
    cuts = MinimumCuts(weights, names=['a', 'b', 'c'])
    assert (cuts.sides(), len(cuts.notes)) == ([['b']], 1)
    with pytest.raises(mincut_graph.BadInput, match='directed'):
        MinimumCuts(sparse.csr_array([[0, 1], [0, 0]]))
    with pytest.raises(mincut_graph.BadInput, match='square'):
        MinimumCuts(sparse.csr_array([[0, 1, 0], [1, 0, 0]]))
