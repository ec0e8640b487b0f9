"""The shared library as a back end: a stand-in in C by the same calls, and the library itself where the repository has built it."""
import os
import random
import shutil
import signal
import subprocess
import sys
import time

import pytest
from conftest import LIBRARY, TAKES_INTERRUPTS, needs_program, random_graphs

import mincut_graph
from mincut_graph import MinimumCuts
from mincut_graph.library import EDGES_IN_PROCESS, Library
from mincut_graph.program import Program

COMPILER = shutil.which('cc')
needs_library = pytest.mark.skipif(not LIBRARY.is_file(), reason=f'{LIBRARY.name} is not built')


@pytest.fixture(scope='module')
def stub(tmp_path_factory):
    if COMPILER is None:
        pytest.skip('there is no C compiler for the stand-in')
    path = str(tmp_path_factory.mktemp('library') / 'stub.so')
    subprocess.run([COMPILER, '-std=gnu11', '-O1', '-shared', '-fPIC', '-o', path, os.path.join(os.path.dirname(__file__), 'stub.c')], check=True)
    return path


def ring(n, weight=1):
    return [(i, (i + 1) % n, weight) for i in range(n)]


def test_same_as_the_program(stub):
    for n, edges, value, sides in random_graphs(40):
        cuts = MinimumCuts(edges, library=stub)
        assert isinstance(cuts.library, Library) and cuts.value() == value and cuts.library.count(cuts.graph) == (value, len(sides))


def test_cactus_is_canonical(stub):
    for n in (2, 3, 4, 7):
        edges = ring(n) if n > 2 else [(0, 1)]
        assert MinimumCuts(edges, library=stub).cactus() == MinimumCuts(edges, library=False).cactus()


def test_one_cut(stub):
    for n, edges, value, sides in random_graphs(40):
        graph = MinimumCuts(edges).graph
        found = Library(stub).cut(graph)
        assert found[0] == value and found[1] in Program().sides(graph, None, None)[1]
        assert Library(stub).cut_below(graph, value + 1) == Library(stub).cut_below(graph, 1 << 70) == found
        assert Library(stub).cut_below(graph, value) is None
    assert MinimumCuts([(1, 2), (3, 4), (4, 5)], library=stub).cut() == (0, [3, 4, 5])
    assert MinimumCuts(ring(4), library=stub, time_limit=20).cut_below(2) is None, 'in a process of its own'
    with pytest.raises(mincut_graph.NoCut):
        MinimumCuts([], library=stub).cut()
    cuts = MinimumCuts(ring(4), library=stub)
    assert (cuts.cut_below(2), cuts.cut_below(3).value, cuts.value(), cuts.cut_below(0)) == (None, 2, 2, None)
    assert cuts.cut() == cuts.cut_below(5) and cuts.cut().side in cuts.sides()


def test_several_light_cuts(stub):
    for n, edges, value, sides in random_graphs(40):
        cuts = MinimumCuts(edges, library=stub)
        assert cuts.cuts_below(value, 9) == cuts.cuts_below(value + 1, 0) == []
        found = cuts.cuts_below(1 << 70, 5)
        assert found[0].weight == value and 0 < len(found) <= 5 and len({tuple(side) for _, side in found}) == len(found)
        assert all(sum(link.weight for link in cuts.links(side)) == weight for weight, side in found)
        by_program = MinimumCuts(edges, library=False).cuts_below(value + 1, 5)
        assert by_program and all(cut.weight == value and cut.side in MinimumCuts(edges, library=False).sides() for cut in by_program)
    assert MinimumCuts(ring(4), library=stub, time_limit=20).cuts_below(3, 1)[0].weight == 2, 'in a process of its own'
    assert MinimumCuts([(1, 2), (3, 4), (4, 5)], library=stub).cuts_below(1, 9) == [(0, [3, 4, 5])]
    with pytest.raises(mincut_graph.NoCut):
        MinimumCuts([], library=stub).cuts_below(3, 4)


def test_most_balanced(stub):
    for n, edges, value, sides in random_graphs(40):
        masses = {v: v % 3 for edge in edges for v in edge[:2]}
        graph = MinimumCuts(edges, mass=masses).graph
        assert Library(stub).balanced(graph)[:2] == Program().balanced(graph)[:2]
    assert MinimumCuts([(1, 2), (3, 4), (4, 5)], library=stub).balanced()[0] == 2, 'the program answers a graph in several components'
    assert MinimumCuts(ring(4), mass=lambda v: 2 ** 63, library=stub).balanced()[0] == 2 ** 64


def test_lists_of_sides(stub):
    for n, edges, value, sides in random_graphs(40):
        masses = {v: v % 3 for edge in edges for v in edge[:2]}
        graph = MinimumCuts(edges, mass=masses).graph
        for asked in ((None, None), (1, None), (2, None), (None, (0, len(graph.names) - 1))):
            assert Library(stub).sides(graph, *asked) == Program().sides(graph, *asked)
    assert MinimumCuts([(1, 2), (3, 4), (4, 5)], library=stub).sides() == [[3, 4, 5]], 'the program answers a graph in several components'
    assert len(MinimumCuts(ring(16), library=stub).sides()) == 120


def test_augmentations(stub):
    for n, edges, value, sides in random_graphs(20):
        (new, sets), (other, same) = (MinimumCuts(edges, library=library).augment() for library in (stub, False))
        assert len(new) == len(other) and sets == same


def test_no_answer(stub):
    assert MinimumCuts([(1, 2), (3, 4), (5, 6)], library=stub).count() == 3
    with pytest.raises(mincut_graph.Disconnected) as caught:
        MinimumCuts([(1, 2), (3, 4), (5, 6)], library=stub).cactus()
    assert caught.value.components == 3
    with pytest.raises(mincut_graph.NoCut):
        MinimumCuts([], library=stub).value()
    with pytest.raises(mincut_graph.OutOfMemory):
        MinimumCuts([(1, 2, 997)], library=stub).value(time_limit=10)
    with pytest.raises(mincut_graph.MincutError, match='without an answer'):
        MinimumCuts([(1, 2, 998)], library=stub, time_limit=10).count()


def test_what_is_raised_comes_back_from_a_child(stub):
    """A call with a time limit runs in another process."""
    assert MinimumCuts(ring(4), library=stub, time_limit=20).cactus().count() == 6
    with pytest.raises(mincut_graph.Disconnected) as caught:
        MinimumCuts([(1, 2), (3, 4)], library=stub, time_limit=20).cactus()
    assert caught.value.components == 2


def test_time_limit(stub):
    start = time.monotonic()
    with pytest.raises(mincut_graph.TimedOut):
        MinimumCuts([(1, 2, 999)], library=stub).value(time_limit=0.3)
    assert time.monotonic() - start < 20


def test_interrupt_leaves_nothing_behind(stub):
    code = (f'{TAKES_INTERRUPTS}from mincut_graph import MinimumCuts\nimport os, mincut_graph.library\nfork = os.fork\n'
            'def told():\n    child = fork()\n    if child: print(child, flush=True)\n    return child\n'
            f'os.fork = told\nMinimumCuts([(1, 2, 999)], library={stub!r}, time_limit=60).value()')
    child = subprocess.Popen([sys.executable, '-c', code], stdout=subprocess.PIPE, stderr=subprocess.PIPE,
                             env={**os.environ, 'PYTHONPATH': os.pathsep.join(sys.path)})
    grandchild = int(child.stdout.readline())
    child.send_signal(signal.SIGINT)
    _, err = child.communicate(timeout=30)
    assert b'KeyboardInterrupt' in err
    with pytest.raises(ProcessLookupError):
        os.kill(grandchild, 0)


def test_which_library(stub, monkeypatch, tmp_path):
    monkeypatch.setenv('MINCUT_LIBRARY', stub)
    assert MinimumCuts(ring(4)).library.path == stub and MinimumCuts(ring(4), library=False).library is None
    assert MinimumCuts(ring(4)).largest().library.path == stub
    wrong = tmp_path / 'wrong.so'
    wrong.write_text('no library')
    with pytest.raises(mincut_graph.NoProgram, match='is no library of mincut'):
        MinimumCuts(ring(4), library=str(wrong))
    monkeypatch.delenv('MINCUT_LIBRARY')
    assert MinimumCuts(ring(4)).library is None, 'a program is named by MINCUT, so a library that is only found is not taken'


# The library of the repository

@needs_library
@needs_program
def test_library_and_program_agree():
    rng = random.Random(3)
    for _ in range(500):
        n = rng.randint(2, 14)
        edges = [(rng.randrange(v), v, rng.randint(1, 3)) for v in range(1, n)]
        edges += [(rng.randrange(n), rng.randrange(n), rng.randint(0, 3)) for _ in range(rng.randint(0, 2 * n))]
        rng.shuffle(edges)
        by_library, by_program = MinimumCuts(edges, library=str(LIBRARY)), MinimumCuts(edges, library=False)
        assert by_library.value() == by_program.value() and by_library.count() == by_program.count()
        assert by_library.cactus() == by_program.cactus()
        value = by_program.value()
        fresh = MinimumCuts(edges, library=str(LIBRARY))
        assert fresh.cut_below(value) is None and fresh.cut_below(value + 1) == fresh.cut() and fresh.cut().side in by_program.sides()
        light = fresh.cuts_below(2 * value + 1, n)
        assert light[0].side in by_program.sides() and fresh.cuts_below(value, n) == [] and len({tuple(side) for _, side in light}) == len(light)
        assert all(weight <= 2 * value and sum(link.weight for link in fresh.links(side)) == weight for weight, side in light)
        for asked in ((None, None), (2, None), (None, (0, n - 1))):
            assert Library(str(LIBRARY)).sides(by_library.graph, *asked) == Program().sides(by_program.graph, *asked)


@needs_library
@needs_program
def test_library_raises_the_value():
    for n, edges, value, sides in random_graphs(100):
        (new, sets), (other, same) = (MinimumCuts(edges, library=library).augment() for library in (str(LIBRARY), False))
        assert len(new) == len(other) and sets == same
        assert MinimumCuts(edges + [(*ends, 1) for ends in new], library=False).value() > value


@needs_library
def test_large_graph_in_a_child():
    n = EDGES_IN_PROCESS + 1
    cuts = MinimumCuts(ring(n), library=str(LIBRARY))
    assert (cuts.value(), cuts.count()) == (2, n * (n - 1) // 2)
