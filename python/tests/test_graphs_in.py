"""What becomes a graph: lists, tables, arrays and graphs of other libraries; METIS text as it is; and the two ways to each graph, with
numpy and without."""
import random
from array import array
from itertools import chain

import pytest
from checks import metis

from mincut_graph import BadInput, MincutError, MinimumCuts, UnknownName, edges, read_graph
from mincut_graph.graph import Graph, RawGraph, finished
from mincut_graph.readers import lines
from mincut_graph.readers.metis import Fault, columns_of, header_of, masses_of
from mincut_graph.readers.names import Names


def triples(cuts):
    return sorted((*sorted((cuts.names[i], cuts.names[j]), key=str), w) for i, j, w in cuts.graph.edges)


# Lists and tables

def test_a_table_has_weights():
    cuts = MinimumCuts({('a', 'b'): 2, ('b', 'c'): 3})
    assert (cuts.value(), triples(cuts)) == (2, [('a', 'b', 2), ('b', 'c', 3)])
    assert triples(MinimumCuts(iter([['a', 'b'], ('b', 'c', 3)]))) == [('a', 'b', 1), ('b', 'c', 3)]
    assert triples(MinimumCuts({((0, 0), (0, 1)): 4})) == [((0, 0), (0, 1), 4)]


NAN = float('nan')
MALFORMED = [
    (['ab', 'bc'], "entry 1 of the edges is 'ab'; an edge is a pair"), ([('a', 'b'), 'bc'], "entry 2 of the edges is 'bc'"),
    ([('a',)], "entry 1 of the edges is ('a',), which has 1 part"), ([('a', 'b', 1, 2)], "('a', 'b', 1, 2), which has 4 parts"),
    ([None], 'entry 1 of the edges is None'), ([{'a', 'b'}], 'entry 1 of the edges is {'), ([('a', None)], 'entry 1 of the edges has the end None'),
    ([('a', 'b'), (NAN, 'b')], 'entry 2 of the edges has the end nan'), ([(True, False)], 'entry 1 of the edges has the end True'),
    ([(['a'], 'b')], "entry 1 of the edges is (['a'], 'b', 1)"), ([('a', 'b', None)], 'the weight of the edge a - b is None'),
    ([('a', 'b', NAN)], "the weight of the edge a - b is 'nan'"), ([('a', 'b', -1)], 'the weight of the edge a - b is -1; it has to be 0 or more'),
    ([('a', 'b', True)], 'the weight of the edge a - b is True, which is no number; write 1'), ([('a', 'b', '1_0')], "is '1_0', which is no number"),
    ({'ab': 2}, "key 1 of the table is 'ab', and no pair"), ({'a': {'b': 2}}, "key 1 of the table is 'a', and no pair"),
    ({('a', 'b', 'c'): 2}, 'and no pair'), ({('a', 'b'): None}, 'the weight of the edge a - b is None'),
    ('links.csv', "'links.csv' is no graph; to read a file: read_graph(path)"), (None, 'None is no graph'), (7, '7 is no graph')]


@pytest.mark.parametrize('graph, line', MALFORMED, ids=[line for _, line in MALFORMED])
def test_malformed_entries_are_named(graph, line):
    with pytest.raises(BadInput) as caught:
        MinimumCuts(graph)
    assert line in str(caught.value) and '\n' not in str(caught.value)


def test_edges_are_a_sequence():
    graph = finished(RawGraph(['a', 'b', 'c'], [(1, 0, 2), (2, 1, 3), (0, 1, 1), (2, 2, 1)]))
    assert (graph.edges, len(graph.edges), graph.edges[1], graph.edges[:1]) == ([(0, 1, 3), (1, 2, 3)], 2, (1, 2, 3), [(0, 1, 3)])
    assert [(0, 1, 3), (1, 2, 3)] == graph.edges != [(0, 1, 3)] and repr(graph.edges) == 'Edges([(0, 1, 3), (1, 2, 3)])'
    assert Graph(['a', 'b'], [(0, 1, 5)]).metis_text() == b'2 1 001\n2 5\n1 5\n'
    assert Graph(['a', 'b'], []).edges == [] and not Graph(['a', 'b'], []).edges


# Arrays

def test_arrays_of_numpy():
    numpy = pytest.importorskip('numpy')
    pairs = numpy.array([[5, 3], [3, 9], [9, 5], [9, 4]])
    cuts = MinimumCuts(pairs)
    assert (cuts.names, triples(cuts)) == ([5, 3, 9, 4], triples(MinimumCuts(pairs.tolist()))) and type(cuts.names[0]) is int
    weighted = numpy.array([[5, 3, 2.0], [3, 9, 4], [9, 5, 1], [5, 3, 1]])
    assert triples(MinimumCuts(weighted)) == [(3, 5, 3), (3, 9, 4), (5, 9, 1)]
    assert triples(MinimumCuts(numpy.array([['a', 'b'], ['b', 'c'], ['c', 'd']]))) == [('a', 'b', 1), ('b', 'c', 1), ('c', 'd', 1)]
    assert triples(MinimumCuts(numpy.array([['a', 'b', 2], ['b', 'c', 3], ['c', 'd', 1]], dtype=object)))[0] == ('a', 'b', 2)
    square = numpy.array([[0, 1, 0, 4], [1, 0, 2, 0], [0, 2, 0, 3], [4, 0, 3, 0]])
    assert triples(MinimumCuts(square, names='abcd')) == [('a', 'b', 1), ('a', 'd', 4), ('b', 'c', 2), ('c', 'd', 3)]
    for array_, line in ((weighted * [1, 1, 0.25], 'multiply all by 4'), (weighted * [1, 1, -1], 'is -2.0; it has to be 0 or more'),
                         (weighted + [0.5, 0, 0], 'row 0 of the array is [5.5, 3.0, 2.0], and its ends are no whole numbers'),
                         (weighted * NAN, 'no whole numbers'), (numpy.zeros((3, 5)), 'has to be square'), (numpy.arange(4).reshape(2, 2), 'may be a matrix'),
                         (numpy.triu(square), 'only half of the matrix is there'), (square[:, ::-1][::-1] + square * 2 + numpy.eye(4, k=1), 'not symmetric')):
        with pytest.raises(BadInput) as caught:
            MinimumCuts(array_)
        assert line in str(caught.value)


def test_sparse_arrays_of_scipy():
    sparse = pytest.importorskip('scipy.sparse')
    numpy = pytest.importorskip('numpy')
    rng = numpy.random.default_rng(5)
    for kind in (sparse.csr_matrix, sparse.coo_matrix, sparse.csc_matrix):
        full = numpy.triu(rng.integers(0, 3, (9, 9)))
        matrix = kind(full + full.T)
        assert triples(MinimumCuts(matrix)) == triples(MinimumCuts([(i, j, int(full[i, j])) for i in range(9) for j in range(i + 1, 9)]))
    twice = sparse.coo_matrix(([1, 2, 3], ([0, 0, 1], [1, 1, 0])), shape=(2, 2))
    assert MinimumCuts(twice).value() == 3
    assert MinimumCuts(sparse.csr_matrix(([True, True], ([0, 1], [1, 0])))).value() == 1
    with pytest.raises(BadInput, match=r'its entry in row 0, column 1 is 1, and that in row 1, column 0 is 0 \(only half'):
        MinimumCuts(sparse.csr_matrix([[0, 1], [0, 0]]))
    assert MinimumCuts(sparse.csr_matrix([[0, 1], [2, 0]]), undirected=True).value() == 3
    with pytest.raises(BadInput, match='2 rows, and there are 3 names'):
        MinimumCuts(twice, names='abc')


def test_attributes_of_networkx():
    networkx = pytest.importorskip('networkx')
    graph = networkx.Graph()
    graph.add_edge('a', 'b', capacity=2)
    graph.add_edge('b', 'c', capacity=3)
    cuts = MinimumCuts(graph)
    assert (cuts.value(), cuts.notes) == (1, ["each edge weighs 1, though edges have 'capacity'; weight='capacity' takes that"])
    assert MinimumCuts(graph, weight='capacity').value() == 2
    for name in ('capcity', 'weight'):
        with pytest.raises(UnknownName, match=f"no edge has the attribute '{name}'; there are: 'capacity'"):
            MinimumCuts(graph, weight=name)
    graph.add_edge('c', 'd')
    assert MinimumCuts(graph, weight='capacity').notes == ["1 edge without 'capacity', which weigh 1"]
    assert MinimumCuts(graph, weight=None).notes == []
    graph['a']['b']['capacity'] = True
    with pytest.raises(BadInput, match='the weight of the edge a - b is True, which is no number'):
        MinimumCuts(graph, weight='capacity')


def test_attributes_of_igraph():
    igraph = pytest.importorskip('igraph')
    graph = igraph.Graph.Ring(4)
    assert MinimumCuts(graph).notes == []
    with pytest.raises(UnknownName, match="no edge has the attribute 'capcity'; there are: none"):
        MinimumCuts(graph, weight='capcity')
    graph.es['bandwidth'] = [2, 2, 2, 2]
    assert "weight='bandwidth' takes that" in MinimumCuts(graph).notes[0] and MinimumCuts(graph, weight='bandwidth').value() == 4


# Tables of vertices

def test_places_of_a_table_of_vertices(write):
    links = write('links.csv', 'from,to\ns1,s2\ns2,s3\n')
    sites = write('sites.csv', 'name,id,Latitude,Longitude\nX,s3,46.5,9.5\nY,s1,47,8\nZ,s2,46.25,7\n')
    raw = read_graph(links, vertices=sites)
    assert (raw.names, raw.positions, raw.masses) == (['s3', 's1', 's2'], [(9.5, 46.5), (8.0, 47.0), (7.0, 46.25)], None)
    assert raw.notes[-1] == "places on the map in the columns 'Longitude' and 'Latitude'"
    plan = read_graph(links, vertices=write('plan.csv', 'site;x;y;mass\ns1;1;2;5\ns2;3;4;6\ns3;-1;2.5;7\n'))
    assert (plan.positions, finished(plan).masses) == ([(1.0, 2.0), (3.0, 4.0), (-1.0, 2.5)], [5, 6, 7])
    for text, note in (('site;lat;lon\ns1;1;2\ns2;46,2;4\ns3;1;1\n', "are not used: line 3: a coordinate is '46,2', which is no number"),
                       ('site;lat;lon\ns1;1;2\ns2;;\ns3;1;1\n', 'are not used: line 3'), ('site;lat;lon\ns1;1;2\ns2;3;4\n', 'so the places on the map')):
        found = read_graph(links, vertices=write('odd.csv', text))
        assert found.positions is None and any(note in one for one in found.notes)
    assert any("1 vertex has no line in" in note for note in found.notes)
    with pytest.raises(UnknownName, match="no column 'customers'; there are: name, id, Latitude, Longitude"):
        read_graph(links, vertices=sites, mass='customers')


# METIS text as it is

RING = b'% a ring\n4 4\n2 4\n1 3\n2 4\n1 3\n'


def test_metis_text_goes_to_the_program_as_it_is(tmp_path, write):
    path = tmp_path / 'ring.graph'
    path.write_bytes(RING)
    program = tmp_path / 'program'
    program.write_text('#!/bin/sh\ncat > "$0.given"\necho value 2\n')
    program.chmod(0o755)
    cuts = MinimumCuts(read_graph(path), program=str(program))
    assert (cuts.value(), (tmp_path / 'program.given').read_bytes()) == (2, RING)
    assert (len(cuts.graph.edges), cuts.names, cuts.graph.edges.given) == (4, [1, 2, 3, 4], None), 'the edges were read'
    assert list(cuts.graph.edges) == [(0, 1, 1), (0, 3, 1), (1, 2, 1), (2, 3, 1)]
    assert MinimumCuts(read_graph(path), scale=3, program=str(program)).graph.edges[0] == (0, 1, 3)
    heavy = MinimumCuts(read_graph(path), mass={1: 5, 2: 0, 3: 1, 4: 1}, program=str(program)).graph
    assert (heavy.masses, heavy.metis_text()) == ([5, 0, 1, 1], b'4 4 010\n5 2 4\n0 1 3\n1 2 4\n1 1 3\n')
    assert cuts.graph.part([0, 1, 2]).metis_text() == b'3 2\n2\n1 3\n2\n'


def test_what_the_program_says_of_a_file_is_a_sentence(write):
    cuts = MinimumCuts(read_graph(write('odd.graph', '3 2\n2 3\n1\n2\n')), library=False)
    with pytest.raises(BadInput, match=r'odd.graph: line 2: an edge of this vertex does not stand in both lines') as caught:
        cuts.value()
    with pytest.raises(BadInput) as again:
        list(cuts.graph.edges)
    assert str(caught.value) == str(again.value)


def damaged(rng):
    """METIS text of a small graph with up to three bytes changed."""
    n, rows, count = rng.randint(0, 6), [[] for _ in range(6)], 0
    for i in range(n):
        for j in range(i):
            if rng.random() < 0.5:
                rows[i].append(j + 1)
                rows[j].append(i + 1)
                count += 1
    form = rng.choice(['', '', ' 0', ' 1', ' 001', ' 11', ' 110 2', ' 011 0', ' 2', ' 0000'])
    step = f' {rng.randint(1, 2)} ' if form in (' 1', ' 001', ' 11') else ' '
    start = {' 11': '7 ', ' 110 2': '1 2 3 '}.get(form, '')
    text = f'{n} {count}{form}\n' + ''.join(f'{start}{step.join(map(str, row))}{step if row else ""}\n' for row in rows[:n])
    content = bytearray(text.encode())
    for _ in range(rng.randint(0, 3)):
        k = rng.randrange(len(content))
        content[k:k + rng.randint(0, 1)] = rng.choice([b'0', b'1', b'3', b' ', b'\n', b'-', b'%', b'\t', b'\r', b'x', b'\x0b', b'', b'\n%\n',
                                                       b'00000000000000000000000003', b' 18446744073709551616', b' 4611686018427387904'])
    return bytes(content)


def test_metis_faults_are_those_of_the_program():
    rng = random.Random(70)
    for _ in range(3000):
        content = damaged(rng)
        try:
            (_, wanted), masses = metis.read(content)
        except metis.Fault as fault:
            wanted = (fault.kind, fault.line)
        try:
            head = header_of(content)
            found_masses = masses_of(content, head) if head.weights else [1] * head.n
            found = [(i + 1, j + 1, w) for i, j, w in zip(*columns_of(content, head))]
            assert found_masses == masses, content
        except Fault as fault:
            found = (fault.kind, fault.line)
        assert found == wanted, content


# With numpy and without

def test_both_ways_to_each_pair_once_and_to_metis_text():
    numpy = pytest.importorskip('numpy')
    rng = random.Random(71)
    for _ in range(300):
        n, m = rng.randint(1, 9), rng.randint(0, 30)
        columns = [array('I', [rng.randrange(n) for _ in range(m)]) for _ in range(2)] + [array('Q', [rng.choice([0, 1, 1, 5]) for _ in range(m)])]
        by_hand, by_numpy = edges.merged_by_hand(n, *columns), edges.merged_by_numpy(numpy, n, *columns)
        assert by_hand == by_numpy
        table = {}
        for i, j, w in zip(*columns):
            if i != j and w:
                table[min(i, j), max(i, j)] = table.get((min(i, j), max(i, j)), 0) + w
        assert by_hand.edges == [(*pair, w) for pair, w in sorted(table.items())]
        assert by_hand.loops + by_hand.parallel + by_hand.empty + len(by_hand.edges) == m
        for weighted in (True, False):
            rows = [*chain.from_iterable(edges.rows_by_hand(n, by_hand.edges.columns, weighted))]
            assert rows == edges.rows_by_numpy(numpy, n, by_hand.edges.columns, weighted).tolist()


@pytest.mark.parametrize('count', [1, 2, 7, 255, 256, 600, 1023, 1024, 5000, 1 << 22])
def test_each_pair_once_and_rows_by_hand(count):
    rng = random.Random(count)
    for m in (0, 1, 30, 2000):
        most = rng.choice([min(count, 9), count])
        columns = [array('I', [rng.randrange(most) for _ in range(m)]) for _ in range(2)] + [array('Q', [rng.choice([0, 1, 5, 1 << 45]) for _ in range(m)])]
        found, table = edges.merged_by_hand(count, *columns), {}
        for i, j, w in zip(*columns):
            if i != j and w:
                table[min(i, j), max(i, j)] = table.get((min(i, j), max(i, j)), 0) + w
        assert found.edges == [(*pair, w) for pair, w in sorted(table.items())]
        assert found.loops == sum(i == j for i, j in zip(*columns[:2]))
        assert found.loops + found.parallel + found.empty + len(found.edges) == m
        if count > 5000:
            continue                   # the rows of so many vertices take long
        near = {}
        for (i, j), w in sorted(table.items()):
            near.setdefault(j, []).extend((i + 1, w))
        for (i, j), w in sorted(table.items()):
            near.setdefault(i, []).extend((j + 1, w))
        given = found.edges.columns
        shuffled = edges.edges_of(rng.sample(list(found.edges), len(found.edges)), whole=True).columns
        for columns_in_some_order in (given, shuffled):
            rows = [*chain.from_iterable(edges.rows_by_hand(count, columns_in_some_order, True))]
            assert rows == [number for i in range(count) for number in (*near.get(i, ()), edges.ROW_END)]
        rows = [*chain.from_iterable(edges.rows_by_hand(count, given, False))]
        assert rows == [number for i in range(count) for number in (*near.get(i, ())[::2], edges.ROW_END)]


@pytest.mark.parametrize('at_once', [1, 7, 1 << 18])
def test_metis_text_of_a_graph_is_that_graph(monkeypatch, at_once):
    monkeypatch.setattr(edges, 'NUMBERS_AT_ONCE', at_once)
    rng = random.Random(72)
    for _ in range(50):
        n = rng.randint(1, 7)
        table = {(i, j): rng.choice([1, 1, 2]) for j in range(n) for i in range(j) if rng.random() < 0.4}
        masses = [rng.randrange(1 << 64) for _ in range(n)] if rng.random() < 0.5 else None
        graph = Graph(list(range(n)), [(i, j, table[i, j]) for i, j in sorted(table)], masses)
        (_, found), its_masses = metis.read(graph.metis_text())
        assert found == [(i + 1, j + 1, w) for i, j, w in graph.edges] and its_masses == (masses or [1] * n)


@pytest.mark.parametrize('piece', [1, 9, 1 << 16])
def test_tables_by_pieces(monkeypatch, write, piece):
    """The same edges and lines whichever way a piece goes: at once, or line by line."""
    monkeypatch.setattr(lines, 'PIECE', piece)
    plain = 'from;to;weight\n' + ''.join(f'v{k % 7};v{k % 5};{k % 3}\n' for k in range(200))
    odd = plain.replace('v3;v4;', '\n# v3\n"v3";v4;', 1).replace('v1;v1;', ' v1 ; v1;', 1)
    blanks = ''.join(line.replace(';', '  ') for line in plain.splitlines(True)[1:])
    first, second, third = (read_graph(write(name, text)) for name, text in (('a.csv', plain), ('b.csv', odd), ('c.txt', blanks)))
    assert list(first.edges) == list(second.edges) == list(third.edges) and first.names == second.names == third.names
    assert list(first.lines) == list(range(2, 202)) and list(third.lines) == list(range(1, 201))
    rows = plain.splitlines()
    for cells, line in (('v1;;1', 'line 150: an end or a weight is missing'), ('v1;v2;1;x', 'line 150: has 4 cells, and there are the 3 names')):
        with pytest.raises(BadInput, match=line):
            read_graph(write('d.csv', '\n'.join(rows[:149] + [cells] + rows[150:])))


def test_names_that_are_numbers_and_others():
    """The places of names by an array are those of a dictionary, also from the first name on that is no short number."""
    rng = random.Random(74)
    kinds = [lambda: str(rng.randrange(30)), lambda: str(rng.randrange(10 ** 8)), lambda: '0' + str(rng.randrange(3)), lambda: f'v{rng.randrange(9)}',
             lambda: rng.choice(['1 2', '1_0', '-1', '+1', '\u0661', '00', '0', '1.0', 'v', 'vv1', 'v01', 'v1v1', 'w1', 'v\u0661'])]
    for _ in range(2000):
        names, known = Names(), {}
        for _ in range(rng.randint(0, 5)):
            some = rng.choice([kinds[:1], kinds[:2], kinds[3:4], kinds[3:4], kinds])
            piece = [rng.choice(some)() for _ in range(rng.randint(0, 12))]
            wanted = [known.setdefault(name, len(known)) for name in piece]
            whole = all(name.isascii() and name.isdigit() and name == str(int(name)) for name in piece)
            given = list(map(int, piece)) if whole and rng.random() < 0.5 else piece
            assert list(names.places(given)) == wanted and names.all() == list(known)


@pytest.mark.parametrize('piece', [1, 40, 1 << 16])
@pytest.mark.parametrize('sign', [',', ';', '\t', '|', '-', '7'])
def test_tables_of_numbers(monkeypatch, write, piece, sign):
    """Lines with numbers alone give what they give with a cell in quotes in each line, which go line by line: a graph or a fault."""
    monkeypatch.setattr(lines, 'PIECE', piece)
    rng = random.Random(75)
    for _ in range(60):
        odd = rng.choice(['1', '0', '00', '05', '', '99999999999999999999999', '9' * 50, '12345678', '4' + sign + '1', '1.5', '-2', 'x', '1e3', '2 ', '[1]', 'true'])
        rows = [[str(rng.choice([0, 1, 2, 3, 41, 10 ** 6 + k])) for k in range(3)] for _ in range(rng.randint(1, 20))]
        if rng.random() < 0.7:
            rng.choice(rows)[rng.randrange(3)] = odd
        found = []
        for mark in ('', '"'):
            text = ''.join(f'{sign.join((*row[:2], mark + row[2] + mark))}\n' for row in rows)
            try:
                raw = read_graph(write('t.csv', f'from{sign}to{sign}weight\n{text}'), delimiter=sign)
                graph = finished(raw)
                found.append((graph.names, list(graph.edges), list(raw.lines)))
            except MincutError as fault:
                found.append(str(fault))
        if sign not in odd:
            assert found[0] == found[1]


def test_a_part_of_a_graph_and_its_components():
    rng = random.Random(73)
    for _ in range(200):
        n = rng.randint(1, 12)
        graph = finished(RawGraph([f'v{k}' for k in range(n)], [(rng.randrange(n), rng.randrange(n), 1) for _ in range(rng.randint(0, n))]))
        near, left, wanted = graph.neighbours(), set(range(n)), []
        while left:
            reached = [min(left)]
            for i in reached:
                reached += [j for j in near[i] if j not in reached]
            wanted.append(sorted(reached))
            left -= set(reached)
        found = graph.components()
        assert found == wanted and all(near_ == sorted(near_) for near_ in near)
        for places, part in zip(found, graph.parts(found)):
            assert part.names == [graph.names[i] for i in places] and part == graph.part(places) and len(part.components()) == 1
