"""One graph in each form of file, and what keeps a file from being a graph."""
import pytest
from conftest import EXAMPLES

from mincut_graph import BadInput, UnknownName, read_graph
from mincut_graph.graph import finished

# The square a b c d with weights 1 2 3 4.
EDGES = [('a', 'b', 1), ('b', 'c', 2), ('c', 'd', 3), ('d', 'a', 4)]
FILES = {
    'edges.txt': 'a b 1\n# a comment\nb c 2\nc d 3\n\nd a 4\n',
    'with_header.csv': 'weight,from,to\n1,a,b\n2,b,c\n3,"c",d\n4,d,a\n',
    'semicolons.csv': 'a;b;weight\na;b;1\nb;c;2\nc;d;3\nd;a;4\n',
    'tabs.tsv': 'source\ttarget\tweight\na\tb\t1\nb\tc\t2\nc\td\t3\nd\ta\t4\n',
    'square.graphml': '''<?xml version="1.0"?><graphml xmlns="http://graphml.graphdrawing.org/xmlns">
        <key id="k1" for="edge" attr.name="weight" attr.type="int"><default>1</default></key><key id="k2" for="node" attr.name="label"/>
        <graph edgedefault="undirected"><node id="1"><data key="k2">a</data></node><node id="2"><data key="k2">b</data></node>
        <node id="3"><data key="k2">c</data></node><node id="4"><data key="k2">d</data></node><edge source="1" target="2"/>
        <edge source="2" target="3"><data key="k1">2</data></edge><edge source="3" target="4"><data key="k1">3</data></edge>
        <edge source="4" target="1"><data key="k1">4</data></edge></graph></graphml>''',
    'square.gml': '''Creator "by hand" graph [ directed 0 node [ id 1 label "a" graphics [ x 1.0 y 2.0 ] ] node [ id 2 label "b" ] node [ id 3 label "c" ]
        node [ id 4 label "d" ] edge [ source 1 target 2 weight 1 ] edge [ source 2 target 3 weight 2 ]
        edge [ source 3 target 4 weight 3.0 ] edge [ source 4 target 1 weight 4 ] ]''',
    'square.net': '*Vertices 4\n1 "a"\n2 "b"\n3 "c"\n4 "d"\n*Edges\n1 2 1\n2 3 2\n3 4 3\n4 1 4\n',
    'matrix.net': '*Vertices 4\n1 a\n2 b\n3 c\n4 d\n*Matrix\n0 1 0 4\n1 0 2 0\n0 2 0 3\n4 0 3 0\n',
}
NUMBERED = {
    'square.mtx': '%%MatrixMarket matrix coordinate integer symmetric\n% by hand\n4 4 4\n2 1 1\n3 2 2\n4 3 3\n4 1 4\n',
    'general.mtx': '%%MatrixMarket matrix coordinate real general\n4 4 8\n2 1 1.0\n1 2 1.0\n3 2 2\n2 3 2\n4 3 3\n3 4 3\n4 1 4\n1 4 4\n',
    'table.mtx': '%%MatrixMarket matrix array integer symmetric\n4 4\n0\n1\n0\n4\n0\n2\n0\n0\n3\n0\n',
    'square.graph': '% by hand\n4 4 1\n2 1 4 4\n1 1 3 2\n2 2 4 3\n1 4 3 3\n',
}


def triples(graph):
    return sorted((*sorted((str(graph.names[i]), str(graph.names[j]))), w) for i, j, w in graph.edges)


@pytest.mark.parametrize('name', FILES)
def test_forms_with_names(write, name):
    graph = finished(read_graph(write(name, FILES[name])))
    assert triples(graph) == sorted((*sorted((u, v)), w) for u, v, w in EDGES)


@pytest.mark.parametrize('name', NUMBERED)
def test_forms_with_numbers(write, name):
    graph = finished(read_graph(write(name, NUMBERED[name])))
    place = {'a': '1', 'b': '2', 'c': '3', 'd': '4'}
    assert triples(graph) == sorted((*sorted((place[u], place[v])), w) for u, v, w in EDGES)
    assert graph.names == [1, 2, 3, 4]


@pytest.mark.parametrize('name', ['square.graphml', 'square.gml', 'square.net', 'square.mtx', 'edges.txt'])
def test_form_by_beginning(write, name):
    text = FILES.get(name) or NUMBERED[name]
    assert len(read_graph(write('file', text)).edges) == 4


def test_networkx_reads_the_same(write):
    networkx = pytest.importorskip('networkx')
    for name, reader in (('square.graphml', networkx.read_graphml), ('square.gml', networkx.read_gml), ('square.net', networkx.read_pajek)):
        path = write(name, FILES[name])
        assert len(read_graph(path).edges) == reader(path).number_of_edges()


def test_saved_sparse_array(tmp_path):
    sparse = pytest.importorskip('scipy.sparse')
    path = str(tmp_path / 'square.npz')
    sparse.save_npz(path, sparse.csr_array([[0, 1], [1, 0]]))
    assert finished(read_graph(path)).edges == [(0, 1, 1)]


def test_columns_and_masses(write):
    table = write('links.csv', 'id,site A,site B,capacity\n1,x,y,10\n2,y,z,20\n')
    vertices = write('sites.csv', 'site,customers\nx,5\ny,1\nz,2\nw,9\n')
    raw = read_graph(table, source='site A', target='site B', weight='capacity', vertices=vertices, name='site', mass='customers')
    graph = finished(raw)
    assert (graph.names, graph.masses, triples(graph)) == (['x', 'y', 'z', 'w'], [5, 1, 2, 9], [('x', 'y', 10), ('y', 'z', 20)])
    assert finished(read_graph(table, source='2', target='3', weight='4')).edges == graph.edges
    assert finished(read_graph(table, source='site A', target='site B')).edges == [(0, 1, 10), (1, 2, 20)]
    assert finished(read_graph(table, unweighted=True)).edges == [(0, 1, 1), (1, 2, 1)]
    plain = write('links.txt', 'x|y|10\n')
    assert finished(read_graph(plain, delimiter='|')).edges == [(0, 1, 10)]
    with pytest.raises(UnknownName, match='there are: id, site A, site B, capacity'):
        read_graph(table, weight='kapazität')
    with pytest.raises(BadInput, match='w has no line|vertex z has no line'):
        read_graph(table, source='2', target='3', vertices=write('few.csv', 'site,customers\nx,5\ny,1\n'), mass='customers')


def test_examples():
    graph = finished(read_graph(EXAMPLES / 'customers.graph'))
    assert (len(graph.names), len(graph.edges), graph.masses[-1]) == (12, 16, 20)
    cities = finished(read_graph(EXAMPLES / 'abilene.graphml', weight='capacity'))
    numbers = finished(read_graph(EXAMPLES / 'abilene.graph'))
    assert (cities.edges, cities.names[1], len(cities.positions)) == (numbers.edges, 'Chicago', 11)


BROKEN = [
    ('x.txt', '', 'is empty'), ('x.txt', '# nothing\n', 'no lines'), ('x.csv', 'from,to\n', 'no edge'), ('x.txt', 'a\nb\n', 'one column'),
    ('x.csv', 'from,to,weight\na,b\n', 'line 2: an end or a weight is missing'), ('x.csv', 'from,to,weight\na,b,much\n', 'no number'),
    ('x.csv', 'from,to,weight\na,b,-2\n', '0 or more'), ('x.csv', 'from;to;weight\na;b;2,5\n', 'not a comma'), ('x.csv', 'from,to,weight\na,b,0.5\nb,c,0.25\n', 'multiply all by 4 '),
    ('x.graphml', '<graphml>', 'line 1: is no XML'), ('x.graphml', '<html></html>', 'not GraphML'),
    ('x.graphml', '<graphml><graph edgedefault="directed"><node id="a"/><node id="b"/><edge source="a" target="b"/></graph></graphml>', 'directed'),
    ('x.graphml', '<graphml><graph><node id="a"/><edge source="a" target="b"/></graph></graphml>', "'b', which is no vertex"),
    ('x.gml', 'graph [ node [ id 1 ]', 'ends within'), ('x.gml', 'graph ] ', 'closes nothing'), ('x.gml', 'Creator "me"', 'no GML'),
    ('x.net', '*Vertices 2\n*Edges\n1\n', 'line 3'), ('x.net', '*Vertices 2\n*Edges\n1 3\n', "'3', which is no vertex"),
    ('x.net', '*Vertices 2\n*Arcs\n1 2\n', 'directed'), ('x.mtx', 'matrix\n', 'no banner'),
    ('x.mtx', '%%MatrixMarket matrix coordinate real general\n2 3 1\n1 2 1\n', '2 by 3'),
    ('x.mtx', '%%MatrixMarket matrix coordinate real general\n2 2 1\n1 2 1\n', 'directed'),
    ('x.mtx', '%%MatrixMarket matrix coordinate complex general\n2 2 1\n1 2 1 1\n', 'complex'),
    ('x.mtx', '%%MatrixMarket matrix coordinate integer symmetric\n2 2 2\n2 1 1\n', 'head says 2'),
    ('x.graph', '2 1\n2\n', 'line 2: the file has fewer lines'), ('x.graph', '2 1\n2\n\n', 'line 3: .* the lines of both ends'),
    ('x.graph', '2 1\n3\n1\n', 'line 2: a neighbour is no vertex'), ('x.graph', 'a b\n', 'line 1: a word is no whole number'),
    ('x.graph', '2 1 1\n2\n1\n', 'line 2: a number is missing')]


@pytest.mark.parametrize('name, text, line', BROKEN)
def test_no_graph(write, name, text, line):
    with pytest.raises(BadInput, match=line) as caught:
        list(finished(read_graph(write(name, text))).edges)
    assert '\n' not in str(caught.value)


def test_unreadable(tmp_path):
    with pytest.raises(BadInput, match='No such file'):
        read_graph(tmp_path / 'none.csv')
    with pytest.raises(BadInput, match='directory'):
        read_graph(tmp_path)
    latin = tmp_path / 'latin.txt'
    latin.write_bytes('Zürich Genève\n'.encode('latin-1'))
    with pytest.raises(BadInput, match='--encoding'):
        read_graph(latin)
    assert read_graph(latin, encoding='latin-1').names == ['Zürich', 'Genève']
    with pytest.raises(BadInput, match='no encoding'):
        read_graph(latin, encoding='latin-77')
