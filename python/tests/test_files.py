"""Odd files, as people have them: each gives the graph that is meant, or one line that says what is wrong and what to do; none another
graph."""
import gzip
import io
import zipfile

import pytest

from mincut_graph import MincutError, MinimumCuts, UnknownName, read_graph
from mincut_graph.graph import finished


class Edges(str):
    """The edges that a file has to give, as 'a-b:1 b-c:2'; another text is the line that refuses it."""


def zipped(*names):
    out = io.BytesIO()
    with zipfile.ZipFile(out, 'w') as packed:
        for name in names:
            packed.writestr(name, 'x')
    return out.getvalue()


TRIANGLE = 'from,to,weight\na,b,1\nb,c,2\nc,a,3\n'
GRAPH = Edges('a-b:1 a-c:3 b-c:2')
FILES = [
    # Columns of systems
    ('inventory.csv', 'id,name,from_site,to_site,Weight\n1,l1,a,b,1\n2,l2,b,c,2\n3,l3,c,a,3\n', {}, GRAPH),
    ('netbox.csv', 'ID,Label,Device A,Termination A,Device B,Termination B,Status\n1,x,a,e0,b,e0,ok\n2,y,b,e1,c,e0,ok\n', {},
     Edges('a-b:1 b-c:1')),
    ('netbox_sites.csv', 'Label,Site A,Port A,Site B,Port B,Bandwidth (Mbps)\nx,a,e0,b,e0,1\ny,b,e1,c,e0,2\nz,c,e1,a,e1,3\n', {}, GRAPH),
    ('netbox_import.csv', 'side_a_device,side_a_type,side_a_name,side_b_device,side_b_type,side_b_name\na,if,e0,b,if,e0\n', {},
     "several pairs of columns may be the ends: 'side_a_device' and 'side_b_device'; 'side_a_name' and 'side_b_name'; name two by --from and --to"),
    ('circuits.csv', 'Circuit,A-End,Z-End,Capacity\nx,a,b,1\ny,b,c,2\nz,c,a,3\n', {}, GRAPH),
    ('circuits_az.csv', 'circuit;a;z;cap\nx;a;b;1\ny;b;c;2\nz;c;a;3\n', {}, GRAPH),
    ('lldp.csv', 'local_device,local_port,remote_device,remote_port,speed\na,1,b,1,10\nb,2,c,1,10\nc,2,a,2,10\n', {},
     Edges('a-b:1 a-c:1 b-c:1')),
    ('excel.csv', 'sep=;\r\nSource;Target;Capacity\r\na;b;1\r\nb;c;2\r\nc;a;3\r\n;;\r\n', {}, GRAPH),
    ('gephi.csv', 'Source,Target,Type,Id,Label,timeset,Weight\na,b,Undirected,0,,,1.0\nb,c,Undirected,1,,,2.0\nc,a,Undirected,2,,,3.0\n', {},
     GRAPH),
    ('gephi_arrows.csv', 'Source,Target,Type,Id\na,b,Directed,0\nb,c,Directed,1\n', {},
     'the graph is directed, and minimum cuts are those of an undirected one; to take each arrow as an edge: --undirected, or undirected=True'),
    ('cytoscape.csv', 'SUID,shared name,shared interaction,name,selected,interaction\n1,a (pp) b,pp,a (pp) b,false,pp\n', {},
     'which columns are the ends cannot be told; name both by --from and --to; there are: SUID, shared name, shared interaction, name, selected, interaction'),
    ('biogrid.tab', 'Interactor A\tInteractor B\tScore\na\tb\t1\nb\tc\t2\n', {}, Edges('a-b:1 b-c:1')),
    ('visio.csv', 'Process Step ID,Next Step ID,Connector Label\n1,2,x\n', {},
     'which columns are the ends cannot be told; name both by --from and --to; there are: Process Step ID, Next Step ID, Connector Label'),
    ('osmnx.csv', 'u,v,key,osmid,lanes,length\n10,11,0,77,2,33.5\n11,12,0,78,1,20.1\n', {}, Edges('10-11:1 11-12:1')),
    ('igraph.csv', '"","from","to","weight"\n"1","a","b",1\n"2","b","c",2\n"3","c","a",3\n', {}, GRAPH),
    ('r_matrix.csv', 'V1,V2\na,b\nb,c\nc,a\n', {}, Edges('a-b:1 a-c:1 b-c:1')),
    ('caida.txt', '# inferred AS links\n1|11537|0\n1|11164|0\n', {}, Edges('')),
    ('snap.txt', '# Nodes: 3 Edges: 3\n# FromNodeId\tToNodeId\n0\t1\n1\t2\n2\t0\n', {}, Edges('0-1:1 0-2:1 1-2:1')),
    ('konect.txt', '% sym positive\n1 2 1 1082008561\n2 3 1 1082008562\n', {},
     "has 4 columns and no names for them, as '1 2 1 1082008561'; if the lines are edges, name the weights by --weight 3, say, or have each edge weigh 1 by --unweighted"),
    ('neo4j.csv', ':START_ID,:END_ID,:TYPE,capacity\na,b,LINK,1\nb,c,LINK,2\nc,a,LINK,3\n', {}, GRAPH),
    ('pypsa.csv', 'name,bus0,bus1,x,r\nl1,a,b,0.1,0.2\nl2,b,c,0.1,0.2\n', {}, Edges('a-b:1 b-c:1')),
    ('matpower.csv', 'fbus,tbus,r,x,b\n1,2,0.01,0.1,0\n2,3,0.01,0.1,0\n', {}, Edges('1-2:1 2-3:1')),
    ('networkx.edgelist', "a b {'weight': 1}\nb c {'weight': 2}\nc a {'weight': 3, 'km': 7}\n", {}, GRAPH),
    ('networkx_bare.edgelist', 'a b {}\nb c {}\n', {}, Edges('a-b:1 b-c:1')),
    ('networkx_graph.edgelist', "graph b {'weight': 2}\nb c {'weight': 1}\n", {}, Edges('graph-b:2 b-c:1')),
    ('networkx_weighted.edgelist', 'a b 1\nb c 2\nc a 3.0\n', {}, GRAPH),
    ('networkx_capacity.edgelist', "a b {'capacity': 1, 'weight': 5}\nb c {'capacity': 2, 'weight': 5}\n", {},
     "several attributes may be the weights: 'capacity', 'weight'; name one by --weight"),
    ('zoo.gml', 'graph [ directed 0 node [ id 0 label "a" Latitude 1.5 Longitude 2.5 ] node [ id 1 label "b" Latitude 2 Longitude 3 ] edge [ source 0 target 1 LinkSpeed "10" LinkLabel "x" ] ]', {},
     Edges('a-b:1')),
    ('zoo.graphml', '<graphml><key id="d1" for="edge" attr.name="Capacity" attr.type="int"/><graph edgedefault="undirected"><node id="a"/><node id="b"/><edge source="a" target="b"><data key="d1">4</data></edge></graph></graphml>', {},
     Edges('a-b:4')),
    ('gephi.gexf', '<?xml version="1.0"?><gexf xmlns="http://gexf.net/1.3"><graph><nodes/></graph></gexf>', {},
     'is GEXF, which is not read; export GraphML from Gephi'),
    ('sndlib.txt', '?SNDlib native format; type: network; version: 1.0\nNODES (\n)\n', {},
     'is the native form of SNDlib, which is not read; write its links as CSV'),
    ('sndlib.xml', '<?xml version="1.0"?><network xmlns="http://sndlib.zib.de/network"></network>', {},
     'is XML of SNDlib or another program, and not GraphML; write its links as CSV'),
    ('power.net', '*Vertices 2\n1 "a"\n2 "b"\n*Edges\n1 2 4\n', {}, Edges('a-b:4')),
    # Two readings
    ('two.csv', 'Paris,Lyon\nLyon,Nice\nNice,Paris\n', {},
     "line 1: 'Paris', 'Lyon' may be an edge or the names of columns; say which: --no-header or --header"),
    ('letters.csv', 'a,b\nb,c\nc,a\n', {}, "line 1: 'a', 'b' may be an edge or the names of columns; say which: --no-header or --header"),
    ('letters_header.csv', 'a,b\nb,c\nc,a\n', {'header': False}, Edges('a-b:1 a-c:1 b-c:1')),
    ('bare.csv', 'a,b,1\nb,c,2\nc,a,3\n', {}, GRAPH),
    ('numbers.csv', '1,2\n2,3\n3,1\n', {}, Edges('1-2:1 1-3:1 2-3:1')),
    ('header.txt', 'source target weight\na b 1\nb c 2\n', {},
     "line 1: 'source', 'target', 'weight' seem to be the names of columns, and an edge list has none; say --header, or --no-header if it is an edge"),
    ('header_weight.txt', 'city neighbour gbits\na b 1\nb c 2\n', {},
     "line 1: 'city', 'neighbour', 'gbits' seem to be the names of columns, and an edge list has none; say --header, or --no-header if it is an edge"),
    ('header_said.txt', 'source target weight\na b 1\nb c 2\nc a 3\n', {'header': True}, GRAPH),
    ('matrix.txt', '0 1 3\n1 0 2\n3 2 0\n', {},
     'may be a list of edges or a matrix of weights; for the first say --read edges, and for the second write a line `u v weight` for each edge'),
    ('matrix.csv', ',a,b,c\na,0,1,3\nb,1,0,2\nc,3,2,0\n', {},
     'line 1: the lines begin with the names of columns, as in a matrix; write a line from,to,weight for each edge'),
    ('matrix4.txt', '0 1 0 1\n1 0 1 0\n0 1 0 1\n1 0 1 0\n', {},
     "has 4 columns and no names for them, as '0 1 0 1'; if the lines are edges, name the weights by --weight 3, say, or have each edge weigh 1 by --unweighted"),
    ('ring.txt', '4 4\n2 4\n1 3\n2 4\n3 1\n', {}, 'may be METIS text or an edge list; say which: --read metis or --read edges'),
    ('adjacency.txt', '0 1 2\n1 2\n', {}, 'line 2: an end or a weight is missing'),
    ('both_weights.csv', 'from,to,weight,capacity\na,b,1,10\n', {},
     "several columns may be the weights: 'weight', 'capacity'; name one by --weight"),
    ('both_weights_named.csv', 'from,to,km,capacity,weight\na,b,7,1,10\nb,c,7,2,10\nc,a,7,3,10\n', {'weight': 'capacity'}, GRAPH),
    ('both_ends.csv', 'from,to,site_a,site_b\n1,2,a,b\n', {},
     "several pairs of columns may be the ends: 'from' and 'to'; 'site_a' and 'site_b'; name two by --from and --to"),
    ('unweighted.csv', TRIANGLE, {'unweighted': True}, Edges('a-b:1 a-c:1 b-c:1')),
    ('one_end.csv', 'city,neighbour,km\na,b,1\n', {'source': 'city'},
     'which columns are the ends cannot be told; name both by --from and --to; there are: city, neighbour, km'),
    ('twice.csv', 'from,to,to\na,b,c\n', {'target': 'to', 'source': 'from'},
     "two columns have the name 'to'; name one by its number, from 1"),
    ('dimacs.txt', 'c a comment\np edge 3 3\ne 1 2\ne 2 3\n', {},
     'is DIMACS, which is not read; leave lines `u v weight` alone, without letters'),
    ('pairs.sif', 'a pp b\nb pp c\n', {},
     'is SIF of Cytoscape by its suffix, which is not read; write the edges as CSV with the columns from and to'),
    ('tree.tgf', '1 First\n2 Second\n#\n1 2\n', {},
     'is TGF by its suffix, which is not read; write the edges as CSV with the columns from and to'),
    ('graph.dot', 'graph { a -- b; }', {}, 'is DOT, which is not read; write the edges as CSV, or the graph as GML'),
    ('dot.txt', 'digraph G {\n a -> b;\n}\n', {}, 'is DOT, which is not read; write the edges as CSV, or the graph as GML'),
    # Separators and cells
    ('spaces.csv', ' from , to , weight \n a , b , 1 \nb,c,2\nc,a,3\n', {}, GRAPH),
    ('quotes.csv', 'from,to,weight\n"a","b",1\n"b","c","2"\nc,a,3\n', {}, GRAPH),
    ('commas.csv', 'from;to\n"Sion, gare";Brig\nBrig;"Visp, Bahnhof"\n', {}, Edges('Sion, gare-Brig:1 Brig-Visp, Bahnhof:1')),
    ('unquoted.csv', 'from,to\nSion, gare,Brig\n', {},
     'line 2: has 3 cells, and there are the 2 names in line 1; put a name that has the sign between columns in quotes'),
    ('open.csv', 'from,to\n"Sion,Brig\nBrig,Visp\n', {}, 'line 2: a cell in quotes goes over several lines, or a quote is not closed'),
    ('pipes.txt', 'a|b|1\nb|c|2\nc|a|3\n', {}, GRAPH),
    ('tabs.txt', 'a b\tc d\t1\nc d\te\t2\n', {}, Edges('a b-c d:1 c d-e:2')),
    ('one_column.csv', 'from to weight\na b 1\n', {}, Edges('a-b:1')),
    ('missing.csv', 'from,to,weight\na,b,1\nb,,2\n', {}, 'line 3: an end or a weight is missing'),
    ('total.csv', 'from,to,weight\na,b,1\nTotal,,1\n', {}, 'line 3: an end or a weight is missing'),
    ('ragged.txt', 'a b 1\nb c 2 x\n', {},
     'line 2: has 4 cells, and there are 3 in the lines before; put a name that has the sign between columns in quotes'),
    ('comments.csv', 'from,to,weight\n# the core\na,b,1\n% c\nb,c,2\nc,a,3\n', {}, GRAPH),
    ('hash_names.csv', 'from,to,weight\na,b,1\n#7,b,2\n', {},
     'line 3: begins with #, as a comment does, and has 3 cells, as an edge has; put its first name in quotes, or leave the line out'),
    ('hash_names_quoted.csv', 'from,to,weight\na,b,1\n"#7",b,2\n', {}, Edges('a-b:1 b-#7:2')),
    ('wide_delimiter.csv', TRIANGLE, {'delimiter': ';;'}, "a delimiter is one sign, or tab or space, and not ';;'"),
    # Numbers
    ('thousands_dot.csv', 'from;to;weight\na;b;1.000\nb;c;250\n', {},
     'line 2: the weight 1.000 may be 1000 with a thousands point, or 1; write it the one way or the other'),
    ('decimal_dot.csv', 'from;to;weight\na;b;1.000\nb;c;2.0\nc;a;3\n', {}, GRAPH),
    ('thousands_comma.csv', 'from,to,weight\na,b,"1,000"\n', {},
     "line 2: the weight of the edge a - b is '1,000', which is no number; leave out the commas, or write a point if they are decimal commas"),
    ('decimal_comma.csv', 'from;to;weight\na;b;2,5\n', {},
     "line 2: the weight of the edge a - b is '2,5', which is no number; decimals stand behind a point, not a comma"),
    ('both_signs.csv', 'from;to;weight\na;b;1.234,5\n', {},
     "line 2: the weight of the edge a - b is '1.234,5', which is no number; leave out the thousands points, and write a point for the decimal comma"),
    ('swiss.csv', "from,to,weight\na,b,1'000\n", {},
     'line 2: the weight of the edge a - b is "1\'000", which is no number; leave out the signs between thousands'),
    ('unit.csv', 'from,to,capacity\na,b,10 Gbit/s\n', {},
     "line 2: the weight of the edge a - b is '10 Gbit/s', which is no number; write the number alone, without a unit"),
    ('underscore.csv', 'from,to,weight\na,b,1_000\n', {},
     "line 2: the weight of the edge a - b is '1_000', which is no number; leave out the signs between thousands"),
    ('half.csv', 'from,to,weight\na,b,1\nb,c,0.5\n', {},
     'line 3: the weight of the edge b - c is 0.5; weights have to be whole numbers, so multiply all by 2 (--scale 2, or scale=2)'),
    ('minus.csv', 'from,to,weight\na,b,1\nb,c,-3\n', {}, 'line 3: the weight of the edge b - c is -3; it has to be 0 or more'),
    ('nan.csv', 'from,to,weight\na,b,NaN\n', {}, "line 2: the weight of the edge a - b is 'NaN', which is no number"),
    ('heavy.csv', 'from,to,weight\na,b,99999999999999999999\n', {},
     'status 1: the weights add up to more than 2^61; divide all by a common divisor, or round them'),
    # Encodings and packing
    ('utf8_mark.csv', TRIANGLE.encode('utf-8-sig'), {}, GRAPH),
    ('utf16.csv', TRIANGLE.encode('utf-16'), {}, GRAPH),
    ('utf16_big.csv', b'\xfe\xff' + TRIANGLE.encode('utf-16-be'), {}, GRAPH),
    ('utf16_bare.csv', TRIANGLE.encode('utf-16-le'), {}, 'is UTF-16 without a mark, as it seems: say --encoding utf-16-le'),
    ('latin.csv', 'from,to\nZürich,Genève\n'.encode('latin-1'), {}, 'is no UTF-8 text; name its encoding, as --encoding latin-1'),
    ('packed.csv.gz', gzip.compress(TRIANGLE.encode()), {}, GRAPH),
    ('packed_ring.graph.gz', gzip.compress(b'3 3 1\n2 1 3 3\n1 1 3 2\n1 3 2 2\n'), {}, Edges('1-2:1 1-3:3 2-3:2')),
    ('cut_off.csv.gz', gzip.compress(TRIANGLE.encode())[:-9], {}, 'is gzip that is cut off or damaged; fetch it again'),
    ('no_gzip.csv.gz', TRIANGLE, {}, 'is no gzip, whatever its name says; take .gz off its name'),
    ('packed.zip', zipped('links.csv'), {}, 'is a zip file; unpack it first'),
    ('book.xlsx', zipped('[Content_Types].xml', 'xl/workbook.xml'), {}, 'is an Excel workbook; save its sheet as CSV'),
    ('book.csv', zipped('[Content_Types].xml', 'xl/workbook.xml'), {}, 'is an Excel workbook; save its sheet as CSV'),
    ('book.xls', b'\xd0\xcf\x11\xe0' + bytes(100), {}, 'is an old Excel, Word or Visio file; save its table as CSV'),
    ('drawing.vsdx', zipped('visio/document.xml'), {}, 'is a Visio drawing; export its connections as CSV'),
    ('packed.bz2', b'BZh91AY', {}, 'is packed by bzip2; unpack it first (gzip alone is read as it is)'),
    ('table.parquet', b'PAR1\x15', {}, 'is Parquet; save it as CSV'),
    ('picture.csv', b'\x00\x01\x02\x03', {}, 'is no text'),
    ('page.csv', '<!DOCTYPE html><html>', {}, 'is a web page, and not GraphML or another form; download the file itself'),
    ('page.txt', '<!DOCTYPE html><html></html>', {}, 'is a web page, and not GraphML or another form; download the file itself'),
    ('links.json', '{"nodes": [], "links": []}', {}, 'is JSON, which is not read; write the edges as CSV, or the graph as GraphML'),
    # Attributes
    ('no_column.csv', TRIANGLE, {'weight': 'capcity'}, "no column 'capcity'; there are: from, to, weight"),
    ('no_attribute.graphml', '<graphml><graph edgedefault="undirected"><node id="a"/><node id="b"/><edge source="a" target="b"/></graph></graphml>', {'weight': 'capacity'},
     "no edge has the attribute 'capacity'; there are: none"),
    ('no_attribute.gml', 'graph [ node [ id 1 ] node [ id 2 ] edge [ source 1 target 2 km 7 ] ]', {'weight': 'capacity'},
     "no edge has the attribute 'capacity'; there are: km"),
    ('two_attributes.gml', 'graph [ node [ id 1 ] node [ id 2 ] edge [ source 1 target 2 weight 7 capacity 2 ] ]', {},
     "several attributes may be the weights: 'capacity', 'weight'; name one by --weight"),
    ('no_attribute.edgelist', "a b {'weight': 1}\n", {'weight': 'km'}, "no edge has the attribute 'km'; there are: 'weight'"),
    ('no_table.gml', 'graph [ node [ id 1 ] node [ id 2 ] edge [ source 1 target 2 ] ]', {'vertices': 'sites.csv'},
     '--from, --to, --vertices and --delimiter go with a table of edges, and this is read as gml; leave them out'),
    ('named.graph', '2 1\n2\n1\n', {'weight': 'capacity'},
     "METIS text has no names for its columns, so no weight 'capacity'; leave --weight out"),
    ('mass.csv', TRIANGLE, {'mass': 'customers'}, "a table of edges has no mass 'customers'; give a table of vertices by --vertices FILE"),
    ('directed.graphml', '<graphml><graph edgedefault="directed"><node id="a"/><node id="b"/><edge source="a" target="b"/></graph></graphml>', {},
     'the graph is directed, and minimum cuts are those of an undirected one; to take each arrow as an edge: --undirected, or undirected=True'),
    ('upper.mtx', '%%MatrixMarket matrix coordinate integer general\n2 2 1\n1 2 4\n', {},
     'the matrix is not symmetric: its entry in row 1, column 2 is 4, and that in row 2, column 1 is 0 (only half of the matrix is there: A + A.T has both); to take each entry as an edge: --undirected, or undirected=True'),
    ('uneven.mtx', '%%MatrixMarket matrix coordinate integer general\n2 2 2\n1 2 4\n2 1 5\n', {},
     'the matrix is not symmetric: its entry in row 1, column 2 is 4, and that in row 2, column 1 is 5; to take each entry as an edge: --undirected, or undirected=True'),
    ('uneven.net', '*Vertices 2\n*Matrix\n0 1\n2 0\n', {},
     'the matrix is not symmetric: its entry in row 1, column 2 is 1, and that in row 2, column 1 is 2; to take each entry as an edge: --undirected, or undirected=True'),
    # Faults of METIS text
    ('text.graph', 'a b\n', {},
     'line 1: a word is no whole number from 0 up; METIS text has whole numbers alone; an edge list is read by --read edges'),
    ('no_mate.graph', '2 1\n2\n\n', {},
     'line 3: the file has fewer edges than its header says; each stands in the lines of both ends and counts once'),
    ('odd_mate.graph', '3 2\n2 3\n1\n2\n', {},
     'line 2: an edge of this vertex does not stand in both lines with the same weight; it has to stand in the line of each end'),
    ('range.graph', '2 1\n3\n1\n', {},
     'line 2: a neighbour is no vertex: it has to be 1 or more, and at most the number of vertices in the header'),
    ('loop.graph', '2 1\n1\n2\n', {}, 'line 2: the vertex is its own neighbour; leave loops out'),
    ('weights.graph', '2 1 1\n2\n1\n', {},
     'line 2: a number is missing at the end of the line; the format in the header says which a line has'),
    ('zero.graph', '2 1 1\n2 0\n1 0\n', {}, 'line 2: an edge weighs 0; leave such edges out'),
    ('lines.graph', '3 1\n2\n1\n', {},
     'line 3: the file has fewer lines than its header says vertices; one without neighbours has a blank line'),
    ('xml.graph', '<graphml><graph edgedefault="undirected"><node id="a"/><node id="b"/><edge source="a" target="b"/></graph></graphml>', {},
     Edges('a-b:1')),
    ('edges.graph', 'a b\nb c\n', {},
     'line 1: a word is no whole number from 0 up; METIS text has whole numbers alone; an edge list is read by --read edges'),
    ('mass.graph', '2 1 11\n5 2 3\n6 1 3\n', {}, Edges('1-2:3')),
    ('empty.csv', '', {}, 'is empty; it has to have a graph with two vertices or more'),
    ('nothing.csv', '# nothing\n', {}, 'has no lines with edges'),
    ('header_alone.csv', 'from,to\n', {}, 'has no edge: one line for each is due, with two columns for its ends'),
]


def given(tmp_path, name, content, options):
    path = tmp_path / name
    path.write_bytes(content if isinstance(content, bytes) else content.encode())
    return finished(read_graph(path, **options))


def edges_of(graph):
    return ' '.join(f'{graph.names[i]}-{graph.names[j]}:{w}' for i, j, w in graph.edges)


@pytest.mark.parametrize('name, content, options, expected', FILES, ids=[name for name, _, _, _ in FILES])
def test_the_graph_or_one_line(tmp_path, name, content, options, expected):
    if isinstance(expected, Edges):
        assert edges_of(given(tmp_path, name, content, options)) == expected
        return
    with pytest.raises(MincutError) as caught:
        list(given(tmp_path, name, content, options).edges)
    assert str(caught.value).replace(f'{tmp_path / name}: ', '') == expected
