"""GraphML: `graph` with `node` and `edge`, and `data` by `key`. Ports are ignored; hyperedges and nested graphs are refused."""
from __future__ import annotations

from typing import Any, Optional
from xml.etree.ElementTree import ParseError, XMLPullParser

from ..errors import BadInput
from ..graph import RawGraph
from .attributes import AttributeGraph
from .options import ReadOptions

AT_ONCE = 1 << 16
OTHER_ROOTS = {'gexf': 'GEXF, which is not read; export GraphML from Gephi', 'osm': 'OpenStreetMap data; make a graph of it, as by osmnx',
               'network': 'XML of SNDlib or another program, and not GraphML; write its links as CSV',
               'VisioDocument': 'a Visio drawing; export its connections as CSV', 'html': 'a web page and not GraphML; download the file itself'}


def read_graphml(text: str, options: ReadOptions) -> RawGraph:
    if '<!ENTITY' in text:
        raise BadInput('is XML with entities of its own, which are not read')
    reader = Reading()
    parser = XMLPullParser(('start', 'end'))
    try:
        for start in range(0, len(text), AT_ONCE):
            parser.feed(text[start:start + AT_ONCE])
            for event, element in parser.read_events():
                (reader.opened if event == 'start' else reader.closed)(element)
        parser.close()
    except ParseError as fault:
        raise BadInput(f'line {fault.position[0]}: is no XML ({fault})') from None
    if not reader.graphs:
        raise BadInput('is XML, but not GraphML with a graph')
    return reader.found.raw_graph(options)


class Reading:
    """A file as far as it was read, by the tags that open and close; of an edge nothing is kept but its ends and attributes."""

    def __init__(self) -> None:
        self.found = AttributeGraph()
        self.path: list[str] = []
        self.keys: dict[Optional[str], str] = {}
        self.defaults: dict[str, dict[str, str]] = {'node': {}, 'edge': {}}
        self.graphs, self.arrows = 0, False
        self.graph: Any = None

    def opened(self, element: Any) -> None:
        tag = plain(element)
        if not self.path and tag != 'graphml':
            raise BadInput(f'is {OTHER_ROOTS.get(tag, "XML, but not GraphML with a graph")}')
        if tag == 'graph' and self.path == ['graphml']:
            self.graphs += 1
            self.graph, self.arrows = element, element.get('edgedefault') == 'directed'
        if self.graphs > 1 or tag == 'hyperedge' or tag == 'graph' and 'node' in self.path:
            raise BadInput('has several graphs or hyperedges; leave one plain graph')
        self.path.append(tag)

    def closed(self, element: Any) -> None:
        tag = self.path.pop()
        if tag == 'key':
            self.key(element)
        elif self.path == ['graphml', 'graph']:
            if tag == 'node':
                self.node(element)
            elif tag == 'edge':
                self.edge(element)
            self.graph.clear()             # what is read of the graph so far is kept elsewhere

    def key(self, key: Any) -> None:
        name = key.get('attr.name') or key.get('id') or ''
        self.keys[key.get('id')] = name
        default = next((part.text for part in key if plain(part) == 'default'), None)
        if default:
            for kind in ('node', 'edge') if key.get('for') in (None, 'all') else (key.get('for'),):
                self.defaults.setdefault(kind, {})[name] = default

    def node(self, node: Any) -> None:
        name = node.get('id')
        if name is None or name in self.found.vertices:
            raise BadInput(f'two nodes have the id {name!r}' if name is not None else 'a node has no id')
        self.found.vertices[name] = {**self.defaults['node'], **self.data(node)}

    def edge(self, edge: Any) -> None:
        self.found.directed |= edge.get('directed', 'true' if self.arrows else 'false') == 'true'
        self.found.add_edge(edge.get('source'), edge.get('target'), {**self.defaults['edge'], **self.data(edge)})

    def data(self, element: Any) -> dict[str, str]:
        """The attributes of a node or an edge, by the names that the keys give them."""
        return {self.keys.get(data.get('key'), data.get('key')): (data.text or '').strip() for data in element
                if plain(data) == 'data' and data.get('key') is not None and len(data) == 0}


def plain(element: Any) -> str:
    """The tag without its namespace."""
    return element.tag.rpartition('}')[2] if isinstance(element.tag, str) else ''
