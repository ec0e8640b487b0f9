"""From graphs of other libraries, and from lists of edges, to a raw graph. None of these libraries is imported here."""
from __future__ import annotations

from array import array
from collections.abc import Callable, Hashable, Iterable, Mapping, Sequence
from pathlib import Path
from typing import Any, Optional, Union

from .edges import Edges
from .errors import BadInput, UnknownName
from .graph import RawGraph, counted
from .matrices import of_edge_array, of_matrix
from .readers.headings import quoted, weights_in

Mass = Union[str, Mapping[Any, Any], Callable[[Any], Any], None]
SHOWN = 60


class Default(str):
    """A name that nobody has named: what it names may be missing."""


WEIGHT = Default('weight')


def is_igraph(graph: Any) -> bool:
    return hasattr(graph, 'vs') and hasattr(graph, 'es')


def is_networkx(graph: Any) -> bool:
    return hasattr(graph, 'nodes') and hasattr(graph, 'edges') and hasattr(graph, 'adjacency')


def is_matrix(graph: Any) -> bool:
    """Whether this is a sparse matrix or array of scipy, or a table of numpy."""
    return hasattr(graph, 'tocoo') or (hasattr(graph, 'shape') and hasattr(graph, 'dtype'))


def raw_graph(graph: Any, weight: Optional[str] = WEIGHT, mass: Mass = None, names: Optional[Sequence[Hashable]] = None) -> RawGraph:
    """The graph of networkx or igraph, the symmetric matrix of weights, or the edges, as a raw graph.

    `weight` is the name of the edges' attribute: an edge without it weighs 1, and one that no edge has is an error if it was named; with
    None each edge weighs 1. `mass` is the name of an attribute, a table or a function of a vertex. `names` are those of the rows of a
    matrix; without them a row has its number, counted from 0. Raises BadInput for what is no graph, and names the entry; UnknownName for
    an attribute that no edge has, and for a mass that is missing."""
    if isinstance(graph, RawGraph):
        found = graph
    elif is_igraph(graph):
        found = of_igraph(graph, weight)
    elif is_networkx(graph):
        found = of_networkx(graph, weight)
    elif is_matrix(graph):
        found = of_array(graph, names)
    else:
        found = of_edges(graph)
    if mass is not None:
        found.masses = masses_of(graph, found, mass)
    return found


# Graphs of other libraries

def of_igraph(graph: Any, weight: Optional[str]) -> RawGraph:
    names = graph.vs['name'] if 'name' in graph.vs.attributes() else list(range(graph.vcount()))
    known = graph.es.attributes()
    weights = graph.es[weight] if weight in known else [None] * graph.ecount()
    ends = graph.get_edgelist()
    return attributed(names, [u for u, _ in ends], [v for _, v in ends], weights, weight, known, graph.is_directed())


def of_networkx(graph: Any, weight: Optional[str]) -> RawGraph:
    names = list(graph.nodes)
    place = {name: i for i, name in enumerate(names)}
    found = list(graph.edges(data=weight)) if weight is not None else [(u, v, None) for u, v in graph.edges()]
    known = [] if any(w is not None for _, _, w in found) else list(dict.fromkeys(key for _, _, data in graph.edges(data=True) for key in data))
    return attributed(names, [place[u] for u, _, _ in found], [place[v] for _, v, _ in found], [w for _, _, w in found], weight, known,
                      graph.is_directed())


def attributed(names: Sequence[Any], heads: list[int], tails: list[int], weights: Sequence[Any], weight: Optional[str], known: list[Any],
               directed: bool) -> RawGraph:
    """The graph whose edges have an attribute, None where they lack it; `known` are the attributes of edges, at least if all lack it."""
    without = sum(w is None for w in weights)
    notes = []
    if weight is not None and without == len(weights) > 0:
        if not isinstance(weight, Default):
            raise UnknownName(f'no edge has the attribute {weight!r}; there are: {quoted(known) or "none"}')
        usual = weights_in(filter(lambda key: isinstance(key, str), known))
        if usual:
            notes.append(f'each edge weighs 1, though edges have {quoted(usual)}; weight={usual[0]!r} takes that')
    elif weight is not None and without:
        notes.append(f'{counted(without, "edge", "edges")} without {weight!r}, which weigh 1')
    edges = Edges(array('I', heads), array('I', tails), [1 if w is None else w for w in weights])
    return RawGraph(list(names), edges, notes=notes, directed=directed)


def of_array(graph: Any, names: Optional[Sequence[Hashable]]) -> RawGraph:
    """A square matrix, or the rows of an array with the ends of edges."""
    shape = tuple(graph.shape)
    if not hasattr(graph, 'tocoo') and len(shape) == 2 and shape[1] in (2, 3) and any(isinstance(part, str) for part in graph[:1].ravel()):
        return of_edges(graph.tolist())
    if hasattr(graph, 'tocoo') or len(shape) == 2 and shape[0] == shape[1] or len(shape) != 2 or shape[1] not in (2, 3):
        return of_matrix(graph, names)
    return of_edge_array(graph) or of_edges(graph.tolist())


# Lists of edges

def of_edges(edges: Any) -> RawGraph:
    """Pairs or triples of two names and a weight, 1 where it is not named; or a table of weights by pairs."""
    if isinstance(edges, Mapping):
        return of_triples(mapped(edges))
    if edges is None or isinstance(edges, (str, bytes, Path)) or not isinstance(edges, Iterable):
        hint = '; to read a file: read_graph(path)' if isinstance(edges, (str, bytes, Path)) else ''
        raise BadInput(f'{shown(edges)} is no graph{hint}; a list of edges has pairs (u, v) or triples (u, v, weight)')
    if hasattr(edges, 'itertuples'):
        raise BadInput('a table of pandas is given by its columns: [["from", "to", "weight"]].values, say')
    return of_triples(triple(entry, k) for k, entry in enumerate(edges, 1))


def mapped(table: Mapping[Any, Any]) -> Iterable[tuple[Any, Any, Any]]:
    """The triples of a table {(u, v): weight}."""
    for k, (pair, w) in enumerate(table.items(), 1):
        if not isinstance(pair, tuple) or len(pair) != 2:
            raise BadInput(f'key {k} of the table is {shown(pair)}, and no pair of vertices; a table of weights is {{(u, v): weight}}')
        yield pair[0], pair[1], w


def triple(entry: Any, k: int) -> tuple[Any, Any, Any]:
    """The two ends and the weight of entry k of a list; raises BadInput for what is no pair and no triple."""
    if type(entry) is tuple and len(entry) == 3:
        return entry[0], entry[1], entry[2]
    plain = isinstance(entry, (tuple, list)) or hasattr(entry, 'tolist') and hasattr(entry, '__len__')
    if not plain or len(entry) not in (2, 3):
        parts = f', which has {counted(len(entry), "part", "parts")}' if plain else ''
        raise BadInput(f'entry {k} of the edges is {shown(entry)}{parts}; an edge is a pair (u, v) or a triple (u, v, weight)')
    parts = entry.tolist() if hasattr(entry, 'tolist') else entry
    return parts[0], parts[1], parts[2] if len(parts) == 3 else 1


def of_triples(triples: Iterable[tuple[Any, Any, Any]]) -> RawGraph:
    """Raises BadInput for an end that cannot be a vertex: None, NaN, True and False, and what has no hash, as a list."""
    place: dict[Any, int] = {}
    heads, tails, weights = array('I'), array('I'), list[Any]()
    for u, v, w in triples:
        try:
            heads.append(place.setdefault(u, len(place)))
            tails.append(place.setdefault(v, len(place)))
        except TypeError:
            raise BadInput(f'entry {len(weights) + 1} of the edges is {shown((u, v, w))}; an end has to be a text, a number or a tuple') from None
        weights.append(w)
    odd = next((name for name in place if name is None or isinstance(name, bool) or name != name), 0)
    if odd != 0 or isinstance(odd, bool):
        k = next(k for k, ends in enumerate(zip(heads, tails)) if place[odd] in ends)
        raise BadInput(f'entry {k + 1} of the edges has the end {odd!r}, which is no vertex; an end has to be a text, a number or a tuple')
    return RawGraph(list(place), Edges(heads, tails, weights))


def shown(entry: Any) -> str:
    text = repr(entry)
    return text if len(text) <= SHOWN else text[:SHOWN] + '..'


def masses_of(graph: Any, raw: RawGraph, mass: Mass) -> list[Any]:
    """The mass of each vertex, by a table, a function, or the name of an attribute."""
    try:
        if isinstance(mass, str):
            if is_igraph(graph):
                return list(graph.vs[mass])
            if is_networkx(graph):
                return [graph.nodes[name][mass] for name in raw.names]
            raise BadInput('masses by an attribute want a graph of networkx or igraph; give a table or a function')
        if callable(mass):
            return [mass(name) for name in raw.names]
        assert mass is not None
        return [mass[name] for name in raw.names]
    except KeyError as missing:
        raise UnknownName(f'no mass for {missing.args[0]!r}') from None
