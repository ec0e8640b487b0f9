"""GML (Himsolt 1997): lists of keys with numbers, texts or lists; of these `graph`, `node` and `edge` are read."""
from __future__ import annotations

import html
import re
from typing import Any, Union

from ..errors import BadInput
from ..graph import RawGraph
from .attributes import AttributeGraph
from .options import ReadOptions

TOKEN = re.compile(r'#[^\n]*|"(?P<text>[^"]*)"|(?P<mark>[\[\]])|(?P<word>[^\s\[\]"]+)')
Pairs = list[tuple[str, Any]]


def read_gml(text: str, options: ReadOptions) -> RawGraph:
    graphs = [body for key, body in pairs_of(text) if key.lower() == 'graph' and isinstance(body, list)]
    if len(graphs) != 1:
        raise BadInput(f'is GML with {len(graphs)} graphs; it has to have one' if graphs else 'is no GML: it has no graph [ .. ]')
    found = AttributeGraph(directed=str(dict(graphs[0]).get('directed', '0')) == '1')
    for key, body in graphs[0]:
        if key == 'node' and isinstance(body, list):
            attributes = plain(body)
            if 'id' not in attributes or attributes['id'] in found.vertices:
                raise BadInput('a node has no id' if 'id' not in attributes else f'two nodes have the id {attributes["id"]}')
            found.vertices[attributes.pop('id')] = {**attributes, **places_of(body)}
        if key == 'edge' and isinstance(body, list):
            attributes = plain(body)
            if 'source' not in attributes or 'target' not in attributes:
                raise BadInput('an edge has no source, or no target')
            found.add_edge(attributes.pop('source'), attributes.pop('target'), attributes)
    return found.raw_graph(options)


def plain(body: Pairs) -> dict[str, str]:
    return {key: entry for key, entry in body if not isinstance(entry, list)}


def places_of(body: Pairs) -> dict[str, str]:
    """The coordinates in a list `graphics`."""
    graphics: dict[str, str] = next((plain(entry) for key, entry in body if key == 'graphics' and isinstance(entry, list)), {})
    return {key: graphics[key] for key in ('x', 'y') if key in graphics}


def pairs_of(text: str) -> Pairs:
    """The keys and values of the outermost list; a list in it is a list of pairs again."""
    top: Pairs = []
    stack: list[Pairs] = [top]
    key: Union[str, None] = None
    for token in TOKEN.finditer(text):
        kind = token.lastgroup
        if kind is None:
            continue
        word = html.unescape(token[kind]) if kind == 'text' else token[kind]
        if word == ']' and kind == 'mark':
            if key is not None or len(stack) == 1:
                raise BadInput(f'line {text.count(chr(10), 0, token.start()) + 1}: a ] that closes nothing')
            stack.pop()
        elif key is None:
            if kind != 'word':
                raise BadInput(f'line {text.count(chr(10), 0, token.start()) + 1}: a key is due, and not {token[0]}')
            key = word
        else:
            entry: Any = [] if kind == 'mark' else word
            stack[-1].append((key, entry))
            if kind == 'mark':
                stack.append(entry)
            key = None
    if len(stack) > 1 or key is not None:
        raise BadInput('ends within a list')
    return top
