"""The lists of the page. Each has a search field, heads that sort it, pages of 50 rows, and a button that saves it as CSV; the script
of the page does all that. A row that can be picked says in `data-pick` what it shows."""
from __future__ import annotations

from collections.abc import Iterable, Sequence
from html import escape
from typing import Any, Union

from ..graph import Graph, counted
from .amounts import Amounts
from .findings import Findings, link_counts
from .places import Places

MOST_LISTED = 1000                     # rows of a list
SHOWN_NAMES, SHOWN_LINKS = 8, 4        # names in one cell
Cell = Union[int, str, tuple[str, int]]


def table(name: str, heads: Sequence[str], rows: Iterable[str], csv: bool = True) -> str:
    """A list with its tools; the name of a head that begins with '#' is that of a column of numbers."""
    cells = ''.join(f'<th scope="col"{number(head)}>{sortable(head[head.startswith("#"):])}</th>' for head in heads)
    button = '<button type="button" data-csv>Save as CSV</button>' if csv else ''
    tools = (f'<div class="tools"><input type="search" placeholder="Search" aria-label="Search {name}"><span class="shown" role="status"></span>'
             '<button type="button" data-turn="-1" aria-label="page before">‹</button><button type="button" data-turn="1" '
             f'aria-label="next page">›</button>{button}<span class="only" hidden></span></div>')
    return (f'<div class="list" data-list="{name}">{tools}<div class="scroll"><table id="{name}"><thead><tr>{cells}</tr></thead>'
            f'<tbody>\n{"".join(rows)}</tbody></table></div></div>')


def number(head: str) -> str:
    return ' class="number"' if head.startswith('#') else ''


def sortable(head: str) -> str:
    return f'<button type="button">{escape(head)}</button>'


def row(cells: Iterable[Cell], extra: str = '') -> str:
    """A row; numbers, and texts of a weight with that weight, are sorted as numbers."""
    parts = []
    for cell in cells:
        text, value = cell if isinstance(cell, tuple) else (f'{cell:,}' if isinstance(cell, int) else cell, cell)
        kind = f' class="number" data-value="{value}"' if isinstance(value, int) else ''
        parts.append(f'<td{kind}>{escape(text)}</td>')
    return f'<tr{extra}>{"".join(parts)}</tr>\n'


def picked(kind: str, number: int) -> str:
    return f' class="pick" tabindex="-1" role="button" data-pick="{kind} {number}"'


def shown(graph: Graph, vertices: Sequence[int], most: int = SHOWN_NAMES) -> str:
    """The names of vertices, the first of many."""
    sign = ', ' if not any(',' in str(graph.names[v]) for v in vertices[:most]) else ' | '
    names = sign.join(str(graph.names[v]) for v in vertices[:most])
    return names if len(vertices) <= most else f'{names}{sign}… {len(vertices):,} in all'


def amount(amounts: Amounts, weight: int) -> tuple[str, int]:
    return amounts.text(weight), weight


def place_rows(found: Findings) -> list[str]:
    assert found.cactus is not None
    graph, amounts = found.graph, found.amounts
    near: list[list[tuple[int, int]]] = [[] for _ in graph.names]
    for i, j, w in graph.edges:
        near[i].append((j, w))
        near[j].append((i, w))
    places = Places(found.cactus, graph)
    edges = found.cactus.edges()
    rows = []
    for k, place in enumerate(found.places, 1):
        side = places.side(place)
        cut = places.links(side, near)
        names = [f'{graph.names[i]} – {graph.names[j]}' + ('' if w == 1 and not amounts.unit else f' ({amounts.text(w)})')
                 for i, j, w in cut[:SHOWN_LINKS]]
        more = f', … {len(cut):,} in all' if len(cut) > SHOWN_LINKS else ''
        kind = ' and '.join(f'{edges[e][0]} – {edges[e][1]}' for e in place.edges)
        kind = f'bridge {kind}' if len(place.edges) == 1 else f'cycle {edges[place.edges[0]][2][1]}: {kind}'
        rows.append(row([k, place.balance, len(side), shown(graph, side), ', '.join(names) + more, kind],
                        f' class="place" tabindex="-1" role="button" data-edges="{" ".join(map(str, place.edges))}"'))
    return rows


def link_rows(found: Findings) -> tuple[list[str], int]:
    """(rows, number) of the links that are in some minimum cut, those in most of them first; the rows of the first of many."""
    assert found.cactus is not None
    graph = found.graph
    counts = link_counts(graph, found.cactus, found.node_of())
    listed = sorted(counts, key=lambda k: (-counts[k], graph.edges[k][2], k))[:MOST_LISTED]
    rows = []
    for k in listed:
        i, j, w = graph.edges[k]
        rows.append(row([str(graph.names[i]), str(graph.names[j]), amount(found.amounts, w), counts[k]], picked('link', k)))
    return rows, len(counts)


def plan_tables(found: Findings) -> str:
    graph = found.graph
    rows = [row([k, str(graph.names[i]), str(graph.names[j])]) for k, (i, j) in enumerate(found.plan[:MOST_LISTED], 1)]
    sets = [row([k, shown(graph, members, 20)]) for k, members in enumerate(found.sets[:MOST_LISTED], 1)]
    return f'<div class="two">{table("new", ["##", "From", "To"], rows)}{table("sets", ["##", "Set that needs an end"], sets)}</div>'


def node_rows(found: Findings) -> list[str]:
    assert found.cactus is not None
    nodes = found.cactus.nodes
    listed = sorted((i for i, node in enumerate(nodes) if node), key=lambda i: (-len(nodes[i]), i))[:MOST_LISTED]
    return [row([i, len(nodes[i]), shown(found.graph, nodes[i], 40)], f' data-row="{i}"' + picked('node', i)) for i in listed]


def component_rows(found: Findings) -> list[str]:
    listed = sorted(range(len(found.components)), key=lambda i: (-len(found.components[i]), i))[:MOST_LISTED]
    return [row([k, len(found.components[i]), shown(found.graph, found.components[i], 20)], picked('component', i)) for k, i in enumerate(listed, 1)]


def level_table(found: Findings) -> str:
    """The levels as a tree that folds: a row for each part, with the value of its own cuts."""
    below = {level['above'] for level in found.levels}
    rows = []
    for k, level in enumerate(found.levels):
        fold = f'<button type="button" class="fold" aria-expanded="true" data-fold="{k}" aria-label="fold">▾</button>' if k in below else ''
        value = '' if level['value'] is None else found.amounts.text(level['value'])
        cells = [f'<td style="padding-left:{6 + 18 * level["depth"]}px">{fold}{counted(len(level["vertices"]), "vertex", "vertices")}</td>',
                 f'<td class="number">{escape(value)}</td>', f'<td class="number">{len(level["links"]) or ""}</td>',
                 f'<td>{escape(shown(found.graph, level["vertices"]))}</td>']
        rows.append(f'<tr data-above="{level["above"]}"{picked("level", k)}>{"".join(cells)}</tr>\n')
    return ('<div class="scroll"><table id="levels" role="treegrid"><thead><tr><th scope="col">Part</th><th scope="col" class="number">Value</th>'
            '<th scope="col" class="number">Links that are cut</th><th scope="col">Vertices</th></tr></thead>'
            f'<tbody>\n{"".join(rows)}</tbody></table></div>')
