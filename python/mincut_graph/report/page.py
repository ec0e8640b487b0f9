"""The page: all parts in one text of HTML."""
from __future__ import annotations

import json
from collections.abc import Mapping, Sequence
from html import escape
from pathlib import Path
from string import Template
from typing import Any, Optional

from ..cuts import MinimumCuts
from ..graph import Graph, counted
from .amounts import Amounts
from .cactus_picture import SMALL_CACTUS, cactus_picture
from .findings import Findings, findings_of
from .graph_picture import graph_picture
from .places import Places
from .tables import component_rows, level_table, link_rows, node_rows, place_rows, plan_tables, shown, table

HERE = Path(__file__).resolve().parent
SCRIPTS = ('model', 'labels', 'pictures', 'saving', 'lists', 'what_if', 'page')
MOST_DRAWN = 300                       # vertices of a graph that is drawn
MOST_NODES = 2000                      # nodes of a cactus that is drawn
MOST_NAMED, MOST_LINKS = 200_000, 500_000      # vertices and links that the page keeps
DENSE = 60                             # vertices of a graph whose names are shown where there is room


def report_page(cuts: MinimumCuts, title: str, *, unit: str = '', scale: int = 1, source: str = 'FILE',
                levels: Optional[Sequence[Mapping[str, Any]]] = None, what_if: Optional[Sequence[Mapping[str, Any]]] = None) -> str:
    """The whole text of the page. `unit` stands behind all weights, which are shown divided by `scale`; `source` is the file that the
    commands on the page name; for `levels` and `what_if` see `extras`. Raises what the jobs cactus, count, balanced and augment raise,
    and BadInput for levels or changes of another form."""
    return page(findings_of(cuts, Amounts(unit, scale), levels, what_if), title, source)


def page(found: Findings, title: str, source: str = 'FILE') -> str:
    graph = found.graph
    drawn = len(graph.names) <= MOST_DRAWN
    cactus_drawn = found.cactus is not None and len(found.cactus.nodes) <= MOST_NODES and len(graph.names) <= MOST_NAMED
    parts = {'title': escape(title), 'summary': escape(summary(found)), 'facts': facts(found), 'notes': notes(graph),
             'pictures': pictures(found, drawn, cactus_drawn), 'how': how(found, drawn, cactus_drawn), 'legend': legend(found),
             'sections': sections(found, drawn),
             'data': json.dumps(data_of(found, source), ensure_ascii=False, separators=(',', ':'), default=str).replace('<', '\\u003c'),
             'style': (HERE / 'page.css').read_text('utf-8'),
             'script': ''.join((HERE / f'{name}.js').read_text('utf-8') for name in SCRIPTS)}
    return Template((HERE / 'page.html').read_text('utf-8')).substitute(parts)


def data_of(found: Findings, source: str) -> dict[str, Any]:
    """What the script needs: names and masses, links, the nodes' vertices, and the cactus' edges with the number of their cycle, or -1.
    `skipped` has the cycles whose cut at their top is that of another cycle."""
    graph, cactus = found.graph, found.cactus
    data: dict[str, Any] = {'names': [], 'masses': None, 'links': [], 'nodes': [], 'edges': [], 'skipped': [], 'value': 0,
                            'unit': found.amounts.unit, 'scale': found.amounts.scale, 'source': source,
                            'components': found.components if len(found.components) > 1 else [],
                            'levels': found.levels, 'changes': found.what_if}
    if len(graph.names) <= MOST_NAMED:
        data.update({'names': list(map(str, graph.names)), 'masses': graph.masses})
        data['links'] = [list(edge) for edge in graph.edges] if len(graph.edges) <= MOST_LINKS else []
        if cactus is not None:
            edges = [(i, j, number if kind == 'cycle' else -1) for i, j, (kind, number) in cactus.edges()]
            data.update({'nodes': cactus.nodes, 'edges': edges, 'skipped': sorted(Places(cactus, graph).skipped())})
    if cactus is not None:
        data['value'] = cactus.value
    return data


# The parts of the page

def summary(found: Findings) -> str:
    graph, amounts = found.graph, found.amounts
    least, most = min(w for _, _, w in graph.edges), max(w for _, _, w in graph.edges)
    weights = f'each of weight {amounts.text(least)}' if least == most else f'of weight {amounts.number(least)} to {amounts.text(most)}'
    text = f'{counted(len(graph.names), "vertex", "vertices")}, {counted(len(graph.edges), "link", "links")} {weights}'
    return text if graph.masses is None else f'{text}, masses {sum(graph.masses):,} in all'


def notes(graph: Graph) -> str:
    return ''.join(f'<p class="note">{escape(note[:1].upper() + note[1:])}.</p>' for note in graph.notes)


def facts(found: Findings) -> str:
    graph, amounts = found.graph, found.amounts
    if found.cactus is None:
        sizes = sorted(map(len, found.components), reverse=True)
        return ''.join([fact('Value', amounts.text(0), 'the graph is not connected: nothing has to fail to cut it in two'),
                        fact('Components', f'{len(sizes):,}', 'parts without a link between them'),
                        fact('Largest component', f'{sizes[0]:,}', f'of {len(graph.names):,} vertices; its minimum cuts: --largest')])
    unit = ('vertex' if found.balance == 1 else 'vertices') if graph.masses is None else 'mass'
    links = counted(len(found.plan), 'new link', 'new links')
    raises = 'raises' if len(found.plan) == 1 else 'raise'
    value, more = amounts.text(found.cactus.value), amounts.text(found.cactus.value + 1)
    return ''.join([fact('Value', value, 'the least weight of links that must fail to cut the graph in two'),
                    fact('Minimum cuts', f'{found.count:,}', 'different cuts of that weight'),
                    fact('Most balanced', f'{found.balance:,}', f'{unit} on the lighter side of one of them: {shown(graph, found.side)}'),
                    fact('Fewest new links', f'{len(found.plan):,}', f'{links} of weight {amounts.text(1)} {raises} the value to {more}')])


def fact(name: str, number: str, text: str) -> str:
    return f'<div class="fact"><h2>{name}</h2><p class="number">{escape(number)}</p><p>{escape(text)}</p></div>'


def how(found: Findings, drawn: bool, cactus_drawn: bool) -> str:
    """What can be picked on this page."""
    ways = ['a row of a list']
    if drawn:
        ways.insert(0, 'a vertex (its component)' if found.cactus is None
                    else 'a vertex (its smallest cut) or a link (all cuts that it is in) of the graph')
    if cactus_drawn:
        ways.insert(0, 'a bridge, a leaf, two nodes or two edges of one cycle of the cactus')
    drag = (' <span class="mouse">Drag to move a picture, hold Ctrl and turn the wheel to change its size, press Escape to clear.</span>'
            '<span class="finger">Two fingers move a picture and change its size.</span>') if drawn or cactus_drawn else ''
    return f'Pick {"; ".join(ways)}, and the page shows what comes apart.{drag}'


def legend(found: Findings) -> str:
    if found.cactus is None:
        keys = {'side': 'the component that is picked', 'rest': 'the rest'}
    else:
        keys = {'bridge': 'bridge', 'cycle': 'cycle', 'side': 'lighter side', 'rest': 'the rest', 'cut': 'links that are cut', 'new': 'new links'}
    return ' '.join(f'<span><i class="key {key}"></i>{text}</span>' for key, text in keys.items())


def pictures(found: Findings, drawn: bool, cactus_drawn: bool) -> str:
    parts = []
    if drawn:
        drawing = graph_picture(found.graph, found.node_of(), found.plan, found.amounts)
        parts.append(pane('Graph', drawing, len(found.graph.names) > DENSE))
    if found.cactus is not None and cactus_drawn:
        parts.append(pane('Cactus', cactus_picture(found.graph, found.cactus), len(found.cactus.nodes) > SMALL_CACTUS))
    if not parts:
        return '<p class="note">The graph and its cactus are too large to be drawn; the lists below have what can be shown.</p>'
    return f'<div class="panes{"" if len(parts) == 2 else " one"}">{"".join(parts)}</div>'


def pane(name: str, drawing: str, dense: bool) -> str:
    zoom = ''.join(f'<button type="button" data-zoom="{word}" aria-label="{label}">{sign}</button>'
                   for word, sign, label in (('in', '+', 'larger'), ('out', '−', 'smaller'), ('whole', '⤢', 'whole picture')))
    save = ''.join(f'<button type="button" data-save="{form}" aria-label="save as {form.upper()}">{form.upper()}</button>' for form in ('svg', 'png'))
    kind = 'pane dense' if dense else 'pane'
    return f'<figure class="{kind}"><figcaption>{name}<span class="zoom">{save}{zoom}</span></figcaption>{drawing}</figure>'


def sections(found: Findings, drawn: bool) -> str:
    """The lists, each with its heading."""
    parts = []
    if len(found.components) > 1:
        text = ('Nothing connects these. A name that is written in two ways is often the cause; else --largest shows the minimum cuts of '
                'the largest component.')
        parts.append(section('Components', text, table('components', ['##', '#Vertices', 'Names'], component_rows(found))))
    if found.cactus is not None:
        heads = ['##', '#Balance', '#Vertices', 'Lighter side', 'Links that are cut', 'In the cactus']
        text = f'By balance, which is the smaller mass of the two sides: {escape(places_told(found))}.'
        parts.append(section('Minimum cuts', text, table('places', heads, place_rows(found))))
        rows, count = link_rows(found)
        first = f'; the first {len(rows):,}' if len(rows) < count else ''
        text = f'{counted(count, "link is", "links are")} in some minimum cut{first}.'
        parts.append(section('Links in minimum cuts', text, table('links', ['From', 'To', '#Weight', '#Minimum cuts'], rows)))
    if found.levels:
        text = 'The parts that minimum cuts leave, each cut again by its own minimum cuts, and so on. The value is that of the part by itself.'
        parts.append(section('Levels', text, level_table(found)))
    if drawn and found.cactus is not None:
        form = (HERE / 'what_if.html').read_text('utf-8')
        parts.append(section('What if', 'Links that fail or are new, and the value then.', form))
    if found.cactus is not None:
        parts.append(section('Fewest new links', plan_told(found, drawn), plan_tables(found)))
        text = 'No minimum cut separates the vertices of one node of the cactus.'
        parts.append(section('What no minimum cut separates', text, table('nodes', ['#Node', '#Vertices', 'Names'], node_rows(found))))
    return ''.join(parts)


def section(name: str, text: str, content: str) -> str:
    return f'<section>\n<h2>{name}</h2>\n<p>{text}</p>\n{content}\n</section>\n'


def places_told(found: Findings) -> str:
    listed = len(found.places)
    return f'all {found.count:,}' if listed == found.count else f'the {listed:,} most balanced of {found.count:,}'


def plan_told(found: Findings, drawn: bool) -> str:
    assert found.cactus is not None
    amounts, value = found.amounts, found.cactus.value
    switch = '<label class="switch"><input type="checkbox" id="plan"> draw them in the graph</label>' if drawn else ''
    together = ', all together, raise' if len(found.plan) > 1 else ' raises'
    text = (f'{counted(len(found.plan), "link", "links")} of weight {amounts.text(1)}{together} the value from {amounts.text(value)} to '
            f'{amounts.text(value + 1)}. Fewer links cannot do this: each of the {counted(len(found.sets), "set", "sets")} in the second '
            'table is one side of a minimum cut and needs an end of a new link, no two share a vertex, and a link has two ends.')
    return f'{escape(text)} {switch}'
