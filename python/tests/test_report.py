"""The report: the order of the places, what is in the page, and in headless Chromium what the mouse and the keyboard do."""
import csv
import json
import math
import random
import re
import time
from itertools import islice
from xml.etree import ElementTree

import chromium
import pytest
from conftest import EXAMPLES, needs_program, random_graphs

from mincut_graph import MinimumCuts, read_graph
from mincut_graph.cactus import Cactus, canonical
from mincut_graph.command import main, parser
from mincut_graph.errors import BadInput
from mincut_graph.graph import RawGraph, finished
from mincut_graph.program import Program
from mincut_graph.report import page_words, report_page
from mincut_graph.report.amounts import Amounts
from mincut_graph.report.cactus_picture import box_places, box_size, cactus_picture
from mincut_graph.report.extras import checked_changes, checked_levels
from mincut_graph.report.findings import Findings, link_counts
from mincut_graph.report.page import page as page_of
from mincut_graph.report.places import Places
from mincut_graph.report.spacing import covered


def ring(n):
    return [(f'v{i}', f'v{(i + 1) % n}') for i in range(n)]


def ring_of_rings(rings, size):
    """Rings of this size, joined to a ring at two vertices each; value 2."""
    edges = [(f'{k}-{i}', f'{k}-{(i + 1) % size}') for k in range(rings) for i in range(size)]
    return edges + [(f'{k}-0', f'{(k + 1) % rings}-{size // 2}') for k in range(rings)]


def star(n):
    return [('hub', f'leaf {i}') for i in range(n)]


def found_by_hand(edges, cactus, unit=''):
    """What the page shows of a graph whose cactus is known, without the program; no new links."""
    graph = MinimumCuts(edges).graph
    place = {name: i for i, name in enumerate(graph.names)}
    cactus = canonical(Cactus(cactus.value, [[place[v] for v in node] for node in cactus.nodes], cactus.bridges, cactus.cycles))
    places = list(islice(Places(cactus, graph).by_balance(), 500))
    return Findings(graph, graph.components(), Amounts(unit), cactus, cactus.count(), places[0].balance, [], [], [], places)


def found_in_ring(n):
    return found_by_hand(ring(n), Cactus(2, [[f'v{i}'] for i in range(n)], [], [list(range(n))]))


def found_in_star(n):
    return found_by_hand(star(n), Cactus(1, [['hub'], *([f'leaf {i}'] for i in range(n))], [(0, i + 1) for i in range(n)], []))


# The places

def test_places_are_all_cuts_by_balance():
    for n, edges, _, sides in random_graphs(40):
        masses = {v: v % 3 for v in range(1, n + 1)}
        cuts = MinimumCuts(edges, mass=masses)
        places = Places(Program().cactus(cuts.graph), cuts.graph)
        found = list(places.by_balance())
        told = [frozenset(cuts.names[v] for v in places.order[place.low:place.high]) for place in found]
        others = [frozenset(side) if cuts.names[0] not in side else frozenset(range(1, n + 1)) - frozenset(side) for side in sides]
        assert sorted(map(sorted, told)) == sorted(map(sorted, others))
        balances = [place.balance for place in found]
        assert balances == sorted(balances, reverse=True) and balances[0] == cuts.balanced()[0]
        for place in found:
            side = places.side(place)
            mass = sum(masses[cuts.names[v]] for v in side)
            assert mass == place.balance == min(mass, sum(masses.values()) - mass)


@needs_program
def test_places_of_a_long_ring():
    cuts = MinimumCuts(ring(2000))
    places = Places(Program().cactus(cuts.graph), cuts.graph).by_balance()
    assert [next(places).balance for _ in range(1001)] == [1000] * 1000 + [999]


def test_links_are_in_as_many_places_as_cuts_have_them():
    graphs = [edges for _, edges, _, _ in random_graphs(40)] + [read_graph(EXAMPLES / 'network.graph'), ring_of_rings(3, 4)]
    for edges in graphs:
        graph = MinimumCuts(edges).graph
        cactus = Program().cactus(graph)
        node_of = cactus.node_of()
        places = Places(cactus, graph)
        right = {}
        for place in places.by_balance():
            side = set(places.side(place))
            for k, (i, j, _) in enumerate(graph.edges):
                if (i in side) != (j in side):
                    right[k] = right.get(k, 0) + 1
        assert link_counts(graph, cactus, [node_of[v] for v in range(len(graph.names))]) == right


# The pictures

def random_cactus(size, seed):
    """A cactus with about so many nodes, each with one vertex or a few."""
    choose = random.Random(seed)
    count, bridges, cycles = 1, [], []
    while count < size:
        hub = choose.randrange(count)
        more = choose.choice([1, 1, 1, 3, 4, 6])
        if more == 1:
            bridges.append((hub, count))
        else:
            cycles.append([hub, *range(count, count + more)])
        count += more
    names = iter(f'{choose.choice(["site", "exchange", "x"])} {i}' for i in range(10_000))
    return Cactus(1, [[next(names) for _ in range(choose.choice([1, 1, 2, 9]))] for _ in range(count)], bridges, cycles)


def test_boxes_cover_no_line():
    stars = [Cactus(1, [[f'hub {i}' for i in range(9)], *([f'leaf number {i}'] for i in range(n))], [(0, i + 1) for i in range(n)], []) for n in (3, 8, 15)]
    for cactus in [*stars, *(random_cactus(size, seed) for seed, size in enumerate((5, 9, 14, 20, 26)))]:
        names = [v for node in cactus.nodes for v in node]
        place = {name: i for i, name in enumerate(names)}
        graph = finished(RawGraph(names, [(0, i, 1) for i in range(1, len(names))]))
        nodes = [[place[v] for v in node] for node in cactus.nodes]
        by_place = Cactus(1, nodes, cactus.bridges, cactus.cycles)
        sizes = [box_size(node, graph) for node in nodes]
        places = box_places(by_place, sizes)
        assert not covered(dict(enumerate(places)), sizes, [(i, j) for i, j, _ in by_place.edges()])


def test_a_star_has_its_leaves_around_its_middle():
    for n in (12, 40, 200):
        found = found_in_star(n)
        lines = re.findall(r'data-edge="\d+".*?x1="([-\d.]+)" y1="([-\d.]+)" x2="([-\d.]+)" y2="([-\d.]+)"', cactus_picture(found.graph, found.cactus))
        angles = sorted(math.atan2(float(d) - float(b), float(c) - float(a)) for a, b, c, d in lines)
        gaps = [y - x for x, y in zip(angles, [*angles[1:], angles[0] + 2 * math.pi])]
        assert len(angles) == n and max(gaps) < 3 * 2 * math.pi / n and min(gaps) > 0.3 * 2 * math.pi / n


def test_map():
    names = ['Bern', 'Basel', 'Chur', 'Bern (2)']
    raw = RawGraph(names, [(0, 1, 1), (1, 2, 1), (2, 3, 1), (3, 0, 1)], positions=[(7.45, 46.95), (7.59, 47.56), (9.53, 46.85), (7.45, 46.95)])
    page = report_page(MinimumCuts(finished(raw)), 'a map')
    (bern, basel, chur, twin) = [(float(x), float(y)) for x, y in re.findall(r'data-vertex="\d+".*?cx="([-\d.]+)" cy="([-\d.]+)"', page)]
    assert basel[1] < bern[1] < chur[1] and bern[0] < chur[0], 'north is not above, or east not to the right'
    assert math.dist(bern, twin) > 12


# The page

def data_of(page):
    return json.loads(re.search(r'<script type="application/json" id="data">(.*?)</script>', page, re.DOTALL)[1])


def test_page_of_a_network():
    page = report_page(MinimumCuts(read_graph(EXAMPLES / 'network.graph')), 'a <small> network')
    data = data_of(page)
    assert (data['value'], len(data['names']), len(data['nodes']), len(data['edges'])) == (4, 12, 11, 12)
    assert page.count('<tr class="place"') == 21 and 'a &lt;small&gt; network' in page
    assert [len(re.findall(rf'data-{kind}="\d', page)) for kind in ('vertex', 'link', 'node', 'edge')] == [12, 16, 11, 12]
    assert 'http' not in page.replace('http-equiv', ''), 'the page wants the network'


def test_names_do_not_leave_the_page():
    hostile = '</script><script>alert(1)</script>'
    page = report_page(MinimumCuts([(hostile, '"&\'$x'), ('"&\'$x', 'c'), ('c', hostile)]), '$title </title>')
    assert hostile not in page and data_of(page)['names'][0] == hostile and '&lt;/title&gt;' in page


@needs_program
def test_large_pages():
    for edges, drawn, cactus_drawn in ((ring(301), False, True), (ring(2001), False, False)):
        page = report_page(MinimumCuts(edges), 'large')
        assert ('id="graph"' in page, 'id="cactus"' in page) == (drawn, cactus_drawn)
        assert 'most balanced of' in page


def test_command(tmp_path):
    path = tmp_path / 'page.html'
    assert main(['report', str(EXAMPLES / 'abilene.graphml'), '--weight', 'capacity', '-o', str(path), '--title', 'Abilene']) == 0
    assert '<h1>Abilene</h1>' in path.read_text('utf-8')
    apart = tmp_path / 'apart.txt'
    apart.write_text('a b\nc d\n')
    assert main(['report', str(apart), '-o', str(path)]) == 0
    page = path.read_text('utf-8')
    assert '--largest' in page and page.count('data-pick="component') == 2 and 'id="cactus"' not in page


def test_amounts():
    assert [Amounts('Gbit/s', 10).text(w) for w in (1, 25, 20_000)] == ['0.1 Gbit/s', '2.5 Gbit/s', '2,000 Gbit/s']
    assert Amounts(scale=3).text(2) == '2/3' and Amounts().text(1 << 60) == '1,152,921,504,606,846,976'
    page = report_page(MinimumCuts([('a', 'b', 25), ('b', 'c', 25), ('c', 'a', 30)]), 'units', unit='Gbit/s', scale=10)
    assert '<p class="number">5 Gbit/s</p>' in page and 'of weight 2.5 to 3 Gbit/s' in page and 'b – a (2.5 Gbit/s)' in page
    assert data_of(page)['unit'] == 'Gbit/s' and data_of(page)['scale'] == 10


def test_options(tmp_path):
    levels, failures = tmp_path / 'levels.json', tmp_path / 'failures.json'
    levels.write_text(json.dumps({'parts': [{'above': None, 'value': 2, 'vertices': ['a', 'b', 'c'], 'alone': ['a', 'b', 'c'], 'parts': [],
                                             'links': [{'from': 'a', 'to': 'b', 'weight': 1}]}]}), 'utf-8')
    failures.write_text(json.dumps({'value': 2, 'failures': [{'from': 'b', 'to': 'a', 'weight': 1, 'value': 1, 'count': 2}]}), 'utf-8')
    options = parser().parse_args(['report', 'a file.csv', '--unit', 'kV', '--levels', str(levels), '--what-if', str(failures), '--scale', '2'])
    page = report_page(MinimumCuts([('a', 'b'), ('b', 'c'), ('c', 'a')]), 'options', **page_words(options))
    data = data_of(page)
    assert (data['unit'], data['scale'], data['source']) == ('kV', 2, 'a file.csv')
    assert [level['vertices'] for level in data['levels']] == [[0, 1, 2], [0], [1], [2]] and data['levels'][0]['links'] == [0]
    assert data['changes'] == [{'remove': [[0, 1]], 'add': [], 'value': 1, 'places': 2}]
    assert page.count('data-pick="level') == 4


def test_wrong_levels_and_changes(tmp_path):
    graph = MinimumCuts([('a', 'b'), ('b', 'c'), ('c', 'a')]).graph
    whole = {'vertices': ['a', 'b', 'c'], 'value': 2}
    for levels in ([{'value': 1}], [whole, {'vertices': ['a']}], [{**whole, 'above': 0}], [{'vertices': ['x']}], [{**whole, 'links': [['a']]}], ['a']):
        with pytest.raises(BadInput):
            checked_levels(graph, levels)
    for change in ({}, {'value': '1'}, {'value': 1, 'remove': [['a', 'x']]}, {'value': 1, 'add': [['a', 'b', '2']]}, 3):
        with pytest.raises(BadInput):
            checked_changes(graph, [change])
    for text in ('', '{}', '{"what_if": 3}'):
        path = tmp_path / 'changes.json'
        path.write_text(text, 'utf-8')
        with pytest.raises(BadInput):
            page_words(parser().parse_args(['report', 'f', '--what-if', str(path)]))


def test_size_and_time_of_large_pages():
    """Beside its data a page is small; one of 100,000 vertices has its cactus and its lists within 10 s and 20 MB."""
    page = page_of(found_in_star(2), 'small')
    assert len(page.encode()) < 120_000
    leaves, core = 1500, 98_500
    edges = [(f'site {i}', f'site {(i + step) % core}', 10) for i in range(core) for step in (1, 7)] + [(f'stub {i}', f'site {64 * i}', 5) for i in range(leaves)]
    cactus = Cactus(5, [[f'site {i}' for i in range(core)], *([f'stub {i}'] for i in range(leaves))], [(0, i + 1) for i in range(leaves)], [])
    found = found_by_hand(edges, cactus)
    start = time.process_time()
    page = page_of(found, 'large')
    assert time.process_time() - start < 10 and len(page.encode()) < 20_000_000
    assert 'id="graph"' not in page and 'id="cactus"' in page and page.count('<tr class="place"') == 500


# In Chromium

needs_browser = pytest.mark.skipif(chromium.PATH is None, reason='there is no Chromium')


@pytest.fixture
def opened(tmp_path):
    """Opens the report of a graph; at the end the console has to be empty."""
    pages = []

    def open_page(cuts, **words):
        path = tmp_path / 'page.html'
        text = page_of(cuts, 'a test') if isinstance(cuts, Findings) else report_page(cuts, 'a test', **words)
        path.write_text(text, 'utf-8')
        pages.append(chromium.Page(path))
        return pages[-1]
    yield open_page
    for page in pages:
        complaints = page.complaints
        page.close()
        assert complaints == []


def coloured(page, what, side):
    """The numbers of the elements of a kind, `vertex` or `node`, on this side."""
    return sorted(page.run(f"Array.from(document.querySelectorAll('[data-{what}].{side}')).map((e) => Number(e.dataset.{what}))"))


@needs_browser
def test_pick_in_chromium(opened, tmp_path):
    cuts = MinimumCuts(read_graph(EXAMPLES / 'network.graph'))
    page = opened(cuts)
    cactus = Program().cactus(cuts.graph)
    edges = cactus.edges()
    # A bridge: vertex 12 alone, with its one link.
    bridge = next(k for k, (i, j, _) in enumerate(edges) if cactus.nodes[j] == [11])
    page.click(f'[data-edge="{bridge}"] .hit')
    assert coloured(page, 'vertex', 'side') == [11] and len(coloured(page, 'vertex', 'rest')) == 11
    assert coloured(page, 'node', 'side') == [edges[bridge][1]]
    assert page.run("document.querySelectorAll('.link.cut').length") == 1 and '9 – 12 (4)' in page.run("document.getElementById('told').textContent")
    # Two edges of one cycle: what lies between them.
    first, second = [k for k, (i, j, block) in enumerate(edges) if block == ('cycle', 0) and 1 in (i, j)]
    page.click(f'[data-edge="{first}"] .hit')
    assert 'second edge of cycle 0' in page.run("document.getElementById('told').textContent") and coloured(page, 'vertex', 'side') == []
    page.click(f'[data-edge="{second}"] .hit')
    assert coloured(page, 'vertex', 'side') == cactus.nodes[1] and coloured(page, 'node', 'side') == [1]
    assert page.run("document.querySelectorAll('tr.chosen').length") == 1
    # A row of the list, by the keyboard, and nothing again.
    page.run("document.querySelector('tr.place').focus()")
    page.press('Enter')
    assert coloured(page, 'vertex', 'side') == [0, 1, 2, 3, 4, 10] or len(coloured(page, 'vertex', 'side')) == 6
    page.picture(tmp_path / 'picked.png')
    page.press('Escape')
    assert coloured(page, 'vertex', 'side') == [] and 'No cut' in page.run("document.getElementById('told').textContent")
    # New links, and a closer look.
    page.click('#plan')
    assert page.run("document.querySelector('.plan').classList.contains('shown')")
    before = page.run("document.getElementById('graph').getAttribute('viewBox')")
    page.click('.pane [data-zoom="in"]')
    assert page.run("document.getElementById('graph').getAttribute('viewBox')") != before
    page.click('.pane [data-zoom="whole"]')
    assert [float(x) for x in page.run("document.getElementById('graph').getAttribute('viewBox')").split()] == [float(x) for x in before.split()]
    page.print(tmp_path / 'page.pdf')
    assert (tmp_path / 'page.pdf').read_bytes().startswith(b'%PDF')


@needs_browser
def test_every_row_in_chromium(opened):
    """Each row colours the vertices of its side, as the program lists it."""
    cuts = MinimumCuts(read_graph(EXAMPLES / 'customers.graph'))
    page = opened(cuts)
    total = sum(cuts.graph.masses)
    told = set()
    for k in range(page.run("document.querySelectorAll('tr.place').length")):
        page.run(f"document.querySelectorAll('tr.place')[{k}].click()")
        side, rest = coloured(page, 'vertex', 'side'), coloured(page, 'vertex', 'rest')
        assert sorted(side + rest) == list(range(12)) and 2 * cuts.graph.mass(side) <= total
        told.add(tuple(cuts.named(side if 0 not in side else rest)))
    assert told == {tuple(side) for side in cuts.sides()}


# Where things are on the screen: the middle of a shape, and the middle of what is seen of a line between its two shapes.
WHERE = '''(() => {
  const group = document.querySelector(%s);
  const shape = group.querySelector('circle, rect');
  if (shape !== null) {
    const box = shape.getBoundingClientRect();
    return [box.x + box.width / 2, box.y + box.height / 2, 0, 1];
  }
  const line = group.querySelector('line');
  const matrix = line.getScreenCTM();
  const end = (k) => new DOMPoint(line.getAttribute('x' + k), line.getAttribute('y' + k)).matrixTransform(matrix);
  const [a, b] = [end(1), end(2)];
  const boxes = Array.from(group.ownerSVGElement.querySelectorAll('.vertex circle, .node circle, .node rect')).map((one) => one.getBoundingClientRect());
  const seen = [];
  for (let k = 0; k <= 200; k += 1) {
    const [x, y] = [a.x + (b.x - a.x) * k / 200, a.y + (b.y - a.y) * k / 200];
    if (!boxes.some((box) => box.left < x && x < box.right && box.top < y && y < box.bottom)) {
      seen.push([x, y]);
    }
  }
  const middle = seen[Math.floor(seen.length / 2)] || [(a.x + b.x) / 2, (a.y + b.y) / 2];
  const length = Math.hypot(b.x - a.x, b.y - a.y);
  return [...middle, (a.y - b.y) / length, (b.x - a.x) / length];
})()'''
ZOOMS = (0, 6, -3)                     # turns of the wheel: the whole picture, larger, smaller


def where(page, selector):
    """(x, y, right, down): the place of a thing, and a direction across it, upright on a line."""
    return page.run(WHERE % json.dumps(selector))


def zoomed(page, selector, turns):
    """Shows the whole picture, and then turns the wheel over a thing; gives back where that is."""
    pane = page.run(f"document.querySelector({json.dumps(selector)}).closest('.pane').querySelector('svg').id")
    page.click(f'.pane:has(#{pane}) [data-zoom="whole"]')
    page.run(f"document.getElementById('{pane}').scrollIntoView({{block: 'center'}})")
    for _ in range(abs(turns)):
        x, y, *_ = where(page, selector)
        page.wheel(x, y, -100 if turns > 0 else 100, control=True)
        page.frames(2)
    return where(page, selector)


def told(page):
    return page.run("document.getElementById('told').innerText")


def cut(page):
    """The numbers of the cactus' edges that are shown as cut."""
    return page.run("Array.from(document.querySelectorAll('.edge.cut')).map((one) => Number(one.dataset.edge))")


@needs_browser
def test_each_thing_is_picked_at_three_zooms(opened):
    """A leaf is its bridge, a vertex its smallest cut, a link all that it is in; all by the mouse, and at most 6 pixels beside."""
    cuts = MinimumCuts(read_graph(EXAMPLES / 'network.graph'))
    page = opened(cuts)
    cactus = Program().cactus(cuts.graph)
    edges = cactus.edges()
    bridge = next(k for k, (i, j, _) in enumerate(edges) if cactus.nodes[j] == [11])
    leaf = edges[bridge][1]
    link = next(k for k, (i, j, _) in enumerate(cuts.graph.edges) if (i, j) == (8, 11))
    whole = next(k for k, (i, j, _) in enumerate(cuts.graph.edges) if (i, j) == (0, 1))
    for turns in ZOOMS:
        for beside in (-5.9, 0, 5.9):
            for what, words in ((f'[data-edge="{bridge}"]', 'Lighter side: 1 vertex: 12.'), (f'[data-node="{leaf}"]', 'The smallest cut with node'),
                                ('[data-vertex="11"]', 'The smallest cut with 12.'),
                                (f'[data-link="{link}"]', 'The link 9 – 12 (4) is in 1 minimum cut of 21.')):
                x, y, right, down = zoomed(page, what, turns)
                page.click_at(x + beside * right, y + beside * down)
                assert words in told(page) and cut(page) == [bridge] and coloured(page, 'vertex', 'side') == [11], (turns, beside, what)
        x, y, *_ = zoomed(page, f'[data-link="{whole}"]', turns)
        page.click_at(x, y)
        assert 'The link 1 – 2 (10) is in no minimum cut' in told(page) and cut(page) == []


@needs_browser
def test_run_between_two_nodes_at_three_zooms(opened):
    """Two nodes of a cycle are the run between them, and the second once more the other way round; two edges what lies between."""
    page = opened(found_in_ring(12))
    for turns in ZOOMS:
        for first, second, runs in ((2, 5, ([2, 3, 4, 5], [0, 1, 2, 5, 6, 7, 8, 9, 10, 11])), (4, 5, ([4, 5], [4, 5]))):
            page.press('Escape')
            for node, side in ((first, [first]), *((second, run) for run in runs)):
                x, y, *_ = zoomed(page, f'[data-node="{node}"]', turns)
                page.click_at(x, y)
                lighter = side if len(side) <= 6 else sorted(set(range(12)) - set(side))
                assert coloured(page, 'vertex', 'side') == lighter, (turns, node)
        page.press('Escape')
        for edge, words in ((3, 'Pick a second edge of cycle 0.'), (6, 'Lighter side: 3 vertices: v4, v5, v6.')):
            x, y, *_ = zoomed(page, f'[data-edge="{edge}"]', turns)
            page.click_at(x, y)
            assert words in told(page)


@needs_browser
def test_everything_in_crowded_pictures_is_picked(opened):
    """A cycle of 60 and a star of 40: each edge and each node, by the mouse at the middle of what is seen of it."""
    for found in (found_in_ring(60), found_in_star(40)):
        page = opened(found)
        page.size(1440, 1000)
        page.run("document.getElementById('cactus').scrollIntoView({block: 'center'})")
        for kind, count in (('edge', len(found.cactus.edges())), ('node', len(found.cactus.nodes))):
            for k in range(count):
                x, y, *_ = where(page, f'[data-{kind}="{k}"]')
                page.move_to(x, y)
                hovered = page.run("Array.from(document.querySelectorAll('.hover')).map((one) => [one.dataset.edge, one.dataset.node])")
                assert hovered == [[str(k), None] if kind == 'edge' else [None, str(k)]], (kind, k)
        name = page.run("document.getElementById('tip').innerText")
        assert name.startswith('node') and (name.endswith('v59') or name.endswith('leaf 39'))


@needs_browser
def test_one_cut_at_an_empty_node_of_two_cycles(opened):
    """Node 3 of the network has no vertices and lies in two cycles: the edges at it are one place, whichever cycle they are picked in."""
    cuts = MinimumCuts(read_graph(EXAMPLES / 'network.graph'))
    page = opened(cuts)
    edges = Program().cactus(cuts.graph).edges()
    for cycle in (0, 1):
        for k in [k for k, (i, j, block) in enumerate(edges) if block == ('cycle', cycle) and 3 in (i, j)]:
            page.click(f'[data-edge="{k}"] .hit')
        assert coloured(page, 'vertex', 'side') == [6, 7, 8, 9, 11] and page.run("document.querySelectorAll('tr.chosen').length") == 1


@needs_browser
def test_links_of_many_places(opened):
    page = opened(found_in_ring(12))
    page.click('[data-link="5"]')
    assert 'is in 11 minimum cuts of 66; this is number 1' in told(page)
    assert page.run("document.querySelectorAll('tr.place:not([hidden])').length") == 11
    first = coloured(page, 'vertex', 'side')
    page.run("Array.from(document.querySelectorAll('#told button')).find((one) => one.textContent === 'Next').id = 'next'")
    page.click('#next')
    assert 'this is number 2' in told(page) and coloured(page, 'vertex', 'side') != first
    assert page.run("document.querySelectorAll('.link.cut').length") == 2
    page.press('Escape')
    assert page.run("document.querySelectorAll('tr.place:not([hidden])').length") == 50


@needs_browser
def test_cut_links_are_boldest_and_have_weights(opened):
    page = opened(MinimumCuts(read_graph(EXAMPLES / 'network.graph')), unit='Gbit/s')
    page.run("document.querySelector('tr.place').click()")
    for turns in ('whole', 'in', 'in', 'out', 'out', 'out'):
        page.click(f'.pane [data-zoom="{turns}"]')
        page.frames()
        widths = page.run("""Array.from(document.querySelectorAll('.link .seen')).map((one) => [one.parentNode.classList.contains('cut'),
            parseFloat(getComputedStyle(one).strokeWidth), getComputedStyle(one).vectorEffect])""")
        bold, thin = [w for is_cut, w, _ in widths if is_cut], [w for is_cut, w, _ in widths if not is_cut]
        assert min(bold) > max(thin) and {effect for *_, effect in widths} == {'non-scaling-stroke'}
    page.click('.pane [data-zoom="whole"]')
    page.frames()
    labels = page.run("Array.from(document.querySelectorAll('#graph .weight.cut')).map((one) => [one.textContent, one.getBoundingClientRect().height])")
    assert len(labels) == len(bold) and all(text.endswith('Gbit/s') and height > 11 for text, height in labels)


@needs_browser
def test_names_of_a_large_cactus_do_not_overlap(opened):
    """A tree of 2,000 nodes: names have one size at each zoom, none lies on another, and those that are near are all shown."""
    choose = random.Random(7)
    tree = [(f'n{i}', f'n{choose.randrange(max(0, i - 40), i)}') for i in range(1, 2000)]
    page = opened(found_by_hand(tree, Cactus(1, [[f'n{i}'] for i in range(2000)], [(int(v[1:]), int(u[1:])) for u, v in tree], [])))
    page.run("document.getElementById('cactus').scrollIntoView({block: 'center'})")
    for turns in (0, 8, 14):
        zoomed(page, '[data-node="700"]', turns)
        page.frames()
        boxes = page.run("""Array.from(document.querySelectorAll('#cactus .overlay text')).filter((one) => !one.hasAttribute('transform'))
            .map((one) => one.getBoundingClientRect()).map((box) => [box.left, box.top, box.right, box.bottom])""")
        assert boxes and all(11 < bottom - top < 20 for _, top, _, bottom in boxes)
        meet = [(a, b) for k, a in enumerate(boxes) for b in boxes[:k]
                if min(a[2], b[2]) - max(a[0], b[0]) > 2 and min(a[3], b[3]) - max(a[1], b[1]) > 5]
        assert meet == []
    x, y, *_ = where(page, '[data-node="700"]')
    page.move_to(x, y)
    assert page.run("document.getElementById('tip').innerText").startswith('node 700: n')


@needs_browser
def test_drag_and_pinch(opened):
    page = opened(MinimumCuts(read_graph(EXAMPLES / 'network.graph')))
    view = "document.getElementById('graph').getAttribute('viewBox').split(' ').map(Number)"
    before = page.run(view)
    x, y = page.middle('#graph')
    page.drag((x, y), (x + 60, y + 30))
    after = page.run(view)
    assert after[0] < before[0] and after[1] < before[1] and after[2:] == before[2:] and 'No cut' in told(page)
    scroll = page.run('scrollY')
    page.wheel(x, y, 120)
    page.frames(8)
    assert page.run(view) == after and page.run('scrollY') >= scroll, 'the wheel alone scrolls the page'
    page.size(390, 844, phone=True)
    x, y = page.middle('#graph')
    before = page.run(view)
    page.fingers([(x - 20, y), (x + 20, y)], [(x - 40, y), (x + 40, y)], [(x - 80, y), (x + 80, y)])
    assert page.run(view)[2] < 0.5 * before[2], 'two fingers make the picture larger'


# Lists

def cells(page, table, column):
    return page.run(f"Array.from(document.querySelectorAll('#{table} tbody tr:not([hidden])')).map((row) => row.cells[{column}].textContent)")


@needs_browser
def test_sort_search_and_pages(opened):
    page = opened(found_in_ring(60))
    tools = '.list[data-list="places"]'
    assert len(cells(page, 'places', 0)) == 50 and page.run(f"document.querySelector('{tools} .shown').textContent") == '1–50 of 500'
    page.click(f'{tools} [data-turn="1"]')
    assert cells(page, 'places', 0)[0] == '51'
    for descending in (True, False):
        page.click('#places th:nth-child(2) button')
        found = list(map(int, cells(page, 'places', 1)))
        assert found == sorted(found, reverse=descending) and found[0] == (30 if descending else 22)
        assert page.run("document.querySelector('#places th:nth-child(2)').getAttribute('aria-sort')") == ('descending' if descending else 'ascending')
    page.click('#links th:nth-child(1) button')
    assert cells(page, 'links', 0)[:3] == ['v0', 'v0', 'v1'] and cells(page, 'links', 0)[11:13] == ['v10', 'v11']
    page.click('[data-list="nodes"] input')
    page.write('v17')
    assert cells(page, 'nodes', 2) == ['v17']
    page.click(f'{tools} input')
    page.write('v33')
    places = page.run(f"document.querySelector('{tools} .shown').textContent")
    assert places.startswith('1–50 of ') and 200 < int(places.split()[-1]) < 300, 'a vertex is found that is not among the first names'
    page.run("Array.from(document.querySelectorAll('tr.place:not([hidden])')).find((one) => !one.textContent.includes('v33')).click()")
    assert 33 in coloured(page, 'vertex', 'side')


@needs_browser
def test_save(opened, tmp_path):
    cuts = MinimumCuts([('Sion, gare', 'Bern', 3), ('Bern', 'Zürich', 5), ('Zürich', 'Sion, gare', 4)])
    page = opened(cuts, unit='Gbit/s')
    folder = tmp_path / 'saved'
    folder.mkdir()

    def saved(selector):
        path = page.saved(folder, lambda: page.click(selector))
        content = path.read_bytes()
        path.unlink()
        return path.name, content
    name, content = saved('[data-list="places"] [data-csv]')
    rows = list(csv.reader(content.decode('utf-8-sig').splitlines()))
    assert name == 'a-test-places.csv' and rows == [['place', 'balance', 'lighter side', 'from', 'to', 'weight'],
                                                    ['1', '1', 'Sion, gare', 'Sion, gare', 'Bern', '3'], ['1', '1', 'Sion, gare', 'Sion, gare', 'Zürich', '4']]
    rows = list(csv.reader(saved('[data-list="links"] [data-csv]')[1].decode('utf-8-sig').splitlines()))
    assert rows[0] == ['From', 'To', 'Weight', 'Minimum cuts'] and ['Sion, gare', 'Bern', '3', '1'] in rows
    page.media('', 'dark')
    for pane in ('graph', 'cactus'):
        name, content = saved(f'.pane:has(#{pane}) [data-save="svg"]')
        drawing = ElementTree.fromstring(content)
        assert name == f'a-test-{pane}.svg' and drawing.tag.endswith('}svg') and b'prefers-color-scheme' not in content and b'var(' not in content
        name, content = saved(f'.pane:has(#{pane}) [data-save="png"]')
        assert content.startswith(b'\x89PNG') and int.from_bytes(content[16:20], 'big') > 900
    assert len(content) > 5000, 'the picture is empty'


# Colours, phones, paper

@needs_browser
def test_dark_colours(opened):
    page = opened(MinimumCuts(read_graph(EXAMPLES / 'network.graph')))

    def light(what, style):
        red, green, blue = map(int, re.findall(r'\d+', page.run(f"getComputedStyle(document.querySelector('{what}')).{style}"))[:3])
        return (0.3 * red + 0.6 * green + 0.1 * blue) / 255
    for scheme, bright in (('light', True), ('dark', False)):
        page.media('', scheme)
        for ground in ('body', '.scroll th', 'button', 'input'):
            assert (light(ground, 'backgroundColor') > 0.6) == bright, (scheme, ground)
        for ink in ('body', 'th', 'button', 'input'):
            assert (light(ink, 'color') < 0.5) == bright, (scheme, ink)
        assert abs(light('#graph .link .seen', 'stroke') - light('body', 'backgroundColor')) > 0.2
        assert light('.node .inside', 'fill') < 0.3, 'names in boxes are dark on light'


@needs_browser
def test_phone(opened, tmp_path):
    page = opened(MinimumCuts([(f'a rather long name of a site {i}', f'a rather long name of a site {(i + 1) % 9}', 100) for i in range(9)]), unit='Gbit/s')
    page.size(390, 844, phone=True)
    assert page.run('document.documentElement.scrollWidth') == 390
    wide = page.run("""Array.from(document.body.querySelectorAll('*')).filter((one) => one.getBoundingClientRect().right > 391 && !one.closest('.scroll, svg'))
        .map((one) => one.outerHTML.slice(0, 80))""")
    assert wide == []
    page.run("document.getElementById('graph').scrollIntoView({block: 'center'})")
    page.frames()
    x, y, *_ = where(page, '[data-vertex="4"]')
    page.tap(x + 8, y)
    page.frames()
    assert 'The smallest cut with a rather long name of a site 4.' in told(page)


@needs_browser
def test_print(opened, tmp_path):
    page = opened(MinimumCuts(read_graph(EXAMPLES / 'network.graph')))
    page.run("document.querySelector('tr.place').click()")
    page.media('print')
    shown = "Array.from(document.querySelectorAll('%s')).filter((one) => one.getClientRects().length > 0).length"
    assert page.run(shown % '.legend .key') == 6 and page.run(shown % '#told.picked') == 1
    assert [page.run(shown % what) for what in ('.tools', '.zoom', '.how', '#what-if')] == [0, 0, 0, 0]
    page.media()
    page.print(tmp_path / 'page.pdf')
    assert (tmp_path / 'page.pdf').read_bytes().startswith(b'%PDF')


# The keyboard

@needs_browser
def test_all_by_the_keyboard(opened):
    """Tab goes from list to list and picture to picture, arrows within these, Enter picks, Escape clears; what has the focus is seen."""
    page = opened(MinimumCuts(read_graph(EXAMPLES / 'network.graph')))
    stops = []
    at = "(() => { const one = document.activeElement; return one.closest('tr, .vertex, .link, .node, .edge')?.getAttribute('class') ?? one.tagName; })()"
    for _ in range(80):
        page.press('Tab')
        stops.append(page.run(at))
        if stops[-1] == 'BODY':
            break
        if 'vertex' in stops[-1]:
            page.press('ArrowRight')
            page.press('ArrowRight')
            assert page.run('document.activeElement.dataset.vertex') == '2'
            assert page.run("getComputedStyle(document.activeElement.querySelector('circle')).strokeWidth") == '5px'
            page.press('Enter')
            assert 'The smallest cut with 3.' in told(page) and page.run('document.activeElement.dataset.vertex') == '2'
            page.press('Escape')
            assert 'No cut' in told(page)
        if 'edge' in stops[-1]:
            page.press('Enter')
            assert cut(page) or 'second edge' in told(page)
            page.press('End')
        if stops[-1] == 'place':
            page.press('ArrowDown')
            page.press(' ')
            assert page.run("document.querySelector('tr.chosen').cells[0].textContent") == '2'
    kinds = [stop.split()[0] for stop in stops]
    assert len(stops) < 70 and all(kind in kinds for kind in ('vertex', 'link', 'node', 'edge', 'place', 'pick', 'BUTTON', 'INPUT'))
    assert [kinds.count(kind) for kind in ('vertex', 'link', 'node', 'edge', 'place')] == [1] * 5, 'one stop for each kind'


# Components, levels, changes

@needs_browser
def test_components(opened):
    page = opened(MinimumCuts([('a', 'b'), ('b', 'c'), ('c', 'a'), ('x', 'y')]))
    page.click('[data-pick="component 1"]')
    assert coloured(page, 'vertex', 'side') == [3, 4] and 'One component: 2 vertices: x, y.' in told(page)
    x, y, *_ = where(page, '[data-vertex="1"]')
    page.run("document.getElementById('graph').scrollIntoView({block: 'center'})")
    x, y, *_ = where(page, '[data-vertex="1"]')
    page.click_at(x, y)
    assert coloured(page, 'vertex', 'side') == [0, 1, 2]


@needs_browser
def test_levels_and_changes(opened):
    ring_and_stub = [(i, (i + 1) % 4, 2) for i in range(4)] + [(3, 'stub', 1)]
    levels = [{'above': None, 'value': 1, 'vertices': [0, 1, 2, 3, 'stub'], 'alone': ['stub'], 'links': [{'from': 3, 'to': 'stub', 'weight': 1}]},
              {'above': 0, 'value': 4, 'vertices': [0, 1, 2, 3], 'alone': [0, 1, 2, 3]}]
    changes = [{'remove': [[0, 1]], 'value': 1, 'places': 1}, {'remove': [[0, 1]], 'add': [['stub', 0, 3]], 'value': 2, 'places': 4}]
    page = opened(MinimumCuts(ring_and_stub), levels=levels, what_if=changes, source='my links.csv')
    rows = "document.querySelectorAll('#levels tbody tr:not([hidden])').length"
    assert page.run(rows) == 7
    page.click('[data-fold="1"]')
    assert page.run(rows) == 3
    page.click('[data-pick="level 1"] td:last-child')
    assert coloured(page, 'vertex', 'side') == [0, 1, 2, 3] and 'own value is 4' in told(page)
    page.click('[data-link="0"]')
    page.run("Array.from(document.querySelectorAll('#told button')).find((one) => one.textContent === 'Mark as failed').id = 'fail'")
    page.click('#fail')
    said = "document.getElementById('changed').innerText"
    assert page.run(said) == 'With these changes the value is 1, with 1 minimum cut; it was 1.'
    assert page.run("document.querySelectorAll('.link.failed').length") == 1
    for name, text in (('from', '0'), ('to', 'stub'), ('weight', '3')):
        page.run(f"document.querySelector('#what-if [name={name}]').value = ''")
        page.click(f'#what-if [name={name}]')
        page.write(text)
    page.click('[data-change="add"]')
    assert page.run(said) == 'With these changes the value is 2, with 4 minimum cuts; it was 1.'
    page.click('#changes button')
    assert page.run(said).endswith("mincut-graph what-if 'my links.csv' --add 0,stub,3")


@needs_program
@needs_browser
def test_large_in_chromium(opened):
    for edges in (ring(300), ring_of_rings(37, 8)):
        cuts = MinimumCuts(edges)
        page = opened(cuts)
        page.run("document.querySelector('tr.place').click()")
        side = coloured(page, 'vertex', 'side')
        assert len(side) == cuts.balanced()[0] and page.run("document.querySelectorAll('.link.cut').length") == cuts.value()
        assert len(coloured(page, 'node', 'side')) + len(coloured(page, 'node', 'rest')) == len(cuts.cactus().nodes)
