"""The links of a cut, the tables by site and by link, and components."""
import csv
import io
import json
import random

import pytest
from by_hand import cactus_of
from checks import graphs
from checks.cuts_by_hand import minimum_cuts

from mincut_graph import Disconnected, MinimumCuts, UnknownName
from mincut_graph.ranges import Ranges

LINKS = 'from,to,gbits\nParis,Lyon,10\nLyon,Nice,10\nNice,Paris,10\nNice,Genoa,20\nGenoa,Milan,20\n'


@pytest.fixture
def links(write):
    return write('links.csv', LINKS)


def connected(count, most=9):
    for seed in range(count):
        _, (n, edges) = graphs.random_graph(random.Random(seed), most)
        if n > 1 and len(graphs.components_of((n, edges))) == 1:
            yield seed, n, MinimumCuts([(u - 1, v - 1, w) for u, v, w in edges], library=False)


# Cuts from the cactus, without another solution

def sides_of(graph):
    """The sides without place 0 of all minimum cuts, by trying all."""
    n, whole = len(graph.names), set(range(len(graph.names)))
    _, sides = minimum_cuts((n, [(i + 1, j + 1, w) for i, j, w in graph.edges]))
    return sorted(sorted(whole - {v - 1 for v in side} if 1 in side else [v - 1 for v in side]) for side in sides)


def test_ranges_are_all_cuts():
    for seed, n, cuts in connected(400):
        rng, graph, sides = random.Random(seed), cuts.graph, sides_of(cuts.graph)
        masses = [rng.randint(0, 3) for _ in range(n)]
        ranges = Ranges(cactus_of(graph), masses)
        balance = [min(mass, sum(masses) - mass) for mass in (sum(masses[v] for v in side) for side in sides)]
        assert sorted(map(ranges.side, ranges.all())) == sides
        assert ranges.balance(ranges.best()) == max(balance)
        for least in range(sum(masses) // 2 + 2):
            assert sorted(map(ranges.side, ranges.balanced(least))) == [side for side, mass in zip(sides, balance) if mass >= least]
        for u in range(n):
            v = rng.randrange(n)
            parting = [side for side in sides if (u in side) != (v in side)] if u != v else []
            assert sorted(map(ranges.side, ranges.parting(u, v))) == parting and ranges.parting_count(u, v) == len(parting)


def test_lighter_counts():
    for seed, n, cuts in connected(400):
        rng = random.Random(seed)
        masses = [rng.randint(0, 3) for _ in range(n)]
        counts = [0] * n
        for side in sides_of(cuts.graph):
            mass = sum(masses[v] for v in side)
            for v in side if 2 * mass <= sum(masses) else set(range(n)) - set(side):
                counts[v] += 1
        assert Ranges(cactus_of(cuts.graph), masses).lighter_counts() == counts


def test_large_ring():
    """A ring of 3,000 vertices has four million cuts, and the tables go through none of them."""
    from mincut_graph.cactus import Cactus
    n = 3000
    ranges = Ranges(Cactus(2, [[v] for v in range(n)], [], [list(range(n))]))
    assert ranges.parting_count(0, n // 2) == (n // 2) ** 2 and ranges.balance(ranges.best()) == n // 2
    counts = ranges.lighter_counts()
    assert sum(counts) == sum(min(q - p, n - q + p) for p in range(n) for q in range(p + 1, n))


# Links of a cut

def test_links_of_a_side():
    cuts = MinimumCuts([('Paris', 'Lyon', 10), ('Lyon', 'Nice', 20), ('Nice', 'Paris', 10), ('Nice', 'Nice', 4)])
    assert cuts.links(['Nice', 'Lyon']) == [('Lyon', 'Paris', 10), ('Nice', 'Paris', 10)]
    assert cuts.links(['Paris']) == [('Paris', 'Lyon', 10), ('Paris', 'Nice', 10)]
    assert cuts.links([]) == cuts.links(cuts.names) == []
    source, target, weight = cuts.links(['Paris'])[0]
    assert (source, target, weight) == ('Paris', 'Lyon', 10)
    with pytest.raises(UnknownName, match="no vertex 'Rome'"):
        cuts.links(['Rome'])


def test_links_add_up_to_the_value():
    for _, n, cuts in connected(60):
        value, sides = minimum_cuts((n, [(i + 1, j + 1, w) for i, j, w in cuts.graph.edges]))
        for side in sides:
            inside = {cuts.names[v - 1] for v in side}
            links = cuts.links(inside)
            assert sum(link.weight for link in links) == value and links == sorted(links, key=lambda link: (cuts.place[link[0]], cuts.place[link[1]]))
            assert all((link.source in inside) and link.target not in inside for link in links)


def test_links_of_the_command(call, links):
    words = [links, '--weight', 'gbits', '-q']
    assert call('cuts', *words, '--links')[1].startswith('value 20\ncuts 5\nLyon\n  link: Lyon - Paris 10\n  link: Lyon - Nice 10\nLyon, Nice')
    rows = list(csv.reader(io.StringIO(call('cuts', *words, '--links', '--as', 'csv')[1])))
    assert rows[:3] == [['cut', 'from', 'to', 'weight'], ['1', 'Lyon', 'Paris', '10'], ['1', 'Lyon', 'Nice', '10']] and len(rows) == 9
    data = json.loads(call('part', links, 'Paris', 'Milan', '--weight', 'gbits', '-q', '--as', 'json')[1])
    assert len(data['links']) == len(data['cuts']) == 4
    assert data['links'][3] == [{'from': 'Milan', 'to': 'Genoa', 'weight': 20}]
    data = json.loads(call('balanced', *words, '--as', 'json')[1])
    assert sum(link['weight'] for link in data['links']) == 20
    assert call('balanced', *words, '--links', '--as', 'csv')[1].startswith('cut,from,to,weight\n1,')


# Tables

def test_sites_and_links(call, links):
    words = [links, '--weight', 'gbits', '-q']
    cuts = MinimumCuts([('Paris', 'Lyon', 10), ('Lyon', 'Nice', 10), ('Nice', 'Paris', 10), ('Nice', 'Genoa', 20), ('Genoa', 'Milan', 20)])
    assert cuts.sites() == [('Paris', 2, 20, 2, 20), ('Lyon', 2, 20, 2, 20), ('Nice', 3, 40, 0, 20), ('Genoa', 2, 40, 1, 20),
                            ('Milan', 1, 20, 2, 20)]
    assert [site.level for site in cuts.sites(levels=False)] == [None] * 5
    assert cuts.cut_links()[0] == ('Paris', 'Lyon', 10, 2) and [link.places for link in cuts.cut_links()] == [2, 2, 2, 1, 1]
    assert call('sites', *words)[1].splitlines()[:4] == ['value 20', 'count 5', 'site   degree  capacity  places  level',
                                                         'Paris  2       20        2       20']
    assert call('sites', *words, '--no-levels', '--as', 'csv')[1].splitlines()[1] == 'Paris,2,20,2,'
    assert json.loads(call('sites', *words, '--as', 'json')[1])['sites'][0] == {'name': 'Paris', 'degree': 2, 'capacity': 20, 'places': 2,
                                                                               'level': 20}
    assert call('links', *words, '--as', 'csv')[1].splitlines()[:2] == ['from,to,weight,places', 'Paris,Lyon,10,2']
    assert json.loads(call('links', *words, '--as', 'json')[1])['links'][4] == {'from': 'Genoa', 'to': 'Milan', 'weight': 20, 'places': 1}


def test_levels_of_the_command(call, links):
    words = [links, '--weight', 'gbits']
    status, out, err = call('levels', *words, '--without-stubs')
    assert status == 0 and out == ('stub: Milan - Genoa 20\nstub: Genoa - Nice 20\npart 0: 3 vertices, value 20\n'
                                   '  links: Paris - Lyon 10, Paris - Nice 10, Lyon - Nice 10\n  alone: Paris, Lyon, Nice\n')
    assert '2 vertices that hang on one link taken off first: Milan, Genoa' in err
    assert call('levels', *words, '-q', '--up-to', '20')[1].endswith('sets of value 20 or more 1\nset: Paris, Lyon, Nice, Genoa, Milan\n')
    data = json.loads(call('levels', *words, '-q', '--as', 'json')[1])
    assert (data['value'], len(data['parts']), data['stubs']) == (20, 1, [])
    assert call('levels', *words, '-q', '--as', 'csv', '--links')[1].startswith('part,from,to,weight\n0,Paris,Lyon,10\n')
    assert call('levels', *words, '-q', '--as', 'csv')[1].startswith('part,above,value,vertex\n0,,20,Paris\n')


# Components

def test_components(call, write):
    cuts = MinimumCuts([('a', 'b'), ('x', 'y'), ('b', 'c')])
    assert cuts.components() == [['a', 'b', 'c'], ['x', 'y']]
    path = write('apart.txt', 'a b\nb c\nx y\n')
    status, out, err = call('value', path)
    assert (status, out) == (0, 'value 0\n') and 'the graph has 2 components, of 3 and 2 vertices; the smaller: x, y\n' in err
    assert json.loads(call('value', path, '-q', '--as', 'json')[1])['components'] == {'count': 2, 'sizes': [3, 2], 'smaller': [['x', 'y']]}
    assert json.loads(call('cuts', path, '-q', '--as', 'json')[1])['links'] == [[]]
    status, out, err = call('sites', path)
    assert (status, out) == (12, '') and 'the smaller: x, y' in err and '--largest' in err
    with pytest.raises(Disconnected):
        cuts.cut_links()
    three = write('three.txt', 'a b\nx y\np q\nb c\n')
    assert 'has 3 components, of 3, 2 and 2 vertices; the smaller: (x, y), (p, q)\n' in call('count', three)[2]
