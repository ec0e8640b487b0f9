"""New links in real capacities, candidates, and what changes would do."""
import json
import random
from itertools import combinations

import pytest
from by_hand import cactus_of, value_of

from mincut_graph import BadInput, BadWords, MinimumCuts, Refused, UnknownName
from mincut_graph.capacity import chosen_candidates
from mincut_graph.changes import changed
from mincut_graph.command import main

LINKS = 'from,to,gbits\nParis,Lyon,10\nLyon,Nice,10\nNice,Paris,10\nNice,Genoa,20\nGenoa,Milan,20\n'
PLANS = 'from,to,capacity,cost\nParis,Milan,10,12.5\nGenoa,Lyon,10,8\n\nMilan,Nice,20,5\nParis,Genoa,,7\n'
RING = [('a', 'b', 10), ('b', 'c', 10), ('c', 'd', 10), ('d', 'a', 10)]


@pytest.fixture
def call(capsys, write):
    """(status, standard output, standard error) of the command for a job, the links and these words."""
    path = write('links.csv', LINKS)

    def called(job, *words):
        try:
            status = main([job, path, '--weight', 'gbits', *map(str, words)])
        except SystemExit as leaving:
            status = leaving.code
        return status, *capsys.readouterr()
    return called


def test_capacity_of_new_links():
    cuts = MinimumCuts(RING)
    found = cuts.new_links()
    assert found.links == [('a', 'c', 10), ('b', 'd', 10)] and (found.before, found.after) == (20, 30)
    assert cuts.new_links(3).after == 23 and len(cuts.new_links(3).sets) == 4
    # beyond what these links reach another cut is the least
    assert MinimumCuts([('a', 'b', 5), ('b', 'c', 7)]).new_links(100).after == 7
    for wrong in (0, -1, 2.5, 'ten'):
        with pytest.raises(BadInput):
            cuts.new_links(wrong)
    with pytest.raises(Refused, match='2\\^61'):
        cuts.new_links(1 << 61)


def test_augment_says_what_is_reached(call):
    status, out, err = call('augment')
    assert status == 0 and out.startswith('value 20\nedges 2\n')
    assert '2 new links of capacity 10 each raise the value from 20 to 30; this capacity is the least weight in the file' in err
    assert call('augment', '--capacity', 5, '-q')[1].endswith('2 new links of capacity 5 each raise the value from 20 to 25\n')
    data = json.loads(call('augment', '-q', '--as', 'json')[1])
    assert (data['capacity'], data['before'], data['after']) == (10, 20, 30)
    assert call('augment', '-q')[2] == ''
    assert call('augment', '--target', 30, '-q')[::2] == (1, 'mincut-graph: --target goes with --candidates FILE; the fewest new links raise '
                                                            'the value as far as their capacity lets them\n')


# Candidates

def random_plan(rng):
    n = rng.randint(3, 8)
    edges = [(rng.randrange(v), v, rng.randint(1, 3)) for v in range(1, n)] if rng.random() < 0.8 else [(0, 1, 1), (n - 1, n - 2, 2)]
    graph = MinimumCuts(edges + [(v, v) for v in range(n)], library=False).graph
    links = [(*rng.sample(range(n), 2), rng.randint(1, 4)) for _ in range(rng.randint(1, 7))]
    return graph, links, [rng.randint(0, 5) for _ in links]


def test_candidates_reach_the_target_and_none_can_be_left_out():
    rng, reached = random.Random(5), 0
    for _ in range(150):
        graph, links, costs = random_plan(rng)
        before, most = value_of(graph), value_of(changed(graph, links))
        target = before + rng.randint(0, 3)
        if most < target:
            with pytest.raises(BadInput, match=f'from {before} to {most}, and not to {target}'):
                chosen_candidates(graph, links, costs, target, cactus_of, value_of)
            continue
        found = chosen_candidates(graph, links, costs, target, cactus_of, value_of)
        reached += 1
        assert found.before == before and found.after == value_of(changed(graph, [links[k] for k in found.taken])) >= target
        assert found.cost == sum(costs[k] for k in found.taken) and len(set(found.taken)) == len(found.taken)
        for k in found.taken:
            assert value_of(changed(graph, [links[other] for other in found.taken if other != k])) < target
    assert reached > 50


def test_candidates_are_seldom_dear():
    """The set is a good one: over many small plans it costs at most a tenth more than the cheapest sets."""
    rng, mine, best = random.Random(6), 0, 0
    for _ in range(60):
        graph, links, _ = random_plan(rng)
        costs = [rng.randint(1, 9) for _ in links]
        target = value_of(changed(graph, links))
        mine += chosen_candidates(graph, links, costs, target, cactus_of, value_of).cost
        best += min(sum(costs[k] for k in chosen) for size in range(len(links) + 1) for chosen in combinations(range(len(links)), size)
                    if value_of(changed(graph, [links[k] for k in chosen])) >= target)
    assert best <= mine <= 1.1 * best


def test_candidates_by_names():
    cuts = MinimumCuts(RING)
    found = cuts.candidates([('a', 'b'), ('a', 'c'), ('b', 'd', 5), ('b', 'd')], target=30)
    assert found.links == [('a', 'c', 10), ('b', 'd', 10)] and found[1:] == (2, 20, 30, 30)
    assert cuts.candidates([], target=20).links == [] and cuts.candidates([('a', 'c', 1), ('b', 'd', 1)]).after == 21
    apart = MinimumCuts([('a', 'b'), ('c', 'd'), ('e', 'f')])
    assert apart.candidates([('a', 'b'), ('a', 'c'), ('b', 'c'), ('d', 'e')], costs=[0, 2, '1.5', 1]).cost == 2.5
    with pytest.raises(BadInput, match='give some that join e, f with the rest'):
        apart.candidates([('a', 'c')])
    with pytest.raises(UnknownName):
        cuts.candidates([('a', 'Rome')])
    for links, costs in (([('a',)], None), ([('a', 'c')], [1, 2]), ([('a', 'c')], [-1]), ([('a', 'c')], ['dear'])):
        with pytest.raises(BadInput):
            cuts.candidates(links, costs=costs)
    with pytest.raises(BadWords, match='candidate a - a joins a vertex with itself'):
        cuts.candidates([('a', 'a')])


def test_candidates_of_a_file(call, write):
    plans = write('plans.csv', PLANS)
    status, out, _ = call('augment', '--candidates', plans, '--target', 30, '-q')
    assert status == 0 and out == ('value 20\nlinks 3\nlink: Paris - Genoa 10\nlink: Milan - Nice 20\nlink: Genoa - Lyon 10\ncost 20\nthese links '
                                   'raise the value from 20 to 30; none can be left out, and that no cheaper set does it is not proved\n')
    assert 'not to 90; give some that join Lyon with the rest' in call('augment', '--candidates', plans, '--target', 90, '-q')[2]
    short = write('short.csv', 'from\tto\nMilan\tParis\nLyon\tMilan\n')
    assert json.loads(call('augment', '--candidates', short, '--target', 20, '-q', '--as', 'json')[1]) == {
        'value': 20, 'links': [], 'cost': 0, 'before': 20, 'after': 20, 'target': 20, 'least_proved': False}
    assert call('augment', '--candidates', short, '--target', 20, '-q')[1] == 'value 20\nlinks 0\nno link is needed: the value is 20 already\n'
    assert call('augment', '--candidates', short, '--as', 'csv', '-q')[1] == 'from,to,weight\nMilan,Paris,10\nLyon,Milan,10\n'


@pytest.mark.parametrize('text, line', [('', 'is empty'), ('from,to\n', 'has no link'), ('x,y,z\nParis,Milan,1\n', 'which columns are the ends'),
                                        ('sep=;\nsite_a;site_b\nParis;Rome\n', "no vertex 'Rome'"), ('from,to\nParis\n', 'line 2: an end or the cost'),
                                        ('from,to,cost\nParis,Milan,dear\n', 'the cost of candidate 1'),
                                        ('from,to,capacity\nParis,Milan,2.5\n', 'the weight of candidate 1 is 2.5')])
def test_bad_candidates(call, write, text, line):
    status, out, err = call('augment', '--candidates', write('plans.csv', text), '-q')
    assert status in (1, 7) and out == '' and line in err and err.count('\n') == 1
    assert 'cannot be read' in call('augment', '--candidates', '/nowhere', '-q')[2]


# What if

def test_what_if():
    cuts = MinimumCuts(RING)
    before, after = cuts.what_if(add=[('a', 'c', 10), ('a', 'b')], remove=[('c', 'd')])
    assert before == (20, 6, 2, ['b', 'c'], [('b', 'a', 10), ('c', 'd', 10)])
    assert (after.value, after.count, after.side) == (10, 1, ['d'])
    assert cuts.what_if(remove=[('b', 'a'), ('c', 'd')]).after[:3] == (0, 1, 2)
    assert len(cuts.graph.edges) == 4, 'the graph here stays as it is'
    with pytest.raises(UnknownName, match='no link a - c to take away'):
        cuts.what_if(remove=[('a', 'c')])
    with pytest.raises(UnknownName):
        cuts.what_if(add=[('a', 'x', 1)])


def test_what_if_of_the_command(call):
    status, out, _ = call('what-if', '--add', 'Paris,Milan,10', '--remove', 'Lyon,Nice', '-q')
    assert status == 0 and out == ('before: value 20, count 5, balance 2\n  side: Nice, Genoa, Milan\n  link: Nice - Paris 10\n  link: Nice - Lyon 10\n'
                                   'after: value 10, count 1, balance 1\n  side: Lyon\n  link: Lyon - Paris 10\n')
    data = json.loads(call('what-if', '--add', '"Paris", Milan, 10', '-q', '--as', 'json')[1])
    assert data['before']['value'] == 20 and data['after']['links'][0] == {'from': 'Lyon', 'to': 'Paris', 'weight': 10}
    assert data['what_if'] == [{'add': [['Paris', 'Milan', 10]], 'remove': [], 'value': 20, 'places': data['after']['count']}]
    assert call('what-if', '--remove', 'Paris,Lyon', '-q', '--as', 'csv')[1].startswith('when,value,count,balance,vertex\nbefore,20,5,2,Nice\n')
    for words, line in (([], 'nothing is to be changed'), (['--add', 'Paris,Rome,3'], "no vertex 'Rome'"), (['--add', 'Paris,Lyon'], 'not a link U,V,W'),
                        (['--remove', 'Paris,Milan'], 'no link Paris - Milan'), (['--add', 'Paris,Paris,1'], 'joins a vertex with itself'),
                        (['--add', 'Paris,Lyon,0'], 'weight 0')):
        status, out, err = call('what-if', *words, '-q')
        assert status and out == '' and line in err and err.count('\n') == 1, words
