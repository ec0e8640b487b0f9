"""The command, as a user calls it: texts, JSON, CSV, statuses and lines."""
import csv
import io
import json
import os
import subprocess
import sys

import pytest
from conftest import EXAMPLES, TOP

LINKS = 'from,to,capacity,km\nParis,Lyon,10,400\nLyon,Nice,20,300\nNice,Paris,10,700\nParis,Paris,1,1\nParis,Lyon,5,400\n'


@pytest.fixture
def links(write):
    return write('links.csv', LINKS)


def test_jobs_as_text(call, links):
    weight = ['--weight', 'capacity', '-q']
    assert call('value', links, *weight) == (0, 'value 25\n', '')
    assert call('count', links, *weight) == (0, 'value 25\ncount 1\n', '')
    assert call('cuts', links, *weight) == (0, 'value 25\ncuts 1\nLyon, Nice\n', '')
    assert call('part', links, 'Lyon', 'Nice', *weight) == (0, 'value 25\ncuts 0\n', '')
    assert call('balanced', links, *weight) == (0, 'value 25\nbalance 1\nside: Lyon, Nice\n', '')
    assert call('cactus', links, *weight)[1] == 'value 25\n2 nodes, 1 bridge, 0 cycles\nnode 0: Paris\nnode 1: Lyon, Nice\nbridge 0 - 1\n'
    assert call('augment', links, *weight)[1] == 'value 25\nedges 1\nedge: Paris - Lyon\nsets 2\nset: Paris\nset: Lyon, Nice\n'
    assert call('grow', links, 'Paris', 'Nice', '3', *weight)[1].startswith('step 1: value 28, count 1\n2 nodes')
    assert call('cuts', links, '--least', '2', *weight) == (0, 'value 25\ncuts 0\n', '')


def test_notes(call, links):
    _, _, err = call('value', links, '--unweighted')
    lines = err.splitlines()
    assert all(line.startswith('mincut-graph: ') for line in lines)
    assert [word in err for word in ("--weight takes one of: 'capacity', 'km'", '1 loop left out', '1 parallel edge added')] == [True] * 3


def test_json_and_csv(call, links, tmp_path):
    data = json.loads(call('cactus', links, '--weight', 'capacity', '--as', 'json')[1])
    assert data == {'value': 25, 'nodes': [['Paris'], ['Lyon', 'Nice']], 'bridges': [[0, 1]], 'cycles': []}
    rows = list(csv.reader(io.StringIO(call('cuts', links, '--weight', 'capacity', '--as', 'csv')[1])))
    assert rows == [['cut', 'vertex'], ['1', 'Lyon'], ['1', 'Nice']]
    for job, words in (('value', []), ('count', []), ('balanced', []), ('augment', []), ('grow', ['Paris', 'Nice', '1'])):
        table = list(csv.reader(io.StringIO(call(job, links, *words, '--as', 'csv')[1])))
        assert len({len(row) for row in table}) == 1 and len(table) > 1, job
        assert isinstance(json.loads(call(job, links, *words, '--as', 'json')[1]), dict), job
    path = tmp_path / 'answer.txt'
    assert call('value', links, '-q', '--unweighted', '-o', path) == (0, '', '') and path.read_text() == 'value 2\n'


def test_numbers_as_names(call):
    assert call('part', EXAMPLES / 'abilene.graph', '2', '9')[1].startswith('value 20\ncuts 7\n2\n2, 8\n')
    cities = call('part', EXAMPLES / 'abilene.graphml', 'Chicago', 'Seattle', '--weight', 'capacity')[1]
    assert cities.startswith('value 20\ncuts 7\nChicago\nChicago, New York\n')


BAD = [('a,b\nx,y\n', ['--weight', 'cost'], 7, "no column 'cost'; there are: a, b"),
       ('a,b,weight\nx,y,1.5\n', [], 1, 'multiply all by 2 (--scale 2'), ('a,b,weight\nx,y,-1\n', [], 1, 'has to be 0 or more'),
       ('a,b\nx,x\n', [], 12, 'one vertex|1 vertex, so there is no cut'), ('a,b,weight\nx,y,0\n', [], 1, 'no edge that counts'),
       ('', [], 1, 'is empty')]


@pytest.mark.parametrize('text, words, status, line', BAD)
def test_bad_files(call, write, text, words, status, line):
    found = call('cactus', write('bad.csv', text), '-q', *words)
    assert found[:2] == (status, '') and found[2].count('\n') == 1
    assert any(part in found[2] for part in line.split('|'))


def test_components(call, write):
    path = write('apart.txt', 'a b\nb c\nx y\n')
    assert call('value', path, '-q')[1] == 'value 0\n'
    status, out, err = call('cactus', path, '-q')
    assert (status, out) == (12, '') and '2 components' in err and '--largest' in err and err.count('\n') == 1
    assert call('cuts', path, '--largest', '-q')[1] == 'value 1\ncuts 2\nb, c\nc\n'


def test_words(call, links):
    assert call('value')[0] == 2 and call('tree', links)[0] == 2 and call('value', links, '--time-limit', '-1')[0] == 2
    assert call('part', links, 'Paris', 'Rome', '-q')[::2] == (7, "mincut-graph: the graph has no vertex 'Rome'\n")
    assert call('grow', links, 'Paris', 'Nice', '-q')[0] == 1
    assert call('value', 'none.csv')[::2] == (1, 'mincut-graph: none.csv: cannot be read (No such file or directory)\n')
    assert call('value', links, '-q', '--program', '/nowhere')[0] == 11
    assert call('value', links, '-q', '-o', '/nowhere/at/all')[0] == 4


def test_time_limit(call, links, write):
    program = write('slow', '#!/bin/sh\nexec sleep 60\n')
    os.chmod(program, 0o755)
    assert call('value', links, '-q', '--program', program, '--time-limit', '0.2')[::2] == (13, 'mincut-graph: no answer within 0.2 seconds\n')


def test_as_a_module():
    done = subprocess.run([sys.executable, '-m', 'mincut_graph', 'value', '-', '--read', 'edges'], input='a b 3\n', text=True, capture_output=True,
                          env={**os.environ, 'PYTHONPATH': os.pathsep.join(sys.path)})
    assert (done.returncode, done.stdout) == (0, 'value 3\n')
    closed = subprocess.run(f'{sys.executable} -m mincut_graph value - --read edges -q > /dev/full', shell=True, input='a b 3\n', text=True,
                            capture_output=True, env={**os.environ, 'PYTHONPATH': os.pathsep.join(sys.path)})
    assert closed.returncode == 4 and 'cannot be written' in closed.stderr


def test_the_old_place_still_imports():
    """tools/mincut_graph.py hands over to the package, for one release."""
    code = "import mincut_graph\nfrom mincut_graph import MinimumCuts, read_graph\nprint(MinimumCuts([('a', 'b', 3)]).value(), mincut_graph.__file__)"
    done = subprocess.run([sys.executable, '-c', code], cwd=TOP / 'tools', text=True, capture_output=True)
    assert done.stdout.startswith('3 ') and done.stdout.strip().endswith('mincut_graph/__init__.py'), done.stderr
