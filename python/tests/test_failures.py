"""Each single link fails; and sentences in the place of the program's usage line."""
import json
import os
import random
import signal
import subprocess
import sys
import time

import pytest
from by_hand import checked_form
from checks.cuts_by_hand import minimum_cuts
from conftest import TAKES_INTERRUPTS

from mincut_graph import BadVertex, BadWords, MinimumCuts, NoProgram, TimedOut, UnknownName
from mincut_graph.changes import changed
from mincut_graph.command import main
from mincut_graph.failures import Texts, processors

RING = [('a', 'b'), ('b', 'c'), ('c', 'd'), ('d', 'a'), ('d', 'far', 2)]


def test_failures():
    cuts = MinimumCuts(RING)
    seen = []
    found = cuts.failures(processes=2, progress=lambda done, count: seen.append((done, count)))
    assert found[0] == ('d', 'far', 2, 0, 1) and {failure[2:] for failure in found[1:]} == {(1, 1, 3)} and len(found) == 5
    assert seen == [(done, 5) for done in range(2, 6)]
    assert MinimumCuts([('a', 'b')]).failures() == [('a', 'b', 1, 0, 1)]


def test_failures_are_those_of_the_graph_without_the_link():
    rng = random.Random(4)
    edges = [(i, j, rng.randint(1, 3)) for j in range(6) for i in range(j) if rng.random() < 0.6]
    cuts = MinimumCuts(edges, mass=lambda v: v + 1)
    found = cuts.failures()
    for u, v, w, value, count in found:
        without = changed(cuts.graph, removed=[(cuts.place[u] - 1, cuts.place[v] - 1)])
        wanted, sides = minimum_cuts(checked_form(without))
        assert (value, count) == (wanted, len(sides))
    assert [failure.value for failure in found] == sorted(failure.value for failure in found) and len(found) == len(cuts.graph.edges)


def test_texts_without_a_link():
    cuts = MinimumCuts([('a', 'b', 3), ('b', 'c'), ('c', 'a', 5)])
    texts = Texts(cuts.graph)
    for i, j, _ in cuts.graph.edges:
        wanted = changed(cuts.graph, removed=[(i, j)]).metis_text()
        assert texts.without(i, j) == (wanted.decode() if isinstance(wanted, bytes) else wanted)


def test_as_many_runs_as_links(write):
    program = write('counted', f'#!/bin/sh\necho "$1" >> "$0.words"\nexec {os.environ["MINCUT"]} "$@"\n')
    os.chmod(program, 0o755)
    MinimumCuts(RING, program=program).failures()
    with open(program + '.words') as words:
        assert words.read().split() == ['count'] * 5


def test_no_answer(write, tmp_path):
    program = write('slow', '#!/bin/sh\nexec sleep 60\n')
    os.chmod(program, 0o755)
    with pytest.raises(TimedOut):
        MinimumCuts(RING, program=program).failures(time_limit=0.4)
    late = write('late', f'#!/bin/sh\n[ -e "$0.once" ] && exec sleep 60\ntouch "$0.once"\nexec {os.environ["MINCUT"]} "$@"\n')
    os.chmod(late, 0o755)
    with pytest.raises(TimedOut, match='within 3 seconds'):
        MinimumCuts(RING, program=late, time_limit=3).failures()
    with pytest.raises(NoProgram):
        MinimumCuts(RING, program=str(tmp_path / 'nothing')).failures()
    assert processors() >= 1


def test_interrupt_leaves_nothing_behind(write):
    program = write('late', f'#!/bin/sh\n[ -e "$0.once" ] || {{ touch "$0.once"; exec {os.environ["MINCUT"]} "$@"; }}\necho $$ >> "$0.pids"\nexec sleep 60\n')
    os.chmod(program, 0o755)
    code = f'{TAKES_INTERRUPTS}from mincut_graph import MinimumCuts\nMinimumCuts({RING!r}, program={program!r}).failures(processes=3)'
    child = subprocess.Popen([sys.executable, '-c', code], stderr=subprocess.PIPE, env={**os.environ, 'PYTHONPATH': os.pathsep.join(sys.path)})
    while not os.path.exists(program + '.pids') or len(open(program + '.pids').read().split()) < 3:
        time.sleep(0.05)
    child.send_signal(signal.SIGINT)
    _, err = child.communicate(timeout=50)
    assert b'KeyboardInterrupt' in err
    with open(program + '.pids') as numbers:
        for number in numbers.read().split():
            with pytest.raises(ProcessLookupError):
                os.kill(int(number), 0)


def test_failures_of_the_command(write, capsys):
    text = write('ring.csv', 'from,to,weight\n' + ''.join(f'{link[0]},{link[1]},{link[2] if len(link) > 2 else 1}\n' for link in RING))
    words = [text, '-q']
    assert main(['failures', *words]) == 0
    assert capsys.readouterr().out.splitlines()[:4] == ['value 2', 'count 7', 'from  to   weight  value  count', 'd     far  2       0      1']
    assert main(['failures', *words, '--as', 'json', '--processes', '1']) == 0
    data = json.loads(capsys.readouterr().out)
    assert data['failures'][0] == {'from': 'd', 'to': 'far', 'weight': 2, 'value': 0, 'count': 1} and data['value'] == 2
    assert main(['failures', *words, '--as', 'csv']) == 0
    assert capsys.readouterr().out.startswith('from,to,weight,value,count\nd,far,2,0,1\n')


# Words

@pytest.mark.parametrize('words, line', [
    ([], 'no job is named; it is one of value, count'), (['vlaue'], "no job 'vlaue'; it is one of value"),
    (['my.graph'], 'my.graph looks like a file'), (['value', 'my.graph'], 'my.graph looks like a file'),
    (['value', '--wrokers', '2'], 'no option --wrokers; it has --workers N and --least W'), (['value', '--workers', '99'], '1 to 64'),
    (['value', '--workers'], "--workers wants a whole number, and has ''"), (['cuts', '--least=1', '--least', '2'], 'stands twice'),
    (['value', '--least', '2'], '--least goes with the job cuts, and not with value'), (['part', '2'], 'it takes two vertices, by their numbers'),
    (['part', 'a', 'b'], "'a' is no whole number"), (['grow', '1', '1', '1'], 'joins a vertex with itself'), (['grow', 1, 2, 0], '1 or more'),
    (['grow', '1', '2'], 'three numbers for each'), (['value', '3'], '1 further words for the job value; it takes none')])
def test_sentences_for_words(words, line):
    with pytest.raises(BadWords, match='') as caught:
        MinimumCuts(RING).run(*words)
    assert line in caught.value.line and caught.value.status == 2 and 'usage' not in caught.value.line


def test_a_misspelt_vertex():
    cuts = MinimumCuts([('Paris', 'Lyon'), (1, 2)])
    for vertex, line in (('Pariss', "no vertex 'Pariss'; is 'Paris' meant?"), ('Rome', "no vertex 'Rome'"), (3, 'no vertex 3'), ([], 'no vertex []')):
        with pytest.raises(UnknownName) as caught:
            cuts.number_of(vertex)
        assert str(caught.value) == f'the graph has {line}'


def test_sentences_for_vertices_and_workers():
    cuts = MinimumCuts(RING)
    with pytest.raises(BadVertex, match='no vertex 9; its vertices have the numbers 1 to 5'):
        cuts.run('part', 1, 9)
    assert cuts.run('part', 1, 2)[0] == ['value', '2'] and cuts.run('value', '--workers', 2) == [['value', '2']]
    for workers in (0, 65, 99, 'two'):
        with pytest.raises(BadWords, match='1 to 64'):
            MinimumCuts(RING, workers=workers)
    with pytest.raises(BadWords, match='insertion a - a joins a vertex with itself; name two vertices'):
        cuts.grow([('a', 'a', 1)])
    with pytest.raises(BadWords, match='one call takes 1 to 1,000'):
        cuts.grow([])


def test_sentences_of_the_command(write, capsys):
    path = write('ring.csv', 'from,to\na,b\nb,c\nc,a\n')
    for words, line in ((['grow', path, 'a', 'a', '1'], 'insertion a - a joins a vertex with itself'), ([path, 'value'], 'the job comes first'),
                        (['value', path, '--workers', '99'], '99 workers; it has to be 1 to 64'), (['value', path, '--wrokers', '2'], '--wrokers'),
                        (['grow', path, 'a', 'b', '0'], 'has weight 0; it has to be 1 or more')):
        try:
            status = main([*words, '-q'])
        except SystemExit as leaving:
            status = leaving.code
        out, err = capsys.readouterr()
        assert (status, out) == (2, '') and line in err and 'usage: mincut JOB' not in err, words
