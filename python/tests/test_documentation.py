"""What the documents and the docstrings say is run: the commands with their texts, the lines of Python with their comments, and the doctests."""
import doctest
import importlib
import inspect
import re
from pathlib import Path

import pytest

import mincut_graph
from mincut_graph import MinimumCuts
from mincut_graph.command import JOBS, main

README = Path(__file__).resolve().parent.parent / 'README.md'
PAGE = README.parent.parent / 'docs' / 'PYTHON.md'
MODULES = ['cuts', 'levels', 'results']


def blocks(page=README):
    """The blocks of indented lines of a page, without their indents."""
    found, block = [], []
    for line in [*page.read_text('utf-8').splitlines(), 'end']:
        if line.startswith('    ') or (not line and block):
            block.append(line[4:])
        elif block:
            found.append('\n'.join(block).strip() + '\n')
            block = []
    return found


@pytest.fixture
def in_folder(tmp_path, monkeypatch):
    """A folder with the table of README, as the current one."""
    table = next(block for block in blocks() if block.startswith('from,to,gbits'))
    (tmp_path / 'links.csv').write_text(table, 'utf-8')
    monkeypatch.chdir(tmp_path)
    return tmp_path


def test_commands(in_folder, capsys):
    """Each command of the walk prints what stands below it; the page is written."""
    commands = [block for block in blocks() if block.startswith('mincut-graph ') and 'links.csv' in block]
    assert len(commands) == 4
    for block in commands:
        command, _, wanted = block.partition('\n')
        assert main(command.split()[1:]) == 0
        out, err = capsys.readouterr()
        assert out == wanted.lstrip('\n') and 'gbits' in err, command
    assert '<html' in (in_folder / 'report.html').read_text('utf-8')


@pytest.mark.parametrize('page, comments', [(README, 3), (PAGE, 7)])
def test_lines_of_python(in_folder, page, comments):
    code = next(block for block in blocks(page) if block.startswith('from mincut_graph import'))
    room = {}
    for line in code.splitlines():
        statement, mark, comment = line.partition('  # ')
        if mark:
            assert repr(eval(statement, room)) == comment.strip(), line
        else:
            exec(line, room)
    assert len(re.findall('  # ', code)) == comments


def test_jobs_are_listed():
    text = PAGE.read_text('utf-8').partition('## Jobs')[2].partition('\n## ')[0]
    assert all(re.search(rf'^- .*`{job}\b', text, re.M) for job in JOBS)


@pytest.mark.parametrize('name', MODULES)
def test_examples(name):
    module = importlib.import_module(f'mincut_graph.{name}')
    assert doctest.testmod(module, extraglobs={'MinimumCuts': MinimumCuts}).failed == 0


def test_what_is_public_is_told():
    for name in mincut_graph.__all__:
        assert inspect.getdoc(getattr(mincut_graph, name)), name
    helpers = {'of', 'named', 'solved', 'ranges', 'limit', 'fastest', 'place'}
    for name, method in vars(MinimumCuts).items():
        if not name.startswith('_') and name not in helpers:
            assert '>>>' in (inspect.getdoc(method) or ''), f'{name} has no example'
