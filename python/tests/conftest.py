"""What the tests share. The program is the one that the variable MINCUT names, or the one that the repository has built; where neither is
there, tools/plain_mincut.py stands in, which has the same texts and takes graphs of up to 16 vertices. The library is likewise that of
MINCUT_LIBRARY, or of the repository. The search through all cuts is that of tools/checks."""
import os
import random
from pathlib import Path

import pytest
from checks import graphs
from checks.cuts_by_hand import minimum_cuts
from mincut_graph.command import main

TOP = Path(__file__).resolve().parent.parent.parent
EXAMPLES = TOP / 'examples'
BUILT = TOP / 'crates' / 'mincut' / 'out' / 'mincut'
os.environ.setdefault('MINCUT', str(BUILT if BUILT.exists() else TOP / 'tools' / 'plain_mincut.py'))
LIBRARY = Path(os.environ.pop('MINCUT_LIBRARY', TOP / 'out' / 'libmincut.so'))
FULL = 'plain_mincut' not in os.environ['MINCUT']
# A process that was started in the background may ignore interrupts, and hands that on.
TAKES_INTERRUPTS = 'import signal\nsignal.signal(signal.SIGINT, signal.default_int_handler)\n'
needs_program = pytest.mark.skipif(not FULL, reason='the program is not built; tools/plain_mincut.py takes 16 vertices at most')


@pytest.fixture
def write(tmp_path):
    """Writes a text into a file of this name and gives back its path."""
    def written(name, text):
        path = tmp_path / name
        path.write_text(text, 'utf-8')
        return str(path)
    return written


@pytest.fixture
def call(capsys):
    """(status, standard output, standard error) of the command for these words."""
    def called(*words):
        try:
            status = main([str(word) for word in words])
        except SystemExit as leaving:
            status = leaving.code
        return status, *capsys.readouterr()
    return called


def random_graphs(count, most=8):
    """(n, edges) of some small connected graphs, and all sides of their minimum cuts by trying all; few where the program is not there."""
    count = count if FULL else 5
    for seed in range(count):
        _, (n, edges) = graphs.random_graph(random.Random(seed), most)
        if n > 1 and len(graphs.components_of((n, edges))) == 1:
            yield n, edges, *minimum_cuts((n, edges))
