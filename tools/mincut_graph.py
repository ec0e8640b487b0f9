"""The old place of `mincut_graph`, kept for one release: the package is in python/, see python/README.md.

Where this folder is on the path of modules, `from mincut_graph import MinimumCuts` still works; `pip install ./python` is the way from
now on.
"""
import importlib.util
import sys
from pathlib import Path

_package = Path(__file__).resolve().parent.parent / 'python' / 'mincut_graph'


def _hand_over():
    """Puts the package in the place of this file, so that both names are one module."""
    spec = importlib.util.spec_from_file_location(__name__, _package / '__init__.py', submodule_search_locations=[str(_package)])
    sys.modules[__name__] = importlib.util.module_from_spec(spec)
    spec.loader.exec_module(sys.modules[__name__])


if __name__ == 'mincut_graph':
    _hand_over()
