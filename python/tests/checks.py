"""The package tools/checks under its own name, for the tests of this folder."""
from pathlib import Path

__path__ = [str(Path(__file__).resolve().parent.parent.parent / 'tools' / 'checks')]
