"""Files of other programs, as raw graphs."""
from .files import FORMATS, read_graph
from .options import ReadOptions

__all__ = ['FORMATS', 'ReadOptions', 'read_graph']
