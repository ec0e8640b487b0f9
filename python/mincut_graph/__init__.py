"""All minimum cuts of a weighted undirected graph, by the proved program `mincut`; the standard library alone.

    from mincut_graph import MinimumCuts
    cuts = MinimumCuts([('a', 'b'), ('b', 'c'), ('c', 'd'), ('d', 'a', 1)])
    cuts.value()                        # 2
    cuts.sides()                        # for each minimum cut the side without the first vertex
    cuts.sides(parting=('b', 'd'))      # of those that separate two vertices
    cuts.cactus().cycles                # [[0, 1, 2, 3]]

`MinimumCuts` takes graphs of networkx and igraph, sparse arrays of scipy and lists of edges; `read_graph` reads files. Vertices keep
their names. The command `mincut-graph`, or `python3 -m mincut_graph`, does the same for files.
"""
from .cactus import Cactus
from .cuts import MinimumCuts
from .errors import (BadInput, BadVertex, BadWords, Disconnected, Failed, MincutError, NoCut, NoProgram, OutOfMemory, Refused, StreamFailed,
                     TimedOut, TooLarge, UnknownName)
from .graph import Graph, RawGraph
from .levels import Levels, Part
from .readers import read_graph
from .results import (Augmentation, Balanced, Choice, Comparison, Cut, CutLink, Failure, Growth, LightCut, Link, NewLinks, Site, State, Step)

__version__ = '0.4.0'
__all__ = ['Augmentation', 'BadInput', 'BadVertex', 'BadWords', 'Balanced', 'Cactus', 'Choice', 'Comparison', 'Cut', 'CutLink', 'Disconnected',
           'Failed', 'Failure', 'Graph', 'Growth', 'Levels', 'LightCut', 'Link', 'MinimumCuts', 'MincutError', 'NewLinks', 'NoCut', 'NoProgram',
           'OutOfMemory', 'Part', 'RawGraph', 'Refused', 'Site', 'State', 'Step', 'StreamFailed', 'TimedOut', 'TooLarge', 'UnknownName',
           'read_graph']
