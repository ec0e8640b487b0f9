"""The value by networkx: stoer_wagner. The graph comes on standard input, as METIS text."""
import sys
import time

import networkx

from checks import metis

n, edges = metis.read(sys.stdin.buffer.read(), trusted=True).graph
graph = networkx.Graph()
graph.add_nodes_from(range(1, n + 1))
graph.add_weighted_edges_from(edges)
start = time.process_time()
value, _ = networkx.stoer_wagner(graph)
print('value', value)
print(f'search {time.process_time() - start:.6f}', file=sys.stderr)
