"""The minimum cuts after each single link fails."""
from __future__ import annotations

import os
from collections.abc import Callable
from typing import Optional

from .deadline import Deadline
from .graph import Graph
from .program import Program

Progress = Callable[[int, int], None]
Found = tuple[int, int, int, int, int]


class Texts:
    """The METIS texts of a graph without one of its links each; all but two rows are made once."""

    def __init__(self, graph: Graph):
        self.near: list[dict[int, int]] = [{} for _ in graph.names]
        for i, j, w in graph.edges:
            self.near[i][j] = self.near[j][i] = w
        self.rows = [self.row(i) for i in range(len(self.near))]
        self.header = f'{len(self.rows)} {len(graph.edges) - 1} 001'

    def row(self, i: int, without: int = -1) -> str:
        return ' '.join(f'{j + 1} {w}' for j, w in sorted(self.near[i].items()) if j != without)

    def without(self, i: int, j: int) -> str:
        """The text of the graph without the link of these places."""
        rows = self.rows.copy()
        rows[i], rows[j] = self.row(i, j), self.row(j, i)
        return '\n'.join([self.header, *rows, ''])


def failures_of(graph: Graph, program: Program, processes: Optional[int], progress: Optional[Progress], deadline: Deadline) -> list[Found]:
    """(i, j, weight, value, count) for each link: value and count of the graph without it, the lowest value first, of several the
    greatest count. Threads wait for as many runs of the program as there are to be at once; an interrupt, or a fault of one, ends them."""
    from concurrent.futures import ThreadPoolExecutor, as_completed, wait      # takes long, and no other job needs it
    texts, edges = Texts(graph), list(graph.edges)

    def after(number: int) -> Found:
        i, j, w = edges[number]
        lines = program.run(['count'], texts.without(i, j), deadline.left())
        return i, j, w, int(lines[0][1]), int(lines[1][1])

    found: dict[int, Found] = {}
    if edges:
        # alone, since the first run may have to build the program
        found[0] = after(0)
    with ThreadPoolExecutor(max_workers=processes or processors()) as pool:
        waiting = {pool.submit(after, number): number for number in range(1, len(edges))}
        try:
            for future in as_completed(waiting):
                found[waiting[future]] = future.result()
                if progress is not None:
                    progress(len(found), len(edges))
        except BaseException:
            pool.shutdown(wait=False, cancel_futures=True)
            while not all(future.done() for future in waiting):
                program.stop()         # again, since one may just have begun
                wait(waiting, 0.05)
            raise
    return sorted((found[number] for number in range(len(edges))), key=lambda one: (one[3], -one[4]))


def processors() -> int:
    """The number of processors that this process may use."""
    return len(os.sched_getaffinity(0)) if hasattr(os, 'sched_getaffinity') else os.cpu_count() or 1
