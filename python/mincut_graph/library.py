"""The shared library as a back end: the calls of mincut.h by ctypes, for the value, one cut, several light cuts, the count, the cactus, a most balanced cut,
lists of sides, and augmentations.

A call on a small graph without a time limit runs in this process, and an interrupt waits for its end, some milliseconds. All others run
in a process of their own, which is ended where the call is interrupted or its time is over.
"""
from __future__ import annotations

import ctypes
import os
import pickle
import select
import signal
from array import array
from collections.abc import Callable
from ctypes import POINTER, byref, c_size_t, c_uint8, c_uint32, c_uint64
from typing import Any, Optional, TypeVar

from .cactus import Cactus, canonical
from .errors import Disconnected, MincutError, NoCut, NoProgram, OutOfMemory, Refused, TimedOut, TooLarge
from .graph import Graph

T = TypeVar('T')
EDGES_IN_PROCESS = 20_000
FIRST_ROOM = 1 << 16                   # bytes for the rows of a first call, which tells how many sides there are
MOST_BOUND = (1 << 64) - 1             # above each value
MOST_COMPONENTS = 127                  # as in the program, whose count has 127 bits
INTERRUPTS = {signal.SIGINT, signal.SIGTERM}
NO_CUT, OUT_OF_MEMORY, DISCONNECTED, NO_ROOM, MASS_SUM, TOO_MANY_SIDES = 1, 2, 8, 9, 10, 11
FAULTS = {3: 'the arrays differ in length', 4: 'too many vertices', 5: 'too many edges', 6: 'an end of an edge is no vertex',
          7: 'the weights add up to more than 2^61', 9: 'an array is too short', 10: 'the masses add up to 2^64 or more'}


class Bridge(ctypes.Structure):
    _fields_ = [('upper', c_uint64), ('lower', c_uint64)]


class Sizes(ctypes.Structure):
    _fields_ = [('value', c_uint64), ('nodes', c_size_t), ('vertices', c_size_t), ('bridges', c_size_t), ('cycles', c_size_t),
                ('members', c_size_t)]


class Balance(ctypes.Structure):
    _fields_ = [('value', c_uint64), ('balance', c_uint64)]


class Listing(ctypes.Structure):
    _fields_ = [('value', c_uint64), ('sides', c_uint64)]


class Raise(ctypes.Structure):
    _fields_ = [('value', c_uint64), ('edges', c_size_t), ('sets', c_size_t)]


class Library:
    """Answers by the shared library; lists of vertices are lists of their places, counted from 0."""
    name = 'library'

    def __init__(self, path: str):
        """Raises NoProgram where the file is no such library."""
        graph: list[Any] = [c_uint32, c_size_t, POINTER(c_uint32), POINTER(c_uint32), POINTER(c_uint64)]
        try:
            loaded = ctypes.CDLL(path)
            loaded.mincut_value.argtypes = loaded.mincut_count.argtypes = graph + [POINTER(c_uint64)]
            loaded.mincut_cut.argtypes = graph + [POINTER(c_uint64), POINTER(c_uint8)]
            loaded.mincut_cut_below.argtypes = graph + [c_uint64, POINTER(c_uint64), POINTER(c_uint8)]
            loaded.mincut_cuts_below.argtypes = graph + [c_uint64, c_size_t, POINTER(c_uint64), POINTER(c_uint64), POINTER(c_uint8)]
            loaded.mincut_cactus.argtypes = graph + [POINTER(Sizes), POINTER(c_size_t), POINTER(c_uint32), POINTER(Bridge),
                                                     POINTER(c_size_t), POINTER(c_uint64)]
            loaded.mincut_balanced.argtypes = graph + [POINTER(c_uint64), POINTER(Balance), POINTER(c_uint8)]
            rows: list[Any] = [c_size_t, POINTER(Listing), POINTER(c_uint8)]
            loaded.mincut_sides_balanced.argtypes = graph + [POINTER(c_uint64), c_uint64] + rows
            loaded.mincut_sides_between.argtypes = graph + [c_uint32, c_uint32] + rows
            loaded.mincut_augment.argtypes = graph + [POINTER(Raise), POINTER(c_uint32), POINTER(c_uint32), POINTER(c_uint64)]
        except (OSError, AttributeError) as fault:
            raise NoProgram(f'{path} is no library of mincut ({fault})') from None
        self.path, self.loaded = path, loaded

    def value(self, graph: Graph, time_limit: Optional[float] = None) -> int:
        return alone(lambda: self.number(self.loaded.mincut_value, graph), graph, time_limit)

    def cut(self, graph: Graph, time_limit: Optional[float] = None) -> tuple[int, list[int]]:
        """(value, side) of one minimum cut; of a graph in several components the side is some of these."""
        return alone(lambda: self.one_cut(self.loaded.mincut_cut, graph), graph, time_limit)

    def cut_below(self, graph: Graph, bound: int, time_limit: Optional[float] = None) -> Optional[tuple[int, list[int]]]:
        """The same if the value is below the bound, or None."""
        most = min(bound, MOST_BOUND)
        value, side = alone(lambda: self.one_cut(self.loaded.mincut_cut_below, graph, most), graph, time_limit)
        return (value, side) if value < bound else None

    def cuts_below(self, graph: Graph, bound: int, most: int, time_limit: Optional[float] = None) -> list[tuple[int, list[int]]]:
        """(weight, side) of cuts that weigh less than the bound, at most so many, and a minimum cut first."""
        return alone(lambda: self.light_cuts(graph, min(bound, MOST_BOUND), min(most, len(graph.names))), graph, time_limit)

    def light_cuts(self, graph: Graph, bound: int, rows: int) -> list[tuple[int, list[int]]]:
        n, count, weights = len(graph.names), c_uint64(), (c_uint64 * rows)()
        inside = (c_uint8 * (rows * n))()
        checked(self.loaded.mincut_cuts_below(*arrays(graph), bound, rows, byref(count), weights, inside), graph)
        return [(weights[k], [v for v, byte in enumerate(inside[k * n:(k + 1) * n]) if byte]) for k in range(count.value)]

    def one_cut(self, call: Callable[..., int], graph: Graph, *asked: int) -> tuple[int, list[int]]:
        value, inside = c_uint64(), (c_uint8 * len(graph.names))()
        checked(call(*arrays(graph), *asked, byref(value), inside), graph)
        return value.value, [v for v, byte in enumerate(inside) if byte]

    def count(self, graph: Graph, time_limit: Optional[float] = None) -> tuple[int, int]:
        """(value, number of minimum cuts)."""
        def both() -> tuple[int, int]:
            return self.number(self.loaded.mincut_value, graph), self.number(self.loaded.mincut_count, graph)
        try:
            return alone(both, graph, time_limit)
        except Disconnected as fault:
            if fault.components > MOST_COMPONENTS:
                raise TooLarge(8, f'count too large: {fault.components} components') from None
            return 0, 2 ** (fault.components - 1) - 1

    def cactus(self, graph: Graph, time_limit: Optional[float] = None) -> Cactus:
        return alone(lambda: self.whole_cactus(graph), graph, time_limit)

    def balanced(self, graph: Graph, time_limit: Optional[float] = None) -> tuple[int, int, list[int]]:
        """(value, balance, side) of a most balanced minimum cut.

        Raises Disconnected, and Refused where the masses add up to 2^64 or more: the program answers these graphs."""
        return alone(lambda: self.best(graph), graph, time_limit)

    def best(self, graph: Graph) -> tuple[int, int, list[int]]:
        balance, inside = Balance(), (c_uint8 * len(graph.names))()
        checked(self.loaded.mincut_balanced(*arrays(graph), masses(graph), byref(balance), inside), graph)
        return balance.value, balance.balance, [v for v, byte in enumerate(inside) if byte]

    def sides(self, graph: Graph, least: Optional[int], parting: Optional[tuple[int, int]],
              time_limit: Optional[float] = None) -> tuple[int, list[list[int]]]:
        """(value, sides) of all minimum cuts, or of those of balance `least` or more, or of those that part two vertices.

        Raises Disconnected, and Refused where the masses add up to 2^64 or more, or where `least` is no number of 64 bits: the program
        answers these."""
        return alone(lambda: self.listed(graph, least, parting), graph, time_limit)

    def listed(self, graph: Graph, least: Optional[int], parting: Optional[tuple[int, int]]) -> tuple[int, list[list[int]]]:
        if least is not None and not 0 <= least < 1 << 64:
            raise Refused(1, 'the least balance is no number of 64 bits')
        n, given = len(graph.names), arrays(graph)
        call = self.loaded.mincut_sides_balanced if parting is None else self.loaded.mincut_sides_between
        asked: tuple[Any, ...] = (masses(graph) if least else None, least or 0) if parting is None else parting
        listing, count = Listing(), FIRST_ROOM // max(n, 1)
        rows = (c_uint8 * (count * n))()
        status = call(*given, *asked, count, byref(listing), rows)
        if status == NO_ROOM:
            rows = (c_uint8 * (listing.sides * n))()
            status = call(*given, *asked, listing.sides, byref(listing), rows)
        if status == TOO_MANY_SIDES:
            raise TooLarge(6, f'list too large: {listing.sides} cuts, {n} vertices')
        checked(status, graph)
        text = bytes(rows)
        return listing.value, [[v for v, byte in enumerate(text[k * n:(k + 1) * n]) if byte] for k in range(listing.sides)]

    def augment(self, graph: Graph, time_limit: Optional[float] = None) -> tuple[int, list[list[int]], list[list[int]]]:
        """(value, edges, sets): as few edges of weight 1 as raise the value, and the sets that show that fewer do not."""
        return alone(lambda: self.raised(graph), graph, time_limit)

    def raised(self, graph: Graph) -> tuple[int, list[list[int]], list[list[int]]]:
        n, found = len(graph.names), Raise()
        heads, tails, set_of = (c_uint32 * n)(), (c_uint32 * n)(), (c_uint64 * n)()
        checked(self.loaded.mincut_augment(*arrays(graph), byref(found), heads, tails, set_of), graph)
        sets: list[list[int]] = [[] for _ in range(found.sets)]
        for v, number in enumerate(set_of):
            if number:
                sets[number - 1].append(v)
        return found.value, [[i, j] for i, j in zip(heads[:found.edges], tails[:found.edges])], sets

    def number(self, call: Callable[..., int], graph: Graph) -> int:
        result = c_uint64()
        checked(call(*arrays(graph), byref(result)), graph)
        return result.value

    def whole_cactus(self, graph: Graph) -> Cactus:
        n, sizes = len(graph.names), Sizes()
        starts, vertices, bridges = (c_size_t * (2 * n))(), (c_uint32 * n)(), (Bridge * (2 * n))()
        cycles, members = (c_size_t * n)(), (c_uint64 * (3 * n))()
        checked(self.loaded.mincut_cactus(*arrays(graph), byref(sizes), starts, vertices, bridges, cycles, members), graph)
        return canonical(Cactus(sizes.value, lists_of(vertices, starts, sizes.nodes, sizes.vertices),
                                [(bridge.upper, bridge.lower) for bridge in bridges[:sizes.bridges]],
                                lists_of(members, cycles, sizes.cycles, sizes.members)))


def arrays(graph: Graph) -> tuple[Any, ...]:
    """The graph as the first five arguments of each call: its columns, as they are."""
    heads, tails, weights = graph.columns
    assert isinstance(weights, array)
    count = len(heads)
    return (len(graph.names), count, (c_uint32 * count).from_buffer(heads), (c_uint32 * count).from_buffer(tails),
            (c_uint64 * count).from_buffer(weights))


def masses(graph: Graph) -> Any:
    """The masses as an array, or nothing where each is 1."""
    if graph.masses is None:
        return None
    try:
        return (c_uint64 * len(graph.masses)).from_buffer(array('Q', graph.masses))
    except OverflowError:
        raise Refused(1, FAULTS[MASS_SUM]) from None


def lists_of(items: Any, starts: Any, count: int, total: int) -> list[list[int]]:
    ends = [*starts[1:count], total]
    return [list(items[starts[i]:ends[i]]) for i in range(count)]


def checked(status: int, graph: Graph) -> None:
    if status == NO_CUT:
        raise NoCut('the graph has fewer than two vertices, so there is no cut; give one with two or more')
    if status == DISCONNECTED:
        raise Disconnected(len(graph.components()))
    if status == OUT_OF_MEMORY:
        raise OutOfMemory(5, 'out of memory')
    if status:
        raise Refused(1, FAULTS.get(status, f'the library ended with status {status}'))


# A call in a process of its own

def alone(call: Callable[[], T], graph: Graph, time_limit: Optional[float]) -> T:
    """What the call answers or raises: in a child where a time limit is set or the graph is large, else in this process."""
    if time_limit is None and len(graph.edges) <= EDGES_IN_PROCESS:
        return call()
    reading, writing = os.pipe()
    held = signal.pthread_sigmask(signal.SIG_BLOCK, INTERRUPTS)       # until what ends the child stands ready
    child = os.fork()
    if child == 0:
        answer_and_exit(call, writing)
    try:
        signal.pthread_sigmask(signal.SIG_SETMASK, held)
        os.close(writing)
        with os.fdopen(reading, 'rb') as answers:
            if not select.select([answers], [], [], time_limit)[0]:
                raise TimedOut(time_limit or 0)
            text = answers.read()
    except BaseException:
        os.kill(child, signal.SIGKILL)
        raise
    finally:
        os.waitpid(child, 0)
    if not text:
        raise MincutError('the library ended without an answer')
    told = pickle.loads(text)
    if isinstance(told, Exception):
        raise told
    answer: T = told
    return answer


def answer_and_exit(call: Callable[[], Any], writing: int) -> None:
    """In the child: writes the answer, or the exception, and ends without anything of its parent's being closed or flushed."""
    status = 1
    try:
        try:
            answer = call()
        except MincutError as fault:
            answer = fault
        with os.fdopen(writing, 'wb') as pipe:
            pickle.dump(answer, pipe)
        status = 0
    finally:
        os._exit(status)
