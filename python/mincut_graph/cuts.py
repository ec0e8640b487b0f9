"""The minimum cuts of a graph, by the names of its vertices."""
from __future__ import annotations

import os
from collections.abc import Callable, Hashable, Iterable, Sequence
from difflib import get_close_matches
from itertools import islice
from typing import Any, Optional, TypeVar, Union

from .cactus import Cactus
from .capacity import chosen_candidates, links_of_capacity
from .changes import changed
from .deadline import Deadline
from .errors import BadInput, BadWords, Disconnected, NoProgram, TooLarge, UnknownName
from .failures import Progress, failures_of
from .given import given_number, items, pair_of, whole
from .graph import Graph, finished
from .levels import Levels, levels_of
from .library import Library
from .numbers import whole_numbers
from .places import find_library
from .program import Program
from .ranges import Range, Ranges
from .results import Augmentation, Balanced, Choice, Comparison, Cut, CutLink, Failure, Growth, LightCut, Link, NewLinks, Site, State, Step
from .sources import WEIGHT, Mass, raw_graph
from .words import checked_words, checked_workers

LONGEST_LIST = 1 << 30                 # cuts times vertices, as in the program
MOST_INSERTIONS = 1000                 # as there
MOST_SEARCHED = 20_000                 # names that are searched for a misspelt one
Answer = TypeVar('Answer')


class MinimumCuts:
    """The minimum cuts of a graph; later changes to the graph are not seen.

    The graph is solved once: `value` asks for the value alone, `cut` for one cut, and the first call that needs more asks for all minimum
    cuts at once, as their cactus, from which the others read their answers. `augment`, `grow`, `what_if`, `levels` and `failures` say what
    they ask for.

    `graph`: a graph of networkx or igraph, a symmetric sparse array of scipy, a list of pairs or triples (u, v, weight), a `RawGraph`
    of `read_graph`, or a finished `Graph`. Weights are whole numbers of 0 or more, 1 where there are none; parallel edges add up, and
    loops and edges of weight 0 are left out, since they are in no cut; `notes` says how many.

    `weight`: the name of the edges' attribute. `mass`: the masses by which cuts are balanced, as the name of an attribute, a table or a
    function of a vertex; each is 1 without it. `names`: those of the rows of a matrix. `scale`: all weights are multiplied by it.
    `undirected`: takes a directed graph as an undirected one, each arrow an edge.

    `program`, `workers` (1 to 64): the program that answers. `library`: the shared library that answers `value`, `cut`, `cactus` and `augment`;
    None looks for one, False goes by the program alone. `time_limit`: seconds for each call that names no other, None for no limit.

    Raises BadInput for what is not a graph, UnknownName for a mass that is missing. Calls raise NoCut below two vertices, Disconnected
    if they need a connected graph, TimedOut, NoProgram, and otherwise Failed with the status of the program. A call that is
    interrupted leaves no process behind.

    >>> MinimumCuts([('a', 'b'), ('b', 'c'), ('c', 'd'), ('d', 'a'), ('d', 'far', 2)])
    MinimumCuts(5 vertices, 5 links)"""

    def __init__(self, graph: Any, weight: Optional[str] = WEIGHT, mass: Mass = None, program: Optional[str] = None, workers: Optional[int] = None,
                 *, library: Union[str, bool, None] = None, names: Optional[Sequence[Hashable]] = None, scale: int = 1,
                 undirected: bool = False, time_limit: Optional[float] = None):
        self.graph = graph if isinstance(graph, Graph) else finished(raw_graph(graph, weight, mass, names), scale, undirected)
        self.names = self.graph.names
        self.time_limit = time_limit
        self.program, self.workers = program, checked_workers(workers)
        self.library = chosen_library(library, program)
        self._known: dict[Any, Any] = {}

    def __repr__(self) -> str:
        known = self._known.get('value')
        told = '' if known is None else f', value {known}'
        return f'MinimumCuts({len(self.names):,} vertices, {len(self.graph.edges):,} links{told})'

    # The graph

    @property
    def notes(self) -> list[str]:
        """Sentences on loops, parallel edges and the like, which are left out or added up.

        >>> MinimumCuts([('a', 'b'), ('a', 'a')]).notes
        ['1 loop left out: no cut has one']"""
        return list(self.graph.notes)

    def components(self) -> list[list[Any]]:
        """The components, each as the list of its vertices, in the order of their first vertices. Asks the program nothing.

        >>> MinimumCuts([('a', 'b'), ('x', 'y'), ('b', 'c')]).components()
        [['a', 'b', 'c'], ['x', 'y']]"""
        return [self.named(places) for places in self.graph.components()]

    def largest(self) -> MinimumCuts:
        """The minimum cuts of the component with most vertices.

        >>> MinimumCuts([('a', 'b'), ('x', 'y'), ('b', 'c')]).largest().names
        ['a', 'b', 'c']"""
        return self.of(self.graph.largest())

    def of(self, graph: Graph) -> MinimumCuts:
        """The minimum cuts of another graph, by the same program or library and with the same limit."""
        other = MinimumCuts(graph, program=self.program, workers=self.workers, library=False, time_limit=self.time_limit)
        other.library = self.library
        return other

    # All minimum cuts

    def value(self, *, time_limit: Optional[float] = None) -> int:
        """The least weight of a cut; 0 if the graph is not connected. Costs one solution, the quickest; none if all cuts are known.

        >>> MinimumCuts([('a', 'b', 3), ('b', 'c', 2)]).value()
        2"""
        return self._once('value', lambda: self.fastest().value(self.graph, self.limit(time_limit)))

    def cut(self, *, time_limit: Optional[float] = None) -> Cut:
        """One minimum cut, any of several. If the graph is not connected, its side is one or more whole components. By the library it costs
        about what `value` does; the program finds all minimum cuts at once.

        >>> MinimumCuts([('a', 'b', 3), ('b', 'c', 2)]).cut()
        Cut(value=2, side=['c'])"""
        value, side = self._once('cut', lambda: self._one_cut(time_limit))
        return Cut(value, self.named(side))

    def cut_below(self, bound: int, *, time_limit: Optional[float] = None) -> Optional[Cut]:
        """One minimum cut if the value is below the bound, otherwise None. By the library it costs what `cut` does; the
        program finds the value first. Raises BadInput for a bound that is not a whole number of 0 or more.

        >>> MinimumCuts([('a', 'b', 3), ('b', 'c', 2)]).cut_below(3)
        Cut(value=2, side=['c'])"""
        most = given_number(bound, 'bound')
        with Deadline(self.limit(time_limit)) as deadline:
            if self.library and 'value' not in self._known:
                found = self.library.cut_below(self.graph, most, deadline.left())
                if found is None:
                    return None
                self._known['value'], self._known['cut'] = found[0], found
            is_below = self.value(time_limit=deadline.left()) < most
            return self.cut(time_limit=deadline.left()) if is_below else None

    def cuts_below(self, bound: int, most: int, *, time_limit: Optional[float] = None) -> list[LightCut]:
        """Different cuts below the bound, at most so many, a minimum cut first. Which others there are is free; the list is empty only if no cut
        weighs less or `most` is 0. By the library it costs about what `cut` does; by the program it has minimum cuts alone. Raises BadInput for
        a bound or a number that is not a whole number of 0 or more.

        >>> MinimumCuts([('a', 'b', 3), ('b', 'c', 2)]).cuts_below(3, 5)
        [LightCut(weight=2, side=['c'])]"""
        limit, rows = given_number(bound, 'bound'), given_number(most, 'most')
        with Deadline(self.limit(time_limit)) as deadline:
            if self.library:
                found = self.library.cuts_below(self.graph, limit, rows, deadline.left())
            else:
                found = self._minimum_below(limit, rows, deadline)
            return [LightCut(weight, self.named(side)) for weight, side in found]

    def count(self, *, time_limit: Optional[float] = None) -> int:
        """The number of all minimum cuts. A graph of k components has 2^(k-1) - 1; more than 127 are refused with TooLarge.

        >>> MinimumCuts([('a', 'b'), ('b', 'c'), ('c', 'd'), ('d', 'a')]).count()
        6"""
        def found() -> int:
            try:
                return self.solved(time_limit).count()
            except Disconnected:
                return self.fastest().count(self.graph, self.limit(time_limit))[1]
        return self._once('count', found)

    def cactus(self, *, time_limit: Optional[float] = None) -> Cactus:
        """All minimum cuts as a `Cactus`. Raises Disconnected. Costs the one solution from which `count`, `sides`, `balanced`, `sites` and
        `cut_links` read their answers.

        >>> MinimumCuts([('a', 'b'), ('b', 'c'), ('c', 'd'), ('d', 'a')]).cactus().cycles
        [[0, 1, 2, 3]]"""
        return self.solved(time_limit).renamed(self.names)

    def sides(self, least: Optional[int] = None, parting: Optional[tuple[Hashable, Hashable]] = None,
              *, time_limit: Optional[float] = None) -> list[list[Any]]:
        """All minimum cuts, or those of balance `least` or more, or those that separate the two vertices of `parting`. Each is the list of
        the vertices of its side without the first vertex.

        Raises UnknownName for a vertex that the graph does not have, BadInput if both are given, TooLarge if the cuts times the vertices
        are above 2^30. The cost is in proportion to the list.

        >>> MinimumCuts([('a', 'b'), ('b', 'c'), ('c', 'd'), ('d', 'a')]).sides(parting=('b', 'd'))
        [['b'], ['b', 'c'], ['c', 'd'], ['d']]"""
        if least is not None and parting is not None:
            raise BadInput('`least` and `parting` do not go together; give one of them')
        least = whole(least, 'least', 0)
        pair = None if parting is None else self._places_of(parting, 'parting')
        try:
            ranges = self.ranges(time_limit)
        except Disconnected:
            # the program also answers graphs in several components
            return [self.named(side) for side in self._apart('sides', time_limit, least, pair)[1]]
        if pair is not None and pair[0] == pair[1]:
            return []
        many = ranges.parting_count(*pair) if pair else 0 if least else self.solved().count()
        self._check_list(many)
        found: list[Range] = []
        for cut in ranges.parting(*pair) if pair else ranges.balanced(least or 0):
            found.append(cut)
            if not many:
                self._check_list(len(found))
        return [self.named(side) for side in sorted(map(ranges.side, found))]

    def balanced(self, *, time_limit: Optional[float] = None) -> Balanced:
        """A minimum cut of greatest balance. The library and the program may name different ones of several.

        >>> MinimumCuts([('a', 'b'), ('b', 'c'), ('c', 'd'), ('d', 'a')]).balanced()
        Balanced(balance=2, side=['b', 'c'])"""
        try:
            ranges = self.ranges(time_limit)
        except Disconnected:
            _, balance, side = self._apart('balanced', time_limit)
            return Balanced(balance, self.named(side))
        best = self._once('best', ranges.best)
        return Balanced(ranges.balance(best), self.named(ranges.side(best)))

    def links(self, side: Iterable[Hashable]) -> list[Link]:
        """The links between a side, or any set of vertices, and all others. Each has its end in the set first; they are in the order of their
        ends. Their weights add up to that of the cut. Raises UnknownName. Costs the links at the smaller of both sides.

        >>> MinimumCuts([('Paris', 'Lyon', 10), ('Lyon', 'Nice', 20), ('Nice', 'Paris', 10)]).links(['Lyon', 'Nice'])
        [Link(source='Lyon', target='Paris', weight=10), Link(source='Nice', target='Paris', weight=10)]"""
        inside = {self.number_of(vertex) - 1 for vertex in items(side, 'the side')}
        near = self._near()
        if 2 * len(inside) <= len(self.names):
            found = [(i, j, w) for i in sorted(inside) for j, w in near[i] if j not in inside]
        else:
            found = sorted((j, i, w) for i in range(len(near)) if i not in inside for j, w in near[i] if j in inside)
        return [Link(self.names[i], self.names[j], w) for i, j, w in found]

    def sites(self, levels: bool = True, *, time_limit: Optional[float] = None) -> list[Site]:
        """A `Site` for each vertex, in the order of the names. Of two sides of the same mass, the one without the first vertex counts as the
        lighter one. Raises Disconnected. `levels=False` leaves the levels out, which cost a solution for each part of the graph.

        >>> MinimumCuts([('a', 'b'), ('b', 'c'), ('c', 'a'), ('c', 'd')]).sites()[3]
        Site(name='d', degree=1, capacity=1, places=1, level=1)"""
        with Deadline(self.limit(time_limit)) as deadline:
            places = self.ranges(deadline.left()).lighter_counts()
            level = self.levels(time_limit=deadline.left()).level_of() if levels else {}
            return [Site(name, len(near), sum(w for _, w in near), places[i], level.get(name))
                    for i, (name, near) in enumerate(zip(self.names, self._near()))]

    def cut_links(self, *, time_limit: Optional[float] = None) -> list[CutLink]:
        """A `CutLink` for each link, those in most minimum cuts first. Raises Disconnected.

        >>> MinimumCuts([('a', 'b'), ('b', 'c'), ('c', 'a'), ('c', 'd')]).cut_links()[0]
        CutLink(source='c', target='d', weight=1, places=1)"""
        ranges = self.ranges(time_limit)
        found = [CutLink(self.names[i], self.names[j], w, ranges.parting_count(i, j)) for i, j, w in self.graph.edges]
        return sorted(found, key=lambda link: -link.places)

    # What lies below

    def levels(self, up_to: Optional[int] = None, without_stubs: bool = False, *, time_limit: Optional[float] = None) -> Levels:
        """The parts that minimum cuts leave whole, each cut again by the minimum cuts of its own subgraph. It ends when nothing is left to
        cut, or at parts of value `up_to`. The `at(k)` of this tree are the maximal sets whose subgraphs have value k or more, which with
        unit weights are the k-edge-connected subgraphs. `without_stubs` first takes off what hangs on one link, again and again.

        Costs one solution for each part of three vertices or more.

        >>> square = [('a', 'b'), ('b', 'c'), ('c', 'd'), ('d', 'a'), ('a', 'c'), ('b', 'd')]
        >>> MinimumCuts(square + [('d', 'e'), ('e', 'f')]).levels().at(3)
        [['a', 'b', 'c', 'd'], ['e'], ['f']]"""
        with Deadline(self.limit(time_limit)) as deadline:

            def solve(graph: Graph) -> Cactus:
                if len(graph.names) == len(self.names):
                    return self.solved(deadline.left())
                return self.fastest().cactus(graph, deadline.left())
            return levels_of(self.graph, solve, whole(up_to, 'up_to', 0), without_stubs)

    # New links, and links that fail

    def augment(self, *, time_limit: Optional[float] = None) -> Augmentation:
        """The fewest edges of weight 1 that raise the value, and the sets that each need an end of one. Raises Disconnected. Costs a
        solution of its own.

        >>> MinimumCuts([('a', 'b'), ('b', 'c'), ('c', 'd'), ('d', 'a')]).augment().edges
        [('a', 'c'), ('b', 'd')]"""
        _, edges, sets = self._once('augment', lambda: self.fastest().augment(self.graph, self.limit(time_limit)))
        return Augmentation([(self.names[i], self.names[j]) for i, j in edges], [self.named(found) for found in sets])

    def new_links(self, capacity: Optional[int] = None, *, time_limit: Optional[float] = None) -> NewLinks:
        """The edges of `augment` with this capacity, and the value that they reach. Without `capacity` it is the least weight in the graph.
        Raises Disconnected, and BadInput for a capacity that is not a whole number of 1 or more. Costs `augment` and the value of the new graph.

        >>> found = MinimumCuts([('Paris', 'Lyon', 10), ('Lyon', 'Nice', 20), ('Nice', 'Paris', 10)]).new_links()
        >>> found.links, found.before, found.after
        ([Link(source='Paris', target='Lyon', weight=10)], 20, 30)"""
        with Deadline(self.limit(time_limit)) as deadline:
            before, edges, sets = self._once('augment', lambda: self.fastest().augment(self.graph, deadline.left()))
            added = links_of_capacity(self.graph, edges, capacity)
            after = self.fastest().value(changed(self.graph, added), deadline.left())
            return NewLinks([self._link(*edge) for edge in added], before, after, [self.named(found) for found in sets])

    def candidates(self, links: Iterable[Sequence[Any]], target: Optional[int] = None, costs: Optional[Sequence[Any]] = None,
                   *, time_limit: Optional[float] = None) -> Choice:
        """A good set of these links that raises the value to `target`. Links are pairs or triples of two vertices and a weight, which is the
        least in the graph if not given; `target` is one above the value if not given. `costs` has one number for each link, else each
        costs 1. The set is found link by link, those first that are in most minimum cuts for their cost, and none of it can be left out;
        a cheaper one may exist.

        Raises BadInput if all of them together do not reach the target, and says which value they reach. Costs at most two solutions
        for each link that is taken, and two more.

        >>> ring = [('a', 'b'), ('b', 'c'), ('c', 'd'), ('d', 'a')]
        >>> MinimumCuts(ring).candidates([('a', 'b'), ('a', 'c'), ('b', 'd')], target=3).links
        [Link(source='a', target='c', weight=1), Link(source='b', target='d', weight=1)]"""
        edges = self._triples(links, 'candidate', min((w for _, _, w in self.graph.edges), default=1))
        with Deadline(self.limit(time_limit)) as deadline:
            fastest = self.fastest()

            def solve(graph: Graph) -> Cactus:
                return self.solved(deadline.left()) if graph is self.graph else fastest.cactus(graph, deadline.left())

            def value(graph: Graph) -> int:
                return fastest.value(graph, deadline.left())
            prices = None if costs is None else items(costs, 'costs')
            chosen = chosen_candidates(self.graph, edges, prices, whole(target, 'target', 0), solve, value)
            return Choice([self._link(*edges[k]) for k in chosen.taken], chosen.cost, chosen.before, chosen.after, chosen.target)

    def grow(self, insertions: Iterable[Sequence[Any]], *, time_limit: Optional[float] = None) -> Growth:
        """A `Step` for each insertion, and the cactus after the last. There are 1 to 1,000 insertions, pairs or triples of two vertices and a
        weight of 1 or more. The graph itself stays as it is. Raises UnknownName, BadWords for an insertion that joins a vertex to itself,
        Disconnected. Costs a run of the program.

        >>> MinimumCuts([('a', 'b'), ('b', 'c'), ('c', 'd'), ('d', 'a')]).grow([('a', 'c'), ('b', 'd')]).steps
        [Step(value=2, count=2), Step(value=3, count=4)]"""
        edges = self._triples(insertions, 'insertion')
        if not 1 <= len(edges) <= MOST_INSERTIONS:
            raise BadWords(2, f'{len(edges):,} insertions; one call takes 1 to {MOST_INSERTIONS:,}')
        steps, cactus = Program(self.program, self.workers).grow(self.graph, edges, self.limit(time_limit))
        return Growth([Step(*step) for step in steps], cactus.renamed(self.names))

    def what_if(self, add: Iterable[Sequence[Any]] = (), remove: Iterable[Sequence[Hashable]] = (),
                *, time_limit: Optional[float] = None) -> Comparison:
        """The `State` before and after links are added and removed. Added links are pairs or triples of two vertices and a weight; removed
        links are pairs. Raises UnknownName for a vertex or a link that the graph does not have. Costs two solutions.

        >>> ring = MinimumCuts([('a', 'b'), ('b', 'c'), ('c', 'd'), ('d', 'a')])
        >>> after = ring.what_if(remove=[('a', 'b')]).after
        >>> after.value, after.count, after.side
        (1, 3, ['b', 'c'])"""
        with Deadline(self.limit(time_limit)) as deadline:
            pairs = [self._places_of(pair, 'a link to take away') for pair in items(remove, 'remove')]
            other = self.of(changed(self.graph, self._triples(add, 'new link'), pairs))
            return Comparison(self.state(time_limit=deadline.left()), other.state(time_limit=deadline.left()))

    def state(self, *, time_limit: Optional[float] = None) -> State:
        """The value, the count, and a most balanced cut with its links.

        >>> MinimumCuts([('a', 'b', 2), ('b', 'c', 2), ('c', 'a', 3)]).state()
        State(value=4, count=1, balance=1, side=['b'], links=[Link(source='b', target='a', weight=2), Link(source='b', target='c', weight=2)])"""
        with Deadline(self.limit(time_limit)) as deadline:
            count = self.count(time_limit=deadline.left())
            best = self.balanced(time_limit=deadline.left())
            return State(self.value(time_limit=deadline.left()), count, best.balance, best.side, self.links(best.side))

    def failures(self, processes: Optional[int] = None, progress: Optional[Progress] = None,
                 *, time_limit: Optional[float] = None) -> list[Failure]:
        """A `Failure` for each link, the worst first. A lower value is worse, and for the same value more minimum cuts. Costs a run of the
        program for each link, `processes` at a time, as many as there are processors if not given. `progress(done, all)` is called after
        each.

        >>> MinimumCuts([('a', 'b'), ('b', 'c'), ('c', 'a'), ('c', 'd')]).failures()[0]
        Failure(source='c', target='d', weight=1, value=0, count=1)"""
        program = Program(self.program, 1)
        with Deadline(self.limit(time_limit)) as deadline:
            found = failures_of(self.graph, program, whole(processes, 'processes', 1), progress, deadline)
        return [Failure(*self._link(i, j, w), value, count) for i, j, w, value, count in found]

    def run(self, *words: object, time_limit: Optional[float] = None) -> list[list[str]]:
        """The lines that the program prints for these words, each as a list of words. Vertices are numbered from 1. Raises BadWords, with
        what is wrong, for words that the program does not accept.

        >>> MinimumCuts([('a', 'b'), ('b', 'c')]).run('count')
        [['value', '1'], ['count', '2']]"""
        checked_words([str(word) for word in words], len(self.names))
        return Program(self.program, self.workers).answer(self.graph, words, self.limit(time_limit))

    # Names and places

    @property
    def place(self) -> dict[Hashable, int]:
        """The number of each vertex, from 1."""
        return self._once('place', lambda: {name: i for i, name in enumerate(self.names, 1)})

    def number_of(self, vertex: Hashable) -> int:
        """The number of a vertex, from 1. Raises UnknownName, a KeyError.

        >>> MinimumCuts([('a', 'b')]).number_of('b')
        2"""
        try:
            return self.place[vertex]
        except (KeyError, TypeError):
            raise UnknownName(f'the graph has no vertex {vertex!r}{self._meant(vertex)}') from None

    def _meant(self, vertex: Hashable) -> str:
        """A name that looks like this one, as a question; nothing for a large graph, where the search takes long."""
        names = [name for name in self.names if isinstance(name, str)] if len(self.names) <= MOST_SEARCHED else []
        near = get_close_matches(vertex, names, 1, 0.75) if isinstance(vertex, str) else []
        return f'; is {near[0]!r} meant?' if near else ''

    def named(self, places: Iterable[int]) -> list[Any]:
        """The names of vertices given by their places, from 0."""
        return [self.names[i] for i in places]

    def _places_of(self, pair: Any, what: str) -> tuple[int, int]:
        """Two vertices by their places, from 0."""
        u, v = pair_of(pair, what)
        return self.number_of(u) - 1, self.number_of(v) - 1

    def _link(self, i: int, j: int, weight: int) -> Link:
        """A link between two places, from 0, by the names."""
        return Link(self.names[i], self.names[j], weight)

    def _triples(self, links: Iterable[Sequence[Any]], what: str, weight: int = 1) -> list[tuple[int, int, int]]:
        """Pairs or triples of two names and a whole weight of 1 or more as places from 0; `weight` stands where there is none."""
        listed = [tuple(items(link, what)) for link in items(links, f'the list of each {what}')]
        for k, link in enumerate(listed, 1):
            if not 2 <= len(link) <= 3:
                raise BadInput(f'{what} {k} is {link!r}; it has to be two vertices, or two vertices and a weight')
        given = [(*link, weight)[:3] for link in listed]
        weights = whole_numbers([w for _, _, w in given], lambda k: f'the weight of {what} {k + 1}')
        for (u, v, _), w in zip(given, weights):
            self.number_of(u), self.number_of(v)
            if u == v:
                raise BadWords(2, f'the {what} {u} - {v} joins a vertex with itself; name two vertices')
            if w == 0:
                raise BadWords(2, f'the {what} {u} - {v} has weight 0; it has to be 1 or more')
        return [(self.place[u] - 1, self.place[v] - 1, w) for (u, v, _), w in zip(given, weights)]

    # What is known already

    def _once(self, key: Any, find: Callable[[], Answer]) -> Answer:
        """What `find` gives, asked for once."""
        if key not in self._known:
            self._known[key] = find()
        found: Answer = self._known[key]
        return found

    def solved(self, time_limit: Optional[float] = None) -> Cactus:
        """The cactus with places, from 0, as vertices; not to be changed. Raises Disconnected."""
        if self._known.get('value') == 0 and len(self.names) > 1:
            raise Disconnected(len(self._once('components', self.graph.components)))
        try:
            cactus = self._once('cactus', lambda: self.fastest().cactus(self.graph, self.limit(time_limit)))
        except Disconnected:
            self._known['value'] = 0
            raise
        self._known['value'] = cactus.value
        return cactus

    def ranges(self, time_limit: Optional[float] = None) -> Ranges:
        """All minimum cuts as ranges of one list of vertices. Raises Disconnected."""
        cactus = self.solved(time_limit)
        return self._once('ranges', lambda: Ranges(cactus, self.graph.masses))

    def _one_cut(self, time_limit: Optional[float]) -> tuple[int, list[int]]:
        """(value, side) of one minimum cut, the side by places from 0: by the library, or one of all cuts."""
        if self.library and 'cactus' not in self._known:
            value, side = self.library.cut(self.graph, self.limit(time_limit))
            self._known['value'] = value
            return value, side
        try:
            ranges = self.ranges(time_limit)
        except Disconnected:
            return 0, self._once('components', self.graph.components)[1]
        return ranges.cactus.value, ranges.side(next(ranges.all()))

    def _minimum_below(self, bound: int, most: int, deadline: Deadline) -> list[tuple[int, list[int]]]:
        """(value, side) of at most so many minimum cuts, if the value is below the bound; one alone of a graph that is not connected."""
        value = self.value(time_limit=deadline.left())
        if value >= bound or most == 0:
            return []
        if value == 0:
            return [self._once('cut', lambda: self._one_cut(deadline.left()))]
        ranges = self.ranges(deadline.left())
        return [(value, ranges.side(one)) for one in islice(ranges.all(), most)]

    def _near(self) -> list[list[tuple[int, int]]]:
        """For each vertex its neighbours, ascending, with the weights of the links."""
        def found() -> list[list[tuple[int, int]]]:
            near: list[list[tuple[int, int]]] = [[] for _ in self.names]
            for i, j, w in self.graph.edges:
                near[j].append((i, w))
            for i, j, w in self.graph.edges:
                near[i].append((j, w))
            return near
        return self._once('near', found)

    def _apart(self, job: str, time_limit: Optional[float], *asked: Any) -> Any:
        """What the program says of a graph in several components."""
        def found() -> Any:
            return getattr(Program(self.program, self.workers), job)(self.graph, *asked, self.limit(time_limit))
        return self._once((job, *asked), found)

    def _check_list(self, count: int) -> None:
        """Raises TooLarge where a list of so many cuts is too long."""
        if count * len(self.names) > LONGEST_LIST:
            raise TooLarge(6, f'list too large: {count} cuts, {len(self.names)} vertices')

    def limit(self, time_limit: Optional[float]) -> Optional[float]:
        return self.time_limit if time_limit is None else time_limit

    def fastest(self) -> Union[Library, Program]:
        """The back end for the value, the cactus and an augmentation."""
        return self.library or Program(self.program, self.workers)


def chosen_library(library: Union[str, bool, None], program: Optional[str]) -> Optional[Library]:
    """The library that is named, by argument or environment, or one that is found. One that is only found is not taken where a program
    is named, or where it cannot be loaded."""
    if library is False:
        return None
    named = library if isinstance(library, str) else os.environ.get('MINCUT_LIBRARY')
    if named:
        return Library(named)
    path = None if program or os.environ.get('MINCUT') else find_library()
    try:
        return Library(path) if path else None
    except NoProgram:
        return None
