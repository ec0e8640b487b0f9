"""The text of `augment` on random graphs, judged by trying all sides and by the canonical cactus.

    tools/check augment [--program PATH] [--count 3000] [--seed 1] [--most 10] [--threads 4] [--workers 1,4,8] [--any-edges]

The printed sets must be exactly the inclusion-minimal ones among all sides of minimum cuts and their complements, in the order of
lists; every minimum cut must part the ends of some printed edge; the edges are half as many as the sets, rounded up; with the
edges added, once each, the value must be greater; and where there are few pairs of vertices, all lists of one edge less are
tried, and must not raise it. At last the text is compared with the one whose edges join opposite end nodes of the canonical cactus;
with `--any-edges` it is not.
"""
import argparse
import itertools
import re
from collections.abc import Sequence
from random import Random

from .. import answers_by_hand as answers
from .. import graphs, metis, running
from ..cactuses import Side
from ..cuts_by_hand import minimum_cuts
from ..graphs import Graph, Pair

FORM = re.compile(r'value (\d+)\nedges (\d+)\n((?:edge \d+ \d+\n)*)sets (\d+)\n((?:set(?: \d+)+\n)*)')
MOST_LISTS = 500  # lists of one edge less that are tried


def read_text(text: str) -> tuple[int, list[Pair], list[Side]] | None:
    """(value, edges, sets) of a text of the right form, or None."""
    found = FORM.fullmatch(text)
    if found is None:
        return None
    edges = [tuple(map(int, line.split()[1:])) for line in found[3].splitlines()]
    sets = [tuple(map(int, line.split()[1:])) for line in found[5].splitlines()]
    return (int(found[1]), edges, sets) if (int(found[2]), int(found[4])) == (len(edges), len(sets)) else None


def minimal_sets(n: int, sides: Sequence[Side]) -> list[Side]:
    """The inclusion-minimal sets among the sides and their complements, in the order of lists."""
    everything = frozenset(range(1, n + 1))
    sets = {frozenset(side) for side in sides} | {everything - frozenset(side) for side in sides}
    return sorted(tuple(sorted(some)) for some in sets if not any(other < some for other in sets))


def raised(graph: Graph, pairs: Sequence[Pair]) -> int:
    """The value with a unit edge added for each of the pairs."""
    return minimum_cuts(answers.with_edges(graph, [(u, v, 1) for u, v in pairs]))[0]


def fewer_lists(n: int, number: int) -> list[tuple[Pair, ...]]:
    """All lists of so many pairs, or none where they are too many."""
    pairs = list(itertools.combinations(range(1, n + 1), 2))
    lists = list(itertools.islice(itertools.combinations_with_replacement(pairs, number), MOST_LISTS + 1))
    return lists if len(lists) <= MOST_LISTS else []


def difference(text: str, graph: Graph, value: int, sides: Sequence[Side], lists: Sequence[Sequence[Pair]]) -> str | None:
    """What is wrong with the text for a connected graph, or None."""
    n, found = graph[0], read_text(text)
    if found is None:
        return 'the text has not the form of `augment`'
    if found[0] != value:
        return f'the value is {value}'
    _, edges, sets = found
    if sets != minimal_sets(n, sides):
        return f'the minimal sets are {minimal_sets(n, sides)}'
    if edges != sorted(set(edges)) or not all(1 <= u < v <= n for u, v in edges):
        return 'the edges do not ascend, or one is no pair of vertices'
    if len(edges) != (len(sets) + 1) // 2:
        return f'there are {len(sets)} sets and {len(edges)} edges'
    whole = next((side for side in sides if not any((u in side) != (v in side) for u, v in edges)), None)
    if whole is not None:
        return f'no edge crosses the minimum cut {whole}'
    if raised(graph, edges) <= value:
        return 'the edges do not raise the value'
    better = next((pairs for pairs in lists if raised(graph, pairs) > value), None)
    return None if better is None else f'fewer edges do: {better}'


def check(program: str, seed: int, options: argparse.Namespace) -> running.Verdict:
    """(names to count, what differs or None) of one random graph."""
    rng = Random(seed)
    make = graphs.random_graph if rng.random() < 0.05 else graphs.connected_graph
    kind, graph = make(rng, options.most)
    text = metis.text_of(graph)
    words = ['augment'] + running.worker_words(options, rng)
    status, out, err = running.run_program(program, words, text)
    right = answers.wanted(['augment'], graph, [1] * graph[0])[1][0]
    names, wrong = [out.split(' ')[0]], None
    if right.startswith('value'):
        value, sides = minimum_cuts(graph)
        count = len(minimal_sets(graph[0], sides))
        lists = fewer_lists(graph[0], (count + 1) // 2 - 1)
        wrong = difference(out, graph, value, sides, lists)
        names = [f'sets: {count}'] + (['lists of fewer edges tried'] if lists else [])
    if wrong is None and out != right and not (options.any_edges and right.startswith('value')):
        wrong = f'the text is {right!r}'
    if status != 0 or err:
        wrong = f'status {status}, standard error {err!r}'
    if wrong is not None:
        wrong = f'DIFFERS seed {seed}, {kind}, words {words}: {wrong}\n  graph  {text!r}\n  answer {out!r}'
    return [f'graphs: {kind}'] + names, wrong


def add_options(parser: argparse.ArgumentParser) -> None:
    running.add_graphs(parser, 3000, workers='1,4,8', largest=graphs.SMALL)
    parser.add_argument('--any-edges', action='store_true', help='the edges may be any that do')


def main(options: argparse.Namespace) -> int:
    return running.judge_all(options, 'graphs', lambda program, k, seed: check(program, seed, options))
