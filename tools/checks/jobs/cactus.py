"""The job `cactus` on random graphs, compared with the minimum cuts found by trying all sides.

    tools/check cactus [--program PATH] [--count 5000] [--seed 1] [--most 10] [--threads 4] [--workers 1,4,64]

The text is read by a strict reader of its own, each cut of the cactus is cut by removing its edges and asking what node 0
still reaches, and the sides are compared with all minimum cuts; so is the value. The cactus must be normal too: every
node without vertices lies in two cycles or in three blocks or more, and no side stands for more cuts than it may.
Graphs of less than two vertices must give `no cut`, disconnected ones `disconnected C`.
"""
import argparse
from collections.abc import Sequence
from random import Random

from .. import cactuses, graphs, metis, running
from ..cuts_by_hand import minimum_cuts


def difference(text: str, graph: graphs.Graph, value: int,
               sides: Sequence[cactuses.Side]) -> tuple[str | None, cactuses.Cactus | None]:
    """(what differs or None, the cactus or None)"""
    try:
        cactus = cactuses.read(text.encode())
    except cactuses.Malformed as refusal:
        return f'the text breaks a rule at line {refusal.line}', None
    if cactus.value != value:
        return f'the value is {value}', cactus
    if cactus.n != graph[0]:
        return f'there are {graph[0]} vertices', cactus
    found = cactuses.sides_of(cactus)
    wanted = set(sides)
    if wanted != set(found):
        lost, extra = sorted(wanted - set(found)), sorted(set(found) - wanted)
        return f'minimum cuts that are not there: {lost[:5]}; sides that are no minimum cuts: {extra[:5]}', cactus
    if not cactuses.is_normal(cactus):
        return 'the cactus is not normal', cactus
    if cactuses.count_of_normal(cactus) != len(sides):
        return f'{len(sides)} minimum cuts, and by the formula {cactuses.count_of_normal(cactus)}', cactus
    return None, cactus


def check(program: str, seed: int, options: argparse.Namespace) -> running.Verdict:
    """(names to count, what differs or None) of one random graph."""
    rng = Random(seed)
    kind, graph = graphs.random_graph(rng, options.most)
    text = metis.text_of(graph)
    words = ['cactus'] + running.worker_words(options, rng)
    status, out, err = running.run_program(program, words, text)
    pieces = len(graphs.components_of(graph))
    names, wrong = [], None
    if graph[0] < 2 or pieces > 1:
        wanted = 'no cut\n' if graph[0] < 2 else f'disconnected {pieces}\n'
        names = ['no cut' if graph[0] < 2 else 'disconnected']
        if out != wanted:
            wrong = f'the text is {wanted!r}'
    elif status == 0:
        value, sides = minimum_cuts(graph)
        wrong, cactus = difference(out, graph, value, sides)
        if cactus is not None:
            names = cactuses.features(cactus, sides)
    if status != 0 or err:
        wrong = f'status {status}, standard error {err!r}'
    if wrong is not None:
        wrong = f'DIFFERS seed {seed}, {kind}, words {words}: {wrong}\n  graph  {text!r}\n  answer {out!r}'
    return [f'graphs: {kind}'] + [f'answers: {name}' for name in names], wrong


def add_options(parser: argparse.ArgumentParser) -> None:
    running.add_graphs(parser, 5000)


def main(options: argparse.Namespace) -> int:
    return running.judge_all(options, 'graphs', lambda program, k, seed: check(program, seed, options))
