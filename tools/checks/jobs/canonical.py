"""The text of `cactus` compared byte for byte with the canonical cactus of the set of minimum cuts, and that of `balanced` with the
first best side, for several numbers of workers.

    tools/check canonical [--program PATH] [--count 3000] [--seed 1] [--most 10] [--threads 4] [--workers 1,4,8]

The minimum cuts of a random connected graph are found by trying all sides, the canonical cactus is read off them by its definition
(`canonical_by_hand`), and both jobs are run with each of the numbers of workers. The printed cactus is judged by the definition a
second time: normal, every cycle of four nodes or more, blocks and cycles in their order, nodes numbered as they are entered. With
`--most` above 14 the graphs are rings, trees and glued blocks, and their sides are those that the program lists by `cuts`. The masses
of the vertices are random in half of the graphs.
"""
import argparse
from random import Random

from .. import answers_by_hand as answers
from .. import cactuses, graphs, metis, running
from .. import canonical_by_hand as canonical
from ..cuts_by_hand import balance, minimum_cuts


def listed_cuts(program: str, text: str) -> tuple[int, list[cactuses.Side]]:
    """The value and the sides that the program lists."""
    status, out, err = running.run_program(program, ['cuts'], text)
    if status != 0:
        raise ValueError(f'`cuts` ends with status {status} {err!r}')
    lines = out.split('\n')
    return int(lines[0].split()[1]), [tuple(map(int, line.split())) for line in lines[2:-1]]


def fault_of_text(text: str) -> str:
    """What the printed cactus breaks of the definition, or that it breaks none."""
    try:
        return canonical.fault_of_canonical(cactuses.read(text.encode())) or 'it is canonical, for other sides'
    except cactuses.Malformed as refusal:
        return f'the text breaks a rule at line {refusal.line}'


def difference(program: str, text: str, right: dict[str, str], options: argparse.Namespace) -> str | None:
    """What differs at some number of workers, or None; `right` has the text of each job."""
    for workers in options.workers.split(','):
        for job, wanted in right.items():
            status, out, err = running.run_program(program, [job, '--workers', workers], text)
            if (status, out, err) != (0, wanted, ''):
                fault = ': ' + fault_of_text(out) if job == 'cactus' and status == 0 else ''
                return f'{job} with {workers} workers{fault}\n  right  {wanted!r}\n  answer {(status, out, err)}'
    return None


def check(program: str, seed: int, options: argparse.Namespace) -> running.Verdict:
    """(names to count, what differs or None) of one random graph."""
    rng = Random(seed)
    kind, graph = graphs.connected_graph(rng, options.most)
    sizes, leading, masses = graphs.leading_of(rng, graph[0])
    text = metis.text_of(graph, leading, sizes)
    value, sides = minimum_cuts(graph) if graph[0] <= graphs.SMALL else listed_cuts(program, text)
    cactus = canonical.canonical(graph[0], value, sides)
    broken = canonical.fault_of_canonical(cactus)
    assert broken is None and set(cactuses.sides_of(cactus)) == set(sides), f'this script is wrong at seed {seed}: {broken}'
    best = max(sides, key=lambda side: balance(masses, side))  # the first of the best
    right = {'cactus': cactus.text(), 'balanced': answers.balanced_text(value, masses, best)}
    wrong = difference(program, text, right, options)
    if wrong is not None:
        wrong = f'DIFFERS seed {seed}, {kind}: {wrong}\n  graph  {text!r}'
    names = cactuses.features(cactus, sides)
    names += ['several sides of best balance'] if sum(balance(masses, side) == balance(masses, best) for side in sides) > 1 else []
    return [f'graphs: {kind}'] + [f'answers: {name}' for name in names], wrong


def add_options(parser: argparse.ArgumentParser) -> None:
    running.add_graphs(parser, 3000, workers='1,4,8', largest=None)


def main(options: argparse.Namespace) -> int:
    return running.judge_all(options, 'graphs', lambda program, k, seed: check(program, seed, options))
