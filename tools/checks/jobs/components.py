"""Graphs in several components: the answers of all jobs, compared with a reading of the definitions.

    tools/check components [--jobs value,cuts,part,count,balanced,cactus] [--program PATH] [--count 3000] [--seed 1] [--most 12]
                           [--threads 4] [--workers 1,4,64] [--large]

The minimum cuts of such a graph are the unions of components without vertex 1; where the graph has at most `most` vertices this too
is tried, on all sides. Most graphs have a few pieces of random kinds, some up to 200 vertices without an edge, and some stand just
on either side of a limit: of a list (status 6), of a count (status 8), of a best balance (status 9). `balanced` may print any best
union, and is judged by all sums that the masses of components can make. With `--large` the greatest table of sums that is allowed is
made once, in some hundred MB.
"""
import argparse
from collections.abc import Callable, Sequence
from random import Random

from .. import answers_by_hand as answers
from .. import metis, running
from ..cuts_by_hand import minimum_cuts
from ..graphs import Graph, components_of, many_pieces, path_and_singles, some_masses, some_pieces

JOBS = ['value', 'cuts', 'part', 'count', 'balanced', 'cactus', 'grow', 'augment']
LISTED = 4_000_000  # numbers of the longest list that is compared

Weighed = tuple[Graph, list[int]]


# Graphs, each with masses of its vertices

def small(rng: Random, most: int) -> Weighed:
    """Two to five pieces, at most so many vertices in all."""
    graph = some_pieces(rng, most)
    return graph, some_masses(rng, graph[0])


def many(rng: Random, most: int) -> Weighed:
    """Many components, most of them single vertices, and small masses."""
    graph = many_pieces(rng)
    return graph, [rng.choice([0, 1, 1, 2, 7, 40]) for _ in range(graph[0])]


def list_limit(rng: Random, most: int) -> Weighed:
    """A list just above its limit: c components, and the least n that is too large, or somewhat more."""
    count = rng.randrange(20, 32)
    n = max(count, answers.MOST_NUMBERS // (2 ** (count - 1) - 1) + 1) + rng.choice([0, 0, 1, 5])
    return path_and_singles(rng, n, count), [1] * n


def mass_limit(rng: Random, most: int) -> Weighed:
    """A mass just above the limit of a best balance."""
    count = rng.randrange(2, 9)
    total = answers.MOST_SUMS // count + rng.choice([0, 0, 1, 1000])
    ends = sorted(rng.randrange(total + 1) for _ in range(count - 1))
    return (count, []), [b - a for a, b in zip([0] + ends, ends + [total])]


def greatest_table(rng: Random, most: int) -> Weighed:
    """A mass just at the limit of a best balance."""
    return (4, []), [answers.MOST_SUMS // 4 - 1 - 12345, 0, 12000, 345]


Kind = Callable[[Random, int], Weighed]
# Each kind with its share.
KINDS: list[tuple[Kind, int]] = [(small, 12), (many, 4), (list_limit, 1), (mass_limit, 1)]


# Words, and what is right

def words_of(rng: Random, job: str, graph: Graph, masses: Sequence[int]) -> list[str]:
    n = graph[0]
    if job == 'part':
        return ['part'] + [str(rng.choice([0, n + 1]) if rng.random() < 0.03 else rng.randrange(1, n + 1)) for _ in range(2)]
    if job == 'cuts' and rng.random() < 0.5:
        some = sum(mass for mass in masses if rng.random() < 0.4)
        return ['cuts', '--least', str(min((1 << 64) - 1, rng.choice([0, 1, some, sum(masses) // 2])))]
    if job == 'grow':
        u, v = rng.sample(range(1, n + 1), 2)
        return ['grow', str(u), str(v), str(rng.randrange(1, 5))]
    return [job]


def is_listed(job: str, graph: Graph) -> bool:
    """Whether the list of this graph is refused, or short enough to be compared."""
    numbers = (2 ** (len(components_of(graph)) - 1) - 1) * graph[0]
    return job not in ('cuts', 'part') or numbers <= LISTED or numbers > answers.MOST_NUMBERS


def check_unions(graph: Graph, most: int) -> str | None:
    """What differs between the unions of components and all sides of least weight, or None."""
    if graph[0] > most:
        return None
    unions = answers.unions_of(components_of(graph))
    return None if minimum_cuts(graph) == (0, unions) else 'the unions of components are not the minimum cuts'


def difference(answer: running.Answer, right: answers.Right, graph: Graph, masses: Sequence[int]) -> str | None:
    status, outs, err = right
    if outs is None and (answer[0], answer[2]) == (0, ''):
        return answers.fault_of_balanced(components_of(graph), masses, answer[1])
    if outs is None:
        return 'the status is 0 and standard error empty'
    return None if (answer[0], answer[2]) == (status, err) and answer[1] in outs else f'right is {str((status, outs[:3], err))[:2000]}'


def check(program: str, job: str, kind: Kind | None, seed: int, options: argparse.Namespace) -> running.Verdict:
    """(names to count, what differs or None) of one random graph."""
    rng = Random(seed)
    kind = kind or rng.choices([kind for kind, _ in KINDS], [share for _, share in KINDS])[0]
    graph, masses = kind(rng, options.most)
    while not is_listed(job, graph) or len(components_of(graph)) < 2:
        graph, masses = kind(rng, options.most)
    words = words_of(rng, job, graph, masses)
    right = answers.wanted(words, graph, masses)
    words += running.worker_words(options, rng)
    leading = None if masses == [1] * graph[0] and rng.random() < 0.7 else [[mass] for mass in masses]
    text = metis.text_of(graph, leading)
    answer = running.run_program(program, words, text)
    wrong = difference(answer, right, graph, masses) or check_unions(graph, options.most)
    if wrong is not None:
        wrong = f'DIFFERS seed {seed}, {kind.__name__}, words {words}: {wrong}\n  graph  {text[:2000]!r}\n  answer {str(answer)[:2000]}'
    return [f'{job}: status {right[0]}', f'graphs: {kind.__name__}'], wrong


def add_options(parser: argparse.ArgumentParser) -> None:
    running.add_graphs(parser, 3000, most=12)
    parser.add_argument('--jobs', type=running.names_among(JOBS), default=JOBS[:6], help='some of ' + ','.join(JOBS))
    parser.add_argument('--large', action='store_true', help='make the greatest table of sums that is allowed, too')


def main(options: argparse.Namespace) -> int:
    def one(program, k, seed):
        if options.large and k == 0:
            return check(program, 'balanced', greatest_table, seed, options)
        return check(program, options.jobs[k % len(options.jobs)], None, seed, options)

    return running.judge_all(options, 'graphs', one)
