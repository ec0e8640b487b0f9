"""Lists of insertions given to the job `grow`, compared with solving anew after each; and how long either takes.

    tools/check growth [--program PATH] [--count 3000] [--seed 1] [--most 9] [--threads 4] [--workers 1,4,8]
    tools/check growth --times [--program PATH] [--vertices 100000] [--steps 20] [--seed 1] [--families ring,squares,..]

The first form takes random graphs of at most `most` vertices and one to eight random insertions, and compares the whole text: for each
insertion `step I value V count C`, found by trying all sides of the graph after it, and at last the canonical cactus. Some graphs are
in several components, some insertions name no vertex, pass the limit of the weights at one of them, or are no command at all.

The second form makes a large graph of each family, inserts `steps` edges with one call of `grow`, then solves each of the graphs
anew, by `count` after each insertion and by `cactus` after the last, compares all texts, and prints the seconds of either way by the
clock and of the processor.
"""
import argparse
import os
import sys
import tempfile
from collections.abc import Sequence
from random import Random

from .. import answers_by_hand as answers
from .. import graphs, metis, plain_mincut, running
from ..cuts_by_hand import minimum_cuts
from ..families import FAMILIES
from ..graphs import Edge, Graph, Pair


# Random lists

def random_graph(rng: Random, most: int) -> tuple[str, Graph]:
    if rng.random() < 0.06:
        kind, graph = graphs.random_graph(rng, most)
        return (kind, graph) if graph[0] > 1 else ('edge', (2, [(1, 2, 1)]))
    return graphs.connected_graph(rng, most)


def random_triples(rng: Random, graph: Graph) -> list[Edge]:
    """Insertions, most of them of little weight, and many between the vertices of few pairs, so that some cuts are left."""
    n = graph[0]
    near = rng.sample(range(1, n + 1), rng.randrange(2, n + 1))
    triples = []
    for _ in range(rng.choice([1, 1, 2, 3, 4, 8])):
        u, v = rng.sample(near if rng.random() < 0.8 else range(1, n + 1), 2)
        triples.append((u, v, rng.choice([1, 1, 1, 2, 3, 1000, 1 << 50])))
    return triples


def at_limit(rng: Random, words: list[str], graph: Graph) -> list[str]:
    """The words with one weight just below or above what the limit leaves for it."""
    place = rng.randrange(3, len(words), 3)
    left = answers.MOST_WEIGHT - sum(w for _, _, w in graph[1]) - sum(map(int, words[3:place:3]))
    return words[:place] + [str(left + rng.choice([-1, 0, 0, 1, 1, 5]))] + words[place + 1:]


def with_strangers(rng: Random, words: list[str], graph: Graph) -> list[str]:
    """The words with one to three of the named vertices out of range."""
    places = [place for place in range(1, len(words)) if place % 3]
    for place in rng.sample(places, min(len(places), rng.randrange(1, 4))):
        words = words[:place] + [str(rng.choice([0, graph[0] + 1, graph[0] + 2, (1 << 64) - 1]))] + words[place + 1:]
    return words


def with_fault(rng: Random, words: list[str], graph: Graph) -> list[str]:
    """The words with one of them changed or left out, so that they may be no command, or name no vertex."""
    place = rng.randrange(1, len(words))
    beyond = str(graph[0] + 1)
    other = rng.choice(['0', beyond, beyond, str(graph[0] + 2), words[1], words[2], str((1 << 64) - 1), str(1 << 64), '', 'x', '-1',
                        '007'])
    return rng.choice([words[:place] + [other] + words[place + 1:]] * 4 + [words[:place] + words[place + 1:], words[:1]])


def check(program: str, seed: int, options: argparse.Namespace) -> running.Verdict:
    """(names to count, what differs or None) of one random list of insertions into a random graph."""
    rng = Random(seed)
    kind, graph = random_graph(rng, options.most)
    words = ['grow'] + [str(number) for triple in random_triples(rng, graph) for number in triple]
    for change in (at_limit, with_strangers, with_fault):
        if rng.random() < 0.06:
            words = change(rng, words, graph)
    command = plain_mincut.command_of(words)
    status, outs, err = answers.wanted(command, graph, [1] * graph[0]) if command else (2, [''], plain_mincut.USAGE)
    text = metis.text_of(graph)
    words += running.worker_words(options, rng)
    answer = running.run_program(program, words, text)
    steps = [line.split() for line in outs[0].split('\n') if line.startswith('step')]
    names = [f'status {status}'] + ([] if status or steps else [outs[0].split(' ')[0]])
    values = [minimum_cuts(graph)[0]] + [int(step[3]) for step in steps] if steps else []
    names += ['step: the value stays' if a == b else 'step: the value rises' for a, b in zip(values, values[1:])]
    wrong = None
    if answer != (status, outs[0], err):
        wrong = f'DIFFERS seed {seed}, {kind}, words {words}\n  graph  {text!r}\n  right  {(status, outs[0], err)}\n  answer {answer}'
    return names, wrong


# Times

def near_pairs(rng: Random, n: int, steps: int) -> list[Pair]:
    """Pairs of vertices whose numbers are near, so that many minimum cuts part none of them."""
    pairs = []
    for _ in range(steps):
        u = rng.randrange(1, n)
        pairs.append((u, min(n, u + rng.randrange(1, 50))))
    return pairs


def any_pairs(rng: Random, n: int, steps: int) -> list[Pair]:
    return [tuple(rng.sample(range(1, n + 1), 2)) for _ in range(steps)]


def run_on(program: str, words: list[str], graph_file: str, folder: str) -> tuple[running.Measured, str]:
    """(run, text on standard output); a status other than 0 ends the script."""
    out_file = os.path.join(folder, 'answer')
    run = running.run_measured([program, *words], graph_file, out_file)
    if run.status != 0:
        sys.exit(f'{words[0]}: status {run.status} {run.error}')
    with open(out_file) as source:
        return run, source.read()


def write_grown(edges: dict[Pair, int], n: int, file: str) -> None:
    with open(file, 'w', buffering=1 << 20) as out:
        out.writelines(metis.lines_of((n, [(u, v, w) for (u, v), w in edges.items()])))


def solve_anew(program: str, n: int, edges: dict[Pair, int], triples: Sequence[Edge], folder: str) -> tuple[float, float, str]:
    """(seconds by the clock, of the processor, text) of solving the graph after each insertion; `edges` is changed."""
    file, wall, cpu, lines, value = os.path.join(folder, 'grown.graph'), 0.0, 0.0, [], 0
    for k, (u, v, w) in enumerate(triples, 1):
        pair = min(u, v), max(u, v)
        edges[pair] = edges.get(pair, 0) + w
        write_grown(edges, n, file)
        run, text = run_on(program, ['count'], file, folder)
        lines.append(f'step {k} ' + ' '.join(text.split()))
        wall, cpu = wall + run.wall, cpu + run.cpu
    run, text = run_on(program, ['cactus'], file, folder)
    return wall + run.wall, cpu + run.cpu, answers.lines(*lines) + text


HEAD = '          family  pairs  vertices     edges steps   grow s    cpu s   anew s    cpu s     MB'
TIMED = ['ring', 'ring_of_rings', 'squares', 'tree', 'network_dual']
WAYS = {'near': near_pairs, 'any': any_pairs}


def time_family(program: str, family: str, way: str, options: argparse.Namespace) -> str | None:
    """Prints a line for a family and a way to choose the insertions; answers what differs, or None."""
    rng = Random(f'{options.seed} {family} {way}')
    n, made, _ = FAMILIES[family][0](options.vertices, rng)
    edges = {(min(u, v), max(u, v)): w for u, v, w in made}
    triples = [(u, v, rng.choice([1, 1, 2])) for u, v in WAYS[way](rng, n, options.steps)]
    with tempfile.TemporaryDirectory() as folder:
        file = os.path.join(folder, 'first.graph')
        write_grown(edges, n, file)
        grown, text = run_on(program, ['grow', *(str(number) for triple in triples for number in triple)], file, folder)
        wall, cpu, right = solve_anew(program, n, edges, triples, folder)
    print(f'{family:>16} {way:>6} {n:9d} {len(edges):9d} {options.steps:5d} {grown.wall:8.2f} {grown.cpu:8.2f} {wall:8.2f} {cpu:8.2f}'
          f' {grown.peak / 1e6:6.0f}{"" if text == right else "  DIFFERS"}', flush=True)
    return None if text == right else f'DIFFERS family {family}, pairs {way}'


def times(options: argparse.Namespace) -> int:
    program = running.ready(options.program)
    print(HEAD)
    told = [time_family(program, family, way, options) for family in options.families for way in WAYS]
    return running.tell_end(options.job, f'{len(told)} large graphs', [text for text in told if text is not None])


def add_options(parser: argparse.ArgumentParser) -> None:
    running.add_graphs(parser, 3000, most=9, workers='1,4,8')
    parser.add_argument('--times', action='store_true', help='compare texts and times on large graphs')
    parser.add_argument('--vertices', type=int, default=100_000, help='with --times: about so many, 100000 if not named')
    parser.add_argument('--steps', type=int, default=20, help='with --times: how many insertions, 20 if not named')
    parser.add_argument('--families', type=running.names_among(FAMILIES), default=TIMED, help='some of those of bench/solve.py')


def main(options: argparse.Namespace) -> int:
    return times(options) if options.times else running.judge_all(options, 'lists', lambda program, k, seed: check(program, seed, options))
