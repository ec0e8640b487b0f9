"""The jobs that list, count and choose minimum cuts, on random graphs, compared with all sides tried by hand.

    tools/check listing [--jobs value,cuts,part,count,balanced,trial] [--program PATH] [--count 5000] [--seed 1] [--most 10]
                        [--threads 4] [--workers 1,4,64]

Each graph is given to one of the named jobs, in turn. `value`, `cuts`, `count` and `part U V` (random pairs, equal ones and numbers out of
range among them) have one right text, and it is compared whole. Half of the graphs give their vertices weights, up to three and
often 0, some with sizes before them; `cuts` asks for a least balance in half of its runs. `balanced` prints the first side of best
balance, and any where the graph is in several components (`tools/check components` has more of these). `trial N` reads nothing and is
compared with the formulas of its graph.
"""
import argparse
from collections.abc import Sequence
from random import Random

from .. import answers_by_hand as answers
from .. import graphs, metis, running

# The jobs whose texts are compared here; that of `cactus` is by `tools/check cactus`.
JOBS = [job for job in running.JOBS if job not in ('cactus', 'augment', 'grow')]


def least_of(rng: Random, masses: Sequence[int]) -> int:
    """A least balance that is asked for: near the halves of the masses of some vertices."""
    some = sum(mass for mass in masses if rng.random() < 0.4)
    return max(0, min((1 << 64) - 1, rng.choice([0, 1, some, some + 1, sum(masses) // 2])))


def words_of(rng: Random, job: str, n: int, masses: Sequence[int]) -> list[str]:
    """The words of the command."""
    if job == 'cuts' and rng.random() < 0.5:
        return ['cuts', '--least', str(least_of(rng, masses))]
    if job == 'trial':
        return ['trial', str(rng.choice([12, 13, 15, 16, 2000, 4000, rng.randrange(12, 20001)]))]
    if job != 'part':
        return [job]
    out_of_range = [0, n + 1, n + 2, (1 << 64) - 1]
    u = rng.choice(out_of_range) if n == 0 or rng.random() < 0.03 else rng.randrange(1, n + 1)
    v = rng.choice(out_of_range) if n == 0 or rng.random() < 0.03 else rng.randrange(1, n + 1)
    if rng.random() < 0.1:
        v = u
    zeros = '0' * rng.choice([0, 0, 0, 20 - len(str(u))])
    return [job, zeros + str(u), str(v)]


def wanted(words: list[str], graph: graphs.Graph, masses: Sequence[int]) -> answers.Right:
    """The right answers: (status, list of the texts on standard output that are right, standard error)."""
    return (0, [answers.trial_text(int(words[1]))], '') if words[0] == 'trial' else answers.wanted(words, graph, masses)


def kind_of_answer(words: list[str], right: answers.Right) -> str:
    status, outs, _ = right
    if status == 7:
        return 'part: vertex out of range'
    if outs[0].startswith('no cut'):
        return words[0] + ': no cut'
    if status or outs[0].startswith('value 0\n'):
        return words[0] + (': several components' if status == 0 else f': status {status}')
    if words[0] == 'part':
        equal = int(words[1]) == int(words[2])
        return 'part: equal vertices' if equal else 'part: no cut parts them' if 'cuts 0\n' in outs[0] else 'part: some cuts'
    if words[0] == 'cuts' and len(words) > 1:
        return 'cuts of a least balance: none' if 'cuts 0\n' in outs[0] else 'cuts of a least balance: some'
    return words[0] + ': an answer'


def check(program: str, job: str, seed: int, options: argparse.Namespace) -> running.Verdict:
    """(names to count, what differs or None) of one random graph."""
    rng = Random(seed)
    kind, graph = graphs.random_graph(rng, options.most)
    sizes, leading, masses = graphs.leading_of(rng, graph[0])
    words = words_of(rng, job, graph[0], masses)
    right = wanted(words, graph, masses)
    words += running.worker_words(options, rng)
    text = '' if job == 'trial' else metis.text_of(graph, leading, sizes)
    status, out, err = running.run_program(program, words, text)
    wrong = None
    if status != right[0] or out not in right[1] or err != right[2]:
        wrong = f'DIFFERS seed {seed}, {kind}, words {words}\n  graph  {text!r}\n  right  {right}\n  answer {(status, out, err)}'
    return [kind_of_answer(words, right)], wrong


def add_options(parser: argparse.ArgumentParser) -> None:
    running.add_graphs(parser, 5000)
    parser.add_argument('--jobs', type=running.names_among(JOBS), default=JOBS, help='some of ' + ','.join(JOBS))


def main(options: argparse.Namespace) -> int:
    jobs = options.jobs
    return running.judge_all(options, 'graphs', lambda program, k, seed: check(program, jobs[k % len(jobs)], seed, options))
