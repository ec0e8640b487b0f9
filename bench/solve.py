#!/usr/bin/env python3
"""Time and memory of a job on graphs of known kinds that grow, with the answers checked where a formula gives them.

    bench/solve.py [--program PATH] [--families ring,grid,..] [--job value] [--size N] [--steps 4] [--by edges|vertices]
                   [--repetitions 3] [--timeout 60] [--memory MB] [--workers N] [--seed 1] [--keep FOLDER] [--compare COMMAND]

It makes a graph of each family (`tools/checks/families.py`) with about `size` edges (or vertices), then twice as many, and so on, and
runs the job on it: one of the program, or 'cuts --least' with half of the best balance. `part` gets vertex 1 and that of half the
number, `grow` twelve insertions between vertices whose numbers are near. It prints the best seconds by the clock and of the processor,
the peak memory, the bytes printed, and what was checked (some printed sides are weighed in the graph); then, over the steps, the
exponents of growth in vertices and edges, and where more bytes are printed than there are edges in both together. COMMAND is run on
the same files: `{}` in it is the file's path, without it the file comes on standard input. No gate runs this script. Exit status 1
where an answer differs, or where the program ends with a status other than 0. A run that was stopped at the time limit is no
difference, nor is an answer that is refused as too large (statuses 6 and 8), whose growth is told apart.
"""
import argparse
import math
import multiprocessing
import os
import random
import shlex
import sys
import tempfile
from concurrent.futures import ProcessPoolExecutor

from checks import cactuses, metis, running
from checks.answers_by_hand import triples_of
from checks.cuts_by_hand import balance
from checks.families import FAMILIES
from checks.jobs.augment import read_text
from checks.jobs.growth import near_pairs

JOBS = [*running.JOBS, 'cuts --least']
TOO_LARGE = (6, 8)  # statuses of answers that would be too large
INSERTIONS = 12


def words_of(job, n, facts, seed):
    """The words of the command for a graph of so many vertices."""
    if job == 'grow':
        return ['grow', *(str(number) for u, v in near_pairs(random.Random(seed), n, INSERTIONS) for number in (u, v, 1))]
    if job == 'cuts --least':
        return ['cuts', '--least', str(max(1, facts.get('balance', n // 2) // 2))]
    return [job, *{'part': ['1', str(max(2, n // 2))], 'trial': [str(n)]}.get(job, [])]


def write_graph(family, n, seed, file):
    """Makes the graph and writes it as METIS text; answers (vertices, edges, facts with the least degree)."""
    n, edges, facts = FAMILIES[family][0](n, random.Random(f'{seed} {family} {n}'))
    degree = [0] * (n + 1)
    for u, v, w in edges:
        degree[u] += w
        degree[v] += w
    with open(file, 'w', buffering=1 << 20) as out:
        out.writelines(metis.lines_of((n, edges)))
    return n, len(edges), dict(facts, degree=min(degree[1:]))


# What is checked

class Check:
    """Collects what was compared and what differs."""
    def __init__(self):
        self.same, self.wrong = [], []

    def equal(self, name, got, wanted):
        if got == wanted:
            self.same.append(name)
        else:
            self.wrong.append(f'{name} is {got} and not {wanted}')

    def value(self, got, facts):
        if 'value' in facts:
            self.equal('value', got, facts['value'])
        elif got > facts['degree']:
            self.wrong.append(f'value {got} is above the least degree {facts["degree"]}')
        else:
            self.same.append('value <= least degree')

    def sides(self, sides, edges, value):
        """Each of these sides weighs the value."""
        weights = []
        for side in sides:
            inside = set(side)
            weights.append(sum(w for u, v, w in edges if (u in inside) != (v in inside)))
        other = [(len(side), weight) for side, weight in zip(sides, weights) if weight != value]
        if other:
            self.wrong.append(f'{len(other)} of {len(sides)} sides weigh another number, as one of {other[0][0]} vertices with {other[0][1]}')
        else:
            self.same.append(f'{len(sides)} weighed')


def samples(m):
    """How many cuts are weighed in a graph of m edges."""
    return max(2, min(20, 1_000_000 // max(m, 1)))


def some_sides(cactus, count):
    """The sides of some random cuts of a cactus."""
    rng = random.Random(1)
    sides = []
    for _ in range(count if cactus.bridges or cactus.cycles else 0):
        number = rng.randrange(len(cactus.bridges) + sum(map(len, cactus.cycles)))
        if number < len(cactus.bridges):
            removed = {('bridge', number)}
        else:
            k = rng.choices(range(len(cactus.cycles)), [len(cycle) for cycle in cactus.cycles])[0]
            removed = {('cycle', k, place) for place in rng.sample(range(len(cactus.cycles[k])), 2)}
        sides.append(cactuses.side_without(cactus, removed))
    return sides


def content(file):
    with open(file, 'rb') as source:
        return source.read()


def check_cactus(check, text, graph, facts):
    n, edges = graph
    cactus = cactuses.read(text)
    check.value(cactus.value, facts)
    check.equal('n', cactus.n, n)
    check.sides(some_sides(cactus, samples(len(edges))), edges, cactus.value)
    check.equal('normal', cactuses.is_normal(cactus), True)
    if 'count' in facts:
        check.equal('count', cactuses.count_of_normal(cactus), facts['count'])
    if 'shape' in facts:
        check.equal('shape', (len(cactus.nodes), len(cactus.bridges), len(cactus.cycles)), facts['shape'])


def check_grown(check, text, graph, triples):
    """The last step tells of the cactus that stands below it."""
    *steps, cactus = text.split(b'\n', len(triples))
    steps = [list(map(int, step.split()[1::2])) for step in steps]
    check.equal('steps', [step[0] for step in steps], list(range(1, len(triples) + 1)))
    check.equal('ascending', sorted(step[1] for step in steps), [step[1] for step in steps])
    check_cactus(check, cactus, (graph[0], graph[1] + triples), dict(zip(('value', 'count'), steps[-1][1:])))


def check_augmented(check, text, graph, facts):
    """The sets are apart, each has an end of one of half as many edges, and some are weighed."""
    value, pairs, sets = read_text(text.decode()) or (None, [], [])
    check.value(value, facts)
    check.equal('edges', len(pairs), (len(sets) + 1) // 2)
    check.equal('sets apart', len(set().union(*sets)), sum(map(len, sets)))
    ends = {vertex for pair in pairs for vertex in pair}
    check.equal('sets without an end', sum(map(ends.isdisjoint, sets)), 0)
    check.sides(random.Random(1).sample(sets, min(len(sets), samples(len(graph[1])))), graph[1], value)


def check_listing(check, out_file, words, graph, facts):
    """A list may be far longer than the memory is large, so it is read line by line."""
    n, edges = graph
    with open(out_file, 'rb') as source:
        value, count = [int(next(source).split()[1]) for _ in range(2)]
        chosen = set(random.Random(1).sample(range(1, count + 1), min(count, samples(len(edges)))))
        sides, lines = [], 0
        for lines, line in enumerate(source, 1):
            if lines in chosen:
                sides.append(list(map(int, line.split())))
    check.value(value, facts)
    check.equal('lines', lines, count)
    check.sides(sides, edges, value)
    if words == ['cuts'] and 'count' in facts:
        check.equal('count', count, facts['count'])
    if words[0] == 'part':
        check.equal('parted', all((int(words[1]) in side) != (int(words[2]) in side) for side in sides), True)
    elif len(words) > 1:
        check.equal('balanced', all(balance([1] * n, side) >= int(words[2]) for side in sides), True)


def check_facts(check, text, job, graph, facts):
    """The texts of few lines."""
    n, edges = graph
    found = dict(line.split(' ', 1) for line in text.decode().splitlines())
    check.value(int(found['value']), facts)
    if job in ('count', 'trial') and 'count' in facts:
        check.equal('count', int(found['count']), facts['count'])
    if job in ('balanced', 'trial') and 'balance' in facts:
        check.equal('balance', int(found['balance']), facts['balance'])
    if job == 'balanced':
        side = list(map(int, found['side'].split()))
        check.equal('size of the side', balance([1] * n, side), int(found['balance']))
        check.sides([side], edges, int(found['value']))
    if job == 'trial':
        check.equal('size', (int(found['vertices']), int(found['edges'])), (n, len(edges)))


def check_answer(words, out_file, graph_file, facts):
    """(names of what is as it should be, what is not) of the text that the command printed."""
    graph, check = metis.read(content(graph_file), trusted=True).graph, Check()
    try:
        if words[0] in ('cuts', 'part'):
            check_listing(check, out_file, words, graph, facts)
        elif words[0] == 'cactus':
            check_cactus(check, content(out_file), graph, facts)
        elif words[0] == 'grow':
            check_grown(check, content(out_file), graph, triples_of(words))
        elif words[0] == 'augment':
            check_augmented(check, content(out_file), graph, facts)
        else:
            check_facts(check, content(out_file), words[0], graph, facts)
    except (cactuses.Malformed, KeyError, IndexError, TypeError, ValueError, StopIteration) as fault:
        check.wrong.append(f'the text is not as it should be: {type(fault).__name__} {fault}')
    return check.same, check.wrong


# Running

def apart(function, *arguments):
    """Calls the function in a process of its own, so that its memory is not counted as the program's."""
    with ProcessPoolExecutor(1, multiprocessing.get_context('fork')) as pool:
        return pool.submit(function, *arguments).result()


def run_best(command, source_file, out_file, options):
    """The best of several runs, by the clock; a run that fails is the answer at once."""
    best = None
    for _ in range(options.repetitions):
        now = running.run_measured(command, source_file, out_file, options.timeout, options.memory)
        if now.timed_out or now.status != 0:
            return now
        if best is None or now.wall < best.wall:
            best = now
    return best


MOST_OF_A_TRIAL = 100_000
SHORTEST = 0.02  # seconds; what takes less is mostly the start of the program


def exponent(points):
    """The slope of the straight line through the logarithms; None where times are too short or too few."""
    points = [(math.log(size), math.log(seconds)) for size, seconds in points if seconds >= SHORTEST]
    if len(points) < 2 or points[0][0] == points[-1][0]:
        return None
    mid_x = sum(x for x, _ in points) / len(points)
    mid_y = sum(y for _, y in points) / len(points)
    return sum((x - mid_x) * (y - mid_y) for x, y in points) / sum((x - mid_x) ** 2 for x, _ in points)


def print_growth(name, rows):
    """The exponents over the steps, in vertices and in edges, and where much is printed also in edges and bytes printed."""
    sizes = [('vertices', lambda row: row[0]), ('edges', lambda row: row[1])]
    if rows and rows[-1][3] > rows[-1][1]:
        sizes.append(('edges and bytes printed', lambda row: row[1] + row[3]))
    found = []
    for title, seconds in [('seconds', lambda run: run.wall), ('of the processor', lambda run: run.cpu)]:
        slopes = [(word, exponent([(size(row), seconds(row[2])) for row in rows])) for word, size in sizes]
        if all(slope is not None for _, slope in slopes):
            found.append(f'{title} as ' + ', '.join(f'{word}^{slope:.2f}' for word, slope in slopes))
    print(f'{name:>16} grows: ' + ('; '.join(found) or 'too short to tell'))


def print_row(name, row, remark):
    n, m, run, printed = row
    print(f'{name:>16} {n:9d} {m:9d} {run.wall:9.3f} {run.cpu:9.3f} {run.peak / 1e6:9.0f} {printed:11d}  {remark}', flush=True)


def remark_of(run, words, out_file, graph_file, facts):
    """(remark of the row, whether something differs)"""
    if run.timed_out:
        return 'time is up', False
    if run.status != 0:
        return f'status {run.status} {run.error}', run.status not in TOO_LARGE
    same, wrong = apart(check_answer, words, out_file, graph_file, facts)
    if wrong:
        return 'DIFFERS: ' + '; '.join(wrong), True
    return ', '.join(same), False


def sizes_of(family, options):
    """The numbers of vertices that the family is asked for."""
    for step in range(options.steps):
        size = options.size << step
        wanted = FAMILIES[family][1](size) if options.by == 'edges' else size
        if options.job != 'trial' or wanted <= MOST_OF_A_TRIAL:
            yield wanted


def compared(row, file, out_file, options):
    """The row of the other command on the same file; prints it."""
    run = run_best([word.replace('{}', file) for word in shlex.split(options.compare)], file, out_file, options)
    other = (*row[:2], run, os.path.getsize(out_file))
    print_row('compared', other, 'time is up' if run.timed_out else f'status {run.status}')
    return other


def measure_family(family, options, folder):
    """Runs all steps of one family; answers how many answers differ."""
    rows, others, differing = {0: []}, [], 0
    out_file = os.path.join(folder, 'answer')
    for wanted in sizes_of(family, options):
        file = os.path.join(folder, f'{family}_{wanted}_{options.seed}.graph')
        n, m, facts = apart(write_graph, family, wanted, options.seed, file)
        words = words_of(options.job, n, facts, options.seed)
        workers = ['--workers', str(options.workers)] if options.workers else []
        run = run_best([options.program, *words, *workers], file, out_file, options)
        row = n, m, run, os.path.getsize(out_file)
        remark, differs = remark_of(run, words, out_file, file, facts)
        print_row(family, row, remark)
        differing += differs
        rows.setdefault(run.status, []).append(row)
        if options.compare:
            others.append(compared(row, file, out_file, options))
        if not options.keep:
            os.remove(file)
        os.remove(out_file)
        if run.status not in (0, *TOO_LARGE):
            break
    for status, some in rows.items():
        if status in (0, *TOO_LARGE):
            print_growth(f'{family}, status {status},' if status else family, some)
    if others:
        print_growth('compared', [row for row in others if row[2].status == 0])
    return differing


def main():
    parser = argparse.ArgumentParser(description=__doc__, formatter_class=argparse.RawDescriptionHelpFormatter)
    running.add_program(parser)
    parser.add_argument('--families', default=','.join(FAMILIES))
    parser.add_argument('--job', default='value', choices=JOBS)
    parser.add_argument('--size', type=int, help='edges or vertices of the first graph; 1000, or 250 for a trial')
    parser.add_argument('--steps', type=int, default=4)
    parser.add_argument('--by', default='edges', choices=['edges', 'vertices'])
    parser.add_argument('--repetitions', type=int, default=3)
    parser.add_argument('--timeout', type=float, default=60)
    parser.add_argument('--memory', type=int, default=0, help='most memory of the program in MB')
    parser.add_argument('--workers', type=int, default=0)
    parser.add_argument('--seed', type=int, default=1)
    parser.add_argument('--keep', help='a folder for the graphs, which are left there')
    parser.add_argument('--compare', help='a further command to be run on the same files')
    options = parser.parse_args()
    options.program = running.ready(options.program)
    if options.size is None:
        options.size = 250 if options.job == 'trial' else 1000
    families = ['squares'] if options.job == 'trial' else options.families.split(',')
    for family in families:
        if family not in FAMILIES:
            parser.error(f'no family {family}; there are {", ".join(FAMILIES)}')
    if options.keep:
        os.makedirs(options.keep, exist_ok=True)
    print(f'{"family":>16} {"vertices":>9} {"edges":>9} {"seconds":>9} {"cpu s":>9} {"peak MB":>9} {"printed":>11}  checked')
    with tempfile.TemporaryDirectory() as folder:
        differing = sum(measure_family(family, options, options.keep or folder) for family in families)
    print('no answer differs' if not differing else f'{differing} answers differ')
    sys.exit(1 if differing else 0)


if __name__ == '__main__':
    main()
