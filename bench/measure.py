#!/usr/bin/env python3
"""Measures the program beside other programs on made graphs, writes bench/results/*.csv, and from these the made parts of the documents.

    apt-get install g++ pkg-config liblemon-dev libigraph-dev python3-networkx    # once; what is not installed is left out
    bench/measure.py [--program PATH] [--quick] [--only FAMILY,..] [--repetitions 4] [--limit 10] [--peers lemon-ni,..]
                     [--load-limit 0.3] [--results FOLDER]
    bench/measure.py --library PREFIX              # the calls of the C library that `./library PREFIX` put there
    /usr/bin/python3 bench/measure.py --largest    # the two largest graphs that the program takes, about ten minutes; needs python3-numpy
    bench/measure.py --write                       # writes the documents and plots from the results
    bench/measure.py --check                       # says whether they are what the results give; status 1 if not

The main set takes about a quarter of an hour on four idle processors. Each graph is made in a process of its own, and each program gets
the same file on its standard input. The jobs run with 1, 2 and 4 workers in turn, up to so many times; the least processor time, the
least time by the clock and the least peak memory count. Peers find the value alone; a run of more than a second is not repeated, and
the limit is in seconds of the processor. A peer is not given a graph if its times at smaller ones, carried on, pass three
times the limit.

`others` says how many processors other work kept busy meanwhile. If that is above --load-limit, a measurement is repeated, at most
twice, and the one with the least such work counts. Values and counts are compared with each other and with what is known of the family,
and all texts of one job with each other; up to 10,000 edges the whole text is read. A run that fails has its own row and ends nothing
else. Status 1 says that two answers differ or that the program failed.

--only replaces the rows of these families in results of the same commit; --insertions measures `grow` alone. --quick takes small graphs, for a trial of a minute; its
results go to a temporary folder unless --results names another.
"""
import argparse
import datetime
import hashlib
import math
import os
import random
import re
import resource
import sys
import tempfile
import time
from typing import NamedTuple

import contenders
import results
import solve
from checks import running
from checks.families import FAMILIES
from checks.jobs.growth import near_pairs

RESULTS = os.path.join(running.TOP, 'bench', 'results')
JOBS = ('value', 'count', 'cactus')
WORKERS = (1, 2, 4)
SIZES, LARGEST = (1_000, 10_000, 100_000), 1_000_000
LARGEST_OF = {'torus': 2_000_000}
OWN_LIMIT = 60          # seconds of the processor of one run of mincut
CLOCK = 6               # a run that takes so many times its limit by the clock is ended too
STEADY = 0.02           # seconds; shorter times are not carried on to larger graphs
HOPELESS = 3            # a peer is not tried if so many times the limit is foreseen
LONG = 1                # seconds; a longer run of a peer is not repeated
ENOUGH = 3              # seconds; runs of mincut that took so long together are not repeated
CHECKED = 10_000        # most edges of a graph of which the whole text is read
NO_SUCH_VERTEX = 7
INSERTED = ('ring', 'squares', 'tree', 'network_dual')
INSERTIONS = 1_000
UNKNOWN_LOAD = {'load_start': None, 'load_end': None, 'others': None}
FAULTS = (OSError, RuntimeError, MemoryError, ValueError)
TICKS = os.sysconf('SC_CLK_TCK')


class Graph(NamedTuple):
    """A graph in a file: its family, its numbers of vertices and edges, and what is known of it."""
    family: str
    path: str
    n: int
    m: int
    facts: dict


# Runs

def busy_seconds():
    """Processor seconds that the machine was busy so far, and that this process and its ended children took."""
    with open('/proc/stat') as file:
        ticks = [int(word) for word in file.readline().split()[1:9]]
    own = sum(sum(resource.getrusage(who)[:2]) for who in (resource.RUSAGE_SELF, resource.RUSAGE_CHILDREN))
    return (sum(ticks) - ticks[3] - ticks[4]) / TICKS, own


def digest(path):
    found = hashlib.sha256()
    with open(path, 'rb') as file:
        while piece := file.read(1 << 20):
            found.update(piece)
    return found.hexdigest()


def answer_in(path):
    """The value and the count at the head of an output."""
    with open(path, 'rb') as file:
        head = file.read(200).decode('ascii', 'replace').split('\n')[:2]
    found = {word: int(number) for word, number in (line.split(' ', 1) for line in head if re.fullmatch(r'(value|count) \d+', line))}
    cactus = re.match(r'cactus (\d+) ', head[0] + ' ')
    return {'value': int(cactus[1])} if cactus else found


class Contender:
    """A command for one graph, and all its runs."""
    def __init__(self, name, job, command, workers=None, wanted=0):
        self.name, self.job, self.command, self.workers, self.wanted = name, job, command, workers, wanted
        self.begin()

    def begin(self):
        self.runs, self.outcome, self.error, self.answer, self.text = [], 'done', '', {}, ''

    def is_done(self):
        taken = [run.wall for run in self.runs]
        if self.outcome != 'done':
            return True
        return sum(taken) > ENOUGH and len(taken) > 1 if self.name == 'mincut' else bool(taken) and self.runs[0].cpu > LONG

    def run(self, graph, options, folder):
        out = os.path.join(folder, 'out')
        limit = OWN_LIMIT if self.name == 'mincut' else options.limit
        run = running.run_measured(self.command, graph.path, out, CLOCK * limit, options.memory, limit)
        self.runs.append(run)
        if run.timed_out or run.status != self.wanted:
            self.outcome = 'over the limit' if run.timed_out else f'status {run.status}'
            self.error = run.error
        elif not self.wanted:
            self.answer = answer_in(out)
            # The same command gives the same text, so its first one is enough.
            self.text = self.text or (digest(out) if self.name == 'mincut' else '')

    def search(self):
        found = [re.match(r'search ([\d.]+)', run.error) for run in self.runs]
        return min((float(match[1]) for match in found if match), default=None)

    def figures(self):
        """The least of what was measured, and nothing if a run failed."""
        if not self.runs or self.outcome != 'done':
            return dict.fromkeys(('processor_s', 'clock_s', 'search_s', 'peak_mb'))
        least = {what: min(getattr(run, what) for run in self.runs) for what in ('cpu', 'wall', 'peak')}
        return {'processor_s': least['cpu'], 'clock_s': least['wall'], 'search_s': self.search(), 'peak_mb': least['peak'] / 1e6}

    def row(self, graph, circumstances):
        """The row of the results."""
        return {'family': graph.family, 'vertices': graph.n, 'edges': graph.m, 'job': self.job, 'contender': self.name,
                'workers': self.workers, 'outcome': self.outcome, 'value': self.answer.get('value'), 'count': self.answer.get('count'),
                'runs': len(self.runs), 'error': self.error, **self.figures(), **circumstances}


def one_attempt(group, graph, options, folder):
    """Runs the contenders in turn; answers the load and how many processors others kept busy."""
    load, (busy, own), start = os.getloadavg()[0], busy_seconds(), time.monotonic()
    for contender in group:
        contender.begin()
    for _ in range(options.repetitions):
        for contender in group:
            if not contender.is_done():
                contender.run(graph, options, folder)
    (busy_after, own_after), took = busy_seconds(), time.monotonic() - start
    others = max(0.0, (busy_after - busy - own_after + own) / took)
    return {'load_start': load, 'load_end': os.getloadavg()[0], 'others': others}, took


def measured(group, graph, options, folder):
    """The rows of contenders that run in turn, of the attempt during which others did least."""
    best = None
    for _ in range(1 + options.again):
        circumstances, took = one_attempt(group, graph, options, folder)
        if best is None or circumstances['others'] < best[0]['others']:
            best = circumstances, [contender.row(graph, circumstances) for contender in group]
        if circumstances['others'] <= options.load_limit or took < 0.5:
            break
    return best[1]


# What differs

def differences(rows, group, graph):
    """What the rows, the texts and what is known of the graph do not have in common."""
    wrong = [f'{row["job"]} with {row["workers"]} workers: {row["outcome"]} {row["error"]}' for row in rows
             if row['contender'] == 'mincut' and row['outcome'] != 'done']
    known = {word: graph.facts[word] for word in ('value', 'count') if word in graph.facts}
    for row in rows:
        for word in ('value', 'count'):
            if row[word] is not None and known.setdefault(word, row[word]) != row[word]:
                wrong.append(f'{row["contender"]} says {word} {row[word]}, and not {known[word]}')
    for job in JOBS:
        texts = {contender.text for contender in group if contender.job == job and contender.text}
        if len(texts) > 1:
            wrong.append(f'{job}: {len(texts)} different texts')
    return wrong


def whole_text_faults(options, graph, folder):
    """What is wrong with the whole texts of a small graph."""
    found = []
    for job in JOBS if graph.m <= CHECKED else ():
        out = os.path.join(folder, 'whole')
        if running.run_measured([options.program, job], graph.path, out, CLOCK * OWN_LIMIT).status == 0:
            found += solve.apart(solve.check_answer, [job], out, graph.path, graph.facts)[1]
    return found


# The main set

def is_hopeless(name, graph, rows, limit):
    """Whether the times of a peer at the smaller graphs of the family, carried on, pass the limit by far: by the growth from the last
    but one to the last, and at least in proportion to the edges. Also if it had no answer at a smaller one."""
    earlier = [row for row in rows if row['family'] == graph.family and row['contender'] == name]
    if not earlier:
        return False
    last = earlier[-1]
    if last['outcome'] != 'done':
        return True
    times = [row['search_s'] or row['processor_s'] for row in earlier]
    slope = 1.0
    if len(earlier) > 1 and times[-1] >= STEADY and last['edges'] > earlier[-2]['edges']:
        slope = max(1.0, math.log(times[-1] / max(times[-2], 1e-4)) / math.log(last['edges'] / earlier[-2]['edges']))
    return times[-1] >= STEADY and times[-1] * (graph.m / last['edges']) ** slope > HOPELESS * limit


def left_out(name, graph):
    """The row of a peer that is not given a graph."""
    contender = Contender(name, 'value', [])
    contender.outcome = 'not tried'
    return contender.row(graph, UNKNOWN_LOAD)


def own_groups(options, graph, is_largest):
    """The jobs of the program, each with all numbers of workers in turn; of the largest graph also a run that only reads."""
    words = [(job, [job]) for job in JOBS]
    groups = [[Contender('mincut', job, [options.program, *command, '--workers', str(workers)], workers)
               for workers in (WORKERS if is_largest else WORKERS[:1])] for job, command in words]
    if is_largest:
        reading = [options.program, 'part', '1', str(graph.n + 1), '--workers', '1']
        groups.append([Contender('mincut', 'reading', reading, 1, NO_SUCH_VERTEX)])
    return groups


def measure_graph(options, graph, is_largest, peers, earlier, folder):
    """(rows, what differs) of all contenders on one graph."""
    groups = own_groups(options, graph, is_largest)
    hopeless = [name for name in peers if is_hopeless(name, graph, earlier, options.limit)]
    groups += [[Contender(name, 'value', command)] for name, command in peers.items() if name not in hopeless]
    rows = [row for group in groups for row in measured(group, graph, options, folder)]
    rows += [left_out(name, graph) for name in hopeless]
    wrong = differences(rows, [contender for group in groups for contender in group], graph)
    return rows, wrong + whole_text_faults(options, graph, folder)


def sizes_of(family, options):
    """The numbers of edges that a family is asked for, and whether each is the largest."""
    if options.quick:
        return [(SIZES[0], False), (SIZES[1], True)]
    return [(size, False) for size in SIZES] + [(LARGEST_OF.get(family, LARGEST), True)]


def made_graph(family, edges, folder):
    path = os.path.join(folder, f'{family}.graph')
    return Graph(family, path, *solve.apart(solve.write_graph, family, FAMILIES[family][1](edges), 1, path))


def not_measured(family, edges, fault):
    """The row of a graph that could not be made or measured."""
    contender = Contender('mincut', 'value', [], 1)
    contender.outcome, contender.error = 'not measured', f'{type(fault).__name__} {fault}'
    return contender.row(Graph(family, '', 0, edges, {}), UNKNOWN_LOAD)


def shown(row):
    """A row in a few words."""
    name = f'{row["job"]}/{row["workers"]}' if row['contender'] == 'mincut' else row['contender']
    return f'{name} {row["clock_s"]:.3f}' if row['outcome'] == 'done' else f'{name} {row["outcome"]}'


def line_of(rows, wrong):
    """What is shown of a graph meanwhile."""
    first = rows[0]
    busiest = max((row['others'] for row in rows if row['others'] is not None), default=0)
    differing = ''.join(f'\n    DIFFERS: {text}' for text in wrong)
    return f'{first["family"]:>18} {first["edges"]:9,d}  {"  ".join(map(shown, rows))}  others {busiest:.1f}{differing}'


def measure_family(options, family, peers, folder):
    """(rows, what differs) of all sizes of a family."""
    rows, wrong = [], []
    for edges, is_largest in sizes_of(family, options):
        try:
            graph = made_graph(family, edges, folder)
            found, differing = measure_graph(options, graph, is_largest, peers, rows, folder)
            os.remove(graph.path)
        except FAULTS as fault:
            found = [not_measured(family, edges, fault)]
            differing = [f'{family} with {edges} edges is not measured: {fault}']
        print(line_of(found, differing), flush=True)
        rows, wrong = rows + found, wrong + differing
    return rows, wrong


# Insertions, and the largest graphs

def measure_insertions(options, folder):
    """(rows, what differs) of `grow` with many insertions between near vertices beside `cactus`, which solves the graph once."""
    rows, wrong = [], []
    for family in INSERTED:
        graph = made_graph(family, SIZES[1] if options.quick else SIZES[2], folder)
        pairs = near_pairs(random.Random(family), graph.n, INSERTIONS)
        words = ['grow', *(str(number) for pair in pairs for number in (*pair, 1))]
        group = [Contender('mincut', command[0], [options.program, *command, '--workers', '1'], 1) for command in (['cactus'], words)]
        found = measured(group, graph, options, folder)
        differing = differences(found, group, graph)
        rows += [dict(row, insertions=INSERTIONS if row['job'] == 'grow' else 0) for row in found]
        print(line_of(found, differing), flush=True)
        os.remove(graph.path)
        wrong += differing
    return rows, wrong


def measure_largest(options, folder):
    """(rows, what differs) of the graphs of bench/largest.py."""
    import largest
    rows, wrong = [], []
    for name in largest.GRAPHS:
        path = os.path.join(folder, f'{name}.graph')
        solve.apart(largest.write, path, name)
        graph = Graph(name, path, largest.VERTICES, largest.EDGES, {})
        for group in own_groups(options, graph, True):
            found = measured(group, graph, options, folder)
            differing = differences(found, group, graph)
            print(line_of(found, differing), flush=True)
            rows, wrong = rows + found, wrong + differing
        os.remove(path)
    return rows, wrong


# The whole measurement

def circumstances(options, peers):
    """What the first line of each file says; the load at the end and the minutes come later."""
    packages = sorted({contenders.PEERS[name].package for name in peers})
    return {'program': contenders.output_of([options.program, '--version']), 'commit': contenders.commit_of_crates(),
            'date': datetime.datetime.now(datetime.timezone.utc).strftime('%Y-%m-%d %H:%M UTC'), **contenders.machine_facts(),
            'load_start': f'{os.getloadavg()[0]:.2f}', 'load_end': '', 'minutes': '', 'repetitions': options.repetitions,
            'limit_s': options.limit, 'tunables': os.environ.get('GLIBC_TUNABLES', ''),
            'peers': ', '.join(map(contenders.version_of, packages)), 'flags': ' '.join(contenders.COMPILING),
            'is_trial': 'yes' if options.quick or options.note else 'no', 'note': options.note}


class Keeper:
    """Writes the files of results, as often as something was measured."""
    def __init__(self, options, peers):
        self.folder, self.about, self.start = options.results, circumstances(options, peers), time.monotonic()

    def keep(self, name, rows):
        minutes = self.about.get('minutes_before', 0) + (time.monotonic() - self.start) / 60
        about = {key: value for key, value in self.about.items() if key != 'minutes_before'}
        results.write(self.folder, name, {**about, 'load_end': f'{os.getloadavg()[0]:.2f}', 'minutes': f'{minutes:.1f}'}, rows)


def kept_rows(options, about):
    """The rows of the families that are not measured now; they must be of the same commit and machine."""
    if not options.only:
        return []
    before, rows = results.read(options.results, results.RUNS)
    if before and any(before.get(name) != str(about[name]) for name in ('commit', 'processor', 'processors')):
        sys.exit('the results are of another commit or machine: measure all families')
    join_measurements(about, before)
    return [row for row in rows if row['family'] not in options.only]


def join_measurements(about, before):
    """Lets what the first line says hold for the rows of both: when it began, how long both took, the most runs and the lower limit."""
    if before:
        about.update(date=before['date'], load_start=before['load_start'], minutes_before=float(before['minutes']),
                     repetitions=max(int(before['repetitions']), about['repetitions']), limit_s=min(int(before['limit_s']), about['limit_s']))


def measure(options, folder):
    """Measures all that the options say; answers how many answers differ."""
    peers = contenders.installed(options.peers, folder)
    keeper, wrong = Keeper(options, peers), []
    if options.largest:
        rows, wrong = measure_largest(options, folder)
        keeper.keep(results.LARGEST, rows)
        return len(wrong)
    if options.insertions:
        rows, wrong = measure_insertions(options, folder)
        keeper.keep(results.INSERTIONS, rows)
        return len(wrong)
    if options.library:
        calls = contenders.library_calls(options.library, folder)
        keeper.keep(results.CALLS, [dict(zip(results.COLUMNS[results.CALLS], call)) for call in calls])
        return 0
    rows = kept_rows(options, keeper.about)
    for family in options.only or results.KINDS:
        found, differing = measure_family(options, family, peers, folder)
        rows, wrong = rows + found, wrong + differing
        keeper.keep(results.RUNS, rows)
    if not options.only:
        found, differing = measure_insertions(options, folder)
        wrong += differing
        keeper.keep(results.INSERTIONS, found)
    return len(wrong)


def read_options():
    parser = argparse.ArgumentParser(description=__doc__, formatter_class=argparse.RawDescriptionHelpFormatter)
    parser.add_argument('--program', default=running.BUILT, help='the built program')
    parser.add_argument('--quick', action='store_true', help='small graphs, for a trial')
    parser.add_argument('--only', default=[], type=running.names_among(results.KINDS), help='families, with commas between them')
    parser.add_argument('--repetitions', type=int, default=4)
    parser.add_argument('--limit', type=int, default=10, help='seconds of the processor of one run of a peer')
    parser.add_argument('--memory', type=int, default=16_000, help='most address space of a run in MB')
    parser.add_argument('--peers', default='lemon-ni,lemon-ho,igraph,networkx', type=running.names_among(contenders.PEERS))
    parser.add_argument('--load-limit', type=float, default=0.3, help='processors that other work may keep busy')
    parser.add_argument('--again', type=int, default=2, help='how often a measurement is repeated at most')
    parser.add_argument('--library', help='where ./library installed the C library: measure its calls, and nothing else')
    parser.add_argument('--largest', action='store_true', help='measure the two largest graphs, and nothing else')
    parser.add_argument('--insertions', action='store_true', help='measure the insertions, and nothing else')
    parser.add_argument('--results', help='the folder of the results, bench/results if none is named')
    parser.add_argument('--note', default='', help='a word on a program that is not the proved one; the documents say that it is a trial')
    parser.add_argument('--write', action='store_true', help='write the documents from the results')
    parser.add_argument('--check', action='store_true', help='say whether the documents are what the results give')
    options = parser.parse_args()
    if options.quick:
        options.limit = min(options.limit, 1)
    if options.results is None:
        options.results = tempfile.mkdtemp(prefix='mincut-quick-') if options.quick else RESULTS
    return options


def main():
    options = read_options()
    if options.write or options.check:
        import performance
        return performance.write(options.results) if options.write else performance.check(options.results)
    # As ./mincut does, for all programs alike.
    os.environ.setdefault('GLIBC_TUNABLES', 'glibc.malloc.hugetlb=1')
    if not os.access(options.program, os.X_OK):
        sys.exit(f'there is no program {options.program}; `./mincut --build` builds it')
    options.program = running.ready(os.path.abspath(options.program))
    start = time.monotonic()
    with tempfile.TemporaryDirectory(prefix='mincut-measure-') as folder:
        differing = measure(options, folder)
    answers = f'{differing} answers differ' if differing else 'no answer differs'
    print(f'the results are in {options.results}, after {(time.monotonic() - start) / 60:.1f} minutes; {answers}')
    return 1 if differing else 0


if __name__ == '__main__':
    sys.exit(main())
