#!/usr/bin/env python3
"""How time grows on closed bands of all kinds and on expanders, which are the slow corners of searches for cuts.

    bench/bands.py [--program PATH] [--kinds WORDS ..] [--jobs value,count] [--vertices 20000] [--steps 3] [--repetitions 3]
                   [--timeout 30] [--compare COMMAND] [--instructions]

Each kind whose name has some of the words in it, such as 'torus of 4', is made with about so many vertices, then twice as many, and so
on, numbered along where the name does not say otherwise. For each job the table has the least processor time of each step, in seconds,
and the exponent of its growth in the number of edges, over the steps that take a fiftieth of a second or more; the values that the jobs
print are compared. COMMAND is run on the same files, its input the graph. With --instructions millions of instructions are counted in
place of seconds, by `valgrind`, once for each step: where these grow as the edges do and the time does not, the caches make the
difference. No gate runs this script. Exit status 1 where values differ or a run fails; a run that was stopped at the time limit ends
its row.
"""
import argparse
import os
import random
import re
import shlex
import subprocess
import sys
import tempfile

import solve
from checks import metis, running
from checks.families import mesh, ring_edges, shuffled


def joined_ring(n, distance, ring_weight=1, chord_weight=1):
    """A ring joined to itself at a distance."""
    table = {}
    for u, v, w in ring_edges(range(1, n + 1), ring_weight) + [(v + 1, (v + distance) % n + 1, chord_weight) for v in range(n)]:
        pair = min(u, v), max(u, v)
        table[pair] = table.get(pair, 0) + w
    return n, [(u, v, w) for (u, v), w in table.items()]


def moebius(n, ring_weight, chord_weight):
    n -= n % 2
    return n, ring_edges(range(1, n + 1), ring_weight) + [(v, n // 2 + v, chord_weight) for v in range(1, n // 2 + 1)]


def torus(n, rows):
    return rows * (n // rows), mesh(rows, n // rows, True)


def prism(n, ring_weight, rung_weight):
    k = n // 2
    edges = ring_edges(range(1, k + 1), ring_weight) + ring_edges(range(k + 1, 2 * k + 1), ring_weight)
    return 2 * k, edges + [(v, k + v, rung_weight) for v in range(1, k + 1)]


def ladder(n, side_weight, rung_weight):
    k = n // 2
    edges = [(at + v, at + v + 1, side_weight) for at in (0, k) for v in range(1, k)]
    return 2 * k, edges + [(v, k + v, rung_weight) for v in range(1, k + 1)]


def matched_ring(n, rng):
    """A ring with a random perfect matching."""
    n -= n % 2
    ends = list(range(1, n + 1))
    rng.shuffle(ends)
    table = {(min(u, v), max(u, v)): w for u, v, w in ring_edges(range(1, n + 1))}
    for u, v in zip(ends[::2], ends[1::2]):
        pair = min(u, v), max(u, v)
        table[pair] = table.get(pair, 0) + 1
    return n, [(u, v, w) for (u, v), w in table.items()]


def regular(n, degree, rng):
    """Rings through all vertices, each in an order at random, and for an odd degree a matching."""
    n -= n % 2
    table = {}
    for turn in range((degree + 1) // 2):
        names = list(range(1, n + 1))
        rng.shuffle(names)
        step = 2 if 2 * turn + 1 == degree else 1
        for u, v, w in ring_edges(names)[::step]:
            pair = min(u, v), max(u, v)
            table[pair] = table.get(pair, 0) + w
    return n, [(u, v, w) for (u, v), w in table.items()]


def hypercube(n, most, rng):
    """A hypercube with weights of 1 to most at random, numbered at random."""
    k = n.bit_length()
    edges = [(v + 1, (v | 1 << i) + 1, rng.randint(1, most)) for v in range(1 << k) for i in range(k) if not v >> i & 1]
    return 1 << k, shuffled(1 << k, edges, rng)


def with_heavy_edge(made):
    n, edges = made
    u, v, w = edges[len(edges) // 3]
    return n, [*edges[:len(edges) // 3], (u, v, 5 * w), *edges[len(edges) // 3 + 1:]]


def with_vertex_on_edge(made):
    n, edges = made
    at = len(edges) // 3
    u, v, w = edges[at]
    return n + 1, [*edges[:at], (u, n + 1, w), (v, n + 1, w), *edges[at + 1:]]


def bands():
    """The bands by name, each a function of about how many vertices."""
    found = {f'moebius {a},{b}': lambda n, a=a, b=b: moebius(n, a, b) for a, b in ((1, 1), (2, 1), (3, 1), (5, 1))}
    found |= {f'torus of {p}': lambda n, p=p: torus(n, p) for p in range(3, 9)}
    found |= {f'ring joined at {word} {a},{b}': lambda n, at=at, a=a, b=b: joined_ring(n, at(n), a, b) for word, at in (
        ('3', lambda n: 3), ('5', lambda n: 5), ('a third', lambda n: n // 3), ('half less 1', lambda n: n // 2 - 1)) for a, b in ((1, 1), (2, 1), (1, 2))}
    found |= {f'prism {a},{b}': lambda n, a=a, b=b: prism(n, a, b) for a, b in ((1, 1), (1, 2), (2, 1))}
    found |= {f'ladder {a},{b}': lambda n, a=a, b=b: ladder(n, a, b) for a, b in ((1, 1), (1, 2), (2, 1))}
    for name in ('moebius 2,1', 'torus of 4', 'ring joined at a third 1,1', 'prism 1,1'):
        found[f'{name}, one edge heavy'] = lambda n, name=name: with_heavy_edge(found[name](n))
        found[f'{name}, a vertex on an edge'] = lambda n, name=name: with_vertex_on_edge(found[name](n))
    return found


def kinds():
    """All kinds: bands numbered along and at random, and expanders."""
    found = {}
    for name, made in bands().items():
        found[name] = lambda n, rng, made=made: made(n)
        found[f'{name}, at random'] = lambda n, rng, made=made: (lambda graph: (graph[0], shuffled(*graph, rng)))(made(n))
    found['regular of degree 3'] = lambda n, rng: regular(n, 3, rng)
    found['regular of degree 4'] = lambda n, rng: regular(n, 4, rng)
    found['ring with a matching'] = lambda n, rng: matched_ring(n, rng)
    found['hypercube, weights 1 to 16'] = lambda n, rng: hypercube(n, 16, rng)
    return found


def written(kind, n, path):
    """Makes a graph of the kind and writes it; answers (vertices, edges)."""
    n, edges = kinds()[kind](n, random.Random(f'{kind} {n}'))
    with open(path, 'w', buffering=1 << 20) as out:
        out.writelines(metis.lines_of((n, edges)))
    return n, len(edges)


def instructions(command, path, out_path):
    """Millions of instructions of one run, or a word that says why there is none."""
    with open(path, 'rb') as source, open(out_path, 'wb') as out:
        ran = subprocess.run(['valgrind', '--tool=callgrind', '--callgrind-out-file=/dev/null', *command], stdin=source, stdout=out,
                             stderr=subprocess.PIPE, text=True)
    counted = re.search(r'Collected : (\d+)', ran.stderr)
    return int(counted[1]) / 1e6 if ran.returncode == 0 and counted else f'status {ran.returncode}'


def least(command, path, out_path, options):
    """The least processor time, or what is counted in its place, or a word that says why there is none."""
    if options.instructions:
        return instructions(command, path, out_path)
    found = []
    for _ in range(options.repetitions):
        ran = running.run_measured(command, path, out_path, options.timeout, 0)
        if ran.timed_out:
            return 'time is up'
        if ran.status != 0:
            return f'status {ran.status}'
        found.append(ran.cpu)
    return min(found)


def cells(found):
    """The times of one job over the steps, and their exponent."""
    times = ', '.join((f'{time:.2f}' if time < 100 else f'{time:.0f}') if isinstance(time, float) else time for _, time in found)
    slope = solve.exponent([(edges, time) for edges, time in found if isinstance(time, float)])
    return f'{times} | {slope:.2f}' if slope is not None else f'{times} | '


def measured(kind, options, folder):
    """Prints the row of a kind; answers whether no run failed and the values agree."""
    commands = [(job, [options.program, *solve.words_of(job, options.vertices, {}, 1), '--workers', '1']) for job in options.jobs]
    if options.compare:
        commands.append(('compared', shlex.split(options.compare)))
    times, sizes, is_well, ended = {job: [] for job, _ in commands}, [], True, set()
    path, out_path = os.path.join(folder, 'graph'), os.path.join(folder, 'out')
    for step in range(options.steps):
        n, m = solve.apart(written, kind, options.vertices << step, path)
        sizes.append(m)
        values = set()
        for job, command in commands:
            if job in ended:
                continue
            time = least(command, path, out_path, options)
            times[job].append((m, time))
            if isinstance(time, str):
                ended.add(job)
                is_well = is_well and (time == 'time is up' or job == 'compared' or time in ('status 6', 'status 8'))
            elif job in ('value', 'count', 'compared'):
                values.add(solve.content(out_path).split()[1])
        is_well = is_well and len(values) < 2
    print(f'| {kind} | {", ".join(map(str, sizes))} | ' + ' | '.join(cells(times[job]) for job, _ in commands) + ('' if is_well else ' DIFFERS') + ' |', flush=True)
    return is_well


def main():
    parser = argparse.ArgumentParser(description=__doc__, formatter_class=argparse.RawDescriptionHelpFormatter)
    running.add_program(parser)
    parser.add_argument('--kinds', nargs='*', default=[''])
    parser.add_argument('--jobs', default='value,count', type=lambda text: text.split(','))
    parser.add_argument('--vertices', type=int, default=20_000)
    parser.add_argument('--steps', type=int, default=3)
    parser.add_argument('--repetitions', type=int, default=3)
    parser.add_argument('--timeout', type=float, default=30)
    parser.add_argument('--compare', default='')
    parser.add_argument('--instructions', action='store_true')
    options = parser.parse_args()
    options.program = running.ready(options.program)
    names = [kind for kind in kinds() if any(words in kind for words in options.kinds)]
    jobs = [*(f'`{job}`' for job in options.jobs), *(['compared'] if options.compare else [])]
    unit = 'millions' if options.instructions else 's'
    print('| Kind | Edges | ' + ' | '.join(f'{job}, {unit} | exponent' for job in jobs) + ' |')
    print('| --- | --- |' + ' --- | --: |' * len(jobs), flush=True)
    with tempfile.TemporaryDirectory() as folder:
        return 0 if all([measured(kind, options, folder) for kind in names]) else 1


if __name__ == '__main__':
    sys.exit(main())
