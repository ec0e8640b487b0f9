#!/usr/bin/env python3
"""How fast the reader reads: MB/s and peak memory of a built program, beside a plain reader in Python.

    bench/read.py [--program PATH] [--job value] [--sizes 10,50,260] [--order sorted|random] [--fault none|extra|unsymmetric]
                  [--no-python] [--keep FOLDER]

It makes files of about the named numbers of MB, feeds each to the program on its standard input, and prints seconds and MB/s by
the clock and by the processor, peak memory, and the bytes of it per edge once 24 bytes per vertex are taken off. With a fault at
the last line (an extra word, or the last entry's weight changed) the program reads and judges everything and then refuses, so
that no time of a job on the graph is counted.
"""
import argparse
import os
import random
import sys
import tempfile

from checks import running


def circulant(n, jumps):
    """A graph that needs no table: u is joined to u + j for each jump j, with weight (u * v) mod 997 + 1."""
    def row(u):
        ends = []
        for j in jumps:
            ends.append((u - 1 + j) % n + 1)
            ends.append((u - 1 - j) % n + 1)
        return ends
    return row


def write_file(path, megabytes, order, fault, seed):
    """Writes a file of about this size; answers (vertices, edges, bytes)."""
    rng = random.Random(seed)
    jumps_count = 8
    per_vertex = 2 * jumps_count * 11
    n = max(1000, int(megabytes * 1e6 / per_vertex))
    n = min(n, 4_194_304, 16_777_216 // jumps_count)
    jumps = sorted(rng.sample(range(1, (n - 1) // 2), jumps_count))
    row = circulant(n, jumps)
    edges = n * jumps_count
    with open(path, 'w', buffering=1 << 20) as out:
        out.write(f'{n} {edges} 1\n')
        lines = []
        for u in range(1, n + 1):
            ends = row(u)
            if order == 'sorted':
                ends.sort()
            else:
                rng.shuffle(ends)
            words = []
            for k, v in enumerate(ends):
                w = (u * v) % 997 + 1
                if fault == 'unsymmetric' and u == n and k == len(ends) - 1:
                    w += 1
                words.append(f'{v} {w}')
            lines.append(' '.join(words))
            if len(lines) == 4096:
                out.write('\n'.join(lines) + '\n')
                lines = []
        if lines:
            out.write('\n'.join(lines) + '\n')
        if fault == 'extra':
            out.write('x\n')
    return n, edges, os.path.getsize(path)


PLAIN = r'''
import sys
def main():
    data = sys.stdin.buffer.read().split(b'\n')
    header = data[0].split()
    n, m = int(header[0]), int(header[1])
    weights = len(header) > 2 and header[2].endswith(b'1')
    seen = {}
    count = 0
    for u in range(1, n + 1):
        words = list(map(int, data[u].split()))
        step = 2 if weights else 1
        for i in range(0, len(words), step):
            v = words[i]
            w = words[i + 1] if weights else 1
            count += 1
            if u < v:
                seen[u, v] = w
            elif seen.get((v, u)) != w:
                sys.exit(1)
    sys.exit(0 if count == 2 * m else 1)
main()
'''


def measure(program, options, scratch):
    folder = options.keep or scratch
    print(f'{"MB":>7} {"vertices":>9} {"edges":>9} {"seconds":>8} {"MB/s":>7} {"cpu s":>7} {"MB/cpu s":>8} {"peak MB":>8} {"bytes/edge":>10} status')
    for size in options.sizes.split(','):
        path = os.path.join(folder, f'graph_{size}_{options.order}_{options.fault}.metis')
        if options.keep and os.path.exists(path):
            with open(path) as text:
                header = text.readline().split()
            n, edges, length = int(header[0]), int(header[1]), os.path.getsize(path)
        else:
            n, edges, length = write_file(path, float(size), options.order, options.fault, options.seed)
        commands = [('program', [program, options.job])]
        if not options.no_python and length <= 60e6:
            commands.append(('python', [sys.executable, '-c', PLAIN]))
        for name, command in commands:
            run = running.run_measured(command, path, os.devnull)
            per_edge = (run.peak - 24 * n) / edges
            print(f'{length / 1e6:7.1f} {n:9d} {edges:9d} {run.wall:8.2f} {length / 1e6 / run.wall:7.0f}'
                  f' {run.cpu:7.2f} {length / 1e6 / run.cpu:8.0f} {run.peak / 1e6:8.0f}'
                  f' {per_edge:10.1f} {name}: status {run.status} {run.error[:60]}')
        if not options.keep:
            os.remove(path)


def main():
    parser = argparse.ArgumentParser(description=__doc__, formatter_class=argparse.RawDescriptionHelpFormatter)
    running.add_program(parser)
    parser.add_argument('--job', default='value', choices=running.PLAIN_JOBS)
    parser.add_argument('--sizes', default='10,50,260')
    parser.add_argument('--order', default='random', choices=['sorted', 'random'])
    parser.add_argument('--fault', default='unsymmetric', choices=['none', 'extra', 'unsymmetric'])
    parser.add_argument('--no-python', action='store_true')
    parser.add_argument('--keep')
    parser.add_argument('--seed', type=int, default=1)
    options = parser.parse_args()
    program = running.ready(options.program)
    with tempfile.TemporaryDirectory() as folder:
        measure(program, options, folder)


if __name__ == '__main__':
    main()
