#!/usr/bin/env python3
"""Counts what the pages say of tests, planted bugs, definitions and what is trusted, and writes the numbers into the pages.

usage: count_tests.py [--check]

A number of a page is between <!--NAME--> and <!--/-->. With --check nothing is written: there is a line for each number that differs,
and the status is 1 then. Lines are counted without empty ones, but those of definitions as crates/DEFINITION_FILES.md counts them. The
inputs of a check are those that it takes if no number is given.
"""
import argparse
import os
import re
import sys

from checks import jobs
from definition_files import in_order
from definition_files import lines_of as all_lines_of
from definition_pages import RUN
from list_crates import ROOT, layers, read

PAGES = ('README.md', 'docs/PROVED.md', 'docs/TESTING.md')
# What is trusted for the standard streams, and the shim of the C library.
STREAMS = ('crates/outside/src/std_source.rt', 'crates/outside/src/std_sink.rt', 'crates/mincut/src/main.rt')
SHIM = ('bindings/c/mincut.c', 'bindings/c/places.c')
DEFINITION = re.compile(r'`(\w+)/(\w+\.antt)`')
NUMBER = re.compile(r'<!--(\w+)-->(.*?)<!--/-->')
STAND_IN = 'stand_in.c'


def files_below(folder, *endings):
    """The files with such a name in a folder and below it, by their paths from the top of the repository."""
    found = [f'{at}/{name}' for at, _, names in os.walk(f'{ROOT}/{folder}') for name in names if name.endswith(endings)]
    return [os.path.relpath(path, ROOT) for path in sorted(found)]


def lines_in(paths):
    return sum(1 for path in paths for line in read(path).splitlines() if line.strip())


def matches_in(paths, pattern):
    return sum(len(re.findall(pattern, read(path), re.M)) for path in paths)


def groups():
    """The crates of the program and the library, those beside it, and those of tests."""
    found, halves = {'program': [], 'beside': [], 'tests': []}, 0
    for _, is_half, crates in layers():
        halves += is_half
        for crate in crates:
            found['tests' if crate.endswith('_tests') else 'program' if halves == 1 else 'beside'].append(crate)
    return found


def counted_lines():
    """How many crates there are, and how many lines of code, specifications and proofs they have."""
    found = {}
    for group, crates in groups().items():
        found[f'crates_{group}'] = len(crates)
        for part, folder, ending in (('code', 'src', '.rt'), ('specs', 'specs', '.antt'), ('proofs', 'proofs', '.antt')):
            found[f'{part}_{group}'] = sum(lines_in(files_below(f'crates/{crate}/{folder}', ending)) for crate in crates)
    return found


def counted_edits():
    edits = [path for crates in groups().values() for crate in crates for path in files_below(f'crates/{crate}/must-fail', '.edit', '.edit.md')]
    in_gate = sum(path.endswith('.edit') for path in edits)
    return {'edits': len(edits), 'edits_gate': in_gate, 'edits_beside': len(edits) - in_gate,
            'crates_edits': len({path.split('/')[1] for path in edits})}


def clauses_of_run():
    """The names of the clauses of the contract of `run`."""
    return re.findall(r'^    ensures (\w+)', read(RUN).partition('pub fn run<')[2].partition('\n{')[0], re.M)


def counted_contract():
    """What somebody reads who checks the contract of `run`: its clauses, the definitions below it, and those of them that
    docs/DEFINITIONS.md explains; and how much is trusted beside it."""
    below = in_order(RUN, {})
    explained = {f'crates/{crate}/specs/{file}' for crate, file in DEFINITION.findall(read('docs/DEFINITIONS.md'))} & set(below)
    return {'clauses': len(clauses_of_run()), 'definition_files': len(below), 'definition_lines': sum(map(all_lines_of, below)),
            'explained_files': len(explained), 'explained_lines': sum(map(all_lines_of, explained)),
            'stream_lines': lines_in(STREAMS), 'shim_lines': lines_in(SHIM)}


def counted_tests():
    crates = [path for crate in groups()['tests'] for path in files_below(f'crates/{crate}/src', '.rt')]
    scripts = [path for path in files_below('tools', '.py') if os.path.basename(path).startswith('test_')]
    programs = [path for path in files_below('bindings/c/tests', '.c', '.cpp') if os.path.basename(path) != STAND_IN]
    return {'tests_crates': matches_in(crates, r'#\[test\]'),
            'tests_python': matches_in(files_below('python/tests', '.py'), r'^ *def test_'),
            'tests_scripts': matches_in(scripts, r'^ *def test_'),
            'tests_rust': matches_in(files_below('bindings/rust/tests', '.rs'), r'#\[test\]'),
            'programs_c': len(programs)}


def options_of(name):
    """The options of a check if none is named."""
    parser = argparse.ArgumentParser()
    jobs.ALL[name].add_options(parser)
    return parser.parse_args(['PREFIX'] if name == 'library' else ['--trial', 'FILE'] if name == 'cactus-text' else [])


def counted_inputs():
    named = [name for name in jobs.ALL if hasattr(jobs.ALL[name], 'add_options')]
    options = {name: options_of(name) for name in named}
    found = {f'inputs_{name.replace("-", "_")}': chosen.count for name, chosen in options.items() if hasattr(chosen, 'count')}
    workers = len(options['memory'].workers.split(','))
    return {**found, 'checks': len(jobs.ALL), 'commands_memory': len(jobs.ALL['memory'].CASES), 'workers_memory': workers,
            'step_memory': options['memory'].step, 'graphs_library': options['library'].graphs, 'calls_library': options['library'].calls}


def counted():
    """All numbers, by their names."""
    numbers = {**counted_lines(), **counted_edits(), **counted_contract(), **counted_tests(), **counted_inputs()}
    for part in ('crates', 'code', 'specs', 'proofs'):
        numbers[f'{part}_all'] = sum(numbers[f'{part}_{group}'] for group in groups())
    return numbers


def wrong_counts():
    """A line for each number of the pages that differs, or that nothing counts."""
    numbers = counted()
    for page in PAGES:
        for name, text in NUMBER.findall(read(page)):
            if name not in numbers:
                yield f'{page}: nothing counts {name}'
            elif text != f'{numbers[name]:,}':
                yield f'{page}: {name} is {numbers[name]:,}, and not {text}'


def write_counts():
    numbers = counted()
    told = {name: f'{number:,}' for name, number in numbers.items()}
    for page in PAGES:
        text = NUMBER.sub(lambda found: f'<!--{found[1]}-->{told.get(found[1], found[2])}<!--/-->', read(page))
        with open(f'{ROOT}/{page}', 'w', encoding='utf-8') as file:
            file.write(text)


def main():
    parser = argparse.ArgumentParser(description=__doc__, formatter_class=argparse.RawDescriptionHelpFormatter)
    parser.add_argument('--check', action='store_true', help='write nothing, and print which numbers differ')
    if not parser.parse_args().check:
        write_counts()
    found = list(wrong_counts())
    print('\n'.join(found) if found else 'all numbers are as counted')
    return 1 if found else 0


if __name__ == '__main__':
    sys.exit(main())
