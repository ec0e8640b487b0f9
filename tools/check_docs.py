#!/usr/bin/env python3
"""Looks for sentences of the documents that are no longer true, as far as a script can: names of files, pages, calls, jobs, statuses and
faults that are gone or missing, limits and counts that differ from the sources, links that lead nowhere, literature that no list has,
words about an earlier build, paths of one machine, times and megabytes that no measurement has, words that are not plain English, texts
of commands and pictures of cactuses that tools/plain_mincut.py finds otherwise, and sentences, lines and pages that are too long.

usage: check_docs.py

It prints a line for each thing that it finds, and ends with 1 if there is one.
"""
import csv
import functools
import os
import re
import subprocess
import sys
import tempfile

import definition_pages
import draw_layers
import list_crates
import python_reference
import wrong_bodies
from count_tests import clauses_of_run, wrong_counts
from made_pages import is_up_to_date
from versions import wrong_versions

ROOT = os.path.dirname(os.path.dirname(os.path.abspath(__file__)))
README = 'README.md'
# A file of definitions, without its folders, and the names that are looked up there.
DEFINED = re.compile(r'`(\w+)/(\w+\.antt)`: ((?:`\w+`(?:, )?)+)')
# Files that a build or a user makes.
MADE = re.compile(r'^(out/|crates/\w+/out/|/|report\.html|plan|picture\.svg|plan\.svg|cuts\.txt)')
PLACES = re.compile(r'`((?:crates|docs|tools|bench|examples|python|bindings|include)/[\w./-]+|\./\w+)`')
LINKS = re.compile(r'\]\(([^)#:]+)\)')
# Most words of a page, and most characters of a line that is not in a table.
PAGE_WORDS = {README: 1150, 'docs/TUTORIAL.md': 1500, 'docs/CACTUS.md': 900, 'docs/REFERENCE.md': 1400, 'docs/PYTHON.md': 1600,
              'docs/LIBRARY.md': 900, 'docs/ALGORITHM.md': 1100, 'docs/PERFORMANCE.md': 1600, 'docs/TESTING.md': 930, 'docs/PROVED.md': 2000,
              'docs/DEFINITIONS.md': 1500, 'docs/DECISIONS.md': 2500, 'docs/CONTRIBUTING.md': 2300, 'python/README.md': 600}
# Most words of README and docs together, without the pages that are lists made of the crates.
ALL_WORDS, LISTS = 21_000, {'crates/WRONG_BODIES.md', 'crates/DEFINITION_FILES.md'}
LINE = 120
# Most words of a sentence, and the pages whose sentences are not looked at yet.
SENTENCE, NOT_YET = 30, {'docs/LIBRARY.md', 'docs/PYTHON.md'}
HISTORY = 'CHANGELOG.md'
# Words for which there is a plain or a more usual one, with that word.
UNUSUAL = {'lesser': 'smaller', 'wanting': 'missing', 'gives back': 'returns', 'gave back': 'returned', 'is told': 'is said', 'are told': 'are said',
           'weakest place': 'minimum cut', 'weakest places': 'minimum cuts', 'small bug': 'planted bug', 'small bugs': 'planted bugs',
           'wrong bodies': 'planted bugs', 'access node': 'access site', 'access nodes': 'access sites', 'so far as': 'if', 'whereof': 'of which'}
ODD_WORDS = re.compile(rf'\b(?:{"|".join(UNUSUAL)})\b', re.I)
# Paths of one machine.
HOMES = re.compile(r'(?<![\w.])/(?:home|root|work|Users)/[\w./-]*')
# A command of a page on a small graph, and in a paragraph.
COMMAND = re.compile(r'(?:\./mincut [^|>`]*< examples/\S+|mincut-graph \w+ examples/[^|>`]*)$')
INLINE = re.compile(r'`(\./mincut [^|>`]*< examples/[\w.]+)`[^`]*\bprints$')
# An author, or several, and the year of what they published.
CITED = re.compile(r'((?:[A-Z][a-z]+(?:, | and ))*[A-Z][a-z]+),? \(?((?:19[3-9]|20[01])\d)\b')
EARLIER = re.compile(r'\b(?:earlier|former|previous|later|last) (?:builds?|states?|versions?|gates?|programs?)\b|\bbefore this\b|\bin (?:a )?(?:trials?|models?)\b'
                     r'|\b(?:was|were) (?:measured|proved|slower|faster) before\b|\b(?:was|were) left out\b|\bat first it\b|\bused to be\b', re.I)
RESULTS, PROVING = f'{ROOT}/bench/results', 'proving.csv'
FIGURE = re.compile(r'\b(\d[\d,]*(?:\.\d+)?) ?(hours?|minutes?|seconds?|s|milliseconds?|ms|microseconds?|MB|megabytes?|GB|gigabytes?)\b')
UNITS = {'hour': 60, 'minute': 1, 's': 1, 'seconds': 1, 'second': 1, 'ms': 1e-3, 'millisecond': 1e-3, 'microsecond': 1e-6, 'MB': 1, 'megabyte': 1, 'GB': 1000, 'gigabyte': 1000}
# What a page says of times and megabytes without a measurement: limits, units, what the toolchain needs, and the first build of the library.
NOT_MEASURED = {'8 GB', '6 GB', '1 MB', '0.02 s', '30 minutes'}
# A part that a script makes and compares itself.
MADE_PART = re.compile(r'<!-- (\w+): made by .*?<!-- end of \1 -->', re.S)
# Names in examples that a user would have given.
EXAMPLE_NAMES = {'capacity_gbps'}


def read(path):
    with open(f'{ROOT}/{path}', encoding='utf-8') as file:
        return file.read()


def documents():
    return [README, 'CHANGELOG.md', *sorted(f'docs/{name}' for name in os.listdir(f'{ROOT}/docs') if name.endswith('.md')), 'python/README.md', 'examples/README.md', 'bench/results/README.md']


def crates():
    """The libraries that each crate names, by its name, in the order of the file."""
    lines = [line.partition(':') for line in read('crates.txt').splitlines() if ':' in line and not line.startswith('#')]
    return {head.split()[0]: uses.split() for head, _, uses in lines}


def sources(crate):
    found = []
    for at, _, names in os.walk(f'{ROOT}/crates/{crate}/src'):
        found += [f'{at}/{name}' for name in names if name.endswith('.rt')]
    return '\n'.join(read(os.path.relpath(file, ROOT)) for file in found)


def wrong_places():
    for path in documents():
        text = read(path)
        for place in PLACES.findall(text):
            if not MADE.match(place) and not os.path.exists(f'{ROOT}/{place}'):
                yield f'{path}: there is no {place}'
        for link in LINKS.findall(text):
            if not link.startswith('http') and not os.path.exists(f'{ROOT}/{os.path.dirname(path)}/{link}'):
                yield f'{path}: the link to {link} leads nowhere'


def unlinked_pages():
    linked = set(LINKS.findall(read(README)))
    yield from (f'{README}: no link to {path}' for path in documents() if path.startswith('docs/') and path not in linked | LISTS)


def is_defined(word, text):
    parts = re.findall(r'\w+', word)
    return all(re.search(rf'\b(fn|struct|enum|trait|type|mod|use|const)\b[^;{{]*\b{part}\b|^\s+{part}\b', text, re.M) for part in parts)


def wrong_clauses():
    for call, crate in re.findall(r'`(\w+)` of `(\w+)`', read('docs/PROVED.md')):
        if not is_defined(call, sources(crate)):
            yield f'docs/PROVED.md: {crate} has no {call}'
    clauses = set(clauses_of_run())
    told = {name for line in read('docs/PROVED.md').partition('| Clause |')[2].partition('\n\n')[0].splitlines()[2:]
            for name in re.findall(r'`(\w+)`', line.split(' | ')[0])}
    yield from (f'docs/PROVED.md: no row for the clause {name} of `run`' for name in sorted(clauses - told))
    yield from (f'docs/PROVED.md: `run` has no clause {name}' for name in sorted(told - clauses))


def wrong_definitions():
    for crate, file, names in DEFINED.findall(read('docs/DEFINITIONS.md')):
        path = f'crates/{crate}/specs/{file}'
        text = read(path) if os.path.exists(f'{ROOT}/{path}') else ''
        for name in re.findall(r'\w+', names):
            if not re.search(rf'^(?:abbrev|unfoldable)? ?pub (?:record )?{name}\b', text, re.M):
                yield f'docs/DEFINITIONS.md: {path} has no {name}'


def wrong_rows():
    """Calls in a row of a table that none of the files that the row links has."""
    for path in documents():
        for line in read(path).splitlines():
            files = re.findall(r'\]\(\.\./(crates/[\w/]+\.rt)\)', line)
            if not line.startswith('|') or not files:
                continue
            text = '\n'.join(read(file) for file in files if os.path.exists(f'{ROOT}/{file}'))
            yield from (f'{path}: {call} is not in {", ".join(files)}' for call in re.findall(r'`([\w:]+)`', line) if not is_defined(call, text))


@functools.lru_cache(None)
def known_words():
    """All words of the sources, the scripts and the bindings."""
    found = set()
    for folder in ('crates', 'tools', 'bench', 'python', 'bindings', 'include', 'examples'):
        for at, folders, names in os.walk(f'{ROOT}/{folder}'):
            folders[:] = [name for name in folders if name not in ('proofs', 'out', 'target')]
            found |= {name.partition('.')[0] for name in names}
            for name in names:
                if name.endswith(('.rt', '.antt', '.py', '.c', '.h', '.cpp', '.hpp', '.rs', '.map', '.in', '.txt', '.toml')):
                    found |= set(re.findall(r'\w+', read(os.path.relpath(f'{at}/{name}', ROOT))))
    return found | set(crates()) | EXAMPLE_NAMES


def wrong_names():
    """Names of calls and types that nothing has."""
    for path in documents():
        for name in re.findall(r'`((?:\w+::)*\w+)`', read(path)):
            if ('_' in name or '::' in name) and not set(name.split('::')) <= known_words():
                yield f'{path}: nothing has the name {name}'


def present_pages():
    """The pages that speak of the present program alone."""
    return [path for path in documents() if path != HISTORY]


def wrong_lines():
    for path in present_pages():
        text = read(path)
        yield from (f"{path}: '{found[0]}' is of an earlier build" for found in EARLIER.finditer(' '.join(text.split())))
        for number, line in enumerate(text.splitlines(), 1):
            shown = re.sub(r'<!--.*?-->|\]\([^)]*\)', '', line)
            if len(shown) > LINE and not line.startswith('|'):
                yield f'{path}: line {number} has {len(shown)} characters'


def sentences(text):
    """The sentences of a page without its made parts and code; each cell of a table and each item of a list stands for itself."""
    text = re.sub(r'<!--.*?-->', '', MADE_PART.sub('\n', text))
    lines = [line for line in text.splitlines() if not line.startswith('    ')]
    pieces = re.split(r'\n(?=\s*(?:[-*#|]|\d+\.)\s?)|\n\s*\n', '\n'.join(lines))
    cells = [cell for piece in pieces for cell in (piece.split('|') if piece.startswith('|') else [piece])]
    return [sentence for cell in cells for sentence in re.split(r'(?<=[.!?:;])\s+(?=[A-Z`(*\[\d])', ' '.join(cell.split()))]


def wrong_sentences():
    """Sentences that are too long, words that are not plain English, and paths of one machine."""
    for path in present_pages():
        for sentence in [] if path in NOT_YET else sentences(read(path)):
            words = len(sentence.split())
            if words > SENTENCE:
                yield f'{path}: a sentence of {words} words: {sentence[:60]} ..'
            yield from (f"{path}: '{found[0]}', for which '{UNUSUAL[found[0].lower()]}' is usual: {sentence[:60]} .." for found in ODD_WORDS.finditer(sentence))
        yield from (f'{path}: the path {found}' for found in HOMES.findall(read(path)))


def missing_literature():
    """Authors and years for which the list of docs/ALGORITHM.md has no line."""
    entries = read('docs/ALGORITHM.md').partition('## Literature')[2].splitlines()
    for path in present_pages():
        if path.startswith('docs/') or path == README:
            for names, year in CITED.findall(' '.join(read(path).partition('## Literature')[0].split())):
                authors = re.split(r', | and ', names)
                if not any(year in entry and all(author in entry for author in authors) for entry in entries):
                    yield f'docs/ALGORITHM.md: no literature for {names} {year} of {path}'


def pieces(text):
    """The paragraphs of a page and the pieces of its code, each with whether it is code."""
    found = []
    for block in re.split(r'\n\s*\n', text.strip('\n')):
        lines = block.splitlines()
        is_code = all(line.startswith('    ') for line in lines)
        found.append((is_code, '\n'.join(line[4:] for line in lines) if is_code else ' '.join(lines)))
    return found


def shown_texts(path):
    """(command, what the page says it prints, whether that is only how the text begins) of each command on a small graph."""
    found = [*pieces(read(path)), (False, ''), (False, '')]
    for (is_code, piece), (is_text, text), (is_later, later) in zip(found, found[1:], found[2:]):
        inline = None if is_code else INLINE.search(piece)
        command = piece if is_code and COMMAND.match(piece) else inline[1] if inline else None
        if command and is_text and not COMMAND.match(text):
            yield command, text.removesuffix('\n..'), text.endswith('\n..')
        elif command and text == 'begins with' and is_later:
            yield command, later, True


def printed(command):
    """What a command prints, by tools/plain_mincut.py, which tries all sides."""
    plain = f'{ROOT}/tools/plain_mincut.py'
    words, _, file = command.partition(' < ')
    if words.startswith('./mincut '):
        with open(f'{ROOT}/{file}', encoding='utf-8') as graph:
            return subprocess.run([sys.executable, plain, *words.split()[1:]], stdin=graph, capture_output=True, text=True, check=True).stdout
    env = {**os.environ, 'MINCUT': plain, 'PYTHONPATH': f'{ROOT}/python'}
    return subprocess.run([sys.executable, '-m', 'mincut_graph', *words.split()[1:], '--no-library'], cwd=ROOT, env=env, capture_output=True, text=True, check=True).stdout


def wrong_texts():
    for path in present_pages():
        for command, text, is_begun in shown_texts(path):
            right = printed(command).rstrip('\n')
            if right != text and not (is_begun and right.startswith(f'{text}\n')):
                yield f"{path}: '{command}' prints another text"


def wrong_pictures():
    """Pictures of the carrier network that are not what tools/draw_cactus.py makes."""
    graph = 'examples/network.graph'
    with tempfile.TemporaryDirectory() as folder:
        with open(f'{folder}/plan', 'w', encoding='utf-8') as plan:
            plan.write(printed(f'./mincut augment < {graph}'))
        for picture, more in (('docs/network-cactus.svg', []), ('docs/network-plan.svg', ['--plan', f'{folder}/plan'])):
            subprocess.run([sys.executable, f'{ROOT}/tools/draw_cactus.py', f'{folder}/drawn.svg', '--graph', f'{ROOT}/{graph}', *more],
                           input=printed(f'./mincut cactus < {graph}'), text=True, check=True)
            with open(f'{folder}/drawn.svg', encoding='utf-8') as drawn:
                if not is_up_to_date(picture, drawn.read()):
                    yield f'{picture}: tools/draw_cactus.py draws another picture'


def measured_numbers(is_proving):
    """All numbers of the results, as they are and without their units: minutes of proofs, or those of all other files."""
    found = set()
    for name in sorted(os.listdir(RESULTS)):
        if name.endswith('.csv') and (name == PROVING) == is_proving:
            with open(f'{RESULTS}/{name}', encoding='utf-8', newline='') as file:
                found |= {float(cell) for row in csv.reader(file) for cell in row if re.fullmatch(r'\d+(\.\d+)?', cell)}
    return found


def wrong_figures():
    """Times and megabytes outside the made parts that are not a rounded number of a result."""
    if not os.path.isdir(RESULTS):
        return
    measured = {is_proving: measured_numbers(is_proving) for is_proving in (False, True)}
    for path in present_pages():
        for number, unit in FIGURE.findall(MADE_PART.sub('', read(path))):
            places, told = len(number.partition('.')[2]), float(number.replace(',', ''))
            scale = UNITS.get(unit) or UNITS[unit.rstrip('s')]
            results = measured[unit.rstrip('s') in ('minute', 'hour')]
            if f'{number} {unit}' not in NOT_MEASURED and not any(round(result / scale, places) == told for result in results):
                yield f'{path}: {number} {unit} is in no result'


def wrong_lengths():
    for path, most in PAGE_WORDS.items():
        words = len(read(path).split())
        if words > most:
            yield f'{path}: {words} words, and {most} at most'
    words = sum(len(read(path).split()) for path in documents() if path.startswith('docs/') and path not in LISTS) + len(read(README).split())
    if words > ALL_WORDS:
        yield f'{README} and docs: {words:,} words, and {ALL_WORDS:,} at most'


def wrong_numbers():
    jobs = {word.lower() for word in re.findall(r'^    (\w+)(?:\(|,)', read('crates/program_words/src/command.rt').partition('pub enum Job')[2].partition('\n}')[0], re.M)}
    told = set(re.findall(r'^\| `(\w+)', read(README).partition('## Jobs')[2].partition('\n## ')[0], re.M))
    yield from (f'{README}: no row for the job {job}' for job in jobs - told)
    codes = {int(code) for code in re.findall(r'=> (\d+)', read('crates/stop_lines/src/status.rt'))}
    rows = {int(code) for code in re.findall(r'^\| (\d+) \|', read('docs/REFERENCE.md'), re.M)}
    if codes != rows:
        yield f'docs/REFERENCE.md: statuses {sorted(rows)}, and {sorted(codes)} in stop_lines'
    graph = read('crates/cut_definitions/specs/Graph.antt')
    for limit in re.findall(r'^- (?:vertices|edges): ([\d,]+)', read('docs/REFERENCE.md'), re.M):
        if limit.replace(',', '') not in graph:
            yield f'docs/REFERENCE.md: the limit {limit} is not that of cut_definitions'
        if limit not in read(README):
            yield f'{README}: the limit {limit} is missing'
    faults = set(re.findall(r'codes "(\w+)"', read('crates/stop_lines/specs/Stops.antt').partition('kind_name_of :')[2].partition('\n\n')[0]))
    told = set(re.findall(r'`([A-Z]\w+)`', read('docs/REFERENCE.md').partition('## Faults of the input')[2].partition('\n\nThe first fault')[0]))
    yield from (f'docs/REFERENCE.md: the fault {fault} is missing' for fault in sorted(faults - told))
    yield from (f'docs/REFERENCE.md: no fault has the name {fault}' for fault in sorted(told - faults))


def wrong_pages():
    for crate, name in list_crates.BEGINNINGS.items():
        if not os.path.exists(f'{ROOT}/crates/{crate}/src/{name}.rt'):
            yield f'tools/list_crates.py: there is no {crate}/src/{name}.rt to begin with'
    for script in (definition_pages, list_crates, wrong_bodies):
        if not is_up_to_date(script.PAGE, script.page()):
            yield f'{script.PAGE}: tools/{script.__name__}.py writes another page'
    if not is_up_to_date(draw_layers.PICTURE, draw_layers.picture()):
        yield f'{draw_layers.PICTURE}: tools/draw_layers.py draws another picture'
    if not python_reference.is_current():
        yield 'docs/PYTHON.md: tools/python_reference.py writes another reference'


def uncounted():
    """Numbers of things in the sources that no script writes."""
    for path, pattern in ((README, r'refuses \d+ planted'), (README, r'\d+ lines for the standard'), ('docs/PROVED.md', r'\b\d[\d,]* (?:lines|files|clauses)\b'),
                          ('docs/PROVED.md', r'\[\d+ planted')):
        yield from (f"{path}: '{found}' is not between the marks of tools/count_tests.py" for found in re.findall(pattern, ' '.join(read(path).split())))


def wrong_measurements():
    """What the made parts of documents have other than bench/results."""
    checked = subprocess.run([sys.executable, f'{ROOT}/bench/measure.py', '--check'], capture_output=True, text=True)
    yield from (checked.stdout + checked.stderr).splitlines()


def main():
    found = [line for check in (wrong_places, unlinked_pages, wrong_clauses, wrong_definitions, wrong_rows, wrong_names, wrong_lines, wrong_sentences,
                                missing_literature, wrong_texts, wrong_pictures, wrong_figures, wrong_lengths, wrong_numbers, uncounted, wrong_pages, wrong_counts, wrong_versions,
                                wrong_measurements)
             for line in check()]
    print('\n'.join(found) if found else 'nothing found')
    return 1 if found else 0


if __name__ == '__main__':
    sys.exit(main())
