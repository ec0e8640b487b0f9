"""The program once more, for small graphs, by trying all sides; `tools/plain_mincut.py` runs it.

Jobs, texts, statuses and lines are those of the program. It takes up to about 16 vertices, or a graph in several components. The number
of workers changes nothing. Where the program may give one of several texts, it gives the first.
"""
import sys

from . import answers_by_hand as answers
from . import metis
from .graphs import components_of

USAGE = 'usage: mincut JOB [U V] [--workers N]\n'
# For each job the least and the greatest number of further words.
JOBS = {'value': (0, 0), 'cactus': (0, 0), 'cuts': (0, 0), 'part': (2, 2), 'count': (0, 0), 'balanced': (0, 0), 'trial': (1, 1),
        'grow': (3, 3000), 'augment': (0, 0)}


def is_number(word: str) -> bool:
    """Whether the word is a number below 2^64 in at most 20 digits."""
    return word.isascii() and word.isdigit() and len(word) <= 20 and int(word) < metis.LIMIT_NUMBER


def options_of(words: list[str]) -> tuple[list[str], dict[str, int]] | None:
    """(words without options, table of the options), or None where an option is not as it should be."""
    plain, options, rest = [], {}, iter(words)
    for word in rest:
        if not word.startswith('--'):
            plain.append(word)
            continue
        name, equals, number = word.partition('=')
        number = number if equals else next(rest, '')
        if name not in ('--workers', '--least') or name in options or not is_number(number):
            return None
        options[name] = int(number)
    return plain, options


def command_of(words: list[str]) -> list[str] | None:
    """The words of a command, without those on workers, or None."""
    found = options_of(words)
    if found is None or not found[0] or found[0][0] not in JOBS:
        return None
    (job, *further), options = found
    few, many = JOBS[job]
    if not few <= len(further) <= many or not all(map(is_number, further)) or not 1 <= options.get('--workers', 4) <= 64:
        return None
    if job == 'trial' and not 12 <= int(further[0]) <= 100_000 or job != 'cuts' and '--least' in options:
        return None
    if job == 'grow' and (len(further) % 3 or any(u == v or w == 0 for u, v, w in answers.triples_of([job, *further]))):
        return None
    return [job, *further] + (['--least', str(options['--least'])] if '--least' in options else [])


def main(words: list[str]) -> int:
    """Answers what the words ask, as the program does; answers the status."""
    if words == ['--version']:
        print('plain_mincut')
        return 0
    command = command_of(words)
    if command is None:
        sys.stderr.write(USAGE)
        return 2
    if command[0] == 'trial':
        sys.stdout.write(answers.trial_text(int(command[1])))
        return 0
    try:
        graph, masses = metis.read(sys.stdin.buffer.read())
    except metis.Fault as fault:
        sys.stderr.write(f'refused: {fault.kind} at line {fault.line}\n')
        return 1
    status, outs, err = answers.wanted(command, graph, masses)
    sys.stdout.write(outs[0] if outs else answers.balanced_text(0, masses, answers.best_union(components_of(graph), masses)))
    sys.stderr.write(err)
    return status
