"""Words for the program, judged before it runs: it has one usage line for every mistake, and here each has a sentence."""
from __future__ import annotations

from collections.abc import Sequence
from pathlib import Path
from typing import Optional

from .errors import BadVertex, BadWords

MOST_WORKERS = 64
# For each job the least and the greatest number of further words, and what they are.
JOBS = {'value': (0, 0, 'none'), 'count': (0, 0, 'none'), 'cuts': (0, 0, 'none'), 'part': (2, 2, 'two vertices, by their numbers'),
        'balanced': (0, 0, 'none'), 'cactus': (0, 0, 'none'), 'augment': (0, 0, 'none'), 'trial': (1, 1, 'a number of 12 to 100,000'),
        'grow': (3, 3000, 'three numbers for each of 1 to 1,000 edges, two vertices and a weight')}
NOTICES = ('--help', '-h', '--version', '-V')


def checked_workers(workers: Optional[int]) -> Optional[int]:
    """The number of workers; raises BadWords where it is none of 1 to 64."""
    if workers is not None and not (isinstance(workers, int) and 1 <= workers <= MOST_WORKERS):
        raise BadWords(2, f'workers is {workers!r}; it has to be a whole number of 1 to {MOST_WORKERS}')
    return workers


def checked_words(words: Sequence[str], vertices: int) -> None:
    """Raises BadWords, or BadVertex, with a sentence for what the program would refuse with its usage line or a status 7."""
    plain = plain_words(words)
    if len(words) == 1 and words[0] in NOTICES:
        return
    if not plain:
        raise BadWords(2, f'no job is named; it is one of {", ".join(JOBS)}')
    job, further = plain[0], plain[1:]
    if job not in JOBS:
        raise BadWords(2, f'{file_hint(job)}there is no job {job!r}; it is one of {", ".join(JOBS)}')
    few, many, what = JOBS[job]
    for word in further:
        if not is_number(word):
            raise BadWords(2, f'{file_hint(word)}{word!r} is no whole number; the further words of the job {job}: {what}')
    if not few <= len(further) <= many or (job == 'grow' and len(further) % 3):
        raise BadWords(2, f'{len(further)} further words for the job {job}; it takes {what}')
    numbers = list(map(int, further))
    check_vertices(job, numbers, vertices)
    if job != 'cuts' and any(word.startswith('--least') for word in words):
        raise BadWords(2, f'--least goes with the job cuts, and not with {job}')


def plain_words(words: Sequence[str]) -> list[str]:
    """The words without options; raises BadWords for an option that is not there, twice there, or without its number."""
    plain, seen, rest = [], set(), iter(words)
    for word in rest:
        name, equals, number = word.partition('=')
        if not word.startswith('-') or word in NOTICES:
            plain.append(word)
            continue
        if name not in ('--workers', '--least'):
            raise BadWords(2, f'the program has no option {name}; it has --workers N and --least W')
        number = number if equals else next(rest, '')
        if name in seen or not is_number(number):
            raise BadWords(2, f'{name} stands twice; name it once' if name in seen else f'{name} wants a whole number, and has {number!r}')
        seen.add(name)
        if name == '--workers':
            checked_workers(int(number))
    return plain


def check_vertices(job: str, numbers: list[int], vertices: int) -> None:
    """Raises where a job names a vertex that is not there, or an edge that is none."""
    if job == 'grow':
        for u, v, w in zip(numbers[::3], numbers[1::3], numbers[2::3]):
            if u == v or w == 0:
                raise BadWords(2, f'the edge {u} - {v} of weight {w} '
                               + ('joins a vertex with itself; name two vertices' if u == v else 'is none; its weight has to be 1 or more'))
    named = numbers if job == 'part' else [v for k, v in enumerate(numbers) if k % 3 < 2] if job == 'grow' else []
    for vertex in named:
        if not 1 <= vertex <= vertices:
            raise BadVertex(7, f'the graph has no vertex {vertex}; its vertices have the numbers 1 to {vertices}')


def is_number(word: str) -> bool:
    return word.isascii() and word.isdecimal() and len(word) <= 20 and int(word) < 1 << 64


def file_hint(word: str) -> str:
    """What to say first of a word that is a file: the graph is not a word of the program."""
    looks = '/' in word or (Path(word).suffix != '' and not word.startswith('-'))
    return f'{word} looks like a file, and the graph is not named among these words but given before; ' if looks else ''
