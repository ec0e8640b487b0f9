"""Very many files with cheap changes of their bytes: that each is answered in one of the documented ways.

    tools/check mutated [--program PATH] [--count 100000] [--seed 1] [--every 100] [--keep FOLDER]

The files are random valid ones with all forms of headers and lines, those of `tools/check broken`, and a few of some hundred or some
thousand vertices. Each gets one to four changes: a bit, a byte or a number is another one, some bytes go or come twice or are put in,
or the end is cut off; in front of some stands a comment with which they lie across the end of what is read at once. The job is
`value`, and `count` for each eighth file. Status 0 must come with its lines alone, each other status that is documented with nothing on
standard output and its line on standard error. A file of at most a thousand bytes, and each so many of the longer ones, is also judged by
the plain reader of `metis`, and its cuts where they can be tried. A signal, or no answer within ten seconds, differs too. A file that
differs is kept. One program runs at a time, at little cost for each: runs with other seeds can go side by side.
"""
import argparse
import os
import re
import select
import signal
import tempfile
from collections import Counter
from collections.abc import Callable, Iterator
from random import Random

from .. import answers_by_hand as answers
from .. import families, metis, running
from ..graphs import components_of
from . import broken, reader

LONGEST = 10          # seconds
READ_AT_ONCE = 65_536  # bytes
SHORT = 1_000         # bytes of files that are all judged by the plain reader
MOST_TRIED = 9        # vertices of graphs of which all sides are tried
REPORTED = 100_000    # files after which a line is printed


# Running

class Runner:
    """Runs the program on one text after the other; its standard streams are files in memory, which are used again."""
    def __init__(self, program: str):
        self.program = program
        self.source, self.out, self.err = (os.memfd_create(name) for name in ('in', 'out', 'err'))
        self.actions = [(os.POSIX_SPAWN_DUP2, stream, number) for number, stream in enumerate((self.source, self.out, self.err))]

    def run(self, job: str, text: bytes) -> tuple[int, bytes, bytes]:
        """(status, or the signal below 0; standard output; standard error)"""
        os.ftruncate(self.source, 0)
        os.pwrite(self.source, text, 0)
        os.lseek(self.source, 0, os.SEEK_SET)
        child = os.posix_spawn(self.program, [self.program, job], {}, file_actions=self.actions)
        handle = os.pidfd_open(child)
        if not select.select([handle], [], [], LONGEST)[0]:
            os.kill(child, signal.SIGKILL)
        os.close(handle)
        _, ended = os.waitpid(child, 0)
        return os.waitstatus_to_exitcode(ended), taken(self.out), taken(self.err)


def taken(stream: int) -> bytes:
    """What a program wrote to this file, which is emptied; the place in the file is the program's too."""
    size = os.lseek(stream, 0, os.SEEK_CUR)
    if size == 0:
        return b''
    text = os.pread(stream, size, 0)
    os.ftruncate(stream, 0)
    os.lseek(stream, 0, os.SEEK_SET)
    return text


# Files

def short_files(rng: Random) -> list[bytes]:
    return [reader.valid_file(rng) for _ in range(500)] + 5 * broken.small_files()


def long_files(rng: Random) -> list[bytes]:
    """Files of some thousand bytes, without and with sizes and weights, and one that is read in several pieces."""
    made = [families.grid(400, rng), families.random_sparse(100, rng), families.hypercube(64, rng), families.ring_of_cliques(200, rng)]
    files = [metis.text_of((n, edges)) for n, edges, _ in made]
    files += [metis.text_of((n, edges), [[k % 7, k % 3, 12345678] for k in range(n)], True) for n, edges, _ in made]
    n, edges, _ = families.ring(12_000, rng)
    return [text.encode() for text in [*files, metis.text_of((n, edges))]]


Change = Callable[[Random, bytes, int], bytes]
BYTE = [bytes([k]) for k in range(256)]
LIKELY = [BYTE[k] for k in reader.BYTES]
NUMBER = re.compile(rb'\d+')


def other_bit(rng: Random, text: bytes, at: int) -> bytes:
    return text[:at] + BYTE[text[at] ^ 1 << int(rng.random() * 8)] + text[at + 1:]


def other_byte(rng: Random, text: bytes, at: int) -> bytes:
    return text[:at] + rng.choice(LIKELY) + text[at + 1:]


def byte_more(rng: Random, text: bytes, at: int) -> bytes:
    return text[:at] + rng.choice(LIKELY if rng.random() < 0.8 else BYTE) + text[at:]


def bytes_less(rng: Random, text: bytes, at: int) -> bytes:
    return text[:at] + text[at + 1 + int(rng.random() ** 4 * 20):]


def piece_again(rng: Random, text: bytes, at: int) -> bytes:
    """A piece of the file, most often a short one, stands at another place too."""
    start = int(rng.random() * len(text))
    return text[:at] + text[start:start + 1 + int(rng.random() ** 3 * 40)] + text[at:]


def other_number(rng: Random, text: bytes, at: int) -> bytes:
    """The next number is one more or less, or another one of the file, or one of those that mean something to a reader."""
    found = NUMBER.search(text, at)
    if found is None:
        return text
    kind = rng.random()
    other = NUMBER.search(text, int(rng.random() * len(text)))
    number = other[0] if other else b'1'
    if kind < 0.4:
        number = b'%d' % max(0, int(found[0][:30]) + (1 if kind < 0.2 else -1))
    elif kind < 0.6:
        number = rng.choice(reader.WILD)
    return text[:found.start()] + number + text[found.end():]


def end_less(rng: Random, text: bytes, at: int) -> bytes:
    return text[:at]


CHANGES: list[Change] = [other_bit, other_byte, other_byte, byte_more, byte_more, bytes_less, bytes_less, piece_again, piece_again,
                         other_number, other_number, other_number, end_less]


def mutated(rng: Random, text: bytes) -> bytes:
    """The file with one to four changes."""
    for _ in range(rng.choice((1, 1, 1, 2, 2, 3, 4))):
        text = rng.choice(CHANGES)(rng, text, int(rng.random() * len(text))) if text else rng.choice(LIKELY)
    return text


def shifted(rng: Random, text: bytes) -> bytes:
    """The file below a comment that is so long that the end of what is read at once is in the file, or at its ends."""
    return b'%' + b' ' * (READ_AT_ONCE - 2 - int(rng.random() * (len(text) + 1))) + b'\n' + text


# What is right

KINDS = (b'NoHeader|HeaderWords|BadNumber|BadFormat|TooManyVertices|TooManyEdges|BadConstraints|NeighbourRange|SelfLoop|ZeroWeight|'
         b'WordMissing|TooManyEntries|TooFewEntries|ExtraLine|WeightSum|MissingLines|Repeated|Unsymmetric')
WRITTEN = {'value': re.compile(rb'no cut\n|value (0|[1-9]\d*)\n'),
           'count': re.compile(rb'no cut\n|value (0|[1-9]\d*)\ncount [1-9]\d*\n')}
SAID = {1: re.compile(rb'refused: (%s) at line (0|[1-9]\d*)\n' % KINDS), 5: re.compile(rb'out of memory\n'),
        8: re.compile(rb'count too large: [1-9]\d* components\n')}


def is_documented(job: str, status: int, out: bytes, err: bytes) -> bool:
    """Whether the job may end with this status, and the texts have the form that goes with it."""
    if status == 0:
        return WRITTEN[job].fullmatch(out) is not None and not err
    return status in SAID and (status != 8 or job == 'count') and SAID[status].fullmatch(err) is not None and not out


def wanted(job: str, text: bytes) -> answers.Right:
    """The right answer, as `answers_by_hand.wanted` gives it; the list is None where the text is not known."""
    try:
        graph, masses = metis.read(text)
    except metis.Fault as fault:
        return 1, [''], f'refused: {fault.kind} at line {fault.line}\n'
    is_known = graph[0] <= MOST_TRIED or len(components_of(graph)) > 1
    return answers.wanted([job], graph, masses) if is_known else (0, None, '')


def difference(job: str, text: bytes, is_judged: bool, answer: tuple[int, bytes, bytes]) -> str | None:
    """What is wrong with the answer, or None."""
    if not is_documented(job, *answer):
        return f'{job} answers {answer}, which is not documented'
    if not is_judged or answer[0] == 5:
        return None
    status, out, err = running.told(*answer)
    right = wanted(job, text)
    same = (status, err) == (right[0], right[2]) and (right[1] is None or out in right[1])
    return None if same else f'{job} answers {(status, out, err)}, and right is {right}'


# All of them

def cases(options: argparse.Namespace) -> Iterator[tuple[int, str, bytes, bool]]:
    """The seed of each file, its job, its text, and whether it is judged by the plain reader."""
    first = options.seed * 1_000_003
    short, long = short_files(Random(first)), long_files(Random(first))
    for seed in range(first, first + options.count):
        rng = Random(seed)
        text = mutated(rng, rng.choice(short if rng.random() < 0.97 else long))
        is_judged = len(text) <= SHORT or seed % options.every == 0
        yield seed, 'count' if seed % 8 == 0 else 'value', shifted(rng, text) if rng.random() < 0.06 else text, is_judged


def kept(folder: str, seed: int, text: bytes) -> str:
    """Keeps the file; answers its path."""
    path = os.path.join(folder, f'mutated_{seed}.graph')
    with open(path, 'wb') as file:
        file.write(text)
    return path


def name_of(status: int, out: bytes, err: bytes) -> str:
    """The status of an answer, with the fault that it names."""
    found = SAID[1].fullmatch(err) if status == 1 else None
    return f'status {status}' + (f' {found[1].decode()}' if found else '')


def add_options(parser: argparse.ArgumentParser) -> None:
    running.add_program(parser)
    parser.add_argument('--count', type=int, default=100_000, help='how many files, 100000 if not named')
    parser.add_argument('--seed', type=int, default=1, help='other seeds make other files')
    parser.add_argument('--every', type=int, default=100, help='each so many of the long files is judged by the plain reader')
    parser.add_argument('--keep', default=tempfile.gettempdir(), help='the folder for files that differ')


def main(options: argparse.Namespace) -> int:
    runner, before = Runner(running.ready(options.program)), os.times()
    names, wrong = Counter(), []
    for k, (seed, job, text, is_judged) in enumerate(cases(options), 1):
        answer = runner.run(job, text)
        names[name_of(*answer)] += 1
        names['judged by the plain reader'] += is_judged
        found = difference(job, text, is_judged, answer)
        if found is not None:
            wrong.append(f'DIFFERS seed {seed}, {kept(options.keep, seed, text)}: {found}')
        if k % REPORTED == 0:
            print(f'{k} files in {os.times().elapsed - before.elapsed:.0f} s, {len(wrong)} differ', flush=True)
    for name, count in sorted(names.items()):
        print(f'{count:7d} {name}')
    own, own_system, programs, their_system, clock = (after - first for after, first in zip(os.times(), before))
    print(f'{clock:.0f} s by the clock; of the processor {programs + their_system:.0f} s in the program, {own + own_system:.0f} s here')
    return running.tell_end(options.job, f'{options.count} files', wrong)
