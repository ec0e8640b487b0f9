"""Random METIS files, valid and broken, judged by an independent plain reader and compared with a built program.

    tools/check reader [--program PATH] [--count 20000] [--seed 1] [--threads 4]

Each file is given to the job `value`. The program answers with its status and its line on the error output: status 1 and
`refused: KIND at line N` for the first fault, else status 0, and then its text is compared with the least weight of a cut, found
by trying all sides. The file comes through a pipe in pieces of random length.
"""
import argparse
from random import Random

from .. import metis, running
from ..cuts_by_hand import minimum_cuts

FORMS = ['', '', '0', '1', '01', '001', '10', '11', '011', '100', '101', '110', '111', '000']
WEIGHTS = [1, 2, 3, 7, 100, (1 << 55) + 1]
HEAVY = [1 << 58, 1 << 59, 1 << 60, 1 << 61, (1 << 61) - 1, 1]


# Files without a fault

def number_text(rng: Random, value: int) -> str:
    return '0' * rng.choice([0, 0, 0, 0, 1, 3, 25]) + str(value)


class Writer:
    """Writes lines of words with the blanks, comments and empty lines that a file may have."""
    def __init__(self, rng: Random):
        self.rng = rng
        self.lines: list[str] = []
        self.noise = rng.random() < 0.4
        self.blanks = [' ', ' ', '\t', '\r', '  '] if rng.random() < 0.4 else [' ']

    def extra_lines(self, choices: list[str]) -> None:
        while self.noise and self.rng.random() < 0.2:
            self.lines.append(self.rng.choice(choices))

    def comments(self) -> None:
        self.extra_lines(['%', '% x', '%1 2 3', '%%'])

    def line(self, words: list[str]) -> None:
        rng = self.rng
        text = rng.choice(['', '', '', ' ', '\t']) if self.noise and words else ''
        for place, word in enumerate(words):
            text += (rng.choice(self.blanks) if place else '') + word
        self.lines.append(text + (rng.choice(['', '', ' ', '\r']) if self.noise else ''))


def random_rows(rng: Random, n: int, pairs: list[tuple[int, int]], edge_weights: bool) -> dict[int, list[tuple[int, int]]]:
    """For each vertex its neighbours with their weights."""
    weights = HEAVY if rng.random() < 0.15 else WEIGHTS
    rows = {u: [] for u in range(1, n + 1)}
    for u, v in pairs:
        w = rng.choice(weights) if edge_weights else 1
        rows[u].append((v, w))
        rows[v].append((u, w))
    return rows


def valid_file(rng: Random) -> bytes:
    n = rng.choice([0, 1, 2, 2, 3, 3, 4, 5, 6, 7, 8])
    pairs = [(u, v) for u in range(1, n + 1) for v in range(u + 1, n + 1)]
    rng.shuffle(pairs)
    pairs = pairs[:rng.randrange(0, len(pairs) + 1)]
    form = rng.choice(FORMS)
    sizes, weights, edge_weights = (bit == '1' for bit in form.rjust(3, '0'))
    count = rng.choice([None, 1, 2, 3, 32] if weights else [None, 0, 1, 7, 40]) if form else None
    leading = sizes + ((count or 1) if weights else 0)
    rows = random_rows(rng, n, pairs, edge_weights)
    out = Writer(rng)
    out.extra_lines(['', ' ', '\t\r'])
    out.comments()
    header = [number_text(rng, n), number_text(rng, len(pairs))] + ([form] if form else [])
    out.line(header + ([number_text(rng, count)] if count is not None else []))
    for u in range(1, n + 1):
        out.comments()
        rng.shuffle(rows[u])
        words = [number_text(rng, rng.randrange(0, 9)) for _ in range(leading)]
        for v, w in rows[u]:
            words += [number_text(rng, number) for number in ([v, w] if edge_weights else [v])]
        out.line(words)
    out.extra_lines(['', ' ', '% end'])
    last_feed = n and not out.lines[-1] or rng.random() < 0.8
    return ('\n'.join(out.lines) + ('\n' if last_feed else '')).encode()


# Files with changes

WILD = [b'0', b'1', b'2', b'3', b'9', b'x', b'-1', b'1.5', b'18446744073709551615', b'18446744073709551616', b'4611686018427387904',
        b'4611686018427387903', b'4194304', b'4194305', b'16777216', b'16777217', b'33', b'%', b'2305843009213693952', b'1' * 30,
        b'0' * 300 + b'2', b'00001']
BYTES = [0, 9, 10, 13, 32, 37, 45, 47, 48, 49, 57, 58, 97, 127, 200, 255]


def unlike(rng: Random, text: bytes) -> bytes:
    """A file in which one vertex line has a neighbour or a weight of another one."""
    lines = text.split(b'\n')
    at = rng.randrange(len(lines))
    words = lines[at].split(b' ')
    if len(words) > 1:
        k, j = rng.randrange(len(words)), rng.randrange(len(words))
        words[k] = words[j]
    lines[at] = b' '.join(words)
    return b'\n'.join(lines)


def change_line(rng: Random, change: int, lines: list[bytes], at: int, words: list[bytes], k: int) -> None:
    """Changes one of the lines, at word `k` where it changes a word."""
    if change == 0:
        words[k] = rng.choice(WILD)
    elif change == 1:
        words.insert(k, rng.choice(WILD))
    elif change == 2:
        del words[k]
    elif change == 9:
        words[k] = words[k - 1]
    elif change == 3:
        del lines[at]
    elif change == 4:
        lines.insert(at, rng.choice([b'', b' ', b'%', b'1', b'2 3', lines[at]]))
    else:
        other = rng.randrange(len(lines))
        lines[at], lines[other] = lines[other], lines[at]
    if change in (0, 1, 2, 9):
        lines[at] = b' '.join(words)


def change_bytes(rng: Random, change: int, text: bytes) -> bytes:
    """The text cut off, with one byte more or with one less."""
    if change == 6:
        return text[:rng.randrange(len(text) + 1)]
    if change == 7:
        place = rng.randrange(len(text) + 1)
        return text[:place] + bytes([rng.choice(BYTES)]) + text[place:]
    place = rng.randrange(len(text)) if text else 0
    return text[:place] + text[place + 1:]


def broken(rng: Random, text: bytes) -> bytes:
    """A valid file with one to three random changes of its lines, words and bytes."""
    if rng.random() < 0.3:
        return unlike(rng, text)
    for _ in range(rng.choice([1, 1, 1, 2, 3])):
        change = rng.randrange(10)
        lines = text.split(b'\n')
        at = rng.randrange(len(lines))
        words = lines[at].split(b' ')
        k = rng.randrange(len(words))
        if change in (6, 7, 8):
            text = change_bytes(rng, change, text)
        else:
            change_line(rng, change, lines, at, words, k)
            text = b'\n'.join(lines)
    return text


# What is right

def wanted(text: bytes) -> tuple[int, str | None, str, str]:
    """(status, text on out or None where it is not compared, text on err, kind)"""
    try:
        graph, _ = metis.read(text)
    except metis.Fault as fault:
        return 1, '', f'refused: {fault.kind} at line {fault.line}\n', fault.kind
    if graph[0] > 9:
        return 0, None, '', 'accepted'
    return 0, 'no cut\n' if graph[0] < 2 else f'value {minimum_cuts(graph)[0]}\n', '', 'accepted'


def judge(program: str, text: bytes, seed: int, rng: Random) -> running.Verdict:
    """(names to count, what differs or None) of the answer to one file."""
    status, out, err, kind = wanted(text)
    got = running.run_in_pieces(program, ['value'], text, rng)
    if got[0] == status and got[2] == err and out in (None, got[1]):
        return [kind], None
    return [kind], f'DIFFERS seed {seed}: {text!r}\n  wanted {(status, out, err)}\n  got    {got}'


def check(program: str, seed: int) -> running.Verdict:
    """(names to count, what differs or None) of one random file."""
    rng = Random(seed)
    text = valid_file(rng)
    if rng.random() < 0.65:
        text = broken(rng, text)
    return judge(program, text, seed, rng)


def add_options(parser: argparse.ArgumentParser) -> None:
    running.add_cases(parser, 20_000)


def main(options: argparse.Namespace) -> int:
    return running.judge_all(options, 'files', lambda program, k, seed: check(program, seed))
