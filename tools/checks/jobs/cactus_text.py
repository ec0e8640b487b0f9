"""Broken texts of cactuses, each with the line of its first fault, for a reader of such texts.

    tools/check cactus-text --write FILE [--count 2500] [--seed 1] [--program PATH]
    tools/check cactus-text --compare FILE COMMAND [WORDS ..]
    tools/check cactus-text --trial FILE

The first form writes cases: right texts of random cactuses, and the same with one or two changes; half of the texts are what the
program prints for random graphs. The second form gives the file to the command on its standard input and
compares the numbers that it prints, one line for each case. The third form does so with a small program over `read` of the
crate cactus_text, which it makes in a folder of its own and runs by `rt try`.

The file: a line with the number of cases; then for each case a line `E L`, where E is the line of the first fault, or 0 where
the text has none, and L is the number of its bytes; then these bytes; then a line feed.
"""
import argparse
import pathlib
import shutil
import subprocess
import sys
import tempfile
from collections import Counter
from collections.abc import Sequence
from random import Random

from .. import cactuses, graphs, metis, running


def printed_text(rng: Random, program: str) -> bytes:
    """What the program prints for a random graph that has a cactus."""
    while True:
        graph = graphs.random_graph(rng)[1]
        if graph[0] > 1 and len(graphs.components_of(graph)) == 1:
            status, out, err = running.run_program(program, ['cactus'], metis.text_of(graph))
            if status != 0:
                sys.exit(f'the program ended with status {status}: {err}')
            return out.encode()


# Changes. Each takes the text as a list of lines without their line feeds, changes it, and answers nothing.

WILD = [b'0', b'1', b'2', b'3', b'00', b'01', b'-1', b'+1', b'1.0', b'x', b'', b'4194304', b'4194305', b'4611686018427387904',
        b'4611686018427387905', b'18446744073709551615', b'18446744073709551616', b'9' * 30, b'node', b'1_0', '\u0663'.encode()]


def some_line(rng: Random, lines: list[bytes], word: bytes = b'') -> int:
    """The place of a random line that starts with the word, or of any line where none does."""
    places = [i for i, line in enumerate(lines) if line.startswith(word)]
    return rng.choice(places or list(range(len(lines))))


def delete_line(rng: Random, lines: list[bytes]) -> None:
    del lines[rng.randrange(len(lines))]


def repeat_line(rng: Random, lines: list[bytes]) -> None:
    i = rng.randrange(len(lines))
    lines.insert(i, lines[i])


def swap_lines(rng: Random, lines: list[bytes]) -> None:
    i, j = rng.randrange(len(lines)), rng.randrange(len(lines))
    lines[i], lines[j] = lines[j], lines[i]


def add_line(rng: Random, lines: list[bytes]) -> None:
    line = [b'', b' ', b'x', b'bridge 0 1', b'node 1', b'cycle 0 1 2', b'cactus 1 1 1 0 0']
    lines.insert(rng.randrange(len(lines) + 1), rng.choice(line))


def add_last_line(rng: Random, lines: list[bytes]) -> None:
    lines.append(rng.choice([b'', b' ', b'x', b'bridge 0 1', b'node 1', lines[-1]]))


def change_number(rng: Random, lines: list[bytes]) -> None:
    i = rng.randrange(len(lines))
    words = lines[i].split(b' ')
    k = rng.randrange(len(words))
    if words[k].isdigit() and rng.random() < 0.6:
        words[k] = str(max(0, int(words[k]) + rng.choice([-2, -1, 1, 1, 2, 3]))).encode()
    else:
        words[k] = rng.choice(WILD)
    lines[i] = b' '.join(words)


def change_header(rng: Random, lines: list[bytes]) -> None:
    words = lines[0].split(b' ')
    k = rng.randrange(1, max(2, len(words)))
    if k < len(words):
        near = str(max(0, int(words[k]) + rng.choice([-1, 1]))).encode() if words[k].isdigit() else b'1'
        words[k] = rng.choice([near, near, rng.choice(WILD)])
    lines[0] = b' '.join(words)


def change_word(rng: Random, lines: list[bytes]) -> None:
    i = rng.randrange(len(lines))
    words = lines[i].split(b' ')
    words[0] = rng.choice([b'node', b'bridge', b'cycle', b'cactus', b'Node', b'nodes', b'', words[0] + b' ' + words[0], words[0][:-1]])
    lines[i] = b' '.join(words)


def add_word(rng: Random, lines: list[bytes]) -> None:
    i = rng.randrange(len(lines))
    words = lines[i].split(b' ')
    words.insert(rng.randrange(1, len(words) + 1), rng.choice(WILD))
    lines[i] = b' '.join(words)


def drop_word(rng: Random, lines: list[bytes]) -> None:
    i = rng.randrange(len(lines))
    words = lines[i].split(b' ')
    del words[rng.randrange(len(words))]
    lines[i] = b' '.join(words)


def blanks(rng: Random, lines: list[bytes]) -> None:
    i = rng.randrange(len(lines))
    line = lines[i]
    lines[i] = rng.choice([line.replace(b' ', b'  ', 1), b' ' + line, line + b' ', line.replace(b' ', b'\t', 1),
                           line + b'\t', line + b'\r', line + b'\0'])


def leading_zero(rng: Random, lines: list[bytes]) -> None:
    i = rng.randrange(len(lines))
    words = lines[i].split(b' ')
    k = rng.randrange(1, max(2, len(words)))
    if k < len(words):
        words[k] = b'0' + words[k]
    lines[i] = b' '.join(words)


def swap_words(rng: Random, lines: list[bytes]) -> None:
    i = some_line(rng, lines, rng.choice([b'node', b'bridge', b'cycle']))
    words = lines[i].split(b' ')
    j, k = rng.randrange(len(words)), rng.randrange(len(words))
    words[j], words[k] = words[k], words[j]
    lines[i] = b' '.join(words)


def drop_vertex(rng: Random, lines: list[bytes]) -> None:
    i = some_line(rng, lines, b'node')
    words = lines[i].split(b' ')
    if len(words) > 2:
        del words[rng.randrange(2, len(words))]
    lines[i] = b' '.join(words)


def repeat_vertex(rng: Random, lines: list[bytes]) -> None:
    """A vertex of one node put in order into a further node."""
    i, j = some_line(rng, lines, b'node'), some_line(rng, lines, b'node')
    words, others = lines[i].split(b' '), lines[j].split(b' ')
    if len(words) > 2 and all(word.isdigit() for word in words[1:] + others[1:]):
        others[2:] = sorted(others[2:] + [rng.choice(words[2:])], key=int)
    lines[j] = b' '.join(others)


def move_vertex(rng: Random, lines: list[bytes]) -> None:
    """A vertex moved in order to a further node; the text stays right unless it was vertex 1."""
    i, j = some_line(rng, lines, b'node'), some_line(rng, lines, b'node')
    words, others = lines[i].split(b' '), lines[j].split(b' ')
    if i != j and len(words) > 2 and all(word.isdigit() for word in words[1:] + others[1:]):
        others[2:] = sorted(others[2:] + [words.pop(rng.randrange(2, len(words)))], key=int)
    lines[i], lines[j] = b' '.join(words), b' '.join(others)


def turn_cycle(rng: Random, lines: list[bytes]) -> None:
    """A cycle turned or reversed. Where its least node stays first the text stays right."""
    i = some_line(rng, lines, b'cycle')
    words = lines[i].split(b' ')
    turn = rng.randrange(len(words))
    rest = words[1:]
    if rng.random() < 0.5:
        rest = rest[:1] + rest[:0:-1]
    else:
        rest = rest[turn:] + rest[:turn]
    lines[i] = b' '.join(words[:1] + rest)


def reroute(rng: Random, lines: list[bytes]) -> None:
    """Another end for a bridge, or another node in a cycle: nodes may be joined twice, and others not at all."""
    i = some_line(rng, lines, rng.choice([b'bridge', b'cycle']))
    words = lines[i].split(b' ')
    counts = [line.split(b' ')[1] for line in lines if line.startswith(b'node ')]
    if counts and len(words) > 2:
        words[rng.randrange(1, len(words))] = rng.choice(counts)
        if words[0] == b'bridge' and all(word.isdigit() for word in words[1:]):
            words[1:] = sorted(words[1:], key=int)
    lines[i] = b' '.join(words)


def copy_joint(rng: Random, lines: list[bytes]) -> None:
    """One bridge or cycle overwritten by another of its kind."""
    word = rng.choice([b'bridge', b'cycle'])
    i, j = some_line(rng, lines, word), some_line(rng, lines, word)
    lines[i] = lines[j]


def joint_less(rng: Random, lines: list[bytes]) -> None:
    """A bridge or cycle less, and one less in the first line."""
    word, k = rng.choice([(b'bridge', 4), (b'cycle', 5)])
    places = [i for i, line in enumerate(lines) if line.startswith(word + b' ')]
    words = lines[0].split(b' ')
    if places and len(words) == 6 and words[k].isdigit() and int(words[k]):
        del lines[rng.choice(places)]
        words[k] = str(int(words[k]) - 1).encode()
        lines[0] = b' '.join(words)


def node_more(rng: Random, lines: list[bytes]) -> None:
    """A node without vertices more that nothing joins, and one more in the first line."""
    words = lines[0].split(b' ')
    places = [i for i, line in enumerate(lines) if line.startswith(b'node ')]
    if places and len(words) == 6 and words[3].isdigit():
        lines.insert(places[-1] + 1, b'node ' + words[3])
        words[3] = str(int(words[3]) + 1).encode()
        lines[0] = b' '.join(words)


def only_header(rng: Random, lines: list[bytes]) -> None:
    lines[:] = [rng.choice([b'cactus 1 1 0 0 0', b'cactus 1 1 0 1 0', b'cactus 5 1 18446744073709551615 0 0', b'cactus 0 4194304 1 0 0',
                            b'cactus 1 1 18446744073709551616 0 0', b'cactus 1 0 1 0 0'])] + rng.choice([[], [b'node 0 1'], lines[1:]])


CHANGES = [delete_line, repeat_line, swap_lines, add_line, add_last_line, change_number, change_number, change_header, change_word,
           add_word, drop_word, blanks, leading_zero, swap_words, drop_vertex, repeat_vertex, move_vertex, turn_cycle, reroute, reroute,
           copy_joint, joint_less, node_more, only_header]


def without_last_feed(rng: Random, text: bytes) -> bytes:
    return text[:-1]


def cut_off(rng: Random, text: bytes) -> bytes:
    return text[:rng.randrange(len(text) + 1)]


def byte_changed(rng: Random, text: bytes) -> bytes:
    i = rng.randrange(len(text) + 1)
    byte = rng.choice([b'\0', b'\t', b'\n', b'\n', b'\r', b' ', b'0', b'1', b'9', b'a', b'\xff', b''])
    return text[:i] + byte + text[i + rng.choice([0, 1]):]


def carriage_returns(rng: Random, text: bytes) -> bytes:
    return text.replace(b'\n', b'\r\n')


BYTE_CHANGES = [without_last_feed, cut_off, byte_changed, byte_changed, carriage_returns]


def changed(rng: Random, text: bytes) -> tuple[str, bytes]:
    """(name of the change, text)"""
    names = []
    for _ in range(rng.choice([1, 1, 1, 2])):
        if not text.endswith(b'\n') or rng.random() < 0.25:
            change = rng.choice(BYTE_CHANGES)
            text = change(rng, text)
        else:
            change = rng.choice(CHANGES)
            lines = text[:-1].split(b'\n')
            change(rng, lines)
            text = b''.join(line + b'\n' for line in lines)
        names.append(change.__name__)
    return names[0] if len(names) == 1 else 'two changes', text


Case = tuple[str, int, bytes]


def make_cases(count: int, seed: int, program: str) -> list[Case]:
    """Cases as (name of the change, expected number, text)."""
    rng = Random(seed)
    cases = []
    for k in range(count):
        text = printed_text(rng, program) if k % 2 else cactuses.random_cactus(rng).text().encode()
        name = 'none'
        if k % 10:
            name, text = changed(rng, text)
        cases.append((name, cactuses.first_fault(text), text))
    return cases


def write_cases(path: str, cases: Sequence[Case]) -> None:
    with open(path, 'wb') as out:
        out.write(b'%d\n' % len(cases))
        for _, expected, text in cases:
            out.write(b'%d %d\n' % (expected, len(text)) + text + b'\n')


def read_cases(path: str) -> list[tuple[int, bytes]]:
    """The cases of a file as (expected number, text)."""
    with open(path, 'rb') as source:
        cases = []
        for _ in range(int(source.readline())):
            expected, length = map(int, source.readline().split())
            cases.append((expected, source.read(length)))
            if source.read(1) != b'\n':
                sys.exit(f'{path}: case {len(cases)} does not end where its length says')
        return cases


def report(cases: Sequence[Case]) -> None:
    """How many cases of each change have which kind of answer."""
    table = {}
    for name, expected, text in cases:
        lines = text.count(b'\n') + (not text.endswith(b'\n') and text != b'')
        column = 'right' if expected == 0 else 'a line' if expected <= lines else 'past the last'
        table.setdefault(name, Counter())[column] += 1
    print(f'{"":>18}  right  fault at a line  past the last')
    for name, counts in sorted(table.items()):
        print(f'{name:>18} {counts["right"]:6d} {counts["a line"]:16d} {counts["past the last"]:14d}')
    total = sum(table.values(), Counter())
    print(f'{"all":>18} {total["right"]:6d} {total["a line"]:16d} {total["past the last"]:14d}')


def compare(path: str, command: list[str]) -> int:
    """Compares the numbers that the command prints with the expected ones; answers the status."""
    cases = read_cases(path)
    with open(path, 'rb') as source:
        child = subprocess.run(command, stdin=source, stdout=subprocess.PIPE)
    answers = child.stdout.decode('utf-8', 'replace').split()
    wrong = []
    for k, (expected, text) in enumerate(cases):
        answer = answers[k] if k < len(answers) else 'nothing'
        if answer != str(expected):
            wrong.append(f'DIFFERS case {k + 1}: expected {expected}, answer {answer}, text {text!r}')
    if len(answers) > len(cases) or child.returncode != 0:
        wrong.insert(0, f'DIFFERS: {len(answers)} answers, status {child.returncode}')
    return running.tell_end('cactus-text', f'{len(cases)} cases', wrong)


CRATES = ('outside', 'cut_definitions', 'vertex_set', 'rooted_cactus', 'flat_cactus', 'edge_augment', 'answer_pages', 'cactus_text')

TRIAL = '''// Reads cases of cactus texts, and prints for each the number of the line that is refused, or 0.
#![tactic(auto)]

use cactus_text::{TextRefusal, read};
use outside::{Source, StdSource};
use std::io;

fn number(bytes: &[u8], start: usize) -> (usize, usize) {
    let mut value = 0;
    let mut at = start;
    while at < bytes.len() && bytes[at] >= 48 && bytes[at] <= 57 {
        value = value * 10 + (bytes[at] - 48) as usize;
        at += 1;
    }
    (value, at + 1)
}

fn main(rt: HostRuntime) -> io::Result<()> {
    let alloc = rt.alloc();
    let mut source = StdSource::new(rt.stdin());
    let mut bytes: Vec<u8> = Vec::new(alloc);
    let mut room = [0u8; 65_536];
    while let Ok(count) = source.read(&mut room) {
        if count == 0 {
            break;
        }
        bytes.extend_from_slice(&room[..count])?;
    }
    let (count, mut at) = number(&bytes, 0);
    for _ in 0..count {
        let (_, next) = number(&bytes, at);
        let (length, next) = number(&bytes, next);
        let line = match read(alloc, &bytes[next..next + length]) {
            Ok(_) => 0,
            Err(TextRefusal::Malformed(line)) => line,
            Err(TextRefusal::NoMemory) => 999_999,
        };
        println!(rt; "{line}")?;
        at = next + length + 1;
    }
    Ok(())
}
'''


def try_reader(path: str) -> int:
    """Compares with what a small program over `read` prints, which `rt try` runs in a folder of its own."""
    top = pathlib.Path(running.TOP)
    with tempfile.TemporaryDirectory() as folder:
        trial = pathlib.Path(folder)
        for name in CRATES:
            shutil.copytree(top / 'crates' / name, trial / 'crates' / name)
        lines = [line for line in (top / 'crates.txt').read_text().splitlines() if line.split(':')[0] in CRATES]
        (trial / 'crates.txt').write_text('\n'.join(lines + ['text_trial: outside cactus_text']) + '\n')
        shutil.copy(top / 'HANDLES', trial)
        source = trial / 'crates' / 'text_trial' / 'src'
        source.mkdir(parents=True)
        (source / 'main.rt').write_text(TRIAL)
        return compare(path, ['sh', '-c', f'cd {source.parent} && exec rt try --seconds 600'])


def add_options(parser: argparse.ArgumentParser) -> None:
    mode = parser.add_mutually_exclusive_group(required=True)
    mode.add_argument('--write', metavar='FILE', help='write cases into this file')
    mode.add_argument('--trial', metavar='FILE', help='compare with the crate cactus_text, by `rt try`')
    mode.add_argument('--compare', nargs=argparse.REMAINDER, metavar='WORD', help='a file and a command: compare what it prints')
    parser.add_argument('--count', type=int, default=2500, help='how many cases, 2500 if not named')
    parser.add_argument('--seed', type=int, default=1, help='other seeds make other cases')
    running.add_program(parser)


def main(options: argparse.Namespace) -> int:
    if options.trial is not None:
        return try_reader(options.trial)
    if options.compare is not None:
        if len(options.compare) < 2:
            sys.exit('--compare needs a file and a command')
        return compare(options.compare[0], options.compare[1:])
    cases = make_cases(options.count, options.seed, running.ready(options.program))
    write_cases(options.write, cases)
    report(cases)
    return 0
