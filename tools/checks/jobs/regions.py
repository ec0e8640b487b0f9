"""The regions of far entries, on small files: a reader whose regions have four vertices, compared with the plain reader.

    tools/check regions [--count 300] [--seed 1] [--most 24]

In the reader of the program a neighbour is far from a distance of 16,384 on, so no small file has one. This check copies the crate of the
reader, with four in place of 1,024 vertices for a region and of that distance, and builds it without proofs into a program that writes
the edges and masses of a file, or its first fault. In the copy it is a fault if an accepted file has to be sorted to find the mates of its
entries. The files are valid ones and broken ones; the program gets them in pieces of 40 bytes. It takes a minute or two.
"""
import argparse
import os
import re
import shutil
import subprocess
import sys
import tempfile
from random import Random

from .. import metis, running
from . import reader

CRATES = ['cut_definitions', 'metis_reader']
LISTED = 'cut_definitions:\nmetis_reader: cut_definitions\nread_only: metis_reader cut_definitions\n'

# What is another number in the copy: the file, the text, and how often it stands there.
SMALL = [('waiting.rt', 'const BLOCK: usize = 1024;', 'const BLOCK: usize = 4;', 1),
         ('waiting.rt', 'const ROWS: u32 = 1024;', 'const ROWS: u32 = 4;', 1),
         ('waiting.rt', 'const FAR: u32 = 16_384;', 'const FAR: u32 = 4;', 1),
         ('waiting.rt', '0..1024usize', '0..4usize', 2),
         ('waiting.rt', 'edges as usize / 512', 'edges as usize / 2', 1)]
# What is told in the copy of an accepted file whose entries had to be sorted.
SORTED = '''            return Err(fault_of_vertex(kind, vertex, &numbers));
        }
'''
REFUSED = SORTED + '''        if header.vertices < 4_294_967_295 {
            return Err(Fault {
                kind: FaultKind::NoHeader,
                line: 0,
            });
        }
'''

MAIN = r'''//! Writes the edges and the masses of the METIS file on the standard input, or its first fault.
#![tactic(auto)]

use metis_reader::{MetisGraph, ReadRefusal, Reader};
use std::io::{self, Read};

fn graph(rt: &HostRuntime) -> io::Result<Result<MetisGraph, ReadRefusal>> {
    let mut reader = Reader::new(rt.alloc());
    let mut input = rt.stdin();
    let mut room = [0u8; 40];
    for _ in 0..u64::MAX {
        let count = input.read(&mut room)?;
        if count == 0 {
            break;
        }
        if let Err(refusal) = reader.feed(&room[..count]) {
            return Ok(Err(refusal));
        }
    }
    Ok(reader.finish())
}

fn main(rt: HostRuntime) -> io::Result<()> {
    match graph(&rt)? {
        Ok(graph) => {
            for edge in graph.edges.edges() {
                println!(rt; "{} {} {}", edge.u, edge.v, edge.w)?;
            }
            for v in 1..=graph.weights.len() {
                println!(rt; "mass {}", graph.weights.of(v))?;
            }
            Ok(())
        }
        Err(ReadRefusal::NoMemory) => {
            println!(rt; "no memory")
        }
        Err(ReadRefusal::Fault(fault)) => {
            println!(rt; "{:?} at line {}", fault.kind, fault.line)
        }
    }
}
'''


def change(file: str, old: str, new: str, times: int) -> None:
    """Puts a text in the place of another, which stands so many times in the file."""
    with open(file) as source:
        text = source.read()
    if text.count(old) != times:
        sys.exit(f'{file} has {text.count(old)} times, and not {times} times: {old}')
    with open(file, 'w') as out:
        out.write(text.replace(old, new))


def make_program(folder: str) -> str:
    """Makes a repository in the folder, of the changed reader and a program on it; answers the folder of that."""
    for crate in CRATES:
        shutil.copytree(os.path.join(running.TOP, 'crates', crate), os.path.join(folder, 'crates', crate),
                        ignore=shutil.ignore_patterns('out', 'must-fail'))
    source = os.path.join(folder, 'crates', 'metis_reader', 'src')
    for name, old, new, times in SMALL:
        change(os.path.join(source, name), old, new, times)
    change(os.path.join(source, 'body.rt'), SORTED, REFUSED, 1)
    program = os.path.join(folder, 'crates', 'read_only')
    os.makedirs(os.path.join(program, 'src'))
    for name, text in [('crates.txt', LISTED), (os.path.join(program, 'src', 'main.rt'), MAIN)]:
        with open(os.path.join(folder, name), 'w') as out:
            out.write(text)
    return program


def random_file(rng: Random, most: int) -> bytes:
    """A file of a graph that has far neighbours, with or without changes; or one of the check `reader`."""
    if rng.random() < 0.2:
        return reader.valid_file(rng)
    n = rng.randrange(5, most + 1)
    pairs = [(u, v) for u in range(1, n + 1) for v in range(u + 1, n + 1) if rng.random() < 0.5]
    weights = rng.choice([[1], [1, 2, 12345678, 1234567]])
    text = metis.text_of((n, [(u, v, rng.choice(weights)) for u, v in pairs])).encode()
    if rng.random() < 0.3:
        text = text.replace(b'\n', rng.choice([b'\r\n', b'\n% x\n', b' \n']))
    if rng.random() < 0.3:
        text = reader.unlike(rng, text) if rng.random() < 0.5 else reader.broken(rng, text)
    return text


def wanted(text: bytes) -> str:
    """What the program has to write of a file."""
    try:
        (_, edges), masses = metis.read(text)
    except metis.Fault as fault:
        return f'{fault.kind} at line {fault.line}\n'
    return ''.join(f'{u} {v} {w}\n' for u, v, w in edges) + ''.join(f'mass {mass}\n' for mass in masses)


def add_options(parser: argparse.ArgumentParser) -> None:
    parser.add_argument('--count', type=int, default=300, help='how many files, 300 if not named')
    parser.add_argument('--seed', type=int, default=1, help='other seeds make other files')
    parser.add_argument('--most', type=running.number_between(6, 200), default=24, help='most vertices of a graph, 24 if not named')


def judged(folder: str, texts: list[bytes]) -> dict[int, str]:
    """Runs the program on each of the texts; answers, by their numbers, the lines of those whose output is not the wanted one."""
    program, cases = make_program(folder), os.path.join(folder, 'cases')
    os.makedirs(cases)
    for k, text in enumerate(texts):
        for name, content in [(f'{k}', text), (f'{k}.stdout', wanted(text).encode())]:
            with open(os.path.join(cases, name), 'wb') as out:
                out.write(content)
    run = subprocess.run(['rt', 'try', '--cases', cases], cwd=program, stdin=subprocess.DEVNULL, stdout=subprocess.PIPE,
                         stderr=subprocess.STDOUT, text=True)
    lines = dict(re.findall(r'^case=(\d+) (.*)$', run.stdout, re.M))
    if len(lines) < len(texts):
        sys.exit(f'{run.stdout}\nthe program was not built, or not run on each file')
    return {int(k): line for k, line in lines.items() if 'run=ended' not in line or 'output=expected' not in line}


def main(options: argparse.Namespace) -> int:
    rng = Random(options.seed)
    texts = [random_file(rng, options.most) for _ in range(options.count)]
    with tempfile.TemporaryDirectory() as folder:
        wrong = judged(folder, texts)
    told = [f'DIFFERS {line}: {texts[k]!r}\n  wanted {wanted(texts[k])!r}' for k, line in sorted(wrong.items())]
    return running.tell_end(options.job, f'{options.count} files', told)
