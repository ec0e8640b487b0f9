"""Files that end at each of their bytes, and files with random changes, judged by the plain reader of `metis`.

    tools/check broken [--program PATH] [--count 100000] [--seed 1] [--threads 4]

The files are the small ones of examples/ and a few of other forms. Each first part of each of them is given to the job `value`,
and then files with one to six random changes of bytes, words and lines, until so many inputs were given; of less than some three
thousand inputs, half are first parts. The program must end with the status and the line that the plain reader says; what it prints of an
accepted file is compared where the graph is small. A program that a signal ends differs too.
"""
import argparse
import os
from random import Random

from .. import running
from . import reader

FORMS = [
    b'3 3\n2 3\n1 3\n1 2\n', b'2 1 1\n2 7\n1 7\n', b'3 3 1\n2 5 3 1\n1 5 3 4\n1 1 2 4\n',
    b'% made by hand\r\n2\t1 011\r\n% first vertex\r\n7 2 3\r\n4 1 3', b'4 3 10\n9 2\n1 1 3\n1 2 4\n1 3\n', b'1 0\n\n', b'0 0',
    b'4 4 111 2\n5 1 2 2 1 4 3\n5 1 2 1 1 3 1\n5 1 2 2 1 4 1\n5 1 2 1 3 3 1\n', b'2 1 1\n2 2305843009213693952\n1 2305843009213693952\n',
]


def small_files() -> list[bytes]:
    folder = os.path.join(running.TOP, 'examples')
    files = list(FORMS)
    for name in sorted(os.listdir(folder)):
        if name.endswith('.graph'):
            with open(os.path.join(folder, name), 'rb') as source:
                files.append(source.read())
    return files


def first_parts(files: list[bytes], count: int, seed: int) -> list[bytes]:
    """All first parts of the files; where these are not fewer than the inputs, half as many of them as there are inputs."""
    parts = [text[:k] for text in files for k in range(len(text) + 1)]
    return parts if len(parts) < count else Random(seed).sample(parts, count // 2)


def changed(rng: Random, files: list[bytes]) -> bytes:
    text = rng.choice(files)
    for _ in range(rng.choice([1, 1, 2])):
        text = reader.broken(rng, text)
    return text


def add_options(parser: argparse.ArgumentParser) -> None:
    running.add_cases(parser, 100_000)


def main(options: argparse.Namespace) -> int:
    files = small_files()
    parts = first_parts(files, options.count, options.seed)

    def one(program, k, seed):
        rng = Random(seed)
        return reader.judge(program, parts[k] if k < len(parts) else changed(rng, files), seed, rng)

    return running.judge_all(options, 'inputs', one)
