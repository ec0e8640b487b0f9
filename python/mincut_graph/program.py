"""The program `mincut` as a back end: each call runs it once, in a process of its own that ends with the call."""
from __future__ import annotations

import os
import signal
import subprocess
from collections.abc import Sequence
from typing import IO, Optional, Union

from .cactus import Cactus, read_cactus
from .errors import BadInput, Disconnected, MincutError, NoCut, NoProgram, Refused, TimedOut, failure
from .faults import told
from .graph import Graph, Text
from .places import builds_itself, find_program

GRACE = 2.0                            # seconds between the request to end and the order
BUILT: set[str] = set()                # programs of the repository that were built, or found so, by this process
HINT = 'name it by program=, --program or the variable MINCUT, or install this package from its repository'


class Program:
    """Answers by the program; lists of vertices are lists of their places, counted from 0.

    A call that is interrupted, or takes longer than `time_limit` seconds, ends the process before it raises."""
    name = 'program'

    def __init__(self, path: Optional[str] = None, workers: Optional[int] = None):
        """`path` as in `places.find_program`; raises NoProgram where there is none. `workers` is 1 to 64; None leaves it to the program."""
        found = find_program(path)
        if found is None:
            raise NoProgram(f'the program mincut was not found; {HINT}')
        self.path = found
        self.options = ['--workers', str(workers)] if workers else []
        self.running: set[subprocess.Popen[bytes]] = set()

    def run(self, words: Sequence[object], text: Union[str, bytes], time_limit: Optional[float] = None) -> list[list[str]]:
        """The lines that the program prints for these words and this input, each as a list of words."""
        if self.path not in BUILT and builds_itself(self.path):
            self.build()
        given = input_of(text.encode() if isinstance(text, str) else text)
        child = None
        held = signal.pthread_sigmask(signal.SIG_BLOCK, {signal.SIGINT})      # until what ends the child stands ready
        try:
            child = subprocess.Popen([self.path, *map(str, words), *self.options], stdin=given, stdout=subprocess.PIPE,
                                     stderr=subprocess.PIPE, start_new_session=True)
            self.running.add(child)
            signal.pthread_sigmask(signal.SIG_SETMASK, held)
            out, err = child.communicate(None, time_limit)
        except BaseException as fault:
            signal.pthread_sigmask(signal.SIG_SETMASK, held)
            if child is not None:
                end(child)
            if isinstance(fault, subprocess.TimeoutExpired):
                raise TimedOut(time_limit or 0) from None
            if isinstance(fault, OSError) and child is None:
                raise NoProgram(f'{self.path} cannot be run ({fault.strerror}); {HINT}') from None
            raise
        finally:
            given.close()
            if child is not None:
                self.running.discard(child)
        if child.returncode != 0:
            raise failure(child.returncode, err.decode('utf-8', 'replace').strip())
        return [line.split() for line in out.decode().splitlines()]

    def stop(self) -> None:
        """Ends the runs that other threads wait for; these calls raise."""
        for child in list(self.running):
            try:
                os.killpg(child.pid, signal.SIGKILL)
            except ProcessLookupError:
                pass

    def build(self) -> None:
        """Lets the repository's `mincut` prove and build the program where that was not done or the sources have changed, which it tells on
        standard error; once in a process, and without a time limit."""
        # the build ends with this process, also where that is killed
        environment = {**os.environ, 'MINCUT_PARENT': str(os.getpid())}
        child = subprocess.Popen([self.path, '--build'], stdin=subprocess.DEVNULL, stdout=subprocess.DEVNULL, env=environment,
                                 start_new_session=True)
        try:
            child.wait()
        except BaseException:
            end(child)
            raise
        if child.returncode != 0:
            raise failure(child.returncode, 'the program could not be proved and built')
        BUILT.add(self.path)

    def answer(self, graph: Graph, words: Sequence[object], time_limit: Optional[float]) -> list[list[str]]:
        """The lines for a graph; raises NoCut and Disconnected where these are the answer."""
        try:
            lines = self.run(words, graph.metis_text(), time_limit)
        except Refused as fault:
            raise in_words(fault, graph) from None
        if not lines:
            raise MincutError(f'{self.path} printed nothing for the job {words[0]}')
        if lines[0] == ['no', 'cut']:
            raise NoCut('the graph has fewer than two vertices, so there is no cut; give one with two or more')
        if lines[0][0] == 'disconnected':
            raise Disconnected(int(lines[0][1]))
        return lines

    def value(self, graph: Graph, time_limit: Optional[float] = None) -> int:
        return int(self.answer(graph, ['value'], time_limit)[0][1])

    def count(self, graph: Graph, time_limit: Optional[float] = None) -> tuple[int, int]:
        lines = self.answer(graph, ['count'], time_limit)
        return int(lines[0][1]), int(lines[1][1])

    def cactus(self, graph: Graph, time_limit: Optional[float] = None) -> Cactus:
        return read_cactus(self.answer(graph, ['cactus'], time_limit))

    def sides(self, graph: Graph, least: Optional[int], parting: Optional[tuple[int, int]],
              time_limit: Optional[float] = None) -> tuple[int, list[list[int]]]:
        """(value, sides) of all minimum cuts, or of those of balance `least` or more, or of those that part two vertices."""
        words: list[object] = ['part', parting[0] + 1, parting[1] + 1] if parting is not None else ['cuts']
        words += ['--least', least] if least is not None else []
        lines = self.answer(graph, words, time_limit)
        return int(lines[0][1]), [places(line) for line in lines[2:]]

    def balanced(self, graph: Graph, time_limit: Optional[float] = None) -> tuple[int, int, list[int]]:
        """(value, balance, side) of a most balanced minimum cut."""
        lines = self.answer(graph, ['balanced'], time_limit)
        return int(lines[0][1]), int(lines[1][1]), places(lines[2][1:])

    def augment(self, graph: Graph, time_limit: Optional[float] = None) -> tuple[int, list[list[int]], list[list[int]]]:
        """(value, edges, sets) of the job `augment`."""
        lines = self.answer(graph, ['augment'], time_limit)
        return (int(lines[0][1]), [places(line[1:]) for line in lines if line[0] == 'edge'],
                [places(line[1:]) for line in lines if line[0] == 'set'])

    def grow(self, graph: Graph, insertions: Sequence[tuple[int, int, int]],
             time_limit: Optional[float] = None) -> tuple[list[tuple[int, int]], Cactus]:
        """(steps, cactus) after insertions of edges (i, j, w): the value and the count after each, and the cactus after the last."""
        words = [number for i, j, w in insertions for number in (i + 1, j + 1, w)]
        lines = self.answer(graph, ['grow', *words], time_limit)
        steps = [(int(line[3]), int(line[5])) for line in lines[:len(insertions)]]
        if lines[len(insertions)][0] == 'disconnected':
            raise Disconnected(int(lines[len(insertions)][1]))
        return steps, read_cactus(lines[len(insertions):])

    def version(self) -> str:
        """What the program says of itself, as 'mincut 0.4.0'."""
        return ' '.join(self.run(['--version'], '', 60)[0])


def input_of(text: bytes) -> IO[bytes]:
    """A file without a name that has this text, in memory where the system has such files: a program reads it as fast as it can, and a
    pipe would be filled in small pieces."""
    if hasattr(os, 'memfd_create'):
        given: IO[bytes] = os.fdopen(os.memfd_create('graph'), 'w+b')
    else:
        from tempfile import TemporaryFile
        given = TemporaryFile()
    given.write(text)
    given.seek(0)
    return given


def in_words(fault: Refused, graph: Graph) -> MincutError:
    """What the program says of a text, as a sentence: of a file of the user BadInput with its name, of one that was made here Refused."""
    sentence = told(fault.line)
    if sentence is None:
        return fault
    if isinstance(graph.edges, Text):
        return BadInput(f'{graph.edges.origin}: {sentence}' if graph.edges.origin else sentence)
    return Refused(fault.status, sentence.partition(': ')[2])


def places(words: Sequence[str]) -> list[int]:
    return [int(word) - 1 for word in words]


def end(child: subprocess.Popen[bytes]) -> None:
    """Ends a process and all that it started, and takes in what is left of it."""
    for signal_number, seconds in ((signal.SIGTERM, GRACE), (signal.SIGKILL, None)):
        try:
            os.killpg(child.pid, signal_number)
        except ProcessLookupError:
            pass
        try:
            child.wait(seconds)
            break
        except subprocess.TimeoutExpired:
            continue
    for stream in (child.stdin, child.stdout, child.stderr):
        if stream is not None:
            try:
                stream.close()
            except OSError:
                pass
