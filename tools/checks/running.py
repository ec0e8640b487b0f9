"""How the checks and the benchmarks come by the program, run it with limits of time and memory, and tell what differs."""
import argparse
import ctypes
import os
import resource
import signal
import subprocess
import sys
import tempfile
import threading
import time
from collections import Counter
from collections.abc import Callable, Collection
from concurrent.futures import ThreadPoolExecutor
from random import Random
from typing import IO, Any, NamedTuple

# The folder may be reached by a link, as from bench/.
TOP = os.path.dirname(os.path.dirname(os.path.dirname(os.path.realpath(__file__))))
WRAPPER = os.path.join(TOP, 'mincut')
BUILT = os.path.join(TOP, 'crates', 'mincut', 'out', 'mincut')
LONGEST = 120  # seconds

# The jobs of the program, and those of them that read a graph and need no further words.
JOBS = ['value', 'cactus', 'cuts', 'part', 'count', 'balanced', 'augment', 'grow', 'trial']
PLAIN_JOBS = [job for job in JOBS if job not in ('part', 'grow', 'trial')]

Answer = tuple[int | None, str, str]


# The program

def add_program(parser: argparse.ArgumentParser) -> None:
    """The option that names the program."""
    parser.add_argument('--program', default=WRAPPER, help='path of the built program that is run; ./mincut if not named, which is proved '
                        'and built first where that was not done yet')


def ready(program: str) -> str:
    """The program's path, once it is built; `./mincut --build` does that, which may take some minutes."""
    is_wrapper = os.path.realpath(program) == os.path.realpath(WRAPPER)
    words = ['--build' if is_wrapper else '--version']
    status = subprocess.run([program, *words], stdin=subprocess.DEVNULL, stdout=subprocess.DEVNULL).returncode
    if status != 0:
        sys.exit(f'{program} {words[0]} ended with status {status}')
    return BUILT if is_wrapper else program


def told(status: int, out: bytes, err: bytes) -> Answer:
    """A status and two outputs, as texts."""
    return status, out.decode('utf-8', 'replace'), err.decode('utf-8', 'replace')


def bounded(kilobytes: int) -> Callable[[], None] | None:
    """What bounds the address space of a process that begins; nothing where no bound is named."""
    return (lambda: resource.setrlimit(resource.RLIMIT_AS, (kilobytes * 1024, kilobytes * 1024))) if kilobytes else None


def run_program(program: str, words: list[str], text: str | IO[bytes], kilobytes: int = 0, env: dict[str, str] | None = None) -> Answer:
    """(status, standard output, standard error) as texts, for a text or an open file; a program that takes two minutes is stopped, and
    has no status."""
    source: dict[str, Any] = {'input': text.encode()} if isinstance(text, str) else {'stdin': text}
    try:
        child = subprocess.run([program, *words], **source, stdout=subprocess.PIPE, stderr=subprocess.PIPE, env=env,
                               preexec_fn=bounded(kilobytes), timeout=LONGEST)
    except subprocess.TimeoutExpired:
        return None, '', 'no answer within two minutes'
    return told(child.returncode, child.stdout, child.stderr)


def run_in_pieces(program: str, words: list[str], text: bytes, rng: Random) -> Answer:
    """The same for bytes that come through a pipe in pieces of random length."""
    child = subprocess.Popen([program, *words], stdin=subprocess.PIPE, stdout=subprocess.PIPE, stderr=subprocess.PIPE, bufsize=0)
    late = threading.Timer(LONGEST, child.kill)
    late.start()
    place, pieces = 0, 0
    try:
        while place < len(text):
            size = len(text) if pieces > 6 else rng.choice([1, 2, 3, 7, 30, len(text)])
            os.write(child.stdin.fileno(), text[place:place + size])
            place += size
            pieces += 1
    except BrokenPipeError:
        pass
    try:
        out, err = child.communicate()
    except BrokenPipeError:
        out, err = child.stdout.read(), child.stderr.read()
        child.wait()
    late.cancel()
    return told(child.returncode, out, err)


# Time and memory

class Measured(NamedTuple):
    """Seconds by the clock, of the program's own and of it with the system's; bytes; how the run ended."""
    wall: float
    user: float
    cpu: float
    peak: int
    status: int
    timed_out: bool
    error: str


# A shell forks the command, which waits for a line, and leaves it to this process: the memory of this process is not counted as its own.
STARTER = 'exec 3<&0; in=$1 out=$2 err=$3; shift 3; { read -r go <&3; exec "$@" <"$in" >"$out" 2>"$err" 3<&-; } & echo $!'
PR_SET_CHILD_SUBREAPER = 36


def waiting_child(command: list[str], files: list[str], limit: Callable[[], None]) -> tuple[int, IO[bytes]]:
    """(number of a process that waits, the pipe for its line): it then becomes the command with these files as its standard input,
    output and error. It is a child of this process, which takes over what its own children leave."""
    if ctypes.CDLL(None, use_errno=True).prctl(PR_SET_CHILD_SUBREAPER, 1, 0, 0, 0) != 0:
        raise OSError(ctypes.get_errno(), 'no process can be taken over')
    words = ['/bin/sh', '-c', STARTER, 'sh', *files, *command]
    shell = subprocess.Popen(words, stdin=subprocess.PIPE, stdout=subprocess.PIPE, preexec_fn=limit)
    number = int(shell.stdout.readline())
    shell.stdout.close()
    shell.wait()
    return number, shell.stdin


def run_measured(command: list[str], source_file: str, out_file: str, timeout: float = 3600, memory: int = 0,
                 processor: int = 0) -> Measured:
    """Runs a command with these files as its standard input and output; peak memory is in bytes, its limit in MB. The time limits
    are seconds by the clock and whole seconds of the processor; a run that is ended by one of them has timed out."""
    def limit():
        resource.setrlimit(resource.RLIMIT_CORE, (0, 0))
        if memory:
            resource.setrlimit(resource.RLIMIT_AS, (memory << 20, memory << 20))
        if processor:
            resource.setrlimit(resource.RLIMIT_CPU, (processor, processor + 1))

    late = threading.Event()
    with tempfile.NamedTemporaryFile() as errors:
        child, line = waiting_child(command, [source_file, out_file, errors.name], limit)
        timer = threading.Timer(timeout, lambda: (late.set(), os.kill(child, signal.SIGKILL)))
        start = time.perf_counter()
        timer.start()
        line.write(b'go\n')
        line.close()
        _, status, usage = os.wait4(child, 0)
        wall = time.perf_counter() - start
        timer.cancel()
        error = errors.read(200).decode('utf-8', 'replace').split('\n')[0]
    ended = os.waitstatus_to_exitcode(status)
    timed_out = late.is_set() or ended == -signal.SIGXCPU
    return Measured(wall, usage.ru_utime, usage.ru_utime + usage.ru_stime, usage.ru_maxrss * 1024, ended, timed_out, error)


# Many random cases

def add_cases(parser: argparse.ArgumentParser, count: int) -> None:
    """The options of a check of many cases."""
    add_program(parser)
    parser.add_argument('--count', type=int, default=count, help=f'how many cases, {count} if not named')
    parser.add_argument('--seed', type=int, default=1, help='other seeds make other cases')
    parser.add_argument('--threads', type=int, default=4, help='how many programs run at a time')


def add_graphs(parser: argparse.ArgumentParser, count: int, most: int = 10, workers: str = '', largest: int | None = 16) -> None:
    """The options of a check that gives random graphs to the program."""
    add_cases(parser, count)
    parser.add_argument('--most', type=number_between(6, largest), default=most, help=f'most vertices of a graph, {most} if not named')
    usual = workers or 'the program chooses'
    parser.add_argument('--workers', default=workers, help=f'numbers of workers, as 1,4,64; {usual} if not named')


def number_between(least: int, most: int | None) -> Callable[[str], int]:
    """The type of an option that is a number in this range."""
    def number(word: str) -> int:
        if int(word) < least or (most is not None and int(word) > most):
            raise argparse.ArgumentTypeError(f'{word} is not in {least}..{"" if most is None else most}')
        return int(word)
    return number


def names_among(known: Collection[str]) -> Callable[[str], list[str]]:
    """The type of an option that is a list of some of these names, with commas between them."""
    def names(word: str) -> list[str]:
        for name in word.split(','):
            if name not in known:
                raise argparse.ArgumentTypeError(f'no {name}; there are {", ".join(known)}')
        return word.split(',')
    return names


def worker_words(options: argparse.Namespace, rng: Random) -> list[str]:
    """The words that name a number of workers, where some are named."""
    choices = [word for word in options.workers.split(',') if word]
    return ['--workers', rng.choice(choices)] if choices else []


Verdict = tuple[list[str], str | None]


def judge_all(options: argparse.Namespace, noun: str, one: Callable[[str, int, int], Verdict]) -> int:
    """Judges so many cases, each by `one(program, number of the case, seed)`: (names to count, what differs or None). Prints how
    often each name came and what differs, and answers the status: 1 on any difference."""
    program = ready(options.program)
    first = options.seed * 1_000_003
    with ThreadPoolExecutor(options.threads) as pool:
        verdicts = list(pool.map(lambda k: one(program, k, first + k), range(options.count)))
    for name, count in sorted(Counter(name for names, _ in verdicts for name in names).items()):
        print(f'{count:7d} {name}')
    return tell_end(options.job, f'{options.count} {noun}', [text for _, text in verdicts if text is not None])


def tell_end(job: str, what: str, wrong: list[str]) -> int:
    """Prints the first things that differ, and what was run and how many differed; answers the status."""
    for text in wrong[:10]:
        print(text)
    print(f'{job}: {what}, {len(wrong)} differ', flush=True)
    return 1 if wrong else 0
