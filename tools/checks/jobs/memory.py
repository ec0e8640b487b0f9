"""Refused memory: what the program says where one allocation fails, and where the address space is small.

    tools/check memory [--program PATH] [--workers 1,4] [--step 16]

Two ways. Where a C compiler is there, a small library before the program's own lets allocation number 1, 2, 3, .. fail, one number
in each run, until a run meets none. And the address space is bounded (`ulimit -v`), in steps of so many KB, from where the program
starts at all up to where it answers. Each run must end with status 5, its line on the error output and nothing on the standard
output, or with the answer of a run with ample memory. While the program still makes the words it ends with status 5 and no line.

In the first way each read of the standard input gives one byte, so the bytes read tell at which read the program stopped. It may
stop before the first read, at the end of the header, or when all was read.
"""
import argparse
import os
import shutil
import subprocess
import tempfile

from .. import graphs, metis, running
from ..running import Answer, run_program

TRIANGLE = '3 3\n2 3\n1 3\n1 2\n'
MASSES = '4 3 10\n9 2\n1 1 3\n1 2 4\n1 3\n'
TWO_CYCLES = '6 8 1\n2 2 4 1 6 1\n1 2 3 2\n2 2 4 1 6 1\n1 1 3 1 5 2\n4 2 6 2\n1 1 3 1 5 2\n'
# More edges than are left to rounds and rows alone.
CLIQUES = metis.text_of(graphs.graph_of(20 * 12, graphs.ring_of_cliques(20, 12)))

CASES = [(['value'], TRIANGLE), (['cuts'], TRIANGLE), (['cactus'], TRIANGLE), (['cuts'], TWO_CYCLES), (['cactus'], TWO_CYCLES),
         (['count'], TWO_CYCLES), (['part', '2', '5'], TWO_CYCLES), (['balanced'], TWO_CYCLES),
         (['cuts', '--least', '2'], MASSES), (['augment'], TWO_CYCLES),
         (['grow', '1', '3', '1', '2', '5', '2'], TWO_CYCLES), (['trial', '1000'], ''),
         (['value'], CLIQUES), (['cactus'], CLIQUES)]

Tried = tuple[int, int, list[str]]

SHIM = r'''
#define _GNU_SOURCE
#include <dlfcn.h>
#include <errno.h>
#include <stdatomic.h>
#include <stddef.h>
#include <stdlib.h>
#include <sys/mman.h>
#include <unistd.h>
static atomic_long count;
static long number(void) {
    static long n = -1;
    if (n < 0) { const char *word = getenv("FAIL_AT"); n = word ? atol(word) : 0; }
    return n;
}
static int fails(void) {
    long k = atomic_fetch_add(&count, 1) + 1;
    if (k != number()) return 0;
    const char *file = getenv("FAIL_MARK");
    if (file) { extern int creat(const char *, unsigned); creat(file, 0600); }
    return 1;
}
#define REAL(name) static __typeof__(&name) real; if (!real) real = (__typeof__(&name))dlsym(RTLD_NEXT, #name)
void *malloc(size_t size) { REAL(malloc); if (fails()) { errno = ENOMEM; return NULL; } return real(size); }
void *realloc(void *old, size_t size) { REAL(realloc); if (fails()) { errno = ENOMEM; return NULL; } return real(old, size); }
void *aligned_alloc(size_t align, size_t size) {
    REAL(aligned_alloc); if (fails()) { errno = ENOMEM; return NULL; } return real(align, size);
}
int posix_memalign(void **out, size_t align, size_t size) {
    REAL(posix_memalign); if (fails()) return ENOMEM; return real(out, align, size);
}
void *mmap(void *at, size_t size, int prot, int flags, int fd, off_t off) {
    REAL(mmap); if (fails()) { errno = ENOMEM; return MAP_FAILED; } return real(at, size, prot, flags, fd, off);
}
ssize_t read(int fd, void *room, size_t size) { REAL(read); return real(fd, room, fd == 0 && size > 1 ? 1 : size); }
'''


def build_shim(folder: str) -> str | None:
    """The path of the library that lets one allocation fail, or None where there is no C compiler."""
    compiler = shutil.which('cc') or shutil.which('gcc')
    if compiler is None:
        return None
    source, library = os.path.join(folder, 'fail.c'), os.path.join(folder, 'fail.so')
    with open(source, 'w') as out:
        out.write(SHIM)
    subprocess.run([compiler, '-shared', '-fPIC', '-O1', '-w', '-o', library, source, '-ldl'], check=True)
    return library


def is_right(answer: Answer, whole: Answer) -> bool:
    return answer == whole or answer == (5, '', 'out of memory\n')


def run_over_file(program: str, words: list[str], text: str, env: dict[str, str]) -> tuple[Answer, int]:
    """What the program answers for a file of this text, and how many bytes of that it has read."""
    with tempfile.TemporaryFile(buffering=0) as source:
        source.write(text.encode())
        source.seek(0)
        answer = run_program(program, words, source, env=env)
        return answer, source.tell()


def may_stop_at(text: str, count: int) -> bool:
    """Whether memory may run out when so many bytes were read, one by one: none, those of the header, or all."""
    return count in (0, text.find('\n') + 1, len(text))


def fail_each(program: str, library: str, words: list[str], text: str, whole: Answer, folder: str) -> Tried:
    """(runs, runs that ended with status 5, what is wrong) where allocation 1, 2, .. fails."""
    mark = os.path.join(folder, 'failed')
    refused, wrong, k, told = 0, [], 0, False
    while k < 20_000:
        k += 1
        env = dict(os.environ, LD_PRELOAD=library, FAIL_AT=str(k), FAIL_MARK=mark)
        answer, count = run_over_file(program, words, text, env)
        failed = os.path.exists(mark)
        if failed:
            os.remove(mark)
        refused += answer[0] == 5
        told = told or answer[2] != ''
        makes_words = answer == (5, '', '') and not told
        # an allocation before the program begins, as the loader's, ends it in the loader's way
        if not is_right(answer, whole) and not makes_words and not is_before_main(answer):
            wrong.append(f'allocation {k} of {words}: {answer}')
        if answer[0] == 5 and not may_stop_at(text, count):
            wrong.append(f'allocation {k} of {words}: stopped after {count} bytes')
        if not failed:
            return k, refused, wrong
    return k, refused, wrong + [f'{words}: no end']


def is_before_main(answer: Answer) -> bool:
    return answer[0] == 127 or 'error while loading shared libraries' in answer[2]


def bound_space(program: str, words: list[str], text: str, whole: Answer, step: int) -> Tried:
    """(runs, runs that ended with status 5, what is wrong) under bounds of the address space from small to ample."""
    runs, refused, wrong, kilobytes, answered, told = 0, 0, [], step, 0, False
    while answered < 3 and kilobytes < 4_000_000:
        answer = run_program(program, words, text, kilobytes)
        runs += 1
        refused += answer[0] == 5
        answered = answered + 1 if answer == whole else 0
        told = told or answer[2] != '' and not is_before_main(answer)
        makes_words = answer == (5, '', '') and not told
        not_begun = is_before_main(answer) or (answer[0] in (-11, -9, -6) and refused == 0)
        if not is_right(answer, whole) and not makes_words and not not_begun:
            wrong.append(f'{kilobytes} KB for {words}: {answer}')
        kilobytes += step
    return runs, refused, wrong


def check(program: str, library: str | None, case: tuple[list[str], str], step: int, folder: str) -> tuple[int, list[str]]:
    """(runs, what is wrong) of one command and file; prints a line."""
    words, text = case
    whole = run_program(program, words, text)
    tried = [bound_space(program, words, text, whole, step)]
    if library:
        tried.append(fail_each(program, library, words, text, whole, folder))
    print(' '.join(words), *(f'{runs} runs, {refused} with status 5;' for runs, refused, _ in tried), flush=True)
    return sum(runs for runs, _, _ in tried), [line for _, _, lines in tried for line in lines]


def add_options(parser: argparse.ArgumentParser) -> None:
    running.add_program(parser)
    parser.add_argument('--workers', default='1,4', help='numbers of workers, 1,4 if not named')
    parser.add_argument('--step', type=int, default=16, help='KB by which the address space grows, 16 if not named')


def main(options: argparse.Namespace) -> int:
    program, runs, wrong = running.ready(options.program), 0, []
    with tempfile.TemporaryDirectory() as folder:
        library = build_shim(folder)
        for workers in options.workers.split(','):
            for words, text in CASES:
                more, lines = check(program, library, ([*words, '--workers', workers], text), options.step, folder)
                runs, wrong = runs + more, wrong + lines
    return running.tell_end(options.job, f'{runs} runs', wrong)
