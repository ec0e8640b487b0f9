#!/usr/bin/env python3
"""What ./mincut does where the program is not built: a first look without proof, then the proof, then the program itself.

usage: first_run.py INPUT WORD ..          a first look on standard error, then the proved program's answer on standard output
       first_run.py INPUT --look WORD ..   the first look alone: its text on standard output, with the program's status
       first_run.py INPUT --build          proves and builds the program, and runs nothing

INPUT is the number of the open file that is the program's standard input, or `none` where that is closed. It is kept until the program
is built. The status is the program's, 11 where the program cannot be proved or built, 130 after an interrupt, and 128 and its number after
another signal.
"""
import os
import re
import shutil
import subprocess
import sys
import tempfile

import first_build
import guarded

# A larger input has no first look: checked at run time it would take long.
LOOK_MOST = 1_000_000
READING_JOBS = ('value', 'cactus', 'cuts', 'part', 'count', 'balanced', 'augment', 'grow')
NOTICES = {'--help': 'HELP', '-h': 'HELP', '--version': 'VERSION', '-V': 'VERSION'}
NOTICE_FILE = f'{first_build.ROOT}/crates/program_words/src/notice.rt'
NOT_BUILT = 11
# The logic under which the proofs were made, as `rt version` names it.
LOGIC = 'dac8208d650f15bf'


def say(text):
    print(f'mincut: {text}', file=sys.stderr, flush=True)


def notice(word):
    """The text about the program that the word asks for, as it stands in the sources."""
    with open(NOTICE_FILE, encoding='utf-8') as file:
        found = re.search(rf'const {NOTICES[word]}: &str = "(.*?)";', file.read(), re.S)
    return re.sub(r'\\\n *', '', found[1]).replace('\\n', '\n')


class Input:
    """What is to be the program's standard input, kept where a job reads it, so that the first look and the program both have it."""

    def __init__(self, file, words):
        self.open_file = None if file == 'none' else int(file)
        self.kept, self.size = None, 0
        if self.open_file is not None and any(word in READING_JOBS for word in words):
            self.keep()

    def keep(self):
        """Reads to the end. What cannot be read, as a folder, is left to the program, which says so."""
        if os.isatty(self.open_file):
            say('waiting for a graph on standard input (mincut JOB < GRAPH); control-D ends one that is typed')
        kept = tempfile.TemporaryFile(prefix='mincut-input-')
        while True:
            try:
                piece = os.read(self.open_file, 1 << 16)
            except OSError:
                return
            if not piece:
                break
            kept.write(piece)
            self.size += len(piece)
        kept.flush()
        self.kept = kept

    def rewound(self):
        """What a child takes as its standard input."""
        if self.kept:
            self.kept.seek(0)
            return self.kept
        return subprocess.DEVNULL if self.open_file is None else self.open_file

    def give_back(self):
        """Makes it the standard input of this process, or closes that."""
        given = self.rewound()
        if given == subprocess.DEVNULL:
            os.close(0)
            return
        os.dup2(given if isinstance(given, int) else given.fileno(), 0)
        os.close(self.open_file)


class Look:
    """What the sources answer when they are compiled without proof, with checks at run time."""

    def __init__(self, words, given):
        ran = guarded.run(['rt', 'try', '--', *words], cwd=f'{first_build.ROOT}/crates/{first_build.PROGRAM}', stdin=given.rewound(),
                          stderr=subprocess.PIPE)
        told = ran.stderr.decode('utf-8', 'replace')
        self.text, self.told = ran.stdout, told
        ended = re.search(r'^run=ended status=(\d+) ', told, re.M)
        self.status = int(ended[1]) if ended else None
        self.lines = ''.join(line for line in told.splitlines(True) if not re.match(r'(checked|interpreted|races|run)[:=]', line))


def look_alone(words, given):
    say('a first look by the sources with checks at run time; it takes one or two minutes')
    look = Look(words, given)
    if look.status is None:
        sys.stderr.write(look.told)
        say('there is no first look')
        return NOT_BUILT
    sys.stdout.buffer.write(look.text)
    sys.stdout.buffer.flush()
    sys.stderr.write(look.lines)
    say('this answer is not proved: it was compiled without a proof, with checks at run time')
    return look.status


def look_first(words, given):
    """Shows on standard error what the sources answer before anything is proved."""
    if given.size > LOOK_MOST:
        say(f'the program is not built yet; the input is above {LOOK_MOST:,} bytes, so there is no first look')
        return
    say('the program is not built yet; first a look by its sources with checks at run time, which takes one or two minutes')
    look = Look(words, given)
    if look.status is None:
        say('there is no first look; what comes next is the proof')
        return
    say('the answer below is not proved')
    sys.stderr.buffer.write(look.text)
    sys.stderr.write(look.lines)
    say(f'the answer above is not proved (status {look.status}); what comes next is the proof, and then the proved answer on standard output')


def compare_logic():
    told = subprocess.run(['rt', 'version'], stdin=subprocess.DEVNULL, stdout=subprocess.PIPE, stderr=subprocess.DEVNULL, text=True).stdout.strip()
    if LOGIC not in told:
        say(f"`rt version` says '{told}'; the proofs were made under the logic {LOGIC}, and may not pass under another")


def built():
    """Whether the program is built, or could be."""
    if not shutil.which('rt'):
        say("the program is not built, and rt, the toolchain's command, is not on the path; README.md says under 'To check it' which toolchain that is")
        return False
    compare_logic()
    return first_build.build(say)


def run(file, words):
    if len(words) == 1 and words[0] in NOTICES:
        sys.stdout.write(notice(words[0]))
        return 0
    if words[:1] == ['--look']:
        if not shutil.which('rt'):
            return 0 if built() else NOT_BUILT
        return look_alone(words[1:], Input(file, words))
    if words == ['--build']:
        return 0 if first_build.is_current() or built() else NOT_BUILT
    is_current = first_build.is_current()
    given = Input(file, [] if is_current else words)
    if not is_current:
        if shutil.which('rt'):
            look_first(words, given)
        if not built():
            return NOT_BUILT
    given.give_back()
    os.environ.setdefault('GLIBC_TUNABLES', 'glibc.malloc.hugetlb=1')
    os.execv(first_build.BUILT, [first_build.BUILT, *words])


def main():
    try:
        return run(sys.argv[1], sys.argv[2:])
    except OSError as error:
        say(f'the program could not be built: {error}')
        return NOT_BUILT


if __name__ == '__main__':
    sys.exit(guarded.status_of(main, say))
