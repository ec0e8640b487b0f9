#!/usr/bin/env python3
"""Proves and builds the program alone: the crates that it is made of, without their tests and must-fail edits.

usage: first_build.py [--measure]

It runs the toolchain's own gate on a copy of these crates. The gate proves crates side by side and keeps on this machine what it
proved, so that a run that was cut off is taken up again, and a later run of the gate does not prove it again. The program goes to
crates/mincut/out/mincut, and what it was made of is written beside it. Progress goes to standard error: a line about each half minute
on a terminal, and elsewhere a line for each crate. The status is 0 where the program was built, 1 where it was not, and 128 and its
number after a signal. With --measure the processor time that each crate took here is written to tools/proof_costs.txt, by which the
time that is left is told; all is proved anew then, with the crates of the C library, and nothing else should run.
"""
import contextlib
import fcntl
import hashlib
import os
import re
import shutil
import sys
import tempfile
import time

from guarded import job_in, status_of, temporary_folder
from proving_time import Costs, Watch, loop_seconds

ROOT = os.path.dirname(os.path.dirname(os.path.abspath(__file__)))
PROGRAM, LIBRARY = 'mincut', 'mincut_c'
OUT = f'{ROOT}/crates/{PROGRAM}/out'
BUILT = f'{OUT}/{PROGRAM}'
MADE_OF = f'{OUT}/made_of'
PARTS = ('src', 'specs', 'proofs')
COSTS = f'{ROOT}/tools/proof_costs.txt'
# On a terminal a line of progress comes at least so often, in seconds.
PAUSE = 25


def lines_of_crates():
    """The line of each crate in crates.txt, by its name, with the names of the libraries that it uses."""
    found = {}
    with open(f'{ROOT}/crates.txt', encoding='utf-8') as file:
        for line in file:
            head, colon, uses = line.split('#')[0].partition(':')
            if colon:
                found[head.split()[0]] = (line, uses.split())
    return found


def crates_below(name, lines, found):
    """Adds the crate and all that it stands on, lowest first."""
    if name in lines and name not in found:
        for used in lines[name][1]:
            crates_below(used, lines, found)
        found.append(name)
    return found


def folders_of(names):
    """The folders whose files the program is made of."""
    found = [f'crates/{name}/{part}' for name in names for part in PARTS]
    return [folder for folder in found if os.path.isdir(f'{ROOT}/{folder}')]


def sum_of(names, lines):
    """A checksum of all that the program is made of."""
    total = hashlib.sha256(repr([lines[name] for name in names]).encode())
    for folder in folders_of(names):
        for at, below, files in os.walk(f'{ROOT}/{folder}'):
            below.sort()
            for name in sorted(files):
                with open(f'{at}/{name}', 'rb') as file:
                    total.update(repr((os.path.relpath(f'{at}/{name}', ROOT), file.read())).encode())
    return total.hexdigest()


def newest_of(names):
    """When the last of these files was changed."""
    return max(os.stat(f'{at}/{name}').st_mtime_ns for folder in folders_of(names) for at, _, files in os.walk(f'{ROOT}/{folder}') for name in files)


def note(total, names, since):
    """Writes what the program was made of, as of that time in nanoseconds: what is changed later is newer than the program."""
    with open(f'{MADE_OF}.new', 'w', encoding='utf-8') as file:
        file.write('\n'.join([total, *folders_of(names)]) + '\n')
    os.replace(f'{MADE_OF}.new', MADE_OF)
    os.utime(BUILT, ns=(since, since))


def is_current():
    """Whether the program is built of the files as they stand. One that the gate or a developer built, which has no note, counts where
    it is newer than all of them."""
    if not os.access(BUILT, os.X_OK):
        return False
    now, lines = time.time_ns(), lines_of_crates()
    names = crates_below(PROGRAM, lines, [])
    try:
        with open(MADE_OF, encoding='utf-8') as file:
            noted = file.readline().strip()
    except FileNotFoundError:
        noted = None
    total = sum_of(names, lines)
    if noted != total and (noted or newest_of(names) >= os.stat(BUILT).st_mtime_ns):
        return False
    with contextlib.suppress(OSError):
        note(total, names, now)
    return True


def added(room, names, lines):
    """Adds crates to a copy."""
    with open(f'{room}/crates.txt', 'a', encoding='utf-8') as file:
        file.writelines(lines[name][0] for name in names)
    for name in names:
        shutil.copytree(f'{ROOT}/crates/{name}', f'{room}/crates/{name}', ignore=shutil.ignore_patterns('out', 'must-fail'))


def copied(room, names, lines):
    """Copies these crates to the folder, as the top of a repository."""
    os.mkdir(f'{room}/.git')
    shutil.copyfile(f'{ROOT}/HANDLES', f'{room}/HANDLES')
    added(room, names, lines)


@contextlib.contextmanager
def in_turn(say, what, out):
    """Waits while another run here builds the same in that folder."""
    os.makedirs(out, exist_ok=True)
    with open(f'{out}/building', 'w', encoding='utf-8') as lock:
        try:
            fcntl.flock(lock, fcntl.LOCK_EX | fcntl.LOCK_NB)
        except BlockingIOError:
            say(f'another run is proving {what}; waiting for it')
            fcntl.flock(lock, fcntl.LOCK_EX)
        yield


def all_from(file, at):
    """What stands in the file from there on; its own place, at which a command may be writing, stays where it is."""
    return os.pread(file.fileno(), os.fstat(file.fileno()).st_size - at, at)


def followed(place, words, watch, tell):
    """Runs the command there to its end. About each second the watch looks at it, and `tell` gets the lines that it printed meanwhile and
    whether it has ended. Answers whether it passed, and all that it printed."""
    with tempfile.TemporaryFile() as log, job_in(place, log, words) as job:
        at = 0
        while True:
            ended = job.poll() is not None
            new = all_from(log, at)
            if not ended:
                new = new[:new.rfind(b'\n') + 1]
            at += len(new)
            watch.look(job.pid)
            tell(new.decode('utf-8', 'replace'), ended)
            if ended:
                return job.returncode == 0, all_from(log, 0).decode('utf-8', 'replace')
            time.sleep(1)


def is_log():
    """Whether standard error is no terminal, so that it gets a line where something is done, and none where time goes by."""
    return not os.isatty(2)


def proved(room, what, watch, say, words):
    """Runs the gate there, tells how far it is, and answers whether all passed, with what it printed."""
    told_at = time.monotonic()

    def tell(new, ended):
        nonlocal told_at
        kept = [name for name in re.findall(r'^rt: (\w+) is kept', new, re.M) if watch.keep(name)]
        done = [name for name in re.findall(r'^rt: (\w+) proved', new, re.M) if watch.end(name)]
        if kept:
            say(f'proved by an earlier run here, which is taken up: {len(kept)} ({", ".join(kept)})')
        if is_log():
            for number, name in enumerate(done, len(watch.done) - len(done) + 1):
                say(f'{name} is proved, {number} of {len(watch.names)} crates; {watch.left()}')
        elif done or not ended and time.monotonic() - told_at >= PAUSE:
            say(f'{watch.told(done)}; {watch.left()}')
            told_at = time.monotonic()

    say(f'proving and building {what}, which is made of {len(watch.names) + len(watch.after)} crates; {watch.left()}')
    return followed(room, words, watch, tell)


def passed(room, what, names, lines, say, words=('rt', 'ci'), after=()):
    """Copies the crates to the folder and has the gate prove them there. Answers what was watched, or None where they did not pass, once
    it has shown why. The crates in `after` are proved when the gate has passed."""
    watch = Watch(names, {name: lines[name][1] for name in names}, Costs.read(COSTS), after)
    copied(room, names, lines)
    is_well, printed = proved(room, what, watch, say, words)
    if is_well:
        return watch
    print(printed, file=sys.stderr)
    return None


def build_now(say, measures):
    """Proves and builds the program from the files as they stand."""
    since, lines = time.time_ns(), lines_of_crates()
    names = crates_below(PROGRAM, lines, [])
    all_names = crates_below(LIBRARY, lines, list(names)) if measures else names
    total = sum_of(names, lines)
    with temporary_folder('mincut-build-') as room:
        watch = passed(room, 'the program', all_names, lines, say, ['rt', 'ci', '--anew'] if measures else ['rt', 'ci'])
        if not watch:
            say("the program was not built; above stands what 'rt ci' printed")
            return False
        shutil.copy(f'{room}/crates/{PROGRAM}/out/{PROGRAM}', f'{BUILT}.new')
    os.replace(f'{BUILT}.new', BUILT)
    note(total, names, since)
    if measures:
        watch.costs(loop_seconds()).write(COSTS)
    say(f'proved and built: {os.path.relpath(BUILT, ROOT)}, {watch.spent()}')
    return True


def build(say, measures=False):
    """Whether the program is built now; it is proved and built where it was not."""
    with in_turn(say, 'the program', OUT):
        return not measures and is_current() or build_now(say, measures)


def main():
    def say(text):
        print(f'mincut: {text}', file=sys.stderr, flush=True)

    return status_of(lambda: 0 if build(say, sys.argv[1:] == ['--measure']) else 1, say)


if __name__ == '__main__':
    sys.exit(main())
