#!/usr/bin/env python3
"""Folders and commands that end with the process that asked for them, however that one ends.

Each folder and each command has a keeper: this file, run as a program in a session of its own. It reads a pipe whose other end only the
process that asked has open, so the pipe ends when that process ends, even where it is killed outright. The keeper then ends the command
with all that came of it, takes its temporary folder away, and ends. As a program:

usage: guarded.py PIPE PREFIX            makes a temporary folder, prints its path, and keeps it until the pipe ends
       guarded.py PIPE PREFIX WORD ..    runs the command until it or the pipe ends, with a temporary folder of its own as its TMPDIR
"""
import contextlib
import os
import select
import shutil
import signal
import subprocess
import sys
import tempfile
import time

SIGNALS = (signal.SIGINT, signal.SIGTERM, signal.SIGHUP)
PYTHON = sys.executable or os.path.realpath('/proc/self/exe')
# Names the process with which a script is to end, where that one cannot promise to end it: see `heed`.
PARENT = 'MINCUT_PARENT'
# Of prctl, in the system's headers.
SIGNAL_WITH_PARENT, TAKE_IN_ORPHANS = 1, 36
# In seconds: what ends at an interrupt has so long, what a command that has ended leaves behind, and what is killed or removed.
AT_INTERRUPT, AT_END, AT_MOST = 0.3, 2, 20

# The keepers of this process, and its ends of their pipes.
KEEPERS, PIPES = set(), set()


class Ended(BaseException):
    """A signal asked this process to end."""

    def __init__(self, number):
        super().__init__(number)
        self.number = number

    def __str__(self):
        return 'interrupted' if self.number == signal.SIGINT else f'ended by {signal.Signals(self.number).name}'


def control(option, value):
    """Sets an attribute of this process by prctl; nothing where the system has no such call."""
    with contextlib.suppress(ImportError, OSError, AttributeError):
        import ctypes
        ctypes.CDLL(None).prctl(option, ctypes.c_ulong(int(value)), *[ctypes.c_ulong(0)] * 3)


# What asks for folders and commands

def end_now(number, _):
    """Has all keepers end at once what they keep, and ends this process in order."""
    for pipe in list(PIPES):
        release(pipe)
    raise Ended(number)


def heed():
    """Has an interrupt, SIGTERM and SIGHUP end this process in order; what was ignored is still ignored, as under nohup. Where the
    environment names the parent, this process ends with it."""
    control(TAKE_IN_ORPHANS, True)
    for number in SIGNALS:
        if signal.getsignal(number) != signal.SIG_IGN:
            signal.signal(number, end_now)
    parent = os.environ.pop(PARENT, None)
    if parent:
        control(SIGNAL_WITH_PARENT, signal.SIGTERM)
        if str(os.getppid()) != parent:
            raise Ended(signal.SIGTERM)


def status_of(run, say, comfort='what was proved is kept, and the next run goes on from there'):
    """The status that `run` answers, or 128 and the number of the signal that ended it, which is told."""
    try:
        heed()
        return run()
    except Ended as ended:
        for number in SIGNALS:
            signal.signal(number, signal.SIG_IGN)
        try:
            say(f'{ended}; {comfort}')
        except OSError:
            # The terminal is gone. Python would try to write the rest once more, and end with a status of its own.
            os.dup2(os.open(os.devnull, os.O_WRONLY), sys.stderr.fileno())
        return 128 + ended.number


def release(pipe):
    """Closes this end of a keeper's pipe, once."""
    if pipe in PIPES:
        PIPES.remove(pipe)
        os.close(pipe)


@contextlib.contextmanager
def kept(prefix, words=(), **how):
    """A keeper, started as `how` says, which has ended with all that it kept when the context ends."""
    reading, writing = os.pipe()
    PIPES.add(writing)
    try:
        try:
            keeper = subprocess.Popen([PYTHON, '-IS', os.path.abspath(__file__), str(reading), prefix, *words], pass_fds=[reading],
                                      start_new_session=True, **how)
        finally:
            os.close(reading)
        KEEPERS.add(keeper.pid)
        try:
            yield keeper
        finally:
            release(writing)
            status = keeper.wait()
            KEEPERS.remove(keeper.pid)
            if status < 0:
                # it was killed itself, and this process has its orphans
                kill_all(lambda: below(keeper.pid) | below(os.getpid(), KEEPERS))
    finally:
        release(writing)


@contextlib.contextmanager
def temporary_folder(prefix):
    """A temporary folder, which goes with the context or with this process."""
    room = None
    try:
        with kept(prefix, stdin=subprocess.DEVNULL, stdout=subprocess.PIPE) as keeper:
            with keeper.stdout:
                room = os.fsdecode(keeper.stdout.read())
            if not room:
                raise OSError('no temporary folder could be made')
            yield room
    finally:
        if room:
            # unless its keeper was killed, it is gone
            shutil.rmtree(room, ignore_errors=True)


def job_in(place, log, words):
    """A command that runs in that folder and writes to the log, which ends with the context or with this process. It has the status of
    the command, and its number is that of the command's session."""
    return kept('mincut-job-', words, cwd=place, stdin=subprocess.DEVNULL, stdout=log, stderr=subprocess.STDOUT)


def run(words, stdin=subprocess.DEVNULL, **how):
    """Runs a command to its end, as subprocess.run does, and answers what it printed."""
    with kept('mincut-job-', words, stdin=stdin, stdout=subprocess.PIPE, **how) as job:
        printed, complained = job.communicate()
    return subprocess.CompletedProcess(words, job.returncode, printed, complained)


# The keeper

def processes():
    """The number, the parent and the session of each process."""
    for entry in os.listdir('/proc'):
        if entry.isdigit():
            with contextlib.suppress(OSError, IndexError), open(f'/proc/{entry}/stat', 'rb') as file:
                _, parent, _, session = file.read().rpartition(b')')[2].split()[:4]
                yield int(entry), int(parent), int(session)


def below(top, others=()):
    """What came of the process and of its session, but for these others and what came of them."""
    running = list(processes())
    found, before = {number for number, _, session in running if session == top} | {top}, 0
    while len(found) > before:
        before = len(found)
        found.update(number for number, parent, _ in running if parent in found and number not in others)
    return found - {top}


def kill_all(those):
    """Kills those processes until there are none, or nothing more can be done."""
    until = time.monotonic() + AT_MOST
    left = those()
    while left and time.monotonic() < until:
        for number in left:
            with contextlib.suppress(OSError):
                os.kill(number, signal.SIGKILL)
                os.waitpid(number, os.WNOHANG)
        time.sleep(0.02)
        left = those()


class Command:
    """A command in a process group of its own, and all that comes of it, which is taken in here when its parent ends."""

    def __init__(self, words, room):
        control(TAKE_IN_ORPHANS, True)
        self.status, self.keeper = None, os.getpid()
        self.started = subprocess.Popen(words, env={**os.environ, 'TMPDIR': room}, preexec_fn=self.prepare)
        # it is taken in here
        self.number, self.started.returncode = self.started.pid, 0

    def prepare(self):
        os.setpgrp()
        for number in SIGNALS:
            signal.signal(number, signal.SIG_DFL)
        signal.pthread_sigmask(signal.SIG_UNBLOCK, SIGNALS)
        control(SIGNAL_WITH_PARENT, signal.SIGKILL)
        if os.getppid() != self.keeper:
            os._exit(1)

    def left(self):
        """What came of it and was not taken in."""
        has_children, found = self.reap(), below(self.keeper)
        while has_children and not found:
            # one was started while the others were looked at, by one that has ended since
            has_children, found = self.reap(), below(self.keeper)
        return found

    def reap(self):
        """Takes in all that has ended, and answers whether there are other children."""
        while True:
            try:
                number, status = os.waitpid(-1, os.WNOHANG)
            except ChildProcessError:
                return False
            if number == 0:
                return True
            if number == self.number:
                self.status = os.WEXITSTATUS(status) if os.WIFEXITED(status) else 128 + os.WTERMSIG(status)

    def end(self):
        """Ends all that is left: what can clean up after itself is asked to, and has a moment for that."""
        self.reap()
        is_asked = self.status is None
        if is_asked:
            # it was not taken in yet, so no other group can have its number
            with contextlib.suppress(OSError):
                os.killpg(self.number, signal.SIGINT)
        until = time.monotonic() + (AT_INTERRUPT if is_asked else AT_END)
        while self.left() and time.monotonic() < until:
            time.sleep(0.05)
        kill_all(self.left)


def wakened():
    """A pipe that has something to read when a child has ended, and a list that grows when this process is asked to end itself."""
    reading, writing = os.pipe()
    os.set_blocking(reading, False)
    os.set_blocking(writing, False)
    signal.set_wakeup_fd(writing, warn_on_full_buffer=False)
    asked = []
    for number in SIGNALS:
        signal.signal(number, lambda number, _: asked.append(number))
    signal.signal(signal.SIGCHLD, lambda *_: None)
    return reading, asked


def wait_for_end(pipe, command, woken, asked):
    """Waits until the command has ended, or is to end."""
    while not asked:
        ready = select.select([pipe, woken], [], [])[0]
        if command:
            command.reap()
        if pipe in ready or command and command.status is not None:
            return
        with contextlib.suppress(BlockingIOError):
            os.read(woken, 1 << 10)


def remove(room):
    """Takes the folder away; others may still write to it, until their own keepers end them."""
    until = time.monotonic() + AT_MOST
    while os.path.lexists(room) and time.monotonic() < until:
        shutil.rmtree(room, ignore_errors=True)
        time.sleep(0.02)


def keep(pipe, prefix, words):
    """Keeps a folder, and a command if there are words, until the pipe or the command ends, and answers the status."""
    os.set_inheritable(pipe, False)
    woken, asked = wakened()
    room, command = tempfile.mkdtemp(prefix=prefix), None
    # a command may run programs as another user, who has to come by here
    os.chmod(room, 0o711 if words else 0o700)
    try:
        if words:
            command = Command(words, room)
        else:
            os.write(1, os.fsencode(room))
            os.close(1)
        wait_for_end(pipe, command, woken, asked)
    except OSError as error:
        print(f'{words[0] if words else room}: {error.strerror}', file=sys.stderr)
        return 127
    finally:
        if command:
            command.end()
        remove(room)
    return 0 if command is None else 128 + signal.SIGKILL if command.status is None else command.status


if __name__ == '__main__':
    sys.exit(keep(int(sys.argv[1]), sys.argv[2], sys.argv[3:]))
