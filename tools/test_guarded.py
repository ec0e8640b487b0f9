#!/usr/bin/env python3
"""Tests that nothing goes on, and no temporary folder stays, where ./mincut, ./library or tools/edits ends by a signal: by each signal, at
several points of the run, with a toolchain that only plays, but whose processes do not end by themselves.

usage: test_guarded.py"""
import contextlib
import fcntl
import os
import shutil
import signal
import stat
import subprocess
import sys
import tempfile
import termios
import time
import unittest
import uuid

import guarded
import test_first_run

# What the run started is to be gone after so many seconds on a machine that has a processor for each process.
PROMPT = 2
TOP = test_first_run.TOP
STATUS = {signal.SIGINT: 130, signal.SIGTERM: 143, signal.SIGHUP: 129, signal.SIGKILL: -9}

# It leaves a temporary folder, and starts processes as the toolchain does: in a group of their own, in a session of their own, whose
# parent has ended, and without the environment; none of them heeds a request to end. One of them works all the time.
BROOD = r'''#!/usr/bin/env python3
import os, subprocess, tempfile, time
at, mark = os.path.dirname(os.path.abspath(__file__)), os.environ['MARK']
def start(work='sleep 1', **how):
    subprocess.Popen(['sh', '-c', 'trap "" INT TERM HUP; while :; do %s; done' % work, mark], stdin=subprocess.DEVNULL, **how)
tempfile.mkdtemp(prefix='rt-edits-')
start('nice true', preexec_fn=os.setpgrp)
start(start_new_session=True)
start(env={})
if os.fork() == 0:
    os.setsid()
    start()
    start(env={}, start_new_session=True)
    os._exit(0)
os.wait()
open(at + '/brooding', 'w').close()
time.sleep(600)
'''


def patience():
    """How long what takes a second on a free machine may take now, in seconds."""
    return max(1.0, os.getloadavg()[0] / len(os.sched_getaffinity(0)))


def living(mark):
    """The processes that have the mark in their environment or their words, with these."""
    found = {}
    for entry in filter(str.isdigit, os.listdir('/proc')):
        with contextlib.suppress(OSError):
            with open(f'/proc/{entry}/environ', 'rb') as file, open(f'/proc/{entry}/cmdline', 'rb') as words:
                environment, line = file.read(), words.read()
            if mark.encode() in environment + line:
                found[int(entry)] = line.replace(b'\0', b' ').decode('utf-8', 'replace')
    return found


def text_of(file):
    return os.pread(file.fileno(), os.fstat(file.fileno()).st_size, 0).decode()


class Ending(test_first_run.Played):
    slowest = 0.0

    def setUp(self):
        super().setUp()
        self.temporary = f'{self.room.name}/temporary'
        os.mkdir(self.temporary)
        self.put('brood', BROOD)
        self.mark = None
        self.fresh()
        self.addCleanup(self.clear)

    def put(self, name, text):
        """Puts a command of that name on the path."""
        self.tell(name, text)
        os.chmod(f'{self.kit}/{name}', stat.S_IRWXU)

    def fresh(self, slow=''):
        """As on a machine where nothing was proved or built; the toolchain waits at what is slow."""
        self.clear()
        self.mark = f'mark-{uuid.uuid4()}'
        self.tell('slow', slow)
        for name in ('kept', 'brooding', 'calls'):
            with contextlib.suppress(FileNotFoundError):
                os.remove(f'{self.kit}/{name}')
        for folder in ('crates/mincut/out', 'out'):
            shutil.rmtree(f'{self.top}/{folder}', ignore_errors=True)
            os.mkdir(f'{self.top}/{folder}')

    def environment(self, path=None):
        return {**super().environment(path), 'MARK': self.mark, 'TMPDIR': self.temporary}

    def wait_until(self, is_so, child=None):
        """Waits until it is so; it takes long only where the test fails."""
        given_up = time.monotonic() + 60 * patience()
        while not is_so():
            self.assertLess(time.monotonic(), given_up, 'the run does not come to this point')
            self.assertFalse(child and child.poll(), 'the run ended before')
            time.sleep(0.05)

    def is_brooding(self):
        return os.path.exists(f'{self.kit}/brooding')

    def assert_gone(self, since):
        """All is to be gone soon after that time."""
        given_up = since + PROMPT * patience()
        while (living(self.mark) or os.listdir(self.temporary)) and time.monotonic() < given_up:
            time.sleep(0.02)
        Ending.slowest = max(Ending.slowest, time.monotonic() - since)
        self.assertEqual((list(living(self.mark).values()), os.listdir(self.temporary)), ([], []))

    def clear(self):
        """Ends what a test that failed left running, by its mark."""
        for number in living(self.mark) if self.mark else ():
            with contextlib.suppress(ProcessLookupError):
                os.kill(number, signal.SIGKILL)

    def ended_by(self, number, words, is_there, **how):
        """Starts the script, sends it the signal where it waits, looks at what is left, and answers what it told."""
        with tempfile.TemporaryFile() as told:
            child = self.start(*words, **{'stdin': subprocess.DEVNULL, 'stdout': subprocess.DEVNULL, 'stderr': told, **how})
            self.wait_until(lambda: is_there(text_of(told)), child)
            since = time.monotonic()
            child.send_signal(number)
            self.assertEqual(child.wait(60 * patience()), STATUS[number])
            self.assert_gone(since)
            return text_of(told)

    def each_signal(self, *words, slow='', is_there=None, **how):
        """The run ends as it should by each signal, where the toolchain is at what is slow, or where it is by what it told."""
        for number in STATUS:
            with self.subTest(signal=number.name):
                self.fresh(slow)
                told = self.ended_by(number, words, is_there or (lambda told: self.is_brooding()), **how)
                self.assertNotIn('Traceback', told)
                self.assertEqual(told.count(f'{guarded.Ended(number)}; '), number != signal.SIGKILL)

    def each_signal_at_the_lock(self, lock, *words):
        """As `each_signal`, where another run holds the lock."""
        def is_there(told):
            return 'waiting for it' in told

        for number in STATUS:
            with self.subTest(signal=number.name):
                self.fresh()
                with open(f'{self.top}/{lock}', 'w', encoding='utf-8') as file:
                    fcntl.flock(file, fcntl.LOCK_EX)
                    self.ended_by(number, words, is_there)


class FirstRun(Ending):
    def test_while_it_waits_for_another_run(self):
        self.each_signal_at_the_lock('crates/mincut/out/building', '--build')

    def test_in_the_first_look(self):
        with open(f'{TOP}/examples/abilene.graph', 'rb') as graph:
            self.each_signal('value', slow='try', stdin=graph)

    def test_while_it_proves(self):
        self.each_signal('--build', slow='vertex_set')

    def test_while_it_builds_the_program(self):
        self.each_signal('--build', slow='mincut')

    def test_what_was_proved_is_kept(self):
        self.fresh('vertex_set')
        self.ended_by(signal.SIGKILL, ['--build'], lambda told: self.is_brooding())
        kept = len(self.kept())
        self.tell('slow', '')
        status, _, err = self.run_script('--build')
        self.assertEqual(status, 0)
        self.assertIn(f'taken up: {kept} (', err)

    def test_a_run_to_its_end_leaves_nothing(self):
        self.assertEqual(self.run_script('--build')[0], 0)
        self.assert_gone(time.monotonic())

    def test_a_run_that_does_not_heed_a_hangup_goes_on(self):
        self.tell('slow', 'vertex_set')
        child = self.start('--build', stdin=subprocess.DEVNULL, preexec_fn=lambda: signal.signal(signal.SIGHUP, signal.SIG_IGN))
        self.wait_until(self.is_brooding, child)
        child.send_signal(signal.SIGHUP)
        time.sleep(1)
        self.assertIsNone(child.poll())
        child.terminate()
        self.assertIn(b'ended by SIGTERM; ', child.communicate(timeout=60 * patience())[1])
        self.assert_gone(time.monotonic())

    def test_a_closed_terminal(self):
        self.tell('slow', 'vertex_set')
        ours, theirs = os.openpty()
        child = self.start('--build', stdin=theirs, stdout=theirs, stderr=theirs, start_new_session=True,
                           preexec_fn=lambda: fcntl.ioctl(0, termios.TIOCSCTTY, 0))
        os.close(theirs)
        self.wait_until(self.is_brooding, child)
        since = time.monotonic()
        os.close(ours)
        self.assertEqual(child.wait(60 * patience()), STATUS[signal.SIGHUP])
        self.assert_gone(since)

    def test_it_ends_with_the_parent_that_it_is_told(self):
        start = (f'import os, subprocess; environment = {{**os.environ, "{guarded.PARENT}": str(os.getpid())}}\n'
                 f'subprocess.call([{self.top + "/mincut"!r}, "--build"], env=environment, start_new_session=True)')
        for number in (signal.SIGTERM, signal.SIGHUP, signal.SIGKILL):
            with self.subTest(signal=number.name):
                self.fresh('vertex_set')
                parent = subprocess.Popen([sys.executable, '-c', start], env=self.environment(), stderr=subprocess.DEVNULL)
                self.wait_until(self.is_brooding, parent)
                since = time.monotonic()
                parent.send_signal(number)
                parent.wait(60 * patience())
                self.assert_gone(since)

    def test_keepers_that_are_killed(self):
        self.tell('slow', 'vertex_set')
        child = self.start('--build', stdin=subprocess.DEVNULL)
        self.wait_until(self.is_brooding, child)
        for number, words in living(self.mark).items():
            if 'guarded.py' in words:
                os.kill(number, signal.SIGKILL)
        self.wait_until(lambda: not living(self.mark))
        self.assertIn(b'was not built', child.communicate(timeout=60 * patience())[1])
        self.assertEqual(child.returncode, 11)
        self.assertEqual([name for name in os.listdir(self.temporary) if not name.startswith('mincut-job-')], [])


@unittest.skipUnless(all(map(shutil.which, ('cc', 'ld', 'ar', 'objcopy'))), 'a C compiler and binutils are needed')
class Library(Ending):
    script = 'library'

    def setUp(self):
        super().setUp()
        self.equip_for_library()

    def test_while_it_waits_for_another_run(self):
        self.each_signal_at_the_lock('out/building')

    def test_while_it_proves(self):
        self.each_signal(slow='vertex_set')

    def test_while_it_makes_the_archive(self):
        self.each_signal(slow='lib')

    def test_while_it_links(self):
        self.put('ld', '#!/bin/sh\nexec "${0%/ld}/brood"\n')
        self.each_signal()


class Edits(Ending):
    script = 'tools/edits'

    def setUp(self):
        super().setUp()
        for crate in ('vertex_set', 'cut_listing'):
            os.mkdir(f'{self.top}/crates/{crate}/must-fail')
            with open(f'{self.top}/crates/{crate}/must-fail/one.edit', 'w', encoding='utf-8') as file:
                file.write('file: src/lib.rt\nold: a\nnew: b\n')

    def test_while_it_proves_libraries(self):
        self.each_signal('cut_listing', slow='lib')

    def test_while_it_tries_edits(self):
        self.each_signal('vertex_set', 'cut_listing', '--jobs', '2', slow='must-fail')


def tearDownModule():
    print(f'the slowest end took {Ending.slowest:.2f} s, of {PROMPT * patience():.1f} s', file=sys.stderr)


if __name__ == '__main__':
    unittest.main()
