#!/usr/bin/env python3
"""Tests of ./mincut and ./library on a fresh checkout, with a toolchain that only plays: it 'proves' a crate in an instant.

usage: test_first_run.py"""
import os
import pty
import re
import shutil
import signal
import stat
import subprocess
import sys
import tempfile
import time
import unittest

from first_run import LOGIC
from versions import versions

TOP = os.path.dirname(os.path.dirname(os.path.abspath(__file__)))
GRAPH = b'2 1\n2\n1\n'
# Where the program's version stands.
NOTICE = 'crates/program_words/src/notice.rt'

# It keeps what it 'proved' beside itself, as the toolchain does, and can be told to be slow at a crate or a command, or to fail. What it
# does there is in a file of its own, where there is one.
PLAYED = r'''#!/usr/bin/env python3
import os, subprocess, sys, time
at = os.path.dirname(os.path.abspath(__file__))
def told(name):
    path = os.path.join(at, name)
    return open(path).read().split() if os.path.exists(path) else []
def wait_if_slow(name):
    if name in told('slow'):
        if os.path.exists(at + '/brood'):
            subprocess.call([at + '/brood'])
        time.sleep(60)
open(os.path.join(at, 'calls'), 'a').write(' '.join(sys.argv[1:]) + '\n')
wait_if_slow(sys.argv[1])
if sys.argv[1] == 'try':
    sys.stdout.write('looked at %d bytes for %s\n' % (len(sys.stdin.read()), ' '.join(sys.argv[3:])))
    sys.stderr.write('a line of the program\nchecked: ended status=7\nrun=ended status=7 runners=1 races=unchecked proved=no\n')
    sys.exit(7)
if sys.argv[1] == 'doc':
    print(at + '/START-HERE.md')
    sys.exit()
if sys.argv[1] == 'version':
    print('played-kit logic ' + (told('logic') or ['LOGIC'])[0])
    sys.exit()
if sys.argv[1] == 'lib':
    os.makedirs('out', exist_ok=True)
    open(os.path.join(at, 'stamped'), 'w').write('\n'.join(name for name in os.listdir('..') if os.path.exists('../' + name + '/out/rlib/stamp')) + '\n')
    sys.exit(subprocess.call(['ar', 'rcs', 'out/libmincut_c.a']))
kept = told('kept')
for line in open('crates.txt'):
    name = line.split(':')[0].split()[0]
    os.makedirs('crates/' + name + '/out/rlib/' + name + '.rlib')
    if name in kept:
        print('rt: %s is kept: an earlier run on this machine proved the same files' % name, flush=True)
        continue
    wait_if_slow(name)
    if name in told('fails'):
        print('rt: %s NOT PROVED' % name, flush=True)
        print('0 passed, 1 failed')
        sys.exit(1)
    open(os.path.join(at, 'kept'), 'a').write(name + '\n')
    print('rt: %s proved' % name, flush=True)
out = 'crates/mincut/out'
os.makedirs(out, exist_ok=True)
with open(out + '/mincut', 'w') as file:
    file.write('#!/bin/sh\necho "proved $*"\nwc -c\nexit 3\n')
os.chmod(out + '/mincut', 0o755)
'''.replace('LOGIC', LOGIC)

# The module by which it knows the libraries that it has proved.
MODULE = r'''import os
class Crate:
    def __init__(self, folder):
        self.rlib = folder + '/out/rlib/' + os.path.basename(folder) + '.rlib'
    def makes_rlib(self):
        return not self.rlib.endswith('mincut_c.rlib')
    def stamp(self):
        return self.rlib
    def is_built(self):
        return open(os.path.dirname(self.rlib) + '/stamp').read() == self.rlib
def crates_below(top):
    return [Crate(top + '/crates/' + line.split(':')[0].split()[0]) for line in open(top + '/crates.txt')]
'''


class Played(unittest.TestCase):
    script = 'mincut'

    @classmethod
    def setUpClass(cls):
        # what is started here heeds signals, also where these tests run under nohup or behind an `&`
        signal.signal(signal.SIGINT, signal.default_int_handler)
        for number in (signal.SIGTERM, signal.SIGHUP):
            signal.signal(number, signal.SIG_DFL)

    def setUp(self):
        self.room = tempfile.TemporaryDirectory()
        self.addCleanup(self.room.cleanup)
        self.top, self.kit = f'{self.room.name}/checkout', f'{self.room.name}/kit'
        shutil.copytree(TOP, self.top, ignore=shutil.ignore_patterns('out', '.git', 'docs', 'bench', 'python', '__pycache__', 'specs', 'proofs', 'must-fail'))
        os.mkdir(self.kit)
        self.tell('rt', PLAYED)
        os.chmod(f'{self.kit}/rt', stat.S_IRWXU)
        # python3 itself, and not a shim that needs more of the path
        os.symlink(sys.executable, f'{self.kit}/python3')

    def equip_for_library(self):
        """What ./library needs of the toolchain."""
        for folder in ('bin', 'c'):
            os.mkdir(f'{self.kit}/{folder}')
        self.tell('bin/rtlib.py', MODULE)
        subprocess.run(['ar', 'rcs', f'{self.kit}/c/liblibc_c.a'], check=True)

    def tell(self, name, text):
        with open(f'{self.kit}/{name}', 'w', encoding='utf-8') as file:
            file.write(text)

    def told(self, name):
        try:
            with open(f'{self.kit}/{name}', encoding='utf-8') as file:
                return file.read().split('\n')[:-1]
        except FileNotFoundError:
            return []

    def calls(self):
        return self.told('calls')

    def kept(self):
        return self.told('kept')

    def environment(self, path=None):
        return {**os.environ, 'PATH': path or f'{self.kit}:/usr/bin:/bin'}

    def start(self, *words, path=None, **how):
        how = {'stdout': subprocess.PIPE, 'stderr': subprocess.PIPE, **how}
        return subprocess.Popen([f'{self.top}/{self.script}', *words], env=self.environment(path), **how)

    def run_script(self, *words, given=b'', path=None):
        child = self.start(*words, path=path, stdin=subprocess.PIPE)
        out, err = child.communicate(given, timeout=100)
        return child.returncode, out.decode(), err.decode()

    def interrupted_at(self, *words):
        """Starts the script, interrupts it where the crate vertex_set is proved, and answers how many crates were proved before."""
        self.tell('slow', 'vertex_set')
        child = self.start(*words, stdin=subprocess.DEVNULL)
        while 'cut_definitions' not in self.kept():
            time.sleep(0.1)
        time.sleep(1)
        child.send_signal(signal.SIGINT)
        self.assertIn(b'interrupted', child.communicate(timeout=30)[1])
        self.assertEqual(child.returncode, 130)
        self.tell('slow', '')
        return len(self.kept())


class FirstRun(Played):
    def mincut(self, *words, given=GRAPH, path=None):
        return self.run_script(*words, given=given, path=path)

    def test_a_look_comes_first_and_the_proved_answer_alone_on_standard_output(self):
        status, out, err = self.mincut('value')
        self.assertEqual((status, out), (3, f'proved value\n{len(GRAPH)}\n'))
        before, look, after = (err.index(text) for text in ('below is not proved', f'looked at {len(GRAPH)} bytes for value', 'above is not proved'))
        self.assertTrue(before < look < after)
        self.assertIn('a line of the program', err)
        self.assertNotIn('run=ended', err)

    def test_a_large_input_has_no_look_and_is_kept(self):
        status, out, err = self.mincut('count', given=b'x' * 20_000_000)
        self.assertEqual((status, out), (3, 'proved count\n20000000\n'))
        self.assertNotIn('looked', err)
        self.assertEqual(self.calls(), ['version', 'ci'])

    def test_a_built_program_starts_at_once_until_a_file_of_its_own_changes(self):
        self.mincut('value')
        for crate, builds in (('value_tests', 1), ('outside', 2)):
            with open(f'{self.top}/crates/{crate}/src/lib.rt', 'a', encoding='utf-8') as file:
                file.write('\n// changed\n')
            os.utime(f'{self.top}/crates/vertex_set/src/side.rt')
            self.assertEqual(self.mincut('value')[0], 3)
            self.assertEqual(self.calls().count('ci'), builds)
        self.assertEqual(self.mincut('value'), (3, f'proved value\n{len(GRAPH)}\n', ''))
        os.remove(f'{self.top}/crates/outside/src/gate.rt')
        self.mincut('value')
        self.assertEqual(self.calls().count('ci'), 3)

    def test_an_interrupted_run_is_taken_up(self):
        kept = self.interrupted_at('--build')
        status, _, err = self.mincut('--build')
        self.assertEqual(status, 0)
        self.assertIn(f'taken up: {kept} (', err)

    def test_a_log_gets_a_line_for_each_crate(self):
        status, _, err = self.mincut('--build')
        lines = re.findall(r'^mincut: (\w+) is proved, (\d+) of (\d+) crates; about \d+ (?:seconds|minutes) more$', err, re.M)
        self.assertEqual((status, [name for name, _, _ in lines]), (0, self.kept()))
        self.assertEqual([int(number) for _, number, _ in lines], list(range(1, len(lines) + 1)))
        self.assertEqual({int(total) for _, _, total in lines}, {len(lines)})

    def test_without_the_toolchain_one_line_says_where_to_look(self):
        os.remove(f'{self.kit}/rt')
        for words in (['value'], ['--look', 'value'], ['--build']):
            status, out, err = self.mincut(*words)
            self.assertEqual((status, out, err.count('\n')), (11, '', 1))
            self.assertIn('README.md', err)

    def test_a_failed_proof_is_told(self):
        self.tell('fails', 'vertex_set')
        status, out, err = self.mincut('value')
        self.assertEqual((status, out), (11, ''))
        self.assertIn('vertex_set NOT PROVED', err)

    def test_another_logic_is_told(self):
        self.assertNotIn('logic', self.mincut('--build')[2])
        self.tell('logic', '0123')
        os.remove(f'{self.top}/crates/mincut/out/mincut')
        self.assertIn(f"'played-kit logic 0123'; the proofs were made under the logic {LOGIC}", self.mincut('--build')[2])

    def test_a_terminal_is_told_what_is_waited_for(self):
        self.mincut('--build')
        for words, waits in ((['value'], True), (['--workers', '2', 'cuts'], True), (['trial', '12'], False)):
            ours, theirs = pty.openpty()
            child = self.start(*words, stdin=theirs)
            os.write(ours, b'\x04')
            err = child.communicate(timeout=30)[1]
            self.assertEqual(b'waiting for a graph on standard input' in err, waits)
            os.close(ours)
            os.close(theirs)

    def test_words_of_the_script(self):
        self.assertEqual(self.mincut('--look', 'cuts', '--least', '2')[:2], (7, f'looked at {len(GRAPH)} bytes for cuts --least 2\n'))
        self.assertTrue(self.mincut('--help')[1].startswith('usage: mincut JOB'))
        self.assertEqual(self.mincut('-V')[:2], (0, f'mincut {versions()[NOTICE]}\n'))
        self.assertEqual([call for call in self.calls() if call == 'ci'], [])

    def test_standard_input_that_cannot_be_read_is_left_to_the_program(self):
        for given in ('<.', '<&-'):
            ran = subprocess.run(['sh', '-c', f'./mincut value {given}'], cwd=self.top, env=self.environment(), stdout=subprocess.PIPE, stderr=subprocess.PIPE, timeout=100)
            self.assertEqual((ran.returncode, ran.stdout[:13]), (3, b'proved value\n'))
            self.assertIn(b'wc: ', ran.stderr)


@unittest.skipUnless(all(map(shutil.which, ('cc', 'ld', 'ar', 'objcopy'))), 'a C compiler and binutils are needed')
class Library(Played):
    script = 'library'

    def setUp(self):
        super().setUp()
        self.equip_for_library()

    def work(self):
        """The calls of the toolchain that prove something."""
        return [call for call in self.calls() if call not in ('doc', 'version')]

    def test_the_gate_proves_all_and_the_archive_is_made_over_that(self):
        prefix = f'{self.room.name}/prefix'
        status, out, err = self.run_script(prefix)
        self.assertEqual((status, out), (0, ''))
        self.assertNotIn('one after another', err)
        self.assertEqual(sorted(self.told('stamped')), sorted(set(self.kept()) - {'mincut_c'}))
        for name in ('lib/libmincut.a', 'lib/libmincut.so', 'lib/libmincut.so.0', 'lib/pkgconfig/mincut.pc', 'lib/cmake/mincut/mincutConfig.cmake',
                     'include/mincut.h', 'include/mincut.hpp'):
            self.assertTrue(os.path.isfile(f'{prefix}/{name}'))
        self.assertIn(b'[libmincut.so.0]', subprocess.run(['readelf', '-d', f'{prefix}/lib/libmincut.so'], stdout=subprocess.PIPE, check=True).stdout)
        self.assertEqual(self.work(), ['ci', 'lib'])

    def test_what_is_built_is_built_again_only_where_its_files_changed(self):
        for path, work in ((None, ['ci', 'lib']), (None, []), ('bindings/c/mincut.c', []), ('crates/edge_arrays/src/lib.rt', ['ci', 'lib'])):
            if path:
                with open(f'{self.top}/{path}', 'a', encoding='utf-8') as file:
                    file.write('\n// changed\n')
            status, _, err = self.run_script()
            self.assertEqual((status, self.work(), 'libmincut.so' in err), (0, work, bool(path or work)))
            self.tell('calls', '')

    def test_an_interrupted_run_is_taken_up(self):
        kept = self.interrupted_at()
        status, _, err = self.run_script()
        self.assertEqual(status, 0)
        self.assertIn(f'taken up: {kept} (', err)

    def test_where_the_toolchain_has_no_such_module_it_proves_again(self):
        os.remove(f'{self.kit}/bin/rtlib.py')
        status, _, err = self.run_script()
        self.assertEqual(status, 0)
        self.assertIn('one after another', err)
        self.assertEqual(self.told('stamped'), [''])

    def test_a_failed_proof_is_told(self):
        self.tell('fails', 'vertex_set')
        status, _, err = self.run_script()
        self.assertEqual((status, self.work()), (1, ['ci']))
        self.assertIn('vertex_set NOT PROVED', err)


if __name__ == '__main__':
    unittest.main()
