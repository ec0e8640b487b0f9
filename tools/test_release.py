#!/usr/bin/env python3
"""Tests of ./release: what it refuses, what is in the archive, and what a new user can do with it, without this repository and the toolchain.

usage: test_release.py [ARCHIVE]

Without an archive it makes one from a copy of the repository where the program and the proved exports are played by stand-ins that try all
sides; with one it tries that. It takes git, a C and a C++ compiler and binutils; CMake, pkg-config and cargo are tried where they are there."""
import ctypes
import hashlib
import os
import shutil
import subprocess
import sys
import tarfile
import tempfile
import unittest

TOP = os.path.dirname(os.path.dirname(os.path.abspath(__file__)))
ARCHIVE = None
NOT_COPIED = ('.git', 'out', 'bench', 'must-fail', '__pycache__', 'target')

# Run in the copy: it notes the stand-ins as what the build would have left.
BUILD = r'''
import os, shutil, sys, time
sys.path.insert(0, 'tools')
import first_build as first, library_build as library
from versions import version
top = os.getcwd()
lines = first.lines_of_crates()
names = first.crates_below(first.PROGRAM, lines, [])
os.makedirs(first.OUT)
with open(first.BUILT, 'w') as file:
    file.write(f"""#!{sys.executable}
import sys
sys.path.insert(0, {os.path.join(top, 'tools')!r})
from checks.plain_mincut import main
if sys.argv[1:] == ['--version']:
    sys.exit(print('mincut {version()}'))
sys.exit(main(sys.argv[1:]))
""")
os.chmod(first.BUILT, 0o755)
first.note(first.sum_of(names, lines), names, time.time_ns())
names = first.crates_below(library.CRATE, lines, [])
os.makedirs(library.OUT)
room = sys.argv[1]
library.run('cc', '-O2', '-fPIC', '-Iinclude', '-c', 'bindings/c/tests/stand_in.c', '-o', f'{room}/raw.o')
library.link(room, f'{room}/raw.o')
for name in library.libraries():
    library.put(f'{room}/{name}', library.OUT)
with library.noted(library.MADE_OF, library.made_of(names, lines)):
    pass
'''

TOUR = r'''#include <mincut.h>
#include <stdio.h>
int main(void) {
    const uint32_t u[] = {0, 0, 0, 1, 1, 2, 3, 3, 4}, v[] = {1, 2, 3, 2, 4, 5, 4, 5, 5};
    const uint64_t w[] = {3, 3, 2, 3, 2, 2, 3, 3, 3};
    mincut_balance balance;
    uint8_t in_side[6];
    const mincut_status status = mincut_balanced(6, 9, u, v, w, NULL, &balance, in_side);
    if (status) return fputs(mincut_status_text(status), stderr), 1;
    printf("%d.%d:", MINCUT_VERSION_MAJOR, MINCUT_VERSION_MINOR);
    for (int i = 0; i < 6; ++i)
        if (in_side[i]) printf(" %d", i + 1);
    return puts(""), 0;
}
'''

RUST = r'''fn main() {
    let (u, v) = ([0, 0, 0, 1, 1, 2, 3, 3, 4], [1, 2, 3, 2, 4, 5, 4, 5, 5]);
    let sides = mincut::sides(6, &u, &v, &[3, 3, 2, 3, 2, 2, 3, 3, 3]).unwrap();
    println!("value {}, {:?}", sides.value(), sides.lists().collect::<Vec<_>>());
}
'''


def run(*words, **more):
    """What a command prints, which has to end with status 0."""
    done = subprocess.run(words, stdout=subprocess.PIPE, stderr=subprocess.STDOUT, text=True, **more)
    if done.returncode != 0:
        raise AssertionError(f'{" ".join(words)} ended with status {done.returncode}\n{done.stdout}')
    return done.stdout


def read(path):
    with open(path, encoding='utf-8') as file:
        return file.read()


def write(path, text):
    os.makedirs(os.path.dirname(path), exist_ok=True)
    with open(path, 'w', encoding='utf-8') as file:
        file.write(text)


def bare(**more):
    """An environment without the toolchain and without variables that name a program or a library."""
    kept = {name: text for name, text in os.environ.items() if not name.startswith(('MINCUT', 'PYTHON', 'LD_', 'CARGO'))}
    return {**kept, 'PATH': '/usr/bin:/bin', **more}


class Copy:
    """A copy of the repository, with what the build would have left, and a toolchain that only tells its version."""

    def __init__(self, room):
        self.top, self.kit = f'{room}/checkout', f'{room}/kit'
        shutil.copytree(TOP, self.top, ignore=shutil.ignore_patterns(*NOT_COPIED))
        write(f'{self.kit}/rt', '#!/bin/sh\necho played-kit logic 0123\n')
        os.chmod(f'{self.kit}/rt', 0o755)
        self.git('init', '-q')
        self.git('add', '-A')
        self.git('-c', 'user.name=test', '-c', 'user.email=test', 'commit', '-qm', 'A copy')
        os.mkdir(f'{room}/build')
        run(sys.executable, '-c', BUILD, f'{room}/build', cwd=self.top)

    def git(self, *words):
        return run('git', *words, cwd=self.top)

    def release(self, *words):
        env = {**os.environ, 'PATH': f'{self.kit}:{os.path.dirname(sys.executable)}:/usr/bin:/bin'}
        done = subprocess.run([f'{self.top}/release', *words], env=env, stdout=subprocess.PIPE, stderr=subprocess.PIPE, text=True)
        return done.returncode, done.stdout, done.stderr


def setUpModule():
    global ROOM, COPY, ARCHIVE
    ROOM = tempfile.mkdtemp(prefix='mincut-release-test-')
    unittest.addModuleCleanup(shutil.rmtree, ROOM)
    COPY = None if ARCHIVE else Copy(ROOM)
    if COPY:
        write(f'{ROOM}/gate.log', 'first line\n' * 40 + '78 crates proved\n')
        status, out, err = COPY.release(f'{ROOM}/dist', '--gate-log', f'{ROOM}/gate.log')
        if status:
            raise AssertionError(f'no archive was made: {err}')
        ARCHIVE = out.strip()


class Refusals(unittest.TestCase):
    def setUp(self):
        if COPY is None:
            self.skipTest('a given archive is tried')

    def refused(self, *words):
        status, out, err = COPY.release(f'{ROOM}/other', *words)
        self.assertEqual((status, out, err.count('\n')), (1, '', 1), err)
        return err

    def aside(self, path):
        """Takes a file away until the end of the test."""
        os.rename(f'{COPY.top}/{path}', f'{ROOM}/aside')
        self.addCleanup(os.rename, f'{ROOM}/aside', f'{COPY.top}/{path}')

    def test_a_missing_program(self):
        self.aside('crates/mincut/out/mincut')
        self.assertIn('run ./mincut --build', self.refused())

    def test_a_missing_library(self):
        self.aside('out/libmincut.a')
        self.assertIn('run ./library', self.refused())

    def test_a_library_of_other_sources(self):
        self.aside('out/libmincut.made_of')
        write(f'{COPY.top}/out/libmincut.made_of', 'of something else\n')
        self.assertIn('run ./library', self.refused())

    def test_files_that_are_not_committed(self):
        write(f'{COPY.top}/docs/more.md', 'more\n')
        self.addCleanup(os.remove, f'{COPY.top}/docs/more.md')
        self.assertIn('docs/more.md', self.refused())

    def test_sources_that_are_newer_than_the_build(self):
        for path, wanted in (('crates/vertex_set/src/side.rt', './mincut --build'), ('bindings/c/places.c', './library')):
            with open(f'{COPY.top}/{path}', 'a', encoding='utf-8') as file:
                file.write('\n// changed\n')
            COPY.git('-c', 'user.name=test', '-c', 'user.email=test', 'commit', '-qam', 'Changed')
            self.addCleanup(COPY.git, 'reset', '-q', '--hard', 'HEAD~1')
            self.assertIn(wanted, self.refused())
            self.doCleanups()

    def test_a_log_that_is_not_there(self):
        self.assertIn('No such file', self.refused('--gate-log', f'{ROOM}/none.log'))

    def test_the_same_state_gives_the_same_archive(self):
        COPY.release(f'{ROOM}/again', '--gate-log', f'{ROOM}/gate.log')
        self.assertEqual(read(f'{ROOM}/dist/SHA256SUMS'), read(f'{ROOM}/again/SHA256SUMS'))


class Archive(unittest.TestCase):
    """What a new user does with the archive alone."""

    @classmethod
    def setUpClass(cls):
        cls.room = tempfile.mkdtemp(dir=ROOM)
        with tarfile.open(ARCHIVE) as archive:
            archive.extractall(cls.room)
        cls.top = f'{cls.room}/{os.listdir(cls.room)[0]}'
        cls.tour = f'{cls.top}/examples/tour.graph'

    def test_what_is_in_it(self):
        for path in ('bin/mincut', 'lib/libmincut.a', 'lib/libmincut.so', 'lib/pkgconfig/mincut.pc', 'lib/cmake/mincut/mincutConfig.cmake',
                     'include/mincut.h', 'include/mincut.hpp', 'bindings/rust/Cargo.toml', 'README.md', 'docs/LIBRARY.md', 'CHANGELOG.md',
                     'CITATION.cff', 'LICENSE-MIT', 'LICENSE-APACHE'):
            self.assertTrue(os.path.isfile(f'{self.top}/{path}'), path)
        self.assertEqual(os.readlink(f'{self.top}/lib/libmincut.so'), 'libmincut.so.0')
        self.assertTrue(os.readlink(f'{self.top}/lib/libmincut.so.0').startswith('libmincut.so.0.'))

    def test_checksums(self):
        told = dict(reversed(line.split('  ')) for line in read(f'{self.top}/SHA256SUMS').splitlines())
        there = {os.path.relpath(f'{at}/{name}', self.top) for at, _, names in os.walk(self.top) for name in names}
        self.assertEqual(there - set(told), {'SHA256SUMS', 'lib/libmincut.so', 'lib/libmincut.so.0'})
        for name, total in told.items():
            with open(f'{self.top}/{name}', 'rb') as file:
                self.assertEqual(hashlib.sha256(file.read()).hexdigest(), total, name)

    def test_the_record(self):
        text = read(f'{self.top}/RECORD.txt')
        for words in ('Commit: ', 'Toolchain: ', 'mincut_program', 'flat_cactus'):
            self.assertIn(words, text)
        if COPY:
            self.assertIn('played-kit logic 0123', text)
            self.assertTrue(text.endswith('    first line\n    78 crates proved\n'))

    def test_the_program(self):
        with open(self.tour, encoding='utf-8') as file:
            self.assertEqual(run(f'{self.top}/bin/mincut', 'cuts', stdin=file, env=bare()), 'value 6\ncuts 1\n4 5 6\n')

    @unittest.skipUnless(shutil.which('pkg-config'), 'pkg-config is needed')
    def test_a_c_program(self):
        write(f'{self.room}/c/tour.c', TOUR)
        env = bare(PKG_CONFIG_PATH=f'{self.top}/lib/pkgconfig')
        flags = run('pkg-config', '--cflags', '--libs', 'mincut', env=env).split()
        shared, static = f'{self.room}/c/shared', f'{self.room}/c/static'
        run('cc', '-std=c99', '-Wall', '-Wextra', '-pedantic', '-Wconversion', '-Werror', f'{self.room}/c/tour.c', *flags, '-o', shared)
        run('cc', f'{self.room}/c/tour.c', f'-I{self.top}/include', f'{self.top}/lib/libmincut.a', '-o', static)
        self.assertTrue(run(shared, env=bare(LD_LIBRARY_PATH=f'{self.top}/lib')).endswith(': 4 5 6\n'))
        self.assertTrue(run(static, env=bare()).endswith(': 4 5 6\n'))

    @unittest.skipUnless(shutil.which('cmake'), 'CMake is needed')
    def test_programs_with_cmake(self):
        built = f'{self.room}/cmake'
        run('cmake', '-S', f'{self.top}/examples/library', '-B', built, f'-DCMAKE_PREFIX_PATH={self.top}', env=bare())
        run('cmake', '--build', built, env=bare())
        self.assertEqual(run(f'{built}/cuts', self.tour, env=bare()), 'value 6\ncuts 1\n4 5 6\n')
        self.assertIn('value 2', run(f'{built}/weakest', env=bare()))
        self.assertIn('3 4 5', run(f'{built}/subtours', env=bare()))

    @unittest.skipUnless(shutil.which('cargo'), 'cargo is needed')
    def test_a_rust_program(self):
        write(f'{self.room}/rust/src/main.rs', RUST)
        write(f'{self.room}/rust/Cargo.toml', '[package]\nname = "tour"\nversion = "0.1.0"\nedition = "2021"\n\n'
              f'[dependencies]\nmincut = {{ path = "{self.top}/bindings/rust" }}\n')
        env = {name: text for name, text in os.environ.items() if not name.startswith('MINCUT')}
        self.assertTrue(run('cargo', 'run', '-q', '--offline', cwd=f'{self.room}/rust', env=env).endswith('value 6, [[3, 4, 5]]\n'))

    def test_the_wheel_in_a_fresh_environment(self):
        wheel = next(name for name in os.listdir(f'{self.top}/python') if name.endswith('.whl'))
        self.assertTrue(wheel.endswith('-py3-none-linux_x86_64.whl'))
        environment = f'{self.room}/environment'
        run(sys.executable, '-m', 'venv', environment)
        python = f'{environment}/bin/python'
        run(python, '-m', 'pip', 'install', '-q', '--no-index', f'{self.top}/python/{wheel}', env=bare(), cwd=self.room)
        found = run(python, '-c', 'from mincut_graph import places; print(places.find_program()); print(places.find_library())', env=bare(), cwd=self.room)
        self.assertEqual([os.path.relpath(path, environment).split('site-packages/')[-1] for path in found.split()],
                         ['mincut_graph/bin/mincut', 'mincut_graph/lib/libmincut.so'])
        told = run(f'{environment}/bin/mincut-graph', 'cuts', self.tour, env=bare(), cwd=self.room)
        self.assertIn('value 6', told)
        self.assertIn('4, 5, 6', told)
        self.assertIn('4, 5, 6', run(f'{environment}/bin/mincut-graph', 'cuts', self.tour, env=bare(MINCUT=found.split()[0]), cwd=self.room))
        self.assertIn('MIT OR Apache-2.0', run(python, '-c', 'from importlib import metadata; print(metadata.metadata("mincut-graph"))', cwd=self.room))

    def test_the_versions_agree(self):
        name = os.path.basename(self.top)
        number = ctypes.CDLL(f'{self.top}/lib/libmincut.so').mincut_version()
        self.assertEqual(name, f'mincut-{number // 10000}.{number // 100 % 100}.{number % 100}-linux-x86_64')
        self.assertEqual(run(f'{self.top}/bin/mincut', '--version', env=bare()), f'mincut {name.split("-")[1]}\n')


if __name__ == '__main__':
    if len(sys.argv) > 1 and os.path.isfile(sys.argv[1]):
        ARCHIVE = os.path.abspath(sys.argv.pop(1))
    unittest.main()
