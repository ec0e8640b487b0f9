#!/usr/bin/env python3
"""Proves the crates of the C library and builds it into a folder.

usage: library_build.py [PREFIX]

It builds out/libmincut.a and the shared library with its two links, libmincut.so.0 and libmincut.so. Where a folder is named they are
copied to PREFIX/lib, the headers to PREFIX/include, and files for pkg-config and CMake to PREFIX/lib/pkgconfig and PREFIX/lib/cmake/mincut.
As for the program, the toolchain's gate proves the crates side by side in a copy, and what was proved before on this machine is taken up.
In that copy `rt lib` then proves the topmost crate, that of the exports, and makes the archive of it. Progress goes to standard error. It
takes a C compiler, ld, ar and objcopy. The status is 0 where the library was built, 1 where it was not, 2 for wrong words, 130 after an
interrupt, and 128 and its number after another signal; what was proved is kept, and the next run goes on from there.
"""
import contextlib
import hashlib
import os
import re
import shutil
import subprocess
import sys
import time

import guarded
from first_build import PAUSE, added, crates_below, followed, in_turn, is_log, lines_of_crates, passed, sum_of
from proving_time import Watch, minutes
from versions import version

ROOT = os.path.dirname(os.path.dirname(os.path.abspath(__file__)))
CRATE = 'mincut_c'
BINDINGS = f'{ROOT}/bindings/c'
SHIMS = ('mincut', 'places')
HEADER = f'{ROOT}/include/mincut.h'
HEADERS = (HEADER, f'{ROOT}/include/mincut.hpp')
OUT = f'{ROOT}/out'
ARCHIVED, SHARED = 'libmincut.a', 'libmincut.so'
# The number of the interface, by which the loader finds the shared library. It rises where a program that was linked before would no longer
# run rightly, and with it the name in mincut.map.
SONAME = f'{SHARED}.0'
MADE_OF = f'{OUT}/libmincut.made_of'
# The proved exports alone, as `rt lib` made them.
ARCHIVE = f'{OUT}/lib{CRATE}.a'
ARCHIVE_MADE_OF = f'{OUT}/lib{CRATE}.made_of'
STAMPS = f'{ROOT}/tools/library_stamps.py'
TOOLS = ('rt', 'ld', 'ar', 'objcopy')
# Rattle compiles for these processors by default.
FLAGS = ('-O2', '-fPIC', '-Wall', '-Wextra')


def say(text):
    print(f'library: {text}', file=sys.stderr, flush=True)


class BuildFault(Exception):
    """Why the library was not built."""


def run(*words, **more):
    """Runs a command to its end; its output is shown where it fails."""
    done = guarded.run(words, stderr=subprocess.STDOUT, text=True, **more)
    if done.returncode != 0:
        raise BuildFault(f'{" ".join(words)} ended with status {done.returncode}\n{done.stdout}')
    return done.stdout


def made_of(names, lines):
    """A checksum of all that the library is made of."""
    total = hashlib.sha256(sum_of(names, lines).encode())
    for path in (HEADER, *[f'{BINDINGS}/{name}.c' for name in SHIMS], f'{BINDINGS}/mincut.map'):
        with open(path, 'rb') as file:
            total.update(file.read())
    return total.hexdigest()


def is_current(made, note, total):
    """Whether these files are there and, by the note, were made of what has that checksum."""
    try:
        with open(note, encoding='utf-8') as file:
            return file.read().strip() == total and all(map(os.path.isfile, made))
    except FileNotFoundError:
        return False


@contextlib.contextmanager
def noted(note, total):
    """Notes of what files are made; while they are written there is no note."""
    with contextlib.suppress(FileNotFoundError):
        os.remove(note)
    yield
    with open(note, 'w', encoding='utf-8') as file:
        file.write(f'{total}\n')


def kit():
    """The folder of the toolchain."""
    return os.path.dirname(run('rt', 'doc').strip())


def are_taken(room):
    """Whether `rt lib` takes there what the gate proved."""
    try:
        run(sys.executable, STAMPS, kit(), room)
        return True
    except BuildFault:
        return False


def archived(folder, names, why, earlier):
    """Makes the archive in the folder, for which `rt lib` proves these crates one after another, and answers where it is."""
    watch = Watch(names, {name: names[at - 1:at] for at, name in enumerate(names)}, earlier.measured)
    watch.first_ratio, told_at, told_of = earlier.ratio(), time.monotonic(), set()

    def tell(_, ended):
        nonlocal told_at
        new = set(watch.running) - told_of
        if new if is_log() else not ended and time.monotonic() - told_at >= PAUSE:
            say(f'working on {", ".join(watch.running) or CRATE}; {watch.left()}')
            told_at = time.monotonic()
            told_of.update(new)

    say(f'{why}; {watch.left()}')
    is_well, printed = followed(folder, ['rt', 'lib'], watch, tell)
    archive = f'{folder}/out/lib{CRATE}.a'
    if not is_well or not os.path.isfile(archive):
        raise BuildFault(f"'rt lib' did not build {CRATE}:\n{printed}")
    return archive


def proved(room, names, lines):
    """Has the toolchain prove the crates in a copy in the folder, and answers where the archive is that it made there."""
    watch = passed(room, 'the library', names[:-1], lines, say, after=(CRATE,))
    if not watch:
        raise BuildFault("it was not built; above stands what 'rt ci' printed")
    is_taken = are_taken(room)
    added(room, [CRATE], lines)
    if is_taken:
        left, why = [CRATE], f"all below is proved; 'rt lib' proves {CRATE} and makes the archive"
    else:
        left, why = names, "all below is proved, but 'rt lib', which makes the archive, does not take that here, and proves all, one after another"
    archive = archived(f'{room}/crates/{CRATE}', left, why, watch)
    say(f'proved and built in {minutes(time.monotonic() - watch.begun)}')
    return archive


def exported():
    """The names that the version script exports."""
    with open(f'{BINDINGS}/mincut.map', encoding='utf-8') as file:
        return re.findall(r'\bmincut_\w+', file.read())


def shared():
    """The file of the shared library; the names SONAME and SHARED are links to it."""
    return f'{SHARED}.{version()}'


def libraries():
    """All names of the libraries, links after what they lead to."""
    return [ARCHIVED, shared(), SONAME, SHARED]


def link(room, *archives):
    """One object of the shims and these archives, in which only the library's own names are seen, and from it both libraries."""
    compiler = os.environ.get('CC', 'cc')
    objects = [f'{room}/{name}.shim.o' for name in SHIMS]
    for name, target in zip(SHIMS, objects):
        run(compiler, *FLAGS, f'-I{ROOT}/include', '-c', f'{BINDINGS}/{name}.c', '-o', target)
    run('ld', '-r', *objects, *archives, '-o', f'{room}/mincut.o')
    run('objcopy', *[f'--keep-global-symbol={name}' for name in exported()], f'{room}/mincut.o')
    run('ar', 'rcs', f'{room}/{ARCHIVED}', f'{room}/mincut.o')
    run(compiler, '-shared', f'{room}/mincut.o', f'-Wl,--version-script={BINDINGS}/mincut.map', f'-Wl,-soname,{SONAME}', '-o',
        f'{room}/{shared()}')
    os.symlink(shared(), f'{room}/{SONAME}')
    os.symlink(SONAME, f'{room}/{SHARED}')


def put(source, folder):
    """Copies a file or a link to the folder in one step, so that who reads it there has the old one or the new one; answers where."""
    os.makedirs(folder, exist_ok=True)
    target = f'{folder}/{os.path.basename(source)}'
    with contextlib.suppress(FileNotFoundError):
        os.remove(f'{target}.new')
    shutil.copy(source, f'{target}.new', follow_symlinks=False)
    os.replace(f'{target}.new', target)
    return target


def put_filled(template, folder):
    """Puts a file into the folder that is made of a template, whose name ends in .in, with the words of this version; answers where."""
    words = dict(zip(('MAJOR', 'MINOR'), version().split('.')), VERSION=version(), SHARED=shared(), SONAME=SONAME)
    with open(template, encoding='utf-8') as file:
        text = re.sub(r'@(\w+)@', lambda word: words[word[1]], file.read())
    os.makedirs(folder, exist_ok=True)
    with open(f'{folder}/{os.path.basename(template)[:-3]}', 'w', encoding='utf-8') as file:
        file.write(text)
    return file.name


def install(prefix, made=OUT):
    """Puts all into the folder, the libraries from where they were made; answers what was put there."""
    templates = [f'{ROOT}/bindings/cmake/{name}.cmake.in' for name in ('mincutConfig', 'mincutConfigVersion')]
    return [*[put(f'{made}/{name}', f'{prefix}/lib') for name in libraries()], *[put(path, f'{prefix}/include') for path in HEADERS],
            put_filled(f'{BINDINGS}/mincut.pc.in', f'{prefix}/lib/pkgconfig'),
            *[put_filled(path, f'{prefix}/lib/cmake/mincut') for path in templates]]


def build_now(names, lines, total):
    """Builds both libraries, over the archive of an earlier run where the crates and the toolchain are the same."""
    of_crates = f'{sum_of(names, lines)} {run("rt", "version").strip()}'
    with guarded.temporary_folder('mincut-library-') as room:
        if not is_current([ARCHIVE], ARCHIVE_MADE_OF, of_crates):
            made = proved(room, names, lines)
            with noted(ARCHIVE_MADE_OF, of_crates):
                shutil.copy(made, ARCHIVE)
        link(room, ARCHIVE, f'{kit()}/c/liblibc_c.a')
        with noted(MADE_OF, total):
            for name in libraries():
                say(put(f'{room}/{name}', OUT))


def build(prefix):
    missing = [name for name in (*TOOLS, os.environ.get('CC', 'cc')) if not shutil.which(name)]
    if missing:
        raise BuildFault(f'not on the path: {", ".join(missing)}')
    lines = lines_of_crates()
    names = crates_below(CRATE, lines, [])
    total, made = made_of(names, lines), [f'{OUT}/{name}' for name in libraries()]
    if not is_current(made, MADE_OF, total):
        with in_turn(say, 'the library', OUT):
            # another run may have built it meanwhile
            if not is_current(made, MADE_OF, total):
                build_now(names, lines, total)
    if prefix:
        for path in install(os.path.abspath(prefix)):
            say(path)


def main():
    if len(sys.argv) > 2 or any(word.startswith('-') for word in sys.argv[1:]):
        print('usage: ./library [PREFIX]', file=sys.stderr)
        return 2
    try:
        build(sys.argv[1] if len(sys.argv) == 2 else None)
        return 0
    except BuildFault as fault:
        say(str(fault))
        return 1


if __name__ == '__main__':
    sys.exit(guarded.status_of(main, say))
