#!/usr/bin/env python3
"""Makes a release from what is proved and built: one archive for Linux on x86-64, and its checksum.

usage: release.py FOLDER [--gate-log FILE]

The archive has the program, the static and the shared library, headers, files for pkg-config and CMake, the Rust crate, a Python wheel with
the program and the shared library inside, documents, examples, licences, SHA256SUMS, and RECORD.txt, which says what was proved, by which
toolchain, and how the log of the gate ends where one is named. The same state gives the same bytes. Nothing is built here but the wheel:
where the program or the library is missing, or was made of other sources than those of the last commit, one line says so.
`tools/test_release.py ARCHIVE` tries the archive as a new user would.

The status is 0 where the archive was made, 1 where it was refused, and 2 for wrong words.
"""
import argparse
import ctypes
import gzip
import hashlib
import io
import os
import re
import shutil
import stat
import subprocess
import sys
import tarfile
import tempfile

import first_build
import library_build
from versions import version, wrong_versions

ROOT = first_build.ROOT
sys.path.insert(0, f'{ROOT}/python/build_backend')
import wheel_writer  # noqa: E402  (it stands in the Python package)

# Files of the repository that go into the archive as they are, and at the same place, so that the links of the documents hold.
SHIPPED = ('README.md', 'CHANGELOG.md', 'CITATION.cff', 'LICENSE-MIT', 'LICENSE-APACHE', 'docs', 'examples', 'bindings/rust', 'python/README.md')
SUMS = 'SHA256SUMS'
LOG_LINES = 20


class Refused(Exception):
    """Why no release is made."""


def output_of(*words):
    """What a command prints; it has to end well."""
    try:
        return subprocess.run(words, cwd=ROOT, stdout=subprocess.PIPE, stderr=subprocess.PIPE, text=True, check=True).stdout.strip()
    except (OSError, subprocess.CalledProcessError) as fault:
        raise Refused(f'{" ".join(words)} failed: {fault}') from None


def first_line_of(path):
    try:
        with open(path, encoding='utf-8') as file:
            return file.readline().strip()
    except FileNotFoundError:
        return ''


def crates_of(top):
    """The crates that this one is made of, with itself, and the checksum of their sources."""
    lines = first_build.lines_of_crates()
    names = first_build.crates_below(top, lines, [])
    return names, first_build.sum_of(names, lines)


def library_is_current():
    lines = first_build.lines_of_crates()
    total = library_build.made_of(first_build.crates_below(library_build.CRATE, lines, []), lines)
    made = [f'{library_build.OUT}/{name}' for name in library_build.libraries()]
    return library_build.is_current(made, library_build.MADE_OF, total)


def check_state():
    """Refuses what is not built of the last commit, or where the versions differ."""
    changed = output_of('git', 'status', '--porcelain').splitlines()
    if changed:
        raise Refused(f'{len(changed)} files differ from the last commit, the first: {changed[0].split(maxsplit=1)[1]}')
    if wrong_versions():
        raise Refused(wrong_versions()[0])
    if not first_build.is_current():
        raise Refused('the program is not built, or was built of other sources: run ./mincut --build')
    if not library_is_current():
        raise Refused('the library is not built, or was built of other sources: run ./library')
    told = output_of(first_build.BUILT, '--version')
    if told != f'mincut {version()}':
        raise Refused(f"the program says '{told}', and this is {version()}")
    number = ctypes.CDLL(f'{library_build.OUT}/{library_build.shared()}').mincut_version()
    if version() != f'{number // 10000}.{number // 100 % 100}.{number % 100}':
        raise Refused(f'the library says that its version is {number}, and this is {version()}')


def needed_system(*files):
    """The least version of glibc that has all that these files take from it; a file that is linked to nothing has no such table."""
    shown = [subprocess.run(['objdump', '-T', file], stdout=subprocess.PIPE, stderr=subprocess.DEVNULL, text=True).stdout for file in files]
    named = re.findall(r'GLIBC_(\d+)\.(\d+)', ''.join(shown))
    return '.'.join(map(str, max((tuple(map(int, found)) for found in named), default=(2, 2))))


def gate_lines(log):
    """What the record says of the log of the gate."""
    if not log:
        return ['No log of the gate was named.']
    try:
        with open(log, 'rb') as file:
            content = file.read()
    except OSError as fault:
        raise Refused(f'{log}: {fault.strerror}') from None
    last = content.decode('utf-8', 'replace').splitlines()[-LOG_LINES:]
    return [f'The log that was named as that of the gate, with sha256 {hashlib.sha256(content).hexdigest()}, ends with', '', *[f'    {line}' for line in last]]


def wrapped(names):
    """Names with commas, some to a line."""
    rows, line = [], ''
    for name in names:
        if len(line) + len(name) > 110:
            rows.append(line)
            line = ''
        line += f'{name}, '
    return [f'    {row.rstrip()}' for row in [*rows, line.rstrip(', ')]]


def record(log):
    """RECORD.txt."""
    program, sum_of_program = crates_of(first_build.PROGRAM)
    exports, sum_of_exports = crates_of(library_build.CRATE)
    further = [name for name in exports if name not in program]
    made_by = first_line_of(library_build.ARCHIVE_MADE_OF).partition(' ')[2]
    glibc = needed_system(first_build.BUILT, f'{library_build.OUT}/{library_build.shared()}')
    return '\n'.join([
        f'mincut {version()} for Linux on x86-64, with glibc {glibc} or later', '',
        f'Commit: {output_of("git", "rev-parse", "HEAD")} of {output_of("git", "log", "-1", "--format=%cs")}',
        f'Toolchain: {output_of("rt", "version")}', f'Toolchain of the library: {made_by or "not noted"}', '',
        f'Proved: the program bin/mincut, which is made of these {len(program)} crates; each was compiled only once its proof had passed.',
        f'The sum of their sources, by sum_of of tools/first_build.py, is {sum_of_program}.', *wrapped(program), '',
        f'Proved: the exports mincut_raw_.. of the libraries, which are made of {len(exports)} crates: {len(exports) - len(further)} of those above, and',
        *wrapped(further), f'The sum of their sources is {sum_of_exports}.', '',
        'Not proved but tested: bindings/c, which is linked to the exports, the headers, the Rust crate, and the Python package. What a proof says',
        'and what it rests on is in docs/PROVED.md.', '', *gate_lines(log), ''])


def write(path, text):
    with open(path, 'w', encoding='utf-8') as file:
        file.write(text)


def sum_of_file(path):
    with open(path, 'rb') as file:
        return hashlib.sha256(file.read()).hexdigest()


def files_below(top):
    """The files and links in a folder, sorted, by their names in it."""
    return sorted(os.path.relpath(f'{at}/{name}', top) for at, _, names in os.walk(top) for name in names)


def assemble(top, log):
    """Puts all that the archive has into the folder."""
    for path in output_of('git', 'ls-files', *SHIPPED).splitlines():
        os.makedirs(os.path.dirname(f'{top}/{path}'), exist_ok=True)
        shutil.copy(f'{ROOT}/{path}', f'{top}/{path}')
    os.makedirs(f'{top}/bin')
    shutil.copy(first_build.BUILT, f'{top}/bin/mincut')
    library_build.install(top)
    wheel_writer.write_release_wheel(f'{top}/python', first_build.BUILT, f'{library_build.OUT}/{library_build.shared()}')
    write(f'{top}/RECORD.txt', record(log))
    write(f'{top}/{SUMS}', ''.join(f'{sum_of_file(f"{top}/{name}")}  {name}\n' for name in files_below(top) if not os.path.islink(f'{top}/{name}')))


def pack(top, target, moment):
    """Packs the folder; owners, times and modes depend on the contents alone."""
    base, packed = os.path.basename(top), io.BytesIO()
    with tarfile.open(fileobj=packed, mode='w', format=tarfile.PAX_FORMAT) as archive:
        for name in files_below(top):
            entry = archive.gettarinfo(f'{top}/{name}', f'{base}/{name}')
            entry.uid = entry.gid = 0
            entry.uname = entry.gname = ''
            entry.mtime, entry.mode = moment, 0o755 if entry.mode & stat.S_IXUSR else 0o644
            if entry.issym():
                archive.addfile(entry)
            else:
                with open(f'{top}/{name}', 'rb') as file:
                    archive.addfile(entry, file)
    with open(f'{target}.new', 'wb') as file, gzip.GzipFile('', 'wb', 9, file, moment) as zipped:
        zipped.write(packed.getvalue())
    os.replace(f'{target}.new', target)


def release(folder, log):
    """Makes the archive in the folder; answers its path."""
    check_state()
    name = f'mincut-{version()}-linux-x86_64'
    moment = int(output_of('git', 'log', '-1', '--format=%ct'))
    os.makedirs(folder, exist_ok=True)
    target = f'{folder}/{name}.tar.gz'
    with tempfile.TemporaryDirectory(prefix='mincut-release-') as room:
        top = f'{room}/{name}'
        os.mkdir(top)
        assemble(top, log)
        pack(top, target, moment)
    write(f'{folder}/{SUMS}', f'{sum_of_file(target)}  {name}.tar.gz\n')
    return target


def main():
    parser = argparse.ArgumentParser(prog='./release', description='Makes a release from what is proved and built.')
    parser.add_argument('folder', help='where the archive goes')
    parser.add_argument('--gate-log', help='the log of a run of the gate, whose last lines go into RECORD.txt')
    words = parser.parse_args()
    try:
        print(release(os.path.abspath(words.folder), words.gate_log))
        return 0
    except Refused as fault:
        print(f'release: {fault}', file=sys.stderr)
        return 1


if __name__ == '__main__':
    sys.exit(main())
