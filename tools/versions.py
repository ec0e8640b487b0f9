#!/usr/bin/env python3
"""Prints where the version stands, and which one; ends with 1 where they differ.

usage: versions.py"""
import os
import re
import sys

ROOT = os.path.dirname(os.path.dirname(os.path.abspath(__file__)))
# Where the version stands, and behind what. The header has it in three lines.
PLACES = {
    'CHANGELOG.md': r'^## (\d+\.\d+\.\d+)',
    'CITATION.cff': r'^version: (\S+)',
    'bindings/rust/Cargo.toml': r'^version = "(.*)"',
    'python/pyproject.toml': r'^version = "(.*)"',
    'python/mincut_graph/__init__.py': r"^__version__ = '(.*)'",
    'crates/program_words/src/notice.rt': r'^const VERSION: &str = "mincut (.*)\\n"',
}
HEADER = 'include/mincut.h'


def read(path):
    with open(f'{ROOT}/{path}', encoding='utf-8') as file:
        return file.read()


def version():
    """The version of the header, as major.minor.patch: all others have to be this one."""
    text = read(HEADER)
    return '.'.join(re.search(rf'^#define MINCUT_VERSION_{part} (\d+)', text, re.M)[1] for part in ('MAJOR', 'MINOR', 'PATCH'))


def versions():
    """{file: the version that stands there, or None}."""
    found = {path: re.search(behind, read(path), re.M) for path, behind in PLACES.items()}
    return {HEADER: version(), **{path: match and match[1] for path, match in found.items()}}


def wrong_versions():
    """A line for each place with another version than the header's."""
    return [f'{path}: the version is {told}, and {version()} in {HEADER}' for path, told in versions().items() if told != version()]


if __name__ == '__main__':
    for place, told in versions().items():
        print(f'{told}  {place}')
    sys.exit(1 if wrong_versions() else 0)
