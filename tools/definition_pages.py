#!/usr/bin/env python3
"""Writes crates/DEFINITION_FILES.md from the files of crates/*/specs: one row for each, with the first sentence of its comment.

usage: definition_pages.py [--check]    --check: writes nothing; ends with 1 if the page is not up to date

The files that the contract of `run` uses come first, in the order in which tools/definition_files.py prints them.
"""
import os
import re
import sys

from definition_files import in_order, lines_of
from made_pages import ROOT, crates, run

PAGE = 'crates/DEFINITION_FILES.md'
RUN = 'crates/mincut_program/src/program.rt'
HEAD = """# The files of definitions

`tools/definition_pages.py` writes this page from the comments of `crates/*/specs`.
[DEFINITIONS.md](../docs/DEFINITIONS.md) explains the words that matter most. In all there are {files} files with {lines:,}
lines.

## What the contract of `run` uses

{run_files} files with {run_lines:,} lines; a file that others use comes before them. `tools/definition_files.py FILE`
prints such a list for any other source file.
"""


def files_of(crate):
    """The files of definitions of a crate; `Lib.antt` only lists the others."""
    folder = f'crates/{crate}/specs'
    names = sorted(os.listdir(f'{ROOT}/{folder}')) if os.path.isdir(f'{ROOT}/{folder}') else []
    return [f'{folder}/{name}' for name in names if name.endswith('.antt') and name != 'Lib.antt']


def what(file):
    """The first sentence of the comment at the head of a file."""
    with open(f'{ROOT}/{file}', encoding='utf-8') as text:
        head = re.match(r'(--.*\n)*', text.read())[0]
    words = ' '.join(line[2:].strip() for line in head.splitlines())
    sentence = re.match(r'.*?\.(?= |$)', words)
    return (sentence[0] if sentence else words).rstrip('.').replace('|', r'\|')


def table(files):
    rows = [f'| [{os.path.relpath(file, "crates").replace("/specs", "")}]({os.path.relpath(file, "crates")}) | {what(file)} | {lines_of(file)} |\n' for file in files]
    return ''.join(['\n| File | What it defines | Lines |\n|---|---|--:|\n', *rows])


def page():
    below = in_order(RUN, {})
    by_crate = {crate: files_of(crate) for crate in crates()}
    every = [file for files in by_crate.values() for file in files]
    parts = [HEAD.format(files=len(every), lines=sum(map(lines_of, every)), run_files=len(below), run_lines=sum(map(lines_of, below))), table(below)]
    parts.append('\n## All others, by their crates\n')
    for crate, files in by_crate.items():
        others = [file for file in files if file not in below]
        if others:
            parts += [f'\n### {crate}\n', table(others)]
    return ''.join(parts)


if __name__ == '__main__':
    sys.exit(run(PAGE, page()))
