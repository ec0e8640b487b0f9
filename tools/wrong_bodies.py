#!/usr/bin/env python3
"""Writes crates/WRONG_BODIES.md from the files of crates/*/must-fail: one row for each planted bug, which the proofs must refuse.

usage: wrong_bodies.py [--check]    --check: writes nothing; ends with 1 if the page is not up to date

What a bug does is in the line of its file before 'file:', or else in the name of the file.
"""
import os
import sys
from collections import namedtuple

from made_pages import ROOT, crates, run

PAGE = 'crates/WRONG_BODIES.md'
IN_GATE, BESIDE = '.edit', '.edit.md'
# Of a changed line so many characters are shown, and so many of them before the first change.
LONGEST, BEFORE = 64, 24
HEAD = """# Planted bugs

`tools/wrong_bodies.py` writes this page from `crates/*/must-fail`. Each row is a planted bug, an edit of one or two lines
of code, that the proofs must refuse. The gate, `rt ci`, tries {gate} of all {all}, and `tools/edits` tries all.
[DECISIONS.md](../docs/DECISIONS.md), 'Which planted bugs the gate tries', says how these were chosen. Of a long line the
page shows the part that changes.

Two bugs are not here, since no contract can refuse them: `run` always returns out of memory, and the workers of a round
run one after another. Tests in `crates/program_tests/src/answers.rt` find both (`values_are_printed` and
`two_workers_meet`).
"""

Edit = namedtuple('Edit', 'path what file pairs is_in_gate')


def read_edit(path):
    """The edit that a file has: what its first line says of it, and the pairs of old and new lines."""
    with open(path, encoding='utf-8') as text:
        lines = text.read().splitlines()
    told = [line for line in lines if line.strip() and not line.startswith(('file:', 'old:', 'new:'))]
    file = next(line[len('file:'):].strip() for line in lines if line.startswith('file:'))
    old = [line[len('old:'):].strip() for line in lines if line.startswith('old:')]
    new = [line[len('new:'):].strip() for line in lines if line.startswith('new:')]
    words = os.path.basename(path).removesuffix(BESIDE).removesuffix(IN_GATE).replace('_', ' ')
    what = told[0].rstrip('.') if told else words[0].upper() + words[1:]
    return Edit(os.path.relpath(path, ROOT), what, file, list(zip(old, new)), not path.endswith(BESIDE))


def edits_of(crate):
    """The edits of a crate, by their files."""
    folder = f'{ROOT}/crates/{crate}/must-fail'
    files = sorted(os.listdir(folder)) if os.path.isdir(folder) else []
    return [read_edit(f'{folder}/{file}') for file in files if file.endswith((IN_GATE, BESIDE))]


def shortened(text, start):
    """The part of a line around the place where it changes."""
    begin = max(0, start - BEFORE) if len(text) > LONGEST else 0
    end = begin + LONGEST
    return ('.. ' if begin else '') + text[begin:end].strip() + (' ..' if end < len(text) else '')


def code(text):
    """A piece of code in a cell of a table."""
    text = text.replace('|', r'\|')
    return f'`` {text} ``' if '`' in text else f'`{text}`' if text else 'nothing'


def change(pair):
    old, new = pair
    start = len(os.path.commonprefix(pair))
    return f'{code(shortened(old, start))} -> {code(shortened(new, start))}'


def row(edit):
    changes = '; '.join(map(change, edit.pairs))
    tried_by = 'the gate' if edit.is_in_gate else '`tools/edits`'
    return f'| [{edit.what}]({edit.path.removeprefix("crates/")}) | `{edit.file}` | {changes} | {tried_by} |'


def page():
    by_crate = {crate: edits_of(crate) for crate in crates()}
    every = [edit for edits in by_crate.values() for edit in edits]
    parts = [HEAD.format(gate=sum(edit.is_in_gate for edit in every), all=len(every))]
    for crate, edits in by_crate.items():
        if edits:
            parts.append(f'\n## {crate}\n\n| What the bug does | File | Change | Tried by |\n|---|---|---|---|\n')
            parts += [f'{row(edit)}\n' for edit in edits]
    return ''.join(parts)


if __name__ == '__main__':
    sys.exit(run(PAGE, page()))
