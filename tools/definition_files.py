#!/usr/bin/env python3
"""Prints the files of definitions that the contracts of a source file use, with their lines; a file that others use comes before them.

usage: definition_files.py [FILE]    FILE: crates/mincut_program/src/program.rt if none is given

It follows the imports of the file and of each file of definitions below a specs/ that these lead to. What a definition imports from
the standard library or from a struct is not followed.
"""
import os
import re
import sys

ROOT = os.path.dirname(os.path.dirname(os.path.abspath(__file__)))
NAME = re.compile(r'Rattle((?:\.\w+)+)')


def file_of(name):
    """The file of definitions that has an imported name, or None."""
    crate, *path = name.strip('.').split('.')
    for end in range(len(path), 1, -1):
        file = f'crates/{crate}/{"/".join(path[:end])}.antt'
        if path[0] == 'specs' and os.path.isfile(f'{ROOT}/{file}'):
            return file
    return None


def imports_of(file):
    with open(f'{ROOT}/{file}', encoding='utf-8') as text:
        found = [file_of(name) for name in NAME.findall(text.read())]
    return [name for name in dict.fromkeys(found) if name and name != file]


def in_order(file, found):
    """Adds the files below a file and then the file itself, each once."""
    for below in imports_of(file):
        if below not in found:
            found[below] = None
            in_order(below, found)
            found[below] = found.pop(below)
    return list(found)


def lines_of(file):
    with open(f'{ROOT}/{file}', encoding='utf-8') as text:
        return sum(1 for _ in text)


def main():
    start = sys.argv[1] if len(sys.argv) > 1 else 'crates/mincut_program/src/program.rt'
    files = in_order(os.path.relpath(os.path.abspath(start), ROOT), {})
    for file in files:
        print(f'{lines_of(file):5} {file}')
    print(f'{sum(map(lines_of, files)):5} lines in {len(files)} files')


if __name__ == '__main__':
    main()
