#!/usr/bin/env python3
"""Writes the API reference in docs/PYTHON.md by the docstrings of the Python package: the first sentence of each.

usage: python_reference.py [--check]

With --check it writes nothing, and ends with 1 if the page has another reference.
"""
import inspect
import os
import re
import sys
import textwrap

ROOT = os.path.dirname(os.path.dirname(os.path.abspath(__file__)))
sys.path.insert(0, f'{ROOT}/python')
import mincut_graph  # noqa: E402  (the package of this repository, whichever is installed)
from mincut_graph.errors import BY_STATUS  # noqa: E402

PAGE = 'docs/PYTHON.md'
BEGIN, END = '<!-- reference: made by tools/python_reference.py -->', '<!-- end of reference -->'
WIDTH = 118
# Methods that only other parts of the package use.
INNER = {'of', 'named', 'place', 'number_of', 'solved', 'ranges', 'limit', 'fastest', 'renamed', 'shared_nodes'}
CLASSES = ('MinimumCuts', 'Cactus', 'Levels')
# Forms of a graph between a file and `MinimumCuts`.
BETWEEN = ('Graph', 'RawGraph')


def first_sentence(thing):
    text = ' '.join((inspect.getdoc(thing) or '').partition('\n\n')[0].split())
    return re.split(r'(?<=[.\])]) (?=[A-Z`])', text, maxsplit=1)[0].rstrip('.')


def words_of(function, *left_out):
    """The parameters with their defaults, without annotations."""
    parameters = inspect.signature(function).parameters.items()
    kept = [parameter.replace(annotation=parameter.empty) for name, parameter in parameters if name not in ('self', *left_out)]
    return str(inspect.Signature(kept))


def code(text):
    return f'`{text}`'


def entry(shown, thing, indent=''):
    return textwrap.wrap(f'- {shown}: {first_sentence(thing)}.', WIDTH, initial_indent=indent, subsequent_indent=f'{indent}  ',
                         break_long_words=False, break_on_hyphens=False)


def members(kind):
    """The public methods and properties of a class, in the order of its source."""
    for name, member in vars(kind).items():
        if name.startswith('_') or name in INNER or not (inspect.isfunction(member) or isinstance(member, property)):
            continue
        yield from entry(code(name if isinstance(member, property) else name + words_of(member, 'time_limit')), member, '  ')


def fields_of(kind):
    return '(' + ', '.join(getattr(kind, '_fields', None) or getattr(kind, '__dataclass_fields__', ())) + ')'


def statuses_of(error):
    """The statuses with which the command ends for this error."""
    return [status for status, kind in BY_STATUS.items() if kind is error] or [error.status]


def reference():
    public = {name: getattr(mincut_graph, name) for name in mincut_graph.__all__}
    errors = [name for name, thing in public.items() if isinstance(thing, type) and issubclass(thing, BaseException)]
    others = [name for name in public if name not in (*errors, *CLASSES, *BETWEEN, 'read_graph')]
    lines = entry(code('read_graph' + words_of(mincut_graph.read_graph)), mincut_graph.read_graph)
    for name in CLASSES:
        shown = words_of(public[name].__init__) if name == 'MinimumCuts' else fields_of(public[name])
        lines += ['', *entry(code(name + shown), public[name]), *members(public[name])]
    lines += ['', 'Answers:', '']
    for name in others:
        lines += entry(code(name + fields_of(public[name])), public[name])
    lines += ['', 'Errors, with the status with which `mincut-graph` ends:', '']
    for name in sorted(errors, key=lambda name: statuses_of(public[name])):
        lines += entry(f'{code(name)} {", ".join(map(str, statuses_of(public[name])))}', public[name])
    return '\n'.join(lines)


def page():
    """The page as it is, and as it should be."""
    with open(f'{ROOT}/{PAGE}', encoding='utf-8') as file:
        text = file.read()
    before, _, rest = text.partition(f'{BEGIN}\n')
    _, _, after = rest.partition(END)
    return text, f'{before}{BEGIN}\n{reference()}\n{END}{after}'


def is_current():
    text, wanted = page()
    return text == wanted


def main():
    if sys.argv[1:] == ['--check']:
        print(f'{PAGE} is up to date' if is_current() else f'{PAGE}: tools/python_reference.py writes another reference')
        return int(not is_current())
    _, wanted = page()
    with open(f'{ROOT}/{PAGE}', 'w', encoding='utf-8') as file:
        file.write(wanted)
    return 0


if __name__ == '__main__':
    sys.exit(main())
