"""The command `mincut-graph`: the jobs of the program for files with names, and a report that opens in a browser."""
from __future__ import annotations

import argparse
import os
import signal
import sys
from pathlib import Path
from typing import Any, Optional

from . import __version__, answers
from .cuts import MinimumCuts
from .errors import BadInput, Disconnected, Failed, MincutError, NoCut
from .graph import Graph, counted, finished
from .jobs import answer_of, components_note
from .readers import FORMATS, read_graph
from .words import MOST_WORKERS

INTERRUPTED, WRITE_FAILED = 130, 4
JOBS = {'value': 'the least weight of a cut', 'count': 'the number of all minimum cuts',
        'cactus': 'all minimum cuts at once, as nodes, bridges and cycles', 'cuts': 'each minimum cut: the side without the first vertex',
        'part': 'the minimum cuts that separate two vertices', 'balanced': 'a minimum cut of greatest balance',
        'levels': 'the parts that minimum cuts leave whole, each cut again, and so on',
        'sites': 'a table of the vertices: degree, capacity, in how many minimum cuts, level',
        'links': 'a table of the links: in how many minimum cuts each is',
        'failures': 'value and count after each single link fails, the worst first',
        'what-if': 'value, count and a most balanced cut before and after links are added or removed',
        'augment': 'the fewest new links that raise the value, or a good set of candidates',
        'grow': 'value and count after each of some inserted edges',
        'report': 'one page with the graph, its cactus and its minimum cuts, for a browser'}
EPILOG = """statuses: 0 answered; 1 the file is not a usable graph; 2 wrong words; 4 the answer could not be written; 5 out of memory;
6, 8, 9, 10 an answer above a limit; 7 a column or a vertex that does not exist; 11 no program; 12 no answer: one vertex, or several
components; 13 time limit; 130 interrupted"""


def parser() -> argparse.ArgumentParser:
    top = argparse.ArgumentParser(prog='mincut-graph', description=f'{__doc__.partition(": ")[2]}'.capitalize(), epilog=EPILOG)
    top.add_argument('--version', action='version', version=f'mincut-graph {__version__}')
    jobs = top.add_subparsers(dest='job', metavar='JOB', required=True)
    for job, text in JOBS.items():
        one = jobs.add_parser(job, help=text, description=text.capitalize() + '.', epilog=EPILOG)
        one.add_argument('file', metavar='FILE', help='METIS, CSV, edge list, GraphML, GML, Pajek, Matrix Market, .npz of scipy; - is standard input')
        if job == 'part':
            one.add_argument('pair', metavar='VERTEX', nargs=2, help='two vertices, by their names')
        if job == 'grow':
            one.add_argument('edges', metavar='U V W', nargs='+', help='the edges to insert: two names and a whole weight each')
        add_own(one, job)
        add_input(one.add_argument_group('the file'))
        add_run(one.add_argument_group('the run'))
        add_output(one.add_argument_group('the answer'), job)
    return top


def add_own(one: argparse.ArgumentParser, job: str) -> None:
    """The options of one job alone."""
    if job == 'cuts':
        one.add_argument('--least', type=whole, metavar='W', help='only cuts with mass W or more on both sides')
    if job in ('cuts', 'part', 'balanced', 'levels'):
        one.add_argument('--links', action='store_true', help='the links of each cut as well; in CSV these alone')
    if job == 'levels':
        one.add_argument('--up-to', type=positive, metavar='K', help='do not cut parts of value K or more; then also list these')
        one.add_argument('--without-stubs', action='store_true', help='first take off what hangs on one link, again and again')
    if job == 'sites':
        one.add_argument('--no-levels', action='store_true', help='leave out the levels, which need a solution for each part')
    if job == 'failures':
        one.add_argument('--processes', type=positive, metavar='N', help='number of runs of the program at once; default: one for each processor')
    if job == 'augment':
        one.add_argument('--capacity', type=positive, metavar='C', help='of each new link; default: the least weight in the file')
        one.add_argument('--candidates', metavar='FILE', help='a table of links that may be built: from, to, and perhaps capacity and cost')
        one.add_argument('--target', dest='goal', type=positive, metavar='T', help='the value that the candidates must reach; default: one more')
    if job == 'what-if':
        one.add_argument('--add', action='append', default=[], metavar='U,V,W', help='a new link: two names and a whole weight; may be repeated')
        one.add_argument('--remove', action='append', default=[], metavar='U,V', help='a link to remove; may be repeated')


def add_input(group: Any) -> None:
    group.add_argument('--read', metavar='FORMAT', choices=sorted(FORMATS), help=f'one of {", ".join(FORMATS)}; default: by the suffix')
    group.add_argument('--from', dest='source', metavar='COLUMN', help='column of the first end of an edge, by name or number')
    group.add_argument('--to', dest='target', metavar='COLUMN', help='column of the second end')
    group.add_argument('--weight', metavar='COLUMN',
                       help='column, or attribute of the edges, with the weights; default: one with a usual name, such as capacity, or 1 each')
    group.add_argument('--unweighted', action='store_true', help='each edge weighs 1, whatever the file has')
    group.add_argument('--vertices', metavar='FILE', help='a table of the vertices beside an edge list')
    group.add_argument('--mass', metavar='COLUMN', help='column of that table, or attribute of the vertices, by which cuts are balanced')
    group.add_argument('--name', metavar='COLUMN', help='column of that table, or attribute of the vertices, that names them')
    group.add_argument('--delimiter', metavar='SIGN', help='the sign between columns: one sign, tab or space')
    group.add_argument('--header', action=argparse.BooleanOptionalAction, help='whether a table begins with the names of its columns')
    group.add_argument('--encoding', default='utf-8-sig', help='of the file; default: UTF-8, or UTF-16 by its mark')
    group.add_argument('--scale', type=positive, default=1, metavar='N', help='multiply all weights, and so the value, by N')
    group.add_argument('--undirected', action='store_true', help='take each arrow of a directed graph as an edge')
    group.add_argument('--largest', action='store_true', help='take the largest component alone')


def add_run(group: Any) -> None:
    group.add_argument('--time-limit', type=seconds, metavar='SECONDS', help='give up after so long')
    group.add_argument('--workers', type=workers, metavar='N', help=f'threads of the program, 1 to {MOST_WORKERS}; default: 4')
    group.add_argument('--program', metavar='PATH', help='the program; default: that of the variable MINCUT, of the repository, or on the path')
    group.add_argument('--library', metavar='PATH', help='the shared library; default: that of the variable MINCUT_LIBRARY or of the repository')
    group.add_argument('--no-library', action='store_true', help='use the program alone')


def add_output(group: Any, job: str) -> None:
    if job == 'report':
        group.add_argument('-o', '--output', metavar='PAGE', default='report.html', help='the page to write; default: report.html')
        from .report.options import add_options
        add_options(group)
    else:
        group.add_argument('-o', '--output', metavar='FILE', help='where to write; default: standard output')
        group.add_argument('--as', dest='style', choices=answers.STYLES, default='text', help='the form of the answer; default: text')
    group.add_argument('-q', '--quiet', action='store_true', help='no notes on standard error')


def whole(word: str) -> int:
    if not word.isdecimal():
        raise argparse.ArgumentTypeError(f'{word!r} is no whole number')
    return int(word)


def positive(word: str) -> int:
    if whole(word) == 0:
        raise argparse.ArgumentTypeError('it has to be 1 or more')
    return int(word)


def workers(word: str) -> int:
    if not 1 <= whole(word) <= MOST_WORKERS:
        raise argparse.ArgumentTypeError(f'{word} workers; it has to be 1 to {MOST_WORKERS}')
    return int(word)


def seconds(word: str) -> float:
    try:
        number = float(word)
    except ValueError:
        number = 0.0
    if not 0 < number < 1e9:
        raise argparse.ArgumentTypeError(f'{word!r} is no number of seconds')
    return number


# From words to an answer

def graph_of(options: argparse.Namespace) -> Graph:
    """The graph in the file; raises what keeps it from having an answer to any job."""
    raw = read_graph(options.file, format=options.read, source=options.source, target=options.target, weight=options.weight,
                     unweighted=options.unweighted, mass=options.mass, name=options.name, vertices=options.vertices,
                     delimiter=options.delimiter, header=options.header, encoding=options.encoding)
    graph = finished(raw, options.scale, options.undirected)
    if options.largest:
        graph = graph.largest()
    if len(graph.names) < 2:
        raise NoCut(f'the graph has {counted(len(graph.names), "vertex", "vertices")}, so there is no cut; give one with two or more')
    if not graph.edges:
        raise BadInput(f'the graph has {len(graph.names)} vertices and no edge that counts, so nothing is there to cut; '
                       'see to the columns of the ends and of the weights')
    return graph


def cuts_of(graph: Graph, options: argparse.Namespace) -> MinimumCuts:
    library = False if options.no_library else options.library
    return MinimumCuts(graph, program=options.program, workers=options.workers, library=library, time_limit=options.time_limit)


def write(text: str, path: Optional[str]) -> int:
    """Writes the text to the file or to standard output; gives back the status."""
    try:
        if path is None or path == '-':
            sys.stdout.write(text)
            sys.stdout.flush()
        else:
            Path(path).write_text(text, 'utf-8')
    except OSError as fault:
        complain(f'{path or "standard output"} cannot be written ({fault.strerror})')
        if path is None:
            os.dup2(os.open(os.devnull, os.O_WRONLY), sys.stdout.fileno())
        return WRITE_FAILED
    return 0


def complain(line: str) -> None:
    print(f'mincut-graph: {" ".join(line.split())}', file=sys.stderr)


def run(options: argparse.Namespace) -> int:
    graph = graph_of(options)

    def note(line: str) -> None:
        if not options.quiet:
            complain(line)
    for line in graph.notes:
        note(line)
    cuts = cuts_of(graph, options)
    try:
        if options.job == 'report':
            from .report import page_words, report_page
            return write(report_page(cuts, options.title or Path(options.file).name, **page_words(options)), options.output)
        answer = answer_of(cuts, options, note)
    except Disconnected:
        told = None if options.quiet else components_note(cuts)
        if told:
            note(told[0])
        raise
    told = components_note(cuts) if answer.data.get('value') == 0 else None
    if told:
        note(told[0])
        answer.data['components'] = told[1]
    return write(answer.text(options.style), options.output)


def leave(number: int, _: Any) -> None:
    raise SystemExit(128 + number)


def main(words: Optional[list[str]] = None) -> int:
    top = parser()
    given = sys.argv[1:] if words is None else words
    if given and not given[0].startswith('-') and given[0] not in JOBS and Path(given[0]).exists():
        top.error(f'{given[0]} is a file; the job comes first, as in: mincut-graph value {given[0]}')
    options = top.parse_args(given)
    signal.signal(signal.SIGTERM, leave)
    try:
        return run(options)
    except MincutError as fault:
        complain(fault.line if isinstance(fault, Failed) else str(fault))
        return fault.status or 1
    except KeyboardInterrupt:
        complain('interrupted')
        return INTERRUPTED


if __name__ == '__main__':
    sys.exit(main())
