"""From a path to a raw graph: which reader takes the file, and what is told where it cannot be read."""
from __future__ import annotations

import re
from collections.abc import Callable
from pathlib import Path
from typing import Optional, Union

from ..errors import BadInput, UnknownName
from ..graph import RawGraph
from ..matrices import of_matrix
from .content import Content, content_of, no_text
from .gml import read_gml
from .graphml import read_graphml
from .matrix_market import read_matrix_market
from .metis import looks_like_metis, read_metis
from .options import UTF_8, ReadOptions
from .pajek import read_pajek
from .table import read_table

LONGEST_LINE = 300
Reader = Callable[[Content, ReadOptions], RawGraph]
FORMATS: dict[str, Reader] = {
    'metis': lambda content, options: read_metis(content.raw, options, content.origin), 'csv': read_table, 'edges': read_table,
    'graphml': lambda content, options: read_graphml(content.text(), options), 'gml': lambda content, options: read_gml(content.text(), options),
    'pajek': lambda content, options: read_pajek(content.text(), options), 'mtx': read_matrix_market}
BY_SUFFIX = {'.graph': 'metis', '.metis': 'metis', '.csv': 'csv', '.tsv': 'csv', '.tab': 'csv', '.txt': 'edges', '.edges': 'edges',
             '.edgelist': 'edges', '.el': 'edges', '.dat': 'edges', '.graphml': 'graphml', '.xml': 'graphml', '.gml': 'gml', '.net': 'pajek',
             '.paj': 'pajek', '.mtx': 'mtx'}
BY_BEGINNING = [('%%matrixmarket', 'mtx'), ('<?xml', 'graphml'), ('<graphml', 'graphml'), ('*vertices', 'pajek'), ('*network', 'pajek')]
NOT_READ = [(r'<!doctype html|<html', 'is a web page, and not GraphML or another form; download the file itself'),
            (r'\{|\[\s*[{\[]', 'is JSON, which is not read; write the edges as CSV, or the graph as GraphML'),
            (r"(strict\s+)?(di)?graph\b[^\[{]*\{(?!['}])", 'is DOT, which is not read; write the edges as CSV, or the graph as GML'),
            (r'\?sndlib', 'is the native form of SNDlib, which is not read; write its links as CSV'),
            (r'>>(graph|sparse|digraph)6<<', 'is graph6, which is not read; write an edge list'),
            (r'dl\s+n\s*=|dl\s+format', 'is DL of UCINET, which is not read; export Pajek'),
            (r'(c( [^\n]*)?\r?\n\s*)*p\s+\w+\s+\d+\s+\d+', 'is DIMACS, which is not read; leave lines `u v weight` alone, without letters'),
            (r'@nodes|@arcs|@edges', 'is LGF of LEMON, which is not read; write its edges as CSV')]
OTHER_SUFFIXES = {'.gexf': 'GEXF', '.sif': 'SIF of Cytoscape', '.dot': 'DOT', '.gv': 'DOT', '.tgf': 'TGF', '.json': 'JSON', '.cyjs': 'JSON',
                  '.adjlist': 'an adjacency list', '.dl': 'DL', '.vna': 'VNA', '.lgf': 'LGF', '.g6': 'graph6', '.xlsx': 'an Excel workbook',
                  '.osm': 'OpenStreetMap'}


def read_graph(path: Union[str, Path], *, format: Optional[str] = None, source: Optional[str] = None, target: Optional[str] = None,
               weight: Optional[str] = None, unweighted: bool = False, mass: Optional[str] = None, name: Optional[str] = None,
               vertices: Optional[str] = None, delimiter: Optional[str] = None, header: Optional[bool] = None, encoding: str = UTF_8) -> RawGraph:
    """The graph in a file; '-' is standard input. Files in gzip are unpacked.

    `format`: one of metis, csv, edges, graphml, gml, pajek, mtx. Without it the suffix decides, or the beginning of the text. A sparse
    array that scipy saved (.npz) needs scipy. `source`, `target`: the columns of the ends in a table, by name or by number from 1; without
    them, those with usual names. `weight`: the column, or the attribute of edges, with the weights. Without it that is one with a usual
    name (weight, capacity, cap, bandwidth, w); if there is none, each edge weighs 1. `unweighted`: each edge weighs 1 in any case.
    `vertices`: a table of the vertices beside a table of edges. `mass`, `name`: the column of that table, or the attribute of vertices,
    with masses and with names. `delimiter`: the sign between columns, or 'tab' or 'space'. `header`: whether a table begins with the
    names of its columns. `encoding`: of the text.

    Raises BadInput if the file cannot be read, or could be read in two ways, and UnknownName for a column or an attribute that it does
    not have. A million lines of CSV take some seconds and 200 MB; METIS text is passed to the program and takes no time here."""
    asked = ReadOptions(format, source, target, weight, unweighted, mass, name, vertices, delimiter, header, encoding)
    shown = 'standard input' if str(path) == '-' else str(path)
    if weight is not None and unweighted:
        raise BadInput('--weight and --unweighted, or weight= and unweighted=, do not go together; leave one out')
    try:
        if format is None and Path(path).suffix.lower() == '.npz':
            return read_saved(str(path))
        content = content_of(str(path), encoding)
        found = reader_of(str(path), content, asked)(content, asked)
    except UnicodeDecodeError:
        raise BadInput(f'{shown}: {no_text(encoding)}') from None
    except BadInput as fault:
        raise BadInput(f'{shown}: {one_line(str(fault))}') from None
    except UnknownName as fault:
        raise UnknownName(f'{shown}: {one_line(str(fault))}') from None
    found.origin = shown
    return found


def one_line(text: str) -> str:
    """The text in one line of some 300 signs at most."""
    line = ' '.join(text.split())
    return line if len(line) <= LONGEST_LINE else f'{line[:LONGEST_LINE - 60]} … {line[-50:]}'


def reader_of(path: str, content: Content, options: ReadOptions) -> Reader:
    """The reader of the format that is named, or that the file has by its beginning or its suffix."""
    if options.format is None:
        options.format, options.format_guessed = format_of(path, content), True
    if options.format not in FORMATS:
        raise BadInput(f'there is no format {options.format!r}; it is one of {", ".join(FORMATS)}')
    if options.format not in ('csv', 'edges') and (options.source or options.target or options.vertices or options.delimiter):
        raise BadInput(f'--from, --to, --vertices and --delimiter go with a table of edges, and this is read as {options.format}; leave them out')
    return FORMATS[options.format]


def format_of(path: str, content: Content) -> str:
    """The format of a file; raises BadInput for one that is not read, and for an edge list that may well be METIS text."""
    name = path.lower()
    suffix = Path(name[:-3] if name.endswith('.gz') else name).suffix
    beginning = content.beginning()
    known = next((form for start, form in BY_BEGINNING if beginning.startswith(start)), None)
    if known is None and re.match(r'(creator\b[^\n]*\s+)?(version\b[^\n]*\s+)?graph\s*\[', beginning):
        known = 'gml'
    if known is None and BY_SUFFIX.get(suffix) != 'gml':
        words = next((words for form, words in NOT_READ if re.match(form, beginning)), None)
        if words is not None:
            raise BadInput(words)
    if known is None and suffix in OTHER_SUFFIXES:
        raise BadInput(f'is {OTHER_SUFFIXES[suffix]} by its suffix, which is not read; write the edges as CSV with the columns from and to')
    by_suffix = BY_SUFFIX.get(suffix)
    if by_suffix in (None, 'edges') and known is None and looks_like_metis(content.raw):
        raise BadInput('may be METIS text or an edge list; say which: --read metis or --read edges')
    return (known if by_suffix not in ('csv', 'gml') else None) or by_suffix or 'edges'


def read_saved(path: str) -> RawGraph:
    """The sparse array that scipy.sparse.save_npz wrote."""
    try:
        from scipy.sparse import load_npz
    except ImportError:
        raise BadInput('a saved sparse array needs scipy (pip install scipy)') from None
    try:
        return of_matrix(load_npz(path), None)
    except BadInput:
        raise
    except (OSError, ValueError, KeyError) as fault:
        raise BadInput(f'cannot be read ({fault})') from None
