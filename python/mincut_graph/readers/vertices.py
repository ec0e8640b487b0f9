"""A table of vertices beside a table of edges: names, masses and places on a map."""
from __future__ import annotations

from array import array
from pathlib import Path
from typing import Optional

from ..edges import Edges
from ..errors import BadInput, UnknownName
from ..graph import Position, RawGraph, counted
from ..numbers import fraction_of
from .content import content_of, no_text
from .headings import words_in
from .lines import Row, Table, table_of
from .options import ReadOptions

NAMES = ('name', 'id', 'vertex', 'node', 'site', 'label', 'city', 'station', 'device', 'router')
MASSES = ('mass',)
MAPS = (('longitude', 'latitude'), ('lon', 'lat'), ('lng', 'lat'), ('long', 'lat'), ('x', 'y'))
SHOWN = 3


def add_vertices(raw: RawGraph, options: ReadOptions) -> None:
    """Gives the graph of a table of edges the vertices of the table of vertices, which come first, with their masses and places."""
    path = str(options.vertices)
    try:
        content = content_of(path, options.encoding)
        name = path.lower()
        suffix = Path(name[:-3] if name.endswith('.gz') else name).suffix
        asked = ReadOptions(format='csv' if suffix in ('.csv', '.tsv', '.tab') else 'edges', header=options.header, delimiter=options.delimiter)
        table = table_of(content, asked, [options.name, options.mass])
        enter(raw, VertexTable(table, options, set(raw.names)), options, path)
    except UnicodeDecodeError:
        raise BadInput(f'table of vertices {path}: {no_text(options.encoding)}') from None
    except UnknownName as fault:
        raise UnknownName(f'table of vertices {path}: {fault}') from None
    except BadInput as fault:
        raise BadInput(f'table of vertices {path}: {fault}') from None


class VertexTable:
    """The lines of a table of vertices by name; `name` and `mass` are columns."""

    def __init__(self, table: Table, options: ReadOptions, ends: set[str]):
        rows = [(number, [cell.strip() for cell in row]) for number, row in table.numbered()]
        self.table = table
        self.rows = [(number, row + [''] * (table.width - len(row))) for number, row in rows if any(row)]
        self.name = table.column(options.name) if options.name else self.name_column(ends)
        self.mass = table.column(options.mass) if options.mass else self.named(MASSES)
        if self.mass is None and table.columns is None and table.width == 2:
            self.mass = 1
        self.lines: dict[str, Row] = {}
        for number, row in self.rows:
            if not row[self.name] or self.mass is not None and not row[self.mass]:
                raise BadInput(f'line {number}: a name or a mass is missing')
            if row[self.name] in self.lines:
                raise BadInput(f'line {number}: the name {row[self.name]} stands twice; each vertex has one line')
            self.lines[row[self.name]] = row

    def named(self, names: tuple[str, ...]) -> Optional[int]:
        """The column with one of these names, in any case."""
        lower = ['_'.join(words_in(name)) for name in self.table.columns or []]
        return next((lower.index(name) for name in names if name in lower), None)

    def name_column(self, ends: set[str]) -> int:
        """Of the columns with usual names, and the first, the one that has most of the ends of edges."""
        usual = [self.named((name,)) for name in NAMES]
        places = [place for place in usual if place is not None] + [0]
        return max(places, key=lambda place: len({row[place] for _, row in self.rows} & ends))

    def positions(self, notes: list[str]) -> Optional[list[Position]]:
        """The places of all vertices as (right, up); None where there are none, or where they are not whole, which is noted."""
        for right, up in MAPS:
            columns = self.named((right,)), self.named((up,))
            if columns[0] is None or columns[1] is None:
                continue
            shown = f'{self.table.shown(columns[0])} and {self.table.shown(columns[1])}'
            try:
                found = [(coordinate(row[columns[0]], number), coordinate(row[columns[1]], number)) for number, row in self.rows]
            except BadInput as fault:
                notes.append(f'the places in the columns {shown} are not used: {fault}')
                return None
            notes.append(f'places on the map in the columns {shown}')
            return found
        return None


def coordinate(cell: str, number: int) -> float:
    return float(fraction_of(cell, f'line {number}: a coordinate'))


def enter(raw: RawGraph, found: VertexTable, options: ReadOptions, path: str) -> None:
    """Numbers the vertices in the order of the table, and those that it does not have after them."""
    missing = [name for name in raw.names if name not in found.lines]
    if missing and found.mass is not None:
        raise BadInput(f'the vertex {missing[0]} has no line, and so no mass')
    place = {name: k for k, name in enumerate([*found.lines, *missing])}
    new = array('I', [place[name] for name in raw.names])
    assert isinstance(raw.edges, Edges)
    heads, tails, weights = raw.edges.columns
    raw.edges = Edges(array('I', map(new.__getitem__, heads)), array('I', map(new.__getitem__, tails)), weights)
    raw.names = list(place)
    positions = found.positions(raw.notes)
    if missing:
        shown = ', '.join(missing[:SHOWN]) + (', ..' if len(missing) > SHOWN else '')
        raw.notes.append(f'{counted(len(missing), "vertex has", "vertices have")} no line in {path}: {shown}')
        if positions is not None:
            raw.notes.append('so the places on the map are not used')
    raw.positions = None if missing else positions
    if found.mass is not None:
        raw.masses = [row[found.mass] for row in found.lines.values()]
