"""Edge lists and CSV files: one line for each edge, with columns for its two ends and perhaps its weight."""
from __future__ import annotations

import re
from array import array
from collections.abc import Sequence
from itertools import chain
from typing import Any, Optional, Union

from ..edges import Edges
from ..errors import BadInput, UnknownName
from ..graph import RawGraph
from .content import Content
from .headings import Ends, ends_in, one_weight, quoted
from .lines import Column, Table, has_numbers, plain_number, table_of
from .names import Names
from .options import ReadOptions
from .vertices import add_vertices

DIRECTIONS = ('directed', 'undirected')
THOUSANDS = re.compile(r'[1-9]\d{0,2}(\.\d{3})+')
DECIMALS = re.compile(r'\d*\.\d*|\d.*[eE].*')


def read_table(content: Content, options: ReadOptions) -> RawGraph:
    """A table with the suffix .csv or .tsv has a header, and an edge list none, where `header` does not say otherwise or the columns are
    asked for by names. It is refused where two readings of it are likely: they give different graphs."""
    if options.mass is not None and not options.vertices:
        raise UnknownName(f'a table of edges has no mass {options.mass!r}; give a table of vertices by --vertices FILE')
    table = table_of(content, options, [options.source, options.target, options.weight])
    if table.width < 2:
        raise BadInput('has one column, and an edge has two ends; name the sign between columns by --delimiter')
    refuse_matrix(table, options)
    source, target = end_columns(table, options)
    weight = weight_column(table, options, source, target)
    found = Links()
    found.take(table, source, target, weight)
    if not found.heads:
        raise BadInput('has no edge: one line for each is due, with two columns for its ends')
    refuse_two_readings(table, found, weight, options)
    raw = RawGraph(found.names.all(), found.edges(), notes=[*table.notes, told(table, source, target, weight)], lines=found.lines)
    raw.directed = has_arrows(table)
    if options.vertices:
        add_vertices(raw, options)
    return raw


def has_arrows(table: Table) -> bool:
    """Whether the column `Type` of a table, as Gephi writes it, says of any edge that it is directed."""
    place = [name.lower() for name in table.columns or []].index('type') if 'type' in map(str.lower, table.columns or []) else None
    if place is None or not any(len(row) > place and row[place].lower() in DIRECTIONS for _, row in table.sample):
        return False
    return any(len(row) > place and row[place].strip().lower() == 'directed' for _, row in table.numbered())


def refuse_matrix(table: Table, options: ReadOptions) -> None:
    """Raises BadInput for a table whose lines begin with the names of its columns."""
    names, lines = set((table.columns or [])[1:]), [row for _, row in table.sample[1:]]
    if options.source is None and options.target is None and len(names) > 1 and lines and names.issuperset(row[0] for row in lines):
        raise BadInput(f'line {table.header_line}: the lines begin with the names of columns, as in a matrix; '
                       'write a line from,to,weight for each edge')


# Columns

def end_columns(table: Table, options: ReadOptions) -> tuple[int, int]:
    """The columns of the two ends: those asked for, those with usual names, or the first two of a table with no others or no header."""
    asked = [None if wanted is None else table.column(wanted) for wanted in (options.source, options.target)]
    if asked[0] is not None and asked[1] is not None:
        found = Ends(asked[0], asked[1], ('', ''), False)
    else:
        pairs = [ends for ends in ends_in(table.columns or []) if asked[0] in (None, ends.source) and asked[1] in (None, ends.target)]
        if len(pairs) > 1:
            shown = '; '.join(f'{quoted_pair(table, ends)}' for ends in pairs)
            raise BadInput(f'several pairs of columns may be the ends: {shown}; name two by --from and --to')
        if pairs:
            found = pairs[0]
        elif asked != [None, None] or table.width > 2 and table.columns is not None:
            raise BadInput(f'which columns are the ends cannot be told; name both by --from and --to; there are: {table.known()}')
        else:
            found = Ends(0, 1, ('', ''), False)
    if found.source == found.target:
        raise BadInput('both ends are in the same column; name two columns by --from and --to')
    return found.source, found.target


def quoted_pair(table: Table, ends: Ends) -> str:
    return f'{table.shown(ends.source)} and {table.shown(ends.target)}'


def weight_column(table: Table, options: ReadOptions, source: int, target: int) -> Optional[int]:
    """The column of the weights: the one asked for, or with a usual name, or the third of a table without a header; None for weight 1."""
    if options.unweighted:
        return None
    if options.weight is not None:
        weight: Optional[int] = table.column(options.weight)
    elif table.columns is not None:
        try:
            name = one_weight(name for place, name in enumerate(table.columns) if place not in (source, target))
        except ValueError as names:
            raise BadInput(f'several columns may be the weights: {names}; name one by --weight') from None
        weight = None if name is None else table.columns.index(name)
    else:
        weight = 2 if table.width == 3 and 2 not in (source, target) else None
        if table.width > 3 and None in (options.source, options.target):
            raise BadInput(f'has {table.width} columns and no names for them, as {table.first_line()}; if the lines are edges, name the weights '
                           'by --weight 3, say, or have each edge weigh 1 by --unweighted')
    if weight in (source, target):
        raise BadInput('an end and the weight are in the same column; name others by --from, --to and --weight')
    return weight


def told(table: Table, source: int, target: int, weight: Optional[int]) -> str:
    """Which columns were taken, for the user to see."""
    text = f'ends in the columns {table.shown(source)} and {table.shown(target)}, '
    if weight is not None:
        return text + f'weights in {table.shown(weight)}'
    rest = [table.shown(place) for place in range(table.width) if place not in (source, target)]
    return text + 'each edge weighs 1' + (f'; --weight takes one of: {", ".join(rest)}' if rest else '')


def refuse_two_readings(table: Table, found: Links, weight: Optional[int], options: ReadOptions) -> None:
    """Raises BadInput where what was taken for the names of columns may be an edge, or the list of edges a matrix."""
    if options.header is not None:
        return
    if table.columns is not None and weight is None and table.width == 2 and not set(table.columns).isdisjoint(found.names.all()):
        short = any(ends.short for ends in ends_in(table.columns))
        if short or not ends_in(table.columns):
            raise BadInput(f'line {table.header_line}: {quoted(table.columns)} may be an edge or the names of columns; '
                           'say which: --no-header or --header')
    if table.columns is None and options.format_guessed and table.width == len(found.heads) <= 3 and found.is_matrix(table):
        raise BadInput('may be a list of edges or a matrix of weights; for the first say --read edges, '
                       'and for the second write a line `u v weight` for each edge')


# Rows

class Links:
    """The edges of a table as columns."""

    def __init__(self) -> None:
        self.names = Names()
        self.heads, self.tails, self.lines = array('I'), array('I'), array('I')
        self.whole = array('Q')                              # the weights, as long as all are whole numbers
        self.weights: list[Union[int, str]] = []             # all from the first other one on, as they stand
        self.weighted = False

    def take(self, table: Table, source: int, target: int, weight: Optional[int]) -> None:
        """Takes all rows of a table; raises BadInput for one that lacks an end or a weight, or has more cells than the table columns."""
        self.weighted = weight is not None
        wanted = [source, target] if weight is None else [source, target, weight]
        for numbers, cells in table.cells(wanted):
            ends = self.names.places([*chain.from_iterable(zip(cells[0], cells[1]))])
            self.heads.extend(ends[::2])
            self.tails.extend(ends[1::2])
            self.lines.extend(numbers)
            if weight is not None:
                self.weigh(cells[2])

    def weigh(self, cells: Column) -> None:
        """Takes in the next weights."""
        before = len(self.whole)
        if not self.weights and (has_numbers(cells) or plain_number(''.join(cells))):
            try:
                self.whole.extend(cells if has_numbers(cells) else map(int, cells))
                return
            except OverflowError:
                del self.whole[before:]
        self.weights += [int(cell) if plain_number(cell) and len(cell) < 40 else cell for cell in map(str, cells)]

    def edges(self) -> Edges:
        """The edges with whole weights where all are such, else with the weights as they stand; raises BadInput for thousands points."""
        if not self.weighted:
            return Edges(self.heads, self.tails, array('Q', [1]) * len(self.heads))
        if not self.weights:
            return Edges(self.heads, self.tails, self.whole)
        weights: list[Any] = [*self.whole, *self.weights]
        words = [word for word in self.weights if isinstance(word, str)]
        doubtful = next((word for word in words if THOUSANDS.fullmatch(word)), None)
        if doubtful is not None and not any(DECIMALS.fullmatch(word) and not THOUSANDS.fullmatch(word) for word in words):
            raise BadInput(f'line {self.lines[weights.index(doubtful)]}: the weight {doubtful} may be {doubtful.replace(".", "")} with a thousands '
                           f'point, or {plain(doubtful)}; write it the one way or the other')
        return Edges(self.heads, self.tails, weights)

    def is_matrix(self, table: Table) -> bool:
        """Whether a small table of numbers is symmetric with zeros on its diagonal."""
        rows = [[cell.strip() for cell in row] for _, row in table.numbered()]
        square: Sequence[Sequence[str]] = list(zip(*rows))
        return all(map(plain_number, rows[0])) and [tuple(row) for row in rows] == square and all(int(row[k]) == 0 for k, row in enumerate(rows))


def plain(number: str) -> str:
    """A number without zeros at its end."""
    return number.rstrip('0').rstrip('.') if number.count('.') == 1 else 'a date or a version'
