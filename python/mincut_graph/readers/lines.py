"""The lines of a table, one after the other, as rows of cells; and whether the first has the names of the columns."""
from __future__ import annotations

import ast
import csv
import json
import re
from array import array
from collections.abc import Iterator, Sequence
from itertools import islice
from typing import Any, NamedTuple, Optional

from ..errors import BadInput, UnknownName
from .content import Content
from .headings import ends_in, one_weight, quoted, weights_in
from .options import ReadOptions

DELIMITERS = {'tab': '\t', 'space': ' ', '\\t': '\t'}
SIGNS = '\t;,|'
NO_CELL = ' \t\n#%'
ODD_LINES = ('"', '\0', *(f'\n{sign}' for sign in NO_CELL))
BLANKS = ' \t\r\v\f\x1c\x1d\x1e\x1f'     # those of ASCII but for the line feed
MARK, NUMBER_MARK = '\0', -1           # stand for the end of a line among cells
PIECE = 1 << 16                        # letters that are read at once
SAMPLE = 20                            # lines that tell the sign between columns
SEPARATOR_LINE = re.compile(r'"?sep=(.|\\t)"?', re.IGNORECASE)
NUMBER = re.compile(r'[+-]?(\d+\.?\d*|\.\d+)([eE][+-]?\d+)?')
Row = list[str]
Column = list[Any]                     # of texts alone, or of numbers alone


def plain_number(word: str) -> bool:
    """Whether the word has digits alone, 0 to 9."""
    return word.isascii() and word.isdigit()


def has_numbers(column: Column) -> bool:
    """Whether the cells are numbers, and not texts."""
    return bool(column) and isinstance(column[0], int)


class Piece(NamedTuple):
    """Some lines of a text in one, each ending with a line feed; the first has the number `start`, from 1."""
    start: int
    text: str

    def kept(self) -> tuple[array[int], list[str]]:
        """The lines that are not blank and no comments, with their numbers."""
        lines = self.text.split('\n')
        lines.pop()
        found = [k for k, line in enumerate(lines) if line.lstrip()[:1] not in ('', '#', '%')]
        return array('I', [self.start + k for k in found]), [lines[k] for k in found]

    def cells(self, sign: Optional[str], width: int) -> Optional[list[str]]:
        """The cells of all lines one after the other, with a mark after each line, where each has just `width` of them and no line is
        blank, a comment or has quotes; else None. It goes by few calls on the whole, as a call for each line takes far longer."""
        if self.text[0] in NO_CELL or any(odd in self.text for odd in ODD_LINES):
            return None
        cells = self.text.replace('\n', f' {MARK} ').split() if sign is None else self.text.replace('\n', f'{sign}{MARK}{sign}').split(sign)
        cells = cells if sign is None else cells[:-1]
        lines = self.text.count('\n')
        return cells if len(cells) == lines * (width + 1) and cells[width::width + 1].count(MARK) == lines else None

    def numbers(self, sign: Optional[str], width: int) -> Optional[list[int]]:
        """The cells as in `cells`, with -1 for a mark, if all are digits alone as Python writes numbers; else None. JSON has just such."""
        if sign in (None, '"', MARK) or not plain_number(self.text.replace(str(sign), '').replace('\n', '')):
            return None
        try:
            numbers: list[int] = json.loads('[' + self.text.replace(str(sign), ',').replace('\n', f',{NUMBER_MARK},')[:-1] + ']')
        except ValueError:             # an empty cell, a needless 0, or more digits than Python takes
            return None
        lines = self.text.count('\n')
        return numbers if len(numbers) == lines * (width + 1) and numbers[width::width + 1].count(NUMBER_MARK) == lines else None

    def is_tight(self, sign: Optional[str]) -> bool:
        """Whether no cell has a blank around it for certain; outside of ASCII any sign may be one."""
        return sign is None or self.text.isascii() and not any(blank in self.text for blank in BLANKS if blank != sign)


def pieces_of(content: Content) -> Iterator[Piece]:
    stream, start = content.lines(), 1
    while True:
        text = stream.read(PIECE) + stream.readline()
        if not text:
            return
        text += '' if text.endswith('\n') else '\n'
        yield Piece(start, text)
        start += text.count('\n')


class Table:
    """A table whose rows are gone through once, or again from its beginning. `columns`: their names, or None where it has no header, and
    `header_line` the line that has them."""

    def __init__(self, content: Content, options: ReadOptions, wanted: list[Optional[str]]):
        first = self.first_lines(content)
        self.content, self.notes, self.skip = content, list[str](), 0
        named = SEPARATOR_LINE.fullmatch(first[0].strip())
        self.sign = delimiter_of(first, options, named[1] if named else None)
        self.skip = int(named is not None)
        self.attribute = self.dictionaries(first, options)
        sample = [(number, [cell.strip() for cell in row]) for number, row in islice(self.numbered(), SAMPLE)]
        if not sample:
            raise BadInput('has no lines with edges')
        self.sample = sample
        names = self.attribute is None and has_header(sample, options, wanted, self.notes)
        self.columns: Optional[Row] = trimmed(sample[0][1]) if names else None
        self.header_line = sample[0][0]
        self.skip += int(names)
        self.width = len(trimmed(sample[0][1]))

    def first_lines(self, content: Content) -> list[str]:
        for piece in pieces_of(content):
            lines = piece.kept()[1]
            if lines:
                return lines[:SAMPLE]
        raise BadInput('has no lines with edges')

    def batches(self) -> Iterator[tuple[array[int], list[Row]]]:
        """The rows, some thousand at a time, and the numbers of their lines; cells may have blanks around them."""
        skip = self.skip
        for piece in pieces_of(self.content):
            numbers, lines = piece.kept()
            yield numbers[skip:], self.rows_in(numbers[skip:], lines[skip:])
            skip -= min(skip, len(lines))

    def rows_in(self, numbers: array[int], lines: list[str]) -> list[Row]:
        if self.sign is None:
            return [line.split() if self.attribute is None else with_weight(line, self.attribute) for line in lines]
        reader = csv.reader((line + '\n' for line in lines), delimiter=self.sign, skipinitialspace=True)
        rows: list[Row] = []
        try:
            for row in reader:
                rows.append(row)
                if reader.line_num != len(rows):
                    raise BadInput(f'line {numbers[len(rows) - 1]}: a cell in quotes goes over several lines, or a quote is not closed')
        except csv.Error as fault:
            raise BadInput(f'line {numbers[len(rows)]}: a cell cannot be read ({fault})') from None
        return rows

    def cells(self, wanted: list[int]) -> Iterator[tuple[Sequence[int], list[Column]]]:
        """The wanted columns, some thousand cells of each at a time, and the numbers of their lines. Rows without any cell are left out;
        raises BadInput for one with more cells than the table has columns, or without one that is wanted. Of lines with numbers alone
        the cells are numbers."""
        skip, width = self.skip, self.width
        for piece in pieces_of(self.content):
            plain = skip == 0 and self.attribute is None
            digits = piece.numbers(self.sign, width) if plain else None
            if digits is not None:
                yield range(piece.start, piece.start + len(digits) // (width + 1)), [digits[place::width + 1] for place in wanted]
                continue
            cells = piece.cells(self.sign, width) if plain else None
            if cells is not None:
                found = [cells[place::width + 1] for place in wanted]
                if not piece.is_tight(self.sign):
                    found = [[*map(str.strip, column)] for column in found]
                if not any('' in column for column in found):
                    yield range(piece.start, piece.start + len(found[0])), found
                    continue
            self.refuse_names_as_comments(piece)
            numbers, lines = piece.kept()
            numbers, rows = self.sound(numbers[skip:], self.rows_in(numbers[skip:], lines[skip:]), wanted)
            skip -= min(skip, len(lines))
            yield numbers, [[row[place].strip() for row in rows] for place in wanted]

    def refuse_names_as_comments(self, piece: Piece) -> None:
        """Raises BadInput for a line of a table with a header that seems to be a comment, and has as many cells as an edge."""
        if self.columns is None or self.sign is None:
            return
        for number, line in enumerate(piece.text.split('\n'), piece.start):
            if line.lstrip()[:1] in ('#', '%') and number > self.header_line and line.count(self.sign) == self.width - 1:
                raise BadInput(f'line {number}: begins with {line.lstrip()[0]}, as a comment does, and has {self.width} cells, as an edge has; '
                               'put its first name in quotes, or leave the line out')

    def numbered(self) -> Iterator[tuple[int, Row]]:
        """The number of each line with its row."""
        for numbers, batch in self.batches():
            yield from zip(numbers, batch)

    def dictionaries(self, lines: list[str], options: ReadOptions) -> Optional[str]:
        """The attribute of the weights in lines `u v {'weight': 2}`, as networkx writes them; None where the lines are no such."""
        rows = [line.split(None, 2) for line in lines]
        if self.sign not in (None, ',') or any(len(row) < 3 or row[2][0] != '{' for row in rows):
            return None
        self.sign = None
        known = [key for key in attributes_in(rows[0][2]) if isinstance(key, str)]
        if options.weight is not None and options.weight not in known:
            raise UnknownName(f'no edge has the attribute {options.weight!r}; there are: {quoted(known) or "none"}')
        try:
            return '' if options.unweighted else options.weight or one_weight(known) or ''
        except ValueError as names:
            raise BadInput(f'several attributes may be the weights: {names}; name one by --weight') from None

    def sound(self, numbers: array[int], rows: list[Row], wanted: list[int]) -> tuple[array[int], list[Row]]:
        """Those of the rows that have any cell."""
        kept, found, need = array('I'), [], 1 + max(wanted)
        for number, row in zip(numbers, map(trimmed, rows)):
            if len(row) > self.width:
                than = f'the {self.width} names in line {self.header_line}' if self.columns is not None else f'{self.width} in the lines before'
                raise BadInput(f'line {number}: has {len(row)} cells, and there are {than}; put a name that has the sign between columns in quotes')
            if row and (len(row) < need or not all(row[place].strip() for place in wanted)):
                raise BadInput(f'line {number}: an end or a weight is missing')
            if row:
                kept.append(number)
                found.append(row)
        return kept, found

    def column(self, wanted: str) -> int:
        """The place of a column, by its name or its number from 1."""
        if self.attribute is not None and wanted == self.attribute:
            return 2
        if self.columns is not None and wanted in self.columns:
            if self.columns.count(wanted) > 1:
                raise BadInput(f'two columns have the name {wanted!r}; name one by its number, from 1')
            return self.columns.index(wanted)
        if wanted.isdecimal() and 1 <= int(wanted) <= self.width:
            return int(wanted) - 1
        raise UnknownName(f'no column {wanted!r}; there are: {self.known()}')

    def known(self) -> str:
        return ', '.join(self.columns) if self.columns is not None else f'1 to {self.width}, without names'

    def shown(self, place: int) -> str:
        return repr(self.columns[place]) if self.columns is not None else str(place + 1)

    def first_line(self) -> str:
        return repr(' '.join(self.sample[0][1]))


def table_of(content: Content, options: ReadOptions, wanted: list[Optional[str]]) -> Table:
    """The table in a text; lines that begin with # or % and blank ones are skipped. `wanted` are columns that are asked for."""
    return Table(content, options, wanted)


def trimmed(row: Row) -> Row:
    """The row without empty cells at its end."""
    end = len(row)
    while end and not row[end - 1].strip():
        end -= 1
    return row[:end]


def delimiter_of(lines: list[str], options: ReadOptions, named: Optional[str]) -> Optional[str]:
    """The sign between columns: the one asked for, the one that a line `sep=` names, or the one that stands as often in each line; None for
    any blanks."""
    sign = options.delimiter or named
    if sign is not None:
        sign = DELIMITERS.get(sign, sign)
        if len(sign) != 1:
            raise BadInput(f'a delimiter is one sign, or tab or space, and not {sign!r}')
        return None if sign == ' ' else sign
    bare = [re.sub(r'"[^"]*"', '', line) for line in lines]
    counts = {sign: [line.count(sign) for line in bare] for sign in SIGNS}
    even = [sign for sign in SIGNS if counts[sign][0] and len(set(counts[sign])) == 1]
    best = max(even or SIGNS, key=lambda sign: counts[sign][0])
    return best if counts[best][0] else None


# The header

def has_header(sample: list[tuple[int, Row]], options: ReadOptions, wanted: list[Optional[str]], notes: list[str]) -> bool:
    """Whether the first line has the names of the columns. Raises BadInput where an edge list seems to have such a line."""
    if options.header is not None:
        return options.header
    number, first = sample[0]
    if any(name is not None and not name.isdecimal() and name in first for name in wanted):
        return True
    if options.format == 'csv':
        numeric = [NUMBER.fullmatch(cell) is not None for cell in first]
        bare = all(ends.short for ends in ends_in(first)) and (all(numeric) or len(first) == 3 and numeric[2])
        if bare:
            notes.append(f'line {number} is taken for an edge, as it has a number where a name of a column is due')
        return not bare
    if any(name is not None and not name.isdecimal() for name in wanted):
        return True
    second = sample[1][1] if len(sample) > 1 else []
    numbers = len(first) == len(second) == 3 and NUMBER.fullmatch(second[2]) is not None and NUMBER.fullmatch(first[2]) is None
    names = any(not ends.short for ends in ends_in(first)) or any(ends.short for ends in ends_in(first)) and bool(weights_in(first[2:]))
    if names or numbers:
        raise BadInput(f'line {number}: {quoted(first)} seem to be the names of columns, and an edge list has none; '
                       'say --header, or --no-header if it is an edge')
    return False


# Lines of networkx

def attributes_in(text: str) -> dict[object, object]:
    """The attributes in the text of a dictionary."""
    try:
        found = ast.literal_eval(text.strip())
    except (ValueError, SyntaxError, MemoryError, RecursionError):
        found = None
    if not isinstance(found, dict):
        raise BadInput(f'{text.strip()!r} is no dictionary of attributes, as networkx writes them behind the two ends')
    return found


def with_weight(line: str, attribute: str) -> Row:
    """The two ends in a line of networkx, and the attribute of the edge, if one is named."""
    words = line.split(None, 2)
    if len(words) < 3 or not attribute:
        return words[:2]
    return [*words[:2], str(attributes_in(words[2]).get(attribute, ''))]
