"""A table of links that may be built: columns for the ends, and perhaps a capacity and a cost."""
from __future__ import annotations

import csv
from typing import Any, NamedTuple, Optional

from .errors import BadInput
from .readers.content import content_of, no_text
from .readers.headings import words_in
from .readers.lines import Table, table_of
from .readers.options import UTF_8, ReadOptions
from .readers.table import end_columns, weight_column

COSTS = ('cost', 'price')


class Candidates(NamedTuple):
    """`links`: (from, to, capacity) by names, the capacity as it stands, or None where it is not named. `costs`: one for each, or None."""
    links: list[tuple[str, str, Optional[str]]]
    costs: Optional[list[str]]


def read_candidates(path: str) -> Candidates:
    """The candidates in a table with a header, which is read as the table of a graph is; raises BadInput for what is none."""
    options = ReadOptions(format='csv', header=True)
    try:
        table = table_of(content_of(path, UTF_8), options, [])
        source, target = end_columns(table, options)
        return candidates_in(table, source, target, weight_column(table, options, source, target))
    except UnicodeDecodeError:
        raise BadInput(f'candidates {path}: {no_text(UTF_8)}') from None
    except BadInput as fault:
        raise BadInput(f'candidates {path}: {fault}') from None


def candidates_in(table: Table, source: int, target: int, capacity: Optional[int]) -> Candidates:
    cost = next((place for place, name in enumerate(table.columns or []) if words_in(name)[:1] in [[word] for word in COSTS]), None)
    links, costs = [], []
    for number, row in table.numbered():
        cells = [cell.strip() for cell in row] + [''] * (table.width - len(row))
        if not cells[source] or not cells[target] or (cost is not None and not cells[cost]):
            raise BadInput(f'line {number}: an end or the cost is missing')
        links.append((cells[source], cells[target], None if capacity is None else cells[capacity] or None))
        costs.append('' if cost is None else cells[cost])
    if not links:
        raise BadInput('has no link; one line for each is due, below the names of the columns')
    return Candidates(links, None if cost is None else costs)


def link_of(word: str, cells: int, form: str) -> list[Any]:
    """The cells of a word such as U,V,W; a name with a comma stands in quotes. Raises BadInput where there are not so many."""
    found = [cell.strip() for cell in next(csv.reader([word], skipinitialspace=True), [])]
    if len(found) != cells or not all(found):
        raise BadInput(f'{word!r} is not {form}; names with commas stand in double quotes')
    return found
