"""What a user may say about a file."""
from __future__ import annotations

from dataclasses import dataclass, field
from typing import Optional

UTF_8 = 'utf-8-sig'


@dataclass
class ReadOptions:
    """How a file is to be read; None leaves it to the file.

    `format`: a name of `FORMATS`. `source`, `target`, `weight`: columns of a table, by name or by number from 1; `weight` is an
    attribute of the edges elsewhere. `unweighted`: each edge weighs 1, whatever the file has. `mass`: a column of the table of vertices,
    or an attribute of the vertices. `name`: the attribute, or the column of the table of vertices, that names them. `vertices`: the path
    of a table of vertices. `delimiter`: the sign between columns, 'tab' or 'space'. `header`: whether a table begins with the names of
    its columns. `encoding`: of the text; UTF-16 is known by its first bytes."""
    format: Optional[str] = None
    source: Optional[str] = None
    target: Optional[str] = None
    weight: Optional[str] = None
    unweighted: bool = False
    mass: Optional[str] = None
    name: Optional[str] = None
    vertices: Optional[str] = None
    delimiter: Optional[str] = None
    header: Optional[bool] = None
    encoding: str = UTF_8
    format_guessed: bool = field(default=False, init=False)
