"""The answers: tuples whose parts have names. A part called `count` hides the method of tuples of that name."""
from __future__ import annotations

from typing import Any, NamedTuple, Optional

from .cactus import Cactus


class Link(NamedTuple):
    """A link between two vertices, by their names. A link of a cut has `source` on the side that was asked for.

    >>> Link('Paris', 'Lyon', 10).weight
    10"""
    source: Any
    target: Any
    weight: int


class Cut(NamedTuple):
    """A minimum cut, by its side without the first vertex."""
    value: int
    side: list[Any]


class LightCut(NamedTuple):
    """A cut below a bound."""
    weight: int
    side: list[Any]


class Balanced(NamedTuple):
    """A minimum cut: the mass of its lighter side, and its side without the first vertex."""
    balance: int
    side: list[Any]


class Augmentation(NamedTuple):
    """The edges of `augment`, and the sets that each need an end of one."""
    edges: list[tuple[Any, Any]]
    sets: list[list[Any]]


class Step(NamedTuple):
    """Value and count after an insertion."""
    value: int
    count: int  # type: ignore[assignment]


class Growth(NamedTuple):
    """A `Step` for each insertion, and the cactus after the last."""
    steps: list[Step]
    cactus: Cactus


class NewLinks(NamedTuple):
    """New links, and the value before and after. Each link has its capacity in `weight`. `sets`: each needs an end of a new link, so no
    fewer links raise the value."""
    links: list[Link]
    before: int
    after: int
    sets: list[list[Any]]


class Choice(NamedTuple):
    """A set of candidates that raises the value to `target` or more. The links are in the order in which they were found; `cost` is what
    they cost together, and `before` and `after` are values. None of the links can be left out. A cheaper set may exist."""
    links: list[Link]
    cost: float
    before: int
    after: int
    target: int


class State(NamedTuple):
    """Value, count, and a most balanced cut with its links."""
    value: int
    count: int  # type: ignore[assignment]
    balance: int
    side: list[Any]
    links: list[Link]


class Comparison(NamedTuple):
    """A graph before and after changes."""
    before: State
    after: State


class Site(NamedTuple):
    """A vertex: its neighbours, the weight of its links, the minimum cuts that have it on the lighter side, and its level. `degree` and
    `places` are numbers of neighbours and of cuts. `level` is the greatest value of a part of `levels` that has the vertex and another
    one; None if it was not asked for."""
    name: Any
    degree: int
    capacity: int
    places: int
    level: Optional[int]


class CutLink(NamedTuple):
    """A link, and the number of minimum cuts that it is in."""
    source: Any
    target: Any
    weight: int
    places: int


class Failure(NamedTuple):
    """A link, and value and count of the graph without it."""
    source: Any
    target: Any
    weight: int
    value: int
    count: int  # type: ignore[assignment]
