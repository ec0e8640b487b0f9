"""What is given to a call, judged before anything is solved: all faults are BadInput, with what is to be given instead."""
from __future__ import annotations

import operator
from typing import Any, Optional

from .errors import BadInput


def items(given: Any, what: str) -> list[Any]:
    """The members of a list; a text is none, as its letters are seldom meant."""
    if isinstance(given, str):
        raise BadInput(f'{what}: {given!r} is a text; give a list')
    try:
        return list(given)
    except TypeError:
        raise BadInput(f'{what}: {given!r} is no list') from None


def pair_of(given: Any, what: str) -> tuple[Any, Any]:
    found = items(given, what)
    if len(found) != 2:
        raise BadInput(f'{what}: {given!r} has to be two vertices')
    return found[0], found[1]


def whole(number: Any, what: str, least: int) -> Optional[int]:
    """The whole number, or None."""
    if number is None:
        return None
    try:
        found = operator.index(number)
    except TypeError:
        raise BadInput(f'{what} is {number!r}; it has to be a whole number') from None
    if found < least:
        raise BadInput(f'{what} is {found}; it has to be {least} or more')
    return found


def given_number(number: Any, what: str) -> int:
    """The whole number of 0 or more, which may not be left out."""
    found = whole(number, what, 0)
    if found is None:
        raise BadInput(f'{what} is None; it has to be a whole number')
    return found
