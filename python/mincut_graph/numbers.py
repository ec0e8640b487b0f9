"""Weights and masses as whole numbers."""
from __future__ import annotations

import math
import re
from array import array
from collections.abc import Callable, Sequence
from fractions import Fraction
from typing import Any

from .errors import BadInput

DECIMAL = re.compile(r'[+-]?(\d+\.?\d*|\.\d+)([eE][+-]?\d{1,2})?|[+-]?\d+/\d{1,9}')
GREATEST_FACTOR = 10 ** 9


HINTS = [(re.compile(r'\d{1,3}(,\d{3})+(\.\d+)?'), 'leave out the commas, or write a point if they are decimal commas'),
         (re.compile(r'\d{1,3}(\.\d{3})+,\d+'), 'leave out the thousands points, and write a point for the decimal comma'),
         (re.compile(r'\d+,\d+'), 'decimals stand behind a point, not a comma'),
         (re.compile(r"\d{1,3}(['’ \u00a0\u202f_]\d{3})+"), 'leave out the signs between thousands'),
         (re.compile(r'[\d.]+\s*[^\W\d_].*|[\d.]+\s*%'), 'write the number alone, without a unit')]


def fraction_of(raw: Any, what: str) -> Fraction:
    """The number that is meant, exactly; a float is the decimal that Python prints for it, so that 0.1 is a tenth."""
    if hasattr(raw, 'item'):
        raw = raw.item()
    if isinstance(raw, bool):
        raise BadInput(f'{what} is {raw}, which is no number; write {int(raw)} if that is meant')
    if isinstance(raw, float):
        raw = repr(raw)
    if isinstance(raw, str):
        word = raw.strip().strip('"').strip()
        if not DECIMAL.fullmatch(word) or not word.isascii():
            hint = next((f'; {text}' for form, text in HINTS if form.fullmatch(word)), '')
            raise BadInput(f'{what} is {raw!r}, which is no number{hint}')
        raw = word
    try:
        return Fraction(raw)
    except (TypeError, ValueError, ZeroDivisionError):
        raise BadInput(f'{what} is {raw!r}, which is no number') from None


def whole_numbers(raws: Sequence[Any], what: Callable[[int], str], scale: int = 1, kind: str = 'weights') -> Sequence[int]:
    """Each of the numbers times `scale`, as ints of 0 or more; a column of whole numbers is given back as it is.

    `what(k)` says in an error which number k is, counted from 0. Raises BadInput for what is no number, for a negative one, and where
    some are no whole numbers; then it says by what all may be multiplied."""
    if isinstance(raws, array) and scale == 1 and raws.typecode == 'Q':
        return raws
    numbers: list[int] = []
    factor, first = 1, -1
    for k, raw in enumerate(raws):
        if type(raw) is int:
            number = raw * scale
        elif type(raw) is float and raw.is_integer():
            number = int(raw) * scale
        else:
            exact = fraction_of(raw, what(k)) * scale
            if exact.denominator > 1:
                first = k if first < 0 else first
                factor = math.lcm(factor, exact.denominator) if factor <= GREATEST_FACTOR else factor
            number = exact.numerator
        if number < 0:
            raise BadInput(f'{what(k)} is {raw}; it has to be 0 or more')
        numbers.append(number)
    if first >= 0:
        raise BadInput(not_whole(what(first), raws, first, scale * factor, kind))
    return numbers


def not_whole(what: str, raws: Sequence[Any], first: int, factor: int, kind: str) -> str:
    line = f'{what} is {str(raws[first]).strip()}; {kind} have to be whole numbers, so '
    if factor > GREATEST_FACTOR:
        return line + 'round them first: no factor up to 10^9 makes them whole'
    option = f'--scale {factor}, or scale={factor}' if kind == 'weights' else 'in the file'
    return line + f'multiply all by {factor} ({option})'
