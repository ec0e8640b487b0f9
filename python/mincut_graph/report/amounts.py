"""Weights as they stand on the page: with their unit, and without the factor by which they were multiplied."""
from __future__ import annotations

from dataclasses import dataclass
from fractions import Fraction


@dataclass(frozen=True)
class Amounts:
    """`unit` stands behind each weight, such as 'Gbit/s'; `scale` is the factor by which all weights of the file were multiplied, so a
    weight w is shown as w / scale."""
    unit: str = ''
    scale: int = 1

    def number(self, weight: int) -> str:
        """The weight without its unit, exact; a fraction where it is no decimal."""
        exact = Fraction(weight, self.scale)
        if exact.denominator == 1:
            return f'{exact.numerator:,}'
        for digits in range(1, 10):
            if 10 ** digits % exact.denominator == 0:
                whole, rest = divmod(exact.numerator * 10 ** digits // exact.denominator, 10 ** digits)
                return f'{whole:,}.{rest:0{digits}d}'
        return f'{exact.numerator:,}/{exact.denominator:,}'

    def text(self, weight: int) -> str:
        return f'{self.number(weight)} {self.unit}' if self.unit else self.number(weight)
