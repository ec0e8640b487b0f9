"""The names of vertices in a table, numbered in the order in which they stand there."""
from __future__ import annotations

from array import array
from collections import defaultdict
from itertools import count
from typing import Optional

from .lines import Column, has_numbers, plain_number

MOST_DIGITS = 7                        # of a name that is a place in an array, which is then 40 MB at most
UNKNOWN = -1


class Names:
    """The names so far. As long as all are short numbers an array has their places, which is quicker than a dictionary."""

    def __init__(self) -> None:
        self.numbers = array('I')                            # the names, as long as all are short numbers
        self.place_of = array('i')                           # the place of each of them, or UNKNOWN
        self.place: Optional[defaultdict[str, int]] = None   # the place of each name, from the first other name on

    def places(self, names: Column) -> array[int]:
        """The places of these names, from 0; one that is new has the next place."""
        if self.place is None:
            numbers = short_numbers(names)
            if numbers is not None:
                return self.places_of_numbers(numbers)
            self.place = defaultdict(count(len(self.numbers)).__next__, zip(map(str, self.numbers), count()))
        return array('I', map(self.place.__getitem__, map(str, names) if has_numbers(names) else names))

    def places_of_numbers(self, numbers: list[int]) -> array[int]:
        place_of = self.place_of
        place_of.extend(array('i', [UNKNOWN]) * (max(numbers) + 1 - len(place_of)))
        places, k = [place_of[number] for number in numbers], 0
        for _ in range(places.count(UNKNOWN)):
            k = places.index(UNKNOWN, k)
            number = numbers[k]
            if place_of[number] == UNKNOWN:
                place_of[number] = len(self.numbers)
                self.numbers.append(number)
            places[k] = place_of[number]
        return array('I', places)

    def all(self) -> list[str]:
        """The names by their places."""
        return list(map(str, self.numbers)) if self.place is None else list(self.place)


def short_numbers(names: Column) -> Optional[list[int]]:
    """The names as numbers, where all are such of a few digits and none has a 0 before another digit; else None."""
    if has_numbers(names):
        return names if max(names) < 10 ** MOST_DIGITS else None
    if not names or max(map(len, names)) > MOST_DIGITS:
        return None
    if not plain_number(''.join(names)):
        return None
    words = ' ' + ' '.join(names)
    return list(map(int, names)) if ' 0' not in words or words.count(' 0') == names.count('0') else None
