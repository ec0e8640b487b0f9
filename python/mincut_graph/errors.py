"""What is raised if there is no answer. The text of each is one line that says what is wrong and, if possible, what to do.

`status` is the status with which the command `mincut-graph` ends: that of the program if it has one, and otherwise 12 or above.
"""
from __future__ import annotations

from typing import Optional


class MincutError(Exception):
    """The base of all errors: there is no answer."""
    status = 1


class BadInput(MincutError, ValueError):
    """The input is not a graph: an unreadable file, a weight of 2.5, a directed graph and the like."""
    status = 1


class UnknownName(MincutError, KeyError):
    """The graph has no column, attribute or vertex of this name."""
    status = 7

    def __str__(self) -> str:
        return str(self.args[0]) if self.args else ''


class NoCut(MincutError):
    """The graph has fewer than two vertices."""
    status = 12


class Disconnected(MincutError):
    """The job needs a connected graph; `components` says how many components there are."""
    status = 12

    def __init__(self, components: int):
        super().__init__(f'the graph has {components} components; join them by edges, or take the largest alone (--largest, or `largest()`)')
        self.components = components

    def __reduce__(self) -> tuple[type, tuple[int]]:
        return type(self), (self.components,)


class TimedOut(MincutError, TimeoutError):
    """The call took longer than its time limit, `seconds`, and was ended."""
    status = 13

    def __init__(self, seconds: float):
        super().__init__(f'no answer within {seconds:g} seconds')
        self.seconds = seconds

    def __reduce__(self) -> tuple[type, tuple[float]]:
        return type(self), (self.seconds,)


class NoProgram(MincutError):
    """The program `mincut` was not found, or cannot be run."""
    status = 11


class Failed(MincutError):
    """The program or the library ended with this `status`; `line` is what it said."""
    status = 11

    def __init__(self, status: int, line: str):
        super().__init__(f'status {status}: {line}')
        self.status, self.line = status, line

    def __reduce__(self) -> tuple[type, tuple[int, str]]:
        return type(self), (self.status, self.line)


class Refused(Failed):
    """The graph is above a limit, or its text has a fault. Status 1."""


class BadWords(Failed):
    """The words are not a command. Status 2."""


class StreamFailed(Failed):
    """A read or a write failed. Status 3 or 4."""


class OutOfMemory(Failed):
    """There is not enough memory. Status 5."""


class TooLarge(Failed):
    """An answer or a grown graph is above its limit. Status 6, 8, 9 or 10."""


class BadVertex(Failed):
    """A vertex is not in the graph. Status 7."""


BY_STATUS: dict[int, type[Failed]] = {1: Refused, 2: BadWords, 3: StreamFailed, 4: StreamFailed, 5: OutOfMemory, 6: TooLarge, 7: BadVertex,
                                      8: TooLarge, 9: TooLarge, 10: TooLarge}


def failure(status: int, line: Optional[str]) -> Failed:
    """The kind of `Failed` that belongs to a status of the program."""
    return BY_STATUS.get(status, Failed)(status, line or 'no line on standard error')
