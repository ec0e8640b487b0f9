"""A time limit for several calls together."""
from __future__ import annotations

import time
from types import TracebackType
from typing import Optional

from .errors import TimedOut


class Deadline:
    """`left()` gives the seconds that are left of a limit, None where there is none; it raises TimedOut where the limit is over. As a
    context it tells the whole limit where a call raises TimedOut with what was left of it."""

    def __init__(self, limit: Optional[float]):
        self.limit = limit
        self.end = None if limit is None else time.monotonic() + limit

    def __enter__(self) -> Deadline:
        return self

    def __exit__(self, kind: Optional[type[BaseException]], fault: Optional[BaseException], trace: Optional[TracebackType]) -> None:
        if isinstance(fault, TimedOut) and self.limit is not None:
            raise TimedOut(self.limit) from None

    def left(self) -> Optional[float]:
        if self.end is None or self.limit is None:
            return None
        seconds = self.end - time.monotonic()
        if seconds <= 0:
            raise TimedOut(self.limit)
        return seconds
