"""numpy where it is worth its import; the package does without it."""
from __future__ import annotations

import importlib
import sys
from typing import Any, Optional

WORTH_IT = 50_000                      # numbers; below it the import takes longer than what it saves


def numpy_for(count: int) -> Optional[Any]:
    """The module numpy for work on so many numbers; None where it is not there, or not loaded yet and not worth loading."""
    if 'numpy' not in sys.modules and count < WORTH_IT:
        return None
    try:
        return numpy()
    except ImportError:
        return None


def numpy() -> Any:
    """The module numpy; raises ImportError where it is not there."""
    return importlib.import_module('numpy')
