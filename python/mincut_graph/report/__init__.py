"""The report: one page with a graph, its cactus and its minimum cuts, that opens in a browser without a network."""
from __future__ import annotations

from typing import TYPE_CHECKING, Any

from .options import add_options, page_words

if TYPE_CHECKING:
    from .page import report_page

__all__ = ['add_options', 'page_words', 'report_page']


def __getattr__(name: str) -> Any:
    """Reads in what makes the page where it is made, since all other jobs are sooner done without."""
    if name == 'report_page':
        from .page import report_page
        return report_page
    raise AttributeError(f'module {__name__!r} has no attribute {name!r}')
