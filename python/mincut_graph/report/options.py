"""The options of the job `report`, and the words of `report_page` that they become."""
from __future__ import annotations

import argparse
from typing import Any

from .extras import read_levels, read_what_if


def add_options(group: Any) -> None:
    group.add_argument('--title', help='the heading of the page; default: the name of the file')
    group.add_argument('--unit', default='', metavar='UNIT', help='the unit of the weights, such as Gbit/s; they are shown divided by --scale')
    group.add_argument('--levels', metavar='FILE', help='levels to show, as `levels --as json` prints them')
    group.add_argument('--what-if', metavar='FILE', help='values after changes to show, as `failures --as json` prints them')


def page_words(options: argparse.Namespace) -> dict[str, Any]:
    """What `report_page` takes beside the graph and the title. Raises BadInput for a file that is no JSON of that form."""
    return {'unit': options.unit, 'scale': options.scale, 'source': options.file,
            'levels': read_levels(options.levels) if options.levels else None,
            'what_if': read_what_if(options.what_if) if options.what_if else None}
