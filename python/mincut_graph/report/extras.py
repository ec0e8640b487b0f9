"""What other jobs can add to the page: the levels of a graph, and values after changes. Both are plain data, as JSON has it.

`levels` is a list of parts of the graph, the whole graph first and each part after the one it comes from; it is what the job `levels`
prints as JSON under `parts`:

    {"above": null, "value": 20, "vertices": ["Paris", "Lyon", "Nice"], "alone": ["Paris"],
     "links": [{"from": "Paris", "to": "Lyon", "weight": 10}, {"from": "Paris", "to": "Nice", "weight": 10}]}

`above` is the number of that other part in the list, null or -1 for the whole graph. `value` is the least weight of a cut of this part
alone, null where it is one vertex or was not looked at. `links` are those that are cut to get from this part to the pieces below it, and
`alone` the pieces of one vertex; both may be absent.

`what_if` is a list of changes with the value after each:

    {"remove": [["Paris", "Lyon"]], "add": [["Nice", "Milan", 20]], "value": 30, "places": 2}

`remove` has the links that fail, `add` those that are new; either may be absent. `places` is the number of minimum cuts, or absent. What
the job `failures` prints as JSON is taken too. A link is a list or an object with `from`, `to` and perhaps `weight`."""
from __future__ import annotations

import json
from collections.abc import Hashable, Mapping, Sequence
from typing import Any

from ..errors import BadInput
from ..graph import Graph


# Files

def read_levels(path: str) -> list[Any]:
    """The levels in a file of JSON: a list, or an object whose entry `parts` is one."""
    return listed_in(path, ('levels', 'parts'))


def read_what_if(path: str) -> list[Any]:
    """The changes in a file of JSON: a list, or an object whose entry `what_if` is one, or what the job `failures` prints."""
    found = listed_in(path, ('what_if', 'failures'))
    return [{'remove': [change], 'value': change.get('value'), 'places': change.get('count')}
            if isinstance(change, dict) and 'from' in change else change for change in found]


def listed_in(path: str, names: Sequence[str]) -> list[Any]:
    try:
        with open(path, encoding='utf-8-sig') as lines:
            found = json.load(lines)
    except (OSError, ValueError) as fault:
        raise BadInput(f'{path} cannot be read as JSON ({fault})') from None
    if isinstance(found, dict):
        found = next((found[name] for name in names if name in found), None)
    if not isinstance(found, list):
        raise BadInput(f'{path} has no list under {" or ".join(names)}')
    return found


# With places in the graph for names

def checked_levels(graph: Graph, levels: Sequence[Mapping[str, Any]]) -> list[dict[str, Any]]:
    """The levels as a list in which each part is followed by all that is under it; raises BadInput where they are no tree."""
    places = place_of(graph)
    numbers = {(i, j): k for k, (i, j, _) in enumerate(graph.edges)}
    found: list[dict[str, Any]] = []
    for k, level in enumerate(levels):
        what = f'level {k}'
        if not isinstance(level, Mapping) or not isinstance(level.get('vertices'), list):
            raise BadInput(f'{what} has no list of vertices')
        above = -1 if level.get('above') is None else level['above']
        if not isinstance(above, int) or not -1 <= above < k or (above < 0) != (k == 0):
            raise BadInput(f'{what} does not say which part before it it comes from')
        pairs = [ends(places, link, what) for link in level.get('links', [])]
        found.append({'above': above, 'value': whole_or_none(level.get('value'), what),
                      'vertices': sorted(place(places, name, what) for name in level['vertices']),
                      'links': [numbers[i, j] for i, j in pairs if (i, j) in numbers]})
    alone: list[dict[str, Any]] = [{'above': k, 'value': None, 'vertices': [place(places, name, f'level {k}')], 'links': []}
             for k, level in enumerate(levels) for name in level.get('alone', [])]
    return branch_by_branch(found + alone)


def branch_by_branch(levels: list[dict[str, Any]]) -> list[dict[str, Any]]:
    """The same levels, each followed by all that is under it; each gets its depth."""
    below: list[list[int]] = [[] for _ in levels]
    for k, level in enumerate(levels[1:], 1):
        below[level['above']].append(k)
    order, depth, todo = [], {-1: -1}, [0] if levels else []
    while todo:
        k = todo.pop()
        order.append(k)
        depth[k] = depth[levels[k]['above']] + 1
        todo += reversed(below[k])
    new = {old: k for k, old in enumerate(order)}
    return [{**levels[k], 'above': new.get(levels[k]['above'], -1), 'depth': depth[k]} for k in order]


def checked_changes(graph: Graph, changes: Sequence[Mapping[str, Any]]) -> list[dict[str, Any]]:
    """The changes with places in the graph for names."""
    places = place_of(graph)
    found = []
    for k, change in enumerate(changes, 1):
        what = f'change {k}'
        if not isinstance(change, Mapping) or not isinstance(change.get('value'), int):
            raise BadInput(f'{what} has no whole number as its value')
        added = [(*ends(places, link, what), whole_or_none(weight_of(link), what)) for link in change.get('add', [])]
        found.append({'remove': [ends(places, link, what) for link in change.get('remove', [])], 'add': added, 'value': change['value'],
                      'places': whole_or_none(change.get('places'), what)})
    return found


def place_of(graph: Graph) -> dict[Hashable, int]:
    """The places of the names, and of their texts, since a file of JSON may have a number as either."""
    found: dict[Hashable, int] = {str(name): i for i, name in enumerate(graph.names)}
    found.update({name: i for i, name in enumerate(graph.names)})
    return found


def place(places: Mapping[Hashable, int], name: Any, what: str) -> int:
    if not isinstance(name, Hashable) or name not in places:
        raise BadInput(f'{what} names {name!r}, which the graph does not have')
    return places[name]


def ends(places: Mapping[Hashable, int], link: Any, what: str) -> tuple[int, int]:
    """The places of both ends of a link, the lesser first."""
    names = [link.get('from'), link.get('to')] if isinstance(link, Mapping) else link[:2] if isinstance(link, (list, tuple)) else []
    if len(names) < 2:
        raise BadInput(f'{what} has a link without two ends')
    first, second = sorted(place(places, name, what) for name in names)
    return first, second


def weight_of(link: Any) -> Any:
    return link.get('weight', 1) if isinstance(link, Mapping) else link[2] if len(link) > 2 else 1


def whole_or_none(number: Any, what: str) -> Any:
    if number is not None and not isinstance(number, int):
        raise BadInput(f'{what} has {number!r} in the place of a whole number')
    return number
