"""The answers of the command, each as text, JSON and CSV."""
from __future__ import annotations

import csv
import io
import json
from collections.abc import Iterable, Sequence
from dataclasses import dataclass
from typing import Any, Optional

from .cactus import Cactus
from .graph import counted
from .levels import Levels, Part
from .results import Choice, Comparison, CutLink, Failure, Link, NewLinks, Site, State, Step

STYLES = ('text', 'json', 'csv')


@dataclass
class Answer:
    """One answer: `data` for JSON, `lines` of text, and `table` for CSV, whose first row names its columns."""
    data: dict[str, Any]
    lines: list[str]
    table: list[Sequence[Any]]

    def text(self, style: str) -> str:
        """The answer in one of the STYLES, ending with a line feed."""
        if style == 'json':
            return json.dumps(self.data, ensure_ascii=False, indent=2, default=str) + '\n'
        if style == 'csv':
            out = io.StringIO()
            csv.writer(out, lineterminator='\n').writerows(self.table)
            return out.getvalue()
        return ''.join(f'{line}\n' for line in self.lines)


def listed(names: Iterable[Any]) -> str:
    return ', '.join(map(str, names))


def value_answer(value: int) -> Answer:
    return Answer({'value': value}, [f'value {value}'], [('value',), (value,)])


def count_answer(value: int, count: int) -> Answer:
    return Answer({'value': value, 'count': count}, [f'value {value}', f'count {count}'], [('value', 'count'), (value, count)])


def cuts_answer(value: int, sides: list[list[Any]], links: Optional[list[list[Link]]] = None, told: bool = False) -> Answer:
    """`sides`: of each cut the vertices of the side without the first vertex. `links`: of each cut its links, which the text and the table
    have where they are to be told; the table then has them alone."""
    data: dict[str, Any] = {'value': value, 'cuts': sides}
    if links is not None:
        data['links'] = [list(map(link_data, found)) for found in links]
    lines = [f'value {value}', f'cuts {len(sides)}']
    rows: list[Sequence[Any]] = [('cut', 'from', 'to', 'weight') if told else ('cut', 'vertex')]
    for k, side in enumerate(sides, 1):
        cut = links[k - 1] if links and told else []
        lines += [listed(side), *(f'  link: {link_text(link)}' for link in cut)]
        rows += [(k, *link) for link in cut] if told else [(k, vertex) for vertex in side]
    return Answer(data, lines, rows)


def balanced_answer(value: int, balance: int, side: list[Any], links: Optional[list[Link]] = None, told: bool = False) -> Answer:
    data: dict[str, Any] = {'value': value, 'balance': balance, 'side': side}
    if links is not None:
        data['links'] = list(map(link_data, links))
    lines = [f'value {value}', f'balance {balance}', f'side: {listed(side)}']
    if links is not None and told:
        rows: list[Sequence[Any]] = [('cut', 'from', 'to', 'weight'), *((1, *link) for link in links)]
        return Answer(data, lines + [f'link: {link_text(link)}' for link in links], rows)
    return Answer(data, lines, [('value', 'balance', 'vertex'), *((value, balance, vertex) for vertex in side)])


def link_data(link: Sequence[Any]) -> dict[str, Any]:
    return {'from': link[0], 'to': link[1], 'weight': link[2]}


def link_text(link: Sequence[Any]) -> str:
    return f'{link[0]} - {link[1]} {link[2]}'


def cactus_lines(cactus: Cactus) -> list[str]:
    lines = [', '.join([counted(len(cactus.nodes), 'node', 'nodes'), counted(len(cactus.bridges), 'bridge', 'bridges'),
                        counted(len(cactus.cycles), 'cycle', 'cycles')])]
    lines += [f'node {i}: {listed(node)}'.rstrip() for i, node in enumerate(cactus.nodes)]
    lines += [f'bridge {i} - {j}' for i, j in cactus.bridges]
    return lines + [f'cycle {" - ".join(map(str, cycle))}' for cycle in cactus.cycles]


def cactus_rows(cactus: Cactus) -> list[Sequence[Any]]:
    parts: list[tuple[str, Sequence[Sequence[Any]]]] = [('node', cactus.nodes), ('bridge', cactus.bridges), ('cycle', cactus.cycles)]
    return [(kind, k, item) for kind, found in parts for k, items in enumerate(found) for item in items]


def cactus_data(cactus: Cactus) -> dict[str, Any]:
    return {'nodes': cactus.nodes, 'bridges': cactus.bridges, 'cycles': cactus.cycles}


def cactus_answer(cactus: Cactus) -> Answer:
    """In CSV an item is a vertex in the rows of a node, and the number of a node in those of a bridge or a cycle."""
    return Answer({'value': cactus.value, **cactus_data(cactus)}, [f'value {cactus.value}', *cactus_lines(cactus)],
                  [('kind', 'number', 'item'), *cactus_rows(cactus)])


def augment_answer(value: int, edges: list[list[Any]], sets: list[list[Any]], found: Optional[NewLinks] = None, told: bool = False) -> Answer:
    """`found`: the same edges with their capacity and the value that they reach, which the text has at its end where that is to be told."""
    data: dict[str, Any] = {'value': value, 'edges': edges, 'sets': sets}
    lines = [f'value {value}', f'edges {len(edges)}', *(f'edge: {u} - {v}' for u, v in edges), f'sets {len(sets)}',
             *(f'set: {listed(members)}' for members in sets)]
    if found is not None:
        data.update(capacity=found.links[0].weight if found.links else None, before=found.before, after=found.after)
        lines += [raised_text(found)] if told else []
    rows: list[Sequence[Any]] = [('kind', 'number', 'vertex')]
    rows += [(kind, k, vertex) for kind, lists in (('edge', edges), ('set', sets)) for k, members in enumerate(lists, 1) for vertex in members]
    return Answer(data, lines, rows)


def raised_text(found: NewLinks) -> str:
    if not found.links:
        return f'no new link is needed, and the value is {found.after}'
    many = len(found.links) > 1
    return (f'{counted(len(found.links), "new link", "new links")} of capacity {found.links[0].weight}{" each" if many else ""} '
            f'{"raise" if many else "raises"} the value from {found.before} to {found.after}')


def choice_answer(found: Choice, costs: bool) -> Answer:
    """`costs`: whether the candidates have costs, so that the sum of these is told."""
    data = {'value': found.before, 'links': list(map(link_data, found.links)), 'cost': found.cost, 'before': found.before,
            'after': found.after, 'target': found.target, 'least_proved': False}
    if found.links:
        many = len(found.links) > 1
        told = (f'{"these links raise" if many else "this link raises"} the value from {found.before} to {found.after}; '
                'none can be left out, and that no cheaper set does it is not proved')
    else:
        told = f'no link is needed: the value is {found.before} already'
    lines = [f'value {found.before}', f'links {len(found.links)}', *(f'link: {link_text(link)}' for link in found.links),
             *([f'cost {found.cost}'] if costs else []), told]
    return Answer(data, lines, [('from', 'to', 'weight'), *found.links])


def grow_answer(steps: Sequence[Step], cactus: Cactus) -> Answer:
    data = {'steps': [step._asdict() for step in steps], 'cactus': {'value': cactus.value, **cactus_data(cactus)}}
    lines = [f'step {k}: value {step.value}, count {step.count}' for k, step in enumerate(steps, 1)]
    return Answer(data, lines + cactus_lines(cactus), [('step', 'value', 'count'), *((k, *step) for k, step in enumerate(steps, 1))])


def comparison_answer(found: Comparison, added: Sequence[Sequence[Any]], removed: Sequence[Sequence[Any]]) -> Answer:
    """In JSON `what_if` has the changes in the form that the page takes."""
    data: dict[str, Any] = {when: {**state._asdict(), 'links': list(map(link_data, state.links))} for when, state in found._asdict().items()}
    data['what_if'] = [{'add': added, 'remove': removed, 'value': found.after.value, 'places': found.after.count}]
    rows: list[Sequence[Any]] = [('when', 'value', 'count', 'balance', 'vertex')]
    rows += [(when, *state[:3], vertex) for when, state in found._asdict().items() for vertex in state.side]
    return Answer(data, [line for when, state in found._asdict().items() for line in state_lines(when, state)], rows)


def state_lines(when: str, state: State) -> list[str]:
    return [f'{when}: value {state.value}, count {state.count}, balance {state.balance}', f'  side: {listed(state.side)}',
            *(f'  link: {link_text(link)}' for link in state.links)]


# Tables by site and by link

def table_answer(data: dict[str, Any], lines: list[str], columns: Sequence[str], rows: Sequence[Sequence[Any]]) -> Answer:
    """Rows as a table in each form; in the text the columns are as wide as they need."""
    cells = [list(map(str, columns)), *([('' if cell is None else str(cell)) for cell in row] for row in rows)]
    widths = [max(len(row[k]) for row in cells) for k in range(len(columns))]
    lines = lines + ['  '.join(cell.ljust(width) for cell, width in zip(row, widths)).rstrip() for row in cells]
    return Answer(data, lines, [tuple(columns), *rows])


def sites_answer(value: int, count: int, sites: Sequence[Site]) -> Answer:
    data = {'value': value, 'count': count, 'sites': [site._asdict() for site in sites]}
    return table_answer(data, [f'value {value}', f'count {count}'], ('site', 'degree', 'capacity', 'places', 'level'), sites)


def links_answer(value: int, count: int, links: Sequence[CutLink]) -> Answer:
    data = {'value': value, 'count': count, 'links': [{**link_data(link), 'places': link.places} for link in links]}
    return table_answer(data, [f'value {value}', f'count {count}'], ('from', 'to', 'weight', 'places'), links)


def failures_answer(value: int, count: int, failures: Sequence[Failure]) -> Answer:
    data = {'value': value, 'count': count,
            'failures': [{**link_data(failure), 'value': failure.value, 'count': failure.count} for failure in failures]}
    return table_answer(data, [f'value {value}', f'count {count}'], ('from', 'to', 'weight', 'value', 'count'), failures)


# Levels

def levels_answer(levels: Levels, links: bool) -> Answer:
    """In CSV one row for each vertex of each part, or with `links` one for each link, with the part that it is cut in."""
    sets = levels.at(levels.up_to) if levels.up_to is not None else None
    data: dict[str, Any] = {'value': levels.parts[0].value, 'up_to': levels.up_to, 'stubs': list(map(link_data, levels.stubs)),
                            'parts': [part_data(part) for part in levels.parts]}
    if sets is not None:
        data['sets'] = sets
    lines = [f'stub: {link_text(stub)}' for stub in levels.stubs] + part_lines(levels)
    if sets is not None:
        joined = [found for found in sets if len(found) > 1]
        lines += [f'sets of value {levels.up_to} or more {len(joined)}', *(f'set: {listed(found)}' for found in joined)]
    rows: list[Sequence[Any]] = [('part', 'from', 'to', 'weight') if links else ('part', 'above', 'value', 'vertex')]
    for part in levels.parts:
        rows += [(part.number, *link) for link in part.links] if links else [(part.number, part.above, part.value, v) for v in part.vertices]
    return Answer(data, lines, rows)


def part_data(part: Part) -> dict[str, Any]:
    return {'number': part.number, 'above': part.above, 'value': part.value, 'vertices': part.vertices,
            'links': list(map(link_data, part.links)), 'parts': part.parts, 'alone': part.alone}


def part_lines(levels: Levels) -> list[str]:
    """The parts as a tree, each indented below the one it comes from."""
    lines: list[str] = []
    todo = [(0, '')]
    while todo:
        number, indent = todo.pop()
        part = levels.parts[number]
        value = '' if part.value is None else f', value {part.value}'
        lines.append(f'{indent}part {number}: {counted(len(part.vertices), "vertex", "vertices")}{value}')
        cut = bool(part.parts or part.alone)
        if not cut:
            lines.append(f'{indent}  whole: {listed(part.vertices)}')
        if part.links:
            lines.append(f'{indent}  links: {listed(map(link_text, part.links))}')
        if part.alone:
            lines.append(f'{indent}  alone: {listed(part.alone)}')
        todo += [(below, indent + '  ') for below in reversed(part.parts)]
    return lines
