"""The jobs of the command: from a graph and the words of a user to an answer."""
from __future__ import annotations

import argparse
import sys
from collections.abc import Callable, Sequence
from typing import Any, Optional

from . import answers
from .answers import Answer
from .candidates import link_of, read_candidates
from .cuts import MinimumCuts
from .errors import BadInput
from .failures import Progress
from .graph import counted
from .program import Program

SHOWN = 20                             # names in a note
Options = argparse.Namespace
Note = Callable[[str], None]


def answer_of(cuts: MinimumCuts, options: Options, note: Note) -> Answer:
    """What the job answers; `note` takes sentences for whoever asked."""
    return BY_JOB[options.job](cuts, options, note)


def value(cuts: MinimumCuts, _: Options, __: Note) -> Answer:
    return answers.value_answer(cuts.value())


def count(cuts: MinimumCuts, options: Options, _: Note) -> Answer:
    return answers.count_answer(*cuts.fastest().count(cuts.graph, options.time_limit))


def cactus(cuts: MinimumCuts, _: Options, __: Note) -> Answer:
    return answers.cactus_answer(cuts.cactus())


def lists(cuts: MinimumCuts, options: Options, _: Note) -> Answer:
    """The jobs cuts and part."""
    pair = None
    if options.job == 'part':
        first, second = (cuts.number_of(vertex_of(cuts, word)) - 1 for word in options.pair)
        pair = (first, second)
    number, sides = program_of(options).sides(cuts.graph, getattr(options, 'least', None), pair, options.time_limit)
    named = list(map(cuts.named, sides))
    return answers.cuts_answer(number, named, list(map(cuts.links, named)) if wants_links(options) else None, options.links)


def balanced(cuts: MinimumCuts, options: Options, _: Note) -> Answer:
    number, balance, places = program_of(options).balanced(cuts.graph, options.time_limit)
    side = cuts.named(places)
    return answers.balanced_answer(number, balance, side, cuts.links(side) if wants_links(options) else None, options.links)


def grow(cuts: MinimumCuts, options: Options, _: Note) -> Answer:
    words = options.edges
    if len(words) % 3 or not all(word.isdecimal() for word in words[2::3]):
        raise BadInput('an inserted edge is two names and a whole weight')
    triples = [(vertex_of(cuts, u), vertex_of(cuts, v), int(w)) for u, v, w in zip(words[::3], words[1::3], words[2::3])]
    return answers.grow_answer(*cuts.grow(triples))


def augment(cuts: MinimumCuts, options: Options, note: Note) -> Answer:
    if options.candidates is not None:
        return chosen(cuts, options)
    if options.goal is not None:
        raise BadInput('--target goes with --candidates FILE; the fewest new links raise the value as far as their capacity lets them')
    if options.capacity is None and options.quiet and options.style != 'json':
        number, places, sets = program_of(options).augment(cuts.graph, options.time_limit)
        return answers.augment_answer(number, list(map(cuts.named, places)), list(map(cuts.named, sets)))
    plain = MinimumCuts(cuts.graph, program=options.program, workers=options.workers, library=False, time_limit=options.time_limit)
    found = plain.new_links(options.capacity)
    told = answers.raised_text(found)
    if options.capacity is None:
        note(f'{told}; this capacity is the least weight in the file, and --capacity C names another')
    edges = [[link.source, link.target] for link in found.links]
    return answers.augment_answer(found.before, edges, found.sets, found, options.capacity is not None)


def chosen(cuts: MinimumCuts, options: Options) -> Answer:
    """Some of the candidates in a file."""
    given = read_candidates(options.candidates)
    capacity = options.capacity or min(w for _, _, w in cuts.graph.edges)
    links = [(vertex_of(cuts, u), vertex_of(cuts, v), capacity if w is None else w) for u, v, w in given.links]
    return answers.choice_answer(cuts.candidates(links, options.goal, given.costs), given.costs is not None)


def what_if(cuts: MinimumCuts, options: Options, _: Note) -> Answer:
    if not options.add and not options.remove:
        raise BadInput('nothing is to be changed; name links by --add U,V,W and --remove U,V')
    words = [link_of(word, 3, 'a link U,V,W: two names and a whole weight') for word in options.add]
    added = [(vertex_of(cuts, u), vertex_of(cuts, v), int(w) if w.isdecimal() else w) for u, v, w in words]
    words = [link_of(word, 2, 'a link U,V: two names') for word in options.remove]
    removed = [(vertex_of(cuts, u), vertex_of(cuts, v)) for u, v in words]
    return answers.comparison_answer(cuts.what_if(added, removed), added, removed)


def levels(cuts: MinimumCuts, options: Options, note: Note) -> Answer:
    found = cuts.levels(options.up_to, options.without_stubs)
    if options.without_stubs:
        names = shown([stub.source for stub in found.stubs])
        note(f'{counted(len(found.stubs), "vertex that hangs", "vertices that hang")} on one link taken off first' + (f': {names}' if names else ''))
    return answers.levels_answer(found, options.links)


def sites(cuts: MinimumCuts, options: Options, _: Note) -> Answer:
    found = cuts.sites(levels=not options.no_levels)
    return answers.sites_answer(cuts.value(), cuts.count(), found)


def links(cuts: MinimumCuts, _: Options, __: Note) -> Answer:
    found = cuts.cut_links()
    return answers.links_answer(cuts.value(), cuts.count(), found)


def failures(cuts: MinimumCuts, options: Options, _: Note) -> Answer:
    before = cuts.fastest().count(cuts.graph, options.time_limit)
    progress = None if options.quiet or not sys.stderr.isatty() else progress_line('links')
    return answers.failures_answer(*before, cuts.failures(options.processes, progress))


BY_JOB: dict[str, Callable[[MinimumCuts, Options, Note], Answer]] = {
    'value': value, 'count': count, 'cactus': cactus, 'cuts': lists, 'part': lists, 'balanced': balanced, 'grow': grow, 'augment': augment,
    'what-if': what_if, 'levels': levels, 'sites': sites, 'links': links, 'failures': failures}


# What they share

def program_of(options: Options) -> Program:
    return Program(options.program, options.workers)


def wants_links(options: Options) -> bool:
    return bool(options.links or options.style == 'json')


def vertex_of(cuts: MinimumCuts, word: str) -> Any:
    """The vertex with this name; a number where the names are numbers."""
    return int(word) if word not in cuts.place and word.isdecimal() and int(word) in cuts.place else word


def shown(names: Sequence[Any], most: int = SHOWN) -> str:
    """The names, the first of many."""
    text = ', '.join(map(str, names[:most]))
    return text if len(names) <= most else f'{text}, .. {len(names):,} in all'


def components_note(cuts: MinimumCuts) -> Optional[tuple[str, dict[str, Any]]]:
    """(a sentence, data) on the components of a graph that has several."""
    parts = sorted(cuts.components(), key=len, reverse=True)
    if len(parts) < 2:
        return None
    sizes = [len(part) for part in parts]
    told = shown(sizes) if len(parts) > SHOWN else f'{", ".join(map(str, sizes[:-1]))} and {sizes[-1]}'
    smaller = ', '.join(f'({shown(part)})' for part in parts[1:SHOWN]) if len(parts) > 2 else shown(parts[1])
    more = ', ..' if len(parts) > SHOWN else ''
    return (f'the graph has {len(parts):,} components, of {told} vertices; the smaller: {smaller}{more}',
            {'count': len(parts), 'sizes': sizes, 'smaller': parts[1:]})


def progress_line(what: str) -> Progress:
    """Writes how far a job is over one line of standard error, and takes the line away at the end."""
    def told(done: int, all_of_them: int) -> None:
        line = f'mincut-graph: {done:,} of {all_of_them:,} {what}'
        sys.stderr.write(f'\r{line}' if done < all_of_them else f'\r{" " * len(line)}\r')
        sys.stderr.flush()
    return told
