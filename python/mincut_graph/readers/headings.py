"""Which columns hold the ends of an edge and its weight, by the names that systems give them."""
from __future__ import annotations

import re
from collections.abc import Iterable, Sequence
from typing import NamedTuple, Optional

WORDS = {('from', 'to'), ('source', 'target'), ('source', 'destination'), ('source', 'dest'), ('source', 'sink'), ('src', 'dst'),
         ('src', 'dest'), ('src', 'tgt'), ('src', 'trg'), ('start', 'end'), ('begin', 'end'), ('origin', 'destination'), ('orig', 'dest'),
         ('local', 'remote'), ('near', 'far'), ('head', 'tail'), ('tail', 'head'), ('first', 'second'), ('parent', 'child')}
LETTERS = {('a', 'b'), ('a', 'z'), ('u', 'v'), ('i', 'j'), ('s', 't'), ('f', 't')}
NUMBERS = {('1', '2'), ('0', '1')}
# What may be numbered: of other things two numbered columns are no ends, as metric1 and metric2.
NUMBERED = {'node', 'site', 'vertex', 'v', 'n', 'id', 'router', 'device', 'switch', 'host', 'city', 'station', 'stop', 'end', 'endpoint', 'point',
            'name', 'place', 'person', 'actor', 'author', 'pop', 'ne', 'bus', 'protein', 'gene', 'as', 'asn', 'location', 'interactor', 'junction',
            'airport', 'country', 'user', 'entity', 'element', 'object', 'label', 'ends', 'from', 'to', 'terminal', 'equipment', 'substation'}
# What an end has beside its name: of these no pair is a pair of ends.
BESIDE = {'port', 'ports', 'interface', 'intf', 'if', 'ifname', 'lat', 'lon', 'lng', 'latitude', 'longitude', 'x', 'y', 'type', 'kind', 'ip', 'ipv4',
          'ipv6', 'mac', 'address', 'slot', 'card', 'vlan', 'role', 'rack', 'room', 'floor', 'speed', 'date', 'time', 'cost', 'metric', 'length',
          'cap', 'capacity', 'bandwidth', 'weight', 'degree', 'mask', 'status', 'color', 'colour', 'width', 'depth', 'elevation', 'arrow', 'mtu',
          'termination', 'terminations',          'year', 'month', 'day', 'hour', 'timestamp', 'valid', 'created', 'updated'}
WEIGHTS = ('weight', 'capacity', 'cap', 'bandwidth', 'w')
UNITS = {'kbps', 'mbps', 'gbps', 'tbps', 'bps', 'kbit', 'mbit', 'gbit', 'tbit', 'bit', 'gb', 'mb', 'g', 'm', 'k', 's', 'sec', 'gbits', 'mbits', 'mw',
         'mva', 'kw'}


class Ends(NamedTuple):
    """A pair of columns that may be the ends of an edge. `words`: what tells the two names apart. `plain`: they say nothing else."""
    source: int
    target: int
    words: tuple[str, str]
    plain: bool

    @property
    def short(self) -> bool:
        """Whether the names are one letter each, which may well be names of vertices."""
        return self.plain and len(self.words[0]) == 1


def words_in(name: str) -> list[str]:
    """The words of a name in small letters, as ['site', 'a'] for siteA, SITE_A and 'Site A'."""
    apart = re.sub(r'(?<=[a-z])(?=[A-Z])', ' ', name)
    return re.findall(r'[^\W\d_]+|\d+', apart.lower())


def ends_in(columns: Sequence[str]) -> list[Ends]:
    """All pairs of columns with names as those of ends; of several that speak of the same ends, as source and source_id, the plain one."""
    words = [words_in(name) for name in columns]
    found: list[Ends] = []
    for i, first in enumerate(words):
        for j, second in enumerate(words):
            kind = None if i == j or any((j, i) == ends[:2] for ends in found) else pair(first, second)
            if kind is not None:
                found.append(Ends(i, j, *kind))
    plain = {ends.words for ends in found if ends.plain}
    return [ends for ends in found if ends.plain or ends.words not in plain]


def pair(first: list[str], second: list[str]) -> Optional[tuple[tuple[str, str], bool]]:
    """(words, plain) as in `Ends` where the two names are those of two ends, in this order; else None."""
    apart = [k for k, (one, other) in enumerate(zip(first, second)) if one != other]
    if len(first) != len(second) or len(apart) != 1:
        return None
    words = first[apart[0]], second[apart[0]]
    rest = first[:apart[0]] + first[apart[0] + 1:]
    if not BESIDE.isdisjoint(rest):
        return None
    if words in NUMBERS:
        known = bool(rest) and NUMBERED.issuperset(rest)
    else:
        known = words in LETTERS or words in WORDS or not rest and joined(*words)
    return (words, not rest and (words in LETTERS or words in WORDS)) if known else None


def joined(one: str, other: str) -> bool:
    """Whether these are names of ends written as one word, as fromnode and tonode, or sitea and siteb."""
    for first, second in WORDS | LETTERS:
        before, after = one[len(first):], one[:-len(first)]
        if len(before) > 1 and one == first + before and other == second + before and before not in BESIDE and (len(first) > 1 or before in NUMBERED):
            return True
        if len(after) > 1 and one == after + first and other == after + second and after not in BESIDE and (len(first) > 1 or after in NUMBERED):
            return True
    return False


def weights_in(columns: Iterable[str]) -> list[str]:
    """Those of the names that are usual for a weight, as Weight, capacity or bandwidth_gbps."""
    return [name for name in columns if is_weight(words_in(name))]


def is_weight(words: list[str]) -> bool:
    return bool(words) and words[0] in WEIGHTS and all(word in UNITS for word in words[1:])


def quoted(names: Iterable[object]) -> str:
    return ', '.join(repr(name) for name in names)


def one_weight(columns: Iterable[str]) -> Optional[str]:
    """The name in `columns` that is usual for a weight, or None; raises ValueError, with the names, where there are several."""
    found = weights_in(columns)
    if len(found) > 1:
        raise ValueError(quoted(found))
    return found[0] if found else None
