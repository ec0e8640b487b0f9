"""What the program says of a text that is no graph, as sentences; docs/REFERENCE.md lists them."""
from __future__ import annotations

import re
from typing import Optional

FAULTS = {
    'NoHeader': 'has no header; the first line is `vertices edges`, as 4 5',
    'HeaderWords': 'the header has to be `vertices edges [format [weights]]`, two to four numbers',
    'BadNumber': 'a word is no whole number from 0 up; METIS text has whole numbers alone',
    'BadFormat': 'the third word of the header, the format, is one to three digits, each 0 or 1',
    'TooManyVertices': 'the graph has more than 4,194,304 vertices, the limit of the program',
    'TooManyEdges': 'the graph has more than 16,777,216 edges, the limit of the program',
    'BadConstraints': 'the fourth word of the header, the number of weights of a vertex, has to be 1 to 32',
    'NeighbourRange': 'a neighbour is no vertex: it has to be 1 or more, and at most the number of vertices in the header',
    'SelfLoop': 'the vertex is its own neighbour; leave loops out',
    'ZeroWeight': 'an edge weighs 0; leave such edges out',
    'WordMissing': 'a number is missing at the end of the line; the format in the header says which a line has',
    'TooManyEntries': 'the file has more edges than its header says; each stands in the lines of both ends and counts once',
    'TooFewEntries': 'the file has fewer edges than its header says; each stands in the lines of both ends and counts once',
    'ExtraLine': 'the file has more lines than its header says vertices',
    'WeightSum': 'the weights add up to more than 2^61; divide all by a common divisor, or round them',
    'InputTooLong': 'the file has more than 8 GB, the limit of the program',
    'MissingLines': 'the file has fewer lines than its header says vertices; one without neighbours has a blank line',
    'Repeated': 'a neighbour stands twice in the line; add the two weights up',
    'Unsymmetric': 'an edge of this vertex does not stand in both lines with the same weight; it has to stand in the line of each end',
}


def sentence(kind: str, line: int) -> str:
    """The fault and where it is, as 'line 3: an edge weighs 0; ..'."""
    return f'line {line}: {FAULTS.get(kind, kind)}'


def told(words: str) -> Optional[str]:
    """The sentence for a line of the program, as `refused: ZeroWeight at line 3`; None for another line."""
    found = re.fullmatch(r'refused: (\w+) at line (\d+)', words.strip())
    return sentence(found[1], int(found[2])) if found else None
