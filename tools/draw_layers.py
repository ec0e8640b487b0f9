#!/usr/bin/env python3
"""Draws the layers of crates.txt: the crates of each, and which other layers they use. Crates beside the program have a colour of their
own, and so has what is trusted.

usage: draw_layers.py [--check]    --check: writes nothing; ends with 1 if the picture is not up to date
"""
import sys
from html import escape

from made_pages import ROOT, run

PICTURE = 'docs/layers.svg'
WIDTH, LEFT, LETTER, BOX, GAP = 980, 14, 7.1, 24, 8
# What is trusted beside the contracts of the toolchain's libraries.
FOUNDATION = ['logic and prover', 'compiler', 'C library and system calls', 'processor']
# Crates that reach what no contract speaks of, and what no crate has.
TRUSTED, BINDINGS = {'outside', 'mincut'}, {'Library': ['bindings in C, C++ and Rust']}


def layers():
    """The title of each layer, its crates, the layers, by their number, that they use, and whether it is beside the program."""
    found, layer_of, half = [], {}, 0
    with open(f'{ROOT}/crates.txt', encoding='utf-8') as file:
        for line in list(file)[1:]:
            if line.startswith('####'):
                half += 1
            elif line.startswith('#'):
                found.append((line[1:].partition(':')[0].strip(), [], set(), half > 1))
            elif ':' in line:
                head, _, uses = line.partition(':')
                name = head.split()[0]
                layer_of[name] = len(found) - 1
                found[-1][1].append(name)
                found[-1][2].update(layer_of[used] for used in uses.split() if used in layer_of)
    return found


def toolchain_libraries():
    """The libraries that crates name and that are no crates of this repository, in the order of their names."""
    with open(f'{ROOT}/crates.txt', encoding='utf-8') as file:
        lines = [line.partition(':') for line in file if ':' in line and not line.startswith('#')]
    return sorted({used for _, _, uses in lines for used in uses.split()} - {head.split()[0] for head, _, _ in lines})


def boxes_of(names, top):
    """The boxes of some names, in as many lines as they take, and where these end."""
    boxes, x, y = [], LEFT + 12, top
    for name, kind in names:
        width = len(name) * LETTER + 16
        if x + width > WIDTH - LEFT - 12:
            x, y = LEFT + 12, y + BOX + GAP
        boxes.append(f'<rect x="{x:.0f}" y="{y}" width="{width:.0f}" height="{BOX}" rx="4" class="{kind}"/>'
                     f'<text x="{x + 8:.0f}" y="{y + 16}" class="name">{escape(name)}</text>')
        x += width + GAP
    return boxes, y + BOX + 12


def layer(title, remark, kind, names, start):
    """One layer, and where it ends."""
    boxes, top = boxes_of(names, start + 34)
    return [f'<rect x="{LEFT}" y="{start}" width="{WIDTH - 2 * LEFT}" height="{top - start}" rx="6" class="{kind}"/>',
            f'<text x="{LEFT + 12}" y="{start + 22}" class="title">{escape(title)}</text>',
            f'<text x="{WIDTH - LEFT - 12}" y="{start + 22}" class="uses">{escape(remark)}</text>', *boxes], top + GAP


def drawn(found):
    libraries = f'contracts of std, {", ".join(toolchain_libraries())}'
    parts, top = layer('Trusted', 'not proved here; the boxes of this colour further down are trusted too', 'trust',
                       [(name, 'trusted') for name in [*FOUNDATION, libraries]], 12)
    for number, (title, names, uses, is_beside) in enumerate(found):
        below = [found[other][0] for other in sorted(uses - {number})]
        used = f'uses {", ".join(below)}' if below else 'uses the toolchain alone'
        boxes = [(name, 'trusted' if name in TRUSTED else 'crate') for name in names] + [(name, 'trusted') for name in BINDINGS.get(title, [])]
        drawing, top = layer(title, used, 'beside' if is_beside else 'layer', boxes, top)
        parts += drawing
    style = ('.layer{fill:#f4f6f8;stroke:#c3ccd5}.beside{fill:#fbf3e4;stroke:#d9c08c}.trust{fill:#fdf1ef;stroke:#dba79f}'
             '.crate{fill:#fff;stroke:#5b7083}.trusted{fill:#f7c9c2;stroke:#b0554a}.title{font:bold 14px sans-serif;fill:#1d2b36}'
             '.uses{font:12px sans-serif;fill:#5b7083;text-anchor:end}.name{font:12px monospace;fill:#1d2b36}')
    head = f'<svg xmlns="http://www.w3.org/2000/svg" viewBox="0 0 {WIDTH} {top + 4}" role="img" aria-label="The layers of crates, and what is trusted">'
    return '\n'.join([head, f'<style>{style}</style>', *parts, '</svg>', ''])


def picture():
    return drawn(layers())


if __name__ == '__main__':
    sys.exit(run(PICTURE, picture()))
