#!/usr/bin/env python3
"""Writes crates/README.md by crates.txt and the heads of the crates: one row for each crate, with what it is, where to begin reading it,
and which crates call it.

usage: list_crates.py [--check]    --check: writes nothing; ends with 1 if the page is not up to date
"""
import os
import re
import sys

from made_pages import ROOT, run

PAGE = 'crates/README.md'
# So many callers are named; if there are more, how many they are.
MOST_CALLERS = 10
# The file in the src/ of each crate to begin with, if that is not its lib.rt or main.rt.
BEGINNINGS = {
    'outside': 'source', 'cut_definitions': 'edge_list', 'vertex_set': 'side', 'vertex_classes': 'classes', 'metis_reader': 'reader',
    'graph_maker': 'rings', 'weighted_graph': 'graph', 'component_cuts': 'edge_classes', 'capped_scan': 'capped',
    'edge_certificates': 'heavy', 'row_ranges': 'graphs', 'arc_search': 'step_arcs', 'region_fronts': 'fronts', 'region_flow': 'regions',
    'least_cut': 'sweep', 'forest_contraction': 'shrinking', 'scan_core': 'played', 'mark_board': 'marks', 'round_contract': 'classes',
    'round_workers': 'one_round', 'worker_team': 'team', 'vertex_order': 'renumbering', 'min_value': 'by_list', 'rooted_cactus': 'cactus',
    'cactus_walk': 'walk', 'flat_cactus': 'flat', 'node_tree': 'tree', 'certified_growth': 'kernel', 'region_parts': 'split',
    'region_sweep': 'sweep', 'cactus_solver': 'by_list', 'cut_listing': 'lister', 'balanced_cut': 'weighed', 'tree_flattening': 'making',
    'cactus_growth': 'insertion', 'edge_augment': 'augmenting', 'answer_pages': 'text', 'edge_arrays': 'arrays', 'mincut_c': 'values',
    'program_words': 'command', 'stop_lines': 'stop', 'job_replies': 'intake', 'mincut_program': 'program', 'scan_forest': 'by_phases',
    'max_flow': 'flow', 'residual_chain': 'across', 'cactus_merge': 'part', 'cactus_text': 'reading', 'value_tests': 'sets',
    'tree_tests': 'chains', 'program_tests': 'answers',
}
HEAD = """# The crates

One row for each crate, in the order of crates.txt: what it is, the file in its `src/` to begin with, and the crates that call it.
What a crate promises is in the contracts of its public calls. [docs/CONTRIBUTING.md](../docs/CONTRIBUTING.md) has the way from a list of
edges to the tree of the minimum cuts. `tools/list_crates.py` writes this page.
"""


def read(path):
    with open(f'{ROOT}/{path}', encoding='utf-8') as file:
        return file.read()


def layers():
    """The titles of crates.txt, each with the crates below it and the libraries that these name."""
    found = []
    for line in read('crates.txt').splitlines()[1:]:
        if line.startswith('#'):
            found.append((line.lstrip('# '), line.startswith('####'), {}))
        elif ':' in line:
            head, _, uses = line.partition(':')
            found[-1][2][head.split()[0]] = uses.split()
    return found


def what(crate):
    """The first sentence of the head of a crate."""
    root = f'crates/{crate}/src/lib.rt'
    root = root if os.path.exists(f'{ROOT}/{root}') else f'crates/{crate}/src/main.rt'
    head = ' '.join(line[3:].strip() for line in re.match(r'(//!.*\n)*', read(root))[0].splitlines())
    return re.match(r'.*?[.](?= |$)', head)[0].replace('|', r'\|')


def beginning(crate):
    """The file to begin with, below the folder of the crate."""
    names = [BEGINNINGS.get(crate, 'lib'), 'lib', 'main']
    return next(f'src/{name}.rt' for name in names if os.path.exists(f'{ROOT}/crates/{crate}/src/{name}.rt'))


def page():
    below = {crate: uses for _, _, crates in layers() for crate, uses in crates.items()}
    rows = [HEAD]
    for title, is_half, crates in layers():
        rows.append(f'{"##" if is_half else "###"} {title}\n')
        if crates:
            rows.append('| Crate | What it is | Begin with | Called by |\n|---|---|---|---|')
        for crate in crates:
            calling = [f'`{other}`' for other, uses in below.items() if crate in uses and not other.endswith('_tests')]
            callers = ', '.join(calling) if len(calling) <= MOST_CALLERS else f'{len(calling)} crates'
            file = beginning(crate)
            rows.append(f'| `{crate}` | {what(crate)} | [{os.path.basename(file)}]({crate}/{file}) | {callers} |')
        if crates:
            rows.append('')
    return '\n'.join(rows).rstrip() + '\n'


if __name__ == '__main__':
    sys.exit(run(PAGE, page()))
