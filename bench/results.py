"""The files of bench/results. The first line of each says what was measured, when and on which machine: `# name=text; name=text ..`.
The second line names the columns."""
import csv
import os

RUNS, INSERTIONS, LARGEST, CALLS, PROVING = 'runs', 'insertions', 'largest', 'calls', 'proving'
RUN_COLUMNS = ('family', 'vertices', 'edges', 'job', 'contender', 'workers', 'outcome', 'value', 'count', 'processor_s', 'clock_s', 'search_s',
               'peak_mb', 'runs', 'load_start', 'load_end', 'others', 'error')
COLUMNS = {RUNS: RUN_COLUMNS, INSERTIONS: (*RUN_COLUMNS, 'insertions'), LARGEST: RUN_COLUMNS, CALLS: ('call', 'vertices', 'edges', 'microseconds'),
           PROVING: ('what', 'processors', 'clock_minutes', 'processor_minutes')}
WHOLE = {'vertices', 'edges', 'workers', 'value', 'count', 'runs', 'insertions', 'processors', 'clock_minutes', 'processor_minutes'}
FRACTIONS = {'processor_s': 4, 'clock_s': 4, 'search_s': 4, 'peak_mb': 1, 'load_start': 2, 'load_end': 2, 'others': 2, 'microseconds': 1}

# The families that are measured: what a table and what a sentence calls their graphs.
KINDS = {
    'ring': ('ring', 'rings'),
    'torus': ('square torus', 'square tori'),
    'grid': ('square grid', 'square grids'),
    'tree': ('random tree', 'random trees'),
    'tetrahedra': ('mesh of tetrahedra', 'meshes of tetrahedra'),
    'random_unweighted': ('random, 8 edges per vertex', 'random graphs with 8 edges per vertex'),
    'random_sparse': ('random, 3 edges per vertex, weights', 'random weighted graphs'),
    'random_dense': ('half of all pairs, weights', 'dense weighted graphs'),
    'dense_clusters': ('two dense clusters, weights', 'dense weighted clusters'),
    'attachment': ('preferential attachment', 'preferential attachment'),
    'cubic': ('random of degree 3', 'random graphs of degree 3'),
    'regular': ('random of degree 4', 'random graphs of degree 4'),
    'hypercube': ('hypercube, weights, shuffled', 'weighted hypercubes'),
    'tree_of_cliques': ('tree of cliques', 'trees of cliques'),
    'ring_of_cliques': ('ring of cliques', 'rings of cliques'),
    'network': ("planner's network", "planners' networks"),
    'ring_lattice': ('closed band, shuffled', 'shuffled closed bands'),
}


def title(family):
    return KINDS[family][0]


def phrase(family):
    return KINDS[family][1]


def path_of(folder, name):
    return os.path.join(folder, f'{name}.csv')


def header_of(about):
    return '# ' + '; '.join(f'{name}={str(text).replace(";", ",")}' for name, text in about.items())


def shown(column, value):
    """A cell: empty if there is no value."""
    if value is None:
        return ''
    return f'{value:.{FRACTIONS[column]}f}' if column in FRACTIONS else str(value)


def number(column, text):
    if text == '':
        return None
    return int(text) if column in WHOLE else float(text) if column in FRACTIONS else text


def write(folder, name, about, rows):
    os.makedirs(folder, exist_ok=True)
    columns = COLUMNS[name]
    with open(path_of(folder, name), 'w', newline='') as file:
        file.write(header_of(about) + '\n')
        out = csv.writer(file, lineterminator='\n')
        out.writerow(columns)
        out.writerows([shown(column, row[column]) for column in columns] for row in rows)


def read(folder, name):
    """(what the first line says, the rows); both are empty if there is no such file."""
    if not os.path.exists(path_of(folder, name)):
        return {}, []
    with open(path_of(folder, name), newline='') as file:
        about = dict(part.split('=', 1) for part in file.readline().removeprefix('# ').rstrip('\n').split('; '))
        rows = [{column: number(column, text) for column, text in row.items()} for row in csv.DictReader(file)]
    return about, rows
