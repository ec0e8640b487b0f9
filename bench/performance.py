"""The made parts of the documents and the plots, from the files of bench/results.

A made part is between the lines `<!-- NAME: made by bench/measure.py -->` and `<!-- end of NAME -->`.
"""
import os
import statistics
import textwrap

import contenders
import plots
import results
import solve
from checks import running
from results import phrase, title

README, PAGE, CHANGING = 'README.md', 'docs/PERFORMANCE.md', 'docs/CONTRIBUTING.md'
README_FAMILIES = ('ring', 'torus', 'tetrahedra', 'attachment', 'random_unweighted', 'regular', 'network')
PLOTTED = ('ring', 'torus', 'grid', 'tree', 'tetrahedra', 'random_unweighted', 'random_dense', 'attachment', 'regular', 'hypercube',
           'ring_of_cliques', 'network')
JOBS = ('value', 'count', 'cactus')
SHORTENED = ('cactus', 'value')     # the jobs whose times with several workers are shown
STEEP = 1.2             # exponents of growth that are named
WIDTH = 118             # characters of a line
SLOW = 5                # how many of the slowest kinds are named
FASTER = 0.9            # if four workers take less of the time of one, the kind is named
NAMED = 4               # so many of these kinds at most
MILLION = (9e5, 1.1e6)  # about a million edges
NOTHING = ['*Not measured yet: `bench/measure.py` makes this part.*']
PLOTS = {
    'performance-value.svg': ('seconds of the processor', 'The job value and other programs, processor time by edges'),
    'performance-memory.svg': ('MB', 'The job value and other programs, peak memory by edges'),
    'performance-jobs.svg': ('seconds of the processor', 'The jobs value, count and cactus, processor time by edges'),
}


# What was measured

def rows_where(rows, **wanted):
    return [row for row in rows if all(row[column] == value for column, value in wanted.items())]


def families_in(rows):
    """The families, in the order of their titles."""
    measured = {row['family'] for row in rows}
    return [family for family in results.KINDS if family in measured]


def largest_of(rows, family):
    """The rows of the largest graph of a family."""
    some = rows_where(rows, family=family)
    return rows_where(some, edges=max(row['edges'] for row in some))


def own_row(rows, job, workers=1):
    """The row of a job of mincut, or None; of several sizes the first one."""
    return next(iter(rows_where(rows, contender='mincut', job=job, workers=workers)), None)


def figure(row, column):
    """What a row says in a column, or None if it has no answer."""
    return row[column] if row and row['outcome'] == 'done' else None


# Numbers and tables

def seconds(number):
    return f'{number:.3f}' if number < 0.1 else f'{number:.2f}' if number < 10 else f'{number:.1f}' if number < 100 else f'{number:.0f}'


def time_of(row, column='processor_s'):
    """The seconds of a row, or what came instead of an answer."""
    time = figure(row, column)
    return seconds(time) if time is not None else row['outcome'] if row else '–'


def memory_of(row):
    memory = figure(row, 'peak_mb')
    return f'{memory:,.0f}' if memory is not None else row['outcome'] if row else '–'


def ratio(row, other, column='clock_s'):
    """What the second row took of the time of the first, or None."""
    one, four = figure(row, column), figure(other, column)
    return None if one is None or four is None else four / one


def table(head, rows):
    marks = ['---', *['--:'] * (len(head) - 1)]
    return [f'|{"|".join(cells)}|' for cells in [head, marks, *rows]]


def paragraph(*sentences):
    """The lines of a paragraph."""
    return textwrap.wrap(' '.join(sentence for sentence in sentences if sentence), WIDTH, break_long_words=False, break_on_hyphens=False)


def listed(words):
    return words[0] if len(words) == 1 else f'{", ".join(words[:-1])} and {words[-1]}'


def peer_time(rows, names, about):
    """(least seconds of these peers, whose it is), or a word if none has an answer."""
    tried = [row for row in rows if row['contender'] in names and row['job'] == 'value']
    done = [row for row in tried if row['outcome'] == 'done']
    if done:
        best = min(done, key=lambda row: row['processor_s'])
        return seconds(best['processor_s']), best['contender']
    if any(row['outcome'] in ('over the limit', 'not tried') for row in tried):
        return f'> {about["limit_s"]}', ''
    return ('failed' if tried else '–'), ''


# The parts

def trial_words(about):
    """A warning if this is no measurement of the proved program at full size."""
    note = f': {about["note"]}' if about['note'] else ''
    return f'**This is a trial{note}, and no measurement of the proved program.**' if about['is_trial'] == 'yes' else ''


def about_part(found):
    """How, when and where it was measured."""
    about, rows = found[results.RUNS]
    busiest = max((row['others'] for row in rows if row['others'] is not None), default=0)
    machine = f'{about["processor"]}, {about["processors"]} processors, {about["memory_gib"]} GiB, {about["system"]}'
    load = f'{about["load_start"]} at the start and {about["load_end"]} at the end'
    return [*paragraph(trial_words(about), f'{about["program"]} with the crates of commit {about["commit"]}, on {about["date"]}: {machine}.',
                       f'The load was {load}, after {about["minutes"]} minutes.',
                       f'Other work kept at most {busiest:.1f} processors busy during any measurement.'), '',
            *paragraph(f'Compared with: {about["peers"] or "nothing"}. Programs in C++ were built by {about["compiler"]} with `{about["flags"]}`.',
                       f'All programs ran with `GLIBC_TUNABLES={about["tunables"]}`, as `./mincut` sets it.',
                       f'The least of {about["repetitions"]} runs counts, or of fewer if they take long.')]


def graphs_part(found):
    """The largest graph of each kind."""
    about, rows = found[results.RUNS]
    lines = []
    for family in families_in(rows):
        some = largest_of(rows, family)
        own = [own_row(some, job) for job in JOBS]
        time, name = peer_time(some, contenders.PEERS, about)
        memory = max((figure(row, 'peak_mb') or 0 for row in own), default=0)
        lines.append([title(family), f'{some[0]["vertices"]:,}', f'{some[0]["edges"]:,}', *map(time_of, own), f'{memory:.0f}',
                      f'{time} {name}'.strip()])
    return table(['Graph', 'Vertices', 'Edges', 'value, s', 'count, s', 'cactus, s', 'MB', 'best peer, s'], lines)


def shares(rows, job):
    """(share of the time of one worker that four take, family) by the clock, ascending; of runs that are not short."""
    found = []
    for family in families_in(rows):
        some = largest_of(rows, family)
        share = ratio(own_row(some, job), own_row(some, job, 4))
        if share is not None and figure(own_row(some, job), 'clock_s') >= solve.SHORTEST:
            found.append((share, family))
    return sorted(found)


def span(low, high):
    """Two shares of a range, or one if they are equal."""
    return f'{low:.2f}' if f'{low:.2f}' == f'{high:.2f}' else f'{low:.2f} to {high:.2f}'


def kinds(count):
    return '1 kind' if count == 1 else f'{count} kinds'


def share_words(all_shares):
    """Which part of the time of one worker four take on which kinds."""
    shorter = [(share, family) for share, family in all_shares if share < FASTER]
    rest = [share for share, _ in all_shares if share >= FASTER]
    named = [f'{share:.2f} on {phrase(family)}' for share, family in shorter[:NAMED]]
    if len(shorter) > NAMED:
        named.append(f'{span(shorter[NAMED][0], shorter[-1][0])} on {kinds(len(shorter) - NAMED)} more')
    if rest:
        which = 'the other ' if shorter else 'all ' if len(rest) > 1 else ''
        named.append(f'{span(rest[0], rest[-1])} on {which}{kinds(len(rest))}')
    return listed(named) if named else 'the runs are too short to tell'


def workers_words(found):
    """A sentence: how much of the time of one worker four take."""
    _, rows = found[results.RUNS]
    first, second = (f'`{job}` {share_words(shares(rows, job))}' for job in SHORTENED)
    return paragraph(f'Elapsed time with four workers, divided by that with one: {first}; {second}.')


def workers_part(found):
    """The sentence, and the jobs with 1, 2 and 4 workers, by the clock and in processor time."""
    _, rows = found[results.RUNS]
    lines = []
    for family in families_in(rows):
        some = largest_of(rows, family)
        cells = [title(family), time_of(own_row(some, 'reading'), 'clock_s')]
        for job in SHORTENED:
            own = [own_row(some, job, workers) for workers in (1, 2, 4)]
            cells += ['/'.join(time_of(row, column) for row in own) for column in ('clock_s', 'processor_s')]
        lines.append(cells)
    head = ['Graph', 'reading', *(f'{job}, {what}' for job in SHORTENED for what in ('clock', 'processor'))]
    return [*workers_words(found), '', *table(head, lines)]


def million_words(rows):
    """How long the graphs of about a million edges take."""
    some = [largest_of(rows, family) for family in families_in(rows)]
    some = [graph for graph in some if MILLION[0] <= graph[0]['edges'] <= MILLION[1]]
    times = {job: [time for graph in some if (time := figure(own_row(graph, job), 'processor_s')) is not None] for job in ('value', 'cactus')}
    if not all(times.values()):
        return ''
    middle, most = ([seconds(of(times[job])) for job in ('value', 'cactus')] for of in (statistics.median, max))
    return (f'With about a million edges `value` takes {middle[0]} s and `cactus` {middle[1]} s (median of {kinds(len(some))} of graphs), '
            f'at most {most[0]} s and {most[1]} s.')


def speed_part(found):
    """The seven rows of README."""
    about, rows = found[results.RUNS]
    lines = []
    for family in (name for name in README_FAMILIES if name in families_in(rows)):
        some = largest_of(rows, family)
        lemon, igraph = (peer_time(some, names, about)[0] for names in (('lemon-ni', 'lemon-ho'), ('igraph',)))
        lines.append([title(family), f'{some[0]["edges"]:,}', *(time_of(own_row(some, job)) for job in JOBS), lemon, igraph])
    limit, day = about['limit_s'], about['date'].split()[0]
    words = paragraph(f'Seconds of the processor with one worker, reading and printing included; {about["processor"]}, {day}.',
                      f'LEMON and igraph find the value alone; "> {limit}" means more than {limit} s, measured or foreseen from smaller graphs.')
    first = paragraph(trial_words(about), million_words(rows))
    return [*first, '', *table(['Graph', 'Edges', '`value`', '`count`', '`cactus`', 'LEMON', 'igraph'], lines), '', *words]


def memory_part(found):
    """Memory for each edge, in a line."""
    _, rows = found[results.RUNS]
    told = []
    for job in JOBS:
        own = [own_row(largest_of(rows, family), job) for family in families_in(rows)]
        each = sorted((row['peak_mb'] * 1e6 / row['edges'], row['family']) for row in own if figure(row, 'peak_mb'))
        if each:
            (least, low), (most, high) = each[0], each[-1]
            told.append(f'`{job}` needs {least:.0f} bytes for each edge ({phrase(low)}) to {most:.0f} ({phrase(high)})')
    return paragraph(f'At its peak, on the largest graph of each kind: {"; ".join(told)}.') if told else NOTHING


def points_of(rows, family, job, contender, column):
    some = [row for row in rows_where(rows, family=family, job=job, contender=contender, outcome='done') if row['workers'] in (1, None)]
    return [(row['edges'], row[column]) for row in some if row[column]]


def slow_part(found):
    """The kinds that take longest for each edge, and those whose time grows fastest."""
    _, rows = found[results.RUNS]
    each, steep = [], []
    for family in families_in(rows):
        row = own_row(largest_of(rows, family), 'cactus')
        time = figure(row, 'processor_s')
        if time:
            each.append((time * 1e6 / row['edges'], family))
        slopes = [solve.exponent(points_of(rows, family, job, 'mincut', 'processor_s')) for job in JOBS]
        steepest = max((slope for slope in slopes if slope is not None), default=0)
        if steepest > STEEP:
            steep.append(f'{phrase(family)} ({steepest:.2f})')
    slowest = [f'{phrase(family)} ({seconds(time)})' for time, family in sorted(each, reverse=True)[:SLOW]]
    growing = f'above {STEEP} on {", ".join(steep)}' if steep else f'at most {STEEP} on all kinds'
    return paragraph(f'Slowest for their size, in seconds of `cactus` for a million edges: {", ".join(slowest)}.',
                     f'Taken as a power of the number of edges, the time of the steepest of the three jobs has an exponent {growing}.')


def insertions_part(found):
    _, rows = found[results.INSERTIONS]
    lines = []
    for family in dict.fromkeys(row['family'] for row in rows):
        once, grown = (own_row(rows_where(rows, family=family), job) for job in ('cactus', 'grow'))
        times = figure(once, 'processor_s'), figure(grown, 'processor_s')
        each = '–' if None in times else f'{max(0, times[1] - times[0]) * 1e3 / grown["insertions"]:.2f}'
        lines.append([f'`{family}`', f'{once["edges"]:,}', time_of(once), time_of(grown), each])
    count = next((f'{row["insertions"]:,}' for row in rows if row['insertions']), '')
    return table(['Graph', 'Edges', '`cactus`, s', f'{count} insertions, s', 'each, ms'], lines)


def measured_apart(found, name):
    """A sentence on a measurement of another commit or on another processor than the main one."""
    about, main = found[name][0], found[results.RUNS][0]
    if not main or (about['commit'], about['processor']) == (main['commit'], main['processor']):
        return []
    return paragraph(f'Measured on {about["date"][:10]} with the crates of commit {about["commit"]}: {about["processor"]}, {about["processors"]} processors.')


def proving_rows(found):
    return {row['what']: row for row in found[results.PROVING][1]}


def proving_words(found):
    """How long the proofs take, for a reader who only checks."""
    about, rows = found[results.PROVING][0], proving_rows(found)
    first, gate = rows['first run'], rows['gate']
    return paragraph(f'On {first["processors"]} processors of {about["machine"]} the first takes about {first["clock_minutes"]} minutes, and the '
                     f'second about {gate["clock_minutes"]} from nothing.')


def gate_words(found):
    """Where the time of the gate goes."""
    rows = {what: row['processor_minutes'] for what, row in proving_rows(found).items()}
    return paragraph(f'Of about {rows["gate"]} processor minutes of the gate from nothing, {rows["proofs"]} go to proofs, {rows["tests"]} to tests and '
                     f'{rows["edits"]} to planted bugs.')


def calls_part(found):
    """The calls of the library on small graphs."""
    _, rows = found[results.CALLS]
    sizes = list(dict.fromkeys((row['vertices'], row['edges']) for row in rows))
    lines = []
    for name in dict.fromkeys(row['call'] for row in rows):
        times = {(row['vertices'], row['edges']): f'{row["microseconds"]:,.0f}' for row in rows_where(rows, call=name)}
        lines.append([name, *(times.get(size, '–') for size in sizes)])
    head = ['Vertices/edges', *(f'{n:,}/{m:,}' for n, m in sizes)]
    return [*table(head, lines), '', *measured_apart(found, results.CALLS)]


def large_part(found):
    """The largest graphs that the program takes."""
    _, rows = found[results.LARGEST]
    lines = []
    for family in dict.fromkeys(row['family'] for row in rows):
        for job in JOBS:
            own = [own_row(rows_where(rows, family=family), job, workers) for workers in (1, 2, 4)]
            lines.append([family, f'`{job}`', time_of(own[0]), *(time_of(row, 'clock_s') for row in own), memory_of(own[0])])
    return [*table(['Graph', 'Job', 'processor, s', '1 worker, s', '2 workers, s', '4 workers, s', 'MB'], lines), '',
            *measured_apart(found, results.LARGEST)]


# Plots

def plotted(rows, name):
    """The small plots of a picture: {title: {line: points}}."""
    families = [family for family in PLOTTED if family in families_in(rows)]
    if name == 'performance-jobs.svg':
        return {title(family): {job: points_of(rows, family, job, 'mincut', 'processor_s') for job in JOBS} for family in families}
    column = 'peak_mb' if name == 'performance-memory.svg' else 'processor_s'
    names = ('mincut', *contenders.PEERS)
    return {title(family): {name: points_of(rows, family, 'value', name, column) for name in names} for family in families}


def picture(found, name):
    titles = {name: peer.title for name, peer in contenders.PEERS.items()}
    return plots.picture(plotted(found[results.RUNS][1], name), titles, PLOTS[name][0])


# The documents

PARTS = {
    README: {'speed': (results.RUNS, speed_part), 'workers': (results.RUNS, workers_words), 'proving': (results.PROVING, proving_words)},
    CHANGING: {'proving': (results.PROVING, gate_words)},
    PAGE: {'about': (results.RUNS, about_part), 'graphs': (results.RUNS, graphs_part), 'memory': (results.RUNS, memory_part),
           'workers': (results.RUNS, workers_part), 'slow': (results.RUNS, slow_part), 'insertions': (results.INSERTIONS, insertions_part),
           'large': (results.LARGEST, large_part), 'calls': (results.CALLS, calls_part)},
}


def with_part(text, name, lines):
    """The text with the lines of a part put between its marks; None if the marks are not there once each."""
    head, end = f'<!-- {name}: made by bench/measure.py -->\n', f'<!-- end of {name} -->'
    if text.count(head) != 1 or text.count(end) != 1:
        return None
    before, after = text.split(head)
    return before + head + '\n'.join(lines) + '\n' + end + after.split(end)[1]


def document(path, found):
    """(the text of a document with all its parts, what is wrong with it)"""
    with open(os.path.join(running.TOP, path), encoding='utf-8') as file:
        text = file.read()
    wrong = []
    for name, (source, part) in PARTS[path].items():
        made = with_part(text, name, part(found) if found[source][1] else NOTHING)
        if made is None:
            wrong.append(f'{path} has no part {name}, or more than one')
        text = made or text
    return text, wrong


def made_files(folder):
    """({path: text} of all documents and plots as the results give them, what is wrong)"""
    found = {name: results.read(folder, name) for name in results.COLUMNS}
    # the largest graphs and the calls are measured by themselves, and say of what commit
    commits = {found[name][0]['commit'] for name in (results.RUNS, results.INSERTIONS) if found[name][0]}
    files, wrong = {}, [f'the results are of several commits: {", ".join(sorted(commits))}'] if len(commits) > 1 else []
    for path in PARTS:
        files[path], faults = document(path, found)
        wrong += faults
    files.update((f'docs/{name}', picture(found, name)) for name in PLOTS)
    return files, wrong


def told(wrong):
    for text in wrong:
        print(text)
    return 1 if wrong else 0


def write(folder):
    """Writes the documents and plots; returns the status."""
    files, wrong = made_files(folder)
    for path, text in files.items():
        with open(os.path.join(running.TOP, path), 'w', encoding='utf-8') as out:
            out.write(text)
    return told(wrong)


def content(path):
    place = os.path.join(running.TOP, path)
    if not os.path.exists(place):
        return ''
    with open(place, encoding='utf-8') as file:
        return file.read()


def check(folder):
    """Says which documents and plots are not what the results give; returns the status."""
    files, wrong = made_files(folder)
    stale = [path for path, text in files.items() if content(path) != text]
    return told(wrong + [f'{path} is not what bench/results gives: bench/measure.py --write' for path in stale])
