"""Tests the C library that `./library PREFIX` built, against the program and against answers by trying all cuts.

    tools/check library PREFIX [--program PATH] [--graphs N] [--calls N] [--quick]

It compiles the tests of bindings/c/tests against the library, those of mincut.hpp by C++17 and C++20, and the shim anew under the address and
undefined sanitizers; runs them, the small ones under valgrind and helgrind where these are there; makes each allocation of a call fail in turn; runs --calls random
graphs with faults in them in-process; compares value, one cut, several light cuts, number, sides, lists of them, a most balanced cut and an augmentation on --graphs random
multigraphs with the program, and the components with those by hand; weighs one cut and several of a graph of each family; compiles and runs the examples; and has
cargo test the Rust crate. --quick leaves out valgrind and cargo.
"""
import argparse
import ctypes
import itertools
import os
import random
import shutil
import subprocess
import sys
import tempfile
from ctypes import byref, c_size_t, c_uint32, c_uint64

from .. import cactuses, metis, running
from ..families import FAMILIES
from ..graphs import graph_of

ROOT = running.TOP
TESTS = f'{ROOT}/bindings/c/tests'
SANITIZERS = ('-fsanitize=address,undefined', '-fno-sanitize-recover=all')
FAMILY_EDGES = 3000   # enough that the library contracts a graph by forests


def run(*words, **more):
    """Runs a command that has to end with status 0, and answers what it printed."""
    done = subprocess.run(words, stdout=subprocess.PIPE, stderr=subprocess.STDOUT, text=True, **more)
    if done.returncode != 0:
        sys.exit(f'{" ".join(words)} ended with status {done.returncode}\n{done.stdout}')
    return done.stdout


def told(text):
    print(text, flush=True)


class Built:
    """Programs that are linked with the library."""

    def __init__(self, prefix, room):
        self.prefix, self.room = prefix, room
        self.archive = f'{prefix}/lib/libmincut.a'

    def compile(self, source, name, *flags, compiler='cc'):
        target = f'{self.room}/{name}'
        run(compiler, '-g', '-O1', '-Wall', '-Wextra', '-Werror', f'-I{self.prefix}/include', source, self.archive, *flags, '-o', target)
        return target

    def test(self, name, *flags, suffix=''):
        return self.compile(f'{TESTS}/{name}.c', name + suffix, *flags)


def check_calls(built, calls, quick):
    told(f'calls: {run(built.test("calls")).strip()}')
    told(f'calls under sanitizers: {run(built.test("calls", *SANITIZERS, suffix="_san")).strip()}')
    told(f'places: {run(built.test("places"), str(max(calls // 100, 1000))).strip()}')
    for standard in ('c++17', 'c++20'):
        wrapper = built.compile(f'{TESTS}/wrapper.cpp', f'wrapper_{standard}', f'-std={standard}', *SANITIZERS, compiler='c++')
        told(f'mincut.hpp by {standard}: {run(wrapper).strip()}')
    wrap = '-Wl,--wrap=malloc,--wrap=realloc,--wrap=free'
    told(f'allocations: {run(built.test("memory", wrap)).strip()}')
    told(f'threads: {run(built.test("threads", "-pthread")).strip()}')
    told(f'faults: {run(built.test("mutate"), str(calls)).strip()}')
    told(f'faults under sanitizers: {run(built.test("mutate", *SANITIZERS, suffix="_san"), str(calls // 10), "4711").strip()}')
    if quick or not shutil.which('valgrind'):
        return
    strict = ('valgrind', '-q', '--error-exitcode=9', '--leak-check=full', '--errors-for-leak-kinds=all')
    told(f'calls under valgrind: {run(*strict, built.test("calls")).strip()}')
    told(f'faults under valgrind: {run(*strict, built.test("mutate"), str(max(calls // 1000, 300)), "815").strip()}')
    told(f'threads under helgrind: {run("valgrind", "-q", "--tool=helgrind", "--error-exitcode=9", built.test("threads", "-pthread")).strip()}')


def check_exports(prefix):
    """The shared library shows the names of the version script and no other, and so does the archive."""
    with open(f'{ROOT}/bindings/c/mincut.map', encoding='utf-8') as file:
        interface, *names = file.read().replace(';', ' ').split()
    wanted = set(names) - {'{', '}', 'global:', 'local:', '*'}
    shown = {line.split()[-1].split('@')[0] for line in run('nm', '-D', '--defined-only', f'{prefix}/lib/libmincut.so').splitlines()} - {interface}
    held = {line.split()[-1] for line in run('nm', '-g', '--defined-only', f'{prefix}/lib/libmincut.a').splitlines() if len(line.split()) == 3}
    needed = {line.split()[-1].split('@')[0] for line in run('nm', '-D', '--undefined-only', f'{prefix}/lib/libmincut.so').splitlines() if ' w ' not in line}
    if shown != wanted or held != wanted:
        sys.exit(f'exports differ: {shown ^ wanted} {held ^ wanted}')
    told(f'{len(shown)} exports; taken from elsewhere: {" ".join(sorted(needed))}')


class Bridge(ctypes.Structure):
    _fields_ = [('upper', c_uint64), ('lower', c_uint64)]


class Balance(ctypes.Structure):
    _fields_ = [('value', c_uint64), ('balance', c_uint64)]


class Listing(ctypes.Structure):
    _fields_ = [('value', c_uint64), ('sides', c_uint64)]


class Raise(ctypes.Structure):
    _fields_ = [('value', c_uint64), ('edges', c_size_t), ('sets', c_size_t)]


class Sizes(ctypes.Structure):
    _fields_ = [('value', c_uint64)] + [(name, c_size_t) for name in ('nodes', 'vertices', 'bridges', 'cycles', 'members')]


def lists_of(items, starts, count, total):
    ends = [*starts[1:count], total]
    return [list(items[starts[i]:ends[i]]) for i in range(count)]


def asked(library, n, u, v, w):
    """The value, the number of minimum cuts, and the sides of the cactus; the latter two are None where the graph is not connected."""
    m = len(u)
    graph = (c_uint32(n), c_size_t(m), (c_uint32 * m)(*u), (c_uint32 * m)(*v), (c_uint64 * m)(*w))
    value, count, sizes = c_uint64(), c_uint64(), Sizes()
    assert library.mincut_value(*graph, byref(value)) == 0
    starts, vertices, bridges = (c_size_t * (2 * n))(), (c_uint32 * n)(), (Bridge * (2 * n))()
    cycles, members, node_of = (c_size_t * n)(), (c_uint64 * (3 * n))(), (c_uint64 * n)()
    status = library.mincut_cactus(*graph, byref(sizes), starts, vertices, bridges, cycles, members)
    assert library.mincut_count(*graph, byref(count)) == status
    if status == 8:
        assert value.value == 0
        return 0, None, None
    assert status == 0 and sizes.value == value.value and sizes.nodes <= 2 * n - 2
    library.mincut_node_of(byref(sizes), starts, vertices, node_of)
    nodes = lists_of(vertices, starts, sizes.nodes, sizes.vertices)
    assert sorted(itertools.chain(*nodes)) == list(range(n))
    assert all(v in nodes[node_of[v]] for v in range(n))
    pairs = [(b.upper, b.lower) for b in bridges[:sizes.bridges]]
    return value.value, count.value, sides_of(nodes, pairs, lists_of(members, cycles, sizes.cycles, sizes.members))


def components_differ(library, n, u, v, w):
    """Whether the components are not those by joining one edge after another, numbered by their least vertices."""
    m, count, component_of = len(u), c_uint32(), (c_uint32 * n)()
    assert library.mincut_components(c_uint32(n), c_size_t(m), (c_uint32 * m)(*u), (c_uint32 * m)(*v), (c_uint64 * m)(*w), byref(count),
                                     component_of) == 0
    least = list(range(n))
    for a, b, weight in zip(u, v, w):
        if weight:
            low, high = sorted((least[a], least[b]))
            least = [low if x == high else x for x in least]
    firsts = sorted(set(least))
    return count.value != len(firsts) or list(component_of) != [firsts.index(x) for x in least]


def cut_differs(library, n, u, v, w, value):
    """Whether the side of one cut, without a bound or below one, is not that of a cut of this weight; or a bound that the value reaches, or a
    fault, changes what it should not."""
    m = len(u)
    edges = (c_size_t(m), (c_uint32 * m)(*u), (c_uint32 * m)(*v), (c_uint64 * m)(*w))

    def answer(count, *bound):
        least, inside = c_uint64(77), (ctypes.c_uint8 * (n + 1))(*[7] * (n + 1))
        call = library.mincut_cut_below if bound else library.mincut_cut
        status = call(c_uint32(count), *edges, *map(c_uint64, bound), byref(least), inside)
        return status, least.value, list(inside)

    def is_cut(told):
        status, least, inside = told
        is_side = inside[0] == 0 and inside[n] == 7 and set(inside[:n]) == {0, 1}
        return (status, least) == (0, value) and is_side and sum(x for a, b, x in zip(u, v, w) if inside[a] != inside[b]) == value

    left = [7] * (n + 1)
    return not (is_cut(answer(n)) and all(is_cut(answer(n, bound)) for bound in (value + 1, 2 * value + 5, (1 << 64) - 1))
                and all(answer(n, bound) == (0, bound, left) for bound in {0, value // 2, value})
                and (not u or answer(max(u + v)) == answer(max(u + v), value + 1) == (6, 77, left)))


def light_cuts_differ(library, n, u, v, w, value):
    """Whether what is listed below a bound is not some cuts below it, each once and with its weight, and the lightest first; or is none though
    there is a cut and room; or a fault changes what it should not."""
    m = len(u)
    edges = (c_size_t(m), (c_uint32 * m)(*u), (c_uint32 * m)(*v), (c_uint64 * m)(*w))

    def answer(count, bound, rows):
        told, weights, inside = c_uint64(77), (c_uint64 * (rows + 1))(*[7] * (rows + 1)), (ctypes.c_uint8 * (rows * n + 1))(*[7] * (rows * n + 1))
        status = library.mincut_cuts_below(c_uint32(count), *edges, c_uint64(bound), c_size_t(rows), byref(told), weights, inside)
        return status, told.value, list(weights), list(inside)

    def are_cuts(bound, rows):
        status, count, weights, inside = answer(n, bound, rows)
        sides = [tuple(inside[k * n:(k + 1) * n]) for k in range(count)]
        return (status == 0 and count <= rows and (count == 0) == (value >= bound or rows == 0) and len(set(sides)) == count
                and set(weights[count:] + inside[count * n:]) == {7} and weights[0] == (value if count else 7)
                and all(weight < bound and side[0] == 0 and set(side) == {0, 1} and sum(x for a, b, x in zip(u, v, w) if side[a] != side[b]) == weight
                        for weight, side in zip(weights, sides)))

    bounds = {0, value // 2, value, value + 1, 2 * value + 5, (1 << 64) - 1}
    return not (all(are_cuts(bound, rows) for bound in bounds for rows in (0, 1, 3, n))
                and (not u or answer(max(u + v), value + 1, 3) == (6, 77, [7] * 4, [7] * (3 * n + 1))))


def check_families(prefix):
    """One cut and several of a graph of each family, and of two copies of it beside each other."""
    library, rng = ctypes.CDLL(f'{prefix}/lib/libmincut.so'), random.Random(5)
    for name, (made, vertices_for) in FAMILIES.items():
        n, edges, facts = made(vertices_for(FAMILY_EDGES), rng)
        u, v, w = ([edge[k] - (k < 2) for edge in edges] for k in range(3))
        m, value = len(u), c_uint64()
        assert library.mincut_value(c_uint32(n), c_size_t(m), (c_uint32 * m)(*u), (c_uint32 * m)(*v), (c_uint64 * m)(*w), byref(value)) == 0
        two = 2 * n, u + [x + n for x in u], v + [x + n for x in v], w + w
        if facts.get('value', value.value) != value.value or cut_differs(library, n, u, v, w, value.value) or cut_differs(library, *two, 0):
            sys.exit(f'one cut of the family {name} differs')
        if light_cuts_differ(library, n, u, v, w, value.value) or light_cuts_differ(library, *two, 0):
            sys.exit(f'several cuts of the family {name} differ')
    told(f'{len(FAMILIES)} families: one cut and several of each, and of two graphs beside each other')


def balanced(library, n, u, v, w, masses):
    """The value, the balance, and the side of a most balanced cut; nothing where the graph is not connected."""
    m, balance, inside = len(u), Balance(), (ctypes.c_uint8 * n)()
    given = (c_uint64 * n)(*masses) if masses else None
    status = library.mincut_balanced(c_uint32(n), c_size_t(m), (c_uint32 * m)(*u), (c_uint32 * m)(*v), (c_uint64 * m)(*w), given,
                                     byref(balance), inside)
    if status == 8:
        return None
    assert status == 0 and set(inside) <= {0, 1}
    return balance.value, balance.balance, tuple(i + 1 for i in range(n) if inside[i])


def balanced_differs(found, value, sides, masses, n):
    """Whether that is not a best of these sides."""
    def balance_of(side):
        inside = sum(masses[i - 1] for i in side) if masses else len(side)
        return min(inside, (sum(masses) if masses else n) - inside)
    return found != (value, max(map(balance_of, sides)), found[2]) or found[2] not in sides or balance_of(found[2]) != found[1]


def listed(library, call, n, u, v, w, *asked):
    """The value and the sides that a call lists, in its order; nothing where the graph is not connected. Short rooms are tried first."""
    m, listing = len(u), Listing(77, 77)
    graph = (c_uint32(n), c_size_t(m), (c_uint32 * m)(*u), (c_uint32 * m)(*v), (c_uint64 * m)(*w))
    status = call(*graph, *asked, c_size_t(0), byref(listing), None)
    if status == 8:
        assert (listing.value, listing.sides) == (77, 77)
        return None
    count = listing.sides
    assert status == (9 if count else 0) and count <= n * (n - 1) // 2
    rows = (ctypes.c_uint8 * (count * n + 1))(*[7] * (count * n + 1))
    if count:
        assert call(*graph, *asked, c_size_t(count - 1), byref(listing), rows) == 9 and listing.sides == count and set(rows) == {7}
    assert call(*graph, *asked, c_size_t(count), byref(listing), rows) == 0 and listing.sides == count and rows[count * n] == 7
    assert all(byte < 2 for byte in rows[:count * n])
    return listing.value, [tuple(i + 1 for i in range(n) if rows[k * n + i]) for k in range(count)]


def lists_differ(library, graph, value, lists, masses, rng):
    """Whether the lists of all sides, of those of a least balance, or of those between two vertices are not what the program lists."""
    n = graph[0]
    def balance_of(side):
        inside = sum(masses[i - 1] for i in side) if masses else len(side)
        return min(inside, (sum(masses) if masses else n) - inside)
    least, a, b = rng.choice([0, 1, 2, 3, max(map(balance_of, lists), default=0)]), rng.randrange(n), rng.randrange(n)
    given = (c_uint64 * n)(*masses) if masses else None
    return (listed(library, library.mincut_sides, *graph) != (value, lists)
            or listed(library, library.mincut_sides_balanced, *graph, given, c_uint64(least)) != (value, [s for s in lists if balance_of(s) >= least])
            or listed(library, library.mincut_sides_between, *graph, c_uint32(a), c_uint32(b)) != (value, [s for s in lists if (a + 1 in s) != (b + 1 in s)]))


def raise_differs(library, program, graph, text, value, sides):
    """Whether the new edges do not cross each minimum cut, or are more than those of the program, or other sets are told."""
    n, u, v, w = graph
    m, raised = len(u), Raise()
    heads, tails, set_of = (c_uint32 * n)(), (c_uint32 * n)(), (c_uint64 * n)()
    assert library.mincut_augment(c_uint32(n), c_size_t(m), (c_uint32 * m)(*u), (c_uint32 * m)(*v), (c_uint64 * m)(*w), byref(raised), heads,
                                  tails, set_of) == 0
    lines = [line.split() for line in subprocess.run([program, 'augment', '--workers', '1'], input=text, capture_output=True, text=True,
                                                     check=True).stdout.splitlines()]
    sets = [[int(x) for x in line[1:]] for line in lines if line[0] == 'set']
    edges = [(heads[k] + 1, tails[k] + 1) for k in range(raised.edges)]
    return ((raised.value, raised.edges) != (value, sum(line[0] == 'edge' for line in lines))
            or [[i + 1 for i in range(n) if set_of[i] == k + 1] for k in range(raised.sets)] != sets or sum(map(len, sets)) != sum(map(bool, set_of))
            or not all(any((a in side) != (b in side) for a, b in edges) for side in sides))


def sides_of(nodes, bridges, cycles):
    """The sides of all cuts of a flat cactus of the library, whose vertices begin at 0."""
    n = sum(map(len, nodes))
    return set(cactuses.sides_of(cactuses.Cactus(0, n, [[v + 1 for v in node] for node in nodes], bridges, cycles)))


def random_arrays(rng):
    n = rng.randint(2, 14)
    m = rng.randint(n - 1, 3 * n)
    ends = [(rng.randrange(v), v) for v in range(1, n)] + [(rng.randrange(n), rng.randrange(n)) for _ in range(m - n + 1)]
    if rng.random() < 0.1:
        ends = ends[1:]
    rng.shuffle(ends)
    ends = [(v, u) if rng.random() < 0.5 else (u, v) for u, v in ends]
    return n, [e[0] for e in ends], [e[1] for e in ends], [rng.choice([0, 1, 1, 1, 2, 3]) for _ in ends]


def metis_text(n, u, v, w):
    """The multigraph as the program takes it: loops and edges without weight left out, parallel edges added up."""
    return metis.text_of(graph_of(n, [((a + 1, b + 1), x) for a, b, x in zip(u, v, w) if a != b and x]))


def check_program(prefix, program, graphs):
    library, rng, apart = ctypes.CDLL(f'{prefix}/lib/libmincut.so'), random.Random(5), 0
    for number in range(graphs):
        graph = random_arrays(rng)
        given = metis_text(*graph)
        text = subprocess.run([program, 'cuts', '--workers', '1'], input=given, capture_output=True, text=True, check=True).stdout
        lines = text.split('\n')
        value, in_order = int(lines[0].split()[1]), [tuple(map(int, line.split())) for line in lines[2:] if line]
        sides = set(in_order)
        if components_differ(library, *graph):
            sys.exit(f'graph {number} differs in its components: {graph}')
        if cut_differs(library, *graph, value):
            sys.exit(f'graph {number} differs in its one cut: {graph}')
        if light_cuts_differ(library, *graph, value):
            sys.exit(f'graph {number} differs in several cuts: {graph}')
        found, count, of_cactus = asked(library, *graph)
        apart += count is None
        masses = [rng.choice([0, 1, 1, 2, 1 << 40]) for _ in range(graph[0])] if rng.random() < 0.7 else None
        best = balanced(library, *graph, masses)
        if (best is None) != (count is None) or (best and balanced_differs(best, value, sides, masses, graph[0])):
            sys.exit(f'graph {number} differs in its most balanced cut: {graph} {masses}')
        if count is None:
            apart_too = [listed(library, library.mincut_sides, *graph), listed(library, library.mincut_sides_between, *graph, c_uint32(0), c_uint32(1))]
            if apart_too != [None, None]:
                sys.exit(f'graph {number} has lists though it is not connected: {graph}')
        elif lists_differ(library, graph, value, in_order, masses, rng):
            sys.exit(f'graph {number} differs in its lists: {graph} {masses}')
        elif raise_differs(library, program, graph, given, value, sides):
            sys.exit(f'graph {number} differs in its augmentation: {graph}')
        if found != value or (count is not None and (count != len(sides) or of_cactus != sides)):
            sys.exit(f'graph {number} differs: {graph}')
    told(f'{graphs} multigraphs as the program answers, {apart} of them not connected')


def check_examples(built, prefix):
    folder = f'{ROOT}/examples/library'
    told(f'weakest.c:\n{run(built.compile(f"{folder}/weakest.c", "weakest"))}'.rstrip())
    told(f'subtours.cpp:\n{run(built.compile(f"{folder}/subtours.cpp", "subtours", "-std=c++17", compiler="c++"))}'.rstrip())
    if shutil.which('pkg-config'):
        env = {**os.environ, 'PKG_CONFIG_PATH': f'{prefix}/lib/pkgconfig'}
        flags = run('pkg-config', '--cflags', '--libs', 'mincut', env=env).split()
        run('cc', f'{folder}/weakest.c', *flags, '-o', f'{built.room}/shared')
        run(f'{built.room}/shared', env={**os.environ, 'LD_LIBRARY_PATH': f'{prefix}/lib'})
        told('weakest.c by pkg-config and the shared library')
    if shutil.which('cmake'):
        run('cmake', '-S', folder, '-B', f'{built.room}/cmake', f'-DCMAKE_PREFIX_PATH={prefix}')
        run('cmake', '--build', f'{built.room}/cmake')
        told(f'cuts.cpp by CMake:\n{run(f"{built.room}/cmake/cuts", f"{ROOT}/examples/tour.graph")}'.rstrip())


def check_rust(prefix, room):
    env = {**os.environ, 'MINCUT_PREFIX': prefix, 'CARGO_TARGET_DIR': f'{room}/target'}
    crate = f'{room}/rust'
    shutil.copytree(f'{ROOT}/bindings/rust', crate, ignore=shutil.ignore_patterns('target'))
    with open(f'{crate}/Cargo.toml', encoding='utf-8') as file:
        text = file.read().replace('../../examples', f'{ROOT}/examples')
    with open(f'{crate}/Cargo.toml', 'w', encoding='utf-8') as file:
        file.write(text)
    printed = run('cargo', 'test', '--offline', '-q', cwd=crate, env=env)
    told(f'Rust: {sum(line.startswith("test result: ok") for line in printed.splitlines())} groups of tests passed')
    run('cargo', 'run', '--offline', '-q', '--example', 'weakest', cwd=crate, env=env)


def add_options(parser: argparse.ArgumentParser) -> None:
    parser.add_argument('prefix', help='the folder that `./library` filled')
    running.add_program(parser)
    parser.add_argument('--graphs', type=int, default=20000, help='how many multigraphs are compared with the program')
    parser.add_argument('--calls', type=int, default=1000000, help='how many graphs with faults in them are tried in-process')
    parser.add_argument('--quick', action='store_true', help='leave out valgrind and cargo')


def main(given: argparse.Namespace) -> int:
    """Ends the command with status 1 at the first thing that differs."""
    prefix = os.path.abspath(given.prefix)
    program = running.ready(given.program)
    with tempfile.TemporaryDirectory(prefix='mincut-check-') as room:
        built = Built(prefix, room)
        check_exports(prefix)
        check_calls(built, given.calls, given.quick)
        check_examples(built, prefix)
        if not given.quick and shutil.which('cargo'):
            check_rust(prefix, room)
    check_families(prefix)
    check_program(prefix, program, given.graphs)
    return running.tell_end('library', f'{given.calls} calls with faults, {given.graphs} multigraphs and the tests of bindings/', [])
