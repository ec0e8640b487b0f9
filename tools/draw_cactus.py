#!/usr/bin/env python3
"""Draws a cactus as an SVG picture, and beside it the network whose cactus it is.

    ./mincut cactus < examples/network.graph | tools/draw_cactus.py docs/network-cactus.svg --graph examples/network.graph
    ./mincut augment < examples/network.graph > plan
    ./mincut cactus < examples/network.graph | tools/draw_cactus.py docs/network-plan.svg --graph examples/network.graph --plan plan

The text of the cactus comes on standard input. A box is a node with its vertices, a dot a node without vertices, a thick line a
bridge, a closed figure a cycle. In the network each vertex has the colour of its node, and a link is coloured where some minimum
cut has it. The edges of a plan, which the job `augment` prints, are dashed lines in the network. Made for up to about fifty nodes; more than 300 are refused.
"""
import argparse
import colorsys
import heapq
import math
import sys
from xml.sax.saxutils import escape

from checks import cactuses, metis
from checks.graphs import components_of

UNIT = 104                     # pixels between two nodes that a bridge joins
MARGIN = 64
BRIDGE, RING, RING_FILL, PLAIN, INK, SOFT = '#c8553d', '#2f6f9f', '#e6f0f7', '#a7adb3', '#22303c', '#66727d'
NEW = '#3f8f4f'
MOST_NODES = 300


# Where things stand

def chord(places, size):
    """The distance of two corners of a regular polygon with sides of length 1, this many places apart."""
    return math.sin(math.pi * places / size) / math.sin(math.pi / size)


def cactus_lengths(cactus):
    """How far two nodes of one block should stand apart: {node: {node: length}}."""
    near = {i: {} for i in range(len(cactus.nodes))}
    for i, j in cactus.bridges:
        near[i][j] = near[j][i] = 1.0
    for cycle in cactus.cycles:
        for p, i in enumerate(cycle):
            for q, j in enumerate(cycle):
                if i != j:
                    near[i][j] = chord(abs(p - q), len(cycle))
    return near


def all_distances(near):
    """The lengths of the shortest ways between all pairs."""
    table = {}
    for start in near:
        length, todo = {}, [(0.0, start)]
        while todo:
            here, i = heapq.heappop(todo)
            if i not in length:
                length[i] = here
                for j, step in near[i].items():
                    heapq.heappush(todo, (here + step, j))
        table[start] = length
    return table


def first_places(cactus):
    """Nodes on circles around node 0 by their depth, each in the sector of its branch: no two lines cross."""
    at = {i: [] for i in range(len(cactus.nodes))}
    for group in [list(bridge) for bridge in cactus.bridges] + cactus.cycles:
        for i in group:
            at[i].append(group)
    below, seen, order = {i: [] for i in at}, {0}, [0]
    for i in order:
        for group in at[i]:
            place = group.index(i)
            fresh = [j for j in group[place + 1:] + group[:place] if j not in seen]
            seen.update(fresh)
            order += fresh
            below[i] += fresh
    leaves = {}
    for i in reversed(order):
        leaves[i] = sum(leaves[j] for j in below[i]) or 1
    depth, sector, places = {0: 0}, {0: (0.0, 2 * math.pi)}, {}
    step = max(1.0, leaves[0] / (2 * math.pi))
    for i in order:
        low, high = sector[i]
        angle = (low + high) / 2
        places[i] = (step * depth[i] * math.cos(angle), step * depth[i] * math.sin(angle))
        slots = leaves[i] if i else leaves[0] + len(at[0])
        room = min(high - low, 2 * math.acos(depth[i] / (depth[i] + 1)) if i else high)
        low = angle - room / 2
        for j in below[i]:
            depth[j] = depth[i] + 1
            sector[j] = (low, low + room * leaves[j] / slots)
            low = sector[j][1]
    return places


def turns_left(a, b, c):
    return (b[0] - a[0]) * (c[1] - a[1]) - (b[1] - a[1]) * (c[0] - a[0]) > 0


def cross(a, b, c, d):
    """Whether the lines from a to b and from c to d cross."""
    return turns_left(a, b, c) != turns_left(a, b, d) and turns_left(c, d, a) != turns_left(c, d, b)


def may_move(i, spot, places, lines):
    """Whether node i can move straight to the spot so that no line comes to cross another or goes over a node."""
    old = places[i]
    mine = [k if j == i else j for j, k in lines if i in (j, k)]
    others = [(places[j], places[k], j, k) for j, k in lines if i not in (j, k)]
    if any(cross(old, spot, a, b) for a, b, _, _ in others):
        return False
    for j in mine:
        end = places[j]
        if any(cross(spot, end, a, b) for a, b, k, m in others if j not in (k, m)):
            return False
    for k, other in places.items():
        if k != i:
            length = math.hypot(spot[0] - other[0], spot[1] - other[1])
            if length < 0.6 and length < math.hypot(old[0] - other[0], old[1] - other[1]):
                return False
            for j in mine:
                if j != k:
                    end = places[j]
                    sides = {turns_left(old, spot, other), turns_left(spot, end, other), turns_left(end, old, other)}
                    if len(sides) == 1:
                        return False
    return True


def spread(places, near, stiff, lines):
    """Moves all to where their distances fit the lengths of the shortest ways best; neighbours count `stiff` times.

    The lines, where there are any, never come to cross."""
    wanted = all_distances(near)
    names = list(places)
    work = len(names) ** 2 + 10 * len(lines) * len(names)
    for _ in range(max(5, min(400, 12_000_000 // work))):
        for i in names:
            x, y = places[i]
            sum_x = sum_y = total = 0.0
            for j in names:
                if i != j:
                    other_x, other_y = places[j]
                    length = wanted[i][j]
                    weight = (stiff if j in near[i] else 1.0) / (length * length)
                    now = math.hypot(x - other_x, y - other_y) or 1e-9
                    sum_x += weight * (other_x + length * (x - other_x) / now)
                    sum_y += weight * (other_y + length * (y - other_y) / now)
                    total += weight
            if total:
                for share in (1.0, 0.3) if lines else (1.0,):
                    spot = (x + share * (sum_x / total - x), y + share * (sum_y / total - y))
                    if not lines or may_move(i, spot, places, lines):
                        places[i] = spot
                        break


def stand_upright(places):
    """Turns the picture so that its longest direction is downwards, with node 0 in the upper half."""
    count = len(places)
    mid_x = sum(x for x, _ in places.values()) / count
    mid_y = sum(y for _, y in places.values()) / count
    xx = sum((x - mid_x) ** 2 for x, _ in places.values())
    yy = sum((y - mid_y) ** 2 for _, y in places.values())
    xy = sum((x - mid_x) * (y - mid_y) for x, y in places.values())
    turn = math.pi / 2 - math.atan2(2 * xy, xx - yy) / 2
    cos, sin = math.cos(turn), math.sin(turn)
    for i, (x, y) in places.items():
        places[i] = ((x - mid_x) * cos - (y - mid_y) * sin, (x - mid_x) * sin + (y - mid_y) * cos)
    if places[0][1] > 0:
        for i, (x, y) in places.items():
            places[i] = (-x, -y)


def network_places(cactus, graph, cactus_places):
    """Vertices near the place of their node, then moved apart by the lengths of the ways in the network."""
    near = {v: {} for v in range(1, graph[0] + 1)}
    for u, v, _ in graph[1]:
        near[u][v] = near[v][u] = 1.0
    places = {}
    for i, node in enumerate(cactus.nodes):
        x, y = cactus_places[i]
        for k, v in enumerate(node):
            angle = 2 * math.pi * k / len(node) - math.pi / 2
            radius = 0.5 if len(node) > 1 else 0.0
            places[v] = (x + radius * math.cos(angle), y + radius * math.sin(angle))
    spread(places, near, 1.0, [])
    return places


def to_pixels(places, left, top, aside):
    """The places in pixels, right of `left` by at least `aside` and below `top`, and the size of the picture."""
    low_x, low_y = min(x for x, _ in places.values()), min(y for _, y in places.values())
    pixels = {i: (left + aside + (x - low_x) * UNIT, top + MARGIN + (y - low_y) * UNIT) for i, (x, y) in places.items()}
    width = max(x for x, _ in pixels.values()) - left + aside
    height = max(y for _, y in pixels.values()) - top + MARGIN
    return pixels, width, height


# What is drawn

def colour(i):
    """A light colour of its own for each node."""
    red, green, blue = colorsys.hls_to_rgb((0.13 + i * 0.381966) % 1.0, 0.80 - 0.06 * (i % 2), 0.65)
    return f'#{round(255 * red):02x}{round(255 * green):02x}{round(255 * blue):02x}'


def words(x, y, text, size, fill=INK, anchor='middle', bold=False):
    weight = ' font-weight="bold"' if bold else ''
    halo = ' stroke="#ffffff" stroke-width="4" stroke-linejoin="round" paint-order="stroke"'
    return f'<text x="{x:.1f}" y="{y:.1f}" font-size="{size}" fill="{fill}" text-anchor="{anchor}"{weight}{halo}>{escape(text)}</text>'


def line(a, b, stroke, width, dashed=False):
    dashes = ' stroke-dasharray="9 8"' if dashed else ''
    return f'<line x1="{a[0]:.1f}" y1="{a[1]:.1f}" x2="{b[0]:.1f}" y2="{b[1]:.1f}" stroke="{stroke}" stroke-width="{width}" stroke-linecap="round"{dashes}/>'


def label_lines(vertices):
    """The vertices of a node in lines of about 16 signs, at most two lines."""
    lines = ['']
    for v in vertices:
        if len(lines[-1]) + len(str(v)) > 16:
            lines.append('')
        lines[-1] += f' {v}' if lines[-1] else str(v)
    return lines if len(lines) <= 2 else lines[:1] + [f'... {len(vertices)} in all']


def box_size(node):
    """Width and height of the box of a node with these vertices."""
    lines = label_lines(node)
    return max(36, 10 * max(map(len, lines)) + 16), 18 * len(lines) + 16


def caption(i, at, neighbours, width, height):
    """The number of a node beside it, on the side and at the height that lie farthest from its lines."""
    x, y = at[i]
    lines = [math.atan2(at[j][1] - y, at[j][0] - x) for j in neighbours]
    def room(angle):
        return min((abs(math.remainder(angle - other, 2 * math.pi)) for other in lines), default=math.pi)
    angles = [-0.5, 0.5, math.pi - 0.5, math.pi + 0.5, 0.0, math.pi]
    angle = max(angles, key=lambda angle: round(room(angle), 3))
    right = math.cos(angle) > 0
    return words(x + (width / 2 + 5) * (1 if right else -1), y + 4 + 2 * math.sin(angle) * height / 2, f'node {i}', 11, SOFT, 'start' if right else 'end')


def draw_cactus(cactus, at):
    parts = []
    neighbours = {i: [] for i in at}
    for i, j, _ in cactuses.edges_of(cactus):
        neighbours[i].append(j)
        neighbours[j].append(i)
    for cycle in cactus.cycles:
        corners = ' '.join(f'{at[i][0]:.1f},{at[i][1]:.1f}' for i in cycle)
        parts.append(f'<polygon points="{corners}" fill="{RING_FILL}" stroke="{RING}" stroke-width="3.5" stroke-linejoin="round"/>')
    for i, j in cactus.bridges:
        parts.append(line(at[i], at[j], BRIDGE, 8))
    for i, node in enumerate(cactus.nodes):
        x, y = at[i]
        if not node:
            parts.append(f'<circle cx="{x:.1f}" cy="{y:.1f}" r="7" fill="{INK}"/>')
            parts.append(caption(i, at, neighbours[i], 16, 20))
            continue
        lines = label_lines(node)
        width, height = box_size(node)
        parts.append(f'<rect x="{x - width / 2:.1f}" y="{y - height / 2:.1f}" width="{width}" height="{height}" rx="10" '
                     f'fill="{colour(i)}" stroke="{INK}" stroke-width="1.5"/>')
        for k, text in enumerate(lines):
            parts.append(f'<text x="{x:.1f}" y="{y - 9 * len(lines) + 14.5 + 18 * k:.1f}" font-size="16" fill="{INK}" text-anchor="middle">{text}</text>')
        parts.append(caption(i, at, neighbours[i], width, height - 10))
    return parts


def place_on(at, u, v, share):
    """The place on the line from u to v after this share of it."""
    return at[u][0] + share * (at[v][0] - at[u][0]), at[u][1] + share * (at[v][1] - at[u][1])


def plan_edges(text):
    """The new edges in the text of the job `augment`."""
    rows = [words.split() for words in text.splitlines()]
    return [(int(row[1]), int(row[2])) for row in rows if len(row) == 3 and row[0] == 'edge']


def draw_network(cactus, graph, at, plan):
    node_of = {v: i for i, node in enumerate(cactus.nodes) for v in node}
    weighted = any(w != 1 for _, _, w in graph[1])
    parts, labels = [], []
    for u, v, w in graph[1]:
        in_some_cut = node_of[u] != node_of[v]
        parts.append(line(at[u], at[v], RING if in_some_cut else PLAIN, 3.5 if in_some_cut else 2.5))
        if weighted:
            x, y = place_on(at, u, v, 0.5)
            middles = [place_on(at, a, b, 0.5) for a, b, _ in graph[1] if (a, b) != (u, v)]
            if any(math.hypot(x - a, y - b) < 18 for a, b in middles):
                x, y = place_on(at, u, v, 0.3)
            labels.append(words(x, y + 4.5, str(w), 13, RING if in_some_cut else SOFT, bold=in_some_cut))
    parts += [line(at[u], at[v], NEW, 4, dashed=True) for u, v in plan] + labels
    for v, (x, y) in at.items():
        parts.append(f'<circle cx="{x:.1f}" cy="{y:.1f}" r="17" fill="{colour(node_of[v])}" stroke="{INK}" stroke-width="1.5"/>')
        parts.append(f'<text x="{x:.1f}" y="{y + 5.5:.1f}" font-size="16" fill="{INK}" text-anchor="middle">{v}</text>')
    return parts


def legend(cactus, with_network, with_plan, left, top):
    """Lines that say what is what, and how high they are."""
    entries = []
    if cactus.bridges:
        entries.append((line((left, top), (left + 34, top), BRIDGE, 8), 'bridge: a minimum cut by itself'))
    if cactus.cycles:
        box = f'<rect x="{left}" y="{top - 8:.1f}" width="34" height="16" fill="{RING_FILL}" stroke="{RING}" stroke-width="3.5"/>'
        entries.append((box, 'cycle: any two of its edges are a minimum cut'))
    if any(not node for node in cactus.nodes):
        entries.append((f'<circle cx="{left + 17}" cy="{top}" r="7" fill="{INK}"/>', 'node without vertices'))
    if with_network:
        entries.append((line((left, top), (left + 34, top), RING, 3.5), 'link of the network that some minimum cut has'))
        entries.append((line((left, top), (left + 34, top), PLAIN, 2.5), 'link that no minimum cut has'))
    if with_plan:
        entries.append((line((left, top), (left + 34, top), NEW, 4, dashed=True), 'new link: together they raise the value, and fewer do not'))
    parts = []
    for k, (shape, text) in enumerate(entries):
        parts.append(f'<g transform="translate(0 {24 * k})">{shape}{words(left + 46, top + 4.5, text, 13, anchor="start")}</g>')
    return parts, 24 * len(entries)


def picture(cactus, graph, plan):
    """The whole SVG text."""
    places = first_places(cactus)
    spread(places, cactus_lengths(cactus), 8.0, [(i, j) for i, j, _ in cactuses.edges_of(cactus)])
    stand_upright(places)
    top, left, parts, height = 34, 0.0, [], 0.0
    if graph is not None:
        at, width, height = to_pixels(network_places(cactus, graph, places), left, top, MARGIN)
        parts += draw_network(cactus, graph, at, plan) + [words(left + MARGIN - 17, 38, 'network', 19, anchor='start', bold=True)]
        left += width + 24
    widest = max(box_size(node)[0] for node in cactus.nodes)
    at, width, cactus_height = to_pixels(places, left, top, max(MARGIN, widest / 2 + 56))
    cuts = len(set(cactuses.sides_of(cactus))) if len(cactus.nodes) < 200 else None
    title = f'its cactus: value {cactus.value}' if graph is not None else f'cactus: value {cactus.value}'
    title += f', {cuts} minimum cuts' if cuts is not None else ''
    parts += draw_cactus(cactus, at) + [words(left + MARGIN - 17, 38, title, 19, anchor='start', bold=True)]
    height = top + max(height, cactus_height)
    left += max(width, MARGIN + 11 * len(title), 0)
    entries, more = legend(cactus, graph is not None, bool(plan), MARGIN - 17, height + 6)
    height += more + 16
    width = max(left + 24, 420)
    head = (f'<svg xmlns="http://www.w3.org/2000/svg" viewBox="0 0 {width:.0f} {height:.0f}" width="{width:.0f}" height="{height:.0f}" '
            'font-family="DejaVu Sans, Helvetica, Arial, sans-serif">')
    return '\n'.join([head, f'<rect width="{width:.0f}" height="{height:.0f}" fill="#ffffff"/>'] + parts + entries + ['</svg>', ''])


def read_graph(path):
    with open(path, 'rb') as source:
        try:
            return metis.read(source.read()).graph
        except metis.Fault as fault:
            sys.exit(f'draw_cactus: {path}: {fault.kind} at line {fault.line}')


def main():
    parser = argparse.ArgumentParser(description=__doc__, formatter_class=argparse.RawDescriptionHelpFormatter)
    parser.add_argument('picture', help='the SVG file to write')
    parser.add_argument('--graph', help='the METIS file of the network, to be drawn beside the cactus')
    parser.add_argument('--plan', help='the text of the job `augment`, whose edges are drawn in the network')
    options = parser.parse_args()
    text = sys.stdin.buffer.read()
    try:
        cactus = cactuses.read(text)
    except cactuses.Malformed as refusal:
        sys.exit(f'draw_cactus: standard input is no text of a cactus (line {refusal.line})')
    graph = None
    if options.graph:
        graph = read_graph(options.graph)
        if graph[0] != cactus.n or len(components_of(graph)) != 1:
            sys.exit('draw_cactus: the graph is not that of the cactus')
    plan = []
    if options.plan:
        with open(options.plan) as source:
            plan = plan_edges(source.read())
    if max(len(cactus.nodes), cactus.n if graph else 0) > MOST_NODES:
        sys.exit(f'draw_cactus: more than {MOST_NODES} nodes or vertices')
    with open(options.picture, 'w') as out:
        out.write(picture(cactus, graph, plan))


if __name__ == '__main__':
    main()
