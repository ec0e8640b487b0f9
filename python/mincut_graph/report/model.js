  // The cactus of the page, and what each pick means. Nodes are numbered as they are entered from node 0: those at and under node i are
  // i to last[i].
  const data = JSON.parse(document.getElementById('data').textContent);
  const cycles = [];
  const overNode = data.nodes.map(() => null);     // the block over each node: its first edge, its cycle or -1, the node's place in it
  const blocksAt = data.nodes.map(() => []);       // numbers of cycles, and -1 - k for bridge k
  const last = data.nodes.map((node, i) => i);
  const nodeOf = [];
  const massUpTo = [0];                            // of all nodes before each

  function massOf(vertices) {
    return data.masses === null ? vertices.length : vertices.reduce((sum, v) => sum + data.masses[v], 0);
  }

  function readCactus() {
    data.nodes.forEach((node, i) => {
      node.forEach((v) => { nodeOf[v] = i; });
      massUpTo.push(massUpTo[i] + massOf(node));
    });
    data.edges.forEach(([i, j, cycle], k) => {
      if (cycle < 0) {
        overNode[j] = { first: k, cycle, place: 1, top: i };
        blocksAt[i].push(-1 - k);
        blocksAt[j].push(-1 - k);
        return;
      }
      if (cycles[cycle] === undefined) {
        cycles[cycle] = { first: k, nodes: [] };
      }
      const { first, nodes } = cycles[cycle];
      if (nodes.length > 0) {
        overNode[i] = { first, cycle, place: nodes.length, top: nodes[0] };
      }
      nodes.push(i);
      blocksAt[i].push(cycle);
    });
    for (let i = last.length - 1; i > 0; i -= 1) {
      last[overNode[i].top] = Math.max(last[overNode[i].top], last[i]);
    }
  }
  readCactus();
  const totalMass = massUpTo[massUpTo.length - 1];

  const massUnder = (i) => massUpTo[last[i] + 1] - massUpTo[i];
  const isUnder = (x, i) => i <= x && x <= last[i];

  // The nodes of the side without node 0, as [from, to] with both ends, when these edges are cut.
  function rangeOf(edges) {
    const [i, j, cycle] = data.edges[edges[0]];
    if (cycle < 0) {
      return [Math.max(i, j), last[Math.max(i, j)]];
    }
    const { first, nodes } = cycles[cycle];
    return [nodes[edges[0] - first + 1], last[nodes[edges[1] - first]]];
  }

  // The edges by which the list has the same cut: of two cycles with an empty node in common, those of the upper one at that node.
  function listedAs(edges) {
    const cycle = data.edges[edges[0]][2];
    if (!data.skipped.includes(cycle) || edges[1] - edges[0] !== cycles[cycle].nodes.length - 1) {
      return edges;
    }
    const { first, place } = overNode[cycles[cycle].nodes[0]];
    return [first + place - 1, first + place];
  }

  function balanceOf(edges) {
    const [low, high] = rangeOf(edges);
    const mass = massUpTo[high + 1] - massUpTo[low];
    return Math.min(mass, totalMass - mass);
  }

  // The lighter side of the cut of these edges: whether each node is in it, its vertices, and the links between the sides.
  function cutOf(edges) {
    const [low, high] = rangeOf(edges);
    const lighter = 2 * (massUpTo[high + 1] - massUpTo[low]) <= totalMass;
    const nodes = data.nodes.map((node, i) => (low <= i && i <= high) === lighter);
    const vertices = new Set(data.nodes.flatMap((node, i) => (nodes[i] ? node : [])));
    return { nodes, vertices, links: linksBetween(vertices) };
  }

  function linksBetween(vertices) {
    const found = [];
    data.links.forEach(([i, j], k) => {
      if (vertices.has(i) !== vertices.has(j)) {
        found.push(k);
      }
    });
    return found;
  }

  // The edges whose cut has the side of least mass with node x: for each block the branch in which x is.
  function smallestWith(x) {
    let best = null;
    const better = (mass, edges) => {
      if (best === null || mass < best.mass) {
        best = { mass, edges };
      }
    };
    data.edges.forEach(([, j, cycle], k) => {
      if (cycle < 0) {
        better(isUnder(x, j) ? massUnder(j) : totalMass - massUnder(j), [k]);
      }
    });
    cycles.forEach(({ first, nodes }) => {
      const end = nodes.length - 1;
      const place = nodes.findIndex((i, p) => p > 0 && isUnder(x, i));
      if (place > 0) {
        better(massUnder(nodes[place]), [first + place - 1, first + place]);
      } else {
        better(totalMass - massUpTo[last[nodes[end]] + 1] + massUpTo[nodes[1]], [first, first + end]);
      }
    });
    return best.edges;
  }

  // The two cuts of the runs of a cycle that begin and end at two of its nodes, the shorter run first; one where they are neighbours.
  function runsBetween(cycle, a, b) {
    const { first, nodes } = cycles[cycle];
    const size = nodes.length;
    const [p, q] = [nodes.indexOf(a), nodes.indexOf(b)].sort((x, y) => x - y);
    const runs = [{ length: q - p + 1, edges: [(p + size - 1) % size, q] }, { length: size - q + p + 1, edges: [q - 1, p] }];
    return runs.filter((run) => run.length < size).sort((x, y) => x.length - y.length)
      .map((run) => run.edges.sort((x, y) => x - y).map((place) => first + place));
  }

  // The blocks between two nodes, as pairs of places in the block where the way enters and leaves it.
  function blocksBetween(a, b) {
    const found = [];
    while (a !== b) {
      const low = Math.min(a, b);
      const high = Math.max(a, b);
      const { first, cycle, place, top } = overNode[high];
      const beside = cycle < 0 ? 0 : cycles[cycle].nodes.findIndex((i, p) => p > 0 && isUnder(low, i));
      const from = Math.max(beside, 0);
      found.push({ first, cycle, places: [Math.min(from, place), Math.max(from, place)] });
      a = low;
      b = from > 0 ? cycles[cycle].nodes[from] : top;
    }
    return found;
  }

  const MOST_PLACES = 20000;

  // The cuts that part two nodes, the most balanced first, each as its edges; and how many there are.
  function placesBetween(a, b) {
    const places = [];
    let count = 0;
    for (const { first, cycle, places: [p, q] } of blocksBetween(a, b)) {
      if (cycle < 0) {
        places.push([first]);
        count += 1;
        continue;
      }
      const size = cycles[cycle].nodes.length;
      const skipsOne = data.skipped.includes(cycle) && p === 0;
      count += (q - p) * (size - q + p) - (skipsOne ? 1 : 0);
      for (let one = p; one < q; one += 1) {
        for (let step = 0; step < size - q + p && places.length < MOST_PLACES; step += 1) {
          const two = (q + step) % size;
          if (!(skipsOne && Math.min(one, two) === 0 && Math.max(one, two) === size - 1)) {
            places.push([first + Math.min(one, two), first + Math.max(one, two)]);
          }
        }
      }
    }
    const balance = new Map(places.map((edges) => [edges, balanceOf(edges)]));
    return { places: places.sort((x, y) => balance.get(y) - balance.get(x)), count };
  }

  // Words and numbers

  function decimal(weight) {
    const number = weight / data.scale;
    return Number.isInteger(number) ? number.toLocaleString('en') : String(Number(number.toPrecision(12)));
  }

  const amount = (weight) => (data.unit === '' ? decimal(weight) : `${decimal(weight)} ${data.unit}`);
  const counted = (number, one, many) => `${number.toLocaleString('en')} ${number === 1 ? one : many}`;

  function listed(names, most) {
    const sign = names.slice(0, most).some((name) => name.includes(',')) ? ' | ' : ', ';
    return names.length <= most ? names.join(sign) : `${names.slice(0, most).join(sign)}${sign}… ${names.length} in all`;
  }

  function linkName(k) {
    const [i, j, w] = data.links[k];
    return `${data.names[i]} – ${data.names[j]}` + (w === 1 && data.unit === '' ? '' : ` (${amount(w)})`);
  }

  function nodeName(i, most = 4) {
    const node = data.nodes[i];
    if (node.length === 0) {
      return '';
    }
    return node.length <= most ? listed(node.map((v) => data.names[v]), most) : `${node.length.toLocaleString('en')} vertices`;
  }

  const all = (selector, root = document) => Array.from(root.querySelectorAll(selector));

  function element(name, attributes = {}, text = '') {
    const made = document.createElement(name);
    Object.entries(attributes).forEach(([key, value]) => made.setAttribute(key, value));
    made.textContent = text;
    return made;
  }

  // An element of a picture.
  function shape(name, attributes = {}) {
    const made = document.createElementNS(document.querySelector('svg').namespaceURI, name);
    Object.entries(attributes).forEach(([key, value]) => made.setAttribute(key, value));
    return made;
  }
