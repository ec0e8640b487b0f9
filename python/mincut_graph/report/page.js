  // What is picked, and what the page then shows.

  const told = document.getElementById('told');
  const edges = all('[data-edge]');
  const MANY = 60;                   // names that may cover lines where there is no other room
  let pending = null;                // the first edge, or the first node, of two of one cycle
  let picked = null;                 // the cut, or the set of vertices, that the pictures show

  function clear() {
    [pending, picked] = [null, null];
    all('.side, .rest, .cut, .pending, .chosen').forEach((one) => {
      if (!one.classList.contains('key')) {
        one.classList.remove('side', 'rest', 'cut', 'pending', 'chosen');
      }
    });
    all('.pane, #told').forEach((one) => one.classList.remove('picked'));
    say(['No cut is picked.']);
    pictures.forEach((picture) => picture.later());
  }

  function say(lines, buttons = []) {
    told.replaceChildren(...buttons, ...lines.map((line) => element('p', {}, line)));
    told.scrollTop = 0;
  }

  function button(text, action) {
    const made = element('button', { type: 'button' }, text);
    made.addEventListener('click', action);
    return made;
  }

  // Colours the two sides, of vertices and of nodes, and the links and edges that are cut.
  function colour(cut, removed) {
    all('.pane').forEach((pane) => pane.classList.add('picked'));
    all('[data-vertex]').forEach((one) => one.classList.add(cut.vertices.has(Number(one.dataset.vertex)) ? 'side' : 'rest'));
    if (cut.nodes !== null) {
      all('[data-node]').forEach((one) => one.classList.add(cut.nodes[Number(one.dataset.node)] ? 'side' : 'rest'));
      edges.forEach((one, k) => one.classList.toggle('side', cut.nodes[data.edges[k][0]] && cut.nodes[data.edges[k][1]]));
    }
    cut.links.forEach((k) => document.querySelector(`[data-link="${k}"]`)?.classList.add('cut'));
    removed.forEach((k) => edges[k]?.classList.add('cut'));
    told.classList.add('picked');
    picked = cut;
    pictures.forEach((picture) => picture.later());
  }

  function sideTold(cut) {
    const vertices = Array.from(cut.vertices).sort((a, b) => a - b);
    const mass = data.masses === null ? '' : `, mass ${massOf(vertices).toLocaleString('en')}`;
    return `${counted(vertices.length, 'vertex', 'vertices')}${mass}: ${listed(vertices.map((v) => data.names[v]), 25)}.`;
  }

  function clearAll() {
    clear();
    lists.places?.limit(null);
  }

  // Shows the cut of these edges; `heading` are lines before it, `more` are buttons. The list shows all places again, unless it keeps
  // those of a link.
  function show(removed, heading = [], more = [], keep = false) {
    clear();
    if (!keep) {
      lists.places?.limit(null);
    }
    const cut = cutOf(removed);
    colour(cut, removed);
    const key = listedAs(removed).join(' ');
    const rows = lists.places?.rows.filter((row) => row.dataset.edges === key) ?? [];
    rows.forEach((row) => {
      row.classList.add('chosen');
      lists.places.reveal(row);
    });
    const links = data.links.length > 0 ? [`Links that are cut, of weight ${amount(data.value)} together: ${listed(cut.links.map(linkName), 20)}.`] : [];
    say([...heading, ...links, `Lighter side: ${sideTold(cut)}`], [button('Clear', clearAll), ...more]);
  }

  function pickEdge(k) {
    const cycle = data.edges[k][2];
    const first = pending?.edge;
    if (cycle < 0) {
      show([k]);
    } else if (first !== undefined && first !== k && data.edges[first][2] === cycle) {
      show([Math.min(first, k), Math.max(first, k)]);
    } else {
      clear();
      pending = { edge: k };
      edges[k].classList.add('pending');
      say([`Pick a second edge of cycle ${cycle}.`]);
    }
  }

  // A leaf is its bridge; of two nodes of one cycle the run between them is shown, and the other run when the second is picked again.
  function pickNode(i) {
    const before = pending;
    const both = before?.node !== undefined && before.node !== i;
    const common = both ? blocksAt[i].filter((c) => c >= 0 && blocksAt[before.node].includes(c)) : [];
    if (common.length > 0) {
      const runs = runsBetween(common[0], before.node, i);
      const turn = before.second === i ? (before.turn + 1) % runs.length : 0;
      const again = runs.length > 1 ? ` Pick node ${i} again for the other way round.` : '';
      show(runs[turn], [`From node ${before.node} to node ${i} of cycle ${common[0]}.${again}`]);
      pending = { node: before.node, second: i, turn };
      markNode(before.node);
      return;
    }
    const cycle = blocksAt[i].find((c) => c >= 0);
    const name = nodeName(i) === '' ? `node ${i}` : `node ${i} (${nodeName(i)})`;
    const more = cycle === undefined ? [] : [`Pick another node of cycle ${cycle} for the run between the two.`];
    showSmallest(i, name, more);
    if (cycle !== undefined) {
      pending = { node: i };
      markNode(i);
    }
  }

  const markNode = (i) => document.querySelector(`[data-node="${i}"]`)?.classList.add('pending');

  // The smallest side with a node, which may be the heavier one.
  function showSmallest(i, name, more) {
    const removed = smallestWith(i);
    const lighter = cutOf(removed).nodes[i];
    const heading = lighter ? `The smallest cut with ${name}.`
      : `${name[0].toUpperCase()}${name.slice(1)} is on the heavier side of each minimum cut; here that side is smallest.`;
    show(removed, [heading, ...more]);
  }

  function pickVertex(v) {
    if (data.nodes.length === 0) {
      pickComponent(data.components.findIndex((part) => part.includes(v)));
      return;
    }
    showSmallest(nodeOf[v], data.names[v], []);
  }

  // All places that a link is in, one after the other; the list shows these alone.
  function pickLink(k) {
    const [a, b] = data.links[k].slice(0, 2).map((v) => nodeOf[v]);
    const fails = changes === null ? [] : [button('Mark as failed', () => {
      changes.fail(k, true);
      changes.said.scrollIntoView({ block: 'nearest' });
    })];
    if (data.nodes.length === 0 || a === b) {
      clear();
      told.classList.add('picked');
      const why = data.nodes.length === 0 ? '' : ': its ends stay together in each of them';
      say([`The link ${linkName(k)} is in no minimum cut${why}.`], [button('Clear', clearAll), ...fails]);
      return;
    }
    const { places, count } = placesBetween(a, b);
    const keys = new Set(places.map((removed) => removed.join(' ')));
    const turn = (at) => {
      const heading = `The link ${linkName(k)} is in ${counted(count, 'minimum cut', 'minimum cuts')} of ${total()}`;
      const steps = places.length < 2 ? [] : [button('Next', () => turn((at + 1) % places.length)),
        button('Previous', () => turn((at + places.length - 1) % places.length))];
      const which = places.length < 2 ? '' : `; this is number ${(at + 1).toLocaleString('en')}, by balance`;
      show(places[at], [`${heading}${which}.`], [...steps, ...fails], true);
    };
    lists.places.limit((row) => keys.has(row.dataset.edges), `Only cuts with the link ${linkName(k)}.`);
    turn(0);
  }

  function total() {
    const pairs = cycles.reduce((sum, { nodes }) => sum + nodes.length * (nodes.length - 1) / 2, 0);
    return (data.edges.filter(([, , cycle]) => cycle < 0).length + pairs - data.skipped.length).toLocaleString('en');
  }

  // A set of vertices that no cut of the cactus need be: a component, or a part of the levels.
  function showSet(vertices, links, heading) {
    clear();
    const cut = { nodes: null, vertices: new Set(vertices), links };
    colour(cut, []);
    const names = links.length > 0 ? [`Links that are cut in it: ${listed(links.map(linkName), 20)}.`] : [];
    say([`${heading} ${sideTold(cut)}`, ...names], [button('Clear', clearAll)]);
  }

  const pickComponent = (i) => showSet(data.components[i], [], 'One component:');

  function pickLevel(i) {
    const { vertices, links, value } = data.levels[i];
    showSet(vertices, links, value === null ? 'A part that is not cut further:' : `A part whose own value is ${amount(value)}:`);
  }

  const acts = { edge: pickEdge, node: pickNode, vertex: pickVertex, link: pickLink, component: pickComponent, level: pickLevel };

  // The names and weights of a picture, the most important first.
  function labelsOf(picture, screen) {
    const lit = (item) => picked !== null && item.group.classList.contains('side');
    const weight = (line) => line.group.classList.contains('cut');
    const lines = picture.name === 'graph' ? picture.lines : [];
    const names = picture.shapes.map((item) => nameLabel(picture, item, screen)).filter((label) => label !== null)
      .sort((x, y) => lit(y.item) - lit(x.item) || y.rank - x.rank);
    const cut = lines.filter(weight).map((line) => weightLabel(line, screen, true));
    const others = differ && (picture.shapes.length <= MANY || screen.scale > 1.1)
      ? lines.filter((line) => !weight(line) && line.length * screen.scale > 50).map((line) => weightLabel(line, screen, false)) : [];
    return [...cut, ...names, ...others];
  }

  // The weight of a link, on it, or beside it where it is short.
  function weightLabel(line, screen, must) {
    const text = must ? amount(data.links[line.number][2]) : decimal(data.links[line.number][2]);
    const [right, down] = [line.b.x - line.a.x, line.b.y - line.a.y];
    const wide = widthOf(text) / 2 + 8;
    const beside = must && line.length * screen.scale < 2 * wide + 24;
    const away = Math.abs(down) / line.length * wide + Math.abs(right) / line.length * 12;
    const spots = beside ? [[0.5, away], [0.5, -away]] : [0.5, 0.4, 0.6, 0.3, 0.7].map((part) => [part, 0]);
    const share = spots.map(([part, off]) => {
      const [x, y] = screen.to(line.a.x + part * right, line.a.y + part * down);
      return [x + off * down / line.length, y - off * right / line.length];
    });
    return { text, kind: must ? 'weight cut' : 'weight', x: share[0][0], y: share[0][1], share, must };
  }

  // The name beside a vertex or a disc of the cactus; null where the name stands in it.
  function nameLabel(picture, item, screen) {
    const inside = picture.name === 'graph' ? item.group.querySelector('text') !== null : picture.boxes;
    const text = inside ? '' : picture.name === 'graph' ? data.names[item.number] : nodeName(item.number);
    if (text === undefined || text === '') {
      return null;
    }
    const [x, y] = screen.to(item.x, item.y);
    const rank = picture.name === 'graph' ? degrees[item.number] : data.nodes[item.number].length + (item.angle === undefined ? 1 : 0);
    return { text: text.length > 26 ? `${text.slice(0, 25)}…` : text, kind: 'name', x, y, angle: item.angle, radius: item.wide * screen.scale, item, rank,
      mayCover: picture.shapes.length <= MANY || item.group.classList.contains('side') || screen.scale > 1.5 };
  }

  function whenPicked(one, action) {
    one.addEventListener('click', (event) => {
      if (event.detail === 0 || !one.closest('svg')) {
        action();
      }
    });
    one.addEventListener('keydown', (event) => {
      if ((event.key === 'Enter' || event.key === ' ') && event.target === one) {
        event.preventDefault();
        action();
      }
    });
  }

  // Rows, and what can be reached by the keyboard in the pictures

  function wireRows() {
    all('tr.place, tr.pick').forEach((row) => {
      const [kind, number] = (row.dataset.pick ?? '').split(' ');
      const works = row.dataset.edges !== undefined || kind === 'component' || kind === 'level' ? data.names.length > 0 : data.nodes.length > 0;
      if (!works || (row.dataset.edges !== undefined && data.edges.length === 0)) {
        return;
      }
      whenPicked(row, () => {
        if (row.dataset.edges === undefined) {
          acts[kind](Number(number));
        } else {
          show(row.dataset.edges.split(' ').map(Number), [], [], true);
        }
        told.scrollIntoView({ block: 'nearest' });
      });
      row.addEventListener('keydown', (event) => {
        if (event.target === row) {
          roveFrom(event, Array.from(row.parentNode.rows).filter((other) => !other.hidden));
        }
      });
    });
  }

  function wirePicture(picture) {
    [picture.lines, picture.shapes].forEach((items) => {
      const groups = items.map((item) => item.group);
      rove(groups);
      items.forEach((item) => {
        whenPicked(item.group, () => acts[item.kind](item.number));
        item.group.addEventListener('keydown', (event) => roveFrom(event, groups));
        item.group.addEventListener('focus', () => {
          if (item.group.matches(':focus-visible')) {
            picture.reveal(item);
            const frame = picture.svg.getBoundingClientRect();
            const [x, y] = picture.screen(frame).to(item.x, item.y);
            picture.hover(item, [frame.left + x, frame.top + y]);
          }
        });
        item.group.addEventListener('blur', () => picture.hover(null));
      });
    });
    all('[data-save]', picture.pane).forEach((one) => one.addEventListener('click', () => savePicture(picture, one.dataset.save)));
    picture.labels = labelsOf;
    picture.later();
  }

  const differ = data.links.some((one) => one[2] !== data.links[0][2]);
  const degrees = data.names.map(() => 0);
  data.links.forEach(([i, j]) => {
    degrees[i] += 1;
    degrees[j] += 1;
  });
  const pictures = data.names.length === 0 ? [] : all('.pane').map((pane) => new Picture(pane, (kind, number) => acts[kind](number)));
  const lists = Object.fromEntries(all('.list').map((box) => [box.dataset.list, new List(box)]));
  const form = document.getElementById('what-if');
  const changes = form === null ? null : new Changes(form, pictures.find((picture) => picture.name === 'graph'));
  pictures.forEach(wirePicture);
  wireRows();
  foldLevels();
  document.addEventListener('keydown', (event) => {
    if (event.key === 'Escape') {
      clearAll();
    }
  });
  document.getElementById('plan')?.addEventListener('change', (event) => {
    all('.plan').forEach((group) => group.classList.toggle('shown', event.target.checked));
  });
  window.addEventListener('beforeprint', () => pictures.forEach((picture) => {
    const wide = pictures.length > 1 ? 335 : 680;
    picture.refresh({ width: wide, height: Math.min(560, wide * picture.view[3] / picture.view[2]) });
  }));
  window.addEventListener('afterprint', () => pictures.forEach((picture) => picture.refresh()));
