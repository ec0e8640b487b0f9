  // A picture: what is nearest to the pointer, larger and smaller, names and weights on it.

  const REACH = 7;                   // pixels around the pointer in which something is hit
  const TOUCH_REACH = 12;            // the same for a finger
  const LEAST_HALF = 6;              // half the pixels of each thing that can be hit, however small it is drawn
  const STILL = 4;                   // pixels that the pointer may move in a click
  const MANY_LINES = 300;            // edges of a cactus that are drawn thinner
  const MOST_LINES = 5000;           // lines that names keep off

  const attribute = (shape, name) => Number(shape.getAttribute(name));

  // A vertex or a node: its middle and half its width and height.
  function shapeOf(group, kind) {
    const number = Number(group.dataset[kind]);
    const angle = group.dataset.angle === undefined ? undefined : Number(group.dataset.angle);
    const circle = group.querySelector('circle');
    if (circle !== null) {
      const radius = attribute(circle, 'r');
      return { group, kind, number, angle, round: true, x: attribute(circle, 'cx'), y: attribute(circle, 'cy'), wide: radius, high: radius };
    }
    const box = group.querySelector('rect');
    const wide = attribute(box, 'width') / 2;
    const high = attribute(box, 'height') / 2;
    return { group, kind, number, angle, round: false, x: attribute(box, 'x') + wide, y: attribute(box, 'y') + high, wide, high };
  }

  // A link or an edge: its ends, in the middles of two shapes.
  function lineOf(group, kind, shapes) {
    const number = Number(group.dataset[kind]);
    const [i, j] = (kind === 'link' ? data.links : data.edges)[number];
    const [a, b] = [shapes[i], shapes[j]];
    return { group, kind, number, a, b, length: Math.hypot(b.x - a.x, b.y - a.y) || 1e-9, x: (a.x + b.x) / 2, y: (a.y + b.y) / 2 };
  }

  // How far a shape reaches from its middle in the direction (x, y) of length 1.
  function exitOf(shape, x, y) {
    return shape.round ? shape.wide : Math.min(shape.wide / (Math.abs(x) || 1e-9), shape.high / (Math.abs(y) || 1e-9));
  }

  // The part of a line, in pixels from its first end, in which it is hit: what lies between the shapes of its ends, or half of that room
  // and of those shapes where they leave little.
  function coreOf(line, scale) {
    const [x, y] = [(line.b.x - line.a.x) / line.length, (line.b.y - line.a.y) / line.length];
    const low = Math.max(exitOf(line.a, x, y) * scale, LEAST_HALF);
    const high = line.length * scale - Math.max(exitOf(line.b, x, y) * scale, LEAST_HALF);
    if (high - low >= 2 * LEAST_HALF) {
      return [low, high];
    }
    const middle = Math.min(Math.max((low + high) / 2, 0), line.length * scale);
    const half = Math.min(LEAST_HALF, line.length * scale / 4);
    return [middle - half, middle + half];
  }

  class Picture {
    constructor(pane, act) {
      this.pane = pane;
      this.act = act;
      this.svg = pane.querySelector('svg');
      this.name = this.svg.id;
      this.overlay = pane.querySelector('.overlay');
      this.whole = this.svg.getAttribute('viewBox').split(' ').map(Number);
      this.view = this.whole.slice();
      const [shapeKind, lineKind] = this.name === 'graph' ? ['vertex', 'link'] : ['node', 'edge'];
      this.shapes = all(`[data-${shapeKind}]`, this.svg).map((group) => shapeOf(group, shapeKind));
      this.lines = all(`[data-${lineKind}]`, this.svg).map((group) => lineOf(group, lineKind, this.shapes));
      this.boxes = this.shapes.some((shape) => !shape.round);
      this.labels = () => [];
      this.pointers = new Map();
      this.start = null;
      this.hovered = null;
      this.listen();
      this.refresh();
    }

    // From places of the picture to pixels from its upper left corner, and back.
    screen(size = this.svg.getBoundingClientRect()) {
      const [left, top, wide, high] = this.view;
      const scale = Math.min(size.width / wide, size.height / high) || 1e-9;
      const right = (size.width - wide * scale) / 2;
      const down = (size.height - high * scale) / 2;
      return { scale, width: size.width, height: size.height, to: (x, y) => [(x - left) * scale + right, (y - top) * scale + down],
        back: (x, y) => [(x - right) / scale + left, (y - down) / scale + top] };
    }

    // The vertex, link, node or edge nearest to a place on the screen, or null.
    nearest(clientX, clientY, reach = REACH) {
      const frame = this.svg.getBoundingClientRect();
      const screen = this.screen(frame);
      const [x, y] = screen.back(clientX - frame.left, clientY - frame.top);
      const shape = this.nearestShape(x, y, screen.scale, reach);
      const line = this.nearestLine(x, y, screen.scale, reach);
      if (shape === null || line === null) {
        return (shape ?? line)?.item ?? null;
      }
      if (shape.off === 0 && (this.name === 'graph' || shape.middle < line.off)) {
        return shape.item;
      }
      return line.item;
    }

    nearestShape(x, y, scale, reach) {
      let best = null;
      for (const item of this.shapes) {
        const [right, down] = [Math.abs(x - item.x) * scale, Math.abs(y - item.y) * scale];
        const [wide, high] = [Math.max(item.wide * scale, LEAST_HALF), Math.max(item.high * scale, LEAST_HALF)];
        const middle = Math.hypot(right, down);
        const off = item.round ? Math.max(middle - wide, 0) : Math.hypot(Math.max(right - wide, 0), Math.max(down - high, 0));
        if (off <= reach && (best === null || off < best.off || (off === best.off && middle < best.middle))) {
          best = { item, off, middle };
        }
      }
      return best;
    }

    nearestLine(x, y, scale, reach) {
      let best = null;
      for (const item of this.lines) {
        const { a, b, length } = item;
        const off = Math.abs((x - a.x) * (b.y - a.y) - (y - a.y) * (b.x - a.x)) / length * scale;
        if (off <= reach && (best === null || off < best.off)) {
          const along = ((x - a.x) * (b.x - a.x) + (y - a.y) * (b.y - a.y)) / length * scale;
          const [low, high] = coreOf(item, scale);
          if (low <= along && along <= high) {
            best = { item, off };
          }
        }
      }
      return best;
    }

    // Larger and smaller

    set(view) {
      this.view = view;
      this.svg.setAttribute('viewBox', view.join(' '));
      this.later();
    }

    later() {
      if (this.frame === undefined) {
        this.frame = requestAnimationFrame(() => {
          this.frame = undefined;
          this.refresh();
        });
      }
    }

    refresh(size = undefined) {
      const screen = this.screen(size);
      const [thin, thick] = this.boxes ? [0.6, 1] : [this.lines.length > MANY_LINES ? 0.1 : 0.25, 0.6];
      this.svg.style.setProperty('--bold', Math.min(thick, Math.max(thin, screen.scale * (this.boxes ? 1.5 : 0.6))));
      this.pane.classList.toggle('near', screen.scale > 0.9);
      const place = (shape) => screen.to(shape.x, shape.y);
      const discs = this.shapes.map((shape) => [...place(shape), shape.wide * screen.scale]);
      const lines = this.lines.length > MOST_LINES ? [] : this.lines.map(({ a, b }) => [...screen.to(a.x, a.y), ...screen.to(b.x, b.y)]);
      writeLabels(this.overlay, this.labels(this, screen), discs, lines, screen);
    }

    scale(factor, x, y) {
      const view = this.view;
      const next = Math.min(Math.max(view[2] * factor, this.whole[2] / 100), this.whole[2] * 2) / view[2];
      this.set([x - (x - view[0]) * next, y - (y - view[1]) * next, view[2] * next, view[3] * next]);
    }

    move(right, down) {
      const { scale } = this.screen();
      this.set([this.view[0] - right / scale, this.view[1] - down / scale, this.view[2], this.view[3]]);
    }

    // Moves the picture so that a thing is on it.
    reveal(item) {
      const [left, top, wide, high] = this.view;
      if (item.x < left || item.x > left + wide || item.y < top || item.y > top + high) {
        this.set([item.x - wide / 2, item.y - high / 2, wide, high]);
      }
    }

    zoom(word) {
      if (word === 'whole') {
        this.set(this.whole.slice());
      } else {
        this.scale(word === 'in' ? 0.7 : 1 / 0.7, this.view[0] + this.view[2] / 2, this.view[1] + this.view[3] / 2);
      }
    }

    placeOf(event) {
      const frame = this.svg.getBoundingClientRect();
      return this.screen(frame).back(event.clientX - frame.left, event.clientY - frame.top);
    }

    // The pointer

    listen() {
      const { svg } = this;
      all('[data-zoom]', this.pane).forEach((button) => button.addEventListener('click', () => this.zoom(button.dataset.zoom)));
      svg.addEventListener('wheel', (event) => {
        if (event.ctrlKey || event.metaKey) {
          event.preventDefault();
          this.scale(event.deltaY < 0 ? 0.85 : 1 / 0.85, ...this.placeOf(event));
        }
      }, { passive: false });
      svg.addEventListener('touchmove', (event) => {
        if (event.touches.length > 1) {
          event.preventDefault();
        }
      }, { passive: false });
      svg.addEventListener('pointerdown', (event) => this.down(event));
      svg.addEventListener('pointermove', (event) => this.moved(event));
      svg.addEventListener('pointerup', (event) => this.up(event));
      svg.addEventListener('pointercancel', (event) => this.gone(event));
      svg.addEventListener('pointerleave', () => this.hover(null));
      new ResizeObserver(() => this.later()).observe(svg);
    }

    down(event) {
      if (event.button === 0) {
        this.pointers.set(event.pointerId, [event.clientX, event.clientY]);
        this.start = this.pointers.size === 1 ? [event.clientX, event.clientY] : null;
        this.svg.setPointerCapture(event.pointerId);
      }
    }

    moved(event) {
      const before = this.pointers.get(event.pointerId);
      const now = [event.clientX, event.clientY];
      if (before === undefined) {
        this.hover(this.nearest(...now), now);
        return;
      }
      if (this.start !== null && Math.hypot(now[0] - this.start[0], now[1] - this.start[1]) <= STILL) {
        return;
      }
      this.start = null;
      if (this.pointers.size === 2) {
        const other = Array.from(this.pointers.entries()).find(([id]) => id !== event.pointerId)[1];
        const apart = (place) => Math.hypot(place[0] - other[0], place[1] - other[1]) || 1;
        this.scale(apart(before) / apart(now), ...this.placeOf({ clientX: (now[0] + other[0]) / 2, clientY: (now[1] + other[1]) / 2 }));
        this.move((now[0] - before[0]) / 2, (now[1] - before[1]) / 2);
      } else if (event.pointerType !== 'touch') {
        this.move(now[0] - before[0], now[1] - before[1]);
      }
      this.pointers.set(event.pointerId, now);
    }

    up(event) {
      if (this.start !== null && this.pointers.has(event.pointerId)) {
        const item = this.nearest(event.clientX, event.clientY, event.pointerType === 'touch' ? TOUCH_REACH : REACH);
        if (item !== null) {
          this.act(item.kind, item.number);
        }
      }
      this.gone(event);
    }

    gone(event) {
      this.pointers.delete(event.pointerId);
      this.start = null;
    }

    // Shows what the pointer or the keyboard is at: its name beside it, and thicker.
    hover(item, place = undefined) {
      if (item !== this.hovered) {
        this.hovered?.group.classList.remove('hover');
        item?.group.classList.add('hover');
        this.hovered = item;
        this.svg.style.cursor = item === null ? '' : 'pointer';
      }
      tell(item === null ? '' : item.group.getAttribute('aria-label'), place);
    }
  }

  const tip = document.getElementById('tip');

  function tell(text, place) {
    tip.hidden = text === '';
    tip.textContent = text;
    if (text !== '') {
      const wide = tip.offsetWidth;
      tip.style.left = `${Math.max(4, Math.min(place[0] + 14, document.documentElement.clientWidth - wide - 4))}px`;
      tip.style.top = `${place[1] + 18}px`;
    }
  }
