  // Names and weights in a picture: at one size on the screen whatever the zoom is, and only where they hide no other.

  const TEXT = 12;                   // pixels of the height of a text
  const CELL = 12;                   // pixels of a cell in which some part of a label may be

  const pen = document.createElement('canvas').getContext('2d');
  const widths = new Map();

  // The pixels of a text.
  function widthOf(text) {
    if (!widths.has(text)) {
      pen.font = `${TEXT}px ${getComputedStyle(document.body).fontFamily}`;
      widths.set(text, pen.measureText(text).width);
    }
    return widths.get(text);
  }

  // Takes room on the screen. Each thing that takes some is a list of points; two points of one cell's size apart do not meet.
  class Room {
    constructor() {
      this.cells = new Map();
    }

    key(x, y) {
      return Math.floor(x / CELL) * 100003 + Math.floor(y / CELL);
    }

    free(points) {
      return points.every(([x, y]) => {
        for (const right of [-CELL, 0, CELL]) {
          for (const down of [-CELL, 0, CELL]) {
            const there = this.cells.get(this.key(x + right, y + down));
            if (there !== undefined && there.some(([a, b, size]) => (a - x) ** 2 + (b - y) ** 2 < size ** 2)) {
              return false;
            }
          }
        }
        return true;
      });
    }

    take(points, size = CELL) {
      points.forEach(([x, y]) => {
        const key = this.key(x, y);
        if (!this.cells.has(key)) {
          this.cells.set(key, []);
        }
        this.cells.get(key).push([x, y, size]);
      });
    }
  }

  // The points of a text of this width whose middle line starts at (x, y) and goes in the direction of an angle.
  function pointsOf(x, y, wide, angle) {
    const points = [];
    const count = Math.max(1, Math.ceil(wide / 9));
    for (let k = 0; k <= count; k += 1) {
      points.push([x + Math.cos(angle) * wide * k / count, y + Math.sin(angle) * wide * k / count]);
    }
    return points;
  }

  // Where a label can stand: {x, y, angle, anchor} of the start of its middle line, in pixels.
  function spotsOf(label) {
    const wide = widthOf(label.text) * (label.kind === 'weight cut' ? 1.12 : 1);
    if (label.angle !== undefined) {
      const angle = label.angle * Math.PI / 180;
      const start = label.radius + 5;
      const along = [label.x + Math.cos(angle) * start, label.y + Math.sin(angle) * start];
      return [{ x: along[0], y: along[1], angle, wide, anchor: 'start' }];
    }
    if (label.share !== undefined) {
      return label.share.map(([x, y]) => ({ x: x - wide / 2, y, angle: 0, wide, anchor: 'middle' }));
    }
    const gap = label.radius + 3;
    const slant = gap * 0.72;
    return [[-wide / 2, -gap - 6], [-wide / 2, gap + 7], [gap + 1, 0], [-gap - 1 - wide, 0], [slant, -slant - 4], [-slant - wide, -slant - 4],
      [slant, slant + 5], [-slant - wide, slant + 5]].map(([x, y]) => ({ x: label.x + x, y: label.y + y, angle: 0, wide, anchor: 'start' }));
  }

  // The points of lines that names had better not lie on.
  function lineRoom(lines, screen) {
    const room = new Room();
    for (const [x, y, right, down] of lines) {
      const length = Math.hypot(right - x, down - y);
      if (length < 4000 && Math.min(x, right) < screen.width && Math.max(x, right) > 0 && Math.min(y, down) < screen.height && Math.max(y, down) > 0) {
        room.take(pointsOf(x, y, length, Math.atan2(down - y, right - x)), 6);
      }
    }
    return room;
  }

  // Writes the labels that have room into a picture, the first before the others; `must` are written in any case. Names lie on no
  // line, but for those that `mayCover` one.
  function writeLabels(overlay, labels, discs, lines, screen) {
    const room = new Room();
    const lined = lineRoom(lines, screen);
    discs.forEach(([x, y, radius]) => room.take([[x, y]], Math.min(radius + 4, CELL)));
    const texts = [];
    for (const label of labels) {
      if (label.x < -20 || label.y < -20 || label.x > screen.width + 20 || label.y > screen.height + 20) {
        continue;
      }
      const spots = spotsOf(label).map((one) => ({ ...one, points: pointsOf(one.x, one.y, one.wide, one.angle) }));
      const free = spots.filter((one) => (one.angle !== 0 || (one.x >= 0 && one.x + one.wide <= screen.width)) && room.free(one.points));
      let spot = label.share === undefined ? free.find((one) => lined.free(one.points)) ?? (label.mayCover ? free[0] : undefined) : free[0];
      if (spot === undefined && label.must) {
        [spot] = spots;
      }
      if (spot !== undefined) {
        room.take(spot.points);
        texts.push(textOf(label, spot, screen));
      }
    }
    overlay.setAttribute('font-size', TEXT / screen.scale);
    overlay.style.strokeWidth = 3.5 / screen.scale;
    overlay.replaceChildren(...texts);
  }

  function textOf(label, spot, screen) {
    const turned = Math.cos(spot.angle) < 0;
    const [x, y] = screen.back(spot.x + (spot.anchor === 'middle' ? spot.wide / 2 : 0), spot.y);
    const text = shape('text', { class: label.kind, 'text-anchor': turned ? 'end' : spot.anchor, dy: '0.35em', x, y });
    if (spot.angle !== 0) {
      text.setAttribute('transform', `rotate(${spot.angle * 180 / Math.PI + (turned ? 180 : 0)} ${x} ${y})`);
    }
    text.textContent = label.text;
    return text;
  }
