  // Links that are marked as failed or new, and the value then where the file has it; else the command that finds it.

  class Changes {
    constructor(form, picture) {
      this.form = form;
      this.picture = picture;
      this.removed = [];             // numbers of links
      this.added = [];               // [i, j, weight]
      this.list = document.getElementById('changes');
      this.said = document.getElementById('changed');
      document.getElementById('names').append(...data.names.map((name) => element('option', { value: name })));
      form.elements.weight.value = plain(data.links.reduce((least, [, , w]) => Math.min(least, w), Infinity));
      form.addEventListener('submit', (event) => {
        event.preventDefault();
        this.take(event.submitter?.dataset.change ?? 'add');
      });
      this.lines = shape('g', { class: 'added' });
      picture?.svg.querySelector('.vertices').before(this.lines);
    }

    // The change that the form has.
    take(kind) {
      const [i, j] = ['from', 'to'].map((name) => data.names.indexOf(this.form.elements[name].value.trim())).sort((a, b) => a - b);
      if (i < 0 || i === j) {
        this.said.textContent = 'Name two different vertices of the graph.';
        return;
      }
      if (kind === 'remove') {
        const k = data.links.findIndex(([a, b]) => a === i && b === j);
        if (k < 0) {
          this.said.textContent = `There is no link between ${data.names[i]} and ${data.names[j]}.`;
          return;
        }
        this.fail(k, true);
        return;
      }
      const weight = Math.round(Number(this.form.elements.weight.value) * data.scale);
      if (!(weight >= 1)) {
        this.said.textContent = `A new link has a weight of ${amount(1)} or more.`;
        return;
      }
      this.added.push([i, j, weight]);
      this.show();
    }

    // Marks a link as failed, or takes the mark away.
    fail(k, failed) {
      this.removed = this.removed.filter((other) => other !== k);
      if (failed) {
        this.removed.push(k);
      }
      this.show();
    }

    key(removed, added) {
      return JSON.stringify([removed.map(([i, j]) => `${i} ${j}`).sort(), added.map((one) => one.join(' ')).sort()]);
    }

    show() {
      const rows = [...this.removed.map((k) => [`${linkName(k)} fails`, () => this.fail(k, false)]),
        ...this.added.map((one) => [`new: ${data.names[one[0]]} – ${data.names[one[1]]} (${amount(one[2])})`, () => {
          this.added = this.added.filter((other) => other !== one);
          this.show();
        }])];
      this.list.replaceChildren(...rows.map(([text, undo]) => {
        const row = element('li', {}, `${text} `);
        const button = element('button', { type: 'button' }, 'Undo');
        button.addEventListener('click', undo);
        row.append(button);
        return row;
      }));
      all('.link.failed').forEach((line) => line.classList.remove('failed'));
      this.removed.forEach((k) => document.querySelector(`[data-link="${k}"]`)?.classList.add('failed'));
      this.draw();
      this.tell();
    }

    draw() {
      this.lines.replaceChildren(...this.added.map(([i, j]) => {
        const [a, b] = [this.picture.shapes[i], this.picture.shapes[j]];
        return shape('line', { x1: a.x, y1: a.y, x2: b.x, y2: b.y, class: 'new' });
      }));
    }

    tell() {
      const pairs = this.removed.map((k) => data.links[k].slice(0, 2));
      const found = data.changes.find((change) => this.key(change.remove, change.add) === this.key(pairs, this.added));
      if (pairs.length + this.added.length === 0) {
        this.said.textContent = 'Nothing is changed. Pick a link in the graph to mark it as failed, or name the two ends above.';
      } else if (found !== undefined) {
        const places = Number.isInteger(found.places) ? `, with ${counted(found.places, 'minimum cut', 'minimum cuts')}` : '';
        this.said.textContent = `With these changes the value is ${amount(found.value)}${places}; it was ${amount(data.value)}.`;
      } else {
        this.said.replaceChildren('The value with these changes was not computed for this page. This command finds it: ',
          element('code', {}, this.command(pairs)));
      }
    }

    command(pairs) {
      const quoted = (word) => (/^[\w./,:+-]+$/.test(word) ? word : `'${word.replaceAll("'", "'\\''")}'`);
      const name = (v) => data.names[v];
      const words = [...pairs.map(([i, j]) => ['--remove', `${name(i)},${name(j)}`]),
        ...this.added.map(([i, j, w]) => ['--add', `${name(i)},${name(j)},${plain(w)}`])].flat();
      return ['mincut-graph', 'what-if', quoted(data.source), ...words.map(quoted)].join(' ');
    }
  }
