  // The lists: pages of 50 rows, sorted by a head, searched by a word.

  const PAGE = 50;

  class List {
    constructor(box) {
      this.box = box;
      this.name = box.dataset.list;
      this.body = box.querySelector('tbody');
      this.rows = Array.from(this.body.rows);
      this.page = 0;
      this.only = null;
      this.input = box.querySelector('input');
      this.input.addEventListener('input', () => this.show(0));
      all('[data-turn]', box).forEach((button) => button.addEventListener('click', () => this.show(this.page + Number(button.dataset.turn))));
      all('thead button', box).forEach((button, column) => button.addEventListener('click', () => this.sort(column)));
      box.querySelector('[data-csv]')?.addEventListener('click', () => saveTable(this.name, csvRows(this.name, this.found())));
      this.show(0);
    }

    key(row, column) {
      const cell = row.cells[column];
      return cell.dataset.value === undefined ? cell.textContent : Number(cell.dataset.value);
    }

    // Ascending, and descending where the list was ascending; numbers begin with the greatest.
    sort(column) {
      const head = all('th', this.box)[column];
      const before = head.getAttribute('aria-sort');
      const descending = before === null ? head.classList.contains('number') && column > 0 : before === 'ascending';
      all('th', this.box).forEach((other) => other.removeAttribute('aria-sort'));
      head.setAttribute('aria-sort', descending ? 'descending' : 'ascending');
      const order = new Intl.Collator(undefined, { numeric: true });
      const compare = (a, b) => (typeof a === 'number' && typeof b === 'number' ? a - b : order.compare(String(a), String(b)));
      this.rows = this.rows.map((row) => [this.key(row, column), row])
        .sort((a, b) => (descending ? compare(b[0], a[0]) : compare(a[0], b[0]))).map(([, row]) => row);
      this.body.replaceChildren(...this.rows);
      this.show(0);
    }

    // Shows those rows alone for which this is true; `text` says which they are. Without words all are shown again.
    limit(only, text) {
      if (only === null && this.only === null) {
        return;
      }
      this.only = only;
      const box = this.box.querySelector('.only');
      box.hidden = only === null;
      if (only !== null) {
        const more = element('button', { type: 'button' }, 'Show all');
        more.addEventListener('click', () => this.limit(null));
        box.replaceChildren(`${text} `, more);
      }
      this.show(0);
    }

    found() {
      const word = this.input.value.trim().toLocaleLowerCase();
      const vertices = word === '' ? null : new Set(data.names.flatMap((name, v) => (name.toLocaleLowerCase().includes(word) ? [v] : [])));
      return this.rows.filter((row) => (this.only === null || this.only(row))
        && (word === '' || row.textContent.toLocaleLowerCase().includes(word) || this.hasVertex(row, vertices)));
    }

    // Whether the lighter side of a place, or the node of a row, has one of these vertices, be its name in the row or not.
    hasVertex(row, vertices) {
      if (vertices.size === 0 || data.nodes.length === 0) {
        return false;
      }
      if (row.dataset.edges !== undefined) {
        const [low, high] = rangeOf(row.dataset.edges.split(' ').map(Number));
        const below = 2 * (massUpTo[high + 1] - massUpTo[low]) <= totalMass;
        return Array.from(vertices).some((v) => (low <= nodeOf[v] && nodeOf[v] <= high) === below);
      }
      const [kind, number] = (row.dataset.pick ?? '').split(' ');
      return kind === 'node' && data.nodes[number].some((v) => vertices.has(v));
    }

    show(page) {
      const found = this.found();
      const pages = Math.max(1, Math.ceil(found.length / PAGE));
      this.page = Math.min(Math.max(page, 0), pages - 1);
      const from = this.page * PAGE;
      const seen = new Set(found.slice(from, from + PAGE));
      this.rows.forEach((row) => { row.hidden = !seen.has(row); });
      const [first, end] = [found.length === 0 ? 0 : from + 1, Math.min(from + PAGE, found.length)];
      this.box.querySelector('.shown').textContent = `${first.toLocaleString('en')}–${end.toLocaleString('en')} of ${found.length.toLocaleString('en')}`;
      const [back, next] = all('[data-turn]', this.box);
      [back.disabled, next.disabled] = [this.page === 0, this.page === pages - 1];
      [back.hidden, next.hidden] = [pages === 1, pages === 1];
      this.box.querySelector('.scroll').scrollTop = 0;
      rove(Array.from(seen));
    }

    // Turns to the page of a row.
    reveal(row) {
      const place = this.found().indexOf(row);
      if (place >= 0) {
        this.show(Math.floor(place / PAGE));
        const frame = this.box.querySelector('.scroll');
        frame.scrollTop = Math.max(0, row.offsetTop - frame.clientHeight / 2);
      }
    }
  }

  // One of these elements is reached by the tabulator, the others from it by the arrows.
  function rove(elements) {
    elements.forEach((one, k) => { one.tabIndex = one.hasAttribute('role') && k === 0 ? 0 : -1; });
  }

  function roveFrom(event, elements) {
    const steps = { ArrowDown: 1, ArrowRight: 1, ArrowUp: -1, ArrowLeft: -1 };
    const here = elements.indexOf(event.currentTarget);
    const next = event.key === 'Home' ? 0 : event.key === 'End' ? elements.length - 1 : here + (steps[event.key] ?? NaN);
    if (elements[next] !== undefined) {
      event.preventDefault();
      elements[here].tabIndex = -1;
      elements[next].tabIndex = 0;
      elements[next].focus();
    }
  }

  // The levels fold: what is under a folded row is hidden.
  function foldLevels() {
    const rows = all('#levels tbody tr');
    const folds = rows.map((row) => row.querySelector('.fold'));
    const draw = () => rows.forEach((row) => {
      const above = Number(row.dataset.above);
      row.hidden = above >= 0 && (rows[above].hidden || folds[above]?.getAttribute('aria-expanded') === 'false');
    });
    const turn = (button, open) => {
      button.setAttribute('aria-expanded', open);
      button.textContent = open ? '▾' : '▸';
    };
    folds.forEach((button, k) => button?.addEventListener('click', (event) => {
      event.stopPropagation();
      turn(folds[k], button.getAttribute('aria-expanded') === 'false');
      draw();
    }));
    if (rows.length > PAGE) {
      folds.slice(1).forEach((button) => button && turn(button, false));
    }
    draw();
    rove(rows);
  }
