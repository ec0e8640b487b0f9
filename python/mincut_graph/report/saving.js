  // Pictures and lists as files.

  function download(name, blob) {
    const link = element('a', { href: URL.createObjectURL(blob), download: name });
    document.body.append(link);
    link.click();
    link.remove();
    setTimeout(() => URL.revokeObjectURL(link.href), 60000);
  }

  const fileName = (what, suffix) => `${document.querySelector('h1').textContent.replace(/[^\p{L}\p{N}._-]+/gu, '-') || 'mincut'}-${what}.${suffix}`;

  // The rules of the page for light colours on a screen, with values in the place of variables, which many programs do not know.
  function lightRules() {
    const rules = Array.from(document.styleSheets).flatMap((sheet) => Array.from(sheet.cssRules)).filter((rule) => !(rule instanceof CSSMediaRule));
    const colours = rules.find((rule) => rule.selectorText === ':root').style;
    return rules.filter((rule) => rule.selectorText !== ':root').map((rule) => rule.cssText).join('\n')
      .replace(/var\((--[\w-]+)(?:, [^)]*)?\)/g, (whole, name) => colours.getPropertyValue(name).trim() || '1');
  }

  // Gives the lines of a copy the widths that they have on the screen now, in units of the picture.
  function fixWidths(picture, copy) {
    const { scale } = picture.screen();
    const what = 'line, circle, rect, polygon';
    const copies = all(what, copy);
    all(what, picture.svg).forEach((one, k) => {
      const style = getComputedStyle(one);
      if (style.vectorEffect === 'non-scaling-stroke') {
        const dashes = style.strokeDasharray === 'none' ? 'none' : style.strokeDasharray.split(/[ ,]+/).map((part) => parseFloat(part) / scale).join(' ');
        copies[k].style.setProperty('vector-effect', 'none', 'important');
        copies[k].style.setProperty('stroke-width', parseFloat(style.strokeWidth) / scale, 'important');
        copies[k].style.setProperty('stroke-dasharray', dashes, 'important');
      }
    });
  }

  // The picture as it is seen now, as a text of its own, in light colours.
  function svgText(picture) {
    const copy = picture.svg.cloneNode(true);
    const size = picture.svg.getBoundingClientRect();
    copy.setAttribute('width', Math.round(size.width));
    copy.setAttribute('height', Math.round(size.height));
    copy.setAttribute('class', picture.pane.className.replace(/\bpane\b/, ''));
    fixWidths(picture, copy);
    const [left, top, wide, high] = picture.view;
    const background = shape('rect', { x: left - wide, y: top - high, width: 3 * wide, height: 3 * high, class: 'paper' });
    const style = shape('style');
    style.textContent = lightRules();
    all('.hit', copy).forEach((line) => line.remove());
    copy.prepend(style, background);
    return new XMLSerializer().serializeToString(copy);
  }

  function savePicture(picture, form) {
    const text = svgText(picture);
    if (form === 'svg') {
      download(fileName(picture.name, 'svg'), new Blob([text], { type: 'image/svg+xml' }));
      return;
    }
    const size = picture.svg.getBoundingClientRect();
    const image = new Image();
    image.addEventListener('load', () => {
      const canvas = element('canvas', { width: Math.round(2 * size.width), height: Math.round(2 * size.height) });
      canvas.getContext('2d').drawImage(image, 0, 0, canvas.width, canvas.height);
      canvas.toBlob((blob) => download(fileName(picture.name, 'png'), blob), 'image/png');
    });
    image.src = `data:image/svg+xml;charset=utf-8,${encodeURIComponent(text)}`;
  }

  function saveTable(name, rows) {
    const cell = (value) => (/[",\r\n]/.test(String(value)) ? `"${String(value).replaceAll('"', '""')}"` : String(value));
    const text = rows.map((row) => `${row.map(cell).join(',')}\r\n`).join('');
    download(fileName(name, 'csv'), new Blob(['\ufeff', text], { type: 'text/csv' }));
  }

  const plain = (weight) => String(Number((weight / data.scale).toPrecision(15)));
  const link = (k) => [data.names[data.links[k][0]], data.names[data.links[k][1]], plain(data.links[k][2])];

  // The rows of a list as CSV: places with one row for each link that is cut, everything else as it is on the page, with all names.
  function csvRows(name, rows) {
    const heads = all(`#${name} th`).map((head) => head.textContent);
    if (name === 'places' && data.links.length > 0) {
      const found = rows.flatMap((row) => {
        const edges = row.dataset.edges.split(' ').map(Number);
        const cut = cutOf(edges);
        const side = Array.from(cut.vertices).sort((a, b) => a - b).map((v) => data.names[v]).join('; ');
        return cut.links.map((k) => [row.cells[0].textContent, row.cells[1].dataset.value, side, ...link(k)]);
      });
      return [['place', 'balance', 'lighter side', 'from', 'to', 'weight'], ...found];
    }
    const sets = { nodes: data.nodes, components: data.components };
    return [heads, ...rows.map((row) => Array.from(row.cells).map((cell, at) => {
      const number = Number((row.dataset.pick ?? '').split(' ')[1]);
      if (sets[name]?.[number] !== undefined && at === row.cells.length - 1 && data.names.length > 0) {
        return sets[name][number].map((v) => data.names[v]).join('; ');
      }
      const weight = name === 'links' && at === 2;
      return cell.dataset.value === undefined ? cell.textContent : weight ? plain(Number(cell.dataset.value)) : cell.dataset.value;
    }))];
  }
