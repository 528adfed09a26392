// The page: what is seen of the drawing, the entry that is looked at, keys and mouse.

const FEW = 1440;  // columns that are printed as strips; of more only what is seen is
const LARGEST = 60, PIXELS = 1.6e7;  // of a column, and of all, since browsers lay out no more
const byId = id => document.getElementById(id);

async function unpacked(id) {
  const bytes = Uint8Array.from(atob(byId(id).textContent.trim()), letter => letter.charCodeAt(0));
  return new Response(new Blob([bytes]).stream().pipeThrough(new DecompressionStream('deflate-raw'))).json();
}

class Page {
  constructor(data) {
    this.data = data;
    this.drawing = new Drawing(data);
    this.state = new State(data);
    this.scroll = byId('scroll');
    this.zoom = data.sizes.col;
    this.now = this.pinned = null;
    this.search = {columns: [], turn: -1};
    for (const part of document.querySelectorAll('.scripted')) part.hidden = false;
    this.listen();
    this.resize();
    if (document.readyState === 'loading') document.addEventListener('DOMContentLoaded', () => this.fromAddress());  // rows of the table may not be there
    else this.fromAddress();
  }

  // ---- what is seen

  get wide() { return this.scroll.clientWidth; }
  get left() { return this.scroll.scrollLeft / this.zoom; }
  // All of a run within the window; of a short one the columns are as wide as reads well. The overview has this width too.
  get least() { return Math.min(this.wide / this.data.columns, 1.5 * this.data.sizes.col); }
  get most() { return Math.min(LARGEST, PIXELS / this.data.columns); }

  resize() {
    this.zoomTo(this.zoom);
    this.overview();
    this.render();
  }

  zoomTo(zoom, x = this.middle()) {
    const at = this.left + x / this.zoom;
    this.zoom = Math.max(this.least, Math.min(this.most, zoom));
    byId('wide').style.width = `${Math.floor(this.data.columns * this.zoom)}px`;
    this.scroll.scrollLeft = at * this.zoom - x;
    this.render();
  }

  // The entry that is looked at if it is seen, else the middle.
  middle() {
    const x = this.now === null ? -1 : (this.now + .5 - this.left) * this.zoom;
    return x >= 0 && x <= this.wide ? x : this.wide / 2;
  }

  wanted() {
    if (this.waits) return;
    this.waits = true;
    requestAnimationFrame(() => { this.waits = false; this.render(); });
  }

  render() {
    const {data, zoom, left, wide} = this, end = Math.min(data.columns, left + wide / zoom), drawn = byId('drawn'), shown = (end - left) * zoom;
    drawn.setAttribute('width', wide);
    const every = this.every(), first = Math.ceil((data.first + left) / every) * every - data.first, heads = [], grid = [];
    for (let column = first; column < end; column += every) {
      const x = (column + .5 - left) * zoom, head = this.head(column), half = head.length * data.sizes.small / 2 + 1;
      if (x + half <= wide) heads.push(text(Math.max(x, half), 12, head, 'mid small dim'));
      if (zoom < 12) grid.push(`M${number(x)} 0V${data.high}`);
    }
    if (zoom >= 12) for (let column = Math.ceil(left); column < end; column++) grid.push(`M${number((column - left) * zoom)} 0V${data.high}`);
    let now = '';
    if (this.now !== null) {
      const x = (this.now + .5 - left) * zoom, head = this.head(this.now), half = head.length * data.sizes.char / 2 + 3, middle = Math.min(Math.max(x, half), wide - half);
      now = rect((this.now - left) * zoom, 0, Math.max(zoom, 2), data.high, this.pinned === null ? 'now' : 'now pinned');
      if (x > -zoom && x < wide + zoom) heads.push(rect(middle - half, 0, 2 * half, 16, 'paper') + text(middle, 12, head, 'mid bold'));
    }
    drawn.innerHTML = `<path d="${grid.join('')}" class="grid"/>${this.drawing.seen(left, shown, zoom)}${now}`;
    byId('axis').innerHTML = heads.join('');
    const part = this.least, seen = byId('seen');
    seen.setAttribute('x', number(left * part));
    seen.setAttribute('width', number(Math.max((end - left) * part, 3)));
    byId('here').setAttribute('d', this.now === null ? '' : `M${number((this.now + .5) * part)} 0V30`);
  }

  head(column) { return String(this.data.heads[column] ?? this.data.first + column); }

  // Numbers of columns far enough apart.
  every() {
    const room = this.head(this.data.columns - 1).length * this.data.sizes.small + 8;
    for (let power = 1; ; power *= 10) for (const factor of [1, 2, 5]) if (factor * power * this.zoom >= room) return factor * power;
  }

  // Retries as they are dense, closed times, refusals: of all of the run.
  overview() {
    const {data, wide} = this, part = this.least, counts = new Float32Array(Math.ceil(wide) + 1), parts = [];
    const {areas, boxes} = this.drawing;
    for (let i = 0; i < areas.size; i++) parts.push(rect(areas.begin[i] / 2 * part, 0, Math.max((areas.end[i] - areas.begin[i]) / 2 * part, 1.5), 30, 'shut'));
    for (let i = 0; i < boxes.size; i++) if (boxes.notch[i]) counts[Math.floor(boxes.begin[i] / 2 * part)]++;
    const most = Math.max(...counts, 1);
    parts.push(`<path d="${[...counts].map((count, x) => count ? `M${x + .5} 29v${number(-4 - 20 * count / most)}` : '').join('')}" class="dense"/>`);
    for (let i = 0; i < boxes.size; i++)
      if (data.pool[boxes.kind[i]] === 'refused') parts.push(`<path d="M${number(boxes.begin[i] / 2 * part)} 0V30" class="stop"/>`);
    byId('parts').innerHTML = parts.join('');
    byId('overview').setAttribute('width', wide);
    byId('axis').setAttribute('width', wide);
  }

  // ---- the entry that is looked at

  row(column) { return document.querySelectorAll('#table tbody')[Math.floor(column / this.data.chunk)]?.rows[column % this.data.chunk]; }

  look(column) {
    this.row(this.now)?.classList.remove('now');
    this.now = column;
    if (column !== null) {
      const row = this.row(column), {state} = this;
      row?.classList.add('now');
      byId('line').textContent = [...row?.cells ?? []].map(cell => cell.textContent).join('  ');
      byId('panes').hidden = !this.data.acts.worker.length;
      byId('ends').innerHTML = state.ends(column);
      byId('workers').innerHTML = state.workers(column);
      byId('slots').innerHTML = state.slotRows(column);
    }
    byId('pinned').textContent = this.pinned === null ? '' : 'pinned: Esc lets go';
    this.wanted();
  }

  pin(column) {
    this.pinned = column;
    if (column !== null) history.replaceState(null, '', `#e${this.head(column)}`);
    this.look(column ?? this.now);
  }

  // To a column, which is pinned and brought into sight.
  go(column) {
    this.pin(Math.max(0, Math.min(this.data.columns - 1, column)));
    const x = (this.now - this.left) * this.zoom;
    if (x < 0 || x + this.zoom > this.wide) this.scroll.scrollLeft = (this.now + .5) * this.zoom - this.wide / 2;
    this.render();
  }

  // The next one, forth or back, that is of the kind that is chosen.
  jump(step) {
    const {kinds} = this.data, asked = Number(byId('kind').value);
    let column = (this.now ?? (step > 0 ? -1 : this.data.columns)) + step;
    while (column >= 0 && column < kinds.length && !(kinds[column] & asked)) column += step;
    if (column >= 0 && column < kinds.length) this.go(column);
    else byId('told').textContent = step > 0 ? 'no further one' : 'none before it';
  }

  fromAddress() {
    const found = /^#e(\d+)$/.exec(location.hash);
    if (!found) return;
    const named = Object.keys(this.data.heads).find(column => String(this.data.heads[column]) === found[1]);
    const column = named === undefined ? Number(found[1]) - this.data.first : Number(named);
    if (column >= 0 && column < this.data.columns) this.go(column);
  }

  // ---- search

  find(next) {
    const asked = byId('item').value.trim(), {drawing, data, search} = this;
    drawing.found = asked ? data.pool.indexOf(asked) : -1;
    if (!next) {
      const columns = new Set();
      if (drawing.found >= 0)
        for (const marks of [drawing.boxes, drawing.bars, drawing.answers])
          for (let i = 0; i < marks.size; i++) if (marks.item[i] === drawing.found) columns.add(Math.min(Math.floor((marks === drawing.answers ? marks.end[i] - 1 : marks.begin[i]) / 2), data.columns - 1));
      this.search = {columns: [...columns].filter(column => column >= 0).sort((one, other) => one - other), turn: -1};
    }
    const {columns} = this.search;
    byId('told').textContent = !asked ? '' : !columns.length ? 'not in this picture' : `${columns.length} entries, ${this.head(columns[0])} to ${this.head(columns[columns.length - 1])}`;
    if (columns.length) this.go(columns[this.search.turn = (this.search.turn + 1) % columns.length]);
    else { drawing.found = -1; this.render(); }
  }

  // ---- keys and mouse

  columnAt(event) {
    const column = Math.floor(this.left + (event.clientX - this.scroll.getBoundingClientRect().left) / this.zoom);
    return column >= 0 && column < this.data.columns ? column : null;
  }

  listen() {
    const {scroll} = this;
    scroll.addEventListener('scroll', () => this.wanted(), {passive: true});
    scroll.addEventListener('pointermove', event => {
      const column = this.columnAt(event);
      if (this.pinned === null && column !== null && column !== this.now) this.look(column);
    });
    scroll.addEventListener('click', event => {
      const column = this.columnAt(event);
      if (column !== null) this.pin(column === this.pinned ? null : column);
    });
    scroll.addEventListener('wheel', event => {
      if (!event.ctrlKey) return;
      event.preventDefault();
      this.zoomTo(this.zoom * (event.deltaY > 0 ? 1 / 1.2 : 1.2), event.clientX - scroll.getBoundingClientRect().left);
    }, {passive: false});
    const overview = byId('overview'), drag = event => {
      if (!(event.buttons & 1)) return;
      scroll.scrollLeft = (event.clientX - overview.getBoundingClientRect().left) / this.least * this.zoom - this.wide / 2;
    };
    overview.addEventListener('pointerdown', drag);
    overview.addEventListener('pointermove', drag);
    document.addEventListener('click', event => {
      const row = event.target.closest('#table tbody tr');
      if (row) this.go([...document.querySelectorAll('#table tbody')].indexOf(row.parentNode) * this.data.chunk + row.sectionRowIndex);
    });
    const zooms = {in: () => this.zoomTo(this.zoom * 1.25), out: () => this.zoomTo(this.zoom / 1.25), whole: () => this.zoomTo(0), near: () => this.zoomTo(this.data.sizes.col)};
    for (const id in zooms) byId(id).addEventListener('click', zooms[id]);
    byId('kind').addEventListener('change', () => byId('kind').blur());  // so that n and p are heard at once
    byId('item').addEventListener('input', () => this.find(false));
    byId('tools').addEventListener('submit', event => { event.preventDefault(); this.find(true); });
    const keys = {
      ArrowLeft: shift => this.go((this.now ?? 1) - (shift ? 10 : 1)), ArrowRight: shift => this.go((this.now ?? -1) + (shift ? 10 : 1)),
      Home: () => this.go(0), End: () => this.go(this.data.columns - 1), n: () => this.jump(1), p: () => this.jump(-1),
      '+': zooms.in, '=': zooms.in, '-': zooms.out, '0': zooms.whole, '1': zooms.near, '/': () => byId('item').focus(), Escape: () => this.pin(null),
    };
    document.addEventListener('keydown', event => {
      if (event.ctrlKey || event.altKey || event.metaKey) return;
      if (event.target.matches('input, select, textarea')) {
        if (event.key === 'Escape') event.target.blur();
        return;
      }
      if (!Object.hasOwn(keys, event.key)) return;
      event.preventDefault();
      keys[event.key](event.shiftKey);
    });
    addEventListener('hashchange', () => this.fromAddress());
    addEventListener('resize', () => this.resize());
    addEventListener('beforeprint', () => this.strips());
    addEventListener('afterprint', () => { byId('print').textContent = ''; });
  }

  // ---- paper

  strips() {
    const {data, drawing} = this, {strip, col, labels, axis} = data.sizes, parts = [], names = document.querySelector('#names g').innerHTML;
    const first = data.columns <= FEW ? 0 : Math.floor(this.left), end = data.columns <= FEW ? data.columns : Math.min(data.columns, first + 2 * strip);
    for (let at = first; at < end; at += strip) {
      const columns = Math.min(strip, end - at), heads = [];
      for (let column = at; column < at + columns; column += Math.ceil((this.head(end - 1).length * data.sizes.small + 5) / col))
        heads.push(text((column - at + .5) * col, -5, this.head(column), 'mid small dim'));
      parts.push(`<svg viewBox="0 ${-axis} ${labels + strip * col} ${data.high + axis}">${names}<svg x="${labels}" y="${-axis}" width="${columns * col}" height="${data.high + axis}"` +
        ` viewBox="0 ${-axis} ${columns * col} ${data.high + axis}">${heads.join('')}${drawing.seen(at, columns * col, col)}</svg></svg>`);
    }
    byId('print').innerHTML = parts.join('');
  }
}

unpacked('run').then(data => {
  if (data.columns) new Page(data);
  document.documentElement.dataset.opened = Math.round(performance.now());
});
