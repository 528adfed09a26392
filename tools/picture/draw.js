'use strict';
// Marks of a scene (scene.py) as SVG text, for as much of the time as is seen. Times are in half columns; x is in pixels from the left of what is seen.

const BLOCK = 256;  // marks that are passed over at once
const FAR = 1.5;  // pixels of a column below which single acts are not drawn, and labels only where there is much room
const ROOM = 36;

function restored(packed) {
  const marks = {size: packed.begin.length, begin: new Int32Array(packed.begin), reach: []};
  for (let i = 1; i < marks.size; i++) marks.begin[i] += marks.begin[i - 1];
  marks.end = packed.end ? marks.begin.map((begin, i) => begin + packed.end[i]) : marks.begin;
  for (const name in packed) if (!(name in marks)) marks[name] = packed[name];
  for (let i = 0; i < marks.size; i++) {
    const block = Math.floor(i / BLOCK);
    marks.reach[block] = Math.max(marks.reach[block] ?? -1, marks.end[i], (marks.onward ?? marks.end)[i]);
  }
  return marks;
}

function eachSeen(marks, left, right, draw) {
  for (let block = 0; block * BLOCK < marks.size; block++) {
    if (marks.reach[block] < left) continue;
    const end = Math.min(marks.size, (block + 1) * BLOCK);
    for (let i = block * BLOCK; i < end; i++) {
      if (marks.begin[i] > right) return;
      if ((marks.onward ?? marks.end)[i] >= left) draw(i);
    }
  }
}

const number = x => String(Math.round(x * 10) / 10);
const escaped = said => said.replace(/&/g, '&amp;').replace(/</g, '&lt;');
const text = (x, y, said, kind) => `<text x="${number(x)}" y="${number(y)}" class="${kind}">${escaped(said)}</text>`;
const rect = (x, y, width, height, kind) => `<rect x="${number(x)}" y="${number(y)}" width="${number(Math.max(width, 0))}" height="${number(height)}" class="${kind}"/>`;
const line = (x1, y1, x2, y2, kind) => `<path d="M${number(x1)} ${number(y1)}L${number(x2)} ${number(y2)}" class="${kind}"/>`;

// The first way to say it that has room, else the last one, cut.
function fitted(room, ways, wide) {
  const most = Math.floor(room / wide);
  for (const way of ways) if (way.length <= most) return way;
  return most > 2 ? ways[ways.length - 1].slice(0, most - 1) + '…' : '';
}

class Drawing {
  constructor(data) {
    this.data = data;
    this.pool = data.pool;
    this.ways = data.pool.map(said => said.split('\n'));
    for (const name of ['areas', 'joins', 'bars', 'boxes', 'diamonds', 'labels', 'answers']) this[name] = restored(data[name]);
    this.lines = data.lines.map(restored);
    this.far = restored(data.far);
    this.found = -1;
    this.life = data.far.begin.length ? data.pool.indexOf('life') : -1;
  }

  // So many pixels from column LEFT on, with ZOOM pixels a column: the elements within.
  seen(left, wide, zoom) {
    const {sizes, high} = this.data;
    const begin = 2 * left, end = 2 * (left + wide / zoom);
    const view = {begin, end, wide, zoom, far: at => (at - begin) * zoom / 2, x: at => Math.min(Math.max((at - begin) * zoom / 2, -2), wide + 2)};
    const parts = [], each = (name, draw) => eachSeen(this[name], begin, end, i => draw(this[name], i));
    each('areas', (marks, i) => parts.push(rect(view.x(marks.begin[i]), marks.y[i], view.x(marks.end[i]) - view.x(marks.begin[i]), marks.high[i], this.pool[marks.kind[i]])));
    parts.push(`<path d="${this.data.rules.map(y => `M0 ${y}H${wide}`).join('')}" class="idle"/>`);
    if (zoom >= 4) {
      const shown = [[], []];
      each('joins', (marks, i) => shown[Number(marks.item[i] === this.found)].push(`M${number(view.x(marks.begin[i]))} ${number(marks.top[i])}V${number(marks.bottom[i])}`));
      parts.push(`<path d="${shown[0].join('')}" class="join"/><path d="${shown[1].join('')}" class="join found"/>`);
    }
    this.drawBars(view, parts);
    if (zoom < FAR && this.far.size) this.drawFar(view, parts);
    else for (const steps of this.lines) this.drawSteps(steps, view, parts);
    each('boxes', (marks, i) => parts.push(zoom < sizes.box - 6 ? this.tick(marks, i, view) : this.box(marks, i, view)));
    if (zoom >= FAR) each('diamonds', (marks, i) => {
      const tall = Math.min(7, 3 + zoom / 4), x = marks.begin[i] ? view.x(marks.begin[i]) : Math.max(view.x(0), 5);
      parts.push(`<path d="M${number(x)} ${number(marks.y[i] - tall)}l${number(tall * .57)} ${number(tall)}l${number(-tall * .57)} ${number(tall)}l${number(-tall * .57)} ${number(-tall)}z" class="moment"/>`);
    });
    each('labels', (marks, i) => parts.push(this.label(view, marks.begin[i], marks.end[i], marks.y[i], this.pool[marks.style[i]], marks.ways[i], marks.item[i], true)));
    each('answers', (marks, i) => {
      if (marks.end[i] <= begin || marks.end[i] > end) return;
      const beside = this.label(view, marks.end[i], marks.onward[i], marks.y[i], 'beside', marks.ways[i], marks.item[i], false);
      parts.push(beside || this.label(view, marks.begin[i], marks.end[i], marks.below[i], 'below', marks.ways[i], marks.item[i], true));
    });
    return parts.join('');
  }

  // One path a height and class; what is nearer than a pixel is one bar.
  drawBars(view, parts) {
    const paths = new Map(), marks = this.bars, found = [];
    eachSeen(marks, view.begin, view.end, i => {
      if (view.zoom < FAR && marks.kind[i] === this.life) return;
      const x = view.x(marks.begin[i]), right = Math.max(view.x(marks.end[i]), x + .6);
      if (this.found >= 0 && marks.item[i] === this.found) found.push(rect(x, marks.y[i], right - x, marks.high[i], this.pool[marks.kind[i]] + ' found'));
      const key = marks.kind[i] * 1e6 + Math.round(marks.y[i] * 10) * 10;
      let path = paths.get(key);
      if (!path) paths.set(key, path = {kind: marks.kind[i], y: marks.y[i], high: marks.high[i], d: [], x: NaN, right: NaN});
      if (x < path.right + .4 && view.zoom < FAR) { path.right = Math.max(path.right, right); return; }
      this.endBar(path);
      path.x = x;
      path.right = right;
    });
    for (const path of [...paths.values()].sort((one, other) => one.kind - other.kind)) {
      this.endBar(path);
      parts.push(`<path d="${path.d.join('')}" class="${this.pool[path.kind]}"/>`);
    }
    parts.push(...found);
  }

  endBar(path) {
    if (path.x === path.x) path.d.push(`M${number(path.x)} ${number(path.y)}H${number(path.right)}v${number(path.high)}H${number(path.x)}z`);
  }

  drawSteps(steps, view, parts) {
    let low = 0, high = steps.size - 1;
    while (low < high) {
      const middle = (low + high + 1) >> 1;
      if (steps.begin[middle] <= view.begin) low = middle; else high = middle - 1;
    }
    let path = `M0 ${number(steps.y[low])}`, kind = steps.kind[low], y = steps.y[low], at = -1;
    for (let i = low + 1; i < steps.size && steps.begin[i] < view.end; i++) {
      const x = view.x(steps.begin[i]);
      const isNear = x - at < .5 && steps.kind[i] === kind;
      if (!isNear || i + 1 === steps.size || view.zoom >= FAR) {
        path += `H${number(x)}` + (steps.joined[i] ? `V${number(steps.y[i])}` : `M${number(x)} ${number(steps.y[i])}`);
        at = x;
        y = steps.y[i];
      }
      if (steps.kind[i] === kind) continue;
      parts.push(`<path d="${path}" class="${this.pool[kind]}"/>`);
      kind = steps.kind[i];
      path = `M${number(x)} ${number(y)}`;
    }
    parts.push(`<path d="${path}H${view.wide}" class="${this.pool[kind]}"/>`);
  }

  // How many claims of tail are ahead of head, the most of each pixel.
  drawFar(view, parts) {
    const {far} = this, {floor} = this.data, tops = new Float32Array(Math.ceil(view.wide) + 1).fill(floor);
    let y = floor, from = 0;
    for (let i = 0; i < far.size && far.begin[i] <= view.end; i++) {
      const x = Math.max(0, Math.floor(view.x(far.begin[i])));
      if (far.begin[i] >= view.begin) for (let pixel = from; pixel <= x; pixel++) tops[pixel] = Math.min(tops[pixel], y);
      y = far.y[i];
      from = x;
      tops[x] = Math.min(tops[x], y);
    }
    for (let pixel = from; pixel < tops.length; pixel++) tops[pixel] = Math.min(tops[pixel], y);
    parts.push(text(4, this.data.top + 10, 'items claimed at tail and not yet at head', 'small dim'));
    parts.push(`<path d="M0 ${floor}${[...tops].map((top, x) => `V${number(top)}H${Math.min(x + 1, view.wide)}`).join('')}V${floor}z" class="life"/>`);
  }

  box(marks, i, view) {
    const {cell, box} = this.data.sizes, kind = this.pool[marks.kind[i]], x = view.x(marks.begin[i]), y = marks.y[i];
    const found = this.found >= 0 && marks.item[i] === this.found ? ' found' : '';
    if (kind === 'end') return line(x, y - 1, x, y + cell + 1, 'edge');
    if (kind === 'begin') return `<circle cx="${number(x)}" cy="${y + cell / 2}" r="5" class="bar${found}"/>`;
    const wide = Math.min(box, view.zoom - 3), inside = {held: 'mid on', refused: 'mid red'}[kind] ?? 'mid';
    return (kind === 'refused' ? line(x, 0, x, this.data.high, 'stop') : '') + rect(x - wide / 2, y, wide, cell, kind + found) +
      (this.pool[marks.said[i]].length * 6 < wide ? text(x, y + (marks.notch[i] ? 11.5 : 13), this.pool[marks.said[i]], inside) : '') +
      (marks.notch[i] ? `<path d="M${number(x - 6)} ${y + cell}l6-5l6 5z" class="notch"/>` : '') +
      (marks.edge[i] ? line(x + wide / 2 + 1, y - 1, x + wide / 2 + 1, y + cell + 1, 'edge') : '');
  }

  // Far out: where a call begins and ends, where it goes back, and what is refused.
  tick(marks, i, view) {
    const {cell} = this.data.sizes, kind = this.pool[marks.kind[i]], x = view.x(marks.begin[i]), y = marks.y[i];
    if (kind === 'refused') return line(x, 0, x, this.data.high, 'stop') + rect(x - 6, y, 12, cell, 'refused');
    if (this.found >= 0 && marks.item[i] === this.found) return rect(x - 2, y - 1, 4, cell + 2, 'found');
    if (view.zoom < FAR) return '';
    if (marks.edge[i]) return line(x, y, x, y + cell, 'edge thin');
    if (marks.notch[i]) return view.zoom < 3 ? '' : `<path d="M${number(x - 3)} ${y + cell}l3-5l3 5z" class="notch"/>`;
    return view.zoom < 4 ? '' : line(x, y + 3, x, y + cell - 3, 'tick');
  }

  label(view, begin, end, y, style, ways, item, isCut) {
    const how = this.data.styles[style], {small, char} = this.data.sizes, isSmall = how.kind.includes('small');
    const wide = isSmall ? small : char;
    const left = Math.max(view.x(begin), 0) + how.pad, right = Math.min(view.x(end), view.wide) - how.pad;
    if (view.zoom < FAR && right - left < ROOM) return '';
    const said = fitted(right - left, this.ways[ways], wide);
    if (!said || !isCut && said !== this.ways[ways][0]) return '';
    const long = said.length * wide, share = {start: 0, middle: .5, end: 1}[how.anchor];
    const x = view.far(begin) + how.pad + share * (view.far(end) - view.far(begin) - 2 * how.pad - long);  // in its span, were all of it seen
    const kind = how.sticky ? how.kind + (begin < view.begin || !begin ? ' dim' : ' bold') : how.kind;
    return text(Math.min(Math.max(x, left), right - long), y, said, kind + (this.found >= 0 && item === this.found ? ' found' : ''));
  }
}
