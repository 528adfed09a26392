// How things stand after an entry: found by its number, both ways alike. What is said is replay's; here it is only looked up.

class State {
  constructor(data) {
    this.data = data;
    this.acts = new Map();
    data.acts.worker.forEach((worker, i) => {
      if (!this.acts.has(worker)) this.acts.set(worker, []);
      this.acts.get(worker).push(i);
    });
    this.slots = new Map(data.slots.map(([name, ...fresh]) => [name, {fresh, at: [], said: []}]));
    for (const [column, slot, stamp, value] of data.changes) {
      if (!this.slots.has(slot)) this.slots.set(slot, {fresh: ['0', '0'], at: [], said: []});
      const changes = this.slots.get(slot);
      changes.at.push(column);
      changes.said.push([stamp, value]);
    }
  }

  // The place in a sorted list of the last one that is not beyond; -1 if there is none.
  static last(list, column) {
    let low = -1, high = list.length - 1;
    while (low < high) {
      const middle = (low + high + 1) >> 1;
      if (list[middle] <= column) low = middle; else high = middle - 1;
    }
    return low;
  }

  row(cells, isNew) { return `<tr${isNew ? ' class="new"' : ''}>${cells.map((cell, i) => i ? `<td>${escaped(String(cell))}` : `<th scope="row">${escaped(String(cell))}`).join('')}`; }

  ends(column) {
    const rows = [];
    for (const [name, at, said] of this.data.ends) {
      const last = State.last(at, column);
      rows.push(this.row([name, this.data.pool[said[last]]], at[last] === column));
    }
    return rows.join('');
  }

  workers(column) {
    const {pool, acts, before} = this.data, rows = [];
    for (const worker of [...new Set([...this.acts.keys(), ...Object.keys(before).map(Number)])].sort((one, other) => one - other)) {
      const mine = this.acts.get(worker) ?? [], last = State.last(mine, column);
      const said = last >= 0 ? pool[acts.after[mine[last]]] : pool[before[worker]] ?? 'idle\n\n\n\n';
      rows.push(this.row([`w${worker}`, ...said.split('\n')], mine[last] === column));
    }
    return rows.join('');
  }

  slotRows(column) {
    let shown = [...this.slots].map(([name, {fresh, at, said}]) => {
      const last = State.last(at, column);
      return {name, said: last < 0 ? fresh : said[last], at: last < 0 ? -1 : at[last]};
    });
    if (shown.length > 16) shown = shown.filter(slot => slot.at >= 0).sort((one, other) => other.at - one.at).slice(0, 16);
    return shown.map(slot => this.row([slot.name, ...slot.said], slot.at === column)).join('');
  }
}
