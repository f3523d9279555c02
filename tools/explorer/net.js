// The net of an answer of `weight`, by docs/FORMATS.md: nodes are S, T and the numbers of rotations from 0, and an edge is written
// `tail head`. The room of an edge without a bound is Infinity.
class Net {
  // The first net of an answer, or with `first` the second one beside it.
  constructor(model, answer, first) {
    const mark = first ? '2' : '', end = it => it === 'S' || it === 'T' ? it : it - 1;
    this.model = model;
    this.name = first ? 'second net' : 'net';
    this.gains = answer.all('gain' + mark).map(fields => +fields[1]);
    this.rooms = new Map();
    this.gains.forEach((gain, i) => { if (gain) this.rooms.set(gain < 0 ? `S ${i}` : `${i} T`, Math.abs(gain)); });
    if (first) this.addChanges(first); else this.addNeeds();
    this.flow = new Map(answer.all('flow' + mark).map(([a, b, n]) => [`${end(a)} ${end(b)}`, +n]));
    this.taken = model.none();
    for (const it of answer.all('taken')[0]) if (it !== '-') this.taken[it - 1] = 1;
    [this.value, this.cut, this.total] = ['value', 'cut', 'total'].map(word => +answer.value(word + mark));
    this.second = first || !answer.value('value2') ? null : new Net(model, answer, this);
  }

  addNeeds() {
    const unbounded = (a, b) => this.rooms.set(`${a} ${b}`, Infinity);
    this.model.needs.forEach((needs, i) => needs.forEach(j => unbounded(i, j)));
    const moving = (p, does) => this.model.moves.findIndex(moves => moves.some(it => it.p === p && does(it.from.r, it.to.r)));
    const brings = ([p, r]) => moving(p, (from, to) => from !== r && to === r),
      takes = ([p, r]) => moving(p, (from, to) => from === r && to !== r);
    for (const pair of this.model.forced) {
      if (brings(pair) >= 0) unbounded('S', brings(pair));
      if (takes(pair) >= 0) unbounded(takes(pair), 'T');
    }
    for (const pair of this.model.forbidden) {
      const [from, to] = [brings(pair), takes(pair)];
      if (from >= 0 || to >= 0) unbounded(from < 0 ? 'S' : from, to < 0 ? 'T' : to);
    }
  }

  // What the first flow may still change.
  addChanges(first) {
    first.rooms.forEach((room, edge) => {
      const [a, b] = edge.split(' '), amount = first.flow.get(edge) || 0;
      if (amount < room) this.rooms.set(edge, Infinity);
      if (amount && b !== 'T' && a !== 'S') this.rooms.set(`${b} ${a}`, Infinity);
    });
  }

  // Whether an edge leads out of S and a set.
  leaves(edge, set) {
    const [a, b] = edge.split(' ');
    return (a === 'S' || (a !== 'T' && set[a] === 1)) && (b === 'T' || (b !== 'S' && !set[b]));
  }

  // The room of the edges that leave S and a set.
  cost(set) {
    let sum = 0;
    this.rooms.forEach((room, edge) => { if (this.leaves(edge, set)) sum += room; });
    return sum;
  }

  // What is wrong with the flow, or ''.
  fault() {
    const kept = this.gains.map(() => 0);
    let out = 0;
    for (const [edge, amount] of this.flow) {
      const [a, b] = edge.split(' ');
      if (!this.rooms.has(edge)) return `the ${this.name} has no edge ${edge}`;
      if (amount < 1 || amount > this.rooms.get(edge)) return `edge ${edge} has no room for ${amount}`;
      if (a === 'S') out += amount; else kept[a] -= amount;
      if (b !== 'T') kept[b] += amount;
    }
    if (kept.some(it => it)) return `what flows into rotation ${kept.findIndex(it => it) + 1} isn’t what flows out of it`;
    if (out !== this.value) return `${out} flows, and not ${this.value}`;
    if (this.cost(this.taken) !== this.cut) return `the cut is ${this.cost(this.taken)}, and not ${this.cut}`;
    return this.cut === this.value ? '' : `value and cut differ`;
  }
}
