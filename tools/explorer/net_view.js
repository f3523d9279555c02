// The net of a lightest matching: gains, flow and cut, and in two levels the second net beside the first.
const NET_EDGES = 160;

class NetView {
  constructor(walk, nets) {
    Object.assign(this, { walk, model: walk.model, nets, word: Object.keys(nets).pop(), cut: 'taken' });
    $('netBox').hidden = !this.word || !this.model.k;
    if (!this.word) return;
    const choose = (id, options, change) => {
      $(id).replaceChildren(...options.map(([value, text]) => el('option', { value, selected: value === this.word }, text)));
      $(id).addEventListener('change', () => { change($(id).value); walk.show(); });
    };
    choose('netBy', Object.keys(nets).map(word => [word, word === 'weight by=ranks' ? 'by ranks' : 'by given weights']),
      value => { this.word = value; this.drawn = ''; });
    choose('netCut', [['taken', 'out of the lightest'], ['set', 'out of the shown set']], value => { this.cut = value; });
    $('netBox').addEventListener('toggle', () => this.show());
  }

  get net() { return this.nets[this.word]; }

  gainOf(i) {
    if (!this.word) return '';
    return `${sign(this.net.gains[i])}${this.net.second ? `, ${sign(this.net.second.gains[i])}` : ''}`;
  }

  show() {
    if (!this.word || !$('netBox').open) return;
    if (this.drawn !== this.word) { this.draw(); this.drawn = this.word; }
    const set = this.walk.closed(), inside = this.cut === 'taken' ? this.net.taken : set || this.net.taken;
    for (const { it, label, net, edge } of this.edges) {
      const leaves = net.leaves(edge, inside);
      it.classList.toggle('cut', leaves);
      if (label) label.classList.toggle('cut', leaves);
    }
    for (const { it, node } of this.nodes) it.classList.toggle('inside', node === 'S' || inside[node] === 1);
    const { net } = this, cost = one => one.cost(set) < Infinity ? one.cost(set)
      : 'more than any, as the conditions don’t allow it';
    const told = (one, word) =>
      `${word}: a flow of ${one.value} leaves S, and the edges out of the lightest set have room for ${one.cut}. ` +
      (set ? `The shown set costs ${cost(one)}. ` : '') + `No set costs less than what flows.`;
    $('netNote').textContent = net.second ? `${told(net, 'First net')} ${told(net.second, 'Second net')}` : told(net, 'Here');
  }

  draw() {
    this.edges = [];
    this.nodes = [];
    const nets = [this.net, this.net.second].filter(it => it);
    $('net').replaceChildren(...nets.map((net, i) => this.pictureOf(net,
      nets.length > 1 ? ['first net', 'second net'][i] : 'net')));
  }

  // The edges that are drawn: of many only those with a flow or a bound.
  shownEdges(net) {
    const all = [...net.rooms.keys()];
    return all.length <= NET_EDGES ? all : all.filter(edge => net.flow.has(edge) || net.rooms.get(edge) < Infinity);
  }

  pictureOf(net, title) {
    const edges = this.shownEdges(net);
    if (edges.length > 2 * NET_EDGES) return this.tableOf(net, title);
    const { model } = this, k = model.k, deep = Math.max(0, ...model.layer),
      number = it => it === 'S' ? k : it === 'T' ? k + 1 : +it;
    // S is on top and T at the bottom; a rotation is above those that it needs.
    const layers = [...model.layer.map(it => deep - it + 1), 0, deep + 2], lay = edges.map(edge => edge.split(' ').map(number));
    const down = lay.map(([a, b]) => layers[a] < layers[b] ? [a, b] : [b, a]).map(([a, b]) => [a, b]);
    const flat = lay.map(([a, b]) => layers[a] === layers[b]);
    const it = laidOut(layers, down.filter((_, i) => !flat[i]), node => node >= k ? [30, 30] : [104, 40], { gap: 46, between: 46 });
    const inside = [], texts = [], paths = it.paths.slice();
    edges.forEach((edge, i) => {
      const [a, b] = lay[i], reversed = layers[a] > layers[b];
      let points = flat[i] ? [it.at[a], it.at[b]] : paths.shift();
      if (reversed) points = points.slice().reverse();
      // Where an edge leads back too, the two stand side by side.
      if (net.rooms.has(edge.split(' ').reverse().join(' '))) points = points.map(([x, y]) => [x + (reversed ? 9 : -9), y]);
      const room = net.rooms.get(edge), amount = net.flow.get(edge) || 0, id = amount || room < Infinity ? 'flow' : 'idle';
      const line = svg('path', { class: `edge ${id}`, d: smooth(points, false), 'marker-end': 'url(#flow)' },
        svg('title', {}, `${this.endName(a)} to ${this.endName(b)}`));
      const [x, y] = points.length % 2 ? points[(points.length - 1) / 2]
        : mid(points[points.length / 2 - 1], points[points.length / 2]);
      const label = id === 'idle' ? null : svg('text', { class: 'by', x: x + 5, y: y + 4 + (reversed ? -7 : 0) }, room < Infinity
        ? `${amount} of ${room}` : `${amount}`);
      inside.push(line);
      if (label) texts.push(label);
      this.edges.push({ it: line, label, net, edge });
    });
    const nodes = it.at.map(([x, y], node) => {
      const name = node === k ? 'S' : node === k + 1 ? 'T' : node, end = node >= k;
      const g = svg('g', { class: 'netNode', transform: `translate(${Math.round(x)},${Math.round(y)})` },
        end ? svg('circle', { r: 15 }) : svg('rect', { x: -52, y: -20, width: 104, height: 40, rx: 6 }),
        svg('text', { class: 'name', 'text-anchor': 'middle', y: end ? 5 : -3 }, end ? name : `rotation ${node + 1}`));
      if (!end) g.append(svg('text', { class: 'move', 'text-anchor': 'middle', y: 13 }, `gain ${sign(net.gains[node])}`));
      this.nodes.push({ it: g, node: name });
      return g;
    });
    const told = `${title}: flow ${net.value}, cut ${net.cut}, sum ${net.total}`;
    return el('figure', {}, el('figcaption', {}, told), picture(it.width, it.height, told,
      [svg('defs', {}, arrow('flow')), ...inside, ...texts, ...nodes]));
  }

  endName(it) { return it === this.model.k ? 'S' : it === this.model.k + 1 ? 'T' : `rotation ${it + 1}`; }

  // Where the picture would be too large: what flows, and what leaves the lightest set.
  tableOf(net, title) {
    const head = el('tr', {}, ...['from', 'to', 'flow', 'room', ''].map(it => el('th', {}, it)));
    const name = it => it === 'S' || it === 'T' ? it : `${+it + 1}`;
    const edges = [...net.rooms].filter(([edge, room]) => net.flow.has(edge) || room < Infinity);
    edges.sort((a, b) => net.leaves(b[0], net.taken) - net.leaves(a[0], net.taken));
    const rows = edges.slice(0, 400).map(([edge, room]) => {
      const [a, b] = edge.split(' ');
      return el('tr', {}, el('td', {}, name(a)), el('td', {}, name(b)), el('td', {}, `${net.flow.get(edge) || 0}`),
        el('td', {}, room < Infinity ? `${room}` : 'no bound'), el('td', {}, net.leaves(edge, net.taken) ? 'cut' : ''));
    });
    return el('figure', {}, el('figcaption', {},
      `${title}: flow ${net.value}, cut ${net.cut}, sum ${net.total}; too large to be drawn`),
      el('div', { class: 'scroll' }, el('table', {}, head, ...rows)));
  }
}

const mid = (a, b) => [(a[0] + b[0]) / 2, (a[1] + b[1]) / 2];
