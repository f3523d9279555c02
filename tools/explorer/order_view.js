// The order of the rotations: each taken, ready or neither, above those that need it.
const BOXES = 14;

class OrderView {
  // `dotted` is the layout that `dot` made, or null; `gainOf` says a rotation's gain, or ''.
  constructor(walk, dotted, gainOf) {
    const model = walk.model;
    Object.assign(this, { walk, model, gainOf, boxes: model.k <= BOXES, nodes: [], edges: [], states: [] });
    if (!model.k) {
      $('order').replaceChildren(el('p', {}, 'There is no rotation, so there is one stable matching.'));
      return;
    }
    this.texts = model.moves.map((_, i) => model.moveTexts(i));
    const pairs = model.covers.flatMap((needs, i) => needs.map(j => [j, i])), at = this.laid(pairs, dotted);
    const defs = svg('defs', {}, arrow('step'));
    pairs.forEach(([j, i], n) => {
      const it = svg('path', { class: `edge${model.brings(j, i) ? '' : ' dashed'}`, d: at.lines[n] });
      this.edges.push({ it, j, i });
    });
    model.moves.forEach((_, i) => this.nodes.push(this.node(i, at.at[i])));
    roving(this.nodes);
    $('order').replaceChildren(picture(at.width, at.height, 'the order of the rotations',
      [defs, ...this.edges.map(it => it.it), ...this.nodes]));
  }

  size(i) {
    if (!this.boxes) return [38, 28];
    const gain = this.gainOf(i), top = 54 + (gain === '' ? 0 : textWidth(`gain ${gain}`, 11.5));
    return [Math.max(top, 18 + Math.max(...this.texts[i].map(text => textWidth(text, 12.5)))), 26 + 15 * this.texts[i].length];
  }

  laid(pairs, dotted) {
    if (dotted) return { ...dotted, lines: pairs.map(([j, i]) => dotted.lines[`${j} ${i}`]) };
    const widest = Math.max(...this.model.layer.map(layer => this.model.layer.filter(it => it === layer).length));
    const across = !this.boxes && Math.max(...this.model.layer) + 1 > 1.5 * widest;
    const space = this.boxes ? { between: 30, gap: 14 } : { between: 22, gap: 10 };
    const it = laidOut(this.model.layer, pairs, i => this.size(i), { across, ...space });
    return { ...it, lines: it.paths.map(path => smooth(path, across)) };
  }

  node(i, [x, y]) {
    const [w, h] = this.size(i), { boxes, texts, walk } = this;
    const it = svg('g', { class: 'rotation', role: 'checkbox', 'data-i': i,
      transform: `translate(${Math.round(x - w / 2)},${Math.round(y - h / 2)})` },
      svg('rect', { width: w, height: h, rx: 6 }),
      svg('text', { class: 'name', x: boxes ? 8 : w / 2, y: boxes ? 17 : 19, 'text-anchor': boxes ? null : 'middle' }, `${i + 1}`),
      svg('text', { class: 'mark', x: w - (boxes ? 8 : 3), y: boxes ? 17 : 10, 'text-anchor': 'end' }));
    if (boxes) {
      texts[i].forEach((text, line) => it.append(svg('text', { class: 'move', x: 8, y: 34 + 15 * line }, text)));
      it.append(svg('text', { class: 'gain', x: w - 26, y: 17, 'text-anchor': 'end' }));
    }
    it.addEventListener('click', () => walk.turn(i));
    for (const event of ['mouseenter', 'focus']) it.addEventListener(event, () => this.preview(i));
    for (const event of ['mouseleave', 'blur']) it.addEventListener(event, () => this.endPreview());
    return it;
  }

  // Shows what would go along, before a click.
  preview(i) {
    const { to, text } = this.walk.along(i), from = this.walk.closed() || this.walk.set;
    this.nodes.forEach((it, j) => {
      const changes = to[j] !== from[j];
      it.classList.toggle('also', changes);
      it.querySelector('.mark').textContent = changes ? to[j] ? '+' : '−' : from[j] ? '✓' : '';
    });
    const gain = this.gainOf(i);
    const does = `A click ${to[i] ? 'takes it' : 'gives it back'}${text ? ` ${text}` : ''}.`;
    $('orderNote').textContent = `${i + 1}: ${this.model.sentence(i)}${gain === '' ? '' : `; gain ${gain}`}. ${does}`;
  }

  endPreview() { this.states = []; this.nodes.forEach(it => it.classList.remove('also')); this.show(); }

  // Scrolls to a rotation.
  see(i) { if (!this.boxes && i >= 0) see($('order'), this.nodes[i]); }

  show() {
    const set = this.walk.closed(), { model } = this;
    this.nodes.forEach((it, i) => {
      const taken = !!set && !!set[i], ready = !!set && model.isReady(set, i), gain = this.gainOf(i);
      const state = taken ? model.isLast(set, i) ? 'taken, can be given back alone' : 'taken' : ready ? 'ready' : 'not ready';
      if (this.states[i] === state + gain) return;
      this.states[i] = state + gain;
      it.setAttribute('aria-checked', taken);
      const told = [`rotation ${i + 1}, ${model.sentence(i)}`, `needs ${numbers(model.needs[i]) || 'none'}`, state];
      it.setAttribute('aria-label', (gain === '' ? told : [...told, `gain ${gain}`]).join('; '));
      it.classList.toggle('ready', ready);
      it.querySelector('.mark').textContent = taken ? '✓' : '';
      if (this.boxes) it.querySelector('.gain').textContent = gain === '' ? '' : `gain ${gain}`;
    });
    for (const { it, j, i } of this.edges) it.classList.toggle('in', !!set && !!set[j] && !!set[i]);
    $('orderNote').textContent = set ? `${model.members(set).length} of ${model.k} taken`
      : 'the matching isn’t one of a closed set';
  }
}
