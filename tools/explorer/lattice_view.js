// All stable matchings, or where they are too many those beside the shown one.
class LatticeView {
  // `rows` are the closed sets by their sizes, or null where there are more than `most`.
  constructor(walk, rows, most) {
    Object.assign(this, { walk, model: walk.model, rows, most, nodes: new Map(), edges: [] });
    if (rows) this.draw();
  }

  draw() {
    const { model, rows, walk } = this, sets = rows.flat(), number = new Map(sets.map((set, i) => [model.key(set), i])), pairs = [];
    sets.forEach((set, i) => {
      for (let j = 0; j < model.k; j++) {
        if (!model.isReady(set, j)) continue;
        const more = set.slice();
        more[j] = 1;
        pairs.push([i, number.get(model.key(more)), j]);
      }
    });
    this.few = sets.length <= 40;
    const radius = this.few ? 15 : sets.length > 150 ? 9 : 11, names = sets.map(set => this.shortName(set));
    const tags = this.tags();
    const labels = sets.map((set, i) => Math.max(textWidth(names[i], 11),
      textWidth(this.tagText(tags.get(model.key(set))), 12)));
    const wide = 2 * radius + (this.few ? 26 + Math.max(...labels) : 6);
    const it = laidOut(rows.flatMap((row, size) => row.map(() => size)), pairs, () => [wide, 2 * radius],
      { gap: 8, between: this.few ? 36 : 20 });
    const middle = n => { const [x, y] = it.at[n]; return [Math.round(this.few ? x - wide / 2 + radius + 18 : x + 14),
      Math.round(y)]; };
    const lines = [], numbered = [];
    for (const [a, b, j] of pairs) {
      const [x1, y1] = middle(a), [x2, y2] = middle(b), length = Math.hypot(x2 - x1, y2 - y1), cut = (radius + 2) / length;
      const line = svg('path', { class: 'edge',
        d: `M${x1 + (x2 - x1) * cut},${y1 + (y2 - y1) * cut} L${x2 - (x2 - x1) * cut},${y2 - (y2 - y1) * cut}` },
        svg('title', {}, `rotation ${j + 1}`));
      this.edges.push({ line, upper: model.key(sets[a]), lower: model.key(sets[b]) });
      lines.push(line);
      if (this.few) numbered.push(svg('text', { class: 'by', x: x1 + (x2 - x1) * 0.5 + (x2 < x1 ? -10 : 5),
        y: y1 + (y2 - y1) * 0.5 + 4 }, `${j + 1}`));
    }
    sets.forEach((set, i) => {
      const key = model.key(set), [x, y] = middle(i), own = tags.get(key) || [];
      const node = svg('g', { class: `matching${model.isAllowed(model.matchingOf(set)) ? '' : ' outlaw'}`, role: 'button',
        'data-key': key, transform: `translate(${x},${y})`,
        'aria-label': `matching ${i + 1}, of ${setName(model, set)}${own.length ? `, ${own.join(', ')}` : ''}` },
      svg('title', {}, `${i + 1}: ${setName(model, set)}${own.length ? `\n${own.join(', ')}` : ''}`), svg('circle', { r: radius }),
      svg('text', { class: 'number', 'text-anchor': 'middle', y: radius > 10 ? 4 : 3, 'font-size': radius > 10 ? 11 : 8 },
        `${i + 1}`),
      svg('text', { class: 'letter', 'text-anchor': 'end', x: -radius - 2, y: -4 }));
      if (this.few) {
        node.append(svg('text', { class: 'tag', x: radius + 4, y: 13 }, names[i]),
          svg('text', { class: 'tag marked', x: radius + 4, y: -1 }, this.tagText(own)));
      } else if (own.length) node.append(svg('circle', { class: 'ring', r: radius + 3 }));
      node.addEventListener('click', () => walk.goTo(set, `Matching ${i + 1}, of ${setName(model, set)}.`));
      this.nodes.set(key, { node, number: i + 1 });
    });
    const nodes = [...this.nodes.values()].map(it => it.node);
    roving(nodes);
    $('lattice').replaceChildren(picture(it.width + (this.few ? 0 : 20), it.height, 'the lattice of the stable matchings',
      [svg('defs', {}, arrow('route')), ...lines, ...numbered, ...nodes]));
    const told = [`${sets.length}`, sets.length > 1 ? 'each line one rotation more, downwards' : '',
      model.conditions ? 'dashed: not allowed' : ''];
    $('latticeNote').textContent = told.filter(it => it).join('; ');
  }

  shortName(set) {
    const size = this.model.members(set).length;
    return size > 6 ? `${size} of ${this.model.k}` : setName(this.model, set);
  }

  // What stands beside a marked matching; both bests are seen by their places.
  tagText(tags) {
    const short = { Median: 'median', 'Least regret': 'regret', 'Lightest by ranks': 'ranks', 'Lightest by weights': 'weights' };
    return (tags || []).map(it => short[it] || '').filter(it => it).join(', ');
  }

  // The labels of the marked matchings, by the keys of their sets.
  tags() {
    const tags = new Map();
    for (const mark of this.model.marks) {
      const set = mark.of && this.model.setOf(mark.of);
      if (set) tags.set(this.model.key(set), [...(tags.get(this.model.key(set)) || []), mark.label]);
    }
    return tags;
  }

  // The number of a set in the picture, or nothing.
  numberOf(set) { const it = set && this.nodes.get(this.model.key(set)); return it ? it.number : 0; }

  show() {
    const { model, walk } = this, set = walk.closed();
    if (!this.rows) { this.showAround(set); return; }
    const key = set ? model.key(set) : null, keyOf = of => { const it = of && model.setOf(of); return it ? model.key(it) : null; };
    const a = keyOf(walk.A), b = keyOf(walk.B), route = walk.route() || [], steps = new Map();
    route.slice(1).forEach((step, i) => steps.set(`${model.key(route[i].set)} ${model.key(step.set)}`, i));
    if (!this.few && this.nodes.has(key)) see($('lattice'), this.nodes.get(key).node);
    this.nodes.forEach(({ node }, own) => {
      node.setAttribute('aria-current', own === key);
      node.classList.toggle('kept', own === a || own === b);
      node.querySelector('.letter').textContent = `${own === a ? 'A' : ''}${own === b ? 'B' : ''}`;
    });
    for (const { line, upper, lower } of this.edges) {
      const forth = steps.has(`${upper} ${lower}`), back = steps.has(`${lower} ${upper}`);
      line.classList.toggle('route', forth || back);
      if (forth) line.setAttribute('marker-end', 'url(#route)'); else line.removeAttribute('marker-end');
      if (back) line.setAttribute('marker-start', 'url(#route)'); else line.removeAttribute('marker-start');
    }
  }

  // The matchings one step up and down, with what each step does to both sums.
  showAround(set) {
    const { model, walk } = this;
    $('latticeNote').textContent = `more than ${this.most}, so only those beside this one`;
    if (!set) { $('lattice').replaceChildren(el('p', {}, 'The matching isn’t one of a closed set.')); return; }
    const up = model.members(set).filter(i => model.isLast(set, i)), down = [];
    for (let i = 0; i < model.k; i++) if (model.isReady(set, i)) down.push(i);
    const now = model.figures(model.matchingOf(set));
    const row = (i, taken) => {
      const to = model.figures(model.matchingOf(model.toggled(set, i)));
      return el('tr', {}, el('td', {}, el('button', { on: () => walk.turn(i) }, `${taken ? '↑ without' : '↓ with'} ${i + 1}`)),
        el('td', {}, model.sentence(i)),
        el('td', { class: 'n' }, sign(to.proposers - now.proposers)), el('td', { class: 'n' }, sign(to.reviewers - now.reviewers)));
    };
    const head = el('tr', {}, el('th', {}, 'step'), el('th', {}, 'moves'), el('th', { class: 'n' }, 'proposers’ ranks'),
      el('th', { class: 'n' }, 'reviewers’ ranks'));
    const taken = model.members(set).length;
    $('lattice').replaceChildren(
      el('p', {}, `${taken} of ${model.k} rotations are taken; ${up.length} can be given back, ${down.length} are ready.`),
      el('progress', { max: model.k, value: taken, 'aria-label': 'rotations taken' }),
      el('table', {}, head, ...up.map(i => row(i, true)), ...down.map(i => row(i, false))));
  }
}
