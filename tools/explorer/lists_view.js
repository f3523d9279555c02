// The lists: the partner, the others of stable matchings, and the rest; by hand their entries are buttons.
class ListsView {
  // `sides` has for each table its id, the lists, the names of its agents and of those on their lists, the ranks, what turns an
  // agent and an entry into a pair, and `most` where no more entries of a list are shown; `stable` says whether a pair is in some
  // stable matching, or is null where that isn't known.
  constructor(model, sides, stable, onHand) {
    Object.assign(this, { model, sides, stable, onHand, built: sides.map(() => new Map()), rows: sides.map(() => []) });
    this.movable = sides.map(side => side.lists.map((list, own) => !stable
      || list.filter(it => stable(...side.pair(own, it))).length > 1));
    for (const id of ['onlyMoving', 'onlyStable', 'find']) {
      if ($(id)) $(id).addEventListener('input', () => this.show(...this.last));
    }
  }

  show(of, blocking, hand) {
    this.last = [of, blocking, hand];
    const blocks = new Set(blocking.flatMap(it => [`${it.p} ${it.r}`]));
    const on = id => $(id) && $(id).checked, find = $('find').value.trim().toLowerCase(), most = 400;
    this.sides.forEach((side, n) => {
      const rows = [];
      let left = 0;
      side.names.forEach((name, own) => {
        if ((find && !name.toLowerCase().includes(find)) || (on('onlyMoving') && !this.movable[n][own])) return;
        if (rows.length >= most) { left++; return; }
        rows.push(this.row(n, side, own, of, blocks, hand, on('onlyStable')));
      });
      if (left) rows.push(el('tr', {}, el('td', { colspan: 2 }, `and ${left} more; find a name to see it`)));
      this.put(n, rows);
    });
  }

  // Puts the rows of a table in their place; where only some differ the others aren't touched.
  put(n, rows) {
    const shown = this.rows[n];
    const same = rows.length === shown.length && rows.every((row, i) => row.dataset.own === shown[i].dataset.own);
    if (same) rows.forEach((row, i) => { if (row !== shown[i]) shown[i].replaceWith(row); });
    else $(this.sides[n].id).replaceChildren(...rows);
    this.rows[n] = rows;
  }

  // A row; it stays as it is where nothing on it changed.
  row(n, side, own, of, blocks, hand, only) {
    const { model, stable } = this, pairs = side.lists[own].map(it => side.pair(own, it));
    const all = side.lists[own].filter((_, i) => !only || stable(...pairs[i]) || of[pairs[i][0]] === pairs[i][1]);
    const list = all.slice(0, side.most), more = all.length - list.length;
    const isBlocking = (p, r) => blocks.has(`${p} ${r}`) || (side.same && blocks.has(`${r} ${p}`));
    // For each entry 1 where it is the partner, and 2 where the pair blocks.
    const states = list.map(it => {
      const [p, r] = side.pair(own, it);
      return (of[p] === r ? 1 : 0) + (isBlocking(p, r) ? 2 : 0);
    });
    const text = `${states.join('')} ${hand} ${only}`, kept = this.built[n].get(own);
    if (kept && kept.text === text) return kept.row;
    const chips = list.map((it, i) => {
      const [p, r] = side.pair(own, it), acceptable = model.isAcceptable(p, r), isStable = stable && stable(p, r);
      const isNow = !!(states[i] & 1), isBad = !!(states[i] & 2);
      const words = ['chip', isNow && 'now', isStable && 'stable', !acceptable && 'inert', isBad && 'blocks'].filter(word => word);
      const where = !acceptable ? 'doesn’t list back' : !stable ? '' : isStable ? 'in some stable matching'
        : 'in no stable matching';
      const told = [side.ranks[own].get(it), isNow && 'the partner now', where, isBad && 'blocks'].filter(word => word);
      const values = { class: words.join(' '), title: told.join(', ') }, name = side.others[it] + (isBad ? ' ✗' : '');
      return hand && !(side.same && own === it) ? el('button', { ...values, 'aria-pressed': isNow, on: () => this.onHand(p, r) },
        name)
        : el('span', values, name);
    });
    if (more) chips.push(`and ${more} more`);
    const row = el('tr', { 'data-own': own }, el('th', { scope: 'row' }, side.names[own] + (side.places ? side.places(own) : '')),
      el('td', {}, el('div', { class: 'chips' }, ...chips)));
    this.built[n].set(own, { text, row });
    return row;
  }
}
