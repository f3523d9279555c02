// The shown matching: its figures, whether it is stable, and who has whom. `words` says what rows and columns are called.
class MatchingView {
  constructor(model, words) {
    Object.assign(this, { model, words, rows: [], shown: [] });
    const head = el('tr', {}, ...[words.row, 'has'].map(it => el('th', {}, it)), el('th', { class: 'n' }, 'rank'),
      el('th', { class: 'n' }, 'its rank there'), el('th', {}, 'before'));
    this.rows = model.pShown.map(name => el('tr', {}, el('td', {}, name), el('td'), el('td', { class: 'n' }),
      el('td', { class: 'n' }), el('td')));
    // Of many rows those that changed stand on top too.
    this.top = el('tbody');
    $('pairs').replaceChildren(el('thead', {}, head), this.top, el('tbody', { id: 'all' }, ...this.rows));
  }

  // `note` says of which set it is; `extra` are more figures.
  show(of, before, note, extra) {
    const { model } = this, sums = model.figures(of);
    $('setNote').textContent = note;
    const figure = (word, n) => el('span', {}, `${word} `, el('b', {}, String(n).replace(/-/g, '−')));
    $('figures').replaceChildren(figure('matched', `${sums.matched} of ${model.P.length}`), figure('first choices', sums.firsts),
      ...this.words.sums(sums).map(it => figure(...it)),
      figure('regret', sums.regret), ...extra.map(it => figure(...it)));
    const { rows, columns } = model.tallies(of);
    $('tallies').replaceChildren(...this.words.histograms.map((word, i) => this.histogram(word, i ? columns : rows)));
    this.showVerdict(of);
    this.showRows(of, before);
  }

  // How often each rank occurs: at most eight bars with their numbers, of one rank or of several together, and one for nobody.
  histogram(word, counts) {
    const ranks = [...counts.keys()].filter(it => it !== 'none'), each = Math.ceil(Math.max(1, ...ranks) / 8), bars = [];
    for (let from = 1; from === 1 || from <= Math.max(...ranks); from += each) {
      const own = ranks.filter(rank => rank >= from && rank < from + each);
      bars.push([each === 1 ? `${from}` : `${from}–${from + each - 1}`, own.reduce((sum, rank) => sum + counts.get(rank), 0)]);
    }
    if (counts.get('none')) bars.push(['none', counts.get('none')]);
    const most = Math.max(1, ...bars.map(it => it[1])), high = 34, wide = each > 9 ? 50 : each > 1 ? 38 : 30;
    const inside = bars.flatMap(([rank, n], i) => {
      const h = Math.round(n / most * high), x = i * wide + wide / 2 - 14;
      return [svg('rect', { class: 'bar', x: x + 4, y: 14 + high - h, width: 20, height: h }),
        svg('text', { class: 'tally', x: x + 14, y: 11 + high - h, 'text-anchor': 'middle' }, n ? `${n}` : ''),
        svg('text', { class: 'tag', x: x + 14, y: 28 + high, 'text-anchor': 'middle' }, rank)];
    });
    return el('figure', {}, el('figcaption', {}, word), picture(bars.length * wide, 64,
      `${word}: ${bars.map(([rank, n]) => `${n} of rank ${rank}`).join(', ')}`, inside));
  }

  showVerdict(of) {
    const { model } = this, breaches = model.breaches(of), blocks = breaches.length ? [] : model.blocking(of);
    const more = (list, most) => list.length > most ? [el('li', {}, `and ${list.length - most} more`)] : [];
    if (breaches.length) {
      $('verdict').replaceChildren(el('div', { class: 'box wrong' }, el('b', {}, '✗ Not a matching: '),
        el('ul', {}, ...breaches.slice(0, 8).map(it => el('li', {}, it)), ...more(breaches, 8))));
    } else if (blocks.length) {
      $('verdict').replaceChildren(el('div', { class: 'box wrong' }, el('b', {}, '✗ Not stable. '),
        `${blocks.length === 1 ? 'One pair blocks' : `${blocks.length} pairs block`}: `,
        el('ul', {}, ...blocks.slice(0, 8).map(it => el('li', {}, model.blockingText(of, it))), ...more(blocks, 8))));
    } else {
      $('verdict').replaceChildren(el('div', { class: 'box' }, el('b', { class: 'good' }, '✓ Stable: '),
        `no pair blocks it${this.words.allowed(of)}.`));
    }
  }

  showRows(of, before) {
    const { model, rows, shown } = this, was = before || of;
    rows.forEach((row, p) => {
      const r = of[p], changed = was[p] !== r, text = `${r} ${changed ? was[p] : ''}`;
      if (shown[p] === text) return;
      shown[p] = text;
      const cells = row.children;
      row.classList.toggle('changed', changed);
      cells[1].textContent = model.partner(r);
      cells[2].textContent = model.rankOf(of, p);
      cells[3].textContent = r < 0 ? '' : model.rRank[r].get(p) || '–';
      cells[4].textContent = changed ? model.partner(was[p]) : '';
    });
    if (rows.length > 60) this.top.replaceChildren(...rows.filter((_, p) => was[p] !== of[p]).map(row => row.cloneNode(true)));
  }
}
