// A trace that is walked step by step: lists whose entries are struck one after another.
class StepsView {
  // `traces` are functions, by the words of the choice; each is called when it is first wanted. `ended` says what the last step
  // means.
  constructor(box, traces, ended) {
    Object.assign(this, { traces, ended, made: {}, at: 0, word: Object.keys(traces)[0] });
    const choice = el('select', { 'aria-label': 'from which side' },
      ...Object.keys(traces).map(word => el('option', { value: word }, word)));
    choice.addEventListener('change', () => { this.word = choice.value; this.go(0); });
    this.range = el('input', { type: 'range', min: 0, value: 0, 'aria-label': 'step' });
    this.range.addEventListener('input', () => this.go(+this.range.value));
    const button = (text, to) => el('button', { on: () => this.go(to()) }, text);
    this.told = el('p');
    this.table = el('table', { class: 'lists' });
    $(box).replaceChildren(el('p', { class: 'buttons noprint' }, ...Object.keys(traces).length > 1 ? [choice] : [],
      button('⇤ start', () => 0), button('← back', () => this.at - 1), button('on →', () => this.at + 1),
      button('end ⇥', () => Infinity), this.range), this.told, el('div', { class: 'scroll' }, this.table));
    this.draw();
  }

  trace() { return this.made[this.word] = this.made[this.word] || this.traces[this.word](); }

  go(to) {
    this.at = Math.max(0, Math.min(this.trace().steps.length, to));
    this.draw();
    tell(this.told.textContent);
  }

  draw() {
    const trace = this.trace(), count = trace.steps.length;
    this.range.max = count;
    this.range.value = this.at;
    const step = trace.steps[this.at - 1], last = this.at === count;
    const text = step ? step.text : 'Nobody has proposed yet.';
    this.told.textContent = `${this.at} of ${count}. ${text} ${last ? this.ended(this.word, trace) : ''}`;
    this.showRows(trace, step);
  }

  // All rows, or of many those that the last step touches, and at most 60.
  showRows(trace, step) {
    const { struck, held } = stateAfter(trace, this.at), fresh = new Set((step ? step.strikes : []).map(it => it.join(' ')));
    const touched = new Set(step ? [step.row, ...step.strikes.map(it => it[0]), ...step.holds ? step.holds[1] : []] : []);
    const rows = trace.names.map((_, row) => row).filter(row => trace.names.length <= 60 || touched.has(row)
      || (!touched.size && row < 20)).slice(0, 60);
    this.table.replaceChildren(...rows.map(row => el('tr', { class: step && step.row === row ? 'changed' : '' },
      el('th', { scope: 'row' }, trace.names[row]), el('td', {}, el('div', { class: 'chips' }, ...this.entries(trace, step, row,
        struck, held, fresh))))));
  }

  // The entries of a row as boxes; of a long list their numbers, and those that the step touches.
  entries(trace, step, row, struck, held, fresh) {
    const list = trace.lists[row], isNow = other => step && step.row === row && step.other === other;
    const key = other => `${row} ${other}`, isLong = list.length > 60;
    const count = set => list.filter(other => set.has(key(other))).length;
    const boxes = list.filter(other => !isLong || isNow(other) || fresh.has(key(other))).map(other => {
      const isHeld = held.has(key(other)), isStruck = struck.has(key(other));
      const words = ['chip', isStruck ? 'struck' : isHeld ? 'now' : 'stable', fresh.has(key(other)) ? 'fresh' : '',
        isNow(other) ? 'asked' : ''].filter(it => it).join(' ');
      return el('span', { class: words, title: isStruck ? 'struck' : isHeld ? 'holds' : 'not asked yet' },
        `${trace.otherNames[other]}${isHeld ? ' ✓' : isStruck ? ' ✗' : ''}`);
    });
    return isLong ? [`${count(held)} held ✓ and ${count(struck)} struck ✗ of ${list.length}`, ...boxes] : boxes;
  }
}
