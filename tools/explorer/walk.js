// Where one is: a closed set, or a matching that was made by hand, and how one came there.
class Walk {
  // `show` is called after each step.
  constructor(model, show) {
    Object.assign(this, { model, show, set: model.none(), of: null, before: null, history: [], A: null, B: null, hand: false });
  }

  now() { return this.of || this.model.matchingOf(this.set); }

  // The closed set of what is shown, or null.
  closed() { return this.of ? this.model.setOf(this.of) : this.set; }

  // What changed, as a sentence.
  changes(before, after) {
    const moved = [];
    const move = (p, from, to) => `${this.model.pShown[p]}: ${this.model.partner(from)} → ${this.model.partner(to)}`;
    after.forEach((r, p) => { if (r !== before[p]) moved.push(move(p, before[p], r)); });
    if (!moved.length) return 'Nobody moves.';
    return moved.length > 8 ? `${moved.length} move: ${moved.slice(0, 8).join(', ')}, …` : `Changed: ${moved.join(', ')}.`;
  }

  step(set, of, text) {
    const before = this.now();
    this.history.push({ set: this.set, of: this.of });
    this.before = before;
    this.set = set;
    this.of = of;
    document.body.classList.remove('solved');
    tell(`${text} ${document.body.classList.contains('quiz') ? '' : this.changes(before, this.now())}`);
    if (!of) history.replaceState(null, '', `#set=${numbers(this.model.members(set)).replace(/ /g, '')}`);
    this.show();
  }

  goTo(set, text) { this.step(set, null, text); }

  goToMatching(of, text) {
    const set = this.model.setOf(of);
    if (set) this.goTo(set, text); else this.step(this.set, of, `${text} No closed set has this matching.`);
  }

  // What else is taken or given back with a rotation, as a sentence.
  along(i) {
    const from = this.closed() || this.set, to = this.model.toggled(from, i);
    const others = from.reduce((found, it, j) => it !== to[j] && j !== i ? [...found, j] : found, []);
    const why = to[i] ? 'which it needs' : 'which need it';
    return { to, others, text: others.length ? `with ${numbers(others)}, ${why}` : '' };
  }

  turn(i) {
    const { to, others, text } = this.along(i);
    this.goTo(to, `Rotation ${i + 1} is ${to[i] ? 'taken' : 'given back'}${others.length ? `, ${text}` : ''}.`);
  }

  // Takes the first rotation that is ready, or gives the last one back that can be; its number, or -1.
  down() { return this.stepTo(this.set.findIndex((_, i) => this.model.isReady(this.set, i))); }

  up() { return this.stepTo(this.model.members(this.set).reverse().find(i => this.model.isLast(this.set, i))); }

  stepTo(i) {
    if (this.of || !(i >= 0)) return -1;
    this.turn(i);
    return i;
  }

  undo() {
    const was = this.history.pop();
    if (!was) return;
    this.before = this.now();
    Object.assign(this, was);
    tell('Undone.');
    this.show();
  }

  change(p, r) {
    const to = this.model.changed(this.now(), p, r);
    this.step(this.set, to, `${this.model.pShown[p]}: ${this.model.partner(to[p])}, by hand.`);
  }

  // Ends what was made by hand: it stays if a closed set has it.
  setHand(on) {
    this.hand = on;
    if (!on && this.of) {
      const set = this.model.setOf(this.of);
      if (set) this.goTo(set, 'This is a stable matching.'); else this.goTo(this.set, 'Back to the last stable matching.');
    } else this.show();
  }

  keep(name) { this[name] = this.now(); tell(`Kept as ${name}.`); this.show(); }

  // The steps from A to B, or null where one of them is missing or not stable.
  route() {
    const [a, b] = [this.A && this.model.setOf(this.A), this.B && this.model.setOf(this.B)];
    return a && b ? this.model.route(a, b) : null;
  }

  readAddress() {
    const found = location.hash.match(/^#set=([\d,]*)$/);
    if (found) { this.set = this.model.closure(found[1].split(',').filter(it => it).map(it => it - 1)); this.of = null; }
    return !!found;
  }
}

// A set as it is shown; one of many is cut.
function setName(model, set, most = 24) {
  const members = model.members(set).map(i => i + 1), others = [];
  set.forEach((it, i) => { if (!it) others.push(i + 1); });
  if (members.length > most && others.length < 12) return others.length ? `all but {${others.join(', ')}}` : 'all';
  return members.length ? `{${members.slice(0, most).join(', ')}${members.length > most ? ', …' : ''}}` : '{ }';
}
