// A marriage or hospitals, with the rotations that the program found. The stable matchings are made here from closed sets of
// rotations, by docs/FORMATS.md; a set is an array of 0 and 1.
class Sides extends Market {
  constructor(instance, answers, names) {
    super(instance.proposers, instance.reviewers, names.proposer || {}, names.reviewer || {});
    this.kind = instance.kind;
    this.answers = answers;
    const pair = names => [this.pNumber.get(names[0]), this.rNumber.get(names[1])];
    this.weights = new Map((instance.weights || []).map(it => [pair(it).join(' '), [it[2], it[3] || 0]]));
    this.hasSecond = (instance.weights || []).some(it => it[3]);
    this.forced = (instance.forced || []).map(pair);
    this.forbidden = (instance.forbidden || []).map(pair);
    this.conditions = this.forced.length + this.forbidden.length;
    this.order = instance.order ? instance.order.map(name => this.pNumber.get(name)) : this.P.map((_, p) => p);
    this.readRotations(answers.rotations);
    this.marks = this.readMarks();
    this.listed = answers.list.all('vector').map(fields => fields[0]);
  }

  // A seat: its reviewer and its number, 0 in a marriage.
  seat(field) {
    const [name, number] = field.split('/');
    return { r: this.rNumber.get(name), s: number ? +number : 0 };
  }

  seatName(seat) { return this.rShown[seat.r] + (seat.s ? `/${seat.s}` : ''); }

  readRotations(answer) {
    this.first = this.P.map(() => null);
    for (const [name, field] of answer.all('first')) this.first[this.pNumber.get(name)] = this.seat(field);
    this.moves = answer.all('rotation').map(fields => {
      const pairs = [];
      for (let i = 1; i < fields.length; i += 2) pairs.push([this.pNumber.get(fields[i]), this.seat(fields[i + 1])]);
      return pairs.map(([p, from], i) => ({ p, from, to: pairs[(i + 1) % pairs.length][1] }));
    });
    this.k = this.moves.length;
    this.needs = answer.all('needs').map(fields => fields.slice(1).filter(it => it !== '-').map(it => it - 1));
    this.below = [];
    this.above = this.moves.map(() => new Set());
    this.needs.forEach((needs, i) => {
      const all = new Set(needs);
      for (const j of needs) for (const l of this.below[j]) all.add(l);
      this.below.push(all);
      for (const j of all) this.above[j].add(i);
    });
    // The needs that don't follow from others.
    this.covers = this.needs.map(needs => {
      const between = new Set();
      for (const j of needs) for (const l of this.below[j]) between.add(l);
      return needs.filter(j => !between.has(j));
    });
    this.layer = [];
    this.covers.forEach(needs => this.layer.push(needs.reduce((most, j) => Math.max(most, this.layer[j] + 1), 0)));
    this.seats = this.P.map((_, p) => this.first[p] ? [this.first[p]] : []);
    this.moves.forEach(moves => moves.forEach(it => this.seats[it.p].push(it.to)));
    this.stable = this.seats.map(seats => new Set(seats.map(seat => seat.r)));
    this.stableBack = this.R.map(() => new Set());
    this.stable.forEach((rs, p) => rs.forEach(r => this.stableBack[r].add(p)));
  }

  // Whether rotation i brings a proposer to the seat from which j takes it.
  brings(i, j) {
    const takes = it => to => to.p === it.p && to.from.r === it.to.r && to.from.s === it.to.s;
    return this.moves[i].some(it => this.moves[j].some(takes(it)));
  }

  // The moves of a rotation, each as a text.
  moveTexts(i) { return this.moves[i].map(it => `${this.pShown[it.p]}: ${this.seatName(it.from)} → ${this.seatName(it.to)}`); }

  sentence(i) { return this.moveTexts(i).join(', '); }

  pairsIn(answer) {
    const of = this.P.map(() => -1);
    for (const [p, r] of answer.all('pair')) of[this.pNumber.get(p)] = this.rNumber.get(r);
    return of;
  }

  // The matchings to which one can jump, each with the words that make it; `of` is null where there is none.
  readMarks() {
    const answer = (id, label, words, note) => {
      const it = this.answers[words];
      return { id, label, words, of: it.whyNot ? null : this.pairsIn(it), note: it.whyNot || note(it) };
    };
    const marks = [
      { id: 'best', label: 'Proposers’ best', words: 'solve', of: this.matchingOf(this.none()), note: 'no rotation taken' },
      { id: 'worst', label: 'Reviewers’ best', words: 'solve side=reviewers', of: this.matchingOf(this.all()),
        note: 'all rotations taken' },
      answer('median', 'Median', 'median', it => `of ${it.value('listed')} allowed matchings`),
      answer('regret', 'Least regret', 'regret', it => `regret ${it.value('regret')}`),
      answer('ranks', 'Lightest by ranks', 'weight by=ranks', it => `sum ${it.value('total')}`)];
    if (this.answers['weight by=given']) {
      marks.push(answer('given', 'Lightest by weights', 'weight by=given',
        it => `weight ${it.value('total')}${it.value('total2') ? `, second ${it.value('total2')}` : ''}`));
    }
    return marks;
  }

  none() { return new Uint8Array(this.k); }

  all() { return new Uint8Array(this.k).fill(1); }

  key(set) { return set.join(''); }

  members(set) { const found = []; set.forEach((it, i) => { if (it) found.push(i); }); return found; }

  isReady(set, i) { return !set[i] && this.needs[i].every(j => set[j]); }

  // Whether it can be given back alone.
  isLast(set, i) { if (!set[i]) return false; for (const j of this.above[i]) if (set[j]) return false; return true; }

  isClosed(set) { return this.members(set).every(i => this.needs[i].every(j => set[j])); }

  // The closed set after a rotation is taken, with what it needs, or given back, with what needs it.
  toggled(set, i) {
    const to = set.slice();
    to[i] = set[i] ? 0 : 1;
    for (const j of set[i] ? this.above[i] : this.below[i]) to[j] = to[i];
    return to;
  }

  closure(numbers) {
    const set = this.none();
    for (const i of numbers) if (this.below[i]) { set[i] = 1; for (const j of this.below[i]) set[j] = 1; }
    return set;
  }

  matchingOf(set) {
    const at = this.first.map(seat => seat ? seat.r : -1);
    for (let i = 0; i < this.k; i++) if (set[i]) for (const it of this.moves[i]) at[it.p] = it.to.r;
    return at;
  }

  // The set of rotations whose moves lead to a matching, closed or not, or null where none does. A proposer at a hospital has the
  // seat that its place among the others there gives it.
  rotationsOf(of) {
    const place = this.P.map(() => 1);
    this.holders(of).forEach((ps, r) => {
      ps.sort((p, q) => this.rRank[r].get(p) - this.rRank[r].get(q)).forEach((p, i) => { place[p] = i + 1; });
    });
    const set = this.none();
    for (let i = 0; i < this.k; i++) {
      const { p, to } = this.moves[i][0], own = this.rankOf(of, p), there = this.pRank[p].get(to.r);
      set[i] = of[p] >= 0 && (own > there || (own === there && place[p] >= to.s)) ? 1 : 0;
    }
    return this.matchingOf(set).every((r, p) => r === of[p]) ? set : null;
  }

  // The closed set of a stable matching, or null.
  setOf(of) { const set = this.rotationsOf(of); return set && this.isClosed(set) ? set : null; }

  isAllowed(of) { return this.forced.every(([p, r]) => of[p] === r) && this.forbidden.every(([p, r]) => of[p] !== r); }

  // The sums of the given weights.
  givenOf(of) {
    const sums = [0, 0];
    of.forEach((r, p) => (this.weights.get(`${p} ${r}`) || []).forEach((weight, i) => { sums[i] += weight; }));
    return sums;
  }

  // For each proposer the better of two partners, or the worse; being unmatched is worst.
  meet(a, b) { return a.map((r, p) => this.rankOf(a, p) <= this.rankOf(b, p) ? r : b[p]); }

  join(a, b) { return a.map((r, p) => this.rankOf(a, p) >= this.rankOf(b, p) ? r : b[p]); }

  // The sets on a shortest route between two closed sets, both ends included, each with the step that leads there.
  route(a, b) {
    const steps = [{ set: a, word: 'A' }];
    const walk = (i, word) => {
      const set = steps[steps.length - 1].set.slice();
      set[i] = 1 - set[i];
      steps.push({ set, word: `${word} ${i + 1}`, i });
    };
    this.members(a).filter(i => !b[i]).reverse().forEach(i => walk(i, 'back'));
    this.members(b).filter(i => !a[i]).forEach(i => walk(i, 'forth'));
    return steps;
  }

  // All closed sets, in rows by their sizes, or null where there are more than `most`.
  closedSets(most) {
    const found = new Set([this.key(this.none())]), rows = [[this.none()]];
    for (let size = 0; rows[size].length; size++) {
      const next = [];
      for (const set of rows[size]) {
        for (let i = 0; i < this.k; i++) {
          if (!this.isReady(set, i)) continue;
          const more = set.slice();
          more[i] = 1;
          if (found.has(this.key(more))) continue;
          if (found.size === most) return null;
          found.add(this.key(more));
          next.push(more);
        }
      }
      rows.push(next);
    }
    rows.pop();
    return rows;
  }

  // What a listing and the closed sets have to do with each other; `rows` are those of closedSets.
  agreement(rows) {
    const of = this.listed.map(vector => this.ofVector(vector));
    if (of.some(it => !this.setOf(it) || !this.isAllowed(it))) {
      return { ok: false, text: 'THE PROGRAM LISTED A MATCHING THAT THIS PAGE CAN’T MAKE.' };
    }
    if (!rows || !this.answers.list.isWhole) {
      return { ok: true, text: `All ${of.length} that the program listed are matchings of closed sets; the listing isn’t whole.` };
    }
    const mine = rows.flat().map(set => this.matchingOf(set)).filter(it => this.isAllowed(it));
    const ok = new Set(mine.map(it => this.vectorOf(it))).size === of.length;
    return { ok, text: ok ? `All ${of.length} allowed matchings that it makes are those of the program’s list, and no others.`
      : 'ITS MATCHINGS ARE NOT THOSE OF THE PROGRAM’S LIST.' };
  }
}
