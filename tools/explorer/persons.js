// Roommates, with what the program found: a matching or a stable partition, all stable matchings, and the rest without odd parties.
class Persons extends Market {
  constructor(instance, answers, names) {
    super(instance.persons, instance.persons, names.person || {}, names.person || {});
    this.kind = 'roommates';
    this.free = 'nobody';
    this.answers = answers;
    this.listed = answers.list.all('vector').map(fields => this.ofVector(fields[0]));
    const number = name => this.pNumber.get(name);
    this.parties = answers.solve.all('party').map(party => party.map(number));
    this.solved = this.parties.length ? null : this.pairsIn(answers.solve);
    this.out = answers.rest.all('out').map(fields => number(fields[0]));
    this.rest = this.pairsIn(answers.rest);
    // Who doesn't count where pairs that block are looked for.
    this.without = new Set();
  }

  // The place of a matching in the list, or -1.
  indexOf(of) { const text = of.join(); return this.listed.findIndex(it => it.join() === text); }

  pairsIn(answer) {
    const of = this.P.map(() => -1);
    for (const [a, b] of answer.all('pair')) {
      of[this.pNumber.get(a)] = this.pNumber.get(b);
      of[this.pNumber.get(b)] = this.pNumber.get(a);
    }
    return of;
  }

  // A person's own name on its list counts nothing.
  isAcceptable(p, q) { return p !== q && super.isAcceptable(p, q); }

  // Couples and those alone, as parties.
  partiesOf(of) { return of.map((q, p) => q < 0 ? [p] : p < q ? [p, q] : null).filter(it => it); }

  isOdd(party) { return party.length > 2 && party.length % 2 === 1; }

  breaches(of) {
    return [...new Set(of.flatMap((q, p) => q >= 0 && !this.isAcceptable(p, q)
      ? [`${this.pShown[Math.min(p, q)]} and ${this.pShown[Math.max(p, q)]} don’t list each other`] : []))];
  }

  blocking(of) { return super.blocking(of).filter(it => it.p < it.r && !this.without.has(it.p) && !this.without.has(it.r)); }

  // The matching after two are put together by hand, or parted; who was with one of them is alone then.
  changed(of, p, q) {
    const to = of.slice(), together = of[p] === q;
    for (const it of [p, q]) { if (to[it] >= 0) to[to[it]] = -1; to[it] = -1; }
    if (!together) { to[p] = q; to[q] = p; }
    return to;
  }
}
