// Agents with their lists, and what can be seen of a matching without solving anything. A matching is an array: the number of each
// row agent's partner, or -1. The rows are the proposers and the columns the reviewers; in roommates both are the persons.
class Market {
  constructor(rows, columns, shownRows, shownColumns) {
    this.free = 'a free place';
    this.P = rows.map(agent => agent.name);
    this.R = columns.map(agent => agent.name);
    this.pShown = this.P.map(name => shownRows[name] || name);
    this.rShown = this.R.map(name => shownColumns[name] || name);
    this.pNumber = new Map(this.P.map((name, i) => [name, i]));
    this.rNumber = new Map(this.R.map((name, i) => [name, i]));
    this.cap = columns.map(agent => agent.capacity === undefined ? 1 : agent.capacity);
    this.pList = rows.map(agent => agent.list.map(name => this.rNumber.get(name)));
    this.rList = columns.map(agent => agent.list.map(name => this.pNumber.get(name)));
    this.pRank = this.pList.map(list => new Map(list.map((r, i) => [r, i + 1])));
    this.rRank = this.rList.map(list => new Map(list.map((p, i) => [p, i + 1])));
  }

  isAcceptable(p, r) { return this.pRank[p].has(r) && this.rRank[r].has(p); }

  partner(r) { return r < 0 ? 'nobody' : this.rShown[r]; }

  // The rank of the partner, or one more than the list is long.
  rankOf(of, p) { return this.pRank[p].get(of[p]) || this.pList[p].length + 1; }

  vectorOf(of) { return this.P.length ? this.P.map((_, p) => this.rankOf(of, p)).join(',') : '-'; }

  ofVector(vector) {
    const ranks = vector.split(',');
    return this.P.map((_, p) => { const r = this.pList[p][ranks[p] - 1]; return r === undefined ? -1 : r; });
  }

  // Of each column agent those who have it.
  holders(of) {
    const held = this.R.map(() => []);
    of.forEach((r, p) => { if (r >= 0) held[r].push(p); });
    return held;
  }

  // What keeps pairs from being a matching.
  breaches(of) {
    const found = [];
    of.forEach((r, p) => {
      if (r >= 0 && !this.isAcceptable(p, r)) found.push(`${this.pShown[p]} and ${this.rShown[r]} don’t list each other`);
    });
    this.holders(of).forEach((ps, r) => {
      if (ps.length > this.cap[r]) found.push(`${this.rShown[r]} has ${ps.length} and takes ${this.cap[r]}`);
    });
    return found;
  }

  // The pairs that block, each with the rank of both for one another (`rank`, `back`) and of what both have (`own`, and `worst`,
  // which is Infinity where a place is free).
  blocking(of) {
    const held = this.holders(of), found = [];
    const worst = held.map((ps, r) => ps.length < this.cap[r] ? Infinity
      : Math.max(0, ...ps.map(p => this.rRank[r].get(p) || Infinity)));
    this.pList.forEach((list, p) => {
      const own = this.rankOf(of, p);
      for (let rank = 1; rank < own && rank <= list.length; rank++) {
        const r = list[rank - 1], back = this.rRank[r].get(p);
        if (back !== undefined && this.cap[r] > 0 && back < worst[r]) found.push({ p, r, rank, own, back, worst: worst[r] });
      }
    });
    return found;
  }

  // A pair that blocks, as a sentence.
  blockingText(of, it) {
    const p = this.pShown[it.p], r = this.rShown[it.r];
    return `${p} and ${r}: ${r} is choice ${it.rank} of ${p}, and ${p} has ${of[it.p] < 0 ? 'nobody' : `choice ${it.own}`}; ` +
      `${p} is choice ${it.back} of ${r}, and ${r} has ${it.worst === Infinity ? this.free : `choice ${it.worst}`}`;
  }

  // How often each rank occurs: of the rows, whose unmatched ones count at the end, and of the columns' places that are filled.
  tallies(of) {
    const rows = new Map(), columns = new Map();
    const count = (map, rank) => map.set(rank, (map.get(rank) || 0) + 1);
    of.forEach((r, p) => {
      count(rows, r < 0 ? 'none' : this.pRank[p].get(r) || 'none');
      if (r >= 0 && this.rRank[r].has(p)) count(columns, this.rRank[r].get(p));
    });
    return { rows, columns };
  }

  figures(of) {
    const sums = { matched: 0, firsts: 0, proposers: 0, reviewers: 0, regret: 0 };
    of.forEach((r, p) => {
      if (r < 0) return;
      const own = this.rankOf(of, p), back = this.rRank[r].get(p) || 0;
      sums.matched++;
      sums.proposers += own;
      sums.reviewers += back;
      sums.regret = Math.max(sums.regret, own, back);
      if (own === 1) sums.firsts++;
    });
    return { ...sums, total: sums.proposers + sums.reviewers };
  }

  // The matching after a change by hand: the two are put together, or parted if they were together. Where no place is free the
  // worst there goes.
  changed(of, p, r) {
    const to = of.slice();
    if (of[p] === r) { to[p] = -1; return to; }
    const there = this.holders(of)[r];
    if (there.length && there.length >= this.cap[r]) {
      const rank = q => this.rRank[r].get(q) || Infinity;
      to[there.reduce((worst, q) => rank(q) > rank(worst) ? q : worst)] = -1;
    }
    to[p] = r;
    return to;
  }
}
