// Deferred acceptance, step by step.

// `it` has the rows' lists, names and capacities, and the others' ranks (maps from row to rank), names and capacities.
function proposalsOf(it) {
  const steps = [], next = it.lists.map(() => 0), has = it.lists.map(() => 0), held = it.otherNames.map(() => []);
  const queue = it.lists.map((_, row) => row);
  while (queue.length) {
    const row = queue[0];
    if (has[row] >= it.caps[row] || next[row] === it.lists[row].length) { queue.shift(); continue; }
    const other = it.lists[row][next[row]++], rank = it.otherRanks[other], name = it.names[row], to = it.otherNames[other];
    const step = { row, other, strikes: [], holds: null };
    steps.push(step);
    if (!rank.has(row) || it.otherCaps[other] === 0) {
      step.strikes = [[row, other]];
      step.text = `${name} proposes to ${to}: ${rank.has(row) ? 'no place' : `${to} doesn’t list ${name}`}.`;
      continue;
    }
    const full = held[other].length === it.otherCaps[other];
    const worst = held[other].reduce((w, q) => w < 0 || rank.get(q) > rank.get(w) ? q : w, -1);
    if (full && rank.get(worst) < rank.get(row)) {
      step.strikes = [[row, other]];
      const count = held[other].length;
      const kept = count > 8 ? `all ${count} that it holds` : held[other].map(q => it.names[q]).join(', ');
      step.text = `${name} proposes to ${to}: refused, ${to} would rather keep ${kept}.`;
      continue;
    }
    step.text = `${name} proposes to ${to}: there is a place, and ${to} holds ${name}.`;
    if (full) {
      step.strikes = [[worst, other]];
      const out = it.names[worst];
      step.text = `${name} proposes to ${to}: ${to} likes ${name} better than ${out}, and sends ${out} away.`;
      held[other] = held[other].filter(q => q !== worst);
      has[worst]--;
      if (!queue.includes(worst)) queue.push(worst);
    }
    held[other] = [...held[other], row];
    has[row]++;
    step.holds = [other, held[other]];
  }
  return { names: it.names, otherNames: it.otherNames, lists: it.lists, steps };
}

// The trace of deferred acceptance from a side of a marriage or hospitals.
function deferredAcceptance(model, fromReviewers) {
  const ones = names => names.map(() => 1);
  return fromReviewers
    ? proposalsOf({ lists: model.rList, names: model.rShown, caps: model.cap, otherRanks: model.pRank,
      otherNames: model.pShown, otherCaps: ones(model.P) })
    : proposalsOf({ lists: model.pList, names: model.pShown, caps: ones(model.P), otherRanks: model.rRank,
      otherNames: model.rShown, otherCaps: model.cap });
}
