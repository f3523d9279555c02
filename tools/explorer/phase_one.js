// Phase one of roommates (Irving 1985): each person proposes to the first who is left on its list. Who gets a proposal strikes
// everybody behind the proposer, and each of these strikes it. An entry that isn't returned is struck at the beginning.
function phaseOne(model) {
  const names = model.pShown, steps = [], holds = names.map(() => -1), left = model.pList.map(list => list.slice());
  const strike = (step, p, q) => {
    step.strikes.push([p, q], [q, p]);
    left[p] = left[p].filter(it => it !== q);
    left[q] = left[q].filter(it => it !== p);
    for (const [a, b] of [[p, q], [q, p]]) if (holds[a] === b) { holds[a] = -1; free.push(b); }
  };
  const free = names.map((_, p) => p),
    why = 'Entries that aren’t returned are struck: such a pair can’t be together and can’t block.';
  const inert = { row: -1, other: -1, strikes: [], holds: null, text: why };
  model.pList.forEach((list, p) => list.forEach(q => { if (!model.isAcceptable(p, q)) inert.strikes.push([p, q]); }));
  for (const [p, q] of inert.strikes) left[p] = left[p].filter(it => it !== q);
  if (inert.strikes.length) steps.push(inert);
  while (free.length) {
    const p = free.shift();
    if (!left[p].length || holds.includes(p)) continue;
    const q = left[p][0], step = { row: p, other: q, strikes: [], holds: null }, before = holds[q], own = model.pRank[q].get(p);
    steps.push(step);
    left[q].filter(it => model.pRank[q].get(it) > own).forEach(it => strike(step, q, it));
    holds[q] = p;
    step.holds = [q, [p]];
    const out = step.strikes.filter((_, i) => i % 2 === 0).map(it => names[it[1]]);
    step.text = `${names[p]} proposes to ${names[q]}: ${names[q]} holds ${names[p]}` +
      (before >= 0 ? ` in place of ${names[before]}` : '') +
      (out.length ? `, and strikes ${out.join(', ')}, who come later on this list.` : '.');
  }
  return { names, otherNames: names, lists: model.pList, steps };
}
