// node explorer_model.js PAGE : what of a page's script needs no document, on the data of a page. Ends with a line `passed`.
const fs = require('fs'), path = require('path'), vm = require('vm');
const folder = path.join(__dirname, '..', 'explorer');
const files = ['lines.js', 'market.js', 'trace.js', 'texts.js', 'sides.js', 'proposals.js', 'layout.js', 'net.js'];
const page = fs.readFileSync(process.argv[2], 'utf-8');
const part = id => page.match(new RegExp(`id="${id}">([^]*?)</script>`))[1];
const data = JSON.parse(part('data'));
vm.runInThisContext(files.map(file => fs.readFileSync(path.join(folder, file), 'utf-8')).join('\n') +
  '\nconst made = { wholeTexts, Answer, Sides, Net, laidOut, spread, claimText };');
const { wholeTexts, Answer, Sides, Net, laidOut, spread, claimText } = vm.runInThisContext('made');
const answers = Object.fromEntries(Object.entries(wholeTexts(data.answers)).map(([words, text]) => [words, new Answer(text)]));
const model = new Sides(JSON.parse(part('exported')), answers, {});
let wrong = 0;
const want = (what, ok) => { if (!ok) { wrong++; console.log('not so:', what); } };

const rows = model.closedSets(5000), sets = rows ? rows.flat() : [];
want('each vector once', new Set(sets.map(set => model.vectorOf(model.matchingOf(set)))).size === sets.length);
for (const set of sets) {
  const of = model.matchingOf(set);
  want('stable', !model.blocking(of).length && !model.breaches(of).length);
  want('the set of the matching', model.key(model.setOf(of) || []) === model.key(set));
  for (let i = 0; i < model.k; i++) want('closed after a turn', model.isClosed(model.toggled(set, i)));
  want('a claim has a line for each pair', claimText(model, of).split('\n').length === 4 + model.figures(of).matched);
}
for (const a of sets.slice(0, 12)) {
  for (const b of sets.slice(-12)) {
    const [one, two] = [model.matchingOf(a), model.matchingOf(b)], both = a.map((it, i) => it && b[i]),
      any = a.map((it, i) => it || b[i]);
    want('the meet is of what both have', model.meet(one, two).join() === model.matchingOf(both).join());
    want('the join is of what one of them has', model.join(one, two).join() === model.matchingOf(any).join());
    want('a route has a step for each difference', model.route(a, b).length === 1 + a.filter((it, i) => it !== b[i]).length);
  }
}
want('the listing', model.agreement(rows).ok);

// Positions keep their gaps, and nodes of one layer don't touch.
const at = spread([5, 1, 1, 9], [0, 2, 2, 2], [1, 1, 1, 1]);
want('gaps', at.every((it, i) => !i || it - at[i - 1] >= 2 - 1e-9));
want('the nearest positions', JSON.stringify(spread([0, 10], [0, 2], [1, 1])) === '[0,10]'
  && JSON.stringify(spread([3, 1], [0, 2], [1, 1])) === '[1,3]');
const edges = model.covers.flatMap((needs, i) => needs.map(j => [j, i])), laid = laidOut(model.layer, edges, () => [38, 28]);
for (let i = 0; i < model.k; i++) {
  const beside = laid.at.filter((_, j) => j < i && model.layer[i] === model.layer[j]);
  want('nodes don’t touch', beside.every(at => Math.abs(laid.at[i][0] - at[0]) >= 38));
}
laid.paths.forEach((points, n) => {
  want('a line goes down by all layers between', points.length === 1 + model.layer[edges[n][1]] - model.layer[edges[n][0]]);
  const isFree = ([x, y]) => laid.at.every(([nx, ny]) => Math.abs(x - nx) > 19 || Math.abs(y - ny) > 14);
  want('a line crosses no node', points.slice(1, -1).every(isFree));
});

for (const words of ['weight by=ranks', 'weight by=given']) {
  if (!answers[words] || answers[words].whyNot) continue;
  const net = new Net(model, answers[words], null);
  want(`${words}: ${net.fault()}`, !net.fault() && !(net.second && net.second.fault()));
  for (const set of sets) want('what the conditions forbid has no cost',
    net.cost(set) < Infinity === model.isAllowed(model.matchingOf(set)));
}
console.log(rows ? `${sets.length} matchings, ${model.k} rotations` : `more than 5000 matchings, ${model.k} rotations`);
console.log(wrong ? `${wrong} failed` : 'passed');
process.exit(wrong ? 1 : 0);
