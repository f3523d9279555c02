// The page of a marriage or hospitals.
const model = new Sides(JSON.parse(exported), answers, data.names);
const rows = model.closedSets(data.most);
const walk = new Walk(model, show);
const isLarge = model.P.length > 30 || model.k > BOXES;

// The nets of the answers of `weight`, by their words.
const nets = {};
for (const words of ['weight by=ranks', 'weight by=given']) {
  if (answers[words] && !answers[words].whyNot) nets[words] = new Net(model, answers[words], null);
}

const allowedText = of => !model.conditions ? '' : model.isAllowed(of) ? ', and the conditions allow it'
  : ', but the conditions don’t allow it';
const netView = new NetView(walk, nets);
const orderView = new OrderView(walk, data.layout, i => netView.gainOf(i));
const latticeView = new LatticeView(walk, rows, data.most);
const matchingView = new MatchingView(model, { row: 'proposer', allowed: allowedText,
  histograms: ['proposers’ ranks', 'reviewers’ ranks'],
  sums: it => [['proposers’ ranks', it.proposers], ['reviewers’ ranks', it.reviewers], ['sum', it.total]] });
const listsView = new ListsView(model, [
  { id: 'pLists', names: model.pShown, others: model.rShown, lists: model.pList, ranks: model.pRank, pair: (p, r) => [p, r] },
  { id: 'rLists', names: model.rShown, others: model.pShown, lists: model.rList, ranks: model.rRank, pair: (r, p) => [p, r],
    places: r => model.kind === 'hospitals' ? ` [${model.cap[r]}]` : '' },
], (p, r) => model.stable[p].has(r), (p, r) => walk.change(p, r));
const compareView = new CompareView(walk);

const both = () => { const { A, B } = walk, of = walk.now(); return [A || of, B || of]; };
const picturesOf = { order: 'the order of the rotations', lattice: 'the stable matchings', net: 'the net', tallies: 'the tallies' };
const exportView = new ExportView({
  check: { label: 'check: the instance and this matching', file: 'both.txt', text: () => data.text + claimText(model, walk.now()),
    what: () => './matchbench check < both.txt says whether it is stable and its regret is as written' },
  claim: { label: 'check: this matching alone', file: 'answer.txt', text: () => claimText(model, walk.now()),
    what: () => `cat ${quoted(data.file)} answer.txt | ./matchbench check` },
  meet: { label: 'meet, join, route: the instance, A and B', file: 'both.txt', text: () => data.text + bothText(model, ...both()),
    what: () => `./matchbench meet < both.txt, and also join and route${walk.A && walk.B ? '' : '; this one is what isn’t kept'}` },
  csv: { label: 'a table (CSV) for tools/claim', file: 'matching.csv',
    text: () => csvText(model, walk.now(), ['proposer', 'reviewer']),
    what: () => `${claimCommand('stable', data)} | ./matchbench check` },
  cursor: { label: 'a cursor for list after=', file: 'cursor.txt', text: () => `${model.vectorOf(walk.now())}\n`,
    what: () => `./matchbench list after=… < ${quoted(data.file)} lists those behind this one` },
  ...Object.fromEntries(Object.entries(picturesOf).map(([box, what]) => [box, { label: `a picture of ${what} (SVG)`,
    file: `${box}.svg`, text: () => pictureText(box), what: () => 'a picture for slides' }])),
}, () => {
  const of = walk.now();
  return model.breaches(of).length || model.blocking(of).length
    ? { note: 'This matching isn’t stable, so no certificate of it can be made. The program says no to the first text below.',
      lines: ['./matchbench check < both.txt'] }
    : twoCommands(model, of, data);
});

function noteOf(set, of) {
  if (set) { const n = latticeView.numberOf(set); return `of the closed set ${setName(model, set)}${n ? `, number ${n}` : ''}`; }
  const open = model.rotationsOf(of);
  if (!open) return 'made by hand';
  const lacks = model.members(open).map(i => [i, model.needs[i].filter(j => !open[j])]).filter(it => it[1].length);
  const told = lacks.map(([i, needs]) => `${i + 1} needs ${numbers(needs)}`).join('; ');
  return `made by hand: of the rotations ${setName(model, open)}, which aren’t closed: ${told}`;
}

function show() {
  const of = walk.now(), set = walk.closed(), breaches = model.breaches(of);
  const sums = model.givenOf(of), given = model.weights.size
    ? [['given weight', model.hasSecond ? sums.join(', second ') : sums[0]]] : [];
  orderView.show();
  latticeView.show();
  matchingView.show(of, walk.before, noteOf(set, of), given);
  listsView.show(of, breaches.length ? [] : model.blocking(of), walk.hand);
  compareView.show();
  netView.show();
  exportView.show();
  const key = set ? model.key(set) : '';
  document.querySelectorAll('[data-mark]').forEach(it => it.setAttribute('aria-pressed', key !== '' && it.dataset.key === key));
  $('undo').disabled = !walk.history.length;
  $('up').disabled = !!walk.of || !model.members(walk.set).length;
  $('down').disabled = !!walk.of || model.members(walk.set).length === model.k;
  $('hand').setAttribute('aria-pressed', walk.hand);
  $('handNote').hidden = !walk.hand;
  hideAnswers();
}

function startJumps() {
  for (const mark of model.marks) {
    const set = mark.of && model.setOf(mark.of);
    $('jumps').append(el('button', { 'data-mark': mark.id, 'data-key': set ? model.key(set) : null, 'aria-pressed': 'false',
      title: mark.note, disabled: mark.of ? null : '',
      on: () => walk.goToMatching(mark.of, `${mark.label} (${mark.note}).`) }, mark.label));
  }
  const grey = model.marks.filter(mark => !mark.of);
  $('greyed').textContent = grey.map(mark => `${mark.label}: ${mark.note}.`).join(' ');
}

function start() {
  const count = rows ? plural(rows.flat().length, 'stable matching') : `more than ${data.most} stable matchings`;
  const facts = [`${model.kind}: ${plural(model.P.length, 'proposer')}`, plural(model.R.length, 'reviewer'),
    plural(model.k, 'rotation'), count];
  $('facts').textContent = (model.conditions ? [...facts, plural(model.conditions, 'condition')] : facts).join(', ');
  startJumps();
  const acts = { up: () => orderView.see(walk.up()), down: () => orderView.see(walk.down()), undo: () => walk.undo(),
    setA: () => walk.keep('A'),
    setB: () => walk.keep('B'), hand: () => walk.setHand(!walk.hand) };
  for (const [id, act] of Object.entries(acts)) $(id).addEventListener('click', act);
  startBar();
  startKeys({ ...BAR_KEYS, ArrowDown: acts.down, ArrowUp: acts.up, u: acts.undo, a: acts.setA, b: acts.setB, h: acts.hand,
    ...Object.fromEntries(model.marks.map((mark, i) => [String(i + 1), pressMark(mark.id)])) });
  if (isLarge) {
    $('onlyMoving').checked = $('onlyStable').checked = true;
  } else $('exportBox').open = $('netBox').open = true;
  if (isLarge || !latticeView.few) $('main').classList.add('large');
  $('agreement').textContent = 'From the lines of rotations it makes closed sets and their matchings, and looks for pairs that ' +
    `block them. ${model.agreement(rows).text}`;
  const sides = { 'proposers propose': () => deferredAcceptance(model, false),
    'reviewers propose': () => deferredAcceptance(model, true) };
  whenOpened('acceptance', () => {
    new StepsView('steps', sides, word =>
      `Nobody has anybody left to propose to: these are the ${word.split(' ')[0]}’ best partners.`);
  });
  tell(model.k ? 'Click a rotation that is ready, or press ↓: each click leads to another stable matching.'
    : 'There is one stable matching.');
  walk.readAddress();
  addEventListener('hashchange', () => { if (walk.readAddress()) { tell('The matching of the address.'); show(); } });
  show();
  if (location.hash.startsWith('#test')) testPage();
}

function pressMark(mark) { return () => document.querySelector(`[data-mark=${mark}]`).click(); }

start();
