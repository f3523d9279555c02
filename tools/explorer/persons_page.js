// The page of roommates.
const model = new Persons(JSON.parse(exported), answers, data.names);
const isLarge = model.P.length > 30;

// Where one is: what is shown, which of the listed matchings it is (or -1), and what was shown before.
const walk = { of: model.solved || model.rest, at: -1, before: null, history: [], hand: false };
walk.at = model.indexOf(walk.of);

const partiesView = new PartiesView(model);
const matchingView = new MatchingView(model, { row: 'person', histograms: ['ranks'], sums: it => [['ranks', it.proposers]],
  allowed: () => model.without.size ? '; those who are left out don’t count' : '' });
const table = { id: 'pLists', same: true, names: model.pShown, others: model.rShown, lists: model.pList, ranks: model.pRank,
  pair: (p, q) => [p, q] };
const listsView = new ListsView(model, [table], model.answers.list.isWhole ? (p, q) => model.listed.some(of => of[p] === q) : null,
  (p, q) => goTo(model.changed(walk.of, p, q), `${model.pShown[p]} and ${model.pShown[q]}, by hand.`));

const exportView = new ExportView({
  check: { label: 'check: the instance and this matching', file: 'both.txt', text: () => data.text + claimText(model, walk.of),
    what: () => './matchbench check < both.txt says whether it is stable' },
  claim: { label: 'check: this matching alone', file: 'answer.txt', text: () => claimText(model, walk.of),
    what: () => `cat ${quoted(data.file)} answer.txt | ./matchbench check` },
  csv: { label: 'a table (CSV) for tools/claim', file: 'matching.csv', text: () => csvText(model, walk.of, ['person', 'partner']),
    what: () => `${claimCommand('stable', data)} | ./matchbench check` },
  cursor: { label: 'a cursor for list after=', file: 'cursor.txt', text: () => `${model.vectorOf(walk.of)}\n`,
    what: () => `./matchbench list after=… < ${quoted(data.file)} lists those behind this one` },
  parties: { label: 'a picture of the circles (SVG)', file: 'parties.svg', text: () => pictureText('parties'),
    what: () => 'a picture for slides' },
}, () => model.breaches(walk.of).length || model.blocking(walk.of).length || model.without.size
  ? { note: 'This matching isn’t stable with everybody in it, so the program makes no certificate of it.',
    lines: [`./matchbench solve < ${quoted(data.file)} > answer.txt`, `cat ${quoted(data.file)} answer.txt | ./matchbench check`] }
  : twoCommands(model, walk.of, data));

function changes(before, after) {
  const moved = after.map((q, p) => q === before[p] ? ''
    : `${model.pShown[p]}: ${model.partner(before[p])} → ${model.partner(q)}`).filter(it => it);
  return !moved.length ? 'Nobody moves.' : moved.length > 8 ? `${moved.length} move.` : `Changed: ${moved.join(', ')}.`;
}

function goTo(of, text) {
  walk.history.push(walk.of);
  walk.before = walk.of;
  walk.of = of;
  walk.at = model.indexOf(of);
  document.body.classList.remove('solved');
  tell(`${text} ${document.body.classList.contains('quiz') ? '' : changes(walk.before, of)}`);
  if (walk.at >= 0) history.replaceState(null, '', `#matching=${walk.at + 1}`);
  show();
}

function goToListed(i) { if (model.listed[i]) goTo(model.listed[i], `Matching ${i + 1} of the list.`); }

function show() {
  const { of, at } = walk;
  model.without = new Set(model.out.length && of.join() === model.rest.join() ? model.out : []);
  const breaches = model.breaches(of);
  matchingView.show(of, walk.before, at >= 0 ? `number ${at + 1} of the list` : model.without.size
    ? 'the rest, without one of each odd party' : 'made by hand', []);
  listsView.show(of, breaches.length ? [] : model.blocking(of), walk.hand);
  const isPartition = $('which').value === 'partition' && model.parties.length > 0;
  partiesView.show(isPartition ? model.parties : model.partiesOf(of));
  exportView.show();
  document.querySelectorAll('[data-at]').forEach(it => it.setAttribute('aria-pressed', +it.dataset.at === at));
  $('solved').setAttribute('aria-pressed', !!model.solved && of.join() === model.solved.join());
  $('rest').setAttribute('aria-pressed', of.join() === model.rest.join());
  $('undo').disabled = !walk.history.length;
  $('up').disabled = at === 0 || !model.listed.length;
  $('down').disabled = at === model.listed.length - 1 || !model.listed.length;
  $('hand').setAttribute('aria-pressed', walk.hand);
  $('handNote').hidden = !walk.hand;
  hideAnswers();
}

function undo() {
  const of = walk.history.pop();
  if (!of) return;
  Object.assign(walk, { before: walk.of, of, at: model.indexOf(of) });
  tell('Undone.');
  show();
}

function readAddress() {
  const found = location.hash.match(/^#matching=(\d+)$/), of = found && model.listed[found[1] - 1];
  if (of) Object.assign(walk, { of, at: model.indexOf(of) });
  return !!of;
}

function showListed() {
  const { listed } = model, more = model.answers.list.isWhole ? '' : ' and more';
  $('listedNote').textContent = listed.length ? `${listed.length}${more}; a number for each person: its choice`
    : 'none: there is no stable matching';
  $('listed').replaceChildren(...listed.map((of, i) => el('button', { 'data-at': i, 'aria-pressed': 'false',
    on: () => goToListed(i) }, `${i + 1}: ${model.P.length <= 30 ? model.vectorOf(of) : ''}`)));
}

function start() {
  const count = model.listed.length;
  $('facts').textContent = `roommates: ${model.P.length} persons, ${!count ? 'no stable matching' : model.answers.list.isWhole
    ? plural(count, 'stable matching') : `more than ${data.most} stable matchings`}`;
  $('solved').disabled = !model.solved;
  $('greyed').textContent = model.solved ? '' : 'The program’s matching: there is none, as the odd party shows.';
  $('solved').title = $('greyed').textContent;
  $('which').hidden = !model.parties.length;
  const acts = { solved: () => goTo(model.solved, 'The matching that solve wrote.'), rest: () => goTo(model.rest, 'The rest.'),
    undo,
    up: () => goToListed(walk.at < 0 ? 0 : walk.at - 1), down: () => goToListed(walk.at + 1),
    hand: () => { walk.hand = !walk.hand; show(); } };
  for (const [id, act] of Object.entries(acts)) $(id).addEventListener('click', act);
  $('which').addEventListener('change', show);
  startBar();
  startKeys({ ...BAR_KEYS, ArrowDown: acts.down, ArrowUp: acts.up, u: undo, h: acts.hand, 1: press('solved'), 2: press('rest') });
  $('restNote').textContent = model.out.length
    ? `Left out: ${model.out.map(p => model.pShown[p]).join(', ')}. No two of the others block the rest’s matching.`
    : 'Nobody is left out.';
  if (!isLarge) $('exportBox').open = $('phase').open = true;
  $('agreement').textContent = 'It looks for pairs that block the shown matching, and does phase one by itself.';
  showListed();
  whenOpened('phase', () => { new StepsView('steps', { 'phase one': () => phaseOne(model) },
    () => 'Everybody who has somebody left is held. Who was struck can’t be a partner in any stable matching.'); });
  tell(model.listed.length ? 'Press ↓ and ↑ to go through the stable matchings.'
    : 'There is no stable matching; the rest leaves somebody out.');
  readAddress();
  addEventListener('hashchange', () => { if (readAddress()) { tell('The matching of the address.'); show(); } });
  show();
  if (location.hash.startsWith('#test')) testPage();
}

start();
