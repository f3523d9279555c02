// The page of hospitals that the program refuses: their lists, and deferred acceptance. What needs an answer is grey.
const { proposers, reviewers } = data.instance, MOST_ENTRIES = 60;
const model = new Market(proposers, reviewers, data.names.proposer || {}, data.names.reviewer || {});
const nobody = model.P.map(() => -1);
const listsView = new ListsView(model, [
  { id: 'pLists', names: model.pShown, others: model.rShown, lists: model.pList, ranks: model.pRank, pair: (p, r) => [p, r],
    most: MOST_ENTRIES },
  { id: 'rLists', names: model.rShown, others: model.pShown, lists: model.rList, ranks: model.rRank, pair: (r, p) => [p, r],
    most: MOST_ENTRIES, places: r => ` [${model.cap[r]}]` },
], null);

// The buttons of the other pages that need an answer.
const GREY = ['Proposers’ best', 'Reviewers’ best', 'Median', 'Least regret', 'Lightest by ranks',
  ...data.isWeighed ? ['Lightest as given'] : [], 'Rotations', 'Stable matchings'];

function start() {
  $('facts').textContent = `hospitals: ${plural(model.P.length, 'proposer')}, ${plural(model.R.length, 'reviewer')}`;
  $('jumps').append(...GREY.map(label => el('button', { disabled: '', title: data.whyNot }, label)));
  $('exportBox').remove();
  Object.assign($('quiz'), { disabled: true, title: data.whyNot });
  $('greyed').append(`${GREY.join(', ')}: ${data.whyNot}. `, el('code', {}, `./matchtrim < ${quoted(data.file)} > trimmed.txt`),
    ' cuts lists where nothing depends on them, so all stable matchings stay; if trimmed.txt is short enough, it can be explored.');
  startBar();
  startKeys({ l: BAR_KEYS.l, d: BAR_KEYS.d });
  $('agreement').textContent = 'It does deferred acceptance by itself.';
  const sides = { 'proposers propose': () => deferredAcceptance(model, false),
    'reviewers propose': () => deferredAcceptance(model, true) };
  $('acceptance').open = true;
  new StepsView('steps', sides, word =>
    `Nobody has anybody left to propose to: these are the ${word.split(' ')[0]}’ best partners.`);
  listsView.show(nobody, [], false);
  if (location.hash.startsWith('#test')) testPage();
}

// The matching in which deferred acceptance from a side ends.
function endOf(fromReviewers) {
  const trace = deferredAcceptance(model, fromReviewers), of = nobody.slice();
  stateAfter(trace, trace.steps.length).held.forEach(key => {
    const [row, other] = key.split(' ').map(Number);
    of[fromReviewers ? other : row] = fromReviewers ? row : other;
  });
  return of;
}

function testPage() {
  const tried = new Tried();
  tried.wantEach('greyed, and it says why', [...$('jumps').children], it => it.disabled && it.title === data.whyNot
    && $('greyed').textContent.includes(it.title));
  for (const side of [false, true]) {
    const of = endOf(side);
    tried.want('deferred acceptance ends at a stable matching', !model.breaches(of).length && !model.blocking(of).length);
  }
  const view = new StepsView('steps', { 'reviewers propose': () => deferredAcceptance(model, true) }, () => 'The end.');
  view.go(Infinity);
  tried.want('its last step is shown', view.told.textContent.endsWith('The end.') && view.table.rows.length > 0);
  tried.want('few boxes', document.querySelectorAll('.chip').length < 50000);
  tried.end([]);
}

start();
