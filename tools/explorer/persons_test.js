// The test of the page of roommates.
function testPartition(tried) {
  if (model.parties.length) {
    const next = new Map(), before = new Map();
    model.parties.forEach(party => party.forEach((p, i) => {
      const to = party[(i + 1) % party.length];
      next.set(p, to);
      before.set(to, p);
    }));
    const rank = (p, q) => p === q ? Infinity : model.pRank[p].get(q);
    tried.want('everybody is in one party', next.size === model.P.length && model.parties.flat().length === model.P.length);
    tried.wantEach('everybody likes its successor as much as its predecessor, or better', [...next.keys()],
      p => next.get(p) === p || rank(p, next.get(p)) <= rank(p, before.get(p)));
    tried.wantEach('no two would rather have one another than their predecessors', model.P.map((_, p) => p),
      p => !model.pList[p].some(q => model.isAcceptable(p, q) && rank(p, q) < rank(p, before.get(p))
        && rank(q, p) < rank(q, before.get(q))));
    const odd = model.parties.filter(party => model.isOdd(party));
    tried.want('an odd party is shown', odd.length > 0 && document.querySelectorAll('figure.odd').length === odd.length);
    tried.want('the program’s matching is greyed, and it says why', $('solved').disabled && $('greyed').textContent !== '');
  } else tried.want('the program’s matching is stable', !model.breaches(model.solved).length
    && !model.blocking(model.solved).length);
}

function testListed(tried) {
  tried.wantEach('each listed matching is reached, and stable', [...document.querySelectorAll('[data-at]')].slice(0, 60),
    button => {
    fire(button);
    return shownVector(model) === answers.list.all('vector')[button.dataset.at][0] && !!document.querySelector('#verdict .good');
  });
  hit('2');
  tried.want('the rest is shown, and nobody in it blocks', shownVector(model) === model.vectorOf(model.rest)
    && !!document.querySelector('#verdict .good'));
  tried.wantEach('who is left out is alone', model.out, p => model.rest[p] < 0);
}

function testPhase(tried) {
  const trace = phaseOne(model), { struck, held } = stateAfter(trace, trace.steps.length);
  const pairs = [...model.listed.flatMap(of => of.map((q, p) => [p, q])),
    ...model.parties.flatMap(party => party.length < 2 ? [] : party.map((p, i) => [p, party[(i + 1) % party.length]]))];
  tried.wantEach('phase one strikes no pair of a stable matching or of the partition', pairs.filter(it => it[1] >= 0),
    it => !struck.has(it.join(' ')));
  tried.wantEach('what is struck is struck on both lists',
    [...struck].filter(key => model.isAcceptable(...key.split(' ').map(Number))),
    key => struck.has(key.split(' ').reverse().join(' ')));
  const asking = new Set([...held].map(key => key.split(' ')[0]));
  tried.wantEach('everybody who has somebody left is held', model.P.map((_, p) => p),
    p => asking.has(String(p)) || model.pList[p].every(q => struck.has(`${p} ${q}`)));
  $('phase').open = true;
  const view = new StepsView('steps', { 'phase one': () => phaseOne(model) }, () => '');
  view.go(Infinity);
  tried.want('the last step is shown', view.table.querySelectorAll('.struck').length === struck.size || model.P.length > 60);
}

function testHand(tried) {
  const first = walk.of;
  hit('h');
  const chip = document.querySelector('#pLists button.chip:not(.now)');
  if (chip) {
    fire(chip);
    tried.want('by hand: a change is shown', !!document.querySelector('#pairs tr.changed'));
    tried.wantEach('each blocking pair is one', model.breaches(walk.of).length ? [] : model.blocking(walk.of),
      it => it.rank < it.own && it.back < it.worst);
    hit('u');
    tried.want('undone', walk.of.join() === first.join());
  }
  hit('h');
}

function testPage() {
  const tried = new Tried(), claims = [], begun = performance.now();
  testPartition(tried);
  testListed(tried);
  testPhase(tried);
  testHand(tried);
  $('exportBox').open = true;
  model.listed.slice(0, 40).forEach((_, i) => {
    goToListed(i);
    choose('form', 'check');
    claims.push(['check', $('text').value]);
    claims.push(['commands', $('commands').querySelector('pre').textContent, csvText(model, walk.of, ['person', 'partner'])]);
  });
  if (model.listed.length) tried.want('the address has the number',
    location.hash === `#matching=${Math.min(40, model.listed.length)}`);
  hit('q'); tried.want('quiz: answers are hidden', [...document.querySelectorAll('.answer')].every(it => it.inert)); hit('q');
  tried.lines.push(`${(performance.now() - begun).toFixed(0)} ms in all`);
  tried.end(claims);
}
