// The test of the page of a marriage or hospitals.

// Clicks each rotation, and tells how many milliseconds each click took, with the layout that follows.
function testRotations(tried) {
  const nodes = orderView.nodes;
  const spent = [0];
  document.body.getBoundingClientRect();
  nodes.forEach((node, i) => {
    const begun = performance.now();
    fire(node);
    document.body.getBoundingClientRect();
    spent.push(performance.now() - begun);
    const taken = nodes.map(it => it.getAttribute('aria-checked') === 'true');
    if (!taken.every((it, j) => !it || model.needs[j].every(l => taken[l]))) tried.want(`closed after rotation ${i + 1}`, false);
    if (!document.querySelector('#verdict .good')) tried.want(`stable after rotation ${i + 1}`, false);
    if (model.answers.list.isWhole && !model.conditions
      && !model.listed.includes(shownVector(model))) tried.want(`listed after rotation ${i + 1}`, false);
  });
  tried.want('each rotation clicked: closed, stable, listed', !tried.wrong);
  tried.wantEach('what goes along is shown first', nodes.slice(0, 20), node => {
    node.dispatchEvent(new MouseEvent('mouseenter'));
    const [also, { others }] = [nodes.filter(it => it.classList.contains('also')).length, walk.along(+node.dataset.i)];
    node.dispatchEvent(new MouseEvent('mouseleave'));
    return also === others.length + 1;
  });
  return spent;
}

function testJumps(tried) {
  for (const mark of model.marks) {
    const button = document.querySelector(`[data-mark=${mark.id}]`);
    if (!mark.of) {
      const isTold = button.title !== '' && $('greyed').textContent.includes(mark.note);
      tried.want(`${mark.label}: greyed, and it says why`, button.disabled && isTold);
      continue;
    }
    fire(button);
    tried.want(`${mark.label}: the program’s matching, stable and allowed`,
      shownVector(model) === model.vectorOf(mark.of) && !!document.querySelector('#verdict .good') &&
      (['best', 'worst'].includes(mark.id) || model.isAllowed(mark.of)));
  }
  const regret = model.marks.find(mark => mark.id === 'regret'), ranks = model.marks.find(mark => mark.id === 'ranks'),
    given = model.marks.find(mark => mark.id === 'given');
  if (regret.of) tried.want('its regret is what the program says',
    `${model.figures(regret.of).regret}` === answers.regret.value('regret'));
  if (ranks.of) tried.want('its sum is what the program says',
    `${model.figures(ranks.of).total}` === answers['weight by=ranks'].value('total'));
  if (given && given.of) tried.want('its weight is what the program says',
    `${model.givenOf(given.of)[0]}` === answers['weight by=given'].value('total'));
}

function testLattice(tried) {
  if (!rows) { tried.want('the neighbours are buttons', !model.k || $('lattice').querySelectorAll('button').length > 0); return; }
  tried.wantEach('each matching is reached by a click', [...latticeView.nodes].slice(0, 60),
    ([key, { node }]) => { fire(node); return model.key(walk.set) === key && node.getAttribute('aria-current') === 'true'; });
}

function testCompare(tried) {
  hit('1'); hit('a'); hit('2'); hit('b');
  const [best, worst] = model.marks, route = walk.route();
  tried.want('keys: both bests are kept as A and B', !$('compareBox').hidden && model.vectorOf(walk.A) === model.vectorOf(best.of)
    && model.vectorOf(walk.B) === model.vectorOf(worst.of));
  tried.want('the meet of both bests is the first, the join the last',
    model.meet(walk.A, walk.B).join() === best.of.join() && model.join(walk.A, walk.B).join() === worst.of.join());
  tried.wantEach('each step of the route is a stable matching, one rotation on', route.slice(1),
    step => model.isClosed(step.set) && !model.blocking(model.matchingOf(step.set)).length);
  tried.want('the route has a step for each rotation', route.length === model.k + 1);
  if (rows) tried.want('the route is marked in the lattice, with its ends',
    latticeView.edges.filter(it => it.line.classList.contains('route')).length === model.k
    && document.querySelectorAll('.matching.kept').length === (model.k ? 2 : 1));
  fire([...$('compare').querySelectorAll('button')].find(it => it.textContent === 'Forget A and B'));
  tried.want('A and B are forgotten', $('compareBox').hidden);
}

function testHand(tried) {
  hit('1'); hit('h');
  const chip = document.querySelector('#pLists button.chip:not(.now)');
  if (chip) {
    fire(chip);
    tried.want('by hand: a change is shown, and what is wrong with it',
      !!document.querySelector('#pairs tr.changed') && ($('verdict').textContent.includes('Not') || !!walk.closed()));
    const of = walk.now();
    tried.wantEach('each blocking pair is one', model.breaches(of).length ? [] : model.blocking(of),
      it => it.rank < it.own && it.back < it.worst);
    hit('u');
    tried.want('undone', shownVector(model) === model.vectorOf(model.marks[0].of));
  }
  hit('h');
}

function testSteps(tried) {
  $('acceptance').open = true;
  for (const [side, mark] of [[false, model.marks[0]], [true, model.marks[1]]]) {
    const trace = deferredAcceptance(model, side), { held } = stateAfter(trace, trace.steps.length), of = model.P.map(() => -1);
    held.forEach(key => { const [row, other] = key.split(' ').map(Number); if (side) of[other] = row; else of[row] = other; });
    tried.want(`deferred acceptance ends at the ${mark.label}`, of.join() === mark.of.join());
  }
  const view = new StepsView('steps', { 'proposers propose': () => deferredAcceptance(model, false) }, () => '');
  view.go(1); view.go(Infinity);
  tried.want('its last step is shown', view.table.querySelectorAll('tr').length > 0 || !model.P.length);
}

function testNets(tried) {
  const isOpen = $('netBox').open;
  $('netBox').open = true;
  for (const [words, net] of Object.entries(nets)) {
    choose('netBy', words);
    for (const it of [net, net.second]) {
      if (!it) continue;
      tried.want(`${words}, ${it.name}: a flow, as much as the cut ${it.fault()}`, !it.fault());
      tried.wantEach('no closed set that is allowed costs less', rows ? rows.flat() : [], set => it.cost(set) >= it.value);
    }
    tried.wantEach('cost is the sum less a constant', rows && !net.second ? rows.flat() : [], set => {
      const of = model.matchingOf(set), sum = words === 'weight by=ranks' ? model.figures(of).total : model.givenOf(of)[0];
      return !model.isAllowed(of) || sum - net.cost(set) === net.total - net.cut;
    });
    tried.want('the net is shown', !!$('net').querySelector('svg, table'));
  }
  $('netBox').open = isOpen;
}

function testExport(tried) {
  const claims = [];
  $('exportBox').open = true;
  const take = (word, words) => { choose('form', word); claims.push([words, $('text').value]); };
  const sets = rows && model.k && rows.flat().length <= 40 ? rows.flat() : [];
  for (const set of sets) {
    walk.goTo(set, 'Tried.');
    if (model.isAllowed(walk.now())) take('check', 'check');
    claims.push(['commands', $('commands').querySelector('pre').textContent, csvText(model, walk.now(), ['proposer', 'reviewer'])]);
  }
  if (sets.length) {
    hit('1'); hit('a'); hit('2'); hit('b');
    for (const words of ['meet', 'join', 'route']) take('meet', words);
    walk.A = walk.B = null;
  }
  hit('1');
  choose('form', 'claim');
  tried.want('a claim ends', $('text').value.startsWith('answer regret\nregret ') && $('text').value.endsWith('end\n'));
  choose('form', 'csv');
  tried.want('a table has a row for each', $('text').value.split('\n').length === model.P.length + 2 || /"/.test($('text').value));
  choose('form', 'cursor');
  tried.want('a cursor is the vector', $('text').value === `${shownVector(model)}\n`);
  for (const box of Object.keys(picturesOf)) {
    choose('form', box);
    const root = new DOMParser().parseFromString($('text').value, 'image/svg+xml').documentElement;
    tried.want(`a picture of ${box}`, !$(box).querySelector('svg') || (root.tagName === 'svg'
      && root.querySelectorAll('svg').length > 0));
  }
  tried.want('two commands', $('commands').querySelector('pre').textContent.split('\n').length === 2);
  choose('form', 'check');
  if (isLarge) $('exportBox').open = false;
  return claims;
}

function testAddress(tried) {
  hit('2');
  tried.want('the address has the set', location.hash === `#set=${model.members(walk.set).map(i => i + 1).join(',')}`);
  walk.set = model.none();
  walk.readAddress();
  tried.want('the address leads back', model.members(walk.set).length === model.k);
  hit('1'); hit('q');
  const hidden = [...document.querySelectorAll('.answer')];
  tried.want('quiz: answers are hidden until they are asked for', hidden.every(it => it.inert));
  hit('s');
  tried.want('quiz: shown', hidden.every(it => !it.inert));
  hit('q');
  const big = document.documentElement.classList;
  hit('l'); tried.want('large type', big.contains('big')); hit('l');
}

function testPage() {
  const tried = new Tried();
  tried.want('starts at the proposers’ best', shownVector(model) === model.vectorOf(model.marks[0].of));
  tried.want('the page agrees with the list', model.agreement(rows).ok);
  // Browsers pass over changes of the address where there are some hundreds within seconds, so this comes first.
  testAddress(tried);
  const spent = testRotations(tried);
  testJumps(tried);
  testLattice(tried);
  testCompare(tried);
  testHand(tried);
  testSteps(tried);
  testNets(tried);
  const claims = testExport(tried);
  const mean = spent.reduce((sum, it) => sum + it) / Math.max(1, model.k);
  tried.lines.push(`${mean.toFixed(1)} ms for a click, at most ${Math.max(...spent).toFixed(1)}`);
  tried.end(claims);
}
