// Two matchings that were kept, A and B: who is better off where, meet and join, and the route between them.
class CompareView {
  constructor(walk) { Object.assign(this, { walk, model: walk.model }); }

  show() {
    const { walk, model } = this, { A, B } = walk;
    $('compareBox').hidden = !A && !B;
    for (const name of ['A', 'B']) $(`set${name}`).setAttribute('aria-pressed', !!walk[name]);
    if (!A && !B) return;
    if (!A || !B) {
      $('compare').replaceChildren(el('p', {},
        `${A ? 'A' : 'B'} is kept. Go to another matching and keep it as ${A ? 'B' : 'A'}.`), this.forget());
      return;
    }
    const meet = model.meet(A, B), join = model.join(A, B), differ = model.P.map((_, p) => p).filter(p => A[p] !== B[p]);
    const better = differ.filter(p => model.rankOf(A, p) < model.rankOf(B, p)).length;
    const head = el('tr', {}, ...['proposer', 'A', 'B', 'meet: the better', 'join: the worse'].map(it => el('th', {}, it)));
    const cell = (of, p) => el('td', {}, `${model.partner(of[p])} (${model.rankOf(of, p)})`);
    const buttons = [['A', A], ['B', B], ['meet', meet], ['join', join]].map(([name, of]) => el('button',
      { on: () => walk.goToMatching(of, `This is ${name}.`) }, `Go to ${name}`));
    $('compare').replaceChildren(
      el('p', {}, `${better} proposers are better off in A, ${differ.length - better} in B, and ` +
        `${model.P.length - differ.length} have the same partner.`),
      ...this.routeParts(), el('p', { class: 'noprint buttons' }, ...buttons, this.forget()),
      differ.length ? el('div', { class: 'scroll answer' }, el('table', {}, head,
        ...differ.slice(0, 300).map(p => el('tr', {}, el('td', {}, model.pShown[p]), cell(A, p), cell(B, p), cell(meet, p),
        cell(join, p))))) : '');
  }

  forget() { return el('button', { on: () => { this.walk.A = this.walk.B = null; this.walk.show(); } }, 'Forget A and B'); }

  // The steps of the route as buttons, in the order in which one walks.
  routeParts() {
    const { walk, model } = this, route = walk.route();
    if (!route) return [el('p', {}, 'One of them isn’t stable, so meet and join may be none, and there is no route.')];
    const own = set => setName(model, set), [a, b] = [route[0].set, route[route.length - 1].set];
    const only = (one, other) => numbers(model.members(one).filter(i => !other[i])) || 'none';
    const shown = model.key(walk.closed() || []);
    const steps = route.map((step, i) => {
      const isLast = i === route.length - 1, name = i ? `${step.word}${isLast ? ', B' : ''}` : isLast ? 'A and B' : 'A';
      const go = () => walk.goTo(step.set, i ? `Step ${i} of the route: ${step.word}.` : 'The route begins at A.');
      const isShown = model.key(step.set) === shown;
      return el('button', { 'aria-current': isShown ? 'step' : null, title: `goes to the matching of ${own(step.set)}`, on: go },
        name);
    });
    const told = `A is of ${own(a)}, B of ${own(b)}: only A has ${only(a, b)}, only B has ${only(b, a)}.`;
    return [el('p', {}, `${told} The shortest route: ${plural(route.length - 1, 'step')}.`),
      el('p', { class: 'buttons route' }, ...steps.flatMap((it, i) => i ? [' → ', it] : [it]))];
  }
}
