// The page tries itself, by clicks, where its address ends with #test: the last line of what it adds is `explorer: passed`.
class Tried {
  constructor() { this.lines = []; this.wrong = 0; }

  want(what, ok) { if (!ok) this.wrong++; this.lines.push(`${ok ? 'ok' : 'NOT OK'} ${what}`); }

  // Each of some things is so; the first that isn't is told.
  wantEach(what, list, test) {
    const bad = list.find(it => !test(it));
    this.want(bad === undefined ? what : `${what}: ${String(bad)}`, bad === undefined);
  }

  end(claims) {
    this.lines.push(this.wrong ? `explorer: ${this.wrong} failed` : 'explorer: passed');
    document.body.append(el('pre', { id: 'claims', hidden: '' }, JSON.stringify(claims)),
      el('pre', { id: 'test' }, this.lines.join('\n')));
  }
}

const fire = it => it.dispatchEvent(new MouseEvent('click', { bubbles: true }));

const hit = key => document.body.dispatchEvent(new KeyboardEvent('keydown', { key, bubbles: true, cancelable: true }));

// The vector of what the page's table shows.
function shownVector(model) {
  const rank = new Map([...$('all').children].map(row => [row.children[0].textContent, row.children[2].textContent]));
  return model.P.length ? model.pShown.map(name => rank.get(name)).join(',') : '-';
}

function choose(id, value) { $(id).value = value; $(id).dispatchEvent(new Event('change')); }
