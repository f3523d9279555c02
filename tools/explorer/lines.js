// The program's answers, word for word.

// An answer stands in the page as a text, or shorter: that of `list` as what each vector changes in the one before it, and others
// as parts, where the numbers of lines of `rotations`, from the first to the one behind the last, stand for these lines.
function wholeTexts(answers) {
  const lines = (answers.rotations || '').split('\n'), whole = {};
  for (const [words, it] of Object.entries(answers)) {
    whole[words] = typeof it === 'string' ? it : it.changes ? listText(it)
      : it.map(part => typeof part === 'string' ? part : `${lines.slice(...part).join('\n')}\n`).join('');
  }
  return whole;
}

// The text of an answer of `list`. The changes are places and ranks in turns.
function listText({ head, changes, last }) {
  const ranks = [], vectors = changes.map(own => {
    for (let i = 0; i < own.length; i += 2) ranks[own[i]] = own[i + 1];
    return ranks.join(',');
  });
  const end = last === 'more' ? `more ${vectors[vectors.length - 1]}` : last;
  return [head, ...vectors.map(it => `vector ${it}`), end, ''].join('\n');
}

class Answer {
  constructor(text) {
    this.text = text || '';
    this.lines = this.text.split('\n').filter(line => line !== '').map(line => line.split(' '));
    this.whyNot = this.reason();
  }

  // Why there is nothing to show, or ''.
  reason() {
    if (!this.lines.length) return 'the program wasn’t asked';
    if (this.lines[0][1] === 'TooMany') return 'the program refused (TooMany): more than 100,000 stable matchings are allowed';
    if (this.lines[0][0] === 'refused') return `the program refused: ${this.lines[0].join(' ')}`;
    return this.lines.some(line => line[0] === 'none') ? 'none: no stable matching is allowed' : '';
  }

  // The fields behind a keyword, of each of its lines.
  all(keyword) { return this.lines.filter(line => line[0] === keyword).map(line => line.slice(1)); }

  // The first field of the one line with a keyword, or ''.
  value(keyword) { const line = this.all(keyword)[0]; return line ? line[0] : ''; }

  // Whether it ends with `end`, so nothing more follows.
  get isWhole() { return this.lines.length > 0 && this.lines[this.lines.length - 1][0] === 'end'; }
}
