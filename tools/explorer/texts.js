// Texts that the program and the tools take.

// A line for each pair; for each couple of roommates one.
function pairLines(model, of, word) {
  return of.map((r, p) => r < 0 || (model.kind === 'roommates' && r < p) ? '' : `${word} ${model.P[p]} ${model.R[r]}\n`).join('');
}

// An answer that `check` judges: that the matching is stable, and of two sides that it has its regret.
function claimText(model, of) {
  const head = model.kind === 'roommates' ? 'answer solve\n' : `answer regret\nregret ${model.figures(of).regret}\n`;
  return `${head}${pairLines(model, of, 'pair')}end\n`;
}

const bothText = (model, a, b) => `${pairLines(model, a, 'left')}${pairLines(model, b, 'right')}end\n`;

function csvCell(text) { return /[",;\n\r\t]/.test(text) ? `"${text.replace(/"/g, '""')}"` : text; }

function csvText(model, of, head) {
  const rows = of.map((r, p) => [csvCell(model.pShown[p]), r < 0 ? '' : csvCell(model.rShown[r])]);
  return [head, ...rows].map(row => `${row.join(',')}\n`).join('');
}

// The greatest vector before that of a matching, in the instance's order: the listing behind it begins with the matching.
function cursorBefore(model, of) {
  const ranks = model.P.map((_, p) => model.rankOf(of, p));
  if (!ranks.length) return null;
  ranks[model.order[ranks.length - 1]]--;
  return ranks.join(',');
}

const quoted = file => /^[\w.\/-]+$/.test(file) ? file : `'${file.replace(/'/g, "'\\''")}'`;

// The command of tools/claim on the table that the page saves. `data` is that of the page.
function claimCommand(said, data) {
  const names = data.namesFile ? ` --names ${quoted(data.namesFile)}` : '';
  return `tools/claim --as ${said} ${quoted(data.file)} matching.csv${names}`;
}

// The two commands by which the program makes and checks a stable matching, with a sentence before them; where another command
// makes it too, `more` are the two with that.
function twoCommands(model, of, data) {
  const text = quoted(data.file), checked = `cat ${text} answer.txt | ./matchbench check`;
  if (model.kind === 'roommates' || !model.P.length) {
    return { note: 'The table is what “a table (CSV)” saves. A yes says that the matching is stable.',
      lines: [`${claimCommand('stable', data)} > both.txt`, './matchbench check < both.txt'] };
  }
  if (!model.isAllowed(of)) {
    return { note: 'The conditions don’t allow this matching, so “list” passes over it; its meet with itself is made and checked.',
      lines: [`${claimCommand('meet', data)} | ./matchbench meet > answer.txt`, checked] };
  }
  const made = words => [`./matchbench ${words} < ${text} > answer.txt`, checked];
  const mark = model.marks.find(it => it.of && it.id !== 'median' && it.of.every((r, p) => r === of[p]));
  return { note: 'The program lists this matching, the first behind the vector that comes next before it, and checks it.',
    lines: made(`list after=${cursorBefore(model, of)} limit=1`), more: mark ? made(mark.words) : [],
    moreNote: mark ? `It is also the answer of “${mark.words}”, which says more of it:` : '' };
}
