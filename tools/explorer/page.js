// What pages of both kinds share: the data, the bar's buttons, keys, and the program's lines.
const data = JSON.parse($('data').textContent), exported = $('exported').textContent.trim();
const texts = wholeTexts(data.answers);
const answers = Object.fromEntries(Object.entries(texts).map(([words, text]) => [words, new Answer(text)]));

// Quiz, large type, dark, print.
function startBar(show) {
  const root = document.documentElement, dark = matchMedia('(prefers-color-scheme: dark)');
  const paint = on => { root.classList.toggle('dark', on); $('dark').setAttribute('aria-pressed', on); };
  paint(dark.matches);
  dark.addEventListener('change', () => paint(dark.matches));
  toggle('dark', paint);
  toggle('big', on => root.classList.toggle('big', on));
  toggle('quiz', on => {
    document.body.classList.toggle('quiz', on);
    document.body.classList.remove('solved');
    hideAnswers();
    tell(on ? 'Quiz: what comes is hidden until you ask for it (key s).' : 'The quiz has ended.');
  });
  $('solve').addEventListener('click', () => { document.body.classList.add('solved'); hideAnswers(); });
  $('print').addEventListener('click', () => window.print());
  for (const words of Object.keys(texts)) $('raw').append(rawPart(`matchbench ${words}`, texts[words]));
  $('raw').prepend(rawPart('the instance', data.text), rawPart('matchbench export', `${exported}\n`));
  hideAnswers();
}

// In a quiz the answers are hidden, from readers of screens too.
function hideAnswers() {
  const hidden = document.body.classList.contains('quiz') && !document.body.classList.contains('solved');
  if ($('solve').hidden === !hidden) return;
  document.querySelectorAll('.answer').forEach(it => { it.inert = hidden; it.setAttribute('aria-hidden', hidden); });
  $('solve').hidden = !hidden;
}

function rawPart(title, text) {
  const pre = el('pre'), it = el('details', {}, el('summary', {}, title), pre);
  it.addEventListener('toggle', () => { if (!pre.textContent) pre.textContent = text; });
  return it;
}

// Keys of the whole page, but not where one writes.
function startKeys(keys) {
  document.addEventListener('keydown', event => {
    if (/INPUT|SELECT|TEXTAREA/.test(event.target.tagName) || event.ctrlKey || event.metaKey || event.altKey) return;
    const act = keys[event.key];
    if (act) { event.preventDefault(); act(); }
  });
}

const press = id => () => $(id).click();
const BAR_KEYS = { q: press('quiz'), s: press('solve'), l: press('big'), d: press('dark') };
