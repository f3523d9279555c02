// What goes out: texts for the program, tables, pictures, and the two commands that make and check the shown matching.

// A picture's styles, set in it, so that it looks alone as it does in the page.
const STYLES = ['fill', 'stroke', 'stroke-width', 'stroke-dasharray', 'font-weight', 'font-family', 'font-size', 'paint-order'];

function styled(root) {
  const copy = root.cloneNode(true), from = root.querySelectorAll('*'), to = copy.querySelectorAll('*');
  from.forEach((it, i) => {
    const style = getComputedStyle(it);
    if (!/^(path|rect|circle|text)$/.test(it.tagName)) return;
    for (const name of STYLES) to[i].style.setProperty(name, style.getPropertyValue(name));
  });
  copy.removeAttribute('style');
  return copy;
}

// The pictures of a box as one text, side by side; '' where it has none.
function pictureText(box) {
  // What is on its way to another colour is taken as it will be.
  document.documentElement.classList.add('still');
  const all = [...$(box).querySelectorAll('svg')].map(styled), size = (it, name) => +it.getAttribute(name);
  document.documentElement.classList.remove('still');
  if (!all.length) return '';
  let width = 0;
  for (const it of all) { it.setAttribute('x', width); width += size(it, 'width'); }
  const root = svg('svg', { xmlns: SVG, width, height: Math.max(...all.map(it => size(it, 'height'))) }, ...all);
  root.style.setProperty('background', getComputedStyle(document.body).getPropertyValue('--paper'));
  return new XMLSerializer().serializeToString(root);
}

class ExportView {
  // `forms` has for each word of the choice a label, the name of a file, what is done with it, and what makes the text.
  constructor(forms, commands) {
    Object.assign(this, { forms, commands });
    $('form').replaceChildren(...Object.entries(forms).map(([word, it]) => el('option', { value: word }, it.label)));
    $('form').addEventListener('change', () => this.show());
    $('exportBox').addEventListener('toggle', () => this.show());
    $('copy').addEventListener('click', () => { this.write(); this.copy(); });
    $('save').addEventListener('click', () => this.save());
  }

  form() { return this.forms[$('form').value]; }

  // The text is made where it is seen.
  show() { if ($('exportBox').open) { this.write(); this.showCommands(); } }

  write() {
    const it = this.form();
    $('text').value = it.text();
    $('command').textContent = it.what();
  }

  showCommands() {
    const { note, lines, more, moreNote } = this.commands();
    $('commands').replaceChildren(el('p', { class: 'key' }, note), el('pre', { class: 'commands' }, lines.join('\n')),
      ...(more && more.length ? [el('p', { class: 'key' }, moreNote), el('pre', { class: 'commands' }, more.join('\n'))] : []));
  }

  copy() {
    const done = () => tell('Copied.');
    if (navigator.clipboard) navigator.clipboard.writeText($('text').value).then(done, () => this.select());
    else this.select();
  }

  select() { $('text').focus(); $('text').select(); tell('The text is selected; copy it.'); }

  save() {
    const it = this.form(), link = el('a', { href: URL.createObjectURL(new Blob([it.text()])), download: it.file });
    link.click();
    tell(`Saved as ${it.file}.`);
  }
}
