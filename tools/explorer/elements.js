// Making elements of the page and of pictures.
const $ = id => document.getElementById(id);
const SVG = 'http://www.w3.org/2000/svg';

function filled(it, values, inside) {
  for (const [name, value] of Object.entries(values || {})) {
    if (name === 'on') it.addEventListener('click', value);
    else if (value !== null && value !== undefined && value !== false) it.setAttribute(name, value);
  }
  it.append(...inside);
  return it;
}

const el = (name, values, ...inside) => filled(document.createElement(name), values, inside);

const svg = (name, values, ...inside) => filled(document.createElementNS(SVG, name), values, inside);

// A picture of a size in pixels, which grows with the type.
function picture(width, height, label, inside) {
  const pad = 6, w = Math.ceil(width + 2 * pad), h = Math.ceil(height + 2 * pad);
  const root = svg('svg', { xmlns: SVG, width: w, height: h, viewBox: `${-pad} ${-pad} ${w} ${h}`, role: 'group',
    'aria-label': label }, ...inside);
  root.style.width = `${w / 15}rem`;
  root.style.height = `${h / 15}rem`;
  return root;
}

// The end of a line that shows its way; `id` is one of the page.
function arrow(id) {
  return svg('marker', { id, viewBox: '0 0 10 10', refX: 9, refY: 5, markerWidth: 10, markerHeight: 10,
    markerUnits: 'userSpaceOnUse', orient: 'auto-start-reverse' },
    svg('path', { d: 'M0,0 L10,5 L0,10 z', class: `head ${id}` }));
}

// How wide a text of the page's type is, in pixels.
const textWidth = (() => {
  const context = document.createElement('canvas').getContext('2d');
  return (text, size) => {
    context.font = `${size}px system-ui, "Segoe UI", Helvetica, Arial, sans-serif`;
    return context.measureText(text).width;
  };
})();

// Scrolls a box, and not the page, to an element that isn't seen in it.
function see(box, it) {
  const out = box.getBoundingClientRect(), own = it.getBoundingClientRect();
  if (own.left < out.left || own.right > out.right) box.scrollLeft += own.left - out.left - out.width / 2;
  if (own.top < out.top || own.bottom > out.bottom) box.scrollTop += own.top - out.top - out.height / 2;
}

// The one line that tells what happened.
function tell(text) { $('told').textContent = text; }

// Of several elements one is in the way of TAB, and arrows go from it to the others.
function roving(elements) {
  elements.forEach((it, i) => {
    it.setAttribute('tabindex', i ? -1 : 0);
    it.addEventListener('focus', () => elements.forEach(other => other.setAttribute('tabindex', other === it ? 0 : -1)));
    it.addEventListener('keydown', event => {
      const step = { ArrowRight: 1, ArrowLeft: -1 }[event.key];
      if (step) { event.preventDefault(); elements[(i + step + elements.length) % elements.length].focus(); }
      if (event.key !== 'Enter' && event.key !== ' ') return;
      event.preventDefault();
      it.dispatchEvent(new MouseEvent('click', { bubbles: true }));
    });
  });
}

// A button that is on or off.
function toggle(id, change) {
  const it = $(id);
  it.addEventListener('click', () => {
    const on = it.getAttribute('aria-pressed') !== 'true';
    it.setAttribute('aria-pressed', on);
    change(on);
  });
}

// Calls what fills a part of the page when it is first opened.
function whenOpened(id, fill) {
  const it = $(id);
  let done = false;
  const now = () => { if (it.open && !done) { done = true; fill(); } };
  it.addEventListener('toggle', now);
  now();
}

const numbers = list => list.map(i => i + 1).join(', ');

const sign = n => (n > 0 ? '+' : n < 0 ? '−' : '') + Math.abs(n);

const plural = (n, word, words) => `${n} ${n === 1 ? word : words || `${word}s`}`;
