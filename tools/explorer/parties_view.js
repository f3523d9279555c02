// Parties as circles: each member points to its successor. An odd party of three or more is red, its circle thick, and it is told.
class PartiesView {
  constructor(model) { this.model = model; }

  // The parties of a stable partition, or the couples and single persons of a matching.
  show(parties) {
    const some = parties.slice(0, 80);
    $('parties').replaceChildren(...some.map(party => this.circle(party)),
      ...(parties.length > 80 ? [el('p', {}, `and ${parties.length - 80} more`)] : []));
  }

  circle(party) {
    const { model } = this, n = party.length, isOdd = model.isOdd(party), names = party.map(p => model.pShown[p]);
    const wide = Math.max(...names.map(name => textWidth(name, 12.5))) + 16;
    const radius = n < 3 ? wide / 2 + 10 : Math.max(44, (Math.max(wide, 40) * n) / (2 * Math.PI) + 6);
    const at = party.map((_, i) => n === 1 ? [0, 0] : n === 2 ? [i ? radius : -radius, 0]
      : [radius * Math.sin(2 * Math.PI * i / n) * 1.15, -radius * Math.cos(2 * Math.PI * i / n)]);
    const left = Math.min(...at.map(it => it[0])) - wide / 2, top = Math.min(...at.map(it => it[1])) - 14;
    const shifted = at.map(([x, y]) => [Math.round(x - left), Math.round(y - top)]);
    const width = Math.max(...shifted.map(it => it[0])) + wide / 2, height = Math.max(...shifted.map(it => it[1])) + 14;
    const lines = n === 1 ? [] : party.map((_, i) => [shifted[i], shifted[(i + 1) % n]]).slice(0, n === 2 ? 1 : n).map(([a, b]) =>
      this.line(a, b, wide, isOdd, n > 2));
    const nodes = shifted.map(([x, y], i) => svg('g', { class: `person${isOdd ? ' odd' : ''}`, transform: `translate(${x},${y})` },
      svg('rect', { x: -wide / 2, y: -12, width: wide, height: 24, rx: 12 }),
        svg('text', { 'text-anchor': 'middle', y: 4 }, names[i])));
    const told = n === 1 ? 'alone' : n === 2 ? 'a couple' : isOdd ? `an odd party of ${n}: no stable matching` : `a party of ${n}`;
    const line = n > 2 ? `${told}: ${names.join(' → ')} → ${names[0]}` : `${names.join(' and ')}: ${told}`;
    return el('figure', { class: isOdd ? 'odd' : null }, el('figcaption', {}, told),
      picture(width, height, line, [svg('defs', {}, arrow(isOdd ? 'route' : 'step')), ...lines, ...nodes]));
  }

  // A line that ends at the boxes of the names.
  line([x1, y1], [x2, y2], wide, isOdd, points) {
    const dx = x2 - x1, dy = y2 - y1, cut = Math.min(dx ? (wide / 2) / Math.abs(dx) : Infinity, dy ? 12 / Math.abs(dy) : Infinity,
      0.45);
    return svg('path', { class: `edge${isOdd ? ' route' : ''}`,
      d: `M${x1 + dx * cut},${y1 + dy * cut} L${x2 - dx * cut},${y2 - dy * cut}`,
      'marker-end': points ? `url(#${isOdd ? 'route' : 'step'})` : null });
  }
}
