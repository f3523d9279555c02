// A trace is what is done to lists step by step: the lists of rows, and steps, each with a text, the entry that is looked at (`row`
// and `other`), the entries that are struck, and `holds`: [other, the rows that it holds from then on].

// What is struck and who is held after so many steps: sets of `row other`.
function stateAfter(trace, count) {
  const struck = new Set(), holds = new Map();
  for (const step of trace.steps.slice(0, count)) {
    for (const [row, other] of step.strikes) struck.add(`${row} ${other}`);
    if (step.holds) holds.set(step.holds[0], step.holds[1]);
  }
  const held = new Set();
  holds.forEach((rows, other) => rows.forEach(row => { if (!struck.has(`${row} ${other}`)) held.add(`${row} ${other}`); }));
  return { struck, held };
}
