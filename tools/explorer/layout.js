// Where the nodes of a picture in layers stand, and the lines between them.

// The positions next to those wanted that keep their order and at least the gap before each; by pooling neighbours that violate it.
function spread(wanted, gaps, weights) {
  let offset = 0;
  const offsets = wanted.map((_, i) => offset += i ? gaps[i] : 0), pools = [];
  wanted.forEach((it, i) => {
    pools.push({ sum: weights[i] * (it - offsets[i]), weight: weights[i], count: 1 });
    while (pools.length > 1) {
      const last = pools[pools.length - 1], before = pools[pools.length - 2];
      if (before.sum / before.weight <= last.sum / last.weight) break;
      pools.pop();
      before.sum += last.sum; before.weight += last.weight; before.count += last.count;
    }
  });
  const at = [];
  for (const pool of pools) for (let i = 0; i < pool.count; i++) at.push(pool.sum / pool.weight + offsets[at.length]);
  return at;
}

const mean = list => list.reduce((sum, it) => sum + it, 0) / list.length;

// Lays out nodes 0 to n - 1 by their layers; an edge leads to a higher layer. `size(node)` is [width, height]; with `across` layers
// are columns. An edge over several layers goes by nodes without a size, one in each layer between, so that it crosses no other
// node.
// Gives `at`, the middle of each node, `paths`, the points of each edge, and the size of the whole.
function laidOut(layerOf, edges, size, { across = false, gap = 14, between = 34 } = {}) {
  const count = layerOf.length, layers = [], up = [], down = [], chains = [], extent = [];
  const add = (node, layer) => {
    while (layers.length <= layer) layers.push([]);
    layers[layer].push(node);
    up[node] = [];
    down[node] = [];
  };
  const link = (a, b) => { down[a].push(b); up[b].push(a); };
  layerOf.forEach((layer, node) => { add(node, layer); const [w, h] = size(node); extent[node] = across ? [h, w] : [w, h]; });
  let next = count;
  for (const [a, b] of edges) {
    const chain = [a];
    for (let layer = layerOf[a] + 1; layer < layerOf[b]; layer++) { add(next, layer); extent[next] = [4, 0]; chain.push(next++); }
    chain.push(b);
    for (let i = 1; i < chain.length; i++) link(chain[i - 1], chain[i]);
    chains.push(chain);
  }
  // Few crossings: each layer is sorted by the means of its neighbours' places.
  const place = new Map(), sweeps = next > 5000 ? 6 : 24;
  const note = row => row.forEach((node, i) => place.set(node, (i + 0.5) / row.length));
  layers.forEach(note);
  for (let sweep = 0; sweep < sweeps; sweep++) {
    const near = sweep % 2 ? down : up;
    for (const row of sweep % 2 ? layers.slice().reverse() : layers) {
      const wanted = node => near[node].length ? mean(near[node].map(it => place.get(it))) : place.get(node);
      const want = new Map(row.map(node => [node, wanted(node)]));
      row.sort((a, b) => want.get(a) - want.get(b));
      note(row);
    }
  }
  // Straight lines: each layer in turn goes to the means of its neighbours' positions.
  const x = new Map();
  const gapOf = (a, b) => (extent[a][0] + extent[b][0]) / 2 + gap * (a >= count && b >= count ? 0.5 : 1);
  const gaps = row => row.map((node, i) => i ? gapOf(row[i - 1], node) : 0);
  const weights = row => row.map(node => node >= count ? 4 : 1);
  const put = (row, wanted) => spread(wanted, gaps(row), weights(row)).forEach((it, i) => x.set(row[i], it));
  layers.forEach(row => put(row, row.map((_, i) => (i - row.length / 2) * 60)));
  for (let sweep = 0; sweep < sweeps; sweep++) {
    for (const row of sweep % 2 ? layers.slice().reverse() : layers) {
      put(row, row.map(node => {
        const near = [...up[node], ...down[node]];
        return near.length ? mean(near.map(it => x.get(it))) : x.get(node);
      }));
    }
  }
  let left = Infinity, right = -Infinity, top = 0;
  for (const [node, it] of x) {
    left = Math.min(left, it - extent[node][0] / 2);
    right = Math.max(right, it + extent[node][0] / 2);
  }
  const y = new Map();
  layers.forEach(row => {
    const high = Math.max(0, ...row.map(node => extent[node][1]));
    row.forEach(node => y.set(node, top + high / 2));
    top += high + between;
  });
  const end = (chain, i) => i === 0 ? 1 : i === chain.length - 1 ? -1 : 0;
  const width = count ? right - left : 0, height = Math.max(0, top - between);
  const point = (node, shift) => { const it = [x.get(node) - left, y.get(node) + shift]; return across ? it.reverse() : it; };
  return {
    at: layerOf.map((_, node) => point(node, 0)),
    paths: chains.map(chain => chain.map((node, i) => point(node, end(chain, i) * extent[node][1] / 2))),
    width: across ? height : width, height: across ? width : height,
  };
}

// A smooth line by points, in the language of SVG.
function smooth(points, across) {
  return points.map(([x, y], i) => {
    if (!i) return `M${Math.round(x)},${Math.round(y)}`;
    const [x0, y0] = points[i - 1], mx = (x + x0) / 2, my = (y + y0) / 2;
    return across ? `C${Math.round(mx)},${Math.round(y0)} ${Math.round(mx)},${Math.round(y)} ${Math.round(x)},${Math.round(y)}`
      : `C${Math.round(x0)},${Math.round(my)} ${Math.round(x)},${Math.round(my)} ${Math.round(x)},${Math.round(y)}`;
  }).join(' ');
}
