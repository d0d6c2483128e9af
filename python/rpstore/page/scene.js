"use strict";
// What is shown: the lots as view.py wrote them, and the state of the view. Lengths are metres from the middle of all lots.
const $ = name => document.getElementById(name);
const AXES = [0, 1, 2];
let data, lots, bounds, far, vertices = 0;
const state = { yaw: 32, pitch: 34, zoom: 1, target: [0, 0, 0], spread: 0, cut: 1, colour: "lot", labels: true, pick: -1, hover: -1, layers: [], clear: [], storeys: [], line: Infinity };

async function unpacked() {
  const bytes = Uint8Array.from(atob($("data").textContent.trim()), letter => letter.charCodeAt(0));
  const stream = new Blob([bytes]).stream().pipeThrough(new DecompressionStream("gzip"));
  return JSON.parse(await new Response(stream).text());
}

function takeScene(given) {
  data = given; lots = data.lots;
  for (const lot of lots) {
    lot.points = lot.points.map(units => units / 1000); lot.middle = lot.middle.map(units => units / 1000);
    lot.first = vertices; vertices += lot.points.length / 3;
    lot.low = [Infinity, Infinity, Infinity]; lot.high = [-Infinity, -Infinity, -Infinity];
    lot.points.forEach((metres, place) => { const axis = place % 3; lot.low[axis] = Math.min(lot.low[axis], metres); lot.high[axis] = Math.max(lot.high[axis], metres); });
  }
  bounds = [AXES.map(axis => lots.reduce((least, lot) => Math.min(least, lot.low[axis]), Infinity)),
    AXES.map(axis => lots.reduce((most, lot) => Math.max(most, lot.high[axis]), -Infinity))];
  state.labels = lots.length <= 60;
  if (data.moments.length) state.line = data.moments[data.moments.length - 1][0];
  state.layers = data.hidden.map(hidden => !hidden); far = data.layers.map((_, at) => reachesFar(at)); state.clear = [...far]; state.storeys = data.storeys.map(() => true);
}

// Whether a layer reaches much farther than the first one and may hide it, as the circle of a crane. Such a layer is see-through at first,
// and the first view is not of it.
function reachesFar(at) {
  const span = layer => Math.max(...[0, 1].map(axis => lots.reduce(([low, high], lot) => lot.layer === layer ? [Math.min(low, lot.low[axis]), Math.max(high, lot.high[axis])] : [low, high], [Infinity, -Infinity]).reduce((low, high) => high - low)));
  return at > 0 && span(at) > 2 * span(0);
}

// Whether a lot was live after the line at which the view is; on a page without moments, whether it is there at all.
const isLive = lot => !data.moments.length || lot.line <= state.line && !(lot.ended <= state.line);
const isShown = lot => isLive(lot) && state.layers[lot.layer] && state.storeys[lot.storey];
// Heights of a cut are round, and a hair above: a floor at that height is cut open, and what lies below it is not.
const cutStep = () => nice(Math.max(bounds[1][2] - bounds[0][2], 1e-6) / 1000);
function cutHeight() {
  if (state.cut >= 1) return 1e9;
  const height = bounds[0][2] + state.cut * (bounds[1][2] - bounds[0][2]) + data.centre[2];
  return Math.round(height / cutStep()) * cutStep() + cutStep() / 200 - data.centre[2];
}
const spreadMetres = () => state.spread / 100 * 3 * Math.max(1e-9, (bounds[1][2] - bounds[0][2]) / data.storeys.length);
const lifted = (point, lot) => [point[0], point[1], point[2] + lot.storey * spreadMetres()];
const dot = (u, v) => u[0] * v[0] + u[1] * v[1] + u[2] * v[2];
const rgb = hex => [1, 3, 5].map(at => parseInt(hex.slice(at, at + 2), 16) / 255);
const nice = length => { const ten = 10 ** Math.floor(Math.log10(length)); return [1, 2, 5, 10].map(k => k * ten).find(k => k >= length * .999); };

const STOREYS = [[.36, .55, .76], [.55, .75, .66], [.95, .84, .55], [.88, .55, .42]];
function colourOf(lot) {
  if (state.colour !== "storey") return rgb(data.palette[(state.colour === "lot" ? lot.colour : lot.layer) % data.palette.length]);
  const place = (data.storeys.length > 1 ? lot.storey / (data.storeys.length - 1) : .5) * (STOREYS.length - 1);
  return AXES.map(k => STOREYS.reduce((sum, stop, at) => sum + Math.max(0, 1 - Math.abs(place - at)) * stop[k], 0));
}

// Segments of a lot's boundary at a height, each with its end of the lower y first.
function segmentsAt(lot, z) {
  const found = [], corner = at => lot.points.slice(3 * at, 3 * at + 3);
  for (let at = 0; at < lot.triangles.length; at += 3) {
    const corners = AXES.map(k => corner(lot.triangles[at + k])), ends = [];
    corners.forEach((p, k) => {
      const q = corners[(k + 1) % 3];
      if ((p[2] > z) !== (q[2] > z)) { const t = (z - p[2]) / (q[2] - p[2]); ends.push([0, 1].map(axis => Math.round((p[axis] + t * (q[axis] - p[axis])) * 1e6) / 1e6)); }
    });
    if (ends.length === 2) found.push(ends[0][1] < ends[1][1] ? ends : ends.reverse());
  }
  return found;
}

// The triangles of what lies between segments: between two y at which some end, every second gap is inside.
function capOf(segments) {
  const rows = [...new Set(segments.flatMap(ends => ends.map(end => end[1])))].sort((a, b) => a - b), found = [];
  const x = ([p, q], y) => p[0] + (y - p[1]) / (q[1] - p[1]) * (q[0] - p[0]);
  for (let at = 0; at + 1 < rows.length; at++) {
    const [low, high] = [rows[at], rows[at + 1]];
    if (high - low < 1e-6) continue;
    const across = segments.filter(([p, q]) => p[1] <= low && high <= q[1] && p[1] < q[1]).map(ends => [x(ends, low), x(ends, high)]).sort((a, b) => a[0] + a[1] - b[0] - b[1]);
    for (let k = 0; k + 1 < across.length; k += 2) {
      const [[a, d], [b, c]] = [across[k], across[k + 1]];
      found.push([a, low], [b, low], [c, high], [a, low], [c, high], [d, high]);
    }
  }
  return found;
}
