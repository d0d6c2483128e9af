// From where it is looked at: without perspective, so that parallel walls stay parallel.
function axes() {
  const yaw = state.yaw * Math.PI / 180, pitch = state.pitch * Math.PI / 180, c = Math.cos(pitch), s = Math.sin(pitch);
  return { right: [Math.cos(yaw), -Math.sin(yaw), 0], up: [Math.sin(yaw) * s, Math.cos(yaw) * s, c], into: [Math.sin(yaw) * c, Math.cos(yaw) * c, -s] };
}

const pixelRatio = () => Math.min(3, Math.max(1, window.devicePixelRatio || 1));
const diagonal = () => Math.hypot(...AXES.map(axis => bounds[1][axis] - bounds[0][axis]));
// From the middle to what is nearest, at most.
const depth = () => 1.1 * (diagonal() + spreadMetres() * data.storeys.length) + 1e-6;

function projection() {
  const { right, up, into } = axes(), { width, height } = $("canvas"), scale = 2 * state.zoom * pixelRatio();
  const rows = [right.map(n => n * scale / width), up.map(n => n * scale / height), into.map(n => n / depth())], matrix = new Float32Array(16);
  rows.forEach((row, r) => {
    AXES.forEach(axis => { matrix[4 * axis + r] = row[axis]; });
    matrix[12 + r] = r < 2 ? -dot(row, state.target) : 0;
  });
  matrix[15] = 1;
  return matrix;
}

// Where a point is on the screen.
function screen(point) {
  const { right, up } = axes(), away = point.map((n, axis) => n - state.target[axis]), { clientWidth, clientHeight } = $("canvas");
  return [clientWidth / 2 + dot(right, away) * state.zoom, clientHeight / 2 - dot(up, away) * state.zoom];
}

// Looks at those of the shown lots that `has` takes, or at all that is shown if it takes none.
function fit(has = () => true) {
  const { right, up } = axes(), ends = [[Infinity, -Infinity], [Infinity, -Infinity]], z = cutHeight();
  const shown = lots.filter(lot => isShown(lot) && lot.low[2] < z), some = shown.filter(has);
  for (const lot of some.length ? some : shown) for (let at = 0; at < 8; at++) {
    const corner = lifted(AXES.map(axis => at >> axis & 1 ? lot.high[axis] : lot.low[axis]), lot);
    [right, up].forEach((axis, k) => { const n = dot(axis, corner); ends[k] = [Math.min(ends[k][0], n), Math.max(ends[k][1], n)]; });
  }
  if (ends[0][0] > ends[0][1]) return;
  const spans = ends.map(([a, b]) => Math.max(b - a, 1e-6)), middle = ends.map(([a, b]) => (a + b) / 2);
  state.zoom = Math.max(1e-6, Math.min(($("canvas").clientWidth - 90) / spans[0], ($("canvas").clientHeight - 110) / spans[1]));
  state.target = AXES.map(axis => right[axis] * middle[0] + up[axis] * middle[1]);
  repaint();
}
