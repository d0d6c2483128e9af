// How it is drawn: solids and strokes in WebGL 2.
const SOLID_VERTEX = `#version 300 es
in vec3 pos; in float storey; in vec3 color; in float who;
uniform mat4 view; uniform float spread;
out vec3 at; out vec3 moved; flat out vec3 tint; flat out float lot;
void main() { at = pos; moved = pos + vec3(0., 0., storey * spread); tint = color; lot = who; gl_Position = view * vec4(moved, 1.); }`;
const SOLID_FRAGMENT = `#version 300 es
precision highp float;
in vec3 at; in vec3 moved; flat in vec3 tint; flat in float lot;
uniform float cut, alpha, hover, picked; uniform vec3 toEye; uniform bool picking;
out vec4 shown;
void main() {
  vec3 across = cross(dFdx(moved), dFdy(moved));
  if (at.z > cut) discard;
  if (picking) { float id = lot + 1.; shown = vec4(mod(id, 256.), mod(floor(id / 256.), 256.), floor(id / 65536.), 255.) / 255.; return; }
  vec3 color = tint;
  if (gl_FrontFacing) {
    vec3 n = normalize(across); if (dot(n, toEye) < 0.) n = -n;
    float light = .66 + .26 * max(n.z, 0.) + .11 * n.x * .7 - .11 * n.y * .7 - .12 * max(-n.z, 0.);
    color *= light;
  } else color *= .78;
  if (lot == picked) color = mix(color, vec3(1., .82, .25), .62);
  else if (lot == hover) color = mix(color, vec3(1.), .42);
  shown = vec4(color, alpha);
}`;
// A stroke is a rectangle along its segment, so wide on the screen, and a little nearer than the surface.
const LINE_VERTEX = `#version 300 es
in vec3 a; in vec3 b; in float storey;
uniform mat4 view; uniform float spread; uniform vec2 size; uniform float width;
out float height;
void main() {
  vec3 up = vec3(0., 0., storey * spread);
  vec4 p = view * vec4(a + up, 1.), q = view * vec4(b + up, 1.);
  vec2 along = (q.xy - p.xy) * size; float far = length(along);
  vec2 n = far > 0. ? vec2(-along.y, along.x) / far : vec2(1., 0.);
  vec2 t = far > 0. ? along / far : vec2(0.);
  bool end = gl_VertexID > 1; float side = gl_VertexID % 2 == 0 ? -1. : 1.;
  vec4 at = end ? q : p;
  at.xy += (n * side + t * (end ? .5 : -.5)) * width / size; at.z -= .0006;
  height = end ? b.z : a.z; gl_Position = at;
}`;
const LINE_FRAGMENT = `#version 300 es
precision highp float;
in float height; uniform float cut; uniform vec4 ink; out vec4 shown;
void main() { if (height > cut) discard; shown = ink; }`;

let gl, solid, line, solids, colors, colorBuffer, triangles, caps, strokes, picks;
// How many triangles are drawn: of lots of the first layer, of others, which shine through it, and of lots that are see-through.
let counts = [0, 0, 0];
// `moved` tells that lots are elsewhere, or others are shown, so that names and what is under the hand are to be found anew.
let due = false, moved = true, settle = 0, isSlow = false;
const MANY = 500;

function program(vertex, fragment) {
  const made = gl.createProgram(), uniforms = {};
  for (const [kind, text] of [[gl.VERTEX_SHADER, vertex], [gl.FRAGMENT_SHADER, fragment]]) {
    const shader = gl.createShader(kind);
    gl.shaderSource(shader, text); gl.compileShader(shader);
    if (!gl.getShaderParameter(shader, gl.COMPILE_STATUS)) throw new Error(gl.getShaderInfoLog(shader));
    gl.attachShader(made, shader);
  }
  gl.linkProgram(made);
  for (let at = 0; at < gl.getProgramParameter(made, gl.ACTIVE_UNIFORMS); at++) {
    const name = gl.getActiveUniform(made, at).name;
    uniforms[name] = gl.getUniformLocation(made, name);
  }
  return { made, uniforms, attribute: name => gl.getAttribLocation(made, name) };
}

function upload(made, content, kind = gl.ARRAY_BUFFER) {
  gl.bindBuffer(kind, made); gl.bufferData(kind, content, gl.DYNAMIC_DRAW);
  return made;
}

// Numbers of a buffer as attributes of a program: each with its size and its offset in bytes.
function attributes(of, made, stride, list, divisor = 0) {
  gl.bindBuffer(gl.ARRAY_BUFFER, made);
  for (const [name, size, offset] of list) {
    const at = of.attribute(name);
    gl.enableVertexAttribArray(at); gl.vertexAttribPointer(at, size, gl.FLOAT, false, stride, offset); gl.vertexAttribDivisor(at, divisor);
  }
}

// Strokes are filled with segments: three numbers for each end, and the storey.
function strokesOf() {
  const array = gl.createVertexArray(), content = gl.createBuffer();
  gl.bindVertexArray(array);
  attributes(line, content, 28, [["a", 3, 0], ["b", 3, 12], ["storey", 1, 24]], 1);
  return { array, count: 0, fill(numbers) { upload(content, new Float32Array(numbers)); this.count = numbers.length / 7; } };
}

// Whether a processor draws alone, for which smooth edges, and of many lots any edges in motion, are too much.
function isSoftware() {
  const probe = document.createElement("canvas").getContext("webgl2"), more = probe && probe.getExtension("WEBGL_debug_renderer_info");
  return Boolean(probe) && /swiftshader|llvmpipe|software|basic render/i.test(probe.getParameter(more ? more.UNMASKED_RENDERER_WEBGL : probe.RENDERER));
}

function startPainting() {
  isSlow = isSoftware();
  gl = $("canvas").getContext("webgl2", { antialias: !isSlow, alpha: true, premultipliedAlpha: false });
  if (!gl) return false;
  solid = program(SOLID_VERTEX, SOLID_FRAGMENT); line = program(LINE_VERTEX, LINE_FRAGMENT);
  const position = new Float32Array(3 * vertices), storeyOf = new Float32Array(vertices), who = new Float32Array(vertices);
  colors = new Float32Array(3 * vertices);
  lots.forEach((lot, at) => {
    const end = lot.first + lot.points.length / 3;
    position.set(lot.points, 3 * lot.first); storeyOf.fill(lot.storey, lot.first, end); who.fill(at, lot.first, end);
  });
  solids = gl.createVertexArray(); colorBuffer = gl.createBuffer(); triangles = gl.createBuffer();
  gl.bindVertexArray(solids);
  for (const [name, content, size] of [["pos", position, 3], ["storey", storeyOf, 1], ["who", who, 1]]) attributes(solid, upload(gl.createBuffer(), content), 0, [[name, size, 0]]);
  attributes(solid, colorBuffer, 0, [["color", 3, 0]]);
  gl.bindBuffer(gl.ELEMENT_ARRAY_BUFFER, triangles);
  // What is cut open gets a cap: place, storey, lot and colour for each corner of a triangle.
  caps = { array: gl.createVertexArray(), content: gl.createBuffer(), count: 0 };
  gl.bindVertexArray(caps.array);
  attributes(solid, caps.content, 32, [["pos", 3, 0], ["storey", 1, 12], ["who", 1, 16], ["color", 3, 20]]);
  strokes = Object.fromEntries(["edges", "faint", "cut", "pick", "hover", "ground"].map(name => [name, strokesOf()]));
  picks = { frame: gl.createFramebuffer(), color: gl.createTexture(), depth: gl.createRenderbuffer(), width: 0, height: 0, pixels: null };
  return true;
}

function edgesOf(lot, into = []) {
  for (let at = 0; at < lot.edges.length; at += 2) {
    for (const end of [lot.edges[at], lot.edges[at + 1]]) into.push(lot.points[3 * end], lot.points[3 * end + 1], lot.points[3 * end + 2]);
    into.push(lot.storey);
  }
  return into;
}

// The edges of a lot as strokes, each with words that are the same for an edge of another lot in its place.
function keyed(lot) {
  if (!lot.keyed) {
    const all = edgesOf(lot), key = edge => [edge.slice(0, 3), edge.slice(3, 6)].map(end => end.map(n => Math.round(1000 * n)).join()).sort().join() + "," + lot.storey;
    lot.keyed = Array.from({ length: all.length / 7 }, (_, at) => all.slice(7 * at, 7 * at + 7)).map(edge => [key(edge), edge]);
  }
  return lot.keyed;
}

// The edges of some lots, each once: where lots stand wall to wall most are edges of several.
function edgesOnce(some) {
  const found = [], known = new Set();
  for (const lot of some) for (const [key, edge] of keyed(lot)) if (!known.has(key)) {
    known.add(key);
    found.push(...edge);
  }
  return found;
}

// Takes what is shown anew.
function rebuild() {
  const order = [[], [], []];
  for (const lot of lots) if (isShown(lot)) order[state.clear[lot.layer] ? 2 : lot.layer ? 1 : 0].push(lot);
  const corners = order.map(list => list.flatMap(lot => lot.triangles.map(at => lot.first + at)));
  counts = corners.map(list => list.length);
  gl.bindVertexArray(solids);
  upload(triangles, new Uint32Array(corners.flat()), gl.ELEMENT_ARRAY_BUFFER);
  strokes.edges.fill(edgesOnce([...order[0], ...order[1]])); strokes.faint.fill(edgesOnce(order[2]));
  recut();
}

// Takes what is cut open anew.
function recut() {
  const drawn = [], filled = [], z = cutHeight();
  lots.forEach((lot, number) => {
    if (!isShown(lot) || lot.low[2] >= z || z >= lot.high[2]) return;
    const segments = segmentsAt(lot, z), color = colors.slice(3 * lot.first, 3 * lot.first + 3);
    for (const [p, q] of segments) drawn.push(...p, z, ...q, z, lot.storey);
    if (!state.clear[lot.layer]) for (const point of capOf(segments)) filled.push(...point, z, lot.storey, number, ...color);
  });
  strokes.cut.fill(drawn);
  upload(caps.content, new Float32Array(filled));
  caps.count = filled.length / 8;
  repaint();
}

function recolour() {
  for (const lot of lots) {
    const color = colourOf(lot);
    for (let vertex = lot.first; vertex < lot.first + lot.points.length / 3; vertex++) colors.set(color, 3 * vertex);
  }
  upload(colorBuffer, colors);
  recut();
}

// A grid on the ground.
function layGround() {
  const across = Math.max(bounds[1][0] - bounds[0][0], bounds[1][1] - bounds[0][1], 1e-3), step = nice(across / 8), drawn = [], z = bounds[0][2] - across * .002;
  const from = [0, 1].map(axis => Math.floor((bounds[0][axis] + data.centre[axis]) / step - .5) * step - data.centre[axis]);
  const to = [0, 1].map(axis => Math.ceil((bounds[1][axis] + data.centre[axis]) / step + .5) * step - data.centre[axis]);
  for (let x = from[0]; x <= to[0] + step / 9; x += step) drawn.push(x, from[1], z, x, to[1], z, 0);
  for (let y = from[1]; y <= to[1] + step / 9; y += step) drawn.push(from[0], y, z, to[0], y, z, 0);
  strokes.ground.fill(drawn);
}

function useSolid(matrix, picking) {
  gl.useProgram(solid.made); gl.bindVertexArray(solids);
  const { uniforms } = solid;
  gl.uniformMatrix4fv(uniforms.view, false, matrix); gl.uniform1f(uniforms.spread, spreadMetres()); gl.uniform1f(uniforms.cut, cutHeight() + cutStep() / 800);
  gl.uniform1f(uniforms.hover, state.hover); gl.uniform1f(uniforms.picked, state.pick); gl.uniform3fv(uniforms.toEye, axes().into.map(n => -n));
  gl.uniform1i(uniforms.picking, picking ? 1 : 0); gl.uniform1f(uniforms.alpha, 1);
}

function solidPass(from, count) {
  if (count) gl.drawElements(gl.TRIANGLES, count, gl.UNSIGNED_INT, 4 * from);
}

function capPass() {
  if (!caps.count) return;
  gl.disable(gl.CULL_FACE); gl.bindVertexArray(caps.array);
  gl.drawArrays(gl.TRIANGLES, 0, caps.count);
  gl.bindVertexArray(solids); gl.enable(gl.CULL_FACE);
}

function stroke(what, width, ink, matrix, cut) {
  if (!what.count) return;
  const { uniforms } = line;
  gl.useProgram(line.made); gl.bindVertexArray(what.array); gl.disable(gl.CULL_FACE);
  gl.uniformMatrix4fv(uniforms.view, false, matrix); gl.uniform1f(uniforms.spread, spreadMetres()); gl.uniform1f(uniforms.cut, cut);
  gl.uniform2f(uniforms.size, $("canvas").width, $("canvas").height); gl.uniform1f(uniforms.width, width * pixelRatio()); gl.uniform4fv(uniforms.ink, ink);
  gl.drawArraysInstanced(gl.TRIANGLE_STRIP, 0, 4, what.count);
  gl.enable(gl.CULL_FACE);
}

// What lies in other layers than the first one: first what of it is hidden, faintly, and then what is in sight.
function throughPass() {
  if (!counts[1]) return;
  gl.depthFunc(gl.GREATER); gl.depthMask(false);
  gl.uniform1f(solid.uniforms.alpha, .5); solidPass(counts[0], counts[1]);
  gl.depthFunc(gl.LEQUAL); gl.depthMask(true);
  gl.uniform1f(solid.uniforms.alpha, 1); solidPass(counts[0], counts[1]);
}

function clearPass(matrix) {
  if (!counts[2]) return;
  gl.depthMask(false);
  useSolid(matrix, false); gl.uniform1f(solid.uniforms.alpha, .3); solidPass(counts[0] + counts[1], counts[2]);
  gl.depthMask(true);
}

function markPass(matrix, cut) {
  const marks = [["hover", state.hover === state.pick ? -1 : state.hover, 1.5, [.05, .25, .45, .8]], ["pick", state.pick, 2, [.75, .36, .02, 1]]];
  gl.disable(gl.DEPTH_TEST);
  for (const [name, at, width, ink] of marks) if (at >= 0 && isShown(lots[at])) stroke(strokes[name], width, ink, matrix, cut);
  gl.enable(gl.DEPTH_TEST);
}

function clearFrame(frame, width, height) {
  gl.bindFramebuffer(gl.FRAMEBUFFER, frame); gl.viewport(0, 0, width, height);
  gl.clearColor(0, 0, 0, 0); gl.clear(gl.COLOR_BUFFER_BIT | gl.DEPTH_BUFFER_BIT);
  gl.enable(gl.DEPTH_TEST); gl.depthFunc(gl.LEQUAL); gl.enable(gl.CULL_FACE);
}

function paint() {
  due = false;
  const canvas = $("canvas"), wide = Math.round(canvas.clientWidth * pixelRatio()), tall = Math.round(canvas.clientHeight * pixelRatio());
  if (canvas.width !== wide || canvas.height !== tall) { canvas.width = wide; canvas.height = tall; }
  const matrix = projection(), cut = cutHeight() + cutStep() / 800;
  clearFrame(null, wide, tall);
  gl.enable(gl.BLEND); gl.blendFuncSeparate(gl.SRC_ALPHA, gl.ONE_MINUS_SRC_ALPHA, gl.ONE, gl.ONE_MINUS_SRC_ALPHA);
  if (state.pitch > 2) stroke(strokes.ground, 1, [.55, .63, .7, .38], matrix, 1e9);
  gl.enable(gl.POLYGON_OFFSET_FILL); gl.polygonOffset(1, 1);
  useSolid(matrix, false); solidPass(0, counts[0]); throughPass();
  gl.disable(gl.POLYGON_OFFSET_FILL);
  // A cap lies so near to a floor below it that this one has to stand back.
  capPass();
  // Where lots are small on the screen their edges would hide them.
  const dense = Math.min(1, Math.max(.12, 22 * state.zoom * diagonal() / Math.sqrt(Math.max(1, lots.length)) / 300));
  if (!(isSlow && moved && lots.length > MANY)) stroke(strokes.edges, 1.25, [.1, .15, .2, .9 * dense], matrix, cut);
  stroke(strokes.cut, 2, [.05, .08, .11, 1], matrix, 1e9);
  clearPass(matrix); stroke(strokes.faint, 1, [.1, .15, .2, .45 * dense], matrix, cut);
  markPass(matrix, cut);
  if (!moved) return;
  moved = false;
  furnish();
  clearTimeout(settle); picks.pixels = null;
  settle = setTimeout(settled, 60);
}

// Asks for the next frame; where nothing has moved only marks are drawn anew.
function repaint(stays = false) {
  if (!stays) { moved = true; document.body.dataset.ready = "no"; }
  if (!due) { due = true; requestAnimationFrame(paint); }
}

function sizePicks(width, height) {
  if (picks.width === width && picks.height === height) return;
  Object.assign(picks, { width, height });
  gl.bindFramebuffer(gl.FRAMEBUFFER, picks.frame);
  gl.bindTexture(gl.TEXTURE_2D, picks.color); gl.texImage2D(gl.TEXTURE_2D, 0, gl.RGBA8, width, height, 0, gl.RGBA, gl.UNSIGNED_BYTE, null);
  gl.bindRenderbuffer(gl.RENDERBUFFER, picks.depth); gl.renderbufferStorage(gl.RENDERBUFFER, gl.DEPTH_COMPONENT24, width, height);
  gl.framebufferTexture2D(gl.FRAMEBUFFER, gl.COLOR_ATTACHMENT0, gl.TEXTURE_2D, picks.color, 0);
  gl.framebufferRenderbuffer(gl.FRAMEBUFFER, gl.DEPTH_ATTACHMENT, gl.RENDERBUFFER, picks.depth);
}

// Draws each lot in the colour of its number, to know which one is under the hand: when the picture has come to rest.
function settled() {
  const width = $("canvas").clientWidth, height = $("canvas").clientHeight;
  if (!width || !height || due) return;
  sizePicks(width, height);
  clearFrame(picks.frame, width, height); gl.disable(gl.BLEND);
  useSolid(projection(), true);
  // What is see-through is under the hand only where nothing else is.
  solidPass(counts[0] + counts[1], counts[2]); gl.clear(gl.DEPTH_BUFFER_BIT);
  gl.enable(gl.POLYGON_OFFSET_FILL); solidPass(0, counts[0] + counts[1]); gl.disable(gl.POLYGON_OFFSET_FILL);
  capPass();
  picks.pixels = new Uint8Array(4 * width * height);
  gl.readPixels(0, 0, width, height, gl.RGBA, gl.UNSIGNED_BYTE, picks.pixels);
  gl.bindFramebuffer(gl.FRAMEBUFFER, null);
  placeLabels(); keep(); repaint(true);
  document.body.dataset.ready = "yes";
}

// The number of the lot that is seen at a place of the screen, or -1.
function lotAt(x, y) {
  if (!picks.pixels || x < 0 || y < 0 || x >= picks.width || y >= picks.height) return -1;
  const at = 4 * ((picks.height - 1 - Math.floor(y)) * picks.width + Math.floor(x)), [r, g, b] = picks.pixels.subarray(at, at + 3);
  return r + 256 * g + 65536 * b - 1;
}
