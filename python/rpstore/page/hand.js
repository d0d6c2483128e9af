// The hand on the picture, the address of the view, and the start.
let held = null, pinch = 0;
const pointers = new Map();

function placeOf(event) {
  const box = $("canvas").getBoundingClientRect();
  return [event.clientX - box.left, event.clientY - box.top];
}

function down(event) {
  $("canvas").setPointerCapture(event.pointerId); pointers.set(event.pointerId, [event.clientX, event.clientY]);
  held = { x: event.clientX, y: event.clientY, moves: event.button === 2 || event.shiftKey, far: 0 };
  $("canvas").style.cursor = "grabbing"; $("tip").style.display = "none";
}

function drag(event) {
  const dx = event.clientX - held.x, dy = event.clientY - held.y;
  pointers.set(event.pointerId, [event.clientX, event.clientY]);
  if (pointers.size === 2) {
    const [p, q] = [...pointers.values()], far = Math.hypot(p[0] - q[0], p[1] - q[1]);
    if (pinch) state.zoom *= far / pinch;
    pinch = far;
  } else if (held.moves) {
    const { right, up } = axes();
    state.target = state.target.map((n, axis) => n - (right[axis] * dx - up[axis] * dy) / state.zoom);
  } else {
    state.yaw = (state.yaw + dx * .35 + 540) % 360 - 180; state.pitch = Math.max(-89, Math.min(90, state.pitch + dy * .35));
  }
  held.far += Math.abs(dx) + Math.abs(dy); held.x = event.clientX; held.y = event.clientY;
  repaint();
}

function hover(x, y) {
  const at = lotAt(x, y), tip = $("tip");
  if (at !== state.hover) {
    state.hover = at;
    if (at >= 0) { tip.replaceChildren(numbers(lots[at], false)); strokes.hover.fill(edgesOf(lots[at])); }
    repaint(true);
  }
  tip.style.display = at < 0 ? "none" : "block";
  tip.style.left = Math.max(4, Math.min(x + 18, $("canvas").clientWidth - tip.offsetWidth - 8)) + "px";
  tip.style.top = Math.max(4, Math.min(y + 18, $("canvas").clientHeight - tip.offsetHeight - 8)) + "px";
  $("canvas").style.cursor = at < 0 ? "grab" : "pointer";
}

function up(event) {
  pointers.delete(event.pointerId); pinch = 0; $("canvas").style.cursor = "grab";
  if (held && held.far < 5 && event.type === "pointerup") pick(lotAt(...placeOf(event)));
  if (!pointers.size) held = null;
}

function leave() {
  $("tip").style.display = "none";
  if (state.hover >= 0) { state.hover = -1; repaint(true); }
}

// What is under the hand stays there.
function zoom(event) {
  event.preventDefault();
  const [left, top] = placeOf(event), x = left - $("canvas").clientWidth / 2, y = $("canvas").clientHeight / 2 - top, { right, up } = axes();
  const grow = Math.exp(-event.deltaY * .0014), way = (1 - 1 / grow) / state.zoom;
  state.target = state.target.map((n, axis) => n + (right[axis] * x + up[axis] * y) * way);
  state.zoom *= grow; repaint();
}

function startHand() {
  const canvas = $("canvas");
  canvas.oncontextmenu = event => event.preventDefault();
  canvas.onpointerdown = down;
  canvas.onpointermove = event => held ? drag(event) : picks.pixels && hover(...placeOf(event));
  canvas.onpointerup = canvas.onpointercancel = up;
  canvas.onpointerleave = leave;
  canvas.addEventListener("wheel", zoom, { passive: false });
  window.addEventListener("keydown", event => { if (event.key === "Escape") pick(-1); });
  window.addEventListener("resize", () => repaint());
}

const placesOf = list => list.map((on, at) => on ? at : -1).filter(at => at >= 0).join(".");

// Keeps the view in the address of the page.
function keep() {
  const told = new URLSearchParams({ yaw: state.yaw.toFixed(1), pitch: state.pitch.toFixed(1), zoom: state.zoom.toPrecision(5), at: state.target.map(n => n.toFixed(3)).join("_"), spread: state.spread, cut: state.cut, colour: state.colour, names: +state.labels });
  for (const kind of ["storeys", "layers"]) if (state[kind].includes(false)) told.set(kind, placesOf(state[kind]));
  if (momentAt(state.line) < data.moments.length - 1) told.set("line", state.line);
  if (state.clear.includes(true)) told.set("clear", placesOf(state.clear));
  if (state.pick >= 0) told.set("lot", lots[state.pick].name);
  try { history.replaceState(null, "", "#" + told); } catch (error) { /* a page without an address is shown as well */ }
}

// Takes the view from the address of the page, and shows it.
function takeView() {
  const asked = new URLSearchParams(location.hash.slice(1));
  for (const [name, least, most] of [["yaw", -360, 360], ["pitch", -89, 90], ["spread", 0, 100], ["cut", 0, 1]]) {
    const told = Number(asked.get(name));
    if (asked.has(name) && isFinite(told)) state[name] = Math.max(least, Math.min(most, told));
  }
  if (data.moments.length && Number(asked.get("line")) > 0) state.line = data.moments[momentAt(Number(asked.get("line")))][0];
  if (["lot", "storey", "layer"].includes(asked.get("colour"))) state.colour = asked.get("colour");
  if (asked.has("names")) state.labels = asked.get("names") === "1";
  for (const kind of ["storeys", "layers", "clear"]) if (asked.has(kind)) {
    const on = asked.get(kind).split(".").filter(Boolean).map(Number);
    state[kind] = state[kind].map((_, at) => on.includes(at));
  }
  showSwitches(); showTime();
  $("spread").value = state.spread; $("cut").value = 1000 * state.cut; $("colour").value = state.colour; $("named").checked = state.labels;
  rebuild(); recolour(); layGround();
  fit(lot => !far[lot.layer]);
  const at = (asked.get("at") || "").split("_").map(Number), near = Number(asked.get("zoom"));
  if (near > 0 && at.length === 3 && at.every(isFinite)) { state.zoom = near; state.target = at; repaint(); }
  const wanted = lots.findIndex(lot => lot.name === asked.get("lot"));
  if (wanted >= 0) pick(wanted);
}

function start(given) {
  takeScene(given);
  if (!startPainting()) { $("lost").style.display = "grid"; return; }
  startPanel(); startHand(); takeView();
}

unpacked().then(start).catch(error => { $("lost").style.display = "grid"; $("lost").textContent = "The page cannot be shown: " + error.message; });
