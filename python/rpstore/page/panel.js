// What stands round the picture: scale, the numbers of a lot, the switches. names.js has the names in it.

// What goes with each movement.
function furnish() {
  const length = nice(90 / state.zoom), shown = length >= 1 ? length + " m" : length >= .01 ? Math.round(length * 100) + " cm" : +(length * 1000).toPrecision(2) + " mm";
  $("scale").firstElementChild.textContent = shown; $("scale").lastElementChild.style.width = length * state.zoom + "px";
  $("needle").setAttribute("transform", `rotate(${-state.yaw})`);
  $("north").style.opacity = state.pitch < 5 ? .15 : 1;
  clearLabels();
  $("cutValue").textContent = state.cut >= 1 ? "none" : (cutHeight() + data.centre[2]).toFixed(2) + " m";
  $("spreadValue").textContent = state.spread ? spreadMetres().toFixed(1) + " m" : "none";
}

function element(name, text, kind) {
  const made = document.createElement(name);
  made.textContent = text; if (kind) made.className = kind;
  return made;
}

// A row of a table: its name, and cells that are a text, or words that go over all columns.
function row(name, cells) {
  const made = element("tr", "");
  made.append(element("th", name), ...(typeof cells === "string" ? [Object.assign(element("td", cells, "words"), { colSpan: 3 })] : cells.map(text => element("td", text))));
  return made;
}

function numbers(lot, whole) {
  const made = element("div", ""), table = element("table", "");
  made.append(element("div", lot.name, "lot"), table);
  table.append(row("", ["from", "to", "m"]));
  ["east", "north", "height"].forEach((name, axis) => table.append(row(name, [lot.box[axis], lot.box[axis + 3], lot.size[axis]])));
  table.append(row("area in plan", ["", "", lot.area + " m²"]), row("volume", ["", "", lot.volume + " m³"]));
  if (!whole) return made;
  if (lot.is_lot) table.append(row("layer", data.layers[lot.layer]), row("came in line", lot.line + (lot.origins.length ? ", from " + lot.origins.join(", ") : "")));
  else table.append(row("shown", "in line " + lot.line));
  if (lot.ended) table.append(row("ended in line", String(lot.ended)));
  table.append(row("parts", String(lot.parts)));
  if (lot.map) ["east", "north"].forEach((name, axis) => table.append(row("map " + name, [lot.map[axis], lot.map[axis + 2]])));
  return made;
}

// Keeps the numbers of a lot in sight, or of none.
function pick(at) {
  state.pick = at;
  $("card").style.display = at < 0 ? "none" : "block";
  if (at >= 0) {
    $("card").lastElementChild.replaceChildren(numbers(lots[at], true));
    strokes.pick.fill(edgesOf(lots[at]));
  }
  repaint(true); keep();
}

const switches = { layers: [], storeys: [] };

// A switch for the lots that `has` says are in it, with buttons after it.
function addSwitch(kind, at, name, has, ...buttons) {
  const made = element("label", "", "row"), box = element("input", ""), count = element("span", "", "count");
  made.title = name; box.type = "checkbox";
  box.onchange = () => { state[kind][at] = box.checked; rebuild(); };
  made.append(box, element("span", name, "name"), count, ...buttons);
  switches[kind].push({ box, count, has, button: buttons[0] });
  return made;
}

// A button that leaves the switch in whose row it is as it was.
function rowButton(text, title, act) {
  const made = element("button", text);
  made.title = title;
  made.onclick = event => { event.preventDefault(); act(); };
  return made;
}

function showSwitches() {
  for (const kind of ["layers", "storeys"]) switches[kind].forEach(({ box }, at) => { box.checked = state[kind][at]; });
  switches.layers.forEach(({ button }, at) => button.setAttribute("aria-pressed", state.clear[at]));
}

// Counts the lots that are live after the line at which the view is.
function showCounts() {
  const live = lots.filter(isLive);
  for (const kind of ["layers", "storeys"]) for (const { count, has } of switches[kind]) count.textContent = live.filter(has).length;
  $("liveCount").textContent = `${live.length} of ${lots.length} live`;
}

function setStoreys(on) {
  state.storeys = state.storeys.map((_, at) => on(at));
  showSwitches(); rebuild();
}

function addSwitches() {
  data.layers.forEach((name, at) => {
    const has = lot => lot.layer === at;
    const clear = rowButton("see-through", "let this layer shine through", () => { state.clear[at] = !state.clear[at]; showSwitches(); rebuild(); });
    const near = rowButton("fit", "look at this layer", () => { state.layers[at] = true; showSwitches(); rebuild(); fit(has); });
    $("layers").append(addSwitch("layers", at, name, has, clear, near));
  });
  data.storeys.forEach((name, at) => {
    const only = rowButton("only", "show this storey alone", () => setStoreys(other => other === at));
    $("storeys").prepend(addSwitch("storeys", at, name, lot => lot.storey === at, only));
  });
  $("all").onclick = () => setStoreys(() => true);
  $("none").onclick = () => setStoreys(() => false);
}

// The place of the last line of a moment that is not after `line`, or 0.
const momentAt = line => data.moments.reduce((found, [number], at) => number <= line ? at : found, 0);

function showTime() {
  showCounts();
  if (!data.moments.length) return;
  const at = momentAt(state.line), [line, day] = data.moments[at];
  $("time").value = at; $("timeValue").textContent = line + (day ? ", " + day : "");
}

// Goes to the register as it was after a line that changed it, by its place.
function goToMoment(at) {
  state.line = data.moments[Math.max(0, Math.min(data.moments.length - 1, at))][0];
  if (state.pick >= 0 && !isLive(lots[state.pick])) pick(-1);
  showTime(); rebuild(); keep();
}

function startTime() {
  if (!data.moments.length) return;
  $("times").hidden = false; $("time").max = data.moments.length - 1;
  $("time").oninput = () => goToMoment(+$("time").value);
  $("earlier").onclick = () => goToMoment(momentAt(state.line) - 1);
  $("later").onclick = () => goToMoment(momentAt(state.line) + 1);
}

// Goes to a lot by its name, and to the line at which it came if it is not live.
function find(name) {
  const at = lots.findIndex(lot => lot.name === name), lot = lots[at];
  if (!lot) return;
  state.layers[lot.layer] = state.storeys[lot.storey] = true;
  if (!isLive(lot)) { state.line = lot.line; showTime(); }
  state.target = lifted(AXES.map(axis => (lot.low[axis] + lot.high[axis]) / 2), lot);
  showSwitches(); rebuild(); pick(at);
}

const VIEWS = { corner: [32, 34], above: [0, 90], south: [0, 0], west: [90, 0] };

function startPanel() {
  $("about").textContent = data.about;
  $("names").append(...lots.map(lot => Object.assign(element("option", ""), { value: lot.name })));
  addSwitches(); startTime();
  $("find").oninput = () => find($("find").value);
  document.querySelectorAll("[data-view]").forEach(button => { button.onclick = () => { [state.yaw, state.pitch] = VIEWS[button.dataset.view]; fit(); }; });
  $("fit").onclick = () => fit();
  $("near").onclick = () => fit((_, at) => at === state.pick);
  $("spread").oninput = () => { state.spread = +$("spread").value; repaint(); };
  $("cut").oninput = () => { state.cut = $("cut").value / 1000; recut(); };
  $("colour").onchange = () => { state.colour = $("colour").value; recolour(); };
  $("named").onchange = () => { state.labels = $("named").checked; repaint(); };
  $("close").onclick = () => pick(-1);
  $("menu").onclick = () => { $("menu").setAttribute("aria-expanded", document.body.classList.toggle("open")); };
}
