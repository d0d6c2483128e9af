// The names in the picture: each on its lot, or led out of a lot that is too small for it.
// So many names there are at most. If more than MOST_LED lots in sight are too small for their names, none is led out of its lot.
const MOST_LABELS = 200, MOST_LED = 24;
// How far from its lot a name may be led, in pixels, and in which directions it is tried: rising to the right first.
const REACHES = [26, 40, 60, 85], TURNS = [-45, -135, 45, 135, -90, 90, 0, 180].map(turn => turn * Math.PI / 180);
const LETTER = 3.6, HIGH = 8;

function clearLabels() {
  $("labels").replaceChildren(); $("leads").replaceChildren();
}

// Where on its lot a name is tried, in half widths and half heights of the name from the middle of the lot.
const SHIFTS = [0, 2, -2, 4, -4].flatMap(down => [0, .5, -.5, 1, -1].map(right => [right, down]));

// The shown lots that are seen at their middle, each with half of its name's width, and with the place of the name: on the lot if it `fits`
// there, else the middle.
function namesInSight() {
  const found = [];
  lots.forEach((lot, at) => {
    if (!isShown(lot) || lot.low[2] >= cutHeight()) return;
    const [x, y] = screen(lifted([lot.middle[0], lot.middle[1], Math.min(lot.middle[2], cutHeight())], lot)), wide = lot.name.length * LETTER + 3;
    if (state.clear[lot.layer]) found.push({ lot, x, y, wide, fits: true });
    if (state.clear[lot.layer] || lotAt(x, y) !== at) return;
    const spot = SHIFTS.map(([right, down]) => [x + right * wide, y + down * HIGH]).find(([x, y]) => [-.9, 0, .9].every(part => lotAt(x + part * wide, y) === at));
    found.push({ lot, x: spot ? spot[0] : x, y: spot ? spot[1] : y, wide, fits: Boolean(spot) });
  });
  return found;
}

const overlap = (one, other) => Math.abs(one.x - other.x) < one.wide + other.wide && Math.abs(one.y - other.y) < 2 * HIGH;

// Whether the line from a place to another comes near a name: looked at in steps of a few pixels.
function passes(from, to, name) {
  const steps = Math.ceil(Math.hypot(to.x - from.x, to.y - from.y) / 4);
  for (let at = 0; at <= steps; at++) {
    const x = from.x + (to.x - from.x) * at / steps, y = from.y + (to.y - from.y) * at / steps;
    if (Math.abs(x - name.x) < name.wide + 2 && Math.abs(y - name.y) < HIGH + 2) return true;
  }
  return false;
}

// A place to which a name is led: in the picture, over no other name and over no lot that is too small for its own, with no line that
// crosses a name; the nearest one, and there one beside all lots before one over a lot.
function ledPlace(name, taken, small) {
  const { clientWidth, clientHeight } = $("canvas"), free = [];
  for (const reach of REACHES) for (const turn of TURNS) {
    const end = { x: name.x + Math.cos(turn) * reach, y: name.y + Math.sin(turn) * reach }, side = Math.sign(Math.round(Math.cos(turn)));
    const place = { x: end.x + side * name.wide, y: end.y, wide: name.wide + 5, end, side };
    if (place.x < place.wide || place.x > clientWidth - place.wide || place.y < HIGH || place.y > clientHeight - HIGH) continue;
    if (taken.some(other => overlap(place, other) || passes(name, end, other))) continue;
    if (small.some(other => Math.abs(other.x - place.x) < place.wide + 3 && Math.abs(other.y - place.y) < HIGH + 3)) continue;
    free.push({ ...place, cost: reach + ([-1, 0, 1].some(part => lotAt(place.x + part * place.wide, place.y) >= 0) ? 25 : 0) });
  }
  return free.sort((one, other) => one.cost - other.cost)[0];
}

// Puts a name round a place, or with `side` to the right of it (1) or to the left (-1).
function putName(name, { x, y }, kind, side = 0) {
  const made = element("span", name.lot.name, kind);
  made.style.left = x + "px"; made.style.top = y + "px"; made.style.transform = `translate(${50 * (side - 1)}%, -50%)`;
  $("labels").append(made);
}

function drawLead(from, to) {
  const leads = $("leads");
  for (const [kind, attributes] of [["line", { x1: from.x, y1: from.y, x2: to.x, y2: to.y }], ["circle", { cx: from.x, cy: from.y, r: 2 }]]) {
    const made = document.createElementNS(leads.namespaceURI, kind);
    Object.entries(attributes).forEach(([name, value]) => made.setAttribute(name, value));
    leads.append(made);
  }
}

// Puts names on their lots, and then leads out those that do not fit. A name that would overlap another one is left out.
function placeLabels() {
  clearLabels();
  if (!state.labels) return;
  const names = namesInSight(), small = names.filter(name => !name.fits), taken = [];
  for (const name of names) if (name.fits && taken.length < MOST_LABELS && !taken.some(other => overlap(name, other))) {
    taken.push(name);
    putName(name, name);
  }
  if (small.length > MOST_LED) return;
  for (const name of small) {
    const place = ledPlace(name, taken, small);
    if (!place) continue;
    taken.push(place);
    putName(name, place.end, "led", place.side);
    drawLead(name, place.end);
  }
}
