// The map: where points of the plane are on the page, and how parcels are drawn.
"use strict";

const canvas = by("canvas");
/** What the map shows: its centre in millimetres, and how many of them a pixel has. */
const view = { x: 0, y: 0, scale: 100 };
// The outlines of parcels with fewer pixels fade.
const SMALL = 3;
// A square of the density has so many pixels a side.
const SQUARE = 12;

function size() {
  const box = canvas.getBoundingClientRect();
  return { width: box.width, height: box.height };
}

/** Where points of the plane are on a surface of this size, whose middle is the view's. */
function placing({ width, height } = size(), at = view) {
  return ([x, y]) => [(x - at.x) / at.scale + width / 2, height / 2 - (y - at.y) / at.scale];
}

function toScreen(point) {
  return placing()(point);
}

function toPlane(left, top) {
  const { width, height } = size();
  return [view.x + (left - width / 2) * view.scale, view.y + (height / 2 - top) * view.scale];
}

function sidesInView() {
  const { width, height } = size();
  const [left, low] = toPlane(0, height);
  const [right, high] = toPlane(width, 0);
  return { left, low, right, high };
}

/** The box in view in whole millimetres, as the server reads it. */
function boxInView() {
  const { left, low, right, high } = sidesInView();
  const within = (it) => Math.max(-FARTHEST, Math.min(FARTHEST, it));
  return [Math.floor(left), Math.floor(low), Math.ceil(right), Math.ceil(high)].map(within).join(",");
}

function boundsOf(rings) {
  const box = { left: Infinity, low: Infinity, right: -Infinity, high: -Infinity };
  for (const [x, y] of rings[0]) {
    box.left = Math.min(box.left, x);
    box.right = Math.max(box.right, x);
    box.low = Math.min(box.low, y);
    box.high = Math.max(box.high, y);
  }
  return box;
}

function joined(boxes) {
  return {
    left: Math.min(...boxes.map((it) => it.left)),
    low: Math.min(...boxes.map((it) => it.low)),
    right: Math.max(...boxes.map((it) => it.right)),
    high: Math.max(...boxes.map((it) => it.high)),
  };
}

function middleOf(box) {
  return [(box.left + box.right) / 2, (box.low + box.high) / 2];
}

/** A parcel as it is drawn. */
function parcelOf(feature) {
  const rings = feature.geometry.coordinates;
  return { id: feature.id, properties: feature.properties, rings, box: boundsOf(rings), feature };
}

/** The crossings of a height with the edges of all rings, from the left to the right. */
function crossings(rings, height) {
  const found = [];
  for (const ring of rings) {
    for (let at = 1; at < ring.length; at++) {
      const [[x, y], [u, v]] = [ring[at - 1], ring[at]];
      if (y > height !== v > height) found.push(x + ((height - y) / (v - y)) * (u - x));
    }
  }
  return found.sort((a, b) => a - b);
}

function holds(parcel, [x, y]) {
  const { left, low, right, high } = parcel.box;
  if (x < left || x > right || y < low || y > high) return false;
  return crossings(parcel.rings, y).filter((it) => it > x).length % 2 === 1;
}

/** The widest way through a parcel at half its height: where its label is written. */
function wayThrough(parcel) {
  const height = (parcel.box.low + parcel.box.high) / 2;
  const ends = crossings(parcel.rings, height);
  let best = null;
  for (let at = 0; at + 1 < ends.length; at += 2) {
    const width = ends[at + 1] - ends[at];
    if (!best || width > best.width) best = { width, x: (ends[at] + ends[at + 1]) / 2, y: height };
  }
  return best;
}

// ---- drawing

/** The colours of an element, as style.css has them for light and dark pages and for the sheet. */
function coloursOf(where) {
  const style = getComputedStyle(where);
  const names = ["outline", "label", "chosen", "held", "before", "after", "unchanged", "density", "fill", "fill-of-unit"];
  return Object.fromEntries(names.map((it) => [it, style.getPropertyValue(`--${it}`).trim()]));
}

/** How opaque the outline of a parcel is that has so many pixels at its narrower side. */
function outlineOf(pixels) {
  return Math.min(1, (pixels / SMALL) ** 2);
}

function draw() {
  const colours = coloursOf(document.documentElement);
  drawOn(canvas, shown.parcels, colours, sideOf(shown.revision));
  if (!by("other-pane").hidden) drawOn(by("other"), shown.other?.parcels ?? [], colours, shown.other && sideOf(shown.other.revision));
  drawScale();
}

function drawOn(surface, parcels, colours, side) {
  const box = size();
  const ratio = window.devicePixelRatio || 1;
  surface.width = Math.round(box.width * ratio);
  surface.height = Math.round(box.height * ratio);
  const pen = surface.getContext("2d");
  pen.scale(ratio, ratio);
  paint(pen, parcels, { colours, side, place: placing(box), scale: view.scale, box });
}

/** Draws parcels, or their density, by a pen. */
function paint(pen, parcels, look) {
  pen.lineJoin = "round";
  if (shown.density && !look.side) {
    paintDensity(pen, look);
  } else {
    for (const it of parcels) paintShape(pen, it, look);
    paintLabels(pen, parcels, look);
  }
  for (const it of isPanelOfShown() ? chosen.outlined : []) {
    trace(pen, it, look.place);
    pen.strokeStyle = chosen.kind === "party" ? look.colours.held : look.colours.chosen;
    pen.lineWidth = 3;
    pen.stroke();
  }
}

function trace(pen, parcel, place) {
  pen.beginPath();
  for (const ring of parcel.rings) {
    ring.forEach((corner, at) => (at ? pen.lineTo(...place(corner)) : pen.moveTo(...place(corner))));
    pen.closePath();
  }
}

function fillOf(parcel, { colours, side }) {
  if (side) return shown.other.changed.has(parcel.properties.object) ? colours[side] : colours.unchanged;
  const hue = (parcel.properties.unit * 137.508) % 360;
  const tone = parcel.properties.unit === chosen.unit ? colours["fill-of-unit"] : colours.fill;
  return `hsl(${hue.toFixed(1)} ${tone})`;
}

function paintShape(pen, parcel, look) {
  const { left, low, right, high } = parcel.box;
  trace(pen, parcel, look.place);
  pen.fillStyle = fillOf(parcel, look);
  pen.fill("evenodd");
  pen.globalAlpha = outlineOf(Math.min(right - left, high - low) / look.scale);
  pen.strokeStyle = look.colours.outline;
  pen.lineWidth = 0.8;
  pen.stroke();
  pen.globalAlpha = 1;
}

function paintLabels(pen, parcels, look) {
  pen.font = '12px system-ui, "Noto Sans", "DejaVu Sans", sans-serif';
  pen.textAlign = "center";
  pen.textBaseline = "middle";
  pen.fillStyle = look.colours.label;
  for (const parcel of parcels) {
    if ((parcel.box.high - parcel.box.low) / look.scale < 16) continue;
    const way = wayThrough(parcel);
    if (!way || pen.measureText(parcel.properties.label).width + 8 > way.width / look.scale) continue;
    pen.fillText(parcel.properties.label, ...look.place([way.x, way.y]));
  }
}

/** Draws how many parcels lie in and round each square, against the fullest one. */
function paintDensity(pen, { colours, place, box }) {
  const columns = Math.ceil(box.width / SQUARE) + 2;
  const counts = new Map();
  for (const point of shown.density.points) {
    const [left, top] = place(point);
    if (left < 0 || top < 0 || left >= box.width || top >= box.height) continue;
    const at = (Math.floor(top / SQUARE) + 1) * columns + Math.floor(left / SQUARE) + 1;
    // some parcels represent all, so a square is counted with those around it
    for (const row of [at - columns, at, at + columns]) for (const it of [row - 1, row, row + 1]) counts.set(it, (counts.get(it) ?? 0) + 1);
  }
  const most = Math.max(...counts.values());
  pen.fillStyle = colours.density;
  for (const [at, count] of counts) {
    pen.globalAlpha = 0.8 * (count / most);
    pen.fillRect(((at % columns) - 1) * SQUARE, (Math.floor(at / columns) - 1) * SQUARE, SQUARE, SQUARE);
  }
  pen.globalAlpha = 1;
}

/** The longest round length of at most so many pixels, in metres. */
function roundLength(pixels, scale) {
  const metres = (scale * pixels) / 1000;
  const power = 10 ** Math.floor(Math.log10(metres));
  const round = [5, 2, 1].map((it) => it * power).find((it) => it <= metres);
  return { pixels: (round * 1000) / scale, text: round >= 1000 ? `${round / 1000} km` : `${round} m` };
}

function drawScale() {
  const bar = by("scale").firstElementChild;
  const { pixels, text } = roundLength(120, view.scale);
  bar.style.width = `${pixels}px`;
  bar.textContent = text;
}

// ---- moving

function fit({ left, low, right, high }, room = 1.1) {
  const { width, height } = size();
  view.x = (left + right) / 2;
  view.y = (low + high) / 2;
  view.scale = Math.max((right - left) / width, (high - low) / height, 1) * room;
}

function zoom(factor, left, top) {
  const { width, height } = size();
  const place = toPlane(left ?? width / 2, top ?? height / 2);
  view.scale = Math.max(0.1, Math.min((2 * FARTHEST) / 100, view.scale * factor));
  const moved = toPlane(left ?? width / 2, top ?? height / 2);
  move(place[0] - moved[0], place[1] - moved[1]);
}

function move(x, y) {
  view.x = Math.max(-FARTHEST, Math.min(FARTHEST, view.x + x));
  view.y = Math.max(-FARTHEST, Math.min(FARTHEST, view.y + y));
  draw();
  soon(load);
}

// ---- by hand

/** Pointers on a canvas, that of the other revision or not: one moves the map or chooses, two zoom about their middle. */
function listenToPointers(surface, isOfOther) {
  const pointers = new Map();
  let moved = 0;
  const middle = () => {
    const all = [...pointers.values()];
    const mean = (name) => all.reduce((sum, it) => sum + it[name], 0) / all.length;
    const [left, top] = [mean("left"), mean("top")];
    return { left, top, apart: Math.hypot(all[0].left - left, all[0].top - top) };
  };
  surface.addEventListener("pointerdown", (event) => {
    if (!pointers.size) moved = 0;
    pointers.set(event.pointerId, { left: event.offsetX, top: event.offsetY });
    if (pointers.size > 1) moved = Infinity;
    surface.setPointerCapture(event.pointerId);
  });
  surface.addEventListener("pointermove", (event) => {
    const [x, y] = toPlane(event.offsetX, event.offsetY);
    by("place").textContent = `${(x / 1000).toFixed(2)}, ${(y / 1000).toFixed(2)} m`;
    if (!pointers.has(event.pointerId)) return;
    const before = middle();
    pointers.set(event.pointerId, { left: event.offsetX, top: event.offsetY });
    const after = middle();
    const [right, down] = [after.left - before.left, after.top - before.top];
    moved += Math.abs(right) + Math.abs(down);
    surface.classList.toggle("moving", moved > 4);
    if (moved > 4) move(-right * view.scale, down * view.scale);
    if (pointers.size === 2 && before.apart > 0 && after.apart > 0) zoom(before.apart / after.apart, after.left, after.top);
  });
  surface.addEventListener("pointerup", (event) => {
    if (pointers.has(event.pointerId) && moved <= 4) chooseAt(event.offsetX, event.offsetY, isOfOther);
    pointers.delete(event.pointerId);
    surface.classList.remove("moving");
  });
  surface.addEventListener("pointercancel", (event) => pointers.delete(event.pointerId));
  surface.addEventListener("wheel", (event) => {
    event.preventDefault();
    zoom(event.deltaY < 0 ? 0.8 : 1.25, event.offsetX, event.offsetY);
  }, { passive: false });
}

function listenToMap() {
  listenToPointers(canvas, false);
  listenToPointers(by("other"), true);
  canvas.addEventListener("keydown", (event) => {
    if (event.ctrlKey || event.metaKey || event.altKey) return;
    const step = 80 * view.scale;
    const { width, height } = size();
    const keys = {
      ArrowLeft: () => move(-step, 0),
      ArrowRight: () => move(step, 0),
      ArrowUp: () => move(0, step),
      ArrowDown: () => move(0, -step),
      "+": () => zoom(0.5),
      "-": () => zoom(2),
      Enter: () => chooseAt(width / 2, height / 2),
      n: () => chooseNext(1),
      p: () => chooseNext(-1),
    };
    if (!keys[event.key]) return;
    keys[event.key]();
    event.preventDefault();
  });
  new ResizeObserver(() => {
    const { width, height } = size();
    draw();
    if (width !== requested?.width || height !== requested?.height) soon(load);
  }).observe(canvas);
  matchMedia("(prefers-color-scheme: dark)").addEventListener("change", draw);
}

/** Chooses the next or the previous parcel in view, and moves the map to it if its middle is outside. */
function chooseNext(step) {
  const objects = [...new Set(shown.parcels.map((it) => it.properties.object))];
  if (!objects.length) {
    say("No parcel is in view.");
    return;
  }
  const at = chosen.kind === "parcel" ? objects.indexOf(chosen.object) : -1;
  const next = at < 0 ? (step > 0 ? 0 : objects.length - 1) : (at + step + objects.length) % objects.length;
  const parcel = shown.parcels.findLast((it) => it.properties.object === objects[next]);
  const [x, y] = middleOf(parcel.box);
  const { left, low, right, high } = sidesInView();
  choose("parcel", objects[next]);
  if (x < left || x > right || y < low || y > high) move(x - view.x, y - view.y);
}
