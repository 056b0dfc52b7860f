// The page: what is requested for the view, the controls, and the address.
"use strict";

const day = by("day");
const filter = by("filter");
const revision = by("revision");
const against = by("against");
const slider = by("slider");
const CONTROLS = { day, revision, against, filter };
const NOWHERE = { left: 0, low: 0, right: 0, high: 0 };

/** The parcels that a filter takes anywhere, and for which request they were read. */
const everywhere = { target: "", parcels: [], isMore: false };
let loading = new AbortController();
/** The size of the map for which parcels were requested last. */
let requested = null;
/** A day in the address that is none. The field can't hold it. */
let noDay = "";

/** What the controls say. */
function conditions() {
  return { day: day.value, revision: revision.value.trim(), against: against.value.trim(), filter: filter.value.trim() && filter.value };
}

function parametersOf(asked) {
  return { datetime: asked.day, filter: asked.filter, revision: asked.revision };
}

// ---- what is in view

/** Ends the requests for the last view; the signal that ends those for the next one. */
function begin() {
  clearTimeout(soon.timer);
  loading.abort();
  loading = new AbortController();
  document.body.dataset.busy = "yes";
  by("count").hidden = true;
  return loading.signal;
}

function finish() {
  delete document.body.dataset.busy;
  by("count").hidden = !shown.rest || shown.other !== null;
}

/** Calls the work once nothing has asked for it for a moment. */
function soon(work) {
  begin();
  soon.timer = setTimeout(work, 200);
}

/** Requests what the controls say for the view. A control with a fault keeps what was accepted last, and says so. */
async function load() {
  const signal = begin();
  const faults = new Map();
  try {
    await accepted(faults, (it) => answer(it, faults, signal));
    await lookOutside(signal);
    drawShown();
    writeFaults(faults);
    writeTrouble("");
    writeAddress();
    finish();
    writePanel();
  } catch (fault) {
    failed(fault);
  }
}

/** Does the work for what the controls say. Where the server rejects a control, it is done again with what was accepted of it last. */
async function accepted(faults, work) {
  let asked = { ...conditions() };
  for (const [name, fault] of faultsOf(asked)) {
    faults.set(name, fault);
    asked = { ...asked, [name]: shown.asked[name] };
  }
  while (true) {
    try {
      await work(asked);
      return asked;
    } catch (fault) {
      const name = fault.name !== "AbortError" && controlOf(fault);
      if (!name || faults.has(name)) throw fault;
      faults.set(name, fault);
      if (name === "filter") Object.assign(rejected, { filter: asked.filter, fault });
      asked = { ...asked, [name]: shown.asked[name] };
    }
  }
}

/** The filter that the server rejected last, and why. The answer to it stays the same. */
const rejected = { filter: "", fault: null };

/** The faults that are plain without a request. */
function* faultsOf(asked) {
  if (asked.filter && asked.filter === rejected.filter) yield ["filter", rejected.fault];
  if (noDay || day.validity.badInput) yield ["day", new NoDay(noDay)];
  for (const name of ["revision", "against"]) if (asked[name] && !/^\d{1,18}$/.test(asked[name])) yield [name, new Refused(400, { fault: "revision" })];
}

/** The control that the server rejects. */
function controlOf(fault) {
  if (!(fault instanceof Refused)) return null;
  return fault.isOfOther ? "against" : { filter: "filter", datetime: "day", revision: "revision" }[fault.body.fault];
}

/** Requests the parcels in view, and shows them page by page, or their density if there are too many. Two revisions are shown once both came. */
async function answer(asked, faults, signal) {
  if (asked.against !== shown.asked.against) await needOther(asked.against, signal);
  setPanes(asked.against !== "");
  requested = size();
  const target = targetOf("parcels", { ...parametersOf(asked), bbox: boxInView(), limit: ON_A_PAGE });
  // what is shown stays, where nothing but a fault is new
  if (faults.size && target === shown.target && asked.against === shown.asked.against) return;
  const value = await follow({ asked: Object.freeze(asked), view: { ...view }, target }, signal);
  if (asked.against) show({ ...value, other: await compared(value, signal) });
  else if (value.rest) show({ ...value, density: await sample(signal) });
}

/** Follows the pages of a value's target, until as many parcels came as are drawn. */
async function follow(value, signal) {
  const parcels = [];
  let [came, target, made] = [0, value.target, null];
  while (target && came < MOST_SHAPES) {
    const body = await page(target, signal);
    came += body.features.length;
    parcels.push(...body.features.slice(0, MOST_SHAPES - parcels.length).map(parcelOf));
    target = nextOf(body) ?? null;
    made = { ...value, parcels: [...parcels], came, rest: target, revision: body.revision, inForce: Math.max(shown.inForce, body.revision), density: null, other: null };
    if (!value.asked.against) {
      show(made);
      drawShown();
    }
  }
  return made;
}

/** Where some of the parcels in view lie, one in so many by their numbers; nothing if the server rejects the longer filter. */
async function sample(signal) {
  const { filter: taken } = shown.asked;
  const box = new URLSearchParams(shown.target.split("?")[1]).get("bbox");
  const onlyEach = (number) => ({ ...parametersShown(), filter: `${taken ? `(${taken}) AND ` : ""}object % ${number} = 0`, bbox: box, limit: ON_A_PAGE });
  try {
    let some = 997;
    let body = await page(targetOf("parcels", onlyEach(some)), signal);
    for (; nextOf(body); some *= 11) body = await page(targetOf("parcels", onlyEach(some * 11)), signal);
    let one = Math.max(3, Math.ceil((body.numberReturned * some) / 4000));
    // numbers that count rows of parcels have common factors with 10
    while (one % 2 === 0 || one % 5 === 0) one++;
    const points = [];
    for (let target = targetOf("parcels", onlyEach(one)); target; target = nextOf(body)) {
      body = await page(target, signal);
      points.push(...body.features.map(pointOf));
    }
    return { points, one };
  } catch (fault) {
    if (fault instanceof Refused) return null;
    throw fault;
  }
}

const pointOf = (feature) => middleOf(boundsOf(feature.geometry.coordinates));

/** Follows the pages that are left to the last one, for their count and their density. */
async function countAll() {
  const signal = begin();
  const points = shown.parcels.map((it) => middleOf(it.box));
  try {
    while (shown.rest) {
      const body = await page(shown.rest, signal);
      points.push(...body.features.map(pointOf));
      show({ ...shown, came: shown.came + body.features.length, rest: nextOf(body) ?? null });
      writeStatus();
    }
    show({ ...shown, density: { points, one: 1 } });
    drawShown();
    finish();
  } catch (fault) {
    failed(fault);
  }
}

/** Writes how many parcels that the filter takes lie outside of the view, and on which sides. */
async function lookOutside(signal) {
  const place = by("outside");
  if (!shown.asked.filter || shown.rest) {
    place.replaceChildren();
    return;
  }
  const target = targetOf("parcels", parametersShown());
  if (everywhere.target !== target) {
    const { features, isMore } = await listed("parcels", parametersShown(), signal);
    Object.assign(everywhere, { target, isMore, parcels: features.map((it) => ({ id: it.id, box: it.geometry && boundsOf(it.geometry.coordinates) })) });
  }
  const inView = new Set(shown.parcels.map((it) => it.id));
  const outside = everywhere.parcels.filter((it) => it.box && !inView.has(it.id));
  const flat = everywhere.parcels.filter((it) => !it.box).length;
  const words = [];
  if (!everywhere.parcels.length) words.push("The filter takes no parcel at all.");
  if (outside.length) words.push(`${everywhere.isMore ? "At least " : ""}${counted(outside.length, "parcel", "parcels")} outside of the view: ${sidesOf(outside)}.`);
  if (flat) words.push(`${counted(flat, "parcel has", "parcels have")} no shape.`);
  place.replaceChildren(words.join(" "), ...(outside.length ? [" ", linkButton("Show all", "Move the map to all parcels that the filter takes", showAll)] : []));
}

/** On which sides of the view the boxes lie, with their numbers. */
function sidesOf(outside) {
  const { left, low, right, high } = sidesInView();
  const counts = new Map();
  for (const { box } of outside) {
    const upright = box.low > high ? "above" : box.high < low ? "below" : "";
    const across = box.left > right ? "to the right" : box.right < left ? "to the left" : "";
    const side = [upright, across].filter((it) => it).join(" ") || "at the edge";
    counts.set(side, (counts.get(side) ?? 0) + 1);
  }
  return [...counts].map(([side, count]) => `${count.toLocaleString("en")} ${side}`).join(", ");
}

function failed(fault) {
  if (fault.name === "AbortError") return;
  finish();
  // some pages may have come before the fault
  writeAddress();
  const words = fault instanceof Refused ? (fault.status >= 500 ? "The server can't answer now" : "The server doesn't take this request") : "The server can't be reached";
  writeTrouble(`${words} (${fault.message}). The page shows what came last.`);
}

/** Draws and writes all that is shown, except for the panel. */
function drawShown() {
  draw();
  writeStatus();
  writeChanges();
  writeList();
}

function writeStatus() {
  const text = wordsOf(shown);
  by("status").textContent = text;
  by("summary").textContent = [shown.asked.day || "Every day", `revision ${shown.revision} of ${shown.inForce}`, ...(shown.other ? [`and ${shown.other.revision}`] : []), shown.asked.filter.trim()].filter((it) => it).join(", ");
  by("request").href = citedRequest(shown.target, shown.revision);
  canvas.dataset.drawn = shown.density ? 0 : shown.parcels.length;
  canvas.dataset.came = shown.came;
  canvas.setAttribute("aria-label", `Map of the parcels: ${text}`);
  writeRevision();
}

function writeRevision() {
  slider.max = shown.inForce;
  slider.value = revision.value === "" ? shown.inForce : shown.revision;
  by("revision-of").textContent = `${shown.revision} of ${shown.inForce}`;
  by("latest").setAttribute("aria-pressed", revision.value === "");
  by("every-day").setAttribute("aria-pressed", shown.asked.day === "");
  by("earlier").disabled = shown.revision <= 0;
  by("later").disabled = shown.revision >= shown.inForce;
  by("alone").disabled = against.value.trim() === "";
}

/** Writes each fault at its control, with what would be right and what is shown in its place. */
function writeFaults(faults) {
  for (const [name, control] of Object.entries(CONTROLS)) {
    const fault = faults.get(name);
    const place = by(name === "filter" ? "fault" : `${name}-fault`);
    control.setAttribute("aria-invalid", fault !== undefined);
    // a screen reader says a text again if it is written again
    const words = fault ? `${RIGHT[name](fault)} ${INSTEAD[name]()}` : "";
    if (place.textContent !== words) place.textContent = words;
  }
  const fault = faults.get("filter");
  by("names").classList.toggle("needed", fault?.body.cause === "UnknownProperty");
  by("marks").replaceChildren();
  if (fault) mark(fault.body.place);
  if (faults.size) unfold(true);
}

const revisionWords = (text) => `There is no revision ${text}: write a number from 0 to ${shown.inForce}`;

/** What is wrong with a control, and what would be right. */
const RIGHT = {
  day: ({ text }) => `${text ? `${text} is no day` : "This is no day"}: write one from 0001-01-01 to 9999-12-31, such as 2001-02-28.`,
  revision: () => `${revisionWords(revision.value.trim())}, or nothing for the latest.`,
  against: () => `${revisionWords(against.value.trim())}, or nothing.`,
  filter: ({ body }) => `${body.cause} at byte ${body.place}: ${CAUSES[body.cause] ?? "this is no filter"}.`,
};

/** What the page shows in place of a control with a fault. */
const INSTEAD = {
  day: () => `The map shows ${shown.asked.day || "every day"}.`,
  revision: () => `The map shows revision ${shown.revision}.`,
  against: () => (shown.other ? `The map shows revision ${shown.other.revision} beside it.` : "The map compares nothing."),
  filter: () => (shown.asked.filter ? `The map shows the last filter that was accepted: ${shown.asked.filter.trim()}` : "The map shows all parcels, without a filter."),
};

/** Says what keeps the page from showing what is asked for, and is no fault of a control. */
function writeTrouble(text) {
  by("trouble").textContent = text;
}

/** Underlines the word of the filter at a byte, or its end. */
function mark(place) {
  const text = filter.value;
  let [at, bytes] = [0, 0];
  for (const letter of text) {
    if (bytes >= place) break;
    bytes += new TextEncoder().encode(letter).length;
    at += letter.length;
  }
  const word = /"[^"]*"?|'[^']*'?|[A-Za-z_:][\w.:]*|[\d.]+|<=|>=|<>|[^]/uy;
  word.lastIndex = at;
  const found = word.exec(text)?.[0] ?? " ";
  by("marks").replaceChildren(text.slice(0, at), element("mark", {}, found), text.slice(at + found.length));
  by("marks").scrollLeft = filter.scrollLeft;
}

// ---- all parcels

/** Brings all parcels that the day, the revision and the filter take into view: by their page if one has them, else by requests for what lies beyond. */
async function fitAll() {
  const signal = begin();
  let boxes = [];
  try {
    const asked = await accepted(new Map(), async (it) => (boxes = await boxesOf(it, signal)));
    // a filter that takes nothing has no box
    if (!boxes.length && asked.filter && !shown.target) boxes = await boxesOf({ ...asked, filter: "" }, signal);
    if (boxes.length) fit(joined(boxes));
  } catch (fault) {
    failed(fault);
  }
}

/** The boxes round all parcels at the revision and at the other one, where there are some. */
async function boxesOf(asked, signal) {
  await needOther(asked.against, signal);
  const revisions = asked.against ? [asked.revision, asked.against] : [asked.revision];
  const boxes = [];
  for (const it of revisions) boxes.push(await boxOfAll({ ...parametersOf(asked), revision: it }, signal));
  return boxes.filter((it) => it);
}

async function boxOfAll(asked, signal) {
  const first = await page(targetOf("parcels", { ...asked, limit: ON_A_PAGE }), signal);
  const boxes = first.features.filter((it) => it.geometry).map((it) => boundsOf(it.geometry.coordinates));
  if (nextOf(first)) return beyond(boxes.length ? joined(boxes) : NOWHERE, { ...asked, revision: first.revision }, signal);
  return boxes.length ? joined(boxes) : null;
}

async function showAll() {
  await fitAll();
  await load();
}

/** A box round all parcels, from one that some of them have: each side goes outward until nothing lies beyond it. */
async function beyond(known, asked, signal) {
  const isAny = async (...box) => (await page(targetOf("parcels", { ...asked, bbox: box.join(","), limit: 1 }), signal)).numberReturned > 0;
  const side = async (from, sign, lies) => {
    let step = 10000;
    // nothing lies farther out than coordinates reach
    const outward = () => Math.max(-FARTHEST, Math.min(FARTHEST, from + sign * step));
    while (Math.abs(outward()) < FARTHEST && (await lies(outward()))) {
      from = outward();
      step *= 2;
    }
    for (let turn = 0; turn < 4; turn++) {
      step = Math.ceil(step / 2);
      if (await lies(outward())) from = outward();
    }
    return outward();
  };
  const far = FARTHEST;
  return {
    left: await side(known.left, -1, (it) => isAny(-far, -far, it, far)),
    right: await side(known.right, 1, (it) => isAny(it, -far, far, far)),
    low: await side(known.low, -1, (it) => isAny(-far, -far, far, it)),
    high: await side(known.high, 1, (it) => isAny(-far, it, far, far)),
  };
}

// ---- the address

// The control that is being written in; what it changes makes one entry of the history.
let written = null;
let lastWritten = null;
/** Whether the page follows an address, which then makes no entry of its own. */
let isFollowing = true;

/** The address of what is shown at revisions of these names, without its #. */
function addressOf({ revision: ofFirst, against: ofOther }) {
  const place = [shown.view.x, shown.view.y, shown.view.scale].map((it) => Number(it.toPrecision(13))).join(",");
  const said = { day: shown.asked.day, revision: ofFirst, against: ofOther, filter: shown.asked.filter, at: place };
  if (chosen.kind) said[chosen.kind] = chosen.object;
  if (chosen.kind && isOfOther()) said.pane = "other";
  return new URLSearchParams(Object.entries(said).filter(([name, value]) => value !== "" || name === "day")).toString();
}

/** Keeps in the address what is shown and what is in view. A move of the map makes no entry of the history of its own. */
function writeAddress() {
  if (!shown.view) return;
  const made = addressOf(shown.asked);
  const old = location.hash.slice(1);
  if (made === old) return;
  const besides = (text) => {
    const said = new URLSearchParams(text);
    said.delete("at");
    return said.toString();
  };
  const isSame = isFollowing || besides(made) === besides(old) || (written && written === lastWritten);
  history[isSame ? "replaceState" : "pushState"](null, "", `#${made}`);
  lastWritten = written;
}

/** Takes what the address says; whether it says what is in view. */
function readAddress() {
  const said = new URLSearchParams(location.hash.slice(1));
  const text = said.get("day") ?? today();
  day.value = text;
  noDay = day.value === text ? "" : text;
  if (noDay) day.value = shown.asked.day;
  revision.value = said.get("revision") ?? "";
  against.value = said.get("against") ?? "";
  filter.value = said.get("filter") ?? "";
  const kind = ["parcel", "unit", "party"].find((it) => /^\d+$/.test(said.get(it) ?? "")) ?? null;
  const object = kind && Number(said.get(kind));
  if (kind !== chosen.kind || object !== chosen.object) {
    chooseNothing();
    Object.assign(chosen, { kind, object });
    if (!kind) emptyPanel("Click a parcel to see its versions, and the rights, restrictions and responsibilities of its unit.");
  }
  chosen.isOfOther = said.get("pane") === "other";
  const [x, y, scale] = (said.get("at") ?? "").split(",").map(Number);
  if (!(scale > 0) || !Number.isFinite(x + y)) return false;
  Object.assign(view, { x, y, scale });
  return true;
}

async function followAddress() {
  isFollowing = true;
  const hasView = readAddress();
  // the view of the address is that of its panes
  if (hasView) setPanes(against.value.trim() !== "", true);
  else await fitAll();
  await load();
  isFollowing = false;
}

// ---- controls

function goToRevision(number) {
  revision.value = number;
  writeRevision();
  soon(load);
}

/** Shows or hides the controls on a narrow page, where they are folded. */
function unfold(isOpen) {
  by("asked").classList.toggle("open", isOpen);
  by("fold").setAttribute("aria-expanded", isOpen);
  by("fold").textContent = isOpen ? "Done" : "Change";
}

function listenToControls() {
  for (const it of ["input", "change"]) day.addEventListener(it, () => (noDay = ""));
  day.addEventListener("change", load);
  by("today").addEventListener("click", () => goToDay(today()));
  by("every-day").addEventListener("click", () => goToDay(""));
  slider.addEventListener("input", () => goToRevision(slider.value));
  revision.addEventListener("input", () => soon(load));
  by("earlier").addEventListener("click", () => goToRevision(shown.revision - 1));
  by("later").addEventListener("click", () => goToRevision(shown.revision + 1));
  by("latest").addEventListener("click", () => goToRevision(""));
  against.addEventListener("input", () => soon(load));
  by("alone").addEventListener("click", () => {
    against.value = "";
    load();
  });
  filter.addEventListener("input", () => {
    by("marks").replaceChildren();
    soon(load);
  });
  filter.addEventListener("scroll", () => (by("marks").scrollLeft = filter.scrollLeft));
  by("asked").addEventListener("submit", (event) => event.preventDefault());
  by("asked").addEventListener("input", (event) => (written = event.target.id));
  by("asked").addEventListener("click", () => (written = null));
  by("asked").addEventListener("focusout", () => (written = null));
  by("fold").addEventListener("click", () => unfold(!by("asked").classList.contains("open")));
  by("closer").addEventListener("click", () => zoom(0.5));
  by("farther").addEventListener("click", () => zoom(2));
  by("whole").addEventListener("click", showAll);
  by("count").addEventListener("click", countAll);
  by("list").addEventListener("toggle", writeList);
  addEventListener("hashchange", followAddress);
}

/** The names that a filter of parcels may use. */
async function writeNames() {
  const body = await page("/collections/parcels/queryables", undefined);
  by("names").textContent = `Names: ${Object.keys(body.properties).join(", ")}.`;
}

async function start() {
  listenToControls();
  listenToFind();
  listenToCitation();
  writeNames().catch(() => {});
  try {
    show({ ...shown, inForce: (await page(targetOf("parcels", { limit: 1 }))).revision });
  } catch (fault) {
    failed(fault);
  }
  await followAddress();
  listenToMap();
  document.body.dataset.ready = "yes";
}

start();
