// The panel: what is chosen, a parcel, a unit or a party, on the day and at the revision that the map shows.
"use strict";

/** What is chosen, at the other revision or not, and for what the panel is being read. Then what it was written for, its requests, and the parcels that are outlined. */
const chosen = { kind: null, object: null, unit: null, isOfOther: false, wanted: "", written: "", requests: [], outlined: [] };
const KINDS = { rights: "Rights", restrictions: "Restrictions", responsibilities: "Responsibilities" };
let writing = new AbortController();

/** Whether what is chosen is looked up at the other revision of a comparison. */
function isOfOther() {
  return chosen.isOfOther && shown.other !== null;
}

/** What the panel is read for. */
function panelFor() {
  return JSON.stringify([chosen.kind, chosen.object, shown.asked.day, isOfOther() ? shown.other.revision : shown.revision]);
}

/** Whether the panel was written for what is shown now. */
function isPanelOfShown() {
  return chosen.kind !== null && chosen.written === panelFor();
}

/** Chooses an object, and writes the panel. */
async function choose(kind, object, unit = null, isOther = isOfOther()) {
  Object.assign(chosen, { kind, object, unit, isOfOther: isOther, outlined: [], wanted: "", written: "" });
  draw();
  writeAddress();
  await writePanel();
  if (matchMedia("(max-width: 900px)").matches) by("side").scrollIntoView({ block: "start" });
}

/** Chooses what lies at a point of the map, or of that of the other revision: of the parcels that are drawn, or of the register where their density is. */
async function chooseAt(left, top, isOther = false) {
  const place = toPlane(left, top);
  try {
    const some = shown.density ? await parcelsAt(place) : isOther ? shown.other?.parcels ?? [] : shown.parcels;
    const found = some.findLast((it) => holds(it, place));
    if (found) {
      choose("parcel", found.properties.object, found.properties.unit, isOther);
      return;
    }
    chooseNothing();
    writeAddress();
    draw();
    emptyPanel("No parcel lies here. Click one to see its versions, and the rights, restrictions and responsibilities of its unit.");
  } catch (fault) {
    if (fault.name !== "AbortError") emptyPanel(`This could not be read: ${fault.message}.`);
  }
}

async function parcelsAt([x, y]) {
  writing.abort();
  writing = new AbortController();
  const { signal } = writing;
  by("panel").setAttribute("aria-busy", "true");
  try {
    const box = [Math.floor(x), Math.floor(y), Math.ceil(x), Math.ceil(y)].join(",");
    return drawable((await listed("parcels", { ...parametersShown(), bbox: box }, signal)).features);
  } finally {
    if (!signal.aborted) by("panel").removeAttribute("aria-busy");
  }
}

function chooseNothing() {
  writing.abort();
  Object.assign(chosen, { kind: null, object: null, unit: null, isOfOther: false, wanted: "", written: "", requests: [], outlined: [] });
  by("panel").removeAttribute("aria-busy");
}

function emptyPanel(text) {
  by("panel").replaceChildren(element("p", { className: "hint" }, text));
  say(text);
}

/** Writes the panel for what is chosen, unless it is written already or being read. */
async function writePanel() {
  const wanted = panelFor();
  if (chosen.kind === null || wanted === chosen.wanted) return;
  writing.abort();
  writing = new AbortController();
  const { signal } = writing;
  const panel = by("panel");
  chosen.wanted = wanted;
  panel.setAttribute("aria-busy", "true");
  try {
    const write = { parcel: parcelParts, unit: unitParts, party: partyParts }[chosen.kind];
    const [, object, day, revision] = JSON.parse(wanted);
    const asked = { revision, datetime: day, requests: [] };
    const { parts, outlined, words, unit } = await write(object, asked, signal);
    const hadFocus = panel.contains(document.activeElement);
    panel.replaceChildren(...(shown.other ? [element("p", { className: "none" }, `At revision ${revision}:`)] : []), ...parts);
    if (hadFocus) focusPanel();
    Object.assign(chosen, { outlined, unit, written: wanted, requests: asked.requests });
    draw();
    say(words);
  } catch (fault) {
    if (fault.name === "AbortError") return;
    Object.assign(chosen, { wanted: "", written: "" });
    emptyPanel(`This could not be read: ${fault.message}.`);
  } finally {
    if (!signal.aborted) panel.removeAttribute("aria-busy");
  }
}

/** Goes on by keyboard in the panel. */
function focusPanel() {
  by("side").focus({ preventScroll: true });
}

/** Reads features for the panel; the sheet has the requests. */
const reader = (requests) => async (collection, parameters, signal) => {
  const found = await listed(collection, parameters, signal);
  requests.push(found.target);
  return found;
};

function unknown(kind, object, revision) {
  const words = `At revision ${revision} the register has no ${kind} with the number ${object}.`;
  return { parts: [element("p", { className: "hint" }, words)], outlined: [], words, unit: null };
}

function drawable(features) {
  return features.filter((it) => it.geometry).map(parcelOf);
}

/** Brings what is outlined into view. */
function fitOutlined() {
  if (!chosen.outlined.length) return;
  fit(joined(chosen.outlined.map((it) => it.box)), chosen.kind === "parcel" ? 4 : 1.3);
  draw();
  load();
}

function fitButton(outlined) {
  return outlined.length ? [element("p", {}, button("Bring into view", "Move the map to the outlined parcels", fitOutlined))] : [];
}

// ---- a parcel

async function parcelParts(object, { revision, datetime, requests }, signal) {
  const { features: versions } = await reader(requests)("parcels", { revision, filter: `object = ${object}` }, signal);
  if (!versions.length) return unknown("parcel", object, revision);
  const ofDay = versions.findLast((it) => holdsOn(it.properties, datetime));
  const now = ofDay ?? versions.at(-1);
  const { unit, label } = now.properties;
  const outlined = drawable([now]);
  const rest = await partsOfUnit(unit, { revision, datetime, requests }, signal);
  const rows = versions.map(({ id, properties: it }) => ({
    isShown: id === now.id,
    cells: [dayButton(it.begin), it.end ?? "open", it.label, areaOf(it.area)],
  }));
  const parts = [
    element("h2", {}, `Parcel ${label}`),
    element("p", {}, element("small", {}, `object ${object}, ${counted(versions.length, "version", "versions")}`)),
    ...(ofDay ? [] : [element("p", { className: "none" }, `No version of it held ${onDay(datetime)}.`)]),
    ...fitButton(outlined),
    element("h3", {}, "Versions"),
    barsOf(versions, datetime),
    table(["from", "to", "label", "area"], rows),
    historyOf(object, revision),
    ...rest.parts,
  ];
  return { parts, outlined, unit, words: `Parcel ${label}, object ${object}, ${counted(versions.length, "version", "versions")}. ${rest.words}` };
}

function areaOf(area) {
  return area === null ? "not registered" : `${area.toLocaleString("en")} m²`;
}

function goToDay(text) {
  day.value = text;
  noDay = "";
  load();
}

/** A day that the map goes to when it is clicked. */
function dayButton(text) {
  return linkButton(text, "Show this day", () => goToDay(text));
}

const numberOfDay = (text) => Date.parse(`${text}T00:00:00Z`) / 86400000;

/** The versions as bars by day, the shown day as a line. */
function barsOf(versions, onThis) {
  const days = versions.flatMap(({ properties: it }) => [it.begin, it.end ?? today()]);
  const ends = [...days, onThis || today()].map(numberOfDay);
  const [first, last] = [Math.min(...ends), Math.max(...ends)];
  const at = (number) => `${((100 * (number - first)) / Math.max(1, last - first)).toFixed(2)}%`;
  const rows = versions.map(({ properties: it }) => {
    const [from, to] = [numberOfDay(it.begin), it.end === null ? last : numberOfDay(it.end)];
    const words = `version ${it.number}: ${it.begin} to ${it.end ?? "open"}, ${it.label}, ${areaOf(it.area)}`;
    const bar = button("", words, () => goToDay(it.begin));
    bar.className = holdsOn(it, onThis) ? "bar shown" : "bar";
    bar.setAttribute("aria-label", words);
    bar.style.left = at(from);
    bar.style.width = at(first + Math.max(1, to - from));
    return element("div", { className: "lane" }, bar);
  });
  const line = element("span", { className: "of-day" });
  line.hidden = !onThis;
  if (onThis) line.style.left = at(numberOfDay(onThis));
  const year = (number) => new Date(number * 86400000).getUTCFullYear();
  const axis = element("p", { className: "axis" }, element("span", {}, String(year(first))), element("span", {}, String(year(last))));
  const lanes = element("div", { className: "lanes" }, ...rows, line);
  const bars = element("div", { className: "bars" }, lanes, axis);
  bars.setAttribute("role", "group");
  bars.setAttribute("aria-label", "Versions by day");
  return bars;
}

// ---- what the register recorded

/** A list of the revisions that entered, amended or ended a parcel. It is read when it is opened, by some requests for each. */
function historyOf(object, revision) {
  const body = element("div", {}, element("p", { className: "none" }, "Reading older revisions."));
  const made = element("details", { className: "history" }, element("summary", {}, "Changes by revision"), body);
  made.addEventListener("toggle", async () => {
    if (!made.open || made.dataset.read) return;
    made.dataset.read = "yes";
    by("panel").setAttribute("aria-busy", "true");
    const { signal } = writing;
    try {
      const steps = await stepsOf(object, revision, signal);
      body.replaceChildren(table(["revision", "what changed"], steps.map((it) => ({ cells: [revisionButton(it.revision), changeOf(it)] }))));
    } catch (fault) {
      if (fault.name === "AbortError") return;
      body.replaceChildren(element("p", { className: "none" }, `This could not be read: ${fault.message}.`));
    }
    if (!signal.aborted) by("panel").removeAttribute("aria-busy");
  });
  return made;
}

/** How far an object's history has come: each command on it adds versions or ends the last one. */
function rankOf(versions) {
  return versions.length ? 2 * versions.length + (versions.at(-1).properties.end === null ? 0 : 1) : 0;
}

/** The revisions up to this one that changed a parcel, each with the versions before and after it, found by halving. */
async function stepsOf(object, revision, signal) {
  const versionsAt = async (at) => (await listed("parcels", { revision: at, filter: `object = ${object}` }, signal)).features;
  const between = async (low, before, high, after) => {
    if (rankOf(before) === rankOf(after)) return [];
    if (high - low === 1) return [{ revision: high, before, after }];
    const middle = Math.floor((low + high) / 2);
    const versions = await versionsAt(middle);
    return [...(await between(low, before, middle, versions)), ...(await between(middle, versions, high, after))];
  };
  return between(0, [], revision, await versionsAt(revision));
}

/** What a step changed, in words. */
function changeOf({ before, after }) {
  const [old, made] = [before.at(-1)?.properties, after.at(-1).properties];
  if (!old) return `entered from ${made.begin}: ${made.label}, ${areaOf(made.area)}`;
  if (before.length === after.length) return `ended on ${made.end}`;
  const words = differences(before.at(-1), after.at(-1));
  return `version ${made.number} from ${made.begin}: ${words.length ? words.join(", ") : "as before"}`;
}

/** What differs between two versions of a parcel besides their days. */
function differences(old, made) {
  const [from, to] = [old.properties, made.properties];
  const words = [];
  if (from.label !== to.label) words.push(`label ${from.label} to ${to.label}`);
  if (from.area !== to.area) words.push(`area ${areaOf(from.area)} to ${areaOf(to.area)}`);
  if (from.unit !== to.unit) words.push(`unit ${from.unit} to ${to.unit}`);
  if (JSON.stringify(old.geometry) !== JSON.stringify(made.geometry)) words.push("shape");
  if (JSON.stringify(from.reference_point) !== JSON.stringify(to.reference_point)) words.push("reference point");
  return words;
}

function revisionButton(number) {
  return linkButton(String(number), "Show this revision", () => goToRevision(number));
}

// ---- a unit

async function unitParts(unit, asked, signal) {
  const { parts, words, parcels } = await partsOfUnit(unit, asked, signal, "h2");
  const outlined = drawable(parcels);
  parts.splice(2, 0, ...fitButton(outlined), element("p", {}, ...parcelButtons(parcels)));
  return { parts, words, outlined, unit };
}

async function partsOfUnit(unit, { revision, datetime, requests }, signal, head = "h3") {
  const [read, asked] = [reader(requests), { revision, datetime }];
  const ofUnit = { ...asked, filter: `unit = ${unit}` };
  const units = await read("units", { ...asked, filter: `object = ${unit}` }, signal);
  const held = {};
  for (const kind of Object.keys(KINDS)) held[kind] = await read(kind, ofUnit, signal);
  const parcels = await read("parcels", ofUnit, signal);
  const parties = await partiesOf(Object.values(held).flatMap((it) => it.features), asked, signal, read);
  const named = units.features.at(-1)?.properties.name;
  const count = counted(parcels.features.length, "parcel", "parcels") + (parcels.isMore ? " and more" : "");
  const title = named ? `Unit ${unit}: ${named}` : `Unit ${unit}`;
  const words = Object.keys(KINDS).map((kind) => counted(held[kind].features.length, kind === "responsibilities" ? "responsibility" : kind.slice(0, -1), kind));
  return {
    parts: [
      element(head, {}, head === "h2" ? title : unitButton(unit, title)),
      element("p", { className: "none" }, units.features.length ? `${count} ${datetime ? "on this day" : "in all"}` : "No version of it held on this day."),
      ...Object.keys(KINDS).flatMap((kind) => partsOfRights(KINDS[kind], held[kind], parties)),
    ],
    parcels: parcels.features,
    words: `${title}, ${count}: ${words.join(", ")}.`,
  };
}

/** The parties of rights by their objects, as they were called on the day. */
async function partiesOf(rights, asked, signal, read) {
  const objects = rights.map((it) => it.properties.party).filter((it) => it !== null);
  const features = await listedOf("parties", "object", objects, asked, signal, read);
  return new Map(features.map((it) => [it.properties.object, it.properties]));
}

function partsOfRights(title, rights, parties) {
  const rows = rights.features.map(({ properties: it }) => {
    const party = parties.get(it.party);
    const name = party?.name ?? it.party_name ?? `party ${it.party}`;
    const who = it.party === null ? "none" : linkButton(name, party ? `All that it holds; ${party.type}` : "All that it holds", () => choose("party", it.party));
    return { cells: [typeOf(it), who, shareOf(it), heldOf(it)] };
  });
  return [element("h3", {}, title), ...moreOf(rights), table(["type", "party", "share", "held"], rows)];
}

function moreOf({ features, isMore }) {
  return isMore ? [element("p", { className: "none" }, `The first ${features.length.toLocaleString("en")} are listed. More are left.`)] : [];
}

const typeOf = (it) => it.type + (it.party_required === true ? " (party required)" : "");
const shareOf = (it) => (it.share_num === null ? "" : `${it.share_num}/${it.share_den}`);
const heldOf = (it) => (it.end ? `${it.begin} to ${it.end}` : `from ${it.begin}`);

function unitButton(unit, text) {
  return linkButton(text, "Show this unit", () => choose("unit", unit));
}

/** Buttons of parcels, each once, with blanks between them. */
function parcelButtons(features) {
  const objects = new Map(features.map((it) => [it.properties.object, it.properties]));
  return [...objects.values()].flatMap((it) => [linkButton(it.label, `Show parcel ${it.label}, object ${it.object}`, () => choose("parcel", it.object)), " "]);
}

// ---- a party

/** All that a party holds on the day: each right with its unit and the unit's parcels, which are outlined. */
async function partyParts(party, { revision, datetime, requests }, signal) {
  const [read, asked] = [reader(requests), { revision, datetime }];
  const { features: versions } = await read("parties", { revision, filter: `object = ${party}` }, signal);
  if (!versions.length) return unknown("party", party, revision);
  const now = (versions.findLast((it) => holdsOn(it.properties, datetime)) ?? versions.at(-1)).properties;
  const held = {};
  for (const kind of Object.keys(KINDS)) held[kind] = await read(kind, { ...asked, filter: `party = ${party}` }, signal);
  const units = Object.values(held).flatMap((it) => it.features.map((right) => right.properties.unit));
  const names = new Map((await listedOf("units", "object", units, asked, signal, read)).map((it) => [it.properties.object, it.properties.name]));
  const parcels = await listedOf("parcels", "unit", units, asked, signal, read);
  const name = now.name ?? `party ${party}`;
  const outlined = drawable(parcels);
  const objects = new Set(parcels.map((it) => it.properties.object));
  const words = `${name} holds ${Object.keys(KINDS).map((kind) => `${held[kind].features.length.toLocaleString("en")} ${kind}`).join(", ")} ${onDay(datetime)}, in ${counted(objects.size, "parcel", "parcels")}.`;
  const parts = [
    element("h2", {}, name),
    element("p", {}, element("small", {}, `object ${party}, ${now.type}`)),
    element("p", { className: "none" }, words),
    ...fitButton(outlined),
    ...Object.keys(KINDS).flatMap((kind) => partsOfHeld(KINDS[kind], held[kind], names, parcels)),
  ];
  return { parts, outlined, words, unit: null };
}

function partsOfHeld(title, rights, names, parcels) {
  const rows = rights.features.map(({ properties: it }) => ({
    cells: [typeOf(it), shareOf(it), parcelButtons(parcels.filter((parcel) => parcel.properties.unit === it.unit)), unitButton(it.unit, names.get(it.unit) ?? `unit ${it.unit}`), heldOf(it)],
  }));
  return [element("h3", {}, title), ...moreOf(rights), table(["type", "share", "parcels", "unit", "held"], rows)];
}

// ---- the list

const MOST_LISTED = 200;

/** Lists the parcels in view, if the list is open. */
function writeList() {
  if (!by("list").open) return;
  const objects = new Map(shown.parcels.map((it) => [it.properties.object, it.properties]));
  const some = [...objects.values()].slice(0, MOST_LISTED);
  const rest = objects.size > some.length || shown.rest ? [element("p", { className: "none" }, `The first ${some.length} are listed: zoom in to see the others.`)] : [];
  const rows = some.map((it) => element("li", {}, linkButton(it.label, `Choose parcel ${it.label}`, () => choose("parcel", it.object, it.unit)), ` ${areaOf(it.area)}`));
  by("list").lastElementChild.replaceChildren(...rest, element("ul", {}, ...rows));
}
