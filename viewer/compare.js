// Two revisions side by side, and what changed between them: parcels in view, and what is registered for their units.
"use strict";

/** The collections that are compared. A change of one name would be seen in the others, so names of other objects are left out. */
const COMPARED = {
  parcels: { title: "Parcels", one: "parcel", left: ["unit_name"] },
  units: { title: "Units", one: "unit", left: [] },
  rights: { title: "Rights", one: "right", left: ["unit_name", "party_name"] },
  restrictions: { title: "Restrictions", one: "restriction", left: ["unit_name", "party_name"] },
  responsibilities: { title: "Responsibilities", one: "responsibility", left: ["unit_name", "party_name"] },
  parties: { title: "Parties", one: "party", left: [] },
};
const MOST_CHANGES = 500;

/** Which of the two a revision is, or null if one is shown alone. */
function sideOf(revision) {
  return shown.other && (revision === Math.min(shown.revision, shown.other.revision) ? "before" : "after");
}

/** Asks for the other revision, before the map gives room for it. */
async function needOther(number, signal) {
  if (number === "") return;
  try {
    await page(targetOf("parcels", { limit: 1, revision: number }), signal);
  } catch (fault) {
    if (fault instanceof Refused && fault.body.fault === "revision") fault.isOfOther = true;
    throw fault;
  }
}

/** The view before and after the panes were split. */
const split = { before: null, after: null };

/** Shows or hides the second map, whose size the first one shares. What was in view stays in view, unless the view is that of an address. */
function setPanes(isSplit, isOfAddress = false) {
  if (by("other-pane").hidden === !isSplit) return;
  const sides = sidesInView();
  const before = { ...view };
  by("other-pane").hidden = !isSplit;
  by("pane-name").hidden = !isSplit;
  by("pane-name").textContent = by("other-name").textContent = "";
  if (isOfAddress) return;
  const isAsItWas = split.after && ["x", "y", "scale"].every((it) => split.after[it] === view[it]);
  if (isSplit) fit(sides, 1);
  else if (isAsItWas) Object.assign(view, split.before);
  Object.assign(split, isSplit ? { before, after: { ...view } } : { before: null, after: null });
}

/** The parcels of a value's view at the other revision, and what differs. */
async function compared(value, signal) {
  const { day: datetime, filter: taken, against: number } = value.asked;
  const asked = { datetime, filter: taken, revision: number, bbox: new URLSearchParams(value.target.split("?")[1]).get("bbox") };
  const { features, isMore, target } = await listed("parcels", asked, signal);
  const other = { revision: Number(number), target, parcels: drawable(features), isMore, changes: null, requests: [] };
  if (isMore || value.rest) return Object.freeze({ ...other, changed: new Set() });
  const sides = [value, other].sort((one, two) => one.revision - two.revision);
  const [old, made] = await registered(sides, datetime, other.requests, signal);
  const changes = Object.fromEntries(Object.keys(COMPARED).map((name) => [name, changesOf(name, old[name], made[name])]));
  return Object.freeze({ ...other, changes, changed: new Set(changes.parcels.keys()) });
}

/** The parcels at each of the two revisions, and what is registered there for all units of both, and for the parties of these. */
async function registered(sides, datetime, requests, signal) {
  const read = reader(requests);
  const found = sides.map((it) => ({ parcels: it.parcels.map((parcel) => parcel.feature) }));
  const add = async (collection, property, objects) => {
    for (const [at, { revision: number }] of sides.entries()) found[at][collection] = await listedOf(collection, property, objects, { datetime, revision: number }, signal, read);
  };
  const ofAll = (collections, name) => found.flatMap((it) => collections.flatMap((one) => it[one].map((feature) => feature.properties[name])));
  const units = ofAll(["parcels"], "unit");
  await add("units", "object", units);
  for (const kind of Object.keys(KINDS)) await add(kind, "unit", units);
  const parties = ofAll(Object.keys(KINDS), "party").filter((it) => it !== null);
  await add("parties", "object", parties);
  return found;
}

/** What differs between two lists of features, by object: the last of its features as at the earlier and as at the later revision. */
function changesOf(collection, old, made) {
  const plain = ({ properties, geometry }) => [Object.entries(properties).filter(([name]) => !COMPARED[collection].left.includes(name)), geometry];
  const listOf = (features) => {
    const objects = new Map();
    for (const it of features) objects.set(it.properties.object, [...(objects.get(it.properties.object) ?? []), it]);
    return objects;
  };
  const text = (features) => JSON.stringify((features ?? []).map(plain));
  const [before, after] = [listOf(old), listOf(made)];
  const objects = [...new Set([...before.keys(), ...after.keys()])].filter((it) => text(before.get(it)) !== text(after.get(it)));
  return new Map(objects.map((it) => [it, { before: before.get(it)?.at(-1), after: after.get(it)?.at(-1) }]));
}

/** A change in words. */
function wordsOfChange(collection, { before, after }) {
  if (!before) return "only at the later revision";
  if (!after) return "only at the earlier revision";
  const words = collection === "parcels" ? differences(before, after) : plainDifferences(collection, before.properties, after.properties);
  const [from, to] = [before.properties, after.properties];
  if (from.number !== to.number) words.unshift(`version ${from.number} to ${to.number}`);
  else if (from.end !== to.end) words.unshift(`end ${from.end ?? "open"} to ${to.end ?? "open"}`);
  return words.join(", ");
}

/** What differs between two versions, by the names of their properties. */
function plainDifferences(collection, from, to) {
  const left = ["begin", "end", "number", "object", ...COMPARED[collection].left];
  const names = Object.keys(to).filter((it) => !left.includes(it) && from[it] !== to[it]);
  return names.map((it) => `${it.replaceAll("_", " ")} ${from[it] ?? "none"} to ${to[it] ?? "none"}`);
}

/** What a right, a party or another object is called in the list of changes, with a way to it if the panel can show it. */
function nameOfChanged(collection, object, { before, after }) {
  const it = (after ?? before).properties;
  // the panel shows it at the later revision, or at the earlier one if it is only there
  const number = (after ? Math.max : Math.min)(shown.revision, shown.other.revision);
  const way = (text, title, kind, one) => linkButton(text, title, () => choose(kind, one, null, number !== shown.revision));
  if (collection === "parcels") return way(it.label, "Show this parcel", "parcel", object);
  if (collection === "units") return way(it.name ?? `unit ${object}`, "Show this unit", "unit", object);
  if (collection === "parties") return way(it.name ?? `party ${object}`, "All that it holds", "party", object);
  return way(`${it.type}${shareOf(it) && ` ${shareOf(it)}`} of ${it.party_name ?? (it.party === null ? "nobody" : `party ${it.party}`)}`, "Show this unit", "unit", it.unit);
}

function changedPart(collection) {
  const { title, one } = COMPARED[collection];
  const rows = [...shown.other.changes[collection]].map(([object, it]) => ({ cells: [nameOfChanged(collection, object, it), wordsOfChange(collection, it)] }));
  if (!rows.length) return [];
  const rest = rows.length > MOST_CHANGES ? [element("p", { className: "none" }, `The first ${MOST_CHANGES} are listed.`)] : [];
  const made = element("div", { className: `changed ${collection}` }, element("h3", {}, `${title}: ${rows.length.toLocaleString("en")}`), ...rest, table([one, "what changed"], rows.slice(0, MOST_CHANGES)));
  return [made];
}

/** Writes the names of the two maps, and what changed between the revisions. */
function writeChanges() {
  const { other } = shown;
  if (writeChanges.written === other) return;
  writeChanges.written = other;
  by("changes").hidden = other === null;
  by("changes").replaceChildren();
  if (!other) return;
  by("pane-name").textContent = `Revision ${shown.revision}`;
  by("other-name").textContent = `Revision ${other.revision}`;
  // the earlier revision is the first one
  by("other-pane").classList.toggle("first", other.revision < shown.revision);
  const [low, high] = [shown.revision, other.revision].sort((one, two) => one - two);
  const title = element("h2", {}, `Revisions ${low} and ${high}`);
  if (!other.changes) {
    by("changes").replaceChildren(title, element("p", { className: "none" }, "More than 5,000 parcels are in view: zoom in to compare them."));
    return;
  }
  const count = other.changes.parcels.size;
  const more = Object.keys(COMPARED).slice(1).filter((it) => other.changes[it].size).map((it) => counted(other.changes[it].size, COMPARED[it].one, it));
  const words = `${counted(count, "parcel", "parcels")} in view changed between revisions ${low} and ${high}, ${onDay(shown.asked.day)}${more.length ? `, and of their units ${more.join(", ")}` : ""}.`;
  by("changes").replaceChildren(title, element("p", { className: "none" }, words), ...Object.keys(COMPARED).flatMap(changedPart));
  say(words);
}
