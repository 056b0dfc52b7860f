// A citation of what is shown: a link and requests that hold the revision, a sheet to print, and files.
"use strict";

const MOST_ON_SHEET = 1000;
const PLANE = "Coordinates are whole millimetres. The plane of the register has no reference system.";

/** The address of what is shown, at its revisions. */
function citedLink() {
  return `${location.origin}${location.pathname}#${addressOf({ revision: shown.revision, against: shown.other?.revision ?? "" })}`;
}

/** The address of a request, at this revision unless it names one. */
function citedRequest(target, number) {
  const url = new URL(target, location.origin);
  if (!url.searchParams.has("revision")) url.searchParams.set("revision", number);
  return url.href;
}

/** The requests that give the parcels again: that of the revision, and that of the other one. */
function citedRequests() {
  return [citedRequest(shown.target, shown.revision), ...(shown.other ? [citedRequest(shown.other.target, shown.other.revision)] : [])];
}

function fileName(ending) {
  const revisions = shown.other ? `revisions-${shown.revision}-and-${shown.other.revision}` : `revision-${shown.revision}`;
  return `parcels-${shown.asked.day || "every-day"}-${revisions}.${ending}`;
}

/** What a file says of itself. */
function notes() {
  const part = (parcels, isMore, number) => (isMore ? [`Only the first ${parcels.length} parcels at revision ${number} are in this file.`] : []);
  const isMore = shown.came > shown.parcels.length || shown.rest !== null;
  return [wordsOf(shown), ...part(shown.parcels, isMore, shown.revision), ...(shown.other ? part(shown.other.parcels, shown.other.isMore, shown.other.revision) : []), PLANE];
}

/** The parcels that are shown. Those of the other revision are in a member of their own. */
function geojsonText() {
  const [request, otherRequest] = citedRequests();
  const featuresOf = (parcels) => parcels.map((it) => it.feature);
  const about = { day: shown.asked.day || null, filter: shown.asked.filter.trim() || null, revision: shown.revision, request, note: notes().join(" ") };
  const other = shown.other && { compared: { revision: shown.other.revision, request: otherRequest, features: featuresOf(shown.other.parcels) } };
  return JSON.stringify({ type: "FeatureCollection", ...about, features: featuresOf(shown.parcels), ...other });
}

/** Rows as RFC 4180 has them, after lines that begin with #. The first column of a comparison is the revision. */
function csvText() {
  const cell = (it) => (/[",\r\n]/.test(it) ? `"${it.replaceAll('"', '""')}"` : it);
  const shapeOf = (rings) => `POLYGON (${rings.map((ring) => `(${ring.map((it) => it.join(" ")).join(", ")})`).join(", ")})`;
  const rowOf = ({ id, properties: it, rings }) => [id, it.label, it.area, it.unit, it.unit_name, it.begin, it.end, it.reference_point?.coordinates.join(" "), shapeOf(rings)];
  const heads = ["id", "label", "area_m2", "unit", "unit_name", "begin", "end", "reference_point_mm", "shape_mm"];
  const of = (number, parcels) => parcels.map((it) => [number, ...rowOf(it)]);
  const rows = shown.other
    ? [["revision", ...heads], ...of(shown.revision, shown.parcels), ...of(shown.other.revision, shown.other.parcels)]
    : [heads, ...shown.parcels.map(rowOf)];
  const about = [...notes(), ...citedRequests().map((it) => `Request: ${it}`)].map((it) => `# ${it.replace(/\s+/g, " ")}`);
  return [...about, ...rows.map((row) => row.map((it) => cell(String(it ?? ""))).join(","))].map((it) => `${it}\r\n`).join("");
}

/** Has a link save a text as a file. */
function linkFile(link, name, type, text) {
  URL.revokeObjectURL(link.href);
  link.download = name;
  link.href = URL.createObjectURL(new Blob([text], { type }));
}

function openCitation() {
  const [request, otherRequest] = citedRequests();
  by("cited").textContent = wordsOf(shown);
  by("link").value = citedLink();
  by("cited-request").value = request;
  by("cited-other").value = otherRequest ?? "";
  by("cited-of-other").hidden = !otherRequest;
  linkFile(by("csv"), fileName("csv"), "text/csv;charset=utf-8", csvText());
  linkFile(by("geojson"), fileName("geojson"), "application/json", geojsonText());
  by("copy").textContent = "Copy";
  by("citation").showModal();
}

async function copyLink() {
  by("link").select();
  try {
    await navigator.clipboard.writeText(by("link").value);
    by("copy").textContent = "Copied";
  } catch {
    by("copy").textContent = "Press Ctrl-C";
  }
}

// ---- the sheet

/** A map for the sheet, at the view that was requested, in light colours. */
function sheetMap(parcels, number) {
  const box = size();
  const made = element("canvas", { width: 1360, height: Math.round((1360 * Math.min(box.height, box.width * 1.1)) / box.width) });
  const pen = made.getContext("2d");
  const ratio = 1360 / box.width;
  pen.scale(ratio, ratio);
  const paper = { width: box.width, height: made.height / ratio };
  paint(pen, parcels, { colours: coloursOf(by("sheet")), side: sideOf(number), place: placing(paper, shown.view), scale: shown.view.scale, box: paper });
  const { pixels, text } = roundLength(120, shown.view.scale);
  const scale = element("p", { className: "length" }, text);
  scale.style.width = `${(100 * pixels) / box.width}%`;
  const name = shown.other ? [element("figcaption", {}, `Revision ${number}`)] : [];
  return element("figure", {}, ...name, made, scale);
}

function sheetMaps() {
  const maps = [[shown.parcels, shown.revision], ...(shown.other ? [[shown.other.parcels, shown.other.revision]] : [])];
  return maps.sort((one, two) => one[1] - two[1]).map(([parcels, number]) => sheetMap(parcels, number));
}

/** A part of the page without its controls. */
function sheetPart(part) {
  const copy = part.cloneNode(true);
  copy.removeAttribute("id");
  copy.querySelectorAll(".bars, .hint, details:not([open]), summary").forEach((it) => it.remove());
  copy.querySelectorAll("button").forEach((it) => it.replaceWith(it.textContent));
  copy.querySelectorAll("p").forEach((it) => it.textContent === "Bring into view" && it.remove());
  return copy;
}

function sheetList() {
  const some = shown.parcels.slice(0, MOST_ON_SHEET);
  const rows = some.map(({ properties: it }) => ({ cells: [it.label, String(it.object), it.unit_name ?? String(it.unit), areaOf(it.area), it.begin, it.end ?? "open"] }));
  const rest = some.length < shown.parcels.length || shown.rest ? [element("p", {}, `The first ${some.length} are listed.`)] : [];
  const title = shown.other ? `Parcels in view at revision ${shown.revision}` : "Parcels in view";
  return [element("h2", {}, title), ...rest, table(["label", "object", "unit", "area", "from", "to"], rows)];
}

/** Writes the sheet for what the page shows now. The panel is on it if it was read for this day and revision. */
function writeSheet() {
  const isWhole = isPanelOfShown();
  const ofPanel = isWhole ? chosen.requests.map((it) => citedRequest(it, shown.revision)) : [];
  const requests = [...citedRequests(), ...ofPanel, ...(shown.other?.requests ?? []).map((it) => citedRequest(it, shown.revision))];
  const revisions = shown.other ? `Revisions: ${shown.revision} and ${shown.other.revision}` : `Revision: ${shown.revision}`;
  by("sheet").replaceChildren(
    element("h1", {}, "Land register"),
    element("p", {}, wordsOf(shown)),
    element("p", {}, `${shown.asked.day ? `Day: ${shown.asked.day}` : "Every day"}. ${revisions}. Printed on ${today()}.`),
    ...sheetMaps(),
    ...(shown.other ? [sheetPart(by("changes"))] : []),
    ...(isWhole ? [sheetPart(by("panel"))] : []),
    ...sheetList(),
    element("h2", {}, "Where this comes from"),
    element("p", {}, "This link shows the view again: ", element("span", { className: "address" }, citedLink())),
    element("p", {}, "These requests give the data again:"),
    element("ol", { className: "address" }, ...requests.map((it) => element("li", {}, it))),
    element("p", {}, PLANE),
  );
}

function listenToCitation() {
  by("cite").addEventListener("click", openCitation);
  by("copy").addEventListener("click", copyLink);
  by("print").addEventListener("click", () => {
    by("citation").close();
    print();
  });
  addEventListener("beforeprint", writeSheet);
}
