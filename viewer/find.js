// Finds parcels by label or object number, and units and parties by name or object number.
"use strict";

const MOST_FOUND = 20;
let finding = new AbortController();

/** A text as a pattern of LIKE, in quotes. A quote is written as \' since '' does not work after a backslash. */
function patternOf(text) {
  return `'${text.replace(/'/g, "\\'")}'`;
}

/** The filter of a collection for what was written: its number as the object, or its text in the name in any case, as all of it or anywhere. */
function findFilter(property, text, isWhole) {
  const plain = text.replace(/[\\%_]/g, "\\$&");
  const named = `CASEI(${property}) LIKE CASEI(${patternOf(isWhole ? plain : `%${plain}%`)})`;
  return isWhole && /^\d{1,10}$/.test(text) ? `object = ${text} OR ${named}` : named;
}

/** The objects that were found in a collection, first those with this very name or number: of each the version of the day, or its last one. */
async function foundIn(collection, property, text, signal) {
  // nothing has been shown yet while the page starts
  const asked = { revision: shown.target && shown.revision, limit: 200 };
  const search = (isWhole) => page(targetOf(collection, { ...asked, filter: findFilter(property, text, isWhole) }), signal);
  // no text can end with a backslash
  const pages = [...(text.endsWith("\\") ? [] : [await search(true)]), await search(false)];
  const objects = new Map();
  for (const it of pages.flatMap((it) => it.features)) {
    const { object } = it.properties;
    const isOfDay = (one) => holdsOn(one.properties, shown.asked.day);
    if (isOfDay(it) || !objects.has(object) || !isOfDay(objects.get(object))) objects.set(object, it);
  }
  const features = [...objects.values()];
  return { features: features.slice(0, MOST_FOUND), isMore: features.length > MOST_FOUND || pages.some((it) => nextOf(it) !== undefined) };
}

function foundButton(kind, feature, name) {
  const it = feature.properties;
  const more = holdsOn(it, shown.asked.day) ? "" : it.begin > shown.asked.day ? `, from ${it.begin} on` : `, until ${it.end}`;
  const text = [element("strong", {}, name ?? "without a name"), ` ${kind}, object ${it.object}${more}`];
  const made = button("", "", () => {
    closeFound();
    goToFound(kind, it.object);
  });
  made.replaceChildren(...text);
  return element("li", {}, made);
}

async function find() {
  const text = by("find").value.trim();
  finding.abort();
  finding = new AbortController();
  const { signal } = finding;
  if (!text) {
    closeFound();
    return;
  }
  try {
    const [parcels, units, parties] = [
      await foundIn("parcels", "label", text, signal),
      await foundIn("units", "name", text, signal),
      await foundIn("parties", "name", text, signal),
    ];
    const rows = [
      ...parcels.features.map((it) => foundButton("parcel", it, it.properties.label)),
      ...units.features.map((it) => foundButton("unit", it, it.properties.name)),
      ...parties.features.map((it) => foundButton("party", it, it.properties.name)),
    ];
    const isMore = parcels.isMore || units.isMore || parties.isMore;
    const words = rows.length ? `${counted(rows.length, "result", "results")}${isMore ? " and more: write more of the name" : ""}.` : `Nothing is called ${text} at revision ${shown.revision}.`;
    by("found").replaceChildren(element("p", { className: "hint" }, words), element("ul", {}, ...rows));
    by("found").hidden = false;
    say(words);
  } catch (fault) {
    if (fault.name === "AbortError") return;
    by("found").replaceChildren(element("p", { className: "hint" }, `The search failed: ${fault.message}.`));
    by("found").hidden = false;
  }
  if (!signal.aborted) by("found").removeAttribute("aria-busy");
}

function closeFound() {
  clearTimeout(find.timer);
  finding.abort();
  by("found").hidden = true;
  by("found").removeAttribute("aria-busy");
}

/** Chooses what was found, and brings it into view. */
async function goToFound(kind, object) {
  focusPanel();
  await choose(kind, object);
  if (chosen.kind !== kind || chosen.object !== object) return;
  fitOutlined();
}

function listenToFind() {
  by("find").addEventListener("input", () => {
    clearTimeout(find.timer);
    by("found").setAttribute("aria-busy", "true");
    find.timer = setTimeout(find, 200);
  });
  by("search").addEventListener("submit", async (event) => {
    event.preventDefault();
    clearTimeout(find.timer);
    if (by("found").hidden || by("found").hasAttribute("aria-busy")) await find();
    by("found").querySelector("button")?.click();
  });
  by("search").addEventListener("keydown", (event) => {
    const buttons = [...by("found").querySelectorAll("button")];
    const at = buttons.indexOf(document.activeElement);
    if (event.key === "Escape") {
      closeFound();
      by("find").focus();
    } else if (event.key === "ArrowDown") buttons[Math.min(at + 1, buttons.length - 1)]?.focus();
    else if (event.key === "ArrowUp") (buttons[at - 1] ?? by("find")).focus();
    else return;
    event.preventDefault();
  });
  by("search").addEventListener("focusout", (event) => {
    if (event.relatedTarget && !by("search").contains(event.relatedTarget)) closeFound();
  });
  document.addEventListener("pointerdown", (event) => {
    if (!by("search").contains(event.target)) closeFound();
  });
}
