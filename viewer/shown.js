// What the page shows: one value, which a successful answer replaces whole. The citation, the sheet, the files, the address and the panel are
// made from it, and never from the controls, in which there may be something that the server rejects.
"use strict";

/** What the controls said when the server accepted it, the view that was requested, and what came. Nothing was requested yet if `target` is empty. */
let shown = Object.freeze({
  /** The day, or "" for every day; the revision, or "" for the latest; the other revision, or ""; the filter. */
  asked: Object.freeze({ day: today(), revision: "", against: "", filter: "" }),
  view: null,
  target: "",
  revision: 0,
  /** The newest revision that is known. */
  inForce: 0,
  parcels: [],
  /** How many parcels came, and the target of the page after them. */
  came: 0,
  rest: null,
  /** Points of the parcels, if there are too many to draw. */
  density: null,
  /** The other revision of a comparison, its parcels, and what differs. */
  other: null,
});

function show(value) {
  shown = Object.freeze(value);
}

/** The parameters of a request for the same day, revision and filter as what is shown. */
function parametersShown() {
  return { datetime: shown.asked.day, filter: shown.asked.filter, revision: shown.revision };
}

function holdsOn({ begin, end }, day) {
  return !day || (begin <= day && (end === null || day <= end));
}

function onDay(day) {
  return day ? `on ${day}` : "on any day";
}

/** What is shown in one sentence or two. The status line, the citation, the sheet and the files have it. */
function wordsOf({ asked, parcels, revision, inForce, came, rest, density, other }) {
  const filter = asked.filter.trim();
  const held = (asked.day ? `held on ${asked.day}` : "ever held") + (filter ? ` and for which ${filter}` : "");
  const known = `as known at revision ${revision} of ${inForce}`;
  const count = parcels.length;
  const all = counted(came, "parcel", "parcels");
  if (other) return `${all}${rest ? " and more" : ""} in view that ${held}, ${known}, and ${other.parcels.length.toLocaleString("en")}${other.isMore ? " and more" : ""} as known at revision ${other.revision}.`;
  if (rest && count < MOST_SHAPES) return `${counted(count, "parcel", "parcels")} in view that ${held} came so far, ${known}.`;
  if (rest && came > count) return `${all} in view that ${held} are counted so far, ${known}.`;
  if (rest && density) return `More than ${all} in view that ${held}, ${known}. Their density is drawn, from one in ${density.one}: zoom in to see each.`;
  if (rest) return `The first ${counted(count, "parcel", "parcels")} in view that ${held} are drawn, ${known}. More are left: zoom in to see them.`;
  return `${all} in view that ${held}, ${known}.${density ? " Their density is drawn." : ""}`;
}
