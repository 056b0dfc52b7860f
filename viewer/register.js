// Requests to the server that the page came from, and small parts that all scripts of the page use.
"use strict";

const ON_A_PAGE = 1000;
const MOST_SHAPES = 5000;
const MOST_ROWS = 5000;
// Coordinates are whole millimetres, at most so many in each direction.
const FARTHEST = 100000000000;

/** What is wrong with a filter, and what would be right. */
const CAUSES = {
  Unterminated: "a quote is opened here and never closed: write another one at the end of the text or the name",
  StrangeCharacter: "nothing in a filter begins with this character: texts are in '..', and other names in \"..\"",
  TooLong: "a filter has at most 8,192 bytes",
  TooMany: "a filter has at most 2,000 words, numbers and signs",
  TooDeep: "at most 64 parentheses may be open at one time",
  NotExpected: "no filter goes on with this: between two conditions are AND or OR, as in area > 400 AND unit = 10",
  EndOfFilter: "the filter stops too early: something has to follow, as in area > 400",
  UnknownProperty: "parcels have no property of this name: write one of the names below",
  WrongKind: "this is of another kind than is needed here: texts are in '..', numbers are not, and days are DATE('2001-02-28')",
  NotADate: "this is no day of the calendar: days are written as 2001-02-28",
  NotWhole: "numbers are whole here: write one without a fraction",
  NumberTooLarge: "this number is too large",
  BadShape: "these coordinates make no point, polygon or box: write them as BBOX(0, 0, 20000, 20000)",
  EndsTurned: "this interval ends before it begins: write the earlier day first",
};

const by = (id) => document.getElementById(id);

/** A response whose status isn't 200. */
class Refused extends Error {
  constructor(status, body) {
    super(body.fault || `status ${status}`);
    this.status = status;
    this.body = body;
  }
}

/** A text of the address, or what is written in the field, that is no day. */
class NoDay extends Error {
  constructor(text) {
    super("no day");
    this.text = text;
  }
}

function targetOf(collection, parameters) {
  const given = Object.entries(parameters).filter(([, value]) => value !== "" && value !== null && value !== undefined);
  return `/collections/${collection}/items?${new URLSearchParams(given)}`;
}

async function page(target, signal) {
  const response = await fetch(target, { signal });
  const body = await response.json().catch((fault) => {
    if (response.ok) throw fault;
    return {};
  });
  signal?.throwIfAborted();
  if (!response.ok) throw new Refused(response.status, body);
  return body;
}

function nextOf(body) {
  return body.links.find((it) => it.rel === "next")?.href;
}

/** The features, page by page, at most 5,000, and whether more are left. */
async function listed(collection, parameters, signal) {
  const features = [];
  const first = targetOf(collection, { ...parameters, limit: ON_A_PAGE });
  let target = first;
  while (target && features.length < MOST_ROWS) {
    const body = await page(target, signal);
    features.push(...body.features);
    target = nextOf(body);
  }
  return { features, isMore: target !== undefined, target: first };
}

/** The features of a collection whose property is one of the numbers. */
async function listedOf(collection, property, numbers, parameters, signal, read = listed) {
  const distinct = [...new Set(numbers)];
  const features = [];
  for (let at = 0; at < distinct.length && features.length < MOST_ROWS; at += 500) {
    const some = distinct.slice(at, at + 500).join(", ");
    features.push(...(await read(collection, { ...parameters, filter: `${property} IN (${some})` }, signal)).features);
  }
  return features;
}

/** The day of the reader's own clock and time zone. */
function today() {
  const now = new Date();
  return `${String(now.getFullYear()).padStart(4, "0")}-${String(now.getMonth() + 1).padStart(2, "0")}-${String(now.getDate()).padStart(2, "0")}`;
}

const counted = (count, one, many) => `${count.toLocaleString("en")} ${count === 1 ? one : many}`;

/** An element with properties and children; texts are texts, never markup. */
function element(name, properties, ...children) {
  const made = Object.assign(document.createElement(name), properties);
  made.append(...children);
  return made;
}

function button(text, title, onclick) {
  return element("button", { type: "button", title, onclick }, text);
}

/** A button that looks like a link. */
function linkButton(text, title, onclick) {
  return Object.assign(button(text, title, onclick), { className: "link" });
}

function table(heads, rows) {
  if (!rows.length) return element("p", { className: "none" }, "None.");
  const head = element("tr", {}, ...heads.map((it) => element("th", { scope: "col" }, it)));
  const lines = rows.map(({ cells, isShown }) => element("tr", { className: isShown ? "shown" : "" }, ...cells.map((it) => element("td", {}, ...[it].flat()))));
  return element("table", {}, element("thead", {}, head), element("tbody", {}, ...lines));
}

/** Has a screen reader say a text. */
function say(text) {
  by("said").textContent = text;
}
