"""The checks of viewer/ that scripts/check_viewer runs besides its own: finding, who holds what, time, citations, and ways to operate the page.

Each function gets the page and the contents of the register. It ends the run at the first difference.
"""
import csv
import io
import json
import re
import time
from datetime import datetime, timedelta, timezone
from urllib.parse import urlencode, urlsplit

import quoting
import served
from viewing import HEIGHT, WIDTH, fails, need

DAY = "2024-06-01"
KINDS = ("rights", "restrictions", "responsibilities")


def holds_on(feature, day):
    it = feature["properties"]
    return it["begin"] <= day <= (it["end"] or "9999")


def held_on(features, day):
    return [it for it in features if it["geometry"] and holds_on(it, day)]


def middle(feature):
    xs, ys = zip(*feature["geometry"]["coordinates"][0])
    return [(min(xs) + max(xs)) / 2, (min(ys) + max(ys)) / 2]


def texts(page, selector):
    return page.at.value(f"[...document.querySelectorAll({json.dumps(selector)})].map((it) => it.textContent)")


def press(page, selector, text=""):
    """Clicks the first element with the selector and the text."""
    found = f"[...document.querySelectorAll({json.dumps(selector)})].find((it) => it.textContent.includes({json.dumps(text)}))"
    if not page.at.value(f"const it = {found}; it?.click(); return it !== undefined;".join(("(() => {", "})()"))):
        fails(f"the page has no {selector} with {text}")
    page.settle()


def is_middle(page, point):
    """Whether a point is in the middle of the map, to the pixel."""
    return page.at.value(f"(() => {{ const [x, y] = toScreen({json.dumps(point)}); const box = size(); return Math.hypot(x - box.width / 2, y - box.height / 2) < 1; }})()")


# ---- finding

def check_find(page, everything):
    """Checks that parcels, units and parties are found by name in any case of letters and by number, and that the map goes there."""
    page.open(f"day={DAY}")
    page.put("find", "10/2")
    labels = {it["properties"]["object"]: it["properties"]["label"] for it in everything["parcels"] if "10/2" in it["properties"]["label"]}
    need(sorted(texts(page, "#found strong")), sorted(labels.values()), "what 10/2 finds")
    press(page, "#found button", "10/2")
    found = next(it for it in held_on(everything["parcels"], DAY) if it["properties"]["label"] == "10/2")
    need([texts(page, "#panel h2"), is_middle(page, middle(found))], [["Parcel 10/2"], True], "the parcel that was found")
    need([page.at.value("view.scale < 300"), page.at.value("document.getElementById('found').hidden")], [True, True], "the map at the parcel")
    for text, kind, first in (("94", "parcel", "object 94"), ("1000068", "unit", "object 1000068"), ("ANA STRASSE", "party", "Ana Straße"), ("mill PARK", "unit", "Mill Park")):
        page.put("find", text)
        if not any(kind in it and first in it for it in texts(page, "#found li")[:1]):
            fails(f"{text} finds {texts(page, '#found li')[:3]}")
    for text in ("%", "_", "o'x", "\\", "\\'", "' OR '' = '"):
        page.put("find", text)
        need(texts(page, "#found li"), [], f"what {text} finds")
        if not page.text("found").startswith("Nothing is called"):
            fails(f"{text}: {page.text('found')}")
    page.put("find", "mill park")
    press(page, "#found button")
    need(texts(page, "#panel h2"), [next(f"Unit {it['properties']['object']}: Mill Park" for it in everything["units"] if it["properties"]["name"] == "Mill Park")], "a unit")


# What the functions of a page make of texts, or nothing where they refuse one.
QUOTED = """((texts) => {
  %s
  const tried = (call, text) => {
    try {
      return call(text);
    } catch {
      return null;
    }
  };
  return texts.map((it) => [tried(quoted, it), tried(pattern, it)]);
})(%s)"""


def check_quoting(page):
    """Checks that the functions in JavaScript of docs/FILTERS.md write what those in Python write, and that the server takes it."""
    every = [it for it in quoting.texts() if len(it) != 5]
    wanted = [[quoting.written(call, it) for call in quoting.in_python()] for it in every]
    found = page.at.value(QUOTED % (quoting.functions("JavaScript"), json.dumps(every)))
    for text, one, other in zip(every, found, wanted):
        need(one, other, f"{text!r} in JavaScript and in Python")
    for text, (plain, pattern) in list(zip(every, wanted))[:: len(every) // 20]:
        if plain is not None:
            served.get(page.server, "/collections/parcels/items?" + urlencode({"limit": 1, "filter": f"label = {plain} OR label LIKE {pattern}"}))


def side_of(box, sides):
    """The side on which a box is outside of the view."""
    upright = "above" if box[1] > sides["high"] else "below" if box[3] < sides["low"] else ""
    across = "to the right" if box[0] > sides["right"] else "to the left" if box[2] < sides["left"] else ""
    return " ".join(filter(None, (upright, across)))


def check_outside(page, everything):
    """Checks that the page counts by side the parcels of a filter outside of the view, and that All brings them into view."""
    page.open(f"day={DAY}")
    page.put("find", "14/1")
    press(page, "#found button", "14/1")
    page.put("filter", "area > 900")
    taken = [it for it in held_on(everything["parcels"], DAY) if (it["properties"]["area"] or 0) > 900]
    sides = page.at.value("sidesInView()")
    counts = {}
    for it in taken:
        xs, ys = zip(*it["geometry"]["coordinates"][0])
        side = side_of((min(xs), min(ys), max(xs), max(ys)), sides)
        counts[side] = counts.get(side, 0) + 1
    counts.pop("", None)
    told = page.text("outside")
    need(told.split(" ")[0], str(len(taken) - int(page.at.value("canvas.dataset.drawn"))), f"how many lie outside: {told}")
    need(dict((side, int(count)) for count, side in re.findall(r"(\d+) ((?:above|below|to the)[a-z ]*)", told.partition(":")[2])), counts, "where they lie")
    press(page, "#outside button")
    need([page.text("outside"), page.at.value("canvas.dataset.drawn")], ["", str(len(taken))], "all that the filter takes")
    page.put("filter", "label = '1/1'")
    page.press("whole")
    found = next(it for it in held_on(everything["parcels"], DAY) if it["properties"]["label"] == "1/1")
    need([is_middle(page, middle(found)), page.at.value("view.scale < 100")], [True, True], "All with a filter")
    page.put("filter", "area < 0")
    need(page.text("outside"), "The filter takes no parcel at all.", "a filter that takes nothing")


# ---- who holds what

def check_party(page, everything):
    """Checks the way from a right to its party, and to all that the party holds on the day."""
    page.open(f"day={DAY}&parcel=94")
    right = next(it["properties"] for it in everything["rights"] if it["properties"]["unit"] == 1000068 and holds_on(it, DAY))
    press(page, "#panel td button", right["party_name"])
    held = {kind: [it["properties"] for it in everything[kind] if it["properties"]["party"] == right["party"] and holds_on(it, DAY)] for kind in KINDS}
    units = {it["unit"] for kind in KINDS for it in held[kind]}
    parcels = [it for it in held_on(everything["parcels"], DAY) if it["properties"]["unit"] in units]
    need(texts(page, "#panel h2"), [right["party_name"]], "the party")
    need(page.at.value("document.querySelectorAll('#panel tbody tr').length"), sum(map(len, held.values())), "what it holds")
    need(page.at.value("chosen.outlined.map((it) => it.id).sort()"), sorted(it["id"] for it in parcels), "its parcels on the map")
    rows = page.at.value("[...document.querySelectorAll('#panel table')[0].tBodies[0].rows].map((it) => [it.cells[0].textContent, it.cells[1].textContent, it.cells[2].textContent.trim()])")
    labels = lambda unit: " ".join(it["properties"]["label"] for it in parcels if it["properties"]["unit"] == unit)
    need(rows, [[it["type"], f"{it['share_num']}/{it['share_den']}", labels(it["unit"])] for it in held["rights"]], "its rights, their shares and parcels")
    held_colour = colour_of(page, ".key.held")
    for it in parcels[:10]:
        need(page.colour(it["geometry"]["coordinates"][0][0])[:3], held_colour, f"the outline of {it['properties']['label']}")
    press(page, "#panel td button", parcels[0]["properties"]["label"])
    need(texts(page, "#panel h2"), [f"Parcel {parcels[0]['properties']['label']}"], "a parcel that it holds")


def colour_of(page, selector):
    """The colour of the edge of a sign in the legend."""
    return [int(it) for it in re.findall(r"\d+", page.at.value(f"getComputedStyle(document.querySelector({json.dumps(selector)})).borderTopColor"))[:3]]


# ---- time

def check_bars(page, everything):
    """Checks that a parcel's versions are bars by day, and that a click on a bar shows its day."""
    page.open(f"day={DAY}&parcel=94")
    versions = [it["properties"] for it in everything["parcels"] if it["properties"]["object"] == 94]
    box = lambda selector: page.at.value(f"[...document.querySelectorAll({json.dumps(selector)})].map((it) => {{ const box = it.getBoundingClientRect(); return [box.left, box.right]; }})")
    [[left, right]], bars, [line] = box(".lanes"), box(".bar"), box(".of-day")
    number = lambda text: datetime.fromisoformat(text).toordinal()
    first, last = number(versions[0]["begin"]), number(page.at.value("today()"))
    where = lambda text: left + (right - left) * (number(text) - first) / (last - first)
    need(len(bars), len(versions), "bars")
    wanted = [(where(it["begin"]), where(it["end"]) if it["end"] else right) for it in versions]
    if any(abs(found - place) > 4 for bar, ends in zip(bars, wanted) for found, place in zip(bar, ends)) or abs(sum(line) / 2 - where(DAY)) > 4:
        fails(f"bars at {bars} and {line}, not {wanted}")
    press(page, ".bar")
    need([page.at.value("day.value"), texts(page, "#panel tr.shown td")[0]], [versions[0]["begin"]] * 2, "a day by its bar")


def check_history(page, lines):
    """Checks that the list of a parcel's changes has the revisions of its lines, and says what each changed."""
    page.open(f"day={DAY}&parcel=94")
    press(page, "#panel .history summary")
    mine = [str(at) for at, it in enumerate(lines, 1) if json.loads(it)["object"] == 94]
    rows = page.at.value("[...document.querySelectorAll('.history tbody tr')].map((it) => [it.cells[0].textContent, it.cells[1].textContent])")
    need([it[0] for it in rows], mine, "revisions of the parcel")
    need([rows[0][1].startswith("entered from 1990-02-17"), "area 994 m² to 993 m²" in rows[1][1]], [True, True], f"what changed: {rows}")
    press(page, ".history td button", mine[0])
    need(page.text("revision-of").split(" ")[0], mine[0], "a revision of the parcel")


# What the comparison leaves out: a name of another object is compared where that object is.
NAMES = {"unit_name", "party_name"}


def changed(one, other):
    """The objects whose features differ, in either direction."""
    plain = lambda it: (it["id"], json.dumps([{name: value for name, value in it["properties"].items() if name not in NAMES}, it["geometry"]], sort_keys=True))
    return sorted({it["properties"]["object"] for some, others in ((one, other), (other, one)) for it in some if plain(it) not in {plain(more) for more in others}})


def check_registered(page, number, past, older):
    """Checks that the comparison has the rights, restrictions, responsibilities and parties of the units in view that differ."""
    sides = [{name: [it for it in features if holds_on(it, DAY)] for name, features in side.items()} for side in (older, past)]
    units = {it["properties"]["unit"] for side in sides for it in held_on(side["parcels"], DAY)}
    parties = {it["properties"]["party"] for side in sides for kind in KINDS for it in side[kind] if it["properties"]["unit"] in units}
    of_view = lambda name, it: it["properties"]["object"] in {"units": units, "parties": parties}[name] if name in ("units", "parties") else it["properties"]["unit"] in units
    found = {}
    for name in ("units", *KINDS, "parties"):
        wanted = changed(*([it for it in side[name] if of_view(name, it)] for side in sides))
        found[name] = len(wanted)
        need(page.at.value(f"[...shown.other.changes.{name}.keys()].sort((one, two) => one - two)"), wanted, f"{name} that changed between revisions {number - 60} and {number}")
        need(len(texts(page, f"#changes .{name} tbody tr")), len(wanted), f"{name} in the list of changes")
    need(found["rights"] > 0, True, f"rights to look at: {found}")


def amendments(lines):
    """Three lines after those of a village: a party gets another name, a right another share, and another right ends."""
    rights = [it for it in map(json.loads, lines) if "right" in it and it["do"] == "enter" and it["right"].get("party") and it["right"].get("share") == [1, 2]]
    first, other = rights[0], next(it for it in rights if it["right"]["party"] != rights[0]["right"]["party"])
    party = next(it for it in map(json.loads, lines) if it["object"] == first["right"]["party"])
    made = [{"do": "amend", "object": party["object"], "first": "2025-01-01", "party": {**party["party"], "name": "Renamed"}},
            {"do": "amend", "object": first["object"], "first": "2025-01-01", "right": {**first["right"], "share": [1, 3]}},
            {"do": "retire", "object": other["object"], "last": "2025-01-31"}]
    return [json.dumps(it, ensure_ascii=False) for it in made]


def check_amendments(page, lines):
    """Checks that a comparison shows what these lines changed, and nothing else."""
    party, _, ended = (json.loads(it)["object"] for it in lines[-3:])
    name = next(it["party"]["name"] for it in map(json.loads, lines) if it["object"] == party)
    type_of = {it["object"]: it["right"]["code"] for it in map(json.loads, lines[:-3]) if "right" in it}
    page.open(f"day=2025-06-01&revision={len(lines)}&against={len(lines) - 3}")
    rows = lambda kind: page.at.value(f"[...document.querySelectorAll('#changes .{kind} tbody tr')].map((it) => [it.cells[0].textContent, it.cells[1].textContent])")
    need([rows("parcels"), rows("parties")], [[], [["Renamed", f"version 1 to 2, name {name} to Renamed"]]], "a party with another name")
    need(rows("rights")[0][1:], ["version 1 to 2, share den 2 to 3"], f"a right with another share: {rows('rights')}")
    need([rows("rights")[1][0].startswith(type_of[ended]), rows("rights")[1][1], len(rows("rights"))], [True, "only at the earlier revision", 2], f"a right that ended: {rows('rights')}")
    need([it for it in (f"revision={len(lines)}", f"revision={len(lines) - 3}", "/collections/rights/", "/collections/parties/") if it not in page.at.value("writeSheet(), document.getElementById('sheet').textContent")], [], "requests for rights and parties on the sheet")


def check_compare(page, everything, number, before, after):
    """Checks two revisions side by side, with the changed parcels in two colours. `before` and `after` have what the register had there."""
    older, past = before["parcels"], after["parcels"]
    page.open(f"day={DAY}&revision={number}")
    page.press("whole")
    drawn = int(page.at.value("canvas.dataset.drawn"))
    page.put("against", str(number - 60))
    need(int(page.at.value("canvas.dataset.drawn")), drawn, "parcels in view, after the map got half of its room")
    sentence = page.text("status")
    need([f"revision {number} of" in sentence, f"revision {number - 60}." in sentence], [True, True], f"the revisions in {sentence}")
    check_registered(page, number, after, before)
    old = {it["id"]: it for it in held_on(older, DAY)}
    new = {it["id"]: it for it in held_on(past, DAY)}
    inside = lambda it: page.at.value(f"(([x, y]) => {{ const box = sidesInView(); return box.left < x && x < box.right && box.low < y && y < box.high; }})({json.dumps(middle(it))})")
    differ = changed(list(old.values()), list(new.values()))
    gone = [it for it in new.values() if it["properties"]["object"] in differ and inside(it)]
    need(len(differ) > 5 and len(gone) > 5, True, "changes to look at")
    need(len(texts(page, "#changes .parcels tbody tr")), len(differ), "changes in view")
    need(page.text("changes").startswith(f"Revisions {number - 60} and {number}{len(differ)} parcels in view changed"), True, page.text("changes"))
    boxes = page.at.value("['other', 'canvas'].map((it) => { const box = document.getElementById(it).getBoundingClientRect(); return [box.left, box.width]; })")
    need([boxes[0][0] < boxes[1][0], abs(boxes[0][1] - boxes[1][1]) < 1], [True, True], "the earlier revision on the left")
    later = colour_value(page, "--after")
    for it in gone[:5]:
        need(page.colour(below_label(it))[:3], later, f"a changed parcel {it['properties']['label']}")
    same = next(it for it in new.values() if old.get(it["id"]) == it and inside(it))
    need([page.colour(below_label(same))[:3], page.colour(below_label(same), "other")[:3]], [colour_value(page, "--unchanged")] * 2, "a parcel that did not change")
    # one command measured parcel 94 again
    page.open(f"day={DAY}&revision=370&against=369")
    need(page.at.value("[...document.querySelectorAll('#changes td')].map((it) => it.textContent)"), ["10/2", "version 1 to 2, area 994 m² to 993 m², reference point"], "what one command changed")
    mine = next(it for it in everything["parcels"] if it["id"] == "94.2")
    need([page.colour(below_label(mine), "other")[:3], page.colour(below_label(mine))[:3]], [colour_value(page, "--before"), later], "a parcel at both revisions")
    # object 94 was entered by command 94
    entered = next(it["properties"]["label"] for it in everything["parcels"] if it["properties"]["object"] == 94)
    page.open(f"day={DAY}&revision=370&against=0&parcel=94")
    need(texts(page, "#panel h2"), [f"Parcel {entered}"], "a parcel of the first map")
    page.open(f"day={DAY}&revision=0&against=370")
    click_other(page, mine)
    need(texts(page, "#panel h2"), [f"Parcel {entered}"], "a parcel that is only on the other map")
    page.press("alone")
    need(page.at.value("document.getElementById('other-pane').hidden && document.getElementById('changes').hidden"), True, "one revision again")


def click_other(page, feature):
    """Clicks a parcel on the map of the other revision."""
    x, y = page.at.value(f"(() => {{ const box = document.getElementById('other').getBoundingClientRect(); const [x, y] = toScreen({json.dumps(below_label(feature))}); return [box.left + x, box.top + y]; }})()")
    page.at.click(x, y)
    page.settle()


def below_label(feature):
    xs, ys = zip(*feature["geometry"]["coordinates"][0])
    return [sum(xs[:-1]) / (len(xs) - 1), min(ys) * 0.75 + max(ys) * 0.25]


def colour_value(page, name):
    text = page.at.value(f"getComputedStyle(document.documentElement).getPropertyValue('{name}')").strip()
    return [int(text[at : at + 2], 16) for at in (1, 3, 5)]


def check_today(page):
    """Checks that today is the day of the reader's own time zone."""
    for zone, hours in (("Pacific/Kiritimati", 14), ("Pacific/Pago_Pago", -11)):
        page.at.send("Emulation.setTimezoneOverride", timezoneId=zone)
        page.open("revision=5")
        mine = (datetime.now(timezone.utc) + timedelta(hours=hours)).strftime("%Y-%m-%d")
        need(page.at.value("day.value"), mine, f"the first day in {zone}")
        page.put("day", DAY, "change")
        page.press("today")
        need(page.at.value("day.value"), mine, f"today in {zone}")
    page.at.send("Emulation.setTimezoneOverride", timezoneId="")


# ---- faults

def fault_at(page, name):
    """The message at a control, where it is visible and in the colour of faults, and the control is marked."""
    place = "fault" if name == "filter" else f"{name}-fault"
    looks = page.at.value(f"(() => {{ const it = document.getElementById('{place}'); const box = it.getBoundingClientRect(); const control = document.getElementById('{name}').getBoundingClientRect(); "
                          f"return [it.textContent, getComputedStyle(it).color, box.height > 0 && Math.abs(box.top - control.bottom) < 60, document.getElementById('{name}').getAttribute('aria-invalid')]; }})()")
    text, colour, is_near, is_invalid = looks
    red, green, blue = (int(it) for it in re.findall(r"\d+", colour)[:3])
    return text if red > 2 * max(green, blue) and is_near and is_invalid == "true" else ""


def check_faults(page, everything, last):
    """Checks that a control with a fault has a message at its place, and that the page goes on with what was accepted, also from a link."""
    count = lambda day: f"{len(held_on(everything['parcels'], day)):,} parcels in view that held on {day}, as known at revision {last} of {last}."
    page.open(f"day={DAY}&filter=area+%3E+1200+AND")
    need([page.text("status"), fault_at(page, "filter").partition(":")[0]], [count(DAY), "EndOfFilter at byte 15"], "a link with a filter that has a fault")
    need("without a filter" in page.text("fault"), True, f"what the map shows: {page.text('fault')}")
    page.put("day", "1999-01-01", "change")
    need(page.text("status"), count("1999-01-01"), "another day, with a filter that has a fault")
    page.put("filter", "areas > 5")
    need(page.at.value("(() => { const it = document.getElementById('names'); return [it.getBoundingClientRect().height > 0, it.textContent.includes('area,')]; })()"), [True, True], "the list of names at an unknown property")
    page.open("day=2024-02-31")
    need([page.text("status"), "2024-02-31 is no day" in fault_at(page, "day")], [count(page.at.value("today()")), True], "a link with a day that is none")
    page.open(f"day={DAY}")
    for name, text, words in (("revision", str(last + 1), f"a number from 0 to {last}"), ("revision", "x", f"a number from 0 to {last}"), ("against", str(last + 1), f"a number from 0 to {last}"), ("against", "-1", f"a number from 0 to {last}")):
        page.put(name, text)
        need([page.text("status"), words in fault_at(page, name)], [count(DAY), True], f"{name} {text}: {page.text(name + '-fault')}")
        need(page.at.value("document.getElementById('other-pane').hidden"), True, "no second map")
        page.put(name, "")
        need(page.text(f"{name}-fault"), "", f"{name} without a fault")
    page.at.complaints[:] = [it for it in page.at.complaints if "400" not in it]


# ---- citations

def check_address_moves(page, last):
    """Checks that the page follows its address, also back and forward, and that moves of the map make no entries in the history."""
    page.open(f"day={DAY}")
    first = page.text("status")
    page.press("earlier")
    page.at.value("zoom(0.9)")
    page.settle()
    page.put("day", "1999-01-01", "change")
    second = page.text("status")
    for step, wanted in ((-1, f"held on {DAY}"), (-1, f"revision {last} of"), (1, f"revision {last - 1} of"), (1, "held on 1999-01-01")):
        page.at.value(f"history.go({step})")
        page.settle()
        if wanted not in page.text("status"):
            fails(f"after {step} in the history: {page.text('status')}, not {wanted}")
    page.at.value(f"location.hash = 'day={DAY}&parcel=94'")
    page.settle()
    need([page.text("status"), texts(page, "#panel h2")], [first, ["Parcel 10/2"]], "the page by a new address")
    need(second != first, True, "another day")


def check_citation(page, last, folder):
    """Checks that the link and the request hold the revision, and that files have what is shown, in whole millimetres."""
    page.open(f"day={DAY}&filter=area+%3E+500")
    page.at.downloads(folder)
    page.press("cite")
    link, request = page.at.value("[document.getElementById('link').value, document.getElementById('cited-request').value]")
    need([f"revision={last}" in it for it in (link, request)], [True, True], f"the revision in {link} and {request}")
    features = served.get(page.server, urlsplit(request)._replace(scheme="", netloc="").geturl())["features"]
    need(len(features), int(page.at.value("canvas.dataset.drawn")), "features of the request")
    for kind in ("csv", "geojson"):
        page.press(kind)
    names = [folder / f"parcels-{DAY}-revision-{last}.{kind}" for kind in ("csv", "geojson")]
    end = time.monotonic() + 20
    while not all(it.exists() and it.stat().st_size for it in names):
        if time.monotonic() > end:
            fails(f"files: {[it.name for it in folder.iterdir()]}")
        time.sleep(0.1)
    table, tree = names[0].read_bytes().decode(), json.loads(names[1].read_bytes())
    need(tree["features"], features, "GeoJSON")
    for text in (table.splitlines()[1], tree["note"]):
        if "whole millimetres. The plane of the register has no reference system" not in text:
            fails(f"a file says {text}")
    rows = list(csv.reader(io.StringIO("".join(it + "\n" for it in table.splitlines() if not it.startswith("#")))))
    need(rows[0][:3], ["id", "label", "area_m2"], "the head of the table")
    need([(it[0], it[1], it[-1]) for it in rows[1:]], [(it["id"], it["properties"]["label"], shape_of(it)) for it in features], "rows of the table")
    before = page.text("status")
    page.open(link.partition("#")[2])
    need([page.text("status"), page.at.value("revision.value")], [before, str(last)], "the page by its citation")


def shape_of(feature):
    rings = ", ".join("(" + ", ".join(f"{x} {y}" for x, y in ring) + ")" for ring in feature["geometry"]["coordinates"])
    return f"POLYGON ({rings})"


def check_sheet(page, everything, last, folder):
    """Checks that the sheet is A4 and has the map, the day, the revision, the list, the panel, the requests and the date of print."""
    page.open(f"day={DAY}&parcel=94")
    data = page.at.pdf()
    pages = len(re.findall(rb"/Type /Page\b", data))
    box = re.search(rb"/MediaBox \[0 0 ([\d.]+) ([\d.]+)\]", data)
    need([round(float(it)) for it in box.groups()], [595, 842], "the paper")
    need(3 <= pages <= 12, True, f"{pages} pages")
    page.at.media("print")
    text = page.at.value("document.body.innerText")
    labels = [it["properties"]["label"] for it in held_on(everything["parcels"], DAY)]
    need([it for it in labels if it not in text], [], "labels of the sheet")
    words = [f"Day: {DAY}. Revision: {last}.", f"Printed on {page.at.value('today()')}", "Parcel 10/2", "Léa Martin", "1/2", "no reference system", f"revision={last}", "/collections/parcels/items?"]
    need([it for it in words if it not in text], [], "words of the sheet")
    need([it for it in ("Cite, print", "Bring into view", "Legend") if it in text], [], "controls on the sheet")
    need(page.at.value("(() => { const it = document.querySelector('#sheet canvas'); return new Set(it.getContext('2d').getImageData(0, 0, it.width, it.height).data).size > 50; })()"), True, "the map of the sheet")
    page.at.media()
    (folder / "sheet.pdf").write_bytes(data)
    page.open(f"day={DAY}&revision=370&against=369")
    text = page.at.value("writeSheet(), document.getElementById('sheet').textContent")
    need([it for it in ("Revisions 369 and 370", "version 1 to 2", "revision=369", "revision=370") if it not in text], [], "a comparison on the sheet")


# ---- ways to operate the page

CUT = """[...document.querySelectorAll("body *")].filter((it) => {
  const box = it.getBoundingClientRect();
  return box.width > 1 && it.id !== "said" && !it.closest("#marks") && (box.left < -0.5 || box.right > innerWidth + 0.5);
}).map((it) => `${it.tagName} ${it.id}`)"""


# How much of the screen the head takes, which buttons lie over a map, and the least air between two rows of controls.
ROOM = """(() => {
  const box = (it) => it.getBoundingClientRect();
  const meet = (one, other) => one.left < other.right && other.left < one.right && one.top < other.bottom && other.top < one.bottom;
  const maps = [...document.querySelectorAll("canvas")].map(box).filter((it) => it.width > 0);
  const over = [...document.querySelectorAll("#map button, #map summary")].filter((it) => maps.some((map) => meet(box(it), map))).map((it) => it.id || it.tagName);
  const rows = [...document.querySelectorAll("#asked .control")].map(box).filter((it) => it.height > 0).sort((one, other) => one.top - other.top);
  const air = rows.slice(1).map((it, at) => it.top - Math.max(...rows.slice(0, at + 1).filter((one) => one.top < it.top - 1).map((one) => one.bottom), -Infinity)).filter((it) => Number.isFinite(it));
  return { head: box(document.querySelector("header")).height / innerHeight, over, rows: rows.length, air: Math.min(...air, 1000) };
})()"""


def check_room(page):
    """Checks that the controls of a phone are folded to a line and a button, and have air between them; and that no button lies over the map."""
    folded = page.at.value(ROOM)
    need([folded["head"] < 0.2, folded["over"], folded["rows"]], [True, [], 0], f"the room of the controls: {folded}")
    page.press("fold")
    opened = page.at.value(ROOM)
    need([opened["over"], opened["rows"], opened["air"] >= 10, page.at.value(CUT)], [[], 4, True, []], f"the controls: {opened}")
    page.press("fold")
    need(page.at.value(ROOM)["rows"], 0, "the controls, folded again")


def check_phone(page, everything, picture):
    """Checks that nothing is cut off at 390 by 844, and that fingers zoom, scroll and choose."""
    page.at.resize(390, 844, mobile=True)
    page.open(f"day={DAY}")
    need([page.at.value("innerWidth"), page.at.value(CUT)], [390, []], "what is cut off")
    check_room(page)
    found = next(it for it in held_on(everything["parcels"], DAY) if it["properties"]["label"] == "Park")
    box = page.at.value("(({ left, top, width, height }) => [left, top, width, height])(canvas.getBoundingClientRect())")
    x, y = box[0] + box[2] / 2 + 20, box[1] + box[3] / 2 - 30
    plane = page.at.value(f"toPlane({x - box[0]}, {y - box[1]})")
    scale = page.at.value("view.scale")
    page.at.touch("touchStart", (x - 40, y), (x + 40, y))
    page.at.touch("touchEnd")
    page.settle()
    need(page.at.value("chosen.kind"), None, "two fingers choose nothing")
    page.at.touch("touchStart", (x - 40, y), (x + 40, y))
    for at in (50, 60, 80):
        page.at.touch("touchMove", (x - at, y), (x + at, y))
    page.at.touch("touchEnd")
    page.settle()
    where = page.at.value(f"toScreen({json.dumps(plane)})")
    need([abs(page.at.value("view.scale") * 2 / scale - 1) < 0.01, abs(where[0] + box[0] - x) < 2, abs(where[1] + box[1] - y) < 2], [True] * 3, f"two fingers: {where}, {scale} became {page.at.value('view.scale')}")
    page.press("whole")
    x, y = page.place([found["geometry"]["coordinates"][0][0][0] + 6000, found["geometry"]["coordinates"][0][0][1] + 6000])
    page.at.touch("touchStart", (x, y))
    page.at.touch("touchEnd")
    page.settle()
    top = page.at.value("document.querySelector('#panel h2').getBoundingClientRect().top")
    need([texts(page, "#panel h2"), 0 <= top < 422], [["Parcel Park"], True], f"a tap, the panel at {top}")
    need(page.at.value(CUT), [], "what is cut off with a parcel")
    scrolled = page.at.value("scrollY")
    page.at.touch("touchStart", (195, 400))
    for at in range(420, 720, 20):
        page.at.touch("touchMove", (195, at))
    page.at.touch("touchEnd")
    time.sleep(0.5)
    need(page.at.value("scrollY") < scrolled - 100, True, f"the page scrolls from {scrolled} to {page.at.value('scrollY')}")
    page.at.value("scrollTo(0, document.querySelector('#map').offsetTop - 60)")
    picture()
    page.press("cite")
    need(page.at.value(CUT), [], "what is cut off of the citation")
    page.at.resize(WIDTH, HEIGHT)


def check_keyboard(page, everything):
    """Checks that keys alone find and choose parcels, and that a screen reader gets their names and their number."""
    page.open(f"day={DAY}")
    page.at.value("document.getElementById('filter').focus()")
    page.at.key("Tab")
    need(page.at.value("document.activeElement.id"), "canvas", "the map by keyboard")
    need(page.at.value("getComputedStyle(document.querySelector('.cross')).display"), "block", "the cross in the middle")
    objects = page.at.value("[...new Set(shown.parcels.map((it) => it.properties.object))]")
    for key, wanted in (("n", objects[0]), ("n", objects[1]), ("p", objects[0]), ("p", objects[-1])):
        page.at.key(key)
        page.settle()
        need(page.at.value("chosen.object"), wanted, f"the parcel after {key}")
    park = next(it for it in held_on(everything["parcels"], DAY) if it["properties"]["label"] == "10/2")
    page.at.value(f"(([x, y]) => {{ view.x = x; view.y = y; draw(); }})({json.dumps(middle(park))})")
    page.at.key("Enter")
    page.settle()
    need(texts(page, "#panel h2"), ["Parcel 10/2"], "the parcel in the middle")
    said = page.text("said")
    need([it for it in ("Parcel 10/2", "object 94", "2 versions", "2 rights", "restriction") if it not in said], [], f"what is said: {said}")
    need(page.at.value("['said', 'status'].map((it) => document.getElementById(it)).map((it) => it.getAttribute('role') ?? it.tagName)"), ["status", "OUTPUT"], "what a screen reader hears")
    heard = {it["role"]["value"]: it for it in page.at.send("Accessibility.getFullAXTree")["nodes"] if not it["ignored"] and it.get("name", {}).get("value", "").startswith("Map of the parcels")}
    if not any(f"{page.at.value('canvas.dataset.drawn')} parcels in view" in it["name"]["value"] for it in heard.values()):
        fails(f"the map's name: {heard}")
    page.at.value("document.getElementById('find').focus()")
    for letter in "10/3":
        page.at.key(letter)
    page.settle()
    page.at.key("ArrowDown")
    need(page.at.value("document.activeElement.closest('#found li') !== null"), True, "a result by keyboard")
    page.at.key("Enter")
    page.settle()
    need(page.at.value("[document.querySelector('#panel h2').textContent.startsWith('Parcel 10/3'), document.activeElement.id]"), [True, "side"], "a parcel that is found by keys")
    for _ in range(40):
        if page.at.value("document.activeElement.title") != "All that it holds; naturalPerson":
            page.at.key("Tab")
    page.at.key("Enter")
    page.settle()
    need([page.at.value("chosen.kind"), page.at.value("document.activeElement.id")], ["party", "side"], "a party by keys")
    press(page, "#list summary")
    press(page, "#list li button", "10/2")
    need(texts(page, "#panel h2"), ["Parcel 10/2"], "a parcel of the list")


def brightness(colour):
    """The luminance of a colour by WCAG 2.1."""
    parts = [it / 255 / 12.92 if it <= 10 else ((it / 255 + 0.055) / 1.055) ** 2.4 for it in colour[:3]]
    return 0.2126 * parts[0] + 0.7152 * parts[1] + 0.0722 * parts[2]


def check_colours(page, everything):
    """Checks that dark and light pages have enough contrast, and that the legend has the colours of the map."""
    park = next(it for it in held_on(everything["parcels"], DAY) if it["properties"]["label"] == "Park")
    inside = [park["geometry"]["coordinates"][0][0][at] + 5000 for at in range(2)]
    for scheme in ("dark", "light"):
        page.at.media(prefers_color_scheme=scheme)
        page.open(f"day={DAY}&parcel=94")
        need(page.at.value("getComputedStyle(document.body).backgroundColor") != "rgb(255, 255, 255)", scheme == "dark", f"a {scheme} page")
        need(brightness(page.colour(inside)) < 0.2, scheme == "dark", f"a {scheme} map")
        values = {name: brightness(colour_value(page, f"--{name}")) for name in ("ink", "soft", "accent", "fault", "paper")}
        for name in ("ink", "soft", "accent", "fault"):
            low, high = sorted((values[name], values["paper"]))
            need((high + 0.05) / (low + 0.05) >= 4.5, True, f"the contrast of {name} on a {scheme} page")
        chosen = next(it for it in held_on(everything["parcels"], DAY) if it["properties"]["object"] == 94)
        need(page.colour(chosen["geometry"]["coordinates"][0][0])[:3], colour_of(page, ".key.chosen"), f"the legend of a {scheme} page")
    page.at.media()
    press(page, "#legend summary")
    need(len(page.at.value("[...document.querySelectorAll('#legend li')].filter((it) => it.getBoundingClientRect().height > 10)")), 7, "signs of the legend")


DARKEST = """(() => {
  const { data } = canvas.getContext("2d").getImageData(0, 0, canvas.width, canvas.height);
  let least = 765;
  for (let at = 0; at < data.length; at += 4) if (data[at + 3] === 255) least = Math.min(least, data[at] + data[at + 1] + data[at + 2]);
  return least;
})()"""


def check_small(page):
    """Checks that outlines of parcels under three pixels fade."""
    page.at.media(prefers_color_scheme="light")
    page.open(f"day={DAY}")
    near = page.at.value(DARKEST)
    page.at.value("zoom(60)")
    page.settle()
    far = page.at.value(DARKEST)
    need([near < 350, far > 500], [True, True], f"outlines of large and of small parcels: {near} and {far}")
    page.at.media()
