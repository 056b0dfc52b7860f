#!/usr/bin/env python3
"""A second implementation of the server's rules, in Python. It does not follow the crates.

    scripts/server_model.py [N] < EVENTS    N: the event, from 1 on, for which memory runs out

It prints the answers of a desk to events, one a line. At first the desk is over the sample register. The events are:

- `open C`, `bytes C JSON`, `close C`, `serve C JSON`, on connection C
- `office COMMAND`
- `restart`, after which no connection is known
- `sample` and `empty`, which begin with a new register
- `changes N`, a bound on what the server keeps in addition to its bases; it changes no answer

Lines and answers are those of crates/cad_cases and, over a register in a database, of crates/cad_register_cases. It uses
scripts/filter_model.py and scripts/filter_meaning.py for filters and features. scripts/check_server_cases compares the stored answers of
both programs with it. scripts/refused compares those of runs in which memory is refused once.
"""
from datetime import datetime, timedelta
import json
import re
import sys
from urllib.parse import quote_plus, unquote_to_bytes

from calling import a_number, arguments, with_defaults
import filter_model
from filter_meaning import asked_days, meets, related, shape_of, span, truth
from filter_model import SCHEMAS, day_of, tree_of

# Numbers may have any number of digits.
sys.set_int_max_str_digits(0)

FRONT = 32768
CLASSES = {"parcels": "parcel", "rights": "right", "restrictions": "restriction", "units": "unit", "parties": "party",
           "responsibilities": "responsibility"}
ROUTES = [("landing", r"/"), ("collections", r"/collections"), ("collection", r"/collections/([^/]+)"),
          ("queryables", r"/collections/([^/]+)/queryables"), ("items", r"/collections/([^/]+)/items"),
          ("item", r"/collections/([^/]+)/items/([^/]+)")]
IDENTIFIER = re.compile(r"([1-9][0-9]{0,9})\.([1-9][0-9]{0,9})", re.ASCII)
MOST = 2147483647


# ---- the register: versions are dicts, in the order of their entry; `entered` and `closed` are revisions

class Wanting(Exception):
    """There is no memory for a listing."""


class Register:
    """It may be listed `listings` times; None means no limit. Once it was listed, every revision is kept, those of further commands too."""

    def __init__(self):
        self.versions, self.revision = [], 0
        self.listings, self.is_kept = None, False

    def begin(self, listings):
        self.listings, self.is_kept = listings, False

    def refusal(self, command):
        mine = [it for it in self.versions if it["object"] == command["object"]]
        body = next((it for it in CLASSES.values() if it in command), None)
        if command["do"] == "enter":
            if mine:
                return "KnownObject"
        else:
            if not mine:
                return "UnknownObject"
            if command["do"] == "amend" and mine[0]["class"] != body:
                return "OtherClass"
            if mine[-1]["last"] is not None:
                return "Retired"
            if command["do"] == "amend" and command["first"] <= mine[-1]["first"]:
                return "DayNotAfter"
            if command["do"] == "retire" and command["last"] < mine[-1]["first"]:
                return "DayNotAfter"
        for name in ("unit", "party"):
            named = command.get(body, {}).get(name) if body and body != name else None
            if named is not None and not any(it["object"] == named and it["class"] == name for it in self.versions):
                return "UnknownReference"
        return None

    def apply(self, command):
        why = self.refusal(command)
        if why:
            return f"5 Register {why}"
        self.revision += 1
        mine = [it for it in self.versions if it["object"] == command["object"]]
        if command["do"] == "retire":
            mine[-1].update(last=command["last"], closed=self.revision)
            return f"Entered {self.revision}"
        if command["do"] == "amend":
            mine[-1].update(last=day_before(command["first"]), closed=self.revision)
        body = next(it for it in CLASSES.values() if it in command)
        self.versions.append({"object": command["object"], "number": len(mine) + 1, "class": body, "first": command["first"],
                              "last": None, "entered": self.revision, "closed": None, **command[body]})
        return f"Entered {self.revision}"

    def as_of(self, revision):
        if self.listings is not None and not self.is_kept:
            if self.listings == 0:
                raise Wanting
            self.listings -= 1
            self.is_kept = True
        shown = [dict(it) for it in self.versions if it["entered"] <= revision]
        for it in shown:
            if it["closed"] and it["closed"] > revision:
                it["last"] = None
        return sorted(shown, key=lambda it: (it["object"], it["number"]))


SQUARE = [[0, 0], [20000, 0], [20000, 20000], [0, 20000]]
SECOND = [[20000, 0], [40000, 0], [40000, 20000], [20000, 20000]]
TRIANGLE = [[0, 30000], [30000, 30000], [0, 60000]]
SAMPLE = [
    {"do": "enter", "object": 10, "first": "2000-01-01", "unit": {"name": "Mill"}},
    {"do": "enter", "object": 11, "first": "2000-01-01", "unit": {}},
    {"do": "enter", "object": 20, "first": "2000-01-01", "party": {"name": "Ana Straße", "code": "naturalPerson"}},
    {"do": "enter", "object": 1, "first": "2001-01-01", "parcel": {"unit": 10, "label": "A-1", "area": 400, "shape": SQUARE}},
    {"do": "amend", "object": 1, "first": "2010-01-01", "parcel": {"unit": 10, "label": "A-1", "area": 380, "shape": SQUARE}},
    {"do": "enter", "object": 2, "first": "2005-06-01", "parcel": {"unit": 10, "label": "A-2", "shape": SECOND}},
    {"do": "enter", "object": 3, "first": "2003-01-01", "parcel": {"unit": 11, "label": "b-7", "area": 900, "shape": TRIANGLE}},
    {"do": "enter", "object": 4, "first": "2003-01-01", "parcel": {"unit": 11, "label": "C%1", "area": 0}},
    {"do": "enter", "object": 30, "first": "2005-01-01", "right": {"unit": 10, "party": 20, "code": "ownership", "share": [1, 2]}},
    {"do": "enter", "object": 31, "first": "2006-01-01", "restriction": {"unit": 11, "code": "noBuilding", "required": False}},
]


def sample():
    register = Register()
    for command in SAMPLE:
        register.apply(command)
    return register


def day_before(text):
    year, month, day = day_of(text)
    if day > 1:
        return f"{year:04}-{month:02}-{day - 1:02}"
    if month == 1:
        return f"{year - 1:04}-12-31"
    return next(it for it in (f"{year:04}-{month - 1:02}-{day:02}" for day in (31, 30, 29, 28)) if day_of(it))


def named_on(versions, object_, day):
    """The name in the first version of the object that holds the day."""
    for it in versions:
        if it["object"] == object_ and it["first"] <= day and (it["last"] is None or day <= it["last"]):
            return it.get("name")
    return None


def rings_of(version):
    """The rings of a parcel's shape, its outline first, or None if it has no shape."""
    return [version["shape"]] + (version.get("holes") or []) if version.get("shape") else None


def features(versions, collection):
    """The features, each as its identifier, its values by name as replies write them, and its values as filters see them."""
    for it in versions:
        if it["class"] != CLASSES[collection]:
            continue
        share = it.get("share") or [None, None]
        told = {"object": it["object"], "number": it["number"], "begin": it["first"], "end": it["last"],
                "label": it.get("label"), "area": it.get("area"), "geometry": rings_of(it),
                "reference_point": it.get("spot"), "unit": it.get("unit"), "type": it.get("code"), "name": it.get("name"),
                "share_num": share[0], "share_den": share[1], "party": it.get("party"),
                "party_required": it.get("required")}
        told["unit_name"] = named_on(versions, told["unit"], it["first"])
        told["party_name"] = named_on(versions, told["party"], it["first"])
        told = {name: told.get(name) for name in SCHEMAS[collection] if name != "lifespan"}
        yield (it["object"], it["number"]), told, asked_values(told)


def asked_values(told):
    values = dict(told)
    values["begin"], values["end"] = day_of(told["begin"]), day_of(told["end"]) if told["end"] else None
    values["lifespan"] = span(values["begin"], values["end"])
    if told.get("geometry"):
        outline, *holes = [[tuple(corner) for corner in ring] for ring in told["geometry"]]
        values["geometry"] = shape_of(outline, holes)
    if told.get("reference_point"):
        values["reference_point"] = shape_of(tuple(told["reference_point"]))
    return values


# ---- bodies

def link(href, rel):
    return {"href": href, "rel": rel, "type": "application/json"}


def geometry_of(told):
    rings = told.get("geometry")
    return rings and {"coordinates": [ring + ring[:1] for ring in rings], "type": "Polygon"}


def feature_tree(identifier, told):
    properties = {name: value for name, value in told.items() if name != "geometry"}
    if properties.get("reference_point"):
        properties["reference_point"] = {"coordinates": properties["reference_point"], "type": "Point"}
    return {"geometry": geometry_of(told), "id": "%d.%d" % identifier, "properties": properties, "type": "Feature"}


def collection_tree(name):
    path = f"/collections/{name}"
    return {"id": name, "itemType": "feature", "links": [link(path + "/items", "items"), link(path + "/queryables", "queryables")],
            "title": name}


SCHEMA = {"Text": {"type": "string"}, "Whole": {"type": "integer"}, "Flag": {"type": "boolean"},
          "Day": {"format": "date", "type": "string"}, "Span": {"format": "interval"},
          "Spot": {"format": "geometry-point"}, "Area": {"format": "geometry-polygon"}}


def queryables_tree(name):
    return {"$id": f"/collections/{name}/queryables", "$schema": "https://json-schema.org/draft/2020-12/schema",
            "additionalProperties": False, "properties": {it: SCHEMA[kind] for it, kind in SCHEMAS[name].items()},
            "type": "object"}


def compact(tree):
    return json.dumps(tree, ensure_ascii=False, separators=(",", ":"), sort_keys=True).encode()


# ---- parameters

class Refused(Exception):
    def __init__(self, status, tree):
        self.status, self.tree = status, tree


def word(status, text):
    return Refused(status, {"fault": text})


def decoded(data):
    return unquote_to_bytes(data.replace(b"+", b" ")).decode("utf-8", "replace")


def pairs_of(query):
    pairs = []
    for part in query.split(b"&"):
        if part:
            name, _, value = part.partition(b"=")
            pairs.append((decoded(name), decoded(value)))
    return pairs


def written(pairs):
    safe = lambda text: quote_plus(text.encode(), safe="*").replace("~", "%7E")
    return "&".join(f"{safe(name)}={safe(value)}" for name, value in pairs)


def target_of(path, pairs):
    return path + ("?" + written(pairs) if pairs else "")


def box_of(text):
    if not re.fullmatch(r"-?[0-9]+(\.0*)?(,-?[0-9]+(\.0*)?){3}", text, re.ASCII):
        return None
    box = [int(it.partition(".")[0]) for it in text.split(",")]
    good = all(abs(it) <= 10**11 for it in box) and box[0] <= box[2] and box[1] <= box[3]
    return ("frame", (box[0], box[1]), (box[2], box[3])) if good else None


INSTANT = re.compile(r"([0-9]{4}-[0-9]{2}-[0-9]{2})[Tt ]([0-9]{2}:[0-9]{2})(?:(:[0-9]{2})(?:\.[0-9]{1,9})?)?"
                     r"(?:[Zz]|([+-])([0-9]{2}):([0-9]{2}))", re.ASCII)


def moment_of(text):
    """The day of a moment as text: a day, or an instant with an offset, as its day in UTC. The server also reads spellings without
    separators, and this function does not."""
    found = INSTANT.fullmatch(text)
    if not found:
        return text if day_of(text) else None
    day, clock, seconds, sign, hours, minutes = found.groups()
    try:
        instant = datetime.strptime(day + clock + (seconds or ":00"), "%Y-%m-%d%H:%M:%S")
        offset = timedelta(hours=int(hours or 0), minutes=int(minutes or 0))
        return (instant + offset if sign == "-" else instant - offset).strftime("%Y-%m-%d")
    except (OverflowError, ValueError):
        return None


def moments_of(text):
    """The requested days, or None."""
    first, slash, last = text.partition("/")
    ends = [it if slash and it in ("", "..") else moment_of(it) for it in ((first, last) if slash else (first,))]
    if None in ends:
        return None
    days = asked_days("/".join(ends))
    return days if days[0] <= days[1] else None


def identifier_of(text):
    found = IDENTIFIER.fullmatch(text)
    return (int(found[1]), int(found[2])) if found and max(int(found[1]), int(found[2])) <= MOST else None


NAMES = ("limit", "datetime", "bbox", "filter-lang", "filter", "revision", "after")


def asked(pairs, collection):
    given = dict(pairs)
    if any(name not in NAMES for name, _ in pairs):
        raise word(400, "unknown")
    if len(given) < len(pairs):
        raise word(400, "repeated")
    limit = given.get("limit", "10")
    if not re.fullmatch("[0-9]+", limit, re.ASCII) or int(limit) < 1:
        raise word(400, "limit")
    days = moments_of(given["datetime"]) if "datetime" in given else span(None, None)
    if days is None:
        raise word(400, "datetime")
    box = box_of(given["bbox"]) if "bbox" in given else None
    if "bbox" in given and box is None:
        raise word(400, "bbox")
    if given.get("filter-lang", "cql2-text") != "cql2-text":
        raise word(400, "filter-lang")
    tree = None
    if "filter" in given:
        text = given["filter"].encode()
        told = filter_model.answer(collection, text)
        if told != "accepted":
            cause, place = told.split(" ")
            raise Refused(400, {"cause": cause, "fault": "filter", "place": int(place)})
        tree = tree_of(text)
    if not re.fullmatch("[0-9]{1,18}", given.get("revision", "0"), re.ASCII):
        raise word(400, "revision")
    after = identifier_of(given["after"]) if "after" in given else (0, 0)
    if after is None:
        raise word(400, "after")
    revision = int(given["revision"]) if "revision" in given else None
    return min(int(limit), 1000), days, box, tree, revision, after


def items_tree(register, collection, pairs):
    limit, days, box, tree, revision, after = asked(pairs, collection)
    if revision is not None and revision > register.revision:
        raise word(400, "revision")
    revision = register.revision if revision is None else revision
    taken = []
    for identifier, told, values in features(register.as_of(revision), collection):
        lives = related("T_INTERSECTS", values["lifespan"], days)
        near = box is None or values.get("geometry") is not None and meets(values["geometry"], box)
        if lives and near and (tree is None or truth(tree, values) is True) and identifier > after:
            taken.append((identifier, told))
    path = f"/collections/{collection}/items"
    links = [link(target_of(path, pairs), "self")]
    if len(taken) > limit:
        more = [it for it in pairs if it[0] not in ("revision", "after")]
        more += [("revision", str(revision)), ("after", "%d.%d" % taken[limit - 1][0])]
        links.append(link(target_of(path, more), "next"))
    rows = [feature_tree(*it) for it in taken[:limit]]
    return {"features": rows, "links": links, "numberReturned": len(rows), "revision": revision, "type": "FeatureCollection"}


def item_tree(register, collection, name):
    identifier = identifier_of(name)
    for found, told, _ in features(register.as_of(register.revision), collection):
        if found == identifier:
            path = f"/collections/{collection}"
            links = [link(f"{path}/items/{name}", "self"), link(path, "collection")]
            return {**feature_tree(found, told), "links": links}
    raise word(404, "no-feature")


# ---- heads

class Head:
    def __init__(self, method, target, minor, fields):
        self.method, self.target, self.minor, self.fields = method, target, minor, fields

    def values(self, name):
        return [value for field, value in self.fields if field.lower() == name]


REQUEST_LINE = re.compile(rb"([!#$%&'*+.^_`|~0-9A-Za-z-]+) ([\x21-\x7e\x80-\xff]+) HTTP/1\.([01])\r?")
FIELD = re.compile(rb"([!#$%&'*+.^_`|~0-9A-Za-z-]+):[ \t]*([\t\x20-\x7e\x80-\xff]*?)[ \t]*\r?")


def is_request_line(line):
    found = REQUEST_LINE.fullmatch(line)
    try:
        return found is not None and found[2].decode() is not None
    except UnicodeDecodeError:
        return False


def head_at(data):
    """The head at the front, with at most 64 fields, and the bytes after it. It is "bad" if no head can come, and None if one still may."""
    front, at, lines = data[:FRONT], 0, []
    while True:
        end = front.find(b"\n", at)
        if end < 0:
            return "bad" if len(data) >= FRONT else None
        line, at = front[at:end], end + 1
        if line in (b"", b"\r"):
            if lines:
                break
        elif not (FIELD.fullmatch(line) if lines else is_request_line(line)):
            return "bad"
        else:
            lines.append(line)
        if len(lines) > 65:
            return "bad"
    fields = [FIELD.fullmatch(it).groups() for it in lines[1:]]
    method, target, minor = REQUEST_LINE.fullmatch(lines[0]).groups()
    return Head(method, target, int(minor), fields), data[at:]


def answered(register, head):
    """The status, the body's tree, and whether a check ends the connection."""
    if head.minor == 1 and len(head.values(b"host")) != 1:
        return 400, {"fault": "host"}, True
    if head.values(b"transfer-encoding") or any(it.strip(b" \t") != b"0" for it in head.values(b"content-length")):
        return 400, {"fault": "body"}, True
    try:
        return 200, resource(register, head), False
    except Refused as why:
        return why.status, why.tree, False


def resource(register, head):
    if head.target[:1] != b"/" or any(not 0x21 <= it <= 0x7E for it in head.target):
        raise word(400, "target")
    path, _, query = head.target.partition(b"?")
    for kind, pattern in ROUTES:
        found = re.fullmatch(pattern, path.decode())
        if found:
            break
    else:
        raise word(404, "no-resource")
    if head.method != b"GET":
        raise word(405, "method")
    collection = found[1] if found.groups() else None
    if collection is not None and collection not in SCHEMAS:
        raise word(404, "no-collection")
    pairs = pairs_of(query)
    if kind == "items":
        return items_tree(register, collection, pairs)
    if pairs:
        raise word(400, "unknown")
    if kind == "landing":
        return {"links": [link("/", "self"), link("/collections", "data")], "title": "Cadastre"}
    if kind == "collections":
        return {"collections": [collection_tree(it) for it in CLASSES], "links": [link("/collections", "self")]}
    if kind == "item":
        return item_tree(register, collection, found[2])
    return collection_tree(collection) if kind == "collection" else queryables_tree(collection)


REASONS = {200: "OK", 400: "Bad Request", 404: "Not Found", 405: "Method Not Allowed"}


def reply(status, tree, ends):
    body = compact(tree)
    lines = [f"HTTP/1.1 {status} {REASONS[status]}", "Content-Type: application/json", f"Content-Length: {len(body)}"]
    lines += ["Allow: GET"] * (status == 405) + ["Connection: close"] * ends
    return "".join(it + "\r\n" for it in lines + [""]).encode() + body


def closes(head):
    members = b",".join(head.values(b"connection")).split(b",")
    return head.minor == 0 or any(it.strip(b" \t").lower() == b"close" for it in members)


# ---- the desk

class Desk:
    def __init__(self, register):
        self.register, self.lines = register, {}

    def fed(self, number, piece):
        """The replies to a piece. If they end the connection, it is unknown afterwards."""
        held, out = self.lines.pop(number) + piece, b""
        while True:
            found = head_at(held)
            if found is None:
                self.lines[number] = held
                return out
            if found == "bad":
                return out + reply(400, {"fault": "bad-head"}, True)
            head, held = found
            status, tree, ends = answered(self.register, head)
            ends = ends or closes(head)
            out += reply(status, tree, ends)
            if ends:
                return out

    def opened(self, number):
        """Why the connection is not opened, or None."""
        if number in self.lines:
            return "2 KnownConnection"
        if len(self.lines) == 64:
            return "3 TooManyConnections"
        self.lines[number] = b""
        return None

    def served(self, number, data):
        """Serves a connection that sends these bytes, and reads one byte at a time. Returns how that ends, and what is written."""
        refused = self.opened(number)
        if refused:
            return refused + ' ""'
        out = self.fed(number, data)
        we_ended = self.lines.pop(number, None) is None
        return ("we ended " if we_ended else "peer ended ") + written_bytes(out)

    def closed(self, number):
        return "1 UnknownConnection" if self.lines.pop(number, None) is None else "Closed"

    def sent(self, number, data):
        if number not in self.lines:
            return "1 UnknownConnection"
        try:
            out = self.fed(number, data)
        except Wanting:
            return "4 Memory"
        return "Sent " + written_bytes(out) + ("" if number in self.lines else " ends")

    def step(self, line):
        """The answer to a line. The cases write a command as the register takes it, or an object that does nothing."""
        kind, _, rest = line.partition(" ")
        number, space, text = rest.partition(" ")
        known, data = NUMBER.fullmatch(number) and int(number) < 2**32, piece_of(text)
        if kind == "office" and is_command(rest):
            return self.register.apply(json.loads(rest))
        if known and not space and kind == "open":
            return self.opened(int(number)) or "Opened"
        if known and not space and kind == "close":
            return self.closed(int(number))
        if known and data is not None and kind == "bytes":
            return self.sent(int(number), data)
        if known and data is not None and kind == "serve":
            return self.served(int(number), data)
        return "no case"

    def wanting(self, line):
        """The answer to a line for which memory runs out. Its connection is closed, and everything else is as before. If the line serves a
        connection, no reply was written yet."""
        kind, _, rest = line.partition(" ")
        if kind not in ("open", "bytes", "serve", "office"):
            return self.step(line)
        if kind != "office":
            self.lines.pop(int(rest.partition(" ")[0]), None)
        return "4 Memory" + (" " + written_bytes(NO_MEMORY) if kind == "serve" else "")


NUMBER = re.compile("[0-9]+", re.ASCII)
NO_MEMORY = b"HTTP/1.1 503 Service Unavailable\r\nContent-Length: 0\r\nConnection: close\r\n\r\n"


def is_command(text):
    """Whether it is an object that names an object and a day. This does not check other members and values."""
    try:
        tree = json.loads(text)
    except ValueError:
        return False
    return isinstance(tree, dict) and "object" in tree


def piece_of(text):
    """The bytes of a string, one byte for each character, or of a list of such strings and of pairs [N, STRING]."""
    try:
        tree = json.loads(text)
        parts = [[1, it] if isinstance(it, str) else it for it in (tree if isinstance(tree, list) else [tree])]
        return b"".join(count_of(count) * part.encode("latin-1") for count, part in parts)
    except (AttributeError, TypeError, ValueError):
        return None


def count_of(value):
    if type(value) is not int or value < 0:
        raise ValueError
    return value


def written_bytes(data):
    return json.dumps(data.decode("latin-1"), ensure_ascii=False)


def answers(lines, wanting=None):
    """Each event with its answer. For the event with the number `wanting`, memory runs out."""
    desk, count, listings = Desk(sample()), 0, None
    for line in lines:
        line = line.rstrip("\n")
        if not line or line.startswith("#"):
            continue
        count += 1
        if line in ("sample", "empty", "restart"):
            desk = Desk({"sample": sample, "empty": Register, "restart": lambda: desk.register}[line]())
            desk.register.begin(listings)
            yield line, line
        elif line.startswith("listings "):
            listings = int(line[9:])
            yield line, line
        elif line == "memory may be wanting" or line.startswith("changes "):
            yield line, line
        else:
            yield line, desk.wanting(line) if count == wanting else desk.step(line)


def main():
    [wanting] = with_defaults(arguments(__doc__, a_number), None)
    for _, answer in answers(sys.stdin, wanting):
        print(answer)


if __name__ == "__main__":
    main()
