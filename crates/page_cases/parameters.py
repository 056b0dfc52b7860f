#!/usr/bin/env python3
"""Writes the cases of parameters to `stdin` and `stdout` beside this file: questions, and what must be answered.

The answers come from a second reading of the rules in Python, with its own reader of forms and its
own writer of JSON, and not from the program.
"""
import json
import re
from datetime import date
from pathlib import Path
from urllib.parse import unquote_to_bytes

NAMES = ["limit", "datetime", "bbox", "filter-lang", "filter", "revision", "after"]
MOST = 2**31 - 1
FARTHEST = 10**11
KEPT = set(b"*-._0123456789abcdefghijklmnopqrstuvwxyzABCDEFGHIJKLMNOPQRSTUVWXYZ")


def pairs_of(query):
    pairs = []
    for piece in query.split("&"):
        if piece:
            name, _, value = piece.partition("=")
            pairs.append(tuple(unquote_to_bytes(s.replace("+", " ")).decode("utf-8", "replace") for s in (name, value)))
    return pairs


def written(pairs):
    def one(text):
        return "".join("+" if b == 32 else chr(b) if b in KEPT else f"%{b:02X}" for b in text.encode())
    return "&".join(f"{one(name)}={one(value)}" for name, value in pairs)


def limit(text):
    return min(1000, int(text)) if re.fullmatch(r"[0-9]+", text) and int(text) > 0 else None


def day(text):
    if not re.fullmatch(r"[0-9]{4}-[0-9]{2}-[0-9]{2}", text):
        return None
    try:
        return date.fromisoformat(text).isoformat()
    except ValueError:
        return None


def datetime(text):
    """Days alone: moments with a time of day are cases of `land_cases`."""
    if "/" not in text:
        return None if day(text) is None else f"{day(text)}/{day(text)}"
    ends = text.split("/", 1)
    read = ["" if end in ("", "..") else day(end) for end in ends]
    if None in read or (all(read) and read[1] < read[0]):
        return None
    return "/".join(read)


def bbox(text):
    parts = text.split(",")
    if len(parts) != 4 or not all(re.fullmatch(r"-?[0-9]+(\.0*)?", part) for part in parts):
        return None
    numbers = [int(part.split(".")[0]) for part in parts]
    if any(abs(n) > FARTHEST for n in numbers) or numbers[0] > numbers[2] or numbers[1] > numbers[3]:
        return None
    return ",".join(str(n) for n in numbers)


def revision(text):
    return int(text) if re.fullmatch(r"[0-9]{1,18}", text) else None


def after(text):
    if not re.fullmatch(r"[1-9][0-9]*\.[1-9][0-9]*", text):
        return None
    return text if all(int(n) <= MOST for n in text.split(".")) else None


def asks(query):
    pairs = pairs_of(query)
    names = [name for name, _ in pairs]
    values = dict(pairs)
    if any(name not in NAMES for name in names):
        return "1 Unknown unknown"
    if len(set(names)) < len(names):
        return "2 Repeated repeated"
    told = []
    reads = {"limit": limit, "datetime": datetime, "bbox": bbox, "filter-lang": lambda t: t if t == "cql2-text" else None,
             "filter": lambda t: t, "revision": revision, "after": after}
    faults = {"limit": "3 Limit", "datetime": "4 Datetime", "bbox": "5 Bbox", "filter-lang": "6 FilterLang", "revision": "8 Revision", "after": "9 After"}
    for name in NAMES:
        if name in values:
            read = reads[name](values[name])
            if read is None:
                return f"{faults[name]} {name}"
            if name != "filter-lang":
                told.append(f"{name} {read}")
        elif name == "limit":
            told.append("limit 10")
    return " ".join(told)


def self_target(query):
    pairs = pairs_of(query)
    return "/items" + ("?" + written(pairs) if pairs else "")


def next_target(query, number, last):
    kept = [pair for pair in pairs_of(query) if pair[0] not in ("revision", "after")]
    return "/items?" + written(kept + [("revision", number), ("after", last)])


COLLECTIONS = ["parcels", "rights", "restrictions", "units", "parties", "responsibilities"]
LIFESPAN = {"object": "Whole", "number": "Whole", "begin": "Day", "end": "Day", "lifespan": "Span"}
RIGHT = {"type": "Text", "share_num": "Whole", "share_den": "Whole", "unit": "Whole", "unit_name": "Text", "party": "Whole", "party_name": "Text"}
PROPERTIES = {
    "parcels": {"label": "Text", "area": "Whole", "geometry": "Area", "reference_point": "Spot", "unit": "Whole", "unit_name": "Text"},
    "rights": RIGHT,
    "restrictions": {**RIGHT, "party_required": "Flag"},
    "units": {"name": "Text"},
    "parties": {"name": "Text", "type": "Text"},
    "responsibilities": RIGHT,
}
KINDS = {
    "Text": {"type": "string"}, "Whole": {"type": "integer"}, "Flag": {"type": "boolean"}, "Day": {"type": "string", "format": "date"},
    "Span": {"format": "interval"}, "Spot": {"format": "geometry-point"}, "Area": {"format": "geometry-polygon"},
}


def compact(tree):
    return json.dumps(tree, sort_keys=True, separators=(",", ":"), ensure_ascii=False)


def link(href, rel):
    return {"href": href, "rel": rel, "type": "application/json"}


def collection(name):
    path = f"/collections/{name}"
    links = [link(f"{path}/items", "items"), link(f"{path}/queryables", "queryables")]
    return {"id": name, "itemType": "feature", "links": links, "title": name}


def body(path):
    if path == "/":
        return compact({"links": [link("/", "self"), link("/collections", "data")], "title": "Cadastre"})
    if path == "/collections":
        return compact({"collections": [collection(name) for name in COLLECTIONS], "links": [link("/collections", "self")]})
    name, _, part = path.removeprefix("/collections/").partition("/")
    if not part:
        return compact(collection(name))
    properties = {key: KINDS[kind] for key, kind in {**LIFESPAN, **PROPERTIES[name]}.items()}
    return compact({"$id": path, "$schema": "https://json-schema.org/draft/2020-12/schema", "additionalProperties": False,
                    "properties": properties, "type": "object"})


QUERIES = """

&
?
limit=1
limit=0
limit=000
limit=007
limit=1000
limit=1001
limit=99999
limit=999
limit=18446744073709551617
limit=340282366920938463463374607431768211457
limit=
limit=+5
limit=%2B5
limit=-1
limit=5a
limit=1.0
limit
datetime=2012-05-01
datetime=2001-02-29
datetime=2000-02-29
datetime=2009-12-31/2010-01-01
datetime=2010-01-01/2009-12-31
datetime=/
datetime=../..
datetime=/..
datetime=..
datetime=
datetime=2009-12-31/
datetime=../2009-12-31
datetime=a/b
datetime=2009-12-31/2010-01-01/2011-01-01
bbox=40000,20000,50000,50000
bbox=-0,0.,1,01.00
bbox=1,2,3,4,5,6
bbox=1,2,3
bbox=1,2,3,
bbox=,2,3,4
bbox=3,2,1,4
bbox=1,4,3,2
bbox=1,2,1,2
bbox=-5,-6,-5,-6
bbox=-100000000000,-100000000000,100000000000,100000000000
bbox=-100000000001,0,0,0
bbox=0,0,100000000001,0
bbox=0,0,0,18446744073709551617
bbox=0,0,0,1.5
bbox=0,0,0,1.
bbox=0,0,0,1.0.0
bbox=0,0,0,.0
bbox=0,0,0,-
bbox=0,0,0,--1
bbox=0,0,0,%2B1
bbox=0,0,0,1e3
bbox=0,+0,0,0
bbox=0;0;0;0
bbox=-00000000000000000000000000000000001,0,0,0
filter-lang=cql2-text
filter-lang=cql2-json
filter-lang=CQL2-TEXT
filter-lang=
filter=area+%3E+400
filter=area+>+400&filter-lang=cql2-text
filter=
filter=%FF
filter=stra%C3%9Fe
revision=10
revision=0
revision=007
revision=999999999999999999
revision=1000000000000000000
revision=000000000000000000
revision=0000000000000000000
revision=
revision=-1
revision=1a
after=2.1
after=0.1
after=1.0
after=01.1
after=1.01
after=2147483647.2147483647
after=2147483648.1
after=1.2147483648
after=1
after=1.
after=.1
after=1.1.1
after=1,1
after=+1.1
after=18446744073709551617.1
after=
f=json
=
=x
Limit=5
limit=5&limit=5
limit=5&limit=6
limit=x&limit=5
f=1&limit=0&limit=0
limit=0&datetime=x
datetime=x&limit=0
bbox=1&datetime=x
filter-lang=x&bbox=1
revision=x&filter-lang=y
after=x&revision=y
after=x&filter=a
revision=x&filter=
revision=8&after=2.1&filter=a&bbox=0,0,1,1&datetime=2012-05-01&limit=3&filter-lang=cql2-text
li%6Dit=5
a%26b=1
filter=a%26b&limit=2
filter=%2A~%7E
""".split("\n")[1:-1]

NEXT = [
    ("datetime=2012-05-01&limit=2", "10", "2.1"),
    ("datetime=2012-05-01&limit=2&revision=10&after=2.1", "10", "4.1"),
    ("after=1.1&limit=2&revision=3&filter=a+%3E+~%7E%2A", "3", "2147483647.2147483647"),
    ("&", "0", "1.1"),
    ("limit=007", "4294967294", "10.20"),
    ("filter=stra%C3%9Fe%FF", "18446744073709551615", "1.1"),
]

PATHS = ["/", "/collections"] + [f"/collections/{name}{part}" for name in COLLECTIONS for part in ("", "/queryables")]
WORDS = ["bad-head", "host", "body", "target", "no-resource", "method", "no-collection", "no-feature", "unknown", "repeated", 'quo"ted\\', "straße"]
FAULTS = [("WrongKind", "8"), ("TooLong", "8192"), ("EndOfFilter", "0"), ("UnknownProperty", "18446744073709551615")]

cases = [(f"asks {query}", asks(query)) for query in QUERIES]
cases += [(f"self {query}", self_target(query)) for query in QUERIES]
cases += [(f"next {' '.join(case)}", next_target(*case)) for case in NEXT]
cases += [(f"body {path}", body(path)) for path in PATHS]
cases += [(f"word {word}", compact({"fault": word})) for word in WORDS]
cases += [(f"fault {cause} {place}", compact({"cause": cause, "fault": "filter", "place": int(place)})) for cause, place in FAULTS]

folder = Path(__file__).parent
(folder / "stdin").write_text("".join(f"{question}\n" for question, _ in cases))
(folder / "stdout").write_text("".join(f"{question}: {answer}\n" for question, answer in cases))
