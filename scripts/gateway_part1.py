"""The abstract tests of OGC API - Features Part 1 (17-069r4, Annex A), each as requests to the gateway, and the API definition by OpenAPI's schema.

The table of tests in docs/GATEWAY.md has to be what this script found. `scripts/check_gateway part1` with WRITE=1 writes it there.
"""
import json
import os
import re
from pathlib import Path
from urllib.parse import quote

import jsonschema

from gateway_checks import CRS84, GEOJSON, TOP, Land, fetch, walk

BLOCKS = 2  # the table is that of a small village
NEEDS = ("usr/share/openapi-specification/schemas/v3.0/schema.json",)
SCHEMA = Path("/", NEEDS[0])
DOCUMENT = TOP / "docs/GATEWAY.md"
HEAD, END = "| test | what it is about | sent | came |\n|---|---|---|---|\n", "\n\n"
PART = "http://www.opengis.net/spec/ogcapi-features-1/1.0/conf/"
OPENAPI = "application/vnd.oai.openapi+json;version=3.0"
PARCELS = "/collections/parcels"


class Tests:
    """Runs the tests, and notes what was sent and what came."""

    def __init__(self, checks, land, served):
        self.checks, self.land, self.base, self.rows, self.sent = checks, land, served.base, [], []

    def get(self, path, method="GET"):
        """Status, fields and the tree of a response. A path is noted as it was sent."""
        url = path if path.startswith("http") else self.base + path
        self.sent.append(("" if method == "GET" else method + " ") + url.removeprefix(self.base))
        status, fields, body = fetch(url, method)
        return status, fields, json.loads(body) if body else None

    def row(self, number, name, holds, came):
        """Notes a test. `came` is what came, in words."""
        self.checks.holds(f"test {number} {name}", holds)
        sent = "; ".join(f"`{it}`" for it in dict.fromkeys(self.sent))
        self.rows.append(f"| {number} | `{name}` | {sent} | {'' if holds else 'FAILED: '}{came} |")
        self.sent = []

    def has_links(self, body, *relations):
        return set(relations) <= {it["rel"] for it in body["links"]} and all(it.get("type") and it["href"].startswith(self.base) for it in body["links"])


def check(checks, land):
    land = Land(land.folder / "small", BLOCKS)
    with land.served("part1") as served:
        tests = Tests(checks, land, served)
        general(tests)
        pages(tests)
        collections(tests)
        features(tests)
        parameters(tests)
        responses(tests)
        feature(tests)
        encodings(tests)
    written(checks, HEAD + "\n".join(tests.rows))


def general(tests):
    status, fields, _ = tests.get("/")
    tests.row("1", "core/http", status == 200, "HTTP/1.1 with 200")
    extent = tests.get(PARCELS)[2]["extent"]["spatial"]
    corner = tests.get(PARCELS + "/items?limit=1")[2]["features"][0]["geometry"]["coordinates"][0][0]
    west, south, east, north = extent["bbox"][0]
    tests.row("2", "core/crs84", extent["crs"] == CRS84 and west <= corner[0] <= east and south <= corner[1] <= north, "longitude and latitude, within the extent")


def pages(tests):
    status, _, body = tests.get("/")
    tests.row("3", "core/root-op", status == 200, "200")
    status, _, body = tests.get("/")
    tests.row("4", "core/root-success", tests.has_links(body, "service-desc", "conformance", "data"), "links `service-desc`, `conformance`, `data`, absolute and with types")
    address = next(it["href"] for it in body["links"] if it["rel"] == "service-desc")
    status, fields, document = tests.get(address)
    tests.row("5", "core/api-definition-op", status == 200, "200")
    tests.get(address)
    faults = validated(document)
    tests.row("6", "core/api-definition-success", fields["Content-Type"] == OPENAPI and not faults, "OpenAPI 3.0, valid by its schema")
    for it in faults:
        print(f"FAULT part1: the API definition: {it}")
    status, _, body = tests.get("/conformance")
    tests.row("7", "core/conformance-op", status == 200, "200")
    tests.get("/conformance")
    tests.row("8", "core/conformance-success", {PART + it for it in ("core", "geojson", "oas30")} <= set(body["conformsTo"]), "`core`, `geojson`, `oas30` among others")


def collections(tests):
    status, _, body = tests.get("/collections")
    tests.row("9", "core/fc-md-op", status == 200, "200")
    tests.get("/collections")
    names = [it["id"] for it in body["collections"]]
    good = all(it["links"] and any(link["rel"] == "items" and link["type"] == GEOJSON for link in it["links"]) and "extent" in it for it in body["collections"])
    tests.row("10", "core/fc-md-success", tests.has_links(body, "self") and len(names) == 6 and good, "six collections, each with a link `items` and an extent")
    found = {name: tests.get(f"/collections/{name}") for name in names}
    tests.row("11", "core/sfc-md-op", {it[0] for it in found.values()} == {200}, "200 each")
    tests.get(PARCELS)
    same = all(found[it["id"]][2] == it for it in body["collections"])
    tests.row("12", "core/sfc-md-success", same and all(tests.has_links(it[2], "items", "self") for it in found.values()), "the collection as `/collections` has it")


def features(tests):
    status, fields, body = tests.get(PARCELS + "/items")
    tests.row("13", "core/fc-op", status == 200 and fields["Content-Type"] == GEOJSON and body["type"] == "FeatureCollection", "200 and a collection of features")


def parameters(tests):
    document = fetch(tests.base + "/api")[2]
    document = json.loads(document)
    listed = document["paths"][PARCELS + "/items"]["get"]["parameters"]
    defined = {it["name"]: it for it in (resolved(document, it) for it in listed)}
    tests.get("/api")
    it = defined["bbox"]
    good = it["in"] == "query" and it["schema"]["type"] == "array" and (it["schema"]["minItems"], it["schema"]["maxItems"]) == (4, 6) and (it["style"], it["explode"]) == ("form", False)
    tests.row("14", "core/fc-bbox-definition", good, "`bbox` is an array of 4 to 6 numbers, style `form`")
    box(tests)
    tests.get("/api")
    it = defined["limit"]["schema"]
    tests.row("16", "core/fc-limit-definition", (it["type"], it["minimum"], it["maximum"], it["default"]) == ("integer", 1, 1000, 10), "`limit` is a whole number from 1 to 1,000, by default 10")
    counts = [len(tests.get(PARCELS + query)[2]["features"]) for query in ("/items?limit=3", "/items", "/items?limit=100000")]
    tests.row("17", "core/fc-limit-response", counts == [3, 10, min(1000, len(tests.land.parcels))], "3, 10, and at most 1,000 features")
    tests.get("/api")
    tests.row("18", "core/fc-time-definition", defined["datetime"]["schema"]["type"] == "string", "`datetime` is a text, style `form`")
    days(tests)
    answers = [tests.get(PARCELS + "/items?" + query) for query in ("limit=0", "bbox=1,2,3", "datetime=x")]
    tests.row("20", "core/query-param-invalid", all(it[0] == 400 and it[2]["code"] for it in answers), "400 each, with what is wrong")
    status, _, body = tests.get(PARCELS + "/items?sortby=area")
    tests.row("21", "core/query-param-unknown", status == 400 and body["code"] == "unknown", "400 `unknown`")


def box(tests):
    whole = walk(f"{tests.base}{PARCELS}/items?limit=1000")
    place = lambda it: it["geometry"]["coordinates"][0][0]
    lon, lat = place(whole[0])
    west, south = round(lon - 0.00005, 5), round(lat - 0.00005, 5)
    found = tests.get(f"{PARCELS}/items?bbox={west},{south},{west + 0.0001:.5f},{south + 0.0001:.5f}")[2]
    nowhere = tests.get(f"{PARCELS}/items?bbox=100,10,101,11")[2]
    all_of_them = tests.get(f"{PARCELS}/items?bbox=-180,-90,180,90&limit=1000")[2]
    names = [it["id"] for it in found["features"]]
    good = whole[0]["id"] in names and len(names) < 5 and nowhere["features"] == [] and all_of_them["numberReturned"] == min(1000, len(whole))
    tests.row("15", "core/fc-bbox-response", good, "the parcels at a corner, none, all")


def days(tests):
    versions = tests.land.parcels.values()
    meets = lambda first, last: sum((it[1] <= last) and (it[2] is None or it[2] >= first) for it in versions)
    wanted = {"2012-05-01": meets("2012-05-01", "2012-05-01"), "2012-05-01T12:00:00Z": meets("2012-05-01", "2012-05-01"),
              "2000-01-01/2001-12-31": meets("2000-01-01", "2001-12-31"), "../1995-12-31": meets("0000-01-01", "1995-12-31"), "2020-01-01/..": meets("2020-01-01", "9999-12-31")}
    counts = {}
    for value in wanted:
        tests.get(f"{PARCELS}/items?datetime={value}")
        counts[value] = len(walk(f"{tests.base}{PARCELS}/items?limit=1000&datetime={value}"))
    if counts != wanted:
        print(f"{counts}, not {wanted}")
    tests.row("19", "core/fc-time-response", counts == wanted, "the versions whose days meet those, by the office's lines")


def responses(tests):
    status, fields, body = tests.get(PARCELS + "/items?limit=2")
    good = status == 200 and fields["Content-Type"] == GEOJSON and all(it["type"] == "Feature" and it["id"] for it in body["features"])
    tests.row("22", "core/fc-response", good, "features with identifiers, in GeoJSON")
    following = next(it["href"] for it in body["links"] if it["rel"] == "next")
    tests.get(PARCELS + "/items?limit=2")
    tests.sent.append(following.removeprefix(tests.base))
    two = json.loads(fetch(following)[2])
    names = [it["id"] for it in body["features"] + two["features"]]
    tests.row("23", "core/fc-links", tests.has_links(body, "self", "next") and len(set(names)) == 4, "links `self` and `next`; the next page has the next two")
    tests.get(PARCELS + "/items?limit=2")
    tests.row("24", "core/fc-timeStamp", re.fullmatch(r"\d{4}-\d\d-\d\dT\d\d:\d\d:\d\dZ", body["timeStamp"]) is not None, "the moment in UTC; a page of a revision has none")
    one = tests.get(PARCELS + "/items?unit=1000001")[2]
    wanted = sum(it[3]["unit"] == 1000001 for it in tests.land.parcels.values())
    tests.row("25", "core/fc-numberMatched", one["numberMatched"] == wanted == len(one["features"]), "their number, where the first page is the last")
    tests.get(PARCELS + "/items?limit=2")
    tests.row("26", "core/fc-numberReturned", body["numberReturned"] == 2 == len(body["features"]), "2, as many as there are")


def feature(tests):
    status, fields, body = tests.get(PARCELS + "/items/1.1")
    tests.row("27", "core/f-op", status == 200, "200")
    tests.get(PARCELS + "/items/1.1")
    tests.row("28", "core/f-success", fields["Content-Type"] == GEOJSON and (body["type"], body["id"]) == ("Feature", "1.1"), "the feature, in GeoJSON")
    tests.get(PARCELS + "/items/1.1")
    tests.row("29", "core/f-links", tests.has_links(body, "self", "collection"), "links `self` and `collection`")


def encodings(tests):
    status, fields, body = tests.get(PARCELS + "/items?f=json")
    tests.row("30", "geojson/definition", status == 200 and fields["Content-Type"] == GEOJSON, "`application/geo+json`")
    one = tests.get(PARCELS + "/items/1.1")[2]
    polygon = one["geometry"]
    good = polygon["type"] == "Polygon" and all(ring[0] == ring[-1] and len(ring) > 3 for ring in polygon["coordinates"]) and "properties" in one
    rights = tests.get("/collections/rights/items?limit=1")[2]
    tests.row("31", "geojson/content", good and rights["features"][0]["geometry"] is None, "a polygon of closed rings; null where there is no shape")
    document = tests.get("/api")[2]
    paths = {f"/collections/{name}{it}" for name in ("parcels", "rights", "restrictions", "units", "parties", "responsibilities") for it in ("", "/items", "/items/{id}")}
    tests.row("A.7", "oas30/completeness", paths <= set(document["paths"]), "each resource of Part 1 is a path")
    tests.get("/api")
    given = [it["get"]["responses"] for it in document["paths"].values()]
    tests.row("A.7", "oas30/exceptions-codes", all({"200", "4XX", "5XX"} <= set(it) for it in given), "200, and what comes with 4XX and 5XX")


def resolved(document, it):
    """A parameter, or the one that it refers to."""
    if "$ref" not in it:
        return it
    for part in it["$ref"].removeprefix("#/").split("/"):
        document = document[part]
    return document


def validated(document):
    """The faults of an API definition: by OpenAPI's schema, and of what a schema cannot say."""
    schema = json.loads(SCHEMA.read_text(encoding="utf-8"))
    found = [f"{'/'.join(map(str, it.path))}: {it.message[:120]}" for it in jsonschema.Draft4Validator(schema).iter_errors(document)]
    names = [it["get"]["operationId"] for it in document["paths"].values()]
    found += [f"an operation's name is not its own: {it}" for it in names if names.count(it) > 1]
    for path, it in document["paths"].items():
        given = [resolved(document, one) for one in it["get"]["parameters"]]
        in_path = {one["name"] for one in given if one["in"] == "path"}
        if in_path != set(re.findall(r"\{(\w+)\}", path)) or len({(one["name"], one["in"]) for one in given}) < len(given):
            found.append(f"the parameters of {path}")
    for it in re.findall(r'"#/([^"]+)"', json.dumps(document)):
        try:
            resolved(document, {"$ref": f"#/{it}"})
        except KeyError:
            found.append(f"{it} is referred to and does not exist")
    return found


def written(checks, table):
    """Compares the table with that of the document, or writes it there."""
    text = DOCUMENT.read_text(encoding="utf-8")
    start = text.index(HEAD)
    stored = text[start:].partition(END)[0].rstrip("\n")
    if os.environ.get("WRITE"):
        DOCUMENT.write_text(text[:start] + table + text[start + len(stored):], encoding="utf-8")
    else:
        checks.same("docs/GATEWAY.md has the table of tests", stored == table, True)
