"""Plain requests to the gateway: its resources, fields, exactness, faults, and a walk while the office writes."""
import json
from urllib.parse import quote, urlencode

from gateway_checks import CRS84, GEOJSON, METRES, fetch, gateway, identifiers, in_force, in_order, near, page, walk

FOREVER = "max-age=31536000, immutable"


def check(checks, land):
    with land.served("plain") as served:
        items = served.base + "/collections/parcels/items"
        exact(checks, land, served)
        fields(checks, served, items)
        views(checks, land, served.base)
        questions(checks, land, items)
        properties(checks, served.base)
        faults(checks, served.base, items)
        counted(checks, land, items)
        while_the_office_writes(checks, land, served, items)
    with land.served("restored") as served:
        restored(checks, served)
    with land.served("origin", "--allow-origin", "https://maps.example", "--url", "https://maps.example/land") as served:
        origin(checks, served)


def members(text):
    return text.partition(b'"features":')[2].partition(b'],"links":')[0]


def exact(checks, land, served):
    """All bytes of the features are the server's, except for decimal points and one name. Degrees are within a millimetre."""
    for name in ("parcels", "rights", "restrictions"):
        mine = members(fetch(f"{served.base}/collections/{name}/items?limit=1000&crs={quote(METRES, '')}")[2])
        theirs = members(fetch(f"{served.upstream}/collections/{name}/items?limit=1000")[2])
        back = json.loads(mine + b"]", parse_float=lambda it: int(it.replace(".", "")))
        text = json.dumps(back, ensure_ascii=False, separators=(",", ":")).replace('"last":', '"end":').encode()[:-1]
        checks.same(f"features of {name} in metres are the server's bytes", text == theirs, True)
    in_metres = {it["id"]: it["geometry"]["coordinates"] for it in walk(f"{served.base}/collections/parcels/items?limit=1000&crs={quote(METRES, '')}")}
    checks.holds("each corner in metres is the office's", all(near(rings, land.parcels[it][3]) for it, rings in in_metres.items()))
    checks.same("a walk has each version once, in order", list(in_metres), in_order(land.parcels))


def fields(checks, served, items):
    status, found, body = fetch(items + "?limit=3")
    tag, revision = found["ETag"], json.loads(body)["revision"]
    named = (found["Content-Type"], found["Content-Crs"], found["Cache-Control"])
    checks.same("a page names its media type, system and age", named, (GEOJSON, f"<{CRS84}>", "no-cache"))
    checks.holds("a page's next page is in its head", 'rel="next"' in found["Link"])
    checks.same("the same page is not sent again", fetch(items + "?limit=3", If_None_Match=tag)[0], 304)
    checks.same("another one is", fetch(items + "?limit=3", If_None_Match=tag.replace(f"{revision}", f"{revision - 1}"))[0], 200)
    status, found, body = fetch(f"{served.base}/revision/{revision}/collections/parcels/items?limit=3")
    checks.same("a page of a revision may be kept", found["Cache-Control"], FOREVER)
    following = next(it["href"] for it in page(items + "?limit=3")["links"] if it["rel"] == "next")
    checks.same("so may one that a link names", fetch(following)[1]["Cache-Control"], FOREVER)
    checks.same("a page of today may not", fetch(f"{served.base}/today/revision/{revision}/collections/parcels/items")[1]["Cache-Control"], "no-cache")
    status, found, body = fetch(items + "?limit=3", "HEAD")
    length = len(fetch(items + "?limit=3")[2])
    checks.same("HEAD has the fields and no body", (status, body, int(found["Content-Length"])), (200, b"", length))
    checks.same("a problem is not kept", fetch(items + "?limit=0")[1]["Cache-Control"], "no-store")
    for name in ("parcels", "units"):
        one = fetch(f"{served.base}/collections/{name}/items/{'1.1' if name == 'parcels' else '1000001.1'}")
        checks.same(f"a feature of {name} has its fields", (one[0], one[1]["Content-Type"], one[1]["Content-Crs"]), (200, GEOJSON, f"<{CRS84}>"))
        checks.holds(f"a feature of {name} links to its collection", any(it["rel"] == "collection" for it in json.loads(one[2])["links"]))


def views(checks, land, base):
    """What is in force today, open, of a day, of a revision, and of both."""
    wanted = lambda meets: in_order(number for number, it in land.parcels.items() if meets(it))
    listed = lambda path: identifiers(walk(f"{base}{path}/collections/parcels/items?limit=1000"))
    checks.same("open versions", listed("/open"), wanted(lambda it: it[2] is None))
    checks.same("versions of a day", listed("/day/2012-05-01"), wanted(lambda it: in_force(it, "2012-05-01")))
    checks.same("versions of a day at a revision", listed(f"/day/2012-05-01/revision/{land.revision}"), wanted(lambda it: in_force(it, "2012-05-01")))
    # every parcel of the village begins before this program was written
    checks.same("versions of today", listed("/today"), wanted(lambda it: in_force(it, "2026-01-01")))
    early = listed(f"/revision/{land.revision // 2}")
    checks.holds("an old revision has fewer", 0 < len(early) < len(land.parcels))
    spans = f"{base}/day/2012-05-01/collections/parcels/items?limit=1000&datetime=2019-01-01/.."
    both = wanted(lambda it: in_force(it, "2012-05-01") and (it[2] is None or it[2] >= "2019-01-01"))
    checks.same("a day of the address and days of the request", identifiers(walk(spans)), both)
    extent = page(base + "/collections/parcels")["extent"]
    corners = [point for it in land.parcels.values() for point in it[3]["shape"]]
    lowest = page(f"{base}/collections/parcels/items?crs={quote(METRES, '')}&bbox-crs={quote(METRES, '')}&bbox={min(x for x, _ in corners) / 1000 - 1},0,{min(x for x, _ in corners) / 1000},9e9")
    checks.holds("the village reaches to its extent", lowest["numberReturned"] >= 1)
    west, south, east, north = extent["spatial"]["bbox"][0]
    inside = walk(f"{base}/collections/parcels/items?limit=1000&bbox={west},{south},{east},{north}")
    checks.same("all parcels meet the extent", len(inside), len(land.parcels))
    checks.holds("the extent is no larger than a few metres", east - west < 0.016 and north - south < 0.009)
    checks.same("the extent in time", extent["temporal"]["interval"], [[min(it[1] for it in land.parcels.values()) + "T00:00:00Z", None]])
    checks.same("rights have no extent in space", "spatial" in page(base + "/collections/rights")["extent"], False)


def questions(checks, land, items):
    """Boxes, filters and queryables, against the office's lines."""
    wanted = lambda meets: in_order(number for number, it in land.parcels.items() if meets(it[3]))
    found = lambda **asked: identifiers(walk(items + "?" + urlencode({"limit": 1000, **{it.replace("_", "-"): value for it, value in asked.items()}})))
    unit = land.parcels["1.1"][3]["unit"]
    checks.same("a queryable as a parameter", found(unit=unit), wanted(lambda it: it["unit"] == unit))
    checks.same("a text as a parameter", found(label="1/1"), wanted(lambda it: it["label"] == "1/1"))
    checks.same("a queryable and a filter", found(filter="area > 600", unit=unit), wanted(lambda it: it["area"] > 600 and it["unit"] == unit))
    checks.same("a filter of two parts and a queryable", found(filter="area > 600 OR area < 600", unit=unit), wanted(lambda it: it["area"] != 600 and it["unit"] == unit))
    ring = land.parcels["1.1"][3]["shape"]
    x, y = (sum(it[at] for it in ring) / len(ring) / 1000 for at in (0, 1))
    checks.holds("a point in metres", "1.1" in found(filter=f"S_INTERSECTS(geometry, POINT({x:.3f} {y:.3f}))", filter_crs=METRES))
    box = f"{x - 5:.4f},{y - 5:.4f},{x + 5:.4f},{y + 5:.4f}"
    near_it = found(bbox=box, bbox_crs=METRES)
    checks.holds("a box in metres", "1.1" in near_it and len(near_it) < 5)
    corner = page(items + "/1.1")["geometry"]["coordinates"][0]
    lon, lat = (sum(it[at] for it in corner[:-1]) / (len(corner) - 1) for at in (0, 1))
    checks.holds("a point in degrees", "1.1" in found(filter=f"S_INTERSECTS(geometry, POINT({lon} {lat}))"))
    box = f"{lon - 5e-5},{lat - 5e-5},{lon + 5e-5},{lat + 5e-5}"
    checks.holds("a box in degrees", "1.1" in found(bbox=box) and len(found(bbox=box)) < 5)
    checks.same("a box with heights", found(bbox=f"{lon - 5e-5},{lat - 5e-5},0,{lon + 5e-5},{lat + 5e-5},9"), found(bbox=box))
    checks.same("a box elsewhere", found(bbox="100,10,101,11"), [])
    checks.same("the world", len(found(bbox="-180,-90,180,90")), len(land.parcels))
    rights = items.replace("parcels", "rights")
    checks.same("null geometries meet no box", page(rights + "?bbox=-180,-90,180,90")["numberReturned"], 0)


def properties(checks, base):
    """The last day is called `last` everywhere. QGIS 3.22 takes wrong features by a condition on a property named `end`."""
    names = lambda path: page(f"{base}/collections/parcels/{path}")["properties"]
    shown = names("items/1.1")
    checks.same("a feature has `last` and no `end`", ("last" in shown, "end" in shown), (True, False))
    checks.same("queryables have `last` and no `end`", ("last" in names("queryables"), "end" in names("queryables")), (True, False))
    fields = names("schema")["properties"]["properties"]
    checks.same("the schema has the properties of a feature", set(fields), set(shown))
    checks.same("the schema has their kinds", (fields["area"], fields["last"]), ({"type": "integer"}, {"type": "string", "format": "date"}))
    checks.same("`last` in a filter", page(f"{base}/collections/parcels/items?filter=last+IS+NOT+NULL&limit=1")["numberReturned"], 1)
    document = page(base + "/api")
    taken = document["components"]["parameters"]
    checks.same("the API definition offers no draft of the language", taken["filter-lang"]["schema"]["enum"], ["cql2-text"])
    bad = [it for it in document["paths"] if "{id}" not in it and fetch(base + it)[0] != 200]
    checks.same("each path of the API definition responds", bad, [])
    pinned = page(base + "/revision/1/api")
    checks.same("at a revision there is no parameter for it", "revision" in pinned["components"]["parameters"], False)


def faults(checks, base, items):
    asked = {"filter": "S_INTERSECTS(geometry, POINT(8.68 49.88)) AND label > 5", "unit": 5}
    status, found, body = fetch(items + "?" + urlencode(asked))
    found_fault = json.loads(body)
    checks.same("a filter's fault has its place in the client's text", (status, found["Content-Type"], found_fault["code"], found_fault["cause"], found_fault["place"]),
                (400, "application/problem+json", "filter", "WrongKind", len(asked["filter"]) - 1))
    checks.holds("a problem has the members of Part 1 and of RFC 7807", {"code", "description", "title", "status", "detail"} <= set(found_fault))
    both = "SELECT" * 1000 + " = 1 AND area > 0"
    for more, code in (
            ("sortby=area", "unknown"), ("bbox=1,2,3", "bbox"), ("bbox=2,0,1,1", "bbox"), ("limit=0", "limit"), ("revision=999999999", "revision"),
            ("revision=x", "revision"), ("crs=EPSG:4326", "crs"), ("bbox-crs=x&bbox=1,2,3,4", "bbox-crs"), ("limit=1&limit=2", "repeated"), ("f=html", "f"),
            ("filter=a)+OR+(b", "filter"), ("filter=area+%3E&unit=5", "filter"), ("filter-lang=cql-text", "filter-lang"), ("datetime=x", "datetime"),
            ("unit=1+OR+TRUE", "unit"), ("begin=x", "begin"), ("after=x", "after"), (urlencode({"filter": both, "unit": 5}), "filter"),
            ("&".join(f"a{it}=1" for it in range(70)), "unknown"), (f"filter=POINT(1.0005+2)+IS+NULL&filter-crs={quote(METRES, '')}", "filter"),
            ("filter=S_INTERSECTS(geometry,BBOX(8,49,9,50))", "filter")):
        status, _, body = fetch(f"{items}?{more}")
        checks.same(f"items?{more[:60]}", (status, json.loads(body).get("code")), (400, code))
    # QGIS and GDAL mean "versions that begin then" by these, and would get all that are in force
    for value in ("2000-01-01T00:00:00Z/9999-12-31T00:00:00Z", "2000-01-01T/..", "0000-01-01T00:00:00Z/2010-01-01T00:00:00Z"):
        status, _, body = fetch(f"{items}?datetime={value}")
        checks.same(f"a guessed datetime {value}", (status, "to_date" in json.loads(body).get("detail", "")), (400, True))
    for path, wanted in (
            ("/collections/lakes", 404), ("/day/2012-02-30/", 404), ("/revision/999999999/collections/parcels/items", 404),
            ("/revision/999999999/collections", 404), ("/../etc/passwd", 404), ("/collections/parcels/items/1.9", 404), ("/collections/parcels/items/x", 404),
            ("/collections/parcels/items/..%2f..%2f", 404), ("/collections/parcels/items/1.1?limit=1", 400), ("/collections/parcels/items/1.1", 200),
            ("/revision/1/collections/parcels/items/1.1", 404), ("//collections", 404), ("/collections/", 404)):
        checks.same(path, fetch(base + path)[0], wanted)
    for method in ("POST", "PUT", "DELETE", "PATCH"):
        status, found, body = fetch(items, method)
        checks.same(f"{method} is refused", (status, found["Allow"], json.loads(body)["code"]), (405, "GET,HEAD", "method"))
    checks.holds("links do not follow the field Host", "evil" not in fetch(base + "/", Host="evil.example")[2].decode())


def counted(checks, land, items):
    """A page has the number of matched features where it costs nothing."""
    number = lambda query: page(items + query).get("numberMatched")
    checks.same("a page that is whole has their number", number("?unit=1000001"), sum(it[3]["unit"] == 1000001 for it in land.parcels.values()))
    checks.same("one of several pages has not", number("?limit=5"), None)
    last = in_order(land.parcels)[-2]
    checks.same("nor does the last of several", (number(f"?after={last}"), page(f"{items}?after={last}")["numberReturned"]), (None, 1))


def while_the_office_writes(checks, land, served, items):
    before = fetch(items + "?limit=3")
    revision = json.loads(before[2])["revision"]
    pinned = fetch(f"{served.base}/revision/{revision}/collections/parcels/items?limit=3")[2]
    unit = {"do": "amend", "object": 1000001, "first": "2024-01-01", "unit": {"name": "Renamed"}}
    parcel = {"do": "retire", "object": land.open_parcel()[0], "last": "2025-12-31"}
    served.enter(unit, parcel)
    changed = fetch(items + "?limit=3", If_None_Match=before[1]["ETag"])
    checks.same("a changed page is sent again", (changed[0], changed[2] == before[2]), (200, False))
    checks.same("the page of the old revision has the same bytes", fetch(f"{served.base}/revision/{revision}/collections/parcels/items?limit=3")[2] == pinned, True)
    size = len(land.parcels) // 5 + 1
    found = walk(f"{items}?limit={size}", served.enter_one)
    checks.same("a walk while the office writes has each version once, in order", identifiers(found), in_order(land.parcels))
    checks.same("then there are newer revisions, one for each page", page(items + "?limit=1")["revision"], revision + 2 + -(-len(land.parcels) // size))


def restored(checks, served):
    """A restored register gives numbers of revisions to other commands. So names of a later edition are others, and those of an earlier one are gone."""
    served.enter_one()
    with gateway(served.upstream, "--edition", "2") as base:
        revision = page(base + "/collections/units/items?limit=1")["revision"]
        checks.same("a revision of an earlier edition is gone", fetch(f"{base}/revision/{revision}/collections/units/items")[0], 410)
        checks.same("also as a parameter", fetch(f"{base}/collections/units/items?revision={revision}")[0], 410)
        checks.same("there is no revision of a later edition", fetch(f"{base}/revision/3.{revision}/collections/units/items")[0], 404)
        status, found, body = fetch(f"{base}/revision/2.{revision}/collections/units/items?limit=2")
        checks.same("a revision with its edition is kept", (status, found["Cache-Control"]), (200, FOREVER))
        links = [it["href"] for it in json.loads(body)["links"] + page(base + "/collections/units/items?limit=2")["links"]]
        checks.same("links name revisions with their edition", [it for it in links if f"revision={revision}" in it or f"revision/{revision}" in it], [])
        checks.holds("the next page is found by its link", fetch(next(it for it in links if "after=" in it and "?limit=2&revision=2." in it))[0] == 200)
        tags = [fetch(f"{it}/collections/units/items?limit=1")[1]["ETag"] for it in (base, served.base)]
        checks.holds("pages of two editions have other tags", tags[0] != tags[1])


def origin(checks, served):
    items = served.base + "/collections/parcels/items"
    for url, wanted in ((items, 200), (items + "?limit=0", 400), (items + "?limit=1000", 200), (served.base + "/nothing", 404)):
        status, found, _ = fetch(url)
        checks.same(f"a page of another origin may read {wanted}", (status, found["Access-Control-Allow-Origin"]), (wanted, "https://maps.example"))
    status, found, _ = fetch(items, "OPTIONS")
    checks.same("it may ask before", (status, found["Access-Control-Allow-Headers"]), (204, "Authorization, If-None-Match"))
    links = [it["href"] for it in page(served.base + "/")["links"] + page(items)["links"]]
    checks.same("links begin with the address that was given", [it for it in links if not it.startswith("https://maps.example/land/")], [])
