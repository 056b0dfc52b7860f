"""Tests of the gateway's parts that need no server: coordinates, boxes, filters, pages and revisions.

    /usr/bin/python3 -m unittest scripts/gateway_units.py       GATEWAY names another folder of the gateway
"""
import asyncio
import json
import os
import random
import sys
import time
import unittest
from pathlib import Path

sys.path.insert(0, os.environ.get("GATEWAY") or str(Path(__file__).resolve().parent.parent / "gateway"))

import filters  # noqa: E402
import pages  # noqa: E402
from plane import LIMIT, Plane  # noqa: E402
from problems import Problem, Refused  # noqa: E402
from views import Edition  # noqa: E402

PLANE = Plane("EPSG:25832")
TURNED = Plane("EPSG:31467")  # its first axis points to the north
PAGE = (b'{"features":[%b],"links":[{"href":"/collections/units/items?limit=2","rel":"self","type":"application/json"},'
        b'{"href":"/collections/units/items?limit=2&revision=10&after=2.1","rel":"next","type":"application/json"}],'
        b'"numberReturned":2,"revision":10,"type":"FeatureCollection"}')
FEATURE = (b'{"geometry":{"coordinates":[[[477014050,5526008853],[477031457,5526007767],[477031501,-5]]],"type":"Polygon"},"id":"%d.1",'
           b'"properties":{"label":"%b"},"type":"Feature"}')
NASTY = rb'[1,2]\"coordinates\":[3,4]},{\"geometry\":],\"links\":'


async def made(chunks, write=lambda it: it):
    async def given():
        for it in chunks:
            yield it
    return b"".join([it async for it in pages.pieces(given(), write, lambda members: {"numberReturned": members["numberReturned"]})])


class Coordinates(unittest.TestCase):
    def test_metres_are_exact(self):
        draw = random.Random(2)
        for number in [0, 5, -5, 999, -1050, LIMIT, -LIMIT, *(draw.randint(-LIMIT, LIMIT) for _ in range(20000))]:
            found = PLANE.write(b'"coordinates":[%d,0]' % number, False)
            whole, part = divmod(abs(number), 1000)
            self.assertEqual(found, b'"coordinates":[%b%d.%03d,0.000]' % (b"-" if number < 0 else b"", whole, part))

    def test_degrees_round_back(self):
        draw = random.Random(1)
        points = [(draw.randint(200_000_000, 800_000_000), draw.randint(5_200_000_000, 6_100_000_000)) for _ in range(20000)]
        text = json.dumps({"coordinates": points}, separators=(",", ":")).encode()
        # lists as long as these are not to be printed
        self.assertTrue(PLANE.millimetres(json.loads(PLANE.write(text, True))["coordinates"]) == points)
        self.assertTrue([tuple(round(1000 * it) for it in point) for point in json.loads(PLANE.write(text, False))["coordinates"]] == points)

    def test_only_coordinates_change(self):
        text = FEATURE % (1, NASTY)
        for plane, first in ((PLANE, b"[477014.050,5526008.853],[477031.457,5526007.767],[477031.501,-0.005]"),
                             (TURNED, b"[5526008.853,477014.050],[5526007.767,477031.457],[-0.005,477031.501]")):
            found = plane.write(text, False)
            self.assertIn(first, found)
            self.assertEqual(json.loads(found)["properties"], json.loads(text)["properties"])
        self.assertEqual(json.loads(PLANE.write(text, True))["properties"], json.loads(text)["properties"])
        self.assertEqual(PLANE.write(b'{"geometry":null}', True), b'{"geometry":null}')


class Boxes(unittest.TestCase):
    def test_metres_go_outwards(self):
        self.assertEqual(PLANE.box("0.0000000000000000000000000001,0,1.0000000000000000000000000001,2", False), ("0,0,1001,2000", None))
        self.assertEqual(PLANE.box("1.0001,-1.0001,2,3.5", False), ("1000,-1001,2000,3500", None))
        self.assertEqual(PLANE.box("1,2,0,3,4,9", False), ("1000,2000,3000,4000", None))
        self.assertEqual(TURNED.box("2,1,4,3", False), ("1000,2000,3000,4000", None))
        self.assertEqual(PLANE.box("-1e20,0,1e20,1", False)[0], "-100000000000,0,100000000000,1000")

    def test_degrees_become_a_ring(self):
        box, condition = PLANE.box("8.68,49.88,8.69,49.89", True)
        self.assertIsNone(box)
        self.assertTrue(condition.startswith("S_INTERSECTS(geometry, POLYGON(("))

    def test_ring_follows_the_edge(self):
        """No point of an edge of degrees is more than two millimetres off the ring."""
        west, south, east, north = 8.6, 49.8, 8.74, 49.89  # ten kilometres
        ring = PLANE.ring([(west, south), (east, south), (east, north), (west, north)], 250)
        for share in (it / 997 for it in range(998)):
            point = PLANE.millimetres([(west + (east - west) * share, south)])[0]
            self.assertLess(min(distance(point, a, b) for a, b in zip(ring, ring[1:] + ring[:1])), 2)

    def test_world_and_elsewhere(self):
        self.assertEqual(PLANE.box("-180,-90,180,90", True), ("-100000000000,-100000000000,100000000000,100000000000", None))
        self.assertEqual(PLANE.box("100,10,101,11", True), (None, "FALSE"))

    def test_refused(self):
        for text in ("1,2,3", "1,2,3,nan", "2,0,1,1", "1,2,3,4,5", "", "1,2,3,4e999", "170,0,-170,1"):
            with self.assertRaises(Refused):
                PLANE.box(text, True)


class Filters(unittest.TestCase):
    def check(self, given, wanted):
        self.assertEqual(filters.Filter(given, PLANE, False).text, wanted)

    def test_metres(self):
        self.check("S_INTERSECTS(geometry, POINT(1.5 -2))", "S_INTERSECTS(geometry, POINT(1500 -2000))")
        self.check("S_WITHIN(geometry, bbox(0,0,.001,1.0))", "S_WITHIN(geometry, bbox(0,0,1,1000))")
        self.check("label = 'POINT(1 2)' AND \"POINT\" = 1.5 AND area > 2.5", "label = 'POINT(1 2)' AND \"POINT\" = 1.5 AND area > 2.5")
        self.check("POLYGON((0 0,1 0,0 1,0 0)) IS NULL", "POLYGON((0 0,1000 0,0 1000,0 0)) IS NULL")
        self.check("POINT(1e3 2) IS NULL", "POINT(1e3 2000) IS NULL")
        self.check("POINT(1.2.3 4) IS NULL", "POINT(1.2.3 4) IS NULL")  # no number, and the server says so
        self.check("POINT(99999999999999999999999999999.001 -2)", "POINT(99999999999999999999999999999001 -2000)")
        with self.assertRaises(Refused) as it:
            filters.Filter("\"ü\" = 1 AND POINT(1.0005 2) IS NULL", PLANE, False)
        self.assertEqual((it.exception.more["cause"], it.exception.more["place"]), ("NotWhole", 19))
        for text in ("POINT(1.0000000000000000000000000000001 2)", f"POINT({'1' * 5000} 2)"):
            with self.assertRaises(Refused):
                filters.Filter(text, PLANE, False)

    def test_strange_texts_take_no_time(self):
        """Neither blanks nor parentheses without end hold up other clients."""
        begun = time.process_time()
        for text in ("POINT(1" + " " * 8000 + ")", "POLYGON(" + "(1 2," * 1300, "POINT(" * 1300, "POLYGON((" + "1 2," * 1900 + "1 2)", "'" + "\\" * 8000):
            for in_degrees in (True, False):
                filters.Filter(text, PLANE, in_degrees)
        self.assertLess(time.process_time() - begun, 1)

    def test_the_name_of_end(self):
        self.check("last IS NULL AND \"last\" = 'last'", "end IS NULL AND \"end\" = 'last'")
        it = filters.Filter("last = 5 AND label > 5", PLANE, False)
        self.assertEqual((it.place(0), it.place(it.text.index("label"))), (0, 13))
        self.assertEqual(filters.equality("last", {"type": "string", "format": "date"}, "2001-01-01"), "\"end\" = DATE('2001-01-01')")

    def test_faults_stay_the_servers(self):
        for text in ("area >", "a) OR (b", "label = 'x", "POINT(1 2", "POINT 5", "area # 1", "label = '\\\\'"):
            it = filters.Filter(text, PLANE, True)
            self.assertEqual(it.text, text)

    def test_balance(self):
        self.assertFalse(filters.Filter("area > 1) OR (area < 0", PLANE, True).balanced)
        self.assertFalse(filters.Filter("label = 'a\\') OR TRUE OR (label = 'b'", PLANE, True).balanced)
        self.assertFalse(filters.Filter("(area > 1", PLANE, True).balanced)
        self.assertTrue(filters.Filter("label = ')' OR \"(\" = 1", PLANE, True).balanced)

    def test_places(self):
        it = filters.Filter("S_INTERSECTS(geometry, POINT(8.68 49.88)) AND label > 5", PLANE, True)
        self.assertEqual(it.place(it.text.index("5", len(it.text) - 1)), len(it.given) - 1)
        self.assertEqual(it.place(it.text.index("POINT")), 23)
        self.assertEqual(it.place(it.text.index("POINT") + 8), 28)

    def test_degrees(self):
        self.assertRegex(filters.Filter("POINT(9 50) IS NULL", PLANE, True).text, r"^POINT\(500000000 5538630703\) IS NULL$")
        with self.assertRaises(Refused):
            filters.Filter("S_WITHIN(geometry, BBOX(8,49,9,50))", PLANE, True)
        with self.assertRaises(Refused):
            filters.Filter("POINT(477020 5526010) IS NULL", PLANE, True)
        self.assertEqual(filters.Filter("POINT(8.5.1 49) IS NULL", PLANE, True).text, "POINT(8.5.1 49) IS NULL")
        ring = filters.Filter("POLYGON ( ( 8 49 , 9 49,9 50 , 8 49 ) ) IS NULL", PLANE, True).text
        self.assertRegex(ring, r"^POLYGON\(\((426857988 5427937523),(-?\d+ -?\d+,){100,}\1\)\) IS NULL$")

    def test_equality(self):
        self.assertEqual(filters.equality("label", {"type": "string"}, "O'Hara"), "\"label\" = 'O''Hara'")
        for kind, value in (({"type": "string"}, "a\\"), ({"type": "string"}, "a\\'b"), ({"type": "integer"}, "1 OR TRUE"),
                            ({"type": "boolean"}, "x"), ({"type": "string", "format": "date"}, "x')")):
            with self.assertRaises(Refused):
                filters.equality("it", kind, value)


class Pages(unittest.TestCase):
    def test_cut_anywhere(self):
        for features in ([], [FEATURE % (1, b"x")], [FEATURE % (1, NASTY), FEATURE % (2, NASTY), FEATURE % (3, b"")]):
            body = PAGE % b",".join(features)
            whole = asyncio.run(made([body]))
            wanted = {"type": "FeatureCollection", "features": [json.loads(it) for it in features], "numberReturned": 2}
            self.assertEqual(json.loads(whole), wanted)
            for cut in range(1, len(body)):
                self.assertEqual(asyncio.run(made([body[:cut], body[cut:]])), whole)

    def test_broken(self):
        body = PAGE % (FEATURE % (1, b"x"))
        for cut in (5, 100, len(body) - 1):
            with self.assertRaises(pages.Broken):
                asyncio.run(made([body[:cut]]))

    def test_single(self):
        found = json.loads(pages.single(PAGE % (FEATURE % (1, b"x")), [{"rel": "self"}]))
        self.assertEqual((found["id"], found["links"]), ("1.1", [{"rel": "self"}]))
        self.assertIsNone(pages.single(PAGE % b"", []))


class Editions(unittest.TestCase):
    """An address of one edition means nothing else in a later one."""

    def test_names(self):
        first, second = Edition(1), Edition(2)
        self.assertEqual((first.name(4109), second.name(4109)), ("4109", "2.4109"))
        self.assertEqual((first.number_of("4109"), second.number_of("2.4109")), (4109, 4109))

    def test_others(self):
        for number, name, status in ((2, "4109", 410), (3, "2.4109", 410), (1, "2.4109", 404), (1, "-1", 400), (1, "x", 400), (2, "2.", 400), (1, "1" * 19, 400)):
            with self.assertRaises(Problem) as it:
                Edition(number).number_of(name)
            self.assertEqual(it.exception.status, status)


def distance(p, a, b):
    """From a point to a segment."""
    size = (b[0] - a[0]) ** 2 + (b[1] - a[1]) ** 2
    share = max(0, min(1, ((p[0] - a[0]) * (b[0] - a[0]) + (p[1] - a[1]) * (b[1] - a[1])) / size)) if size else 0
    return ((p[0] - a[0] - share * (b[0] - a[0])) ** 2 + (p[1] - a[1] - share * (b[1] - a[1])) ** 2) ** 0.5


if __name__ == "__main__":
    unittest.main()
