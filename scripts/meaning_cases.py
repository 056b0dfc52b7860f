#!/usr/bin/env python3
"""Writes the cases of meaning in crates/cql_cases/stdin: which features of the sample register filters take."""

DAY = "parcels/2012-05-01"
RELATIONS = ("AFTER BEFORE DISJOINT INTERSECTS EQUALS CONTAINS DURING MEETS METBY STARTS STARTEDBY FINISHES FINISHEDBY "
             "OVERLAPS OVERLAPPEDBY").split()
SHAPES = ["POINT(0 0)", "POINT(20000 10000)", "POINT(10000 10000)", "POINT(15000 45000)", "POINT(25000 55000)",
          "BBOX(0,0,20000,20000)", "BBOX(20001,1,39999,19999)", "BBOX(-10,-10,-1,-1)", "BBOX(19000,19000,21000,31000)",
          "POLYGON((0 0, 20000 0, 20000 20000, 0 20000, 0 0))", "POLYGON((1 1, 2 1, 2 2, 1 1))",
          "POLYGON((-50 -50, 50000 -50, 50000 70000, -50 70000, -50 -50))"]


def written():
    """The filters that users ask about first."""
    for text in ("area > 390", "NOT area > 390", "area = area", "area * 0 = 0", "area - area = 0",
                 "area NOT BETWEEN 500 AND 1000 div 0", "area IN (380, area * 0 + 900, 1 div 0)",
                 "area NOT IN (380, area * 0 + 900, 1 div 0)", "1000 div area > 1", "area % 7 - 2 * 3 < 0",
                 "-7 div 2 = -3 AND -7 % 2 = -1",
                 "-9223372036854775808 div -1 IS NULL AND -9223372036854775808 % -1 = 0",
                 "area + 9223372036854775807 > 0", "unit_name IS NULL", "geometry IS NULL", "label LIKE 'C\\%%'",
                 "CASEI(label) LIKE CASEI('B-_')",
                 "S_INTERSECTS(geometry, POLYGON((5000 5000, 6000 5000, 5000 6000, 5000 5000)))",
                 "S_WITHIN(geometry, BBOX(0,0,40000,20000))", "S_WITHIN(POINT(0 0), BBOX(0,0,1,1))",
                 "S_INTERSECTS(geometry, POINT(20000 10000))", "S_DISJOINT(geometry, POINT(20000 10000))",
                 "S_INTERSECTS(geometry, POINT(25000 55000))", "S_INTERSECTS(geometry, POINT(15000 45000))",
                 "S_CONTAINS(geometry, POINT(15000 45000))",
                 "T_DURING(begin, INTERVAL('2003-01-01','2006-01-01'))", "T_CONTAINS(lifespan, DATE('2004-01-01'))",
                 "T_AFTER(DATE('2020-01-01'), INTERVAL(begin, end))",
                 "NOT T_AFTER(DATE('2020-01-01'), INTERVAL(begin, end))"):
        yield DAY, text
    yield "parcels", "T_AFTER(DATE('2020-01-01'), INTERVAL(begin, end))"
    yield "rights/2012-05-01", "CASEI(party_name) = 'ana strasse'"
    yield "restrictions/2012-05-01", "party_required = FALSE"


def days():
    """Requested days on both sides of each edge."""
    for asked in ("2000-12-31", "2001-01-01", "2009-12-31", "2010-01-01", "2009-12-31/2010-01-01", "../2003-01-01",
                  "2005-06-01/..", "../..", "2005-05-31", "/", "9999-12-31"):
        yield f"parcels/{asked}", "area > 0"
        yield f"parcels/{asked}", "TRUE"
    for name in ("rights", "restrictions", "units", "parties"):
        for asked in ("1999-12-31", "2000-01-01", "2005-12-31", "2012-05-01", "../2004-12-31"):
            yield f"{name}/{asked}", "TRUE"


def wholes():
    """Sums and products: bounds of each step, division cut toward zero, missing values, and division by zero."""
    for text in ("area + 1 = 381", "area - 380 = 0", "area * 2 = 1800", "2 * area - area = area", "area div 7 = 54",
                 "area % 7 = 4", "-(0) = area", "area - 400 < 0", "(area - 900) div 7 = -74", "(area - 900) % 7 = -2",
                 "-7 div -2 = 3", "7 div -2 = -3", "7 % -2 = 1", "-7 % -2 = -1", "1 div 0 IS NULL", "1 % 0 IS NULL",
                 "area div area = 1", "area div area IS NULL", "area + 9223372036854775807 IS NULL",
                 "9223372036854775807 + 1 - 1 IS NULL", "9223372036854775807 - 1 + 1 = 9223372036854775807",
                 "-9223372036854775808 - 1 IS NULL", "4611686018427387904 * 2 IS NULL", "4611686018427387904 * -2 < 0",
                 "3037000500 * 3037000500 IS NULL", "3037000499 * 3037000499 > 0", "area * area = 810000",
                 "object + number * 100 = 301", "unit = 10 AND object < 2", "area IS NULL", "area IS NOT NULL",
                 "area BETWEEN 380 AND 900", "area BETWEEN 900 AND 380", "area NOT BETWEEN 380 AND 899",
                 "area BETWEEN unit AND 400", "area BETWEEN 0 AND 1 div 0", "NOT area BETWEEN 500 AND 1 div 0",
                 "area IN (0, 380)", "area NOT IN (0, 380)", "area IN (1 div 0)", "NOT area IN (1 div 0)",
                 "object IN (unit - 9, unit - 8, unit - 7)", "5 < 3", "3 < 5", "1 div 0 = 1 OR area = 0",
                 "1 div 0 = 1 AND area = 0", "NOT (1 div 0 = 1 AND area = 0)", "NOT (1 div 0 = 1 OR area = 0)"):
        yield "parcels", text
    for sign in ("=", "<>", "<", ">", "<=", ">="):
        for edge in (379, 380, 381):
            yield "parcels", f"area {sign} {edge}"
            yield "parcels", f"{edge} {sign} area"


def texts():
    """Texts: order by code points, patterns, folding."""
    for text in ("label = 'A-1'", "label <> 'A-1'", "label < 'B'", "label < 'b'", "label > 'A-1'", "label >= 'A-2'",
                 "label <= 'C%1'", "'A' < 'a'", "'Z' < 'a'", "'a' < 'é'", "'é' < '😀'", "'' < 'a'", "'ab' < 'b'",
                 "'B' < 'a'",
                 "'a' = 'A'", "CASEI('a') = CASEI('A')", "CASEI('ß') = 'ss'", "CASEI('ẞ') = 'ss'", "CASEI('İ') = 'i'",
                 "CASEI('ﬁ') = 'fi'", "CASEI('Σς') = 'σσ'", "CASEI(label) = 'a-1'", "CASEI(CASEI(label)) = 'a-1'",
                 "label LIKE 'A%'", "label LIKE 'A-_'", "label LIKE '_-_'", "label LIKE '%'", "label LIKE ''",
                 "label LIKE '%-%'", "label LIKE '%1'", "label LIKE '%1%'", "label LIKE 'A-1'", "label LIKE 'a-1'",
                 "label LIKE '___'", "label LIKE '____'", "label LIKE 'C\\%1'", "label LIKE 'C%1'", "label LIKE 'C_1'",
                 "label LIKE '\\A-1'", "label NOT LIKE 'A%'", "NOT label LIKE 'A%'", "NOT label NOT LIKE 'A%'",
                 "'' LIKE '%'", "'' LIKE '_'", "'ß' LIKE '_'", "'😀' LIKE '_'", "'ab' LIKE 'a\\%'", "'a%' LIKE 'a\\%'",
                 "'a_' LIKE 'a\\_'", "'aab' LIKE '%ab'", "'abab' LIKE '%ab'", "'aba' LIKE '%ab'", "'abcabd' LIKE '%ab%d'",
                 "'It''s' LIKE '%''s'", "CASEI('Straße') = CASEI('STRASSE')",
                 "CASEI('Straße') LIKE CASEI('STRASSE')", "CASEI('Straße') LIKE CASEI('Stra__e')",
                 "label IN ('A-1', 'b-7')", "label NOT IN ('A-1', 'b-7')", "label IN (CASEI('B-7'))", "unit_name = 'Mill'",
                 "unit_name <> 'Mill'", "unit_name LIKE '%'", "unit_name NOT LIKE '%'", "unit_name IS NOT NULL",
                 "unit_name IN ('Mill', unit_name)", "label IN (unit_name, 'b-7')", "NOT label IN (unit_name, 'b-7')"):
        yield "parcels", text
    for text in ("party_name = 'Ana Straße'", "party_name LIKE 'Ana Stra_e'", "party_name LIKE 'Ana Stra__e'",
                 "CASEI(party_name) LIKE 'ana stra__e'", "type = 'ownership'", "share_num * 2 = share_den",
                 "share_num IS NULL", "unit_name = 'Mill' AND party = 20"):
        yield "rights", text
    for text in ("party IS NULL", "party_name IS NULL", "share_num = 1", "NOT share_num = 1", "party_required",
                 "party_required = TRUE", "party_required <> TRUE", "party_required IN (TRUE, FALSE)",
                 "party_required IS NULL", "TRUE = FALSE", "NOT party_required = TRUE", "unit = 11"):
        yield "restrictions", text
    for text in ("name = 'Mill'", "name <> 'Mill'", "name IS NULL", "object >= 10", "NOT name LIKE 'M%'"):
        yield "units", text
    for text in ("type = 'naturalPerson'", "CASEI(type) = 'naturalperson'", "name LIKE '%ß%'", "CASEI(name) LIKE '%ss%'"):
        yield "parties", text


def times():
    """The fifteen relations, with days, intervals, open ends and ends without a day."""
    asked = ["DATE('2005-06-01')", "DATE('2003-01-01')", "INTERVAL('2001-01-01', '2009-12-31')",
             "INTERVAL('2003-01-01', '..')", "INTERVAL('..', '2009-12-31')", "INTERVAL('..', '..')",
             "INTERVAL('2009-12-31', '2010-01-01')", "INTERVAL(begin, end)", "lifespan"]
    for name in RELATIONS:
        for other in asked:
            yield "parcels", f"T_{name}(lifespan, {other})"
        yield "parcels", f"T_{name}(begin, INTERVAL('2001-01-01', '2003-01-01'))"
        yield "parcels", f"NOT T_{name}(DATE('2009-12-31'), INTERVAL(begin, end))"
    for text in ("begin = DATE('2003-01-01')", "begin < DATE('2003-01-01')", "end > DATE('2000-01-01')", "end IS NULL",
                 "NOT end > DATE('2000-01-01')", "begin IN (DATE('2001-01-01'), end)", "begin <> end", "end >= begin",
                 "NOT begin IN (DATE('2001-01-01'), end)", "INTERVAL(end, begin) IS NULL",
                 "INTERVAL(begin, end) IS NULL", "INTERVAL(begin, '2002-01-01') IS NULL", "lifespan IS NULL",
                 "T_STARTS(INTERVAL('..','2001-01-01'), INTERVAL('..','2002-01-01'))",
                 "T_EQUALS(INTERVAL('..','2001-01-01'), INTERVAL('..','2001-01-01'))",
                 "T_INTERSECTS(INTERVAL(begin, '2002-01-01'), DATE('2001-06-01'))",
                 "NOT T_INTERSECTS(INTERVAL(begin, '2002-01-01'), DATE('2001-06-01'))"):
        yield "parcels", text


def shapes():
    """Points, boxes and regions, on corners and edges, inside and outside of parcels."""
    for shape in SHAPES:
        yield "parcels", f"S_INTERSECTS(geometry, {shape})"
        yield "parcels", f"S_INTERSECTS({shape}, geometry)"
        yield "parcels", f"S_DISJOINT(geometry, {shape})"
        yield "parcels", f"NOT S_DISJOINT(geometry, {shape})"
        yield "parcels", f"S_INTERSECTS(reference_point, {shape})"
        if shape.startswith("POINT"):
            yield "parcels", f"S_WITHIN({shape}, geometry)"
            yield "parcels", f"S_CONTAINS(geometry, {shape})"
            yield "parcels", f"NOT S_CONTAINS(geometry, {shape})"
        if shape.startswith("BBOX"):
            yield "parcels", f"S_WITHIN(geometry, {shape})"
            yield "parcels", f"S_CONTAINS({shape}, geometry)"
            yield "parcels", f"NOT S_WITHIN(geometry, {shape})"
    for text in ("S_INTERSECTS(geometry, geometry)", "S_DISJOINT(geometry, geometry)", "S_WITHIN(POINT(1 1), POINT(1 1))",
                 "S_WITHIN(POINT(1 1), POINT(1 2))", "S_WITHIN(POINT(1 1), BBOX(1,0,2,2))",
                 "S_WITHIN(BBOX(0,0,1,1), BBOX(0,0,1,1))", "S_CONTAINS(BBOX(0,0,1,1), BBOX(0,0,1,2))",
                 "S_INTERSECTS(BBOX(0,0,1,1), BBOX(1,1,2,2))", "S_INTERSECTS(BBOX(0,0,9,9), BBOX(3,3,4,4))",
                 "S_INTERSECTS(POINT(0 0), BBOX(0,0,1,1))",
                 "reference_point IS NULL", "S_INTERSECTS(reference_point, geometry) OR geometry IS NULL"):
        yield "parcels", text


def main():
    seen = set()
    for name, text in (*written(), *days(), *wholes(), *texts(), *times(), *shapes()):
        if (name, text) not in seen:
            print(f"{name} {text}")
        seen.add((name, text))


if __name__ == "__main__":
    main()
