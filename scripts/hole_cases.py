#!/usr/bin/env python3
"""Writes the cases of regions with holes in crates/cql_cases/stdin: POLYGON of several rings."""

RING = "(0 0, 90 0, 90 90, 0 90, 0 0)"
HOLE = "(10 10, 20 10, 10 20, 10 10)"
# A wide region around all parcels. Parcels 1 and 2 fill the box from 0 to 40000 and 20000, and parcel 3 is a triangle above it.
WIDE = "(-9000 -9000, 90000 -9000, 90000 90000, -9000 90000, -9000 -9000)"


def polygon(*rings):
    return f"POLYGON({', '.join(rings)})"


def box(x, y, u, v):
    return f"({x} {y}, {u} {y}, {u} {v}, {x} {v}, {x} {y})"


def grammar():
    """Texts after a ring, and texts inside the second and the third ring."""
    for behind in ("", ")", ",", ", ", ",)", " IS NULL", ", IS NULL", f" {HOLE})", f"; {HOLE})", f", {HOLE}", f", {HOLE}) IS NULL",
                   f", {HOLE[1:-1]})", f", ({HOLE}))", f", {HOLE}, {HOLE}) IS NULL", f", {HOLE}, {HOLE}", f", {HOLE},) IS NULL",
                   f", {HOLE}, IS NULL", f", {HOLE} {HOLE})", f", {HOLE} AND TRUE", f", {HOLE})) IS NULL", f", 5) IS NULL",
                   ", 'x') IS NULL", ", geometry) IS NULL", f" OR {HOLE})", f", {HOLE} IS NULL", f", POLYGON{HOLE}) IS NULL"):
        yield f"POLYGON({RING}{behind}"
    for inner in ("(", "()", "(1", "(1 ", "(1)", "(1,", "(1 1", "(1 1)", "(1 1,", "(1 1,)", "(1 1 1", "(1 1, 2", "(1 1, 2,", "(1 1, 2 1 1",
                  "(1 1, 2 1", "(-", "(- 1", "(+1 -1", "(1 +", "(1 1, (2 1", "(area 1", "(1 area", "(1 1, 'x'", "(1 1 AND", "(1 1, 2 1) 3"):
        yield f"POLYGON({RING}, {inner}"
        yield f"POLYGON({RING}, {HOLE}, {inner}"
    for before in ("", ",", "()", "(,)"):
        yield f"POLYGON({before}, {HOLE}) IS NULL"
    for opened in (62, 63):
        yield "(" * opened + polygon(RING, HOLE, HOLE) + " IS NULL" + ")" * opened


def numbers():
    """Invalid numbers: one in each ring, the first of several, and one before an invalid ring."""
    for wrong in ("2.5", "1e3", "-9223372036854775809", "9223372036854775808"):
        bad = f"(10 10, {wrong} 10, 10 20, 10 10)"
        yield polygon(RING, bad) + " IS NULL"
        yield polygon(RING, HOLE, bad) + " IS NULL"
        yield polygon(RING.replace(", 0 0)", ")"), bad) + " IS NULL"
        yield polygon(RING, "(1 1)", bad) + " IS NULL"
    yield polygon(RING, "(1 1, 2 1.5, 1 2, 1 1)", "(1 1, 99999999999999999999 1, 1 2, 1 1)") + " IS NULL"
    yield polygon(RING, "(1 1, 99999999999999999999 1, 1 2, 1 1)", "(1 1, 2 1.5, 1 2, 1 1)") + " IS NULL"
    yield polygon(RING, "(1.0 1., 2.00 1, 1 2, 1 1)") + " IS NULL"
    yield polygon(RING, "(100000000001 1, 2 1, 1 2, 100000000001 1)") + " IS NULL"
    yield polygon(RING, "(1 1, 2 -100000000001, 1 2, 1 1)") + " IS NULL"


def rings():
    """Rings that bound a region, and rings that do not."""
    for holes in (["(10 10, 20 10, 10 20)"], ["(10 10, 20 10, 10 20, 10 11)"], ["(10 10, 20 10, 10 20, 11 10)"], ["(10 10)"],
                  ["(10 10, 20 10, 10 10)"], ["(10 10, 20 10, 30 10, 10 10)"], ["(10 10, 20 20, 20 10, 10 20, 10 10)"],
                  ["(10 10, 20 10, 20 10, 10 20, 10 10)"], [HOLE, "(10 10, 20 10, 10 20)"], [HOLE, "(30 30, 40 40, 40 30, 30 40, 30 30)"],
                  [box(100, 0, 110, 10)], [box(80, 80, 91, 90)], [box(80, 80, 90, 91)], [box(-1, 0, 5, 5)], [box(0, -1, 5, 5)],
                  [HOLE, box(80, 80, 91, 90)], [box(-10, -10, 100, 100)], [RING], [box(0, 0, 10, 10)], [box(0, 10, 10, 20)],
                  [box(90, 0, 80, 10)], [HOLE, HOLE], [box(10, 10, 20, 20), box(20, 10, 30, 20)], [box(10, 10, 20, 20), box(20, 20, 30, 30)],
                  [box(10, 10, 20, 20), box(15, 15, 30, 30)], [box(10, 10, 80, 80), box(30, 30, 40, 40)], ["(45 0, 90 45, 45 90, 0 45, 45 0)"]):
        yield polygon(RING, *holes) + " IS NULL"
    yield polygon(HOLE, RING) + " IS NULL"
    yield polygon("(0 0, 90 0, 90 90, 0 90)", HOLE) + " IS NULL"
    yield polygon("(0 0, 90 90, 90 0, 0 90, 0 0)", HOLE) + " IS NULL"
    # (the hole's edge leaves the region at a notch, but its corners do not)
    yield polygon("(0 0, 90 0, 90 90, 45 10, 0 90, 0 0)", "(5 60, 85 60, 45 1, 5 60)") + " IS NULL"
    yield polygon("(0 0, 90 0, 90 90, 45 10, 0 90, 0 0)", "(5 60, 45 60, 45 1, 5 60)") + " IS NULL"


def places():
    """The place of a region's fault among other faults."""
    bad = polygon(RING, box(80, 80, 91, 90))
    for text in (f"NOT {bad} IS NULL", f"area > 0 AND {bad} IS NULL", f"areas > 5 AND {bad} IS NULL", f"{bad} IS NULL AND areas > 5",
                 f"S_INTERSECTS(geometry, {bad})", f"S_WITHIN(geometry, {bad})", f"S_WITHIN({bad}, geometry)",
                 f"S_INTERSECTS({bad}, POINT(1.5 0))", f"S_INTERSECTS(POINT(1.5 0), {bad})", f"{bad}", f"{bad} > 5", f"label = {bad}",
                 f"S_WITHIN(geometry, {polygon(RING, HOLE)})", f"S_CONTAINS(POINT(1 1), {polygon(RING, HOLE)})", polygon(RING, HOLE),
                 f"{polygon(RING, HOLE)} = 5", f"polygon({RING}, {HOLE}) IS NULL", f"Polygon ( {RING} , {HOLE} ) IS NOT NULL"):
        yield text


def literals():
    """Points, boxes and regions, and a region with two holes. The second hole touches the outer ring."""
    region = polygon(RING, box(10, 10, 20, 20), box(40, 60, 60, 90))
    for x, y in ((5, 5), (0, 0), (10, 10), (10, 15), (15, 15), (20, 12), (21, 12), (11, 11), (50, 75), (50, 90), (50, 60), (40, 75), (39, 75),
                 (90, 45), (91, 45), (15, 10), (15, 45), (95, 15), (-5, 15), (61, 60)):
        for name in ("S_INTERSECTS", "S_WITHIN"):
            yield f"{name}(POINT({x} {y}), {region})"
    for low, high in ((11, 19), (10, 20), (11, 20), (5, 25), (12, 45), (-9, 0), (-9, -1), (0, 90), (-1, 91), (21, 22)):
        yield f"S_INTERSECTS(BBOX({low},{low},{high},{high}), {region})"
        yield f"S_CONTAINS(BBOX({low},{low},{high},{high}), {region})"
    for other in (polygon(box(11, 11, 19, 19)), polygon(box(10, 11, 19, 19)), polygon(box(5, 5, 25, 25), box(9, 9, 21, 21)),
                  polygon(box(5, 5, 25, 25), box(6, 6, 24, 24)), polygon(box(-50, -50, 150, 150), box(-1, -1, 91, 91)),
                  polygon(box(-50, -50, 150, 150), box(0, 0, 91, 91)), polygon(box(41, 61, 59, 95)), polygon(box(41, 61, 59, 89)),
                  polygon(box(11, 11, 19, 19), box(12, 12, 18, 18)), region):
        yield f"S_INTERSECTS({region}, {other})"
        yield f"S_DISJOINT({other}, {region})"
    inner = polygon(RING, box(10, 10, 80, 80), box(30, 30, 60, 60))
    crossed = polygon(RING, box(10, 10, 40, 40), box(30, 30, 60, 60))
    for x, y in ((5, 5), (20, 20), (45, 45), (30, 45), (70, 70), (35, 35), (15, 15), (55, 55), (30, 30), (40, 35)):
        yield f"S_INTERSECTS(POINT({x} {y}), {inner})"
        yield f"S_INTERSECTS(POINT({x} {y}), {crossed})"


def parcels():
    """Regions whose holes hold parcels, touch them, or are inside them."""
    for holes in ([box(-1, -1, 40001, 60001)], [box(-1, -1, 40001, 20001)], [box(0, 0, 40000, 20000)], [box(0, 0, 20000, 20000)],
                  [box(-1, -1, 20001, 20001)], [box(-1, -1, 19999, 20001)], [box(1, 1, 19999, 19999)], [box(-1, -1, 40001, 20001), box(-1, 20002, 30001, 60001)],
                  [box(-1, -1, 40001, 20001), box(0, 30000, 30000, 60000)], [box(20001, 1, 39999, 19999)], ["(0 30000, 30000 30000, 0 60000, 0 30000)"],
                  [box(-9000, -9000, 90000, 90000)]):
        region = polygon(WIDE, *holes)
        yield f"S_INTERSECTS(geometry, {region})"
        yield f"S_DISJOINT({region}, geometry)"
        yield f"NOT S_INTERSECTS({region}, geometry)"
    for region in (polygon(box(1, 1, 19999, 19999), box(2, 2, 19998, 19998)), polygon(box(-1, -1, 20001, 20001), box(0, 0, 20000, 20000)),
                   polygon(box(100, 100, 200, 200), box(110, 110, 190, 190)), polygon(box(-5, -5, -1, -1), box(-4, -4, -2, -2)),
                   polygon(box(0, 20001, 40000, 70000), "(0 30000, 30000 30000, 0 60000, 0 30000)")):
        yield f"S_INTERSECTS(geometry, {region})"
        yield f"S_INTERSECTS({region}, geometry) OR geometry IS NULL"
        yield f"S_INTERSECTS(reference_point, {region}) OR S_DISJOINT(geometry, {region})"


def main():
    print("# Regions with holes: written by scripts/hole_cases.py.")
    for title, rows in (("What may stand behind a ring of POLYGON, and inside the second and the third one.", grammar),
                        ("A number that is none in a ring of POLYGON.", numbers), ("Rings that bound a region, and rings that bound none.", rings),
                        ("Where the fault of a region stands.", places), ("Points, boxes and regions against regions with holes.", literals),
                        ("Parcels against regions with holes.", parcels)):
        print(f"# {title}")
        for text in dict.fromkeys(rows()):
            print("parcels", text)
    print("# The most rings of a region, and one more.")
    for count in (99, 100):
        print(f"repeat {count} , (1 1,2 1,1 2,1 1)")
        print(f"parcels POLYGON({RING}@) IS NULL")


if __name__ == "__main__":
    main()
