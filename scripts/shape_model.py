#!/usr/bin/env python3
"""A second implementation of rings, regions and the relations of shapes, in Python. It does not follow the crate.

    scripts/land_parts.py shapes | scripts/shape_model.py      prints the answers

It answers the lines of shapes of crates/land_cases. It computes points where lines cross as fractions. It tests a point by the edges above
it, while the crate uses the edges to its right.
"""
import re
import sys
from fractions import Fraction

FARTHEST = 10**11


class Unread(Exception):
    pass


def point(text):
    parts = text.split(",", 1)
    if len(parts) != 2 or not all(re.fullmatch("[+-]?[0-9]+", part) for part in parts):
        raise Unread
    x, y = map(int, parts)
    if max(abs(x), abs(y)) > FARTHEST:
        raise Unread
    return x, y


def points(text):
    return [point(word) for word in text.split()]


def minus(p, q):
    return p[0] - q[0], p[1] - q[1]


def cross(u, v):
    return u[0] * v[1] - u[1] * v[0]


def box(corners):
    xs, ys = [x for x, _ in corners], [y for _, y in corners]
    return min(xs), min(ys), max(xs), max(ys)


def in_box(t, b):
    return b[0] <= t[0] <= b[2] and b[1] <= t[1] <= b[3]


def on_segment(t, p, q):
    return cross(minus(q, p), minus(t, p)) == 0 and in_box(t, box([p, q]))


def segments_meet(p, q, r, s):
    a, b = box([p, q]), box([r, s])
    if a[0] > b[2] or b[0] > a[2] or a[1] > b[3] or b[1] > a[3]:
        return False
    u, v = minus(q, p), minus(s, r)
    d = cross(u, v)
    if d == 0:
        return on_segment(p, r, s) or on_segment(q, r, s) or on_segment(r, p, q) or on_segment(s, p, q)
    t, w = Fraction(cross(minus(r, p), v), d), Fraction(cross(minus(r, p), u), d)
    return 0 <= t <= 1 and 0 <= w <= 1


def edges(corners):
    return list(zip(corners, corners[1:] + corners[:1]))


def share_more(p, c, s):
    """Whether the segments from p to c and from c to s share a point that is not c."""
    u, v = minus(p, c), minus(s, c)
    return cross(u, v) == 0 and u[0] * v[0] + u[1] * v[1] > 0


def crosses(sides, i, j):
    (p, q), (r, s) = sides[i], sides[j]
    if i == j:
        return p == q
    if j == i + 1:
        return share_more(p, q, s)
    if i == 0 and j == len(sides) - 1:
        return share_more(r, s, q)
    return segments_meet(p, q, r, s)


def ring_fault(corners):
    if len(corners) < 3:
        return "1 TooFew"
    if len(corners) > 1000:
        return "2 TooMany"
    sides = edges(corners)
    if sum(cross(p, q) for p, q in sides) == 0:
        return "4 Flat"
    for i in range(len(sides)):
        for j in range(i, len(sides)):
            if crosses(sides, i, j):
                return f"3 Crosses {i} {j}"
    return None


def rings(text):
    found = [points(part) for part in text.split(";")] if text else []
    if any(ring_fault(corners) for corners in found):
        raise Unread
    return found


def is_above(t, p, q):
    """Whether the edge passes above the point: one end at most as far east as it, the other farther."""
    (left, low), (right, high) = sorted([p, q])
    return left <= t[0] < right and low + Fraction((t[0] - left) * (high - low), right - left) > t[1]


def in_region(t, sides):
    return any(on_segment(t, p, q) for p, q in sides) or sum(is_above(t, p, q) for p, q in sides) % 2 == 1


def region_fault(found):
    if not found:
        return "1 NoRing"
    if len(found) > 100 or sum(map(len, found)) > 1000:
        return "2 TooMany"
    outer = edges(found[0])
    for i, corners in enumerate(found):
        if not all(in_region(corner, outer) for corner in corners):
            return f"3 Outside {i}"
    return None


class Spot:
    is_region = is_frame = False

    def __init__(self, place):
        self.corners, self.edges, self.bounds = [place], [], place + place

    def holds(self, t):
        return t == self.corners[0]


class Frame:
    is_region = is_frame = True

    def __init__(self, west, south, east, north):
        if west > east or south > north:
            raise Unread
        self.corners = [(west, south), (east, south), (east, north), (west, north)]
        self.edges, self.bounds = edges(self.corners), (west, south, east, north)

    def holds(self, t):
        return in_box(t, self.bounds)


class Area:
    is_region, is_frame = True, False

    def __init__(self, found):
        if region_fault(found):
            raise Unread
        self.corners = [corner for corners in found for corner in corners]
        self.edges = [side for corners in found for side in edges(corners)]
        self.bounds = box(found[0])

    def holds(self, t):
        return in_region(t, self.edges)


def shape(text):
    kind, space, rest = text.strip().partition(" ")
    if not space:
        raise Unread
    if kind == "spot":
        return Spot(point(rest))
    if kind == "frame":
        least, greatest = map(point, (rest.split(" ", 1) + [""])[:2])
        return Frame(*least, *greatest)
    if kind == "area":
        return Area(rings(rest))
    raise Unread


def meet(a, b):
    if not a.is_region:
        return b.holds(a.corners[0])
    if not b.is_region:
        return a.holds(b.corners[0])
    return (any(segments_meet(*e, *f) for e in a.edges for f in b.edges)
            or any(map(b.holds, a.corners)) or any(map(a.holds, b.corners)))


def within(a, b):
    if not a.is_region:
        t = a.corners[0]
        return b.holds(t) and not any(on_segment(t, p, q) for p, q in b.edges)
    return all(map(b.holds, a.corners)) if b.is_frame else None


def word(truth):
    return "none" if truth is None else str(truth).lower()


def answer(line):
    question, _, rest = line.partition(" ")
    if question == "ring":
        return ring_fault(points(rest)) or "ok"
    if question == "region":
        return region_fault(rings(rest)) or "ok"
    if question == "segments":
        ends = points(rest)
        if len(ends) != 4:
            raise Unread
        return word(segments_meet(*ends))
    if question == "inside":
        first, space, others = rest.partition(" ")
        if not space:
            raise Unread
        return word(Area(rings(others)).holds(point(first)))
    if question == "bounds":
        west, south, east, north = shape(rest).bounds
        return f"{west},{south} {east},{north}"
    if question == "shapes":
        first, slash, second = rest.partition("/")
        if not slash:
            raise Unread
        a, b = shape(first), shape(second)
        return f"meets {word(meet(a, b))} within {word(within(a, b))}"
    raise Unread


def answers(text):
    """The answer to each line of the text."""
    for line in text.decode().split("\n"):
        try:
            yield answer(line)
        except Unread:
            yield "unread"


def main():
    for it in answers(sys.stdin.buffer.read()):
        print(it)


if __name__ == "__main__":
    main()
