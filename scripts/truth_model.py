#!/usr/bin/env python3
"""A second implementation of what filters say of features, in Python. It does not follow the crates.

    scripts/stored_cases.py cql_cases in truth | scripts/truth_model.py      prints the answers

It answers the cases of crates/cql_cases after `truth`: for which features a filter is true, for which false, and for which neither. It has
its own code for days, texts, sums and shapes. filter_model.py makes the trees.
"""
import sys
from fractions import Fraction
from functools import lru_cache

import filter_model

OPEN_START, OPEN_END = (0,), (2,)


def at(text):
    return (1, filter_model.day_of(text))


def span(begin, end):
    return (at(begin), OPEN_END if end is None else at(end))


def head(object_, number, begin, end=None):
    return {"object": object_, "number": number, "begin": span(begin, begin), "end": end and span(end, end),
            "lifespan": span(begin, end)}


def parcel(first, label, area, corners, spot, unit, unit_name):
    return {**first, "label": label, "area": area, "geometry": corners and ("area", [corners]),
            "reference_point": spot and ("spot", [[spot]]), "unit": unit, "unit_name": unit_name}


SQUARE = [(0, 0), (20000, 0), (20000, 20000), (0, 20000)]
FEATURES = {
    "parcels": [
        parcel(head(1, 1, "2001-01-01", "2009-12-31"), "A-1", 400, SQUARE, None, 10, "Mill"),
        parcel(head(1, 2, "2010-01-01"), "A-1", 380, SQUARE, None, 10, "Mill"),
        parcel(head(2, 1, "2005-06-01"), "A-2", None, [(x + 20000, y) for x, y in SQUARE], None, 10, "Mill"),
        parcel(head(3, 1, "2003-01-01"), "b-7", 900, [(0, 30000), (30000, 30000), (0, 60000)], None, 11, None),
        parcel(head(4, 1, "2003-01-01"), "C%1", 0, None, (10000, 10000), 11, None),
    ],
    "rights": [{**head(30, 1, "2005-01-01"), "type": "ownership", "share_num": 1, "share_den": 2, "unit": 10,
                "unit_name": "Mill", "party": 20, "party_name": "Ana Straße"}],
    "restrictions": [{**head(31, 1, "2006-01-01"), "type": "noBuilding", "share_num": None, "share_den": None, "unit": 11,
                      "unit_name": None, "party": None, "party_name": None, "party_required": False}],
}


def like(text, pattern):
    @lru_cache(None)
    def rest(i, j):
        if j == len(pattern):
            return i == len(text)
        if pattern[j] == "%":
            return any(rest(k, j + 1) for k in range(i, len(text) + 1))
        if i == len(text):
            return False
        if pattern[j] == "_":
            return rest(i + 1, j + 1)
        if pattern[j] == "\\" and j + 1 < len(pattern):
            return text[i] == pattern[j + 1] and rest(i + 1, j + 2)
        return text[i] == pattern[j] and rest(i + 1, j + 1)
    return rest(0, 0)


def step(sign, a, b):
    if a is None or b is None or (sign in ("DIV", "%") and b == 0):
        return None
    if sign in ("DIV", "%"):
        quotient = int(Fraction(a, b))
        result = quotient if sign == "DIV" else a - b * quotient
    else:
        result = {"+": a + b, "-": a - b, "*": a * b}[sign]
    return result if -2**63 <= result < 2**63 else None


# ---- shapes: a kind and its rings, each a list of corners; a point is one corner

def edges(shape):
    if shape[0] == "spot":
        return []
    return [(ring[i - 1], ring[i]) for ring in shape[1] for i in range(len(ring))]


def corners(shape):
    return sum(shape[1], [])


def on_edge(p, a, b):
    turn = (b[0] - a[0]) * (p[1] - a[1]) - (b[1] - a[1]) * (p[0] - a[0])
    return turn == 0 and min(a[0], b[0]) <= p[0] <= max(a[0], b[0]) and min(a[1], b[1]) <= p[1] <= max(a[1], b[1])


def share_point(e, f):
    """Whether two segments share a point, by the point where their lines cross."""
    (a, b), (c, d) = e, f
    if any(on_edge(p, c, d) for p in e) or any(on_edge(p, a, b) for p in f):
        return True
    u, v = (b[0] - a[0], b[1] - a[1]), (d[0] - c[0], d[1] - c[1])
    cross = u[0] * v[1] - u[1] * v[0]
    if cross == 0:
        return False
    s = Fraction((c[0] - a[0]) * v[1] - (c[1] - a[1]) * v[0], cross)
    t = Fraction((c[0] - a[0]) * u[1] - (c[1] - a[1]) * u[0], cross)
    return 0 <= s <= 1 and 0 <= t <= 1


def inside(p, shape):
    if shape[0] == "spot":
        return p == shape[1][0][0]
    if any(on_edge(p, *e) for e in edges(shape)):
        return True
    crossed = 0
    for a, b in edges(shape):
        if (a[1] <= p[1]) != (b[1] <= p[1]):
            crossed += a[0] + Fraction((p[1] - a[1]) * (b[0] - a[0]), b[1] - a[1]) > p[0]
    return crossed % 2 == 1


def meet(a, b):
    if "spot" in (a[0], b[0]):
        return inside(a[1][0][0], b) if a[0] == "spot" else inside(b[1][0][0], a)
    return (any(share_point(e, f) for e in edges(a) for f in edges(b)) or any(inside(p, b) for p in corners(a))
            or any(inside(p, a) for p in corners(b)))


def within(a, b):
    if a[0] == "spot":
        return inside(a[1][0][0], b) and not any(on_edge(a[1][0][0], *e) for e in edges(b))
    (left, low), _, (right, high), _ = b[1][0]
    return all(left <= x <= right and low <= y <= high for x, y in corners(a))


SPATIAL = {"S_INTERSECTS": meet, "S_DISJOINT": lambda a, b: not meet(a, b), "S_WITHIN": within,
           "S_CONTAINS": lambda a, b: within(b, a)}
TEMPORAL = {
    "T_AFTER": lambda s, e, t, f: s > f, "T_BEFORE": lambda s, e, t, f: e < t,
    "T_DISJOINT": lambda s, e, t, f: s > f or e < t, "T_INTERSECTS": lambda s, e, t, f: s <= f and t <= e,
    "T_EQUALS": lambda s, e, t, f: (s, e) == (t, f), "T_CONTAINS": lambda s, e, t, f: s < t and f < e,
    "T_DURING": lambda s, e, t, f: t < s and e < f, "T_MEETS": lambda s, e, t, f: e == t,
    "T_METBY": lambda s, e, t, f: s == f, "T_STARTS": lambda s, e, t, f: s == t and e < f,
    "T_STARTEDBY": lambda s, e, t, f: s == t and e > f, "T_FINISHES": lambda s, e, t, f: e == f and s > t,
    "T_FINISHEDBY": lambda s, e, t, f: e == f and s < t, "T_OVERLAPS": lambda s, e, t, f: s < t < e < f,
    "T_OVERLAPPEDBY": lambda s, e, t, f: t < s < f < e,
}


# ---- values, and conditions as True, False or None

def value(tree, x):
    operator, _, parts, extra = tree
    if operator == "name":
        return x[extra]
    if operator == "number":
        return filter_model.whole_of(extra)
    if operator in ("text", "truth"):
        return extra
    if operator == "casei":
        inner = value(parts[0], x)
        return None if inner is None else inner.casefold()
    if operator == "date":
        return span(parts[0][3], parts[0][3])
    if operator == "interval":
        ends = [bound(part, x, i) for i, part in enumerate(parts)]
        return None if None in ends or ends[0] > ends[1] else tuple(ends)
    if operator in ("sum", "product"):
        total = value(parts[0], x)
        for sign, part in zip(extra, parts[1:]):
            total = step(sign, total, value(part, x))
        return total
    if operator == "polygon":
        return ("area", [points_of(ring[2])[1:] for ring in parts])
    points = points_of(parts)
    if operator == "point":
        return ("spot", [points])
    (x0, y0), (x1, y1) = points
    return ("frame", [[(x0, y0), (x1, y0), (x1, y1), (x0, y1)]])


def points_of(parts):
    numbers = [filter_model.whole_of(part[3]) for part in parts]
    return list(zip(numbers[::2], numbers[1::2]))


def bound(tree, x, side):
    if tree[0] == "bound":
        return (OPEN_START, OPEN_END)[side] if tree[3] == ".." else at(tree[3])
    day = x[tree[3]]
    return day and day[side]


def both(test, *values):
    return None if None in values else test(*values)


def compare(sign, a, b):
    return {"=": a == b, "<>": a != b, "<": a < b, ">": a > b, "<=": a <= b, ">=": a >= b}[sign]


def negation(truth):
    return None if truth is None else not truth


def conjunction(truths):
    return False if False in truths else None if None in truths else True


def condition(tree, x):
    operator, _, parts, extra = tree
    if operator == "truth":
        return extra
    if operator in ("and", "or", "not"):
        truths = [condition(part, x) for part in parts]
        if operator == "not":
            return negation(truths[0])
        return conjunction(truths) if operator == "and" else negation(conjunction([negation(it) for it in truths]))
    values = [value(part, x) for part in parts]
    if operator == "compare":
        return both(lambda a, b: compare(extra, a, b), *values)
    if operator == "spatial":
        return both(SPATIAL[extra], *values)
    if operator == "temporal":
        return both(lambda a, b: TEMPORAL[extra](*a, *b), *values)
    if operator == "null":
        found = values[0] is None
    elif operator == "like":
        found = both(like, *values)
    elif operator == "between":
        found = conjunction([both(lambda a, b: a >= b, values[0], values[1]), both(lambda a, b: a <= b, values[0], values[2])])
    else:
        found = negation(conjunction([negation(both(lambda a, b: a == b, values[0], it)) for it in values[1:]]))
    return negation(found) if extra else found


def answer(collection, text):
    if filter_model.answer(collection, text) != "accepted":
        return "refused"
    tree = filter_model.tree_of(text)
    said = [(condition(tree, x), f"{x['object']}.{x['number']}") for x in FEATURES.get(collection, [])]
    words = []
    for name, wanted in (("yes", True), ("no", False), ("unknown", None)):
        words += [name] + [identifier for truth, identifier in said if truth is wanted]
    return " ".join(words)


def hash_of(text):
    """The hash of a text: a number below 4,294,967,291."""
    at = 0
    for character in text:
        at = (at * 16_777_619 + ord(character)) % 4_294_967_291
    return at


def marks(property_, text):
    """The two marks of a folded text of the property at that place of the schema, as bits."""
    at = hash_of(text)
    return 1 << (at % 64 + property_ * 23) % 64 | 1 << (at // 64 % 64 + property_ * 41) % 64


def end_marks(property_, first, last):
    """The marks of the characters with which a folded text begins and ends, those that are known."""
    return (1 << (ord(first) + property_ * 11) % 64 if first else 0) | (1 << (ord(last) * 5 + property_ * 43) % 64 if last else 0)


def ends_of(pattern):
    """The characters with which each text begins and ends that is like the pattern, `None` if these may be any."""
    parts, at = [], 0
    while at < len(pattern):
        is_escape = pattern[at] == "\\" and at + 1 < len(pattern)
        at += is_escape
        parts.append(pattern[at] if is_escape or pattern[at] not in "%_" else None)
        at += 1
    return (parts[0], parts[-1]) if parts else (None, None)


def may_have(path, asked_of, marks_of):
    """The features of whose texts the marks do not exclude one that has the marks which are asked."""
    collection, _, name = path.partition("/")
    names = list(filter_model.SCHEMAS.get(collection, ()))
    if name not in names:
        return "no property"
    asked, found = asked_of(names.index(name)), ["may"]
    for x in FEATURES.get(collection, []):
        own = 0
        for property_, its_name in enumerate(names):
            if isinstance(x[its_name], str):
                own |= marks_of(property_, x[its_name].casefold())
        if own & asked == asked:
            found.append(f"{x['object']}.{x['number']}")
    return " ".join(found)


def may_fold(path, text):
    """The features of which the marks do not exclude that this text is their value, with its case folded."""
    return may_have(path, lambda property_: marks(property_, text), marks)


def may_fold_like(path, pattern):
    """The features of which the marks do not exclude that their value is like the pattern, with its case folded."""
    return may_have(path, lambda property_: end_marks(property_, *ends_of(pattern)), lambda property_, text: end_marks(property_, text[:1], text[-1:]))


def main():
    for line in sys.stdin.buffer.read().split(b"\n"):
        if not line or line.startswith(b"#"):
            continue
        name, _, rest = line.partition(b" ")
        if name == b"texts":
            text, pattern = rest.decode().split("|", 1)
            order = "less" if text < pattern else "equal" if text == pattern else "greater"
            print("like" if like(text, pattern) else "unlike", order, text.casefold())
        elif name == b"folds":
            path, _, text = rest.decode().partition(" ")
            print(may_fold(path, text))
        elif name == b"likes":
            path, _, pattern = rest.decode().partition(" ")
            print(may_fold_like(path, pattern))
        else:
            print(answer(name.decode(), rest))


if __name__ == "__main__":
    main()
