#!/usr/bin/env python3
"""A second implementation of what filters mean, in Python. It does not follow the crates.

    scripts/meaning_cases.py | scripts/filter_meaning.py

It prints which features of the sample register a filter takes, on the requested days if there are any. scripts/filter_model.py makes the
trees. The features are written out below. Cases are lines `COLLECTION FILTER` or `COLLECTION/DATETIME FILTER`, and
scripts/meaning_cases.py writes some.
"""
from filter_model import COMMON, SCHEMAS, answer, day_of, tell, tree_of, whole_of

# ---- the sample register: (object, number, begin, end, further values)

SQUARE = [(0, 0), (20000, 0), (20000, 20000), (0, 20000)]
PARCELS = [
    (1, 1, "2001-01-01", "2009-12-31", "A-1", 400, SQUARE, None, 10, "Mill"),
    (1, 2, "2010-01-01", None, "A-1", 380, SQUARE, None, 10, "Mill"),
    (2, 1, "2005-06-01", None, "A-2", None, [(20000, 0), (40000, 0), (40000, 20000), (20000, 20000)], None, 10, "Mill"),
    (3, 1, "2003-01-01", None, "b-7", 900, [(0, 30000), (30000, 30000), (0, 60000)], None, 11, None),
    (4, 1, "2003-01-01", None, "C%1", 0, None, None, 11, None),
]
RIGHTS = [(30, 1, "2005-01-01", None, "ownership", 1, 2, 10, "Mill", 20, "Ana Straße")]
RESTRICTIONS = [(31, 1, "2006-01-01", None, "noBuilding", None, None, 11, None, None, None, False)]
UNITS = [(10, 1, "2000-01-01", None, "Mill"), (11, 1, "2000-01-01", None, None)]
PARTIES = [(20, 1, "2000-01-01", None, "Ana Straße", "naturalPerson")]

# An open start is before every day, an open end after every day.
FIRST, LAST = (-1,), (10000,)


def span(begin, end):
    return (begin or FIRST, end or LAST)


def shape_of(value, holes=()):
    """A point, or the region inside a list of corners, without the regions of its holes."""
    if value is None:
        return None
    return ("spot", value) if isinstance(value, tuple) else ("region", [value, *holes])


def features(collection):
    """The features of a collection: identifiers, and values by name."""
    rows = {"parcels": PARCELS, "rights": RIGHTS, "restrictions": RESTRICTIONS, "units": UNITS, "parties": PARTIES, "responsibilities": []}
    names = [it for it in SCHEMAS[collection] if it not in COMMON]
    for object_, number, begin, end, *more in rows[collection]:
        days = (day_of(begin), day_of(end) if end else None)
        values = {"object": object_, "number": number, "begin": days[0], "end": days[1], "lifespan": span(*days)}
        for name, value in zip(names, more):
            values[name] = shape_of(value) if name in ("geometry", "reference_point") else value
        yield f"{object_}.{number}", values


# ---- shapes: ("spot", point), ("region", rings) or ("frame", low, high); fractions never arise

def turn(p, q, r):
    return (q[0] - p[0]) * (r[1] - p[1]) - (q[1] - p[1]) * (r[0] - p[0])


def lies_on(p, q, r):
    """Whether r lies on the segment from p to q."""
    return turn(p, q, r) == 0 and min(p[0], q[0]) <= r[0] <= max(p[0], q[0]) and min(p[1], q[1]) <= r[1] <= max(p[1], q[1])


def segments_meet(a, b, c, d):
    if lies_on(a, b, c) or lies_on(a, b, d) or lies_on(c, d, a) or lies_on(c, d, b):
        return True
    return turn(a, b, c) * turn(a, b, d) < 0 and turn(c, d, a) * turn(c, d, b) < 0


def rings_of(shape):
    if shape[0] == "region":
        return shape[1]
    (x, y), (u, v) = shape[1], shape[2]
    return [[(x, y), (u, y), (u, v), (x, v)]]


def corners_of(shape):
    return [corner for ring in rings_of(shape) for corner in ring]


def edges_of(shape):
    return [edge for ring in rings_of(shape) for edge in zip(ring, ring[1:] + ring[:1])]


def on_edge(point, shape):
    return any(lies_on(p, q, point) for p, q in edges_of(shape))


def holds_point(shape, point):
    if shape[0] == "frame":
        return all(low <= it <= high for low, it, high in zip(shape[1], point, shape[2]))
    if on_edge(point, shape):
        return True
    inside = False
    for p, q in edges_of(shape):
        low, high = sorted((p, q), key=lambda it: it[1])
        if low[1] <= point[1] < high[1] and turn(low, high, point) > 0:
            inside = not inside
    return inside


def meets(a, b):
    if a[0] == "spot" and b[0] == "spot":
        return a[1] == b[1]
    if a[0] == "spot":
        return holds_point(b, a[1])
    if b[0] == "spot":
        return holds_point(a, b[1])
    if any(segments_meet(*e, *f) for e in edges_of(a) for f in edges_of(b)):
        return True
    return any(holds_point(b, it) for it in corners_of(a)) or any(holds_point(a, it) for it in corners_of(b))


def within(a, b):
    if a[0] == "spot":
        return a[1] == b[1] if b[0] == "spot" else holds_point(b, a[1]) and not on_edge(a[1], b)
    return all(holds_point(b, it) for it in corners_of(a))


# ---- values: None means no value

def bounded(number):
    return number if number is not None and -2**63 <= number < 2**63 else None


def step(sign, a, b):
    if sign == "+":
        return a + b
    if sign == "-":
        return a - b
    if sign == "*":
        return a * b
    if b == 0:
        return None
    quotient = abs(a) // abs(b) * (1 if (a < 0) == (b < 0) else -1)
    return quotient if sign == "DIV" else a - b * quotient


def number(tree):
    return whole_of(tree[3])


def value(tree, feature):
    operator, _, parts, extra = tree
    if operator == "name":
        return feature[extra]
    if operator == "number":
        return number(tree)
    if operator in ("text", "truth"):
        return extra
    if operator in ("sum", "product"):
        found = value(parts[0], feature)
        for sign, part in zip(extra, parts[1:]):
            other = value(part, feature)
            found = None if found is None or other is None else bounded(step(sign, found, other))
        return found
    if operator == "casei":
        text = value(parts[0], feature)
        return None if text is None else text.casefold()
    if operator == "date":
        return day_of(parts[0][3])
    if operator == "interval":
        return interval(parts, feature)
    if operator == "polygon":
        return ("region", [points_of(ring[2])[:-1] for ring in parts])
    points = points_of(parts)
    return ("spot", points[0]) if operator == "point" else ("frame", points[0], points[1])


def points_of(parts):
    numbers = [number(it) for it in parts]
    return list(zip(numbers[::2], numbers[1::2]))


def interval(parts, feature):
    ends = []
    for part, is_open in zip(parts, (FIRST, LAST)):
        if part[0] == "bound":
            ends.append(is_open if part[3] == ".." else day_of(part[3]))
        else:
            ends.append(feature[part[3]])
    return None if None in ends or ends[0] > ends[1] else tuple(ends)


def days(found):
    """A day as the interval of that day."""
    return found if found is None or isinstance(found[0], tuple) else (found, found)


# ---- truth: True, False, or None if it is unknown

def compared(sign, a, b):
    return {"=": a == b, "<>": a != b, "<": a < b, ">": a > b, "<=": a <= b, ">=": a >= b}[sign]


def like(text, pattern):
    if not pattern:
        return not text
    if pattern[0] == "%":
        return any(like(text[at:], pattern[1:]) for at in range(len(text) + 1))
    if pattern[0] == "_":
        return bool(text) and like(text[1:], pattern[1:])
    if pattern[0] == "\\" and len(pattern) > 1:
        pattern = pattern[1:]
    return text[:1] == pattern[0] and like(text[1:], pattern[1:])


def related(name, a, b):
    (s, e), (u, v) = a, b
    return {
        "T_AFTER": s > v, "T_BEFORE": e < u, "T_DISJOINT": s > v or e < u, "T_INTERSECTS": not (s > v or e < u),
        "T_EQUALS": s == u and e == v, "T_CONTAINS": s < u and e > v, "T_DURING": s > u and e < v,
        "T_MEETS": e == u, "T_METBY": s == v, "T_STARTS": s == u and e < v, "T_STARTEDBY": s == u and e > v,
        "T_FINISHES": e == v and s > u, "T_FINISHEDBY": e == v and s < u,
        "T_OVERLAPS": s < u < e < v, "T_OVERLAPPEDBY": u < s < v < e,
    }[name]


def spatial(name, a, b):
    return {"S_INTERSECTS": lambda: meets(a, b), "S_DISJOINT": lambda: not meets(a, b), "S_WITHIN": lambda: within(a, b),
            "S_CONTAINS": lambda: within(b, a)}[name]()


def conjunction(parts):
    return False if False in parts else None if None in parts else True


def opposite(found):
    return None if found is None else not found


def known(test, *values):
    return None if None in values else test(*values)


def truth(tree, feature):
    operator, _, parts, extra = tree
    if operator == "truth":
        return extra
    if operator == "not":
        return opposite(truth(parts[0], feature))
    if operator in ("and", "or"):
        found = [truth(it, feature) for it in parts]
        return conjunction(found) if operator == "and" else opposite(conjunction([opposite(it) for it in found]))
    values = [value(it, feature) for it in parts]
    if operator == "compare":
        return known(lambda a, b: compared(extra, a, b), *values)
    if operator == "null":
        return (values[0] is None) != extra
    if operator == "temporal":
        return known(lambda a, b: related(extra, a, b), *map(days, values))
    if operator == "spatial":
        return known(lambda a, b: spatial(extra, a, b), *values)
    if operator == "like":
        found = known(like, *values)
    elif operator == "between":
        low = known(lambda a, b: a >= b, values[0], values[1])
        found = conjunction([low, known(lambda a, b: a <= b, values[0], values[2])])
    elif operator == "in":
        found = opposite(conjunction([opposite(known(lambda a, b: a == b, values[0], it)) for it in values[1:]]))
    else:
        raise AssertionError(operator)
    return opposite(found) if extra else found


# ---- cases

def asked_days(text):
    """The requested days. The text has only days and open ends."""
    first, slash, last = text.partition("/")
    ends = [None if it in ("", "..") else day_of(it) for it in (first, last if slash else first)]
    return span(*ends)


def is_days(text):
    """Whether a text requests days, by the forms that the cases have: only days and open ends."""
    first, slash, last = text.partition("/")
    if not slash:
        return day_of(first) is not None
    if not all(it in ("", "..") or day_of(it) for it in (first, last)):
        return False
    found = asked_days(text)
    return found[0] <= found[1]


def taken(collection, asked, tree):
    """The word `accepted`, and the identifiers of the features that the filter takes."""
    found = ["accepted"]
    for identifier, feature in features(collection):
        lives = asked is None or related("T_INTERSECTS", feature["lifespan"], asked)
        if lives and truth(tree, feature) is True:
            found.append(identifier)
    return " ".join(found)


def told(name, data):
    """The answer to a case. Its name is that of a collection, maybe with `/` and days after it."""
    collection, slash, asked = name.partition("/")
    first = answer(collection, data)
    return first if first != "accepted" else taken(collection, asked_days(asked) if slash else None, tree_of(data))


if __name__ == "__main__":
    tell(told)
