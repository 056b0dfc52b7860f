#!/usr/bin/env python3
"""A second implementation of the rules of the whole filter language, in Python. It does not follow the crates.

    scripts/filter_cases.py | scripts/filter_model.py

For a filter's text and a collection it prints the first fault with its place, or that the filter is accepted. Cases are lines
`COLLECTION FILTER`. scripts/filter_cases.py writes some 1,100 of them, which are in crates/cql_cases/stdin. scripts/check_filter_cases
compares the answers with the stored ones.
"""
import re
import sys

KEYWORDS = {"AND", "OR", "NOT", "LIKE", "BETWEEN", "IN", "IS", "NULL", "TRUE", "FALSE", "DIV", "CASEI", "DATE",
            "INTERVAL", "POINT", "POLYGON", "BBOX"}
SPATIAL = {"S_INTERSECTS", "S_DISJOINT", "S_WITHIN", "S_CONTAINS"}
TEMPORAL = {"T_" + it for it in ("AFTER BEFORE DISJOINT INTERSECTS EQUALS CONTAINS DURING MEETS METBY STARTS STARTEDBY "
                                 "FINISHES FINISHEDBY OVERLAPS OVERLAPPEDBY").split()}
KEYWORDS |= SPATIAL | TEMPORAL

COMMON = {"object": "Whole", "number": "Whole", "begin": "Day", "end": "Day", "lifespan": "Span"}
RIGHT = {"type": "Text", "share_num": "Whole", "share_den": "Whole", "unit": "Whole", "unit_name": "Text",
         "party": "Whole", "party_name": "Text"}
SCHEMAS = {
    "parcels": {**COMMON, "label": "Text", "area": "Whole", "geometry": "Area", "reference_point": "Spot",
                "unit": "Whole", "unit_name": "Text"},
    "rights": {**COMMON, **RIGHT},
    "restrictions": {**COMMON, **RIGHT, "party_required": "Flag"},
    "units": {**COMMON, "name": "Text"},
    "parties": {**COMMON, "name": "Text", "type": "Text"},
    "responsibilities": {**COMMON, **RIGHT},
}


class Fault(Exception):
    def __init__(self, cause, place):
        self.cause, self.place = cause, place


# ---- spelling

NUMBER = re.compile(rb"(?:[0-9]+(?:\.[0-9]*)?|\.[0-9]+)(?:[eE][+-]?[0-9]+)?")
NAME = re.compile(rb"[A-Za-z_:][A-Za-z0-9_.:]*")
QUOTED = re.compile(rb'"([^"]*)"')


def text_at(data, at):
    """The content and the end of the text that begins at this quotation mark, or None."""
    content, i = b"", at + 1
    while i < len(data):
        if data[i:i + 2] in (b"''", b"\\'"):
            content, i = content + b"'", i + 2
        elif data[i:i + 1] == b"'":
            return content, i + 1
        else:
            content, i = content + data[i:i + 1], i + 1
    return None


def tokens(data):
    if len(data) > 8192:
        raise Fault("TooLong", 8192)
    found, i = [], 0
    while True:
        while i < len(data) and data[i] in b" \t\r\n":
            i += 1
        if i == len(data):
            return found
        if data[i:i + 1] == b"'":
            got = text_at(data, i)
            if got is None:
                raise Fault("Unterminated", i)
            token, end = ("text", got[0].decode()), got[1]
        elif data[i:i + 1] == b'"':
            got = QUOTED.match(data, i)
            if got is None:
                raise Fault("Unterminated", i)
            token, end = ("name", got.group(1).decode()), got.end()
        elif (got := NUMBER.match(data, i)):
            token, end = ("number", got.group().decode()), got.end()
        elif (got := NAME.match(data, i)):
            word = got.group().decode()
            token, end = ((word.upper(), word) if word.upper() in KEYWORDS else ("name", word)), got.end()
        elif data[i:i + 2] in (b"<>", b"<=", b">="):
            token, end = (data[i:i + 2].decode(), ""), i + 2
        elif data[i:i + 1] in [bytes([c]) for c in b"(),=<>+-*%"]:
            token, end = (data[i:i + 1].decode(), ""), i + 1
        else:
            raise Fault("StrangeCharacter", i)
        if len(found) == 2000:
            raise Fault("TooMany", i)
        found.append((i, *token))
        i = end


# ---- grammar: trees are (operator, place, parts, extra)

COMPARISONS = ("=", "<>", "<", ">", "<=", ">=")


class Reader:
    def __init__(self, list_, end):
        self.list, self.end, self.at = list_, end, 0

    def sort(self):
        return self.list[self.at][1] if self.at < len(self.list) else None

    def fail(self):
        if self.at == len(self.list):
            raise Fault("EndOfFilter", self.end)
        raise Fault("NotExpected", self.list[self.at][0])

    def take(self, *sorts):
        if self.sort() not in sorts:
            self.fail()
        self.at += 1
        return self.list[self.at - 1]

    def filter(self):
        tree = self.joined("or", "OR", lambda: self.joined("and", "AND", self.negation))
        return tree

    def joined(self, operator, word, part):
        parts = [part()]
        while self.sort() == word:
            self.at += 1
            parts.append(part())
        return parts[0] if len(parts) == 1 else (operator, parts[0][1], parts, None)

    def negation(self):
        if self.sort() == "NOT":
            place = self.take("NOT")[0]
            return ("not", place, [self.predicate()], None)
        return self.predicate()

    def predicate(self):
        left = self.sum()
        place, sort = left[1], self.sort()
        if sort in COMPARISONS:
            self.at += 1
            return ("compare", place, [left, self.sum()], sort)
        if sort == "IS":
            self.at += 1
            negated = self.sort() == "NOT"
            if negated:
                self.at += 1
            self.take("NULL")
            return ("null", place, [left], negated)
        negated = sort == "NOT"
        if negated:
            self.at += 1
            if self.sort() not in ("LIKE", "BETWEEN", "IN"):
                self.fail()
        sort = self.sort()
        if sort == "LIKE":
            self.at += 1
            return ("like", place, [left, self.sum()], negated)
        if sort == "BETWEEN":
            self.at += 1
            low = self.sum()
            self.take("AND")
            return ("between", place, [left, low, self.sum()], negated)
        if sort == "IN":
            self.at += 1
            self.take("(")
            parts = [left, self.sum()]
            while self.sort() == ",":
                self.at += 1
                parts.append(self.sum())
            self.take(")")
            return ("in", place, parts, negated)
        return left

    def chain(self, operator, sorts, part):
        parts, signs = [part()], []
        while self.sort() in sorts:
            signs.append(self.take(*sorts)[1])
            parts.append(part())
        return parts[0] if len(parts) == 1 else (operator, parts[0][1], parts, signs)

    def sum(self):
        return self.chain("sum", ("+", "-"), lambda: self.chain("product", ("*", "DIV", "%"), self.primary))

    def whole(self):
        negative = False
        if self.sort() in ("+", "-"):
            negative = self.take("+", "-")[1] == "-"
        place, _, spelled = self.take("number")
        return ("number", place, [], ("-" if negative else "") + spelled)

    def primary(self):
        sort = self.sort()
        if sort == "(":
            self.at += 1
            tree = self.filter()
            self.take(")")
            return tree
        if sort in ("+", "-", "number"):
            return self.whole()
        if sort in ("name", "text", "TRUE", "FALSE"):
            place, sort, content = self.take(sort)
            return ("truth", place, [], sort == "TRUE") if sort in ("TRUE", "FALSE") else (sort, place, [], content)
        if sort in ("CASEI", "DATE", "INTERVAL", "POINT", "POLYGON", "BBOX") or sort in SPATIAL | TEMPORAL:
            place = self.take(sort)[0]
            self.take("(")
            tree = self.function(sort, place)
            self.take(")")
            return tree
        self.fail()

    def function(self, sort, place):
        if sort == "CASEI":
            return ("casei", place, [self.sum()], None)
        if sort == "DATE":
            at, _, content = self.take("text")
            return ("date", place, [("day", at, [], content)], None)
        if sort == "INTERVAL":
            low = self.bound()
            self.take(",")
            return ("interval", place, [low, self.bound()], None)
        if sort == "POINT":
            return ("point", place, [self.whole(), self.whole()], None)
        if sort == "POLYGON":
            rings = [self.ring()]
            while self.sort() == ",":
                self.at += 1
                rings.append(self.ring())
            return ("polygon", place, rings, None)
        if sort == "BBOX":
            parts = [self.whole()]
            for _ in range(3):
                self.take(",")
                parts.append(self.whole())
            return ("bbox", place, parts, None)
        left = self.sum()
        self.take(",")
        return ("spatial" if sort in SPATIAL else "temporal", place, [left, self.sum()], sort)

    def ring(self):
        self.take("(")
        parts = [self.whole(), self.whole()]
        while self.sort() == ",":
            self.at += 1
            parts += [self.whole(), self.whole()]
        self.take(")")
        return ("ring", parts[0][1], parts, None)

    def bound(self):
        at, sort, content = self.take("text", "name")
        return ("bound", at, [], content) if sort == "text" else ("name", at, [], content)


def tree_of(data):
    list_ = tokens(data)
    depth = 0
    for place, sort, _ in list_:
        if sort == "(":
            depth += 1
            if depth == 65:
                raise Fault("TooDeep", place)
        elif sort == ")":
            depth = max(0, depth - 1)
    reader = Reader(list_, len(data))
    tree = reader.filter()
    if reader.at < len(list_):
        reader.fail()
    return tree


# ---- kinds: (kinds, literal), or a fault in the list

DAY = re.compile(r"[0-9]{4}-[0-9]{2}-[0-9]{2}\Z")


def day_of(text):
    if not DAY.match(text) or not text.isascii():
        return None
    year, month, day = int(text[:4]), int(text[5:7]), int(text[8:])
    leap = year % 4 == 0 and (year % 100 != 0 or year % 400 == 0)
    days = [31, 29 if leap else 28, 31, 30, 31, 30, 31, 31, 30, 31, 30, 31]
    if not 1 <= month <= 12 or not 1 <= day <= days[month - 1]:
        return None
    return (year, month, day)


def crosses(corners):
    """Whether two edges share more than edges of a ring may share."""
    n = len(corners)
    edges = [(corners[i], corners[(i + 1) % n]) for i in range(n)]

    def meet(e, f):
        (a, b), (c, d) = e, f
        turn = lambda p, q, r: (q[0] - p[0]) * (r[1] - p[1]) - (q[1] - p[1]) * (r[0] - p[0])
        within = lambda p, q, r: min(p[0], q[0]) <= r[0] <= max(p[0], q[0]) and min(p[1], q[1]) <= r[1] <= max(p[1], q[1])
        t1, t2, t3, t4 = turn(a, b, c), turn(a, b, d), turn(c, d, a), turn(c, d, b)
        if any(t == 0 and within(*s) for t, s in ((t1, (a, b, c)), (t2, (a, b, d)), (t3, (c, d, a)), (t4, (c, d, b)))):
            return True
        return (t1 > 0) != (t2 > 0) and (t3 > 0) != (t4 > 0) and 0 not in (t1, t2, t3, t4)

    for i in range(n):
        if edges[i][0] == edges[i][1]:
            return True
        for j in range(i + 1, n):
            if j == i + 1 or (i == 0 and j == n - 1):
                common = edges[i][1] if j == i + 1 else edges[i][0]
                far, near = (edges[j][1], edges[i][0]) if j == i + 1 else (edges[j][0], edges[i][1])
                u = (near[0] - common[0], near[1] - common[1])
                v = (far[0] - common[0], far[1] - common[1])
                if u[0] * v[1] - u[1] * v[0] == 0 and u[0] * v[0] + u[1] * v[1] > 0:
                    return True
            elif meet(edges[i], edges[j]):
                return True
    return False


def is_ring(corners):
    if not 3 <= len(corners) <= 1000:
        return False
    area = sum(a[0] * b[1] - a[1] * b[0] for a, b in zip(corners, corners[1:] + corners[:1]))
    return area != 0 and not crosses(corners)


def is_in_ring(point, corners):
    """Whether the point is on an edge of the ring, or inside by the turns of the edges around it."""
    x, y = point
    winding = 0
    for (a, b), (c, d) in zip(corners, corners[1:] + corners[:1]):
        side = (c - a) * (y - b) - (x - a) * (d - b)
        if side == 0 and min(a, c) <= x <= max(a, c) and min(b, d) <= y <= max(b, d):
            return True
        if b <= y < d and side > 0:
            winding += 1
        if d <= y < b and side < 0:
            winding -= 1
    return winding != 0


def is_region(rings):
    """Whether the lists of corners are an outer ring, and holes in its closed region."""
    if not all(is_ring(it) for it in rings) or len(rings) > 100 or sum(map(len, rings)) > 1000:
        return False
    return all(is_in_ring(corner, rings[0]) for hole in rings[1:] for corner in hole)


def whole_of(spelled):
    """The value, or the cause of the fault."""
    sign, digits = (-1, spelled[1:]) if spelled.startswith("-") else (1, spelled)
    if re.search("[eE]", digits):
        return "NotWhole"
    front, _, fraction = digits.partition(".")
    if fraction.strip("0"):
        return "NotWhole"
    value = sign * int(front.lstrip("0")[:30] or "0")
    return value if -2**63 <= value < 2**63 else "NumberTooLarge"


class Kind:
    def __init__(self, *names, pattern=False, value=None):
        self.names, self.pattern, self.value = set(names), pattern, value

    def has(self, *names):
        return bool(self.names & set(names))


def kind(tree, schema, faults):
    operator, place, parts, extra = tree

    def wrong(cause, at):
        faults.append((at, cause))

    if operator == "name":
        return Kind(schema[extra]) if extra in schema else wrong("UnknownProperty", place)
    if operator == "number":
        value = whole_of(extra)
        return wrong(value, place) if isinstance(value, str) else Kind("Whole", value=value)
    if operator == "text":
        return Kind("Text", pattern=True)
    if operator == "truth":
        return Kind("Flag", "Condition")
    if operator in ("day", "bound"):
        if operator == "bound" and extra == "..":
            return Kind("Day")
        found = day_of(extra)
        return wrong("NotADate", place) if found is None else Kind("Day", value=found)
    kinds = [kind(part, schema, faults) for part in parts]
    if None in kinds:
        return None

    def needs(i, *names):
        if not kinds[i].has(*names):
            wrong("WrongKind", parts[i][1])
            return False
        return True

    def all_need(*names):
        return all(needs(i, *names) for i in range(len(parts)))

    if operator in ("sum", "product"):
        return Kind("Whole") if all_need("Whole") else None
    if operator == "casei":
        return Kind("Text", pattern=kinds[0].pattern) if needs(0, "Text") else None
    if operator == "date":
        return Kind("Day")
    if operator == "interval":
        if not all_need("Day"):
            return None
        if kinds[0].value and kinds[1].value and kinds[0].value > kinds[1].value:
            return wrong("EndsTurned", place)
        return Kind("Span")
    if operator == "ring":
        numbers = [it.value for it in kinds]
        return Kind("Line", value=list(zip(numbers[::2], numbers[1::2])))
    if operator == "polygon":
        lines = [it.value for it in kinds]
        good = all(abs(it) <= 10**11 for line in lines for point in line for it in point)
        good = good and all(line[0] == line[-1] for line in lines) and is_region([line[:-1] for line in lines])
        return Kind("Area") if good else wrong("BadShape", place)
    if operator in ("point", "bbox"):
        numbers = [it.value for it in kinds]
        good = all(abs(it) <= 10**11 for it in numbers)
        if operator == "bbox":
            good = good and numbers[0] < numbers[2] and numbers[1] < numbers[3]
        return Kind({"point": "Spot", "bbox": "Frame"}[operator]) if good else wrong("BadShape", place)
    condition = Kind("Condition")
    if operator in ("compare", "in"):
        ordered = operator == "compare" and extra not in ("=", "<>")
        names = [it for it in ("Whole", "Text", "Day") + (() if ordered else ("Flag",)) if kinds[0].has(it)]
        if not names:
            return wrong("WrongKind", parts[0][1])
        return condition if all(needs(i, names[0]) for i in range(1, len(parts))) else None
    if operator == "like":
        if not needs(0, "Text"):
            return None
        return condition if kinds[1].pattern else wrong("WrongKind", parts[1][1])
    if operator == "between":
        return condition if all_need("Whole") else None
    if operator == "null":
        return condition if needs(0, "Text", "Whole", "Flag", "Day", "Span", "Spot", "Area", "Frame") else None
    if operator == "temporal":
        return condition if all_need("Day", "Span") else None
    if operator == "spatial":
        if not needs(0, "Spot", "Area", "Frame"):
            return None
        second = ("Spot", "Area", "Frame")
        if extra == "S_WITHIN" and not kinds[0].has("Spot"):
            second = ("Frame",)
        if extra == "S_CONTAINS" and not kinds[0].has("Frame"):
            second = ("Spot",)
        return condition if needs(1, *second) else None
    if operator in ("not", "and", "or"):
        return condition if all_need("Condition") else None
    raise AssertionError(operator)


def answer(collection, data):
    try:
        tree = tree_of(data)
        faults = []
        whole = kind(tree, SCHEMAS[collection], faults)
        if whole is not None and not whole.has("Condition"):
            faults.append((tree[1], "WrongKind"))
        if faults:
            place, cause = min(faults)
            raise Fault(cause, place)
        return "accepted"
    except Fault as fault:
        return f"{fault.cause} {fault.place}"


def tell(answer_of):
    """Prints the answer to each case of standard input."""
    for line in sys.stdin.buffer.read().split(b"\n"):
        if line:
            name, _, text = line.partition(b" ")
            print(answer_of(name.decode(), text))


if __name__ == "__main__":
    tell(answer)
