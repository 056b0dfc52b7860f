#!/usr/bin/env python3
"""A second implementation of the dry run of the land office, in Python. It follows docs/OFFICE.md and not the crates.

    scripts/land_parts.py "dry run" | scripts/dry_run_model.py      prints the reports

It prints a report for each line, over a ledger in memory that is empty at first. It reads JSON with the place of each value and each name.
scripts/check_land_cases compares the stored reports of crates/land_cases with it.
"""
import re
import sys

import office_model
from filter_model import day_of
from office_model import BODIES, LINE, NotACommand, apply, is_in, need, refused

BLANKS = b" \t\n\r"
NUMBER = re.compile(rb"-?(?:0|[1-9][0-9]*)(?:\.[0-9]+)?(?:[eE][+-]?[0-9]+)?")
WORD = re.compile(rb"[^ \t\n\r{}\[\]:,]+")
STRING = re.compile(rb'"(?:[^"\\\x00-\x1f]|\\.)*"', re.DOTALL)
ESCAPE = re.compile(rb'\\(?:["\\/bfnrt]|u[0-9a-fA-F]{4})')
DEEPEST = 127
NAMES = {"enter": ("do", "object", "first"), "amend": ("do", "object", "first"), "retire": ("do", "object", "last")}


class Fault(Exception):
    """Why a line is no command, and at which byte."""

    def __init__(self, place, words):
        self.place, self.words = place, words


class Node:
    """A value of JSON at its place. An object has the last member of each name: the place of the name, and its value."""

    def __init__(self, place, value):
        self.place, self.value = place, value


class Fraction:
    """A number with a fraction, an exponent or a sign before 0, or of more than 64 bits."""


# ---- JSON with places

def broken(text, place):
    return Fault(place, "the JSON ends here" if place == len(text) else "not JSON")


def skip(text, at):
    while at < len(text) and text[at] in BLANKS:
        at += 1
    return at


def string_at(text, at):
    """The content of the string at a place, and where it ends."""
    found = STRING.match(text, at)
    if not found:
        raise broken(text, at)
    inner = found[0][1:-1]
    if ESCAPE.sub(b"", inner).count(b"\\"):
        raise broken(text, at)
    units = re.sub(rb"\\u([0-9a-fA-F]{4})", lambda it: b"\xff" + it[1] + b"\xfe", re.sub(rb"\\\\", b"\xfd", inner))
    content = b""
    while units:
        pair = re.match(rb"\xff(d[89ab][0-9a-f]{2})\xfe\xff(d[c-f][0-9a-f]{2})\xfe", units, re.IGNORECASE)
        one = re.match(rb"\xff([0-9a-f]{4})\xfe", units, re.IGNORECASE)
        if pair:
            high, low = (int(it, 16) for it in pair.groups())
            content, units = content + chr(0x10000 + (high - 0xD800) * 0x400 + low - 0xDC00).encode(), units[pair.end() :]
        elif one:
            number = int(one[1], 16)
            if 0xD800 <= number < 0xE000:
                raise broken(text, at)
            content, units = content + chr(number).encode(), units[one.end() :]
        elif units[:1] == b"\\":
            content, units = content + {b"b": b"\b", b"f": b"\f", b"n": b"\n", b"r": b"\r", b"t": b"\t"}.get(units[1:2], units[1:2]), units[2:]
        else:
            content, units = content + (b"\\" if units[:1] == b"\xfd" else units[:1]), units[1:]
    return content, found.end()


def word_at(text, at):
    """The value of the word at a place, and where it ends."""
    word = WORD.match(text, at)[0]
    named = {b"true": True, b"false": False, b"null": None}
    if word in named:
        return named[word], at + len(word)
    if not NUMBER.fullmatch(word):
        raise broken(text, at)
    if re.fullmatch(rb"-?[0-9]+", word) and word != b"-0" and -2**63 <= int(word) < 2**64:
        return int(word), at + len(word)
    if float(word) in (float("inf"), float("-inf")):
        raise broken(text, at)
    return Fraction(), at + len(word)


def after_value(text, at, close):
    """What follows a value inside brackets: the place after a comma, and whether the closing bracket follows."""
    at = skip(text, at)
    if text[at : at + 1] == close:
        return at + 1, True
    if text[at : at + 1] != b",":
        raise broken(text, at)
    at = skip(text, at + 1)
    if at == len(text) or text[at] in b"}]":
        raise broken(text, at)
    return at, False


def is_name(text, at):
    """Whether a string and a colon are at the place. Then no value is."""
    found = STRING.match(text, at)
    return bool(found) and text[skip(text, found.end()) :][:1] == b":"


def value_at(text, at, depth):
    at = skip(text, at)
    first = text[at : at + 1]
    if not first or first in b"}],:\\":
        raise broken(text, at)
    if first == b'"':
        content, end = string_at(text, at)
        if is_name(text, at):
            raise broken(text, at)
        return Node(at, content.decode()), end
    if first not in b"{[":
        value, end = word_at(text, at)
        return Node(at, value), end
    if depth == DEEPEST:
        raise broken(text, at)
    return items_at(text, at, depth + 1) if first == b"[" else members_at(text, at, depth + 1)


def items_at(text, at, depth):
    node, at = Node(at, []), skip(text, at + 1)
    done = text[at : at + 1] == b"]"
    end = at + 1
    while not done:
        item, end = value_at(text, at, depth)
        node.value.append(item)
        at, done = after_value(text, end, b"]")
        end = at
    return node, end


def members_at(text, at, depth):
    node, at = Node(at, {}), skip(text, at + 1)
    done = text[at : at + 1] == b"}"
    end = at + 1
    while not done:
        if text[at : at + 1] != b'"':
            raise broken(text, at)
        name, end = string_at(text, at)
        if not is_name(text, at):
            raise broken(text, at)
        value, end = value_at(text, skip(text, end) + 1, depth)
        node.value[name.decode()] = (at, value)
        at, done = after_value(text, end, b"}")
        end = at
    return node, end


def read(text):
    node, end = value_at(text, 0, 0)
    end = skip(text, end)
    if text[end : end + 1] == b",":
        end = skip(text, end + 1)
        raise broken(text, end)
    if end < len(text):
        raise broken(text, end)
    return node


# ---- values

def fail_unless(holds, node, words):
    if not holds:
        raise Fault(node.place, words)


def natural(node):
    return type(node.value) is int and node.value >= 0


def check_operation(node, name):
    fail_unless(node.value in ("enter", "amend", "retire"), node, f"{name}: not enter, amend or retire")


def check_object(node, name):
    fail_unless(natural(node), node, f"{name}: not a whole number from 0 on")
    fail_unless(1 <= node.value < 2**31, node, f"{name}: not from 1 to 2147483647")


def check_day(node, name):
    fail_unless(isinstance(node.value, str) and day_of(node.value), node, f"{name}: not a day YYYY-MM-DD")


def check_words(node, name):
    fail_unless(isinstance(node.value, str), node, f"{name}: not a text")
    fail_unless(node.value, node, f"{name}: an empty text")
    fail_unless(len(node.value.encode()) <= 200, node, f"{name}: a text of more than 200 bytes")
    fail_unless("\0" not in node.value, node, f"{name}: a text with U+0000")


def check_area(node, name):
    fail_unless(natural(node), node, f"{name}: not a whole number from 0 on")
    fail_unless(node.value < 2**32, node, f"{name}: above 4294967295")


def check_flag(node, name):
    fail_unless(isinstance(node.value, bool), node, f"{name}: not true or false")


def is_pair(node):
    return isinstance(node.value, list) and len(node.value) == 2


def check_share(node, name):
    fail_unless(is_pair(node) and all(map(natural, node.value)), node, f"{name}: not two whole numbers from 0 on")
    num, den = (it.value for it in node.value)
    fail_unless(1 <= num <= den <= 10**9, node, f"{name}: not 1 <= num <= den <= 1000000000")


def check_point(node, name):
    holds = is_pair(node) and all(type(it.value) is int and -2**63 <= it.value < 2**63 for it in node.value)
    fail_unless(holds, node, f"{name}: not two whole numbers")
    fail_unless(all(abs(it.value) <= 10**11 for it in node.value), node, f"{name}: farther than 100000000000")


# ---- shapes

def meets(p, q, r, s):
    """Whether two segments have a point in common."""
    def side(a, b, t):
        cross = (b[0] - a[0]) * (t[1] - a[1]) - (b[1] - a[1]) * (t[0] - a[0])
        return (cross > 0) - (cross < 0)

    def between(a, b, t):
        return min(a[0], b[0]) <= t[0] <= max(a[0], b[0]) and min(a[1], b[1]) <= t[1] <= max(a[1], b[1])

    one, two, three, four = side(p, q, r), side(p, q, s), side(r, s, p), side(r, s, q)
    if one != two and three != four:
        return True
    return any(turn == 0 and between(a, b, t) for turn, a, b, t in ((one, p, q, r), (two, p, q, s), (three, r, s, p), (four, r, s, q)))


def folds(p, q, s):
    """Whether an edge to q and the next edge from q to s lie on each other."""
    cross = (q[0] - p[0]) * (s[1] - q[1]) - (q[1] - p[1]) * (s[0] - q[0])
    return cross == 0 and (q[0] - p[0]) * (s[0] - q[0]) + (q[1] - p[1]) * (s[1] - q[1]) < 0


def ring_fault(corners):
    """The name of the first fault of the corners of a ring, or None."""
    if len(corners) < 3:
        return "TooFew"
    if len(corners) > 1000:
        return "TooMany"
    edges = list(zip(corners, corners[1:] + corners[:1]))
    if sum(a[0] * b[1] - a[1] * b[0] for a, b in edges) == 0:
        return "Flat"
    count = len(edges)
    for i, (p, q) in enumerate(edges):
        if p == q:
            return f"Crosses {i} {i}"
        for j in range(i + 1, count):
            r, s = edges[j]
            if j == i + 1:
                crossed = folds(p, q, s)
            elif i == 0 and j == count - 1:
                crossed = folds(r, p, q)
            else:
                crossed = meets(p, q, r, s)
            if crossed:
                return f"Crosses {i} {j}"
    return None


def corners_of(node, name):
    fail_unless(isinstance(node.value, list), node, f"{name}: not a list")
    for i, corner in enumerate(node.value):
        check_point(corner, f"{name}[{i}]")
    corners = [tuple(it.value for it in corner.value) for corner in node.value]
    fault = ring_fault(corners)
    fail_unless(not fault, node, f"{name}: {fault}")
    return corners


def check_shape(outline, holes, name):
    if outline is None:
        if holes is not None:
            raise Fault(holes.place, f"{name}.holes: no shape")
        return
    outer = corners_of(outline, f"{name}.shape")
    if holes is None:
        return
    fail_unless(isinstance(holes.value, list), holes, f"{name}.holes: not a list")
    inner = [corners_of(it, f"{name}.holes[{k}]") for k, it in enumerate(holes.value)]
    fail_unless(len(inner) <= 99 and len(outer) + sum(map(len, inner)) <= 1000, holes, f"{name}.holes: TooMany")
    for k, ring in enumerate(inner):
        fail_unless(all(is_in(it, outer) for it in ring), holes.value[k], f"{name}.holes[{k}]: Outside")


# ---- objects

CHECKS = {"do": check_operation, "object": check_object, "unit": check_object, "party": check_object, "first": check_day, "last": check_day,
          "name": check_words, "code": check_words, "label": check_words, "area": check_area, "share": check_share, "required": check_flag,
          "spot": check_point}
# In the order in which they are checked; an asterisk marks those that may be missing.
MEMBERS = {
    "party": "name* code",
    "unit": "name*",
    "parcel": "unit label area* shape* holes* spot*",
    "right": "unit party* code share*",
    "restriction": "unit party* code share* required*",
    "responsibility": "unit party* code share*",
}


def member(node, name):
    """The value of the member, if it is there and not null."""
    _, found = node.value.get(name, (None, None))
    return None if found is None or found.value is None else found


def check_member(node, name, told, required=True):
    found = member(node, name)
    if found is not None:
        CHECKS[name](found, told)
    elif required:
        raise Fault(node.place, f"{told}: missing")


def quoted(name):
    short = {'"': '\\"', "\\": "\\\\", "\b": "\\b", "\f": "\\f", "\n": "\\n", "\r": "\\r", "\t": "\\t"}
    return '"' + "".join(short.get(it) or (f"\\u{ord(it):04x}" if it < " " else it) for it in name) + '"'


def by_bytes(names):
    return sorted(names, key=str.encode)


def check_known(node, names, before=""):
    unknown = by_bytes(set(node.value) - set(names))
    if unknown:
        raise Fault(node.value[unknown[0]][0], f"{before}{quoted(unknown[0])}: unknown")


def check_body(node, name):
    fail_unless(isinstance(node.value, dict), node, f"{name}: not an object")
    names = MEMBERS[name].split()
    for it in names:
        told = it.rstrip("*")
        if told == "shape":
            check_shape(member(node, "shape"), member(node, "holes"), name)
        elif told != "holes":
            check_member(node, told, f"{name}.{told}", told == it)
    check_known(node, [it.rstrip("*") for it in names], f"{name}.")


def check_command(node):
    fail_unless(isinstance(node.value, dict), node, "not an object")
    check_member(node, "do", "do")
    check_member(node, "object", "object")
    names = NAMES[member(node, "do").value]
    check_member(node, names[2], names[2])
    if names[2] == "last":
        return check_known(node, names)
    others = by_bytes(set(node.value) - set(names))
    if not others:
        raise Fault(node.place, "no body")
    for name in others[:2]:
        if name not in BODIES:
            raise Fault(node.value[name][0], f"{quoted(name)}: unknown")
    if len(others) > 1:
        raise Fault(max(node.value[it][0] for it in others[:2]), f"{others[0]} and {others[1]}: two bodies")
    return check_body(node.value[others[0]][1], others[0])


def explain(line):
    """Raises the fault of a line, if it has one."""
    if len(line) > LINE:
        raise Fault(LINE, "more than 65536 bytes")
    try:
        line.decode("utf-8")
    except UnicodeDecodeError as error:
        raise Fault(error.start, "not UTF-8") from None
    check_command(read(line))


def is_command(line):
    """Whether scripts/office_model.py takes the line for a command."""
    try:
        need(len(line) <= LINE)
        office_model.command(line)
    except NotACommand:
        return False
    return True


def reports(text, before=()):
    """The reports for lines, over a register into which the lines before were entered, which are all accepted."""
    register, revision = {}, len(before)
    for line in before:
        fault = apply(register, *office_model.command(line))
        assert fault is None, line
    for line in text.split(b"\n"):
        if not line:
            continue
        try:
            explain(line)
        except Fault as fault:
            assert not is_command(line), line
            yield f"no command at {fault.place}: {fault.words}"
            continue
        assert is_command(line), line
        why = apply(register, *office_model.command(line))
        if why:
            yield refused(why)
            continue
        revision += 1
        yield f"would be {revision}"


def main():
    sys.set_int_max_str_digits(0)
    for report in reports(sys.stdin.buffer.read()):
        sys.stdout.buffer.write(report.encode() + b"\n")


if __name__ == "__main__":
    main()
