#!/usr/bin/env python3
"""A second implementation of the rules of normal forms, in Python. It does not follow the crates.

    scripts/stored_cases.py cql_cases in normal | scripts/normal_model.py      prints the answers

It gives the answers of crates/cql_cases to lines `normal`, and uses scripts/filter_meaning.py. A form is one of these:

- ("constant", b)
- ("range", property, low, high)
- ("front", property, low, high), for a LIKE that remains a condition
- ("and", parts) or ("or", parts)
- ("equality",), for flags
- ("other",)

An end of a range is ("with", value), ("without", value) or None. NOT gives the opposite form, so no form has a NOT.
"""
import re
import sys

import filter_meaning as meaning
import filter_model as model

FALSE, TRUE = ("constant", False), ("constant", True)
ORDERED = ("whole", "text", "day")
TURNED = {"=": "=", "<>": "<>", "<": ">", ">": "<", "<=": ">=", ">=": "<="}
OPPOSITE = {"=": "<>", "<>": "=", "<": ">=", ">": "<=", "<=": ">", ">=": "<"}
OTHER, EQUALITY = ("other",), ("equality",)


def is_fixed(tree):
    """Whether the term has no property."""
    return tree[0] != "name" and all(is_fixed(it) for it in tree[2] if isinstance(it, tuple))


def ends(sign, value):
    return {"=": (("with", value), ("with", value)), "<": (None, ("without", value)), ">": (("without", value), None),
            "<=": (None, ("with", value)), ">=": (("with", value), None)}[sign]


def compared(sign, left, right):
    """The form of a comparison that is true, without its flags."""
    fixed = [is_fixed(left), is_fixed(right)]
    values = [meaning.value(it, None) if known else ... for it, known in zip((left, right), fixed)]
    if None in values:
        return FALSE
    if all(fixed):
        return ("constant", meaning.compared(sign, *values))
    if fixed[0]:
        left, right, values, sign = right, left, values[::-1], TURNED[sign]
    if fixed[0] == fixed[1] or left[0] != "name" or sign == "<>" or isinstance(values[1], bool):
        return OTHER
    return ("range", left[3], *ends(sign, values[1]))


def equal_flags(left, right):
    """The form of an equality of flags, which is not a range."""
    fixed = [is_fixed(left), is_fixed(right)]
    if all(fixed):
        return ("constant", left[3] == right[3])
    return EQUALITY if any(fixed) else OTHER


def is_empty(low, high):
    if low is None or high is None:
        return False
    return low[1] > high[1] or (low[1] == high[1] and "without" in (low[0], high[0]))


def higher(a, b):
    """The stricter of two lower ends."""
    if a is None or b is None:
        return a or b
    return max(a, b, key=lambda it: (it[1], it[0] == "without"))


def lower(a, b):
    if a is None or b is None:
        return a or b
    return min(a, b, key=lambda it: (it[1], it[0] == "with"))


def add(parts, form):
    if form[0] != "range":
        return parts + [form]
    for at, (kind, *rest) in enumerate(parts):
        if kind == "range" and rest[0] == form[1]:
            low, high = higher(rest[1], form[2]), lower(rest[2], form[3])
            return parts[:at] + parts[at + 1:] + [FALSE if is_empty(low, high) else ("range", form[1], low, high)]
    return parts + [form]


def all_of(forms):
    parts = []
    for form in forms:
        for part in form[1] if form[0] == "and" else [form]:
            parts = parts if part == TRUE else add(parts, part)
    if FALSE in parts:
        return FALSE
    return TRUE if not parts else parts[0] if len(parts) == 1 else ("and", parts)


def some_of(forms):
    parts = [it for it in forms if it != FALSE]
    if TRUE in parts:
        return TRUE
    return FALSE if not parts else parts[0] if len(parts) == 1 else ("or", parts)


def end_of_front(front):
    """The least text that is above all texts with this front."""
    while front:
        last = ord(front[-1])
        if last != 0x10FFFF:
            return front[:-1] + chr(0xE000 if last == 0xD7FF else last + 1)
        front = front[:-1]
    return None


def liked(left, pattern):
    if left[0] != "name" or not is_fixed(pattern):
        return OTHER
    pattern, front = meaning.value(pattern, None), ""
    while pattern and pattern[0] not in "%_":
        if pattern[0] == "\\" and len(pattern) > 1:
            pattern = pattern[1:]
        front, pattern = front + pattern[0], pattern[1:]
    if not front:
        return OTHER
    end = end_of_front(front)
    kind = "range" if pattern and set(pattern) == {"%"} else "front"
    return (kind, left[3], ("with", front), None if end is None else ("without", end))


def between(left, low, high, side):
    signs = (">=", "<=") if side else ("<", ">")
    forms = [compared(sign, left, it) for sign, it in zip(signs, (low, high))]
    if OTHER in forms:
        return OTHER
    return all_of(forms) if side else some_of(forms)


def form_of(tree, side):
    """The form of the features for which the filter is true, or false."""
    operator, _, parts, extra = tree
    if operator == "truth":
        return ("constant", extra == side)
    if operator == "not":
        return form_of(parts[0], not side)
    if operator in ("and", "or"):
        forms = [form_of(it, side) for it in parts]
        return all_of(forms) if (operator == "and") == side else some_of(forms)
    if operator == "compare":
        return compared(extra if side else OPPOSITE[extra], *parts) if is_ordered(parts) else OTHER
    if operator in ("like", "between", "in"):
        side = side != extra
    if operator == "like":
        return liked(*parts) if side else OTHER
    if operator == "between":
        return between(*parts, side)
    if operator == "in" and side:
        forms = [compared("=", parts[0], it) if is_ordered(parts) else equal_flags(parts[0], it) for it in parts[1:]]
        return OTHER if OTHER in forms else some_of(forms)
    return OTHER


def is_ordered(parts):
    """Whether it compares whole numbers, texts or days, and not flags."""
    return all(it[0] != "truth" and not (it[0] == "name" and it[3] == "party_required") for it in parts)


def shown(value):
    if isinstance(value, tuple):
        return "%04d-%02d-%02d" % value
    return f"'{value}'" if isinstance(value, str) else str(value)


def offered(form):
    """The range that a form offers: its own, or that of the first part of an AND that has a range."""
    for kind, *rest in form[1] if form[0] == "and" else [form]:
        if kind in ("range", "front"):
            return " ".join([rest[0]] + ["free" if it is None else f"{it[0]} {shown(it[1])}" for it in rest[1:]])
    return "none"


def told(name, data):
    collection = name.partition("/")[0]
    if collection not in model.SCHEMAS:
        return "no case"
    try:
        data.decode()
    except UnicodeDecodeError:
        return "no case"
    if model.answer(collection, data) != "accepted":
        return "refused"
    tree = model.tree_of(data)
    form = form_of(tree, True)
    word = ("true" if form[1] else "false") if form[0] == "constant" else "open"
    taken = meaning.taken(collection, None, tree).split(" ")[1:]
    return " ".join([word, offered(form), "yes"] + taken)


def cases(data):
    """The cases of the lines. Earlier lines say what replaces each mark."""
    texts = []
    for line in data.split(b"\n"):
        again = re.match(rb"repeat ([0-9]+) (.*)", line, re.S)
        if again:
            texts.append(int(again[1]) * again[2])
        elif line and not line.startswith(b"#"):
            pieces = line.split(b"@")
            marks = texts + [b"@"] * len(pieces)
            yield pieces[0] + b"".join(mark + piece for mark, piece in zip(marks, pieces[1:]))
            texts = []


def main():
    sys.setrecursionlimit(20000)
    for case in cases(sys.stdin.buffer.read()):
        name, text = re.fullmatch(rb"([^ \t]*)[ \t]?(.*)", case, re.S).groups()
        print(told(name.decode(errors="replace"), text))


if __name__ == "__main__":
    main()
