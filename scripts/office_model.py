#!/usr/bin/env python3
"""A second implementation of the land office's rules, in Python. It follows docs/OFFICE.md and not the crates.

    scripts/land_parts.py office | scripts/office_model.py office      prints the answers

It prints the office's answers to lines, over a ledger in memory that is empty at first. For three parts of crates/land_cases it prints more:

- `features`: also the features of the last revision as JSON, by scripts/server_model.py.
- `journals`: also the journals that lines `journal N` request, and for `check LINE` what would be answered to LINE.
- `memory journals`: the same of a ledger in memory, whose journals are read at once.

scripts/check_land_cases compares the stored answers of crates/land_cases with it.
"""
import hashlib
import json
import sys

from calling import arguments, one_of, wrong_call
import server_model
from filter_model import day_of, is_ring

# Numbers may have any number of digits.
sys.set_int_max_str_digits(0)

LINE = 65536
FAULTS = {"NotACommand": 0, "KnownObject": 1, "UnknownObject": 2, "OtherClass": 3, "DayNotAfter": 4, "Retired": 5, "UnknownReference": 6}


class NotACommand(Exception):
    pass


def need(holds):
    if not holds:
        raise NotACommand


# ---- reading JSON: the last of two members with one name counts, and a number is whole if it is written as a whole number

class Fraction:
    """A number with a fraction, an exponent or a sign before 0."""


def utf8(value):
    """Whether no text in the value has half a pair of surrogates."""
    if isinstance(value, str):
        value.encode("utf-8")
    elif isinstance(value, list):
        for part in value:
            utf8(part)


def members(pairs):
    for name, value in pairs:
        utf8(name)
        utf8(value)
    return dict(pairs)


def read(line):
    def constant(_):
        raise ValueError

    try:
        return json.loads(line.decode("utf-8"), object_pairs_hook=members, parse_constant=constant, parse_float=lambda _: Fraction(),
                          parse_int=lambda text: Fraction() if text == "-0" else int(text))
    except (ValueError, RecursionError):
        raise NotACommand from None


# ---- values

def whole(value, least, most):
    need(type(value) is int and least <= value <= most)
    return value


def object_id(value):
    return whole(value, 1, 2**31 - 1)


def day(value):
    found = day_of(value) if isinstance(value, str) else None
    need(found)
    return found


def words(value):
    need(isinstance(value, str) and 1 <= len(value.encode("utf-8")) <= 200 and "\0" not in value)
    return value


def flag(value):
    need(isinstance(value, bool))
    return value


def pair(value):
    need(isinstance(value, list) and len(value) == 2)
    return value


def share(value):
    num, den = pair(value)
    return whole(num, 1, whole(den, 1, 10**9)), den


def point(value):
    x, y = pair(value)
    return whole(x, -10**11, 10**11), whole(y, -10**11, 10**11)


def ring(value):
    need(isinstance(value, list))
    corners = [point(corner) for corner in value]
    need(is_ring(corners))
    return corners


def edges(corners):
    return zip(corners, corners[1:] + corners[:1])


def turn(p, q, t):
    return (q[0] - p[0]) * (t[1] - p[1]) - (q[1] - p[1]) * (t[0] - p[0])


def is_in(t, corners):
    """Whether the point is on the ring or inside it."""
    crossed = 0
    for p, q in edges(corners):
        if turn(p, q, t) == 0 and min(p[0], q[0]) <= t[0] <= max(p[0], q[0]) and min(p[1], q[1]) <= t[1] <= max(p[1], q[1]):
            return True
        low, high = (p, q) if p[1] <= q[1] else (q, p)
        if low[1] <= t[1] < high[1] and turn(low, high, t) > 0:
            crossed += 1
    return crossed % 2 == 1


def region(outline, holes):
    """An outer ring and its holes: at most 100 rings and 1,000 corners, and no corner of a hole outside the outer ring."""
    outer = ring(outline)
    need(holes is None or isinstance(holes, list))
    rings = [outer] + [ring(it) for it in holes or []]
    need(len(rings) <= 100 and sum(map(len, rings)) <= 1000)
    need(all(is_in(corner, outer) for it in rings[1:] for corner in it))
    return rings


# ---- bodies: the members of each class, which of them are required, and how each is read

RIGHT = {"unit": object_id, "party": object_id, "code": words, "share": share}
BODIES = {
    "party": ({"name": words, "code": words}, ["code"]),
    "unit": ({"name": words}, []),
    "parcel": ({"unit": object_id, "label": words, "area": lambda it: whole(it, 0, 2**32 - 1), "spot": point}, ["unit", "label"]),
    "right": (RIGHT, ["unit", "code"]),
    "restriction": ({**RIGHT, "required": flag}, ["unit", "code"]),
    "responsibility": (RIGHT, ["unit", "code"]),
}


def body(name, value):
    need(isinstance(value, dict))
    readers, required = BODIES[name]
    told = {member: it for member, it in value.items() if it is not None}
    shaped = ["shape", "holes"] if name == "parcel" else []
    need(set(value) <= {*readers, *shaped} and all(it in told for it in required))
    said = {member: readers[member](it) for member, it in told.items() if member not in shaped}
    if "shape" in told:
        said["shape"] = region(told["shape"], told.get("holes"))
    else:
        need("holes" not in told)
    return said


def command(line):
    told = read(line)
    need(isinstance(told, dict) and told.get("do") in ("enter", "amend", "retire") and "object" in told)
    number = object_id(told["object"])
    if told["do"] == "retire":
        need(set(told) == {"do", "object", "last"})
        return "retire", number, day(told["last"]), None, None
    others = set(told) - {"do", "object", "first"}
    need("first" in told and len(others) == 1 and others <= set(BODIES))
    name = others.pop()
    return told["do"], number, day(told["first"]), name, body(name, told[name])


# ---- the register: for each object its class, the first day of its open version, and whether a version is open

def refusal(register, do, number, at, name, said):
    known = register.get(number)
    if do == "enter":
        if known:
            return "KnownObject"
    else:
        if not known:
            return "UnknownObject"
        if do == "amend" and known["class"] != name:
            return "OtherClass"
        if known["since"] is None:
            return "Retired"
        if at < known["since"] or do == "amend" and at == known["since"]:
            return "DayNotAfter %04d-%02d-%02d" % known["since"]
    for member in ("unit", "party"):
        named = (said or {}).get(member)
        if named is not None and register.get(named, {}).get("class") != member:
            return "UnknownReference"
    return None


def apply(register, do, number, at, name, said):
    """Enters a command, or tells why the register refuses it."""
    why = refusal(register, do, number, at, name, said)
    if why is None:
        register[number] = {**register[number], "since": None} if do == "retire" else {"class": name, "since": at}
    return why


def refused(why):
    """The answer to a line that is refused."""
    return f"refused {FAULTS[why.split()[0]]} {why}"


def answers(text):
    register, revision = {}, 0
    for line in text.split(b"\n"):
        if not line:
            continue
        try:
            need(len(line) <= LINE)
            why = apply(register, *command(line))
        except NotACommand:
            why = "NotACommand"
        if why:
            yield refused(why)
            continue
        revision += 1
        yield f"revision {revision}"


def register_of(text):
    """The register after the lines."""
    register = server_model.Register()
    for line in text.split(b"\n"):
        if line:
            register.apply(json.loads(line))
    return register


def listed(register, revision, name):
    """The features of a collection at a revision, each after the name of the collection."""
    for identifier, told, _ in server_model.features(register.as_of(revision), name):
        yield f"{name} {server_model.compact(server_model.feature_tree(identifier, told)).decode()}"


def features(text):
    """The answers to the lines, and the features of their last revision."""
    yield from answers(text)
    register = register_of(text)
    for name in server_model.CLASSES:
        yield from listed(register, register.revision, name)


def histories(text):
    """The answers to the lines, and the features of each collection at each revision, each after the revision."""
    yield from answers(text)
    register = register_of(text)
    for name in server_model.CLASSES:
        for revision in range(register.revision + 1):
            for line in listed(register, revision, name):
                yield f"{revision} {line}"


# ---- the journal: the accepted commands, each with all members that its class may have

MEMBERS = {
    "party": ("code", "name"),
    "unit": ("name",),
    "parcel": ("area", "holes", "label", "shape", "spot", "unit"),
    "right": ("code", "party", "share", "unit"),
    "restriction": ("code", "party", "required", "share", "unit"),
    "responsibility": ("code", "party", "share", "unit"),
}


def line_of(do, number, at, name, said):
    """The line of a command, with its members in byte order. A member that was not given is null. A shape without holes has an empty list."""
    day_text = "%04d-%02d-%02d" % at
    if do == "retire":
        tree = {"do": do, "last": day_text, "object": number}
    else:
        body_tree = {member: said.get(member) for member in MEMBERS[name]}
        if "shape" in said:
            body_tree["shape"], *body_tree["holes"] = said["shape"]
        tree = {"do": do, "first": day_text, "object": number, name: body_tree}
    return json.dumps(tree, ensure_ascii=False, separators=(",", ":"))


def journals(text, is_read_at_once=False):
    """The answers to the lines. `journal N` requests the commands after a revision. `begin N` and `read K` request them in pieces.
    `check LINE` is answered as LINE would be, with `would be N` in place of `revision N`.

    `chain` requests the digest of all commands.

    A journal that is read in pieces is that of the moment when it began. It is whole after as many rows as there were commands then, or after
    the first line `read K` if it is read at once.
    """
    entered, accepted, behind, newest, left = b"", [], 0, 0, None
    for line in text.split(b"\n"):
        word, _, number = line.partition(b" ")
        if word == b"check":
            *_, answer = answers(entered + (number or b"nothing") + b"\n")
            yield answer.replace("revision", "would be")
        elif word in (b"journal", b"begin") and int(number) > len(accepted):
            yield "refused 12 UnknownRevision"
        elif line == b"chain":
            digest = bytes(32)
            for it in accepted:
                digest = hashlib.sha256(digest + it.encode()).digest()
            yield f"chain {digest.hex()}"
        elif word == b"journal":
            yield from accepted[int(number) :]
            yield f"end {len(accepted)}"
        elif word == b"begin":
            behind, newest, left = int(number), len(accepted), 0 if is_read_at_once else len(accepted)
            yield f"begun {newest}"
        elif word == b"read":
            if left is None:
                yield "no journal"
                continue
            left = max(0, left - int(number))
            if left:
                yield "more"
                continue
            yield from accepted[behind:newest]
            yield f"end {newest}"
            left = None
        elif line:
            entered += line + b"\n"
            *_, answer = answers(entered)
            yield answer
            if answer.startswith("revision "):
                accepted.append(line_of(*command(line)))


def memory_journals(text):
    """The same over a ledger in memory."""
    return journals(text, is_read_at_once=True)


PARTS = {"office": answers, "features": features, "journals": journals, "memory journals": memory_journals}


def main():
    [part] = arguments(__doc__, one_of(PARTS)) or wrong_call(__doc__)
    for answer in PARTS[part](sys.stdin.buffer.read()):
        print(answer)


if __name__ == "__main__":
    main()
