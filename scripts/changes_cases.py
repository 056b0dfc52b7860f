#!/usr/bin/env python3
"""Writes cases of crates/cad_cases: registers whose units and parties are amended and retired while other objects show their names.

    scripts/changes_cases.py [SEED]     prints the cases; the stored ones have seed 1

Each of sixty registers has two parts:

- The first part enters units and parties, and parcels, rights, restrictions and responsibilities that name them.
- The second part amends a unit and a party, and retires a unit and a party, the same ones or others.

For each of these changes, the first part has objects that name the changed one. They are of each class that can name it. They begin on
the day before the change, on its day, and on the day after. Some registers also have a further amendment, or a dependent that is amended
or retired itself. Some enter dependents after the object that they name is retired.

After each command of the second part come requests:

- for each whole collection that the command can touch, at the newest revision and at each one since this part began;
- for parts of collections, drawn at random, at drawn revisions;
- for single features.

At the end come requests at every revision of the register: for a whole collection, and for a part of another. Half of the registers are
served anew before these.

The first request for a page comes at one of three times: before the first command, after the first part, or after the first command of the
second part. A third of the registers has each of these.

Two further registers follow. One has more than a hundred and fifty revisions. In the other, a command touches more features than a base
may get changes. Both are asked at old revisions, some of them from before the first page.

scripts/check_changes_cases counts what the stored cases have of this.
"""
import json
import random
from collections import Counter
from datetime import date, timedelta
from itertools import zip_longest
from typing import NamedTuple

from calling import a_number, arguments, with_defaults

COUNT = 60
COLLECTIONS = {
    "parcel": "parcels",
    "right": "rights",
    "restriction": "restrictions",
    "responsibility": "responsibilities",
    "unit": "units",
    "party": "parties",
}
DEPENDENTS = ("parcel", "right", "restriction", "responsibility")
NAMING = {"unit": DEPENDENTS, "party": DEPENDENTS[1:]}
OBJECTS = {"unit": (1, 2), "party": (3, 4)}
ORIGIN = date(2000, 1, 1)

FILTERS = ["object<{low}", "number=1 AND object>{low}", "begin>=DATE('{day}')", "end IS NULL", "begin=DATE('{day}') OR number>1"]
NAMED = ["name='{name}'", "name IS NULL", "NOT name='{name}'", "name>'{name}'"]
OF_UNITS = [
    "unit_name='{name}'",
    "unit_name IS NULL",
    "unit=1 AND begin>DATE('{day}')",
    "unit IN (1,3) AND NOT unit_name='{name}'",
    "unit_name LIKE '{name}%' OR begin=DATE('{day}')",
]
OF_PARTIES = ["party_name='{name}'", "party_name IS NULL AND unit=2", "party=3 OR unit_name='{name}'", "NOT party_name>'{name}'"]


class Change(NamedTuple):
    """An amendment of a unit or a party from a day on, or its retirement at the end of the day."""

    kind: str
    object: int
    do: str
    day: int


def text_of(day):
    return (ORIGIN + timedelta(days=day)).isoformat()


def asked(target):
    head = f"GET {target} HTTP/1.1\r\nHost: x\r\n\r\n"
    return f"bytes 1 {json.dumps(head)}"


class Register:
    """The objects that a script has entered, with the lines that change and request them."""

    def __init__(self, chance):
        self.chance = chance
        self.number, self.revision = 0, 0
        # By object: its class, the first day of each of its versions, and its body.
        self.kinds, self.days, self.bodies = {}, {}, {}
        self.counts = [Counter()]

    def name(self, kind):
        letters = self.chance.choice("ABCDE")
        return letters if kind == "unit" else letters + self.chance.choice("ab")

    def line(self, kind, command):
        self.revision += 1
        self.counts.append(self.counts[-1] + Counter({kind: command["do"] != "retire"}))
        return f"office {json.dumps(command, separators=(',', ':'))}"

    def enter(self, kind, first, body):
        self.number += 1
        self.kinds[self.number], self.days[self.number], self.bodies[self.number] = kind, [first], body
        return self.line(kind, {"do": "enter", "object": self.number, "first": text_of(first), kind: body})

    def amend(self, number, first, body):
        self.days[number].append(first)
        self.bodies[number] = body
        kind = self.kinds[number]
        return self.line(kind, {"do": "amend", "object": number, "first": text_of(first), kind: body})

    def retire(self, number, last):
        return self.line(self.kinds[number], {"do": "retire", "object": number, "last": text_of(last)})

    def body(self, kind, unit=None, party=None):
        """A short body. A parcel may lack its shape and its area."""
        chance = self.chance
        if kind in OBJECTS:
            name = {"name": self.name(kind) if chance.random() < 0.9 else None}
            return name if kind == "unit" else {**name, "code": "n"}
        if kind == "parcel":
            x = self.number % 10 * 70_000
            body = {"unit": unit, "label": chance.choice("ab"), "area": chance.choice([None, 1, 2])}
            return {**body, "shape": [[x, 0], [x + 9, 0], [x, 9]]} if chance.random() < 0.4 else body
        body = {"unit": unit, "code": "u"}
        return {**body, "party": party} if party else body

    def renamed(self, number):
        """The body of a unit or a party: with another name, without a name, or with the same one."""
        old, manner = self.bodies[number], self.chance.choice(["other", "other", "other", "dropped", "equal"])
        name = old["name"] if manner == "equal" else None
        while manner == "other" and name in (None, old["name"]):
            name = self.name(self.kinds[number])
        return {**old, "name": name}

    def version(self, number, back=0):
        """The target of the request for an object's last version, or for an earlier one."""
        last = len(self.days[number])
        return f"/collections/{COLLECTIONS[self.kinds[number]]}/items/{number}.{max(last - back, 1)}"

    # ---- requests

    def whole(self, kind, revision):
        """The request for a whole collection at a revision."""
        given = [f"revision={revision}"] if revision < self.revision else []
        given += ["limit=1000"] if self.counts[revision][kind] > 10 else []
        query = "&".join(given)
        return asked(f"/collections/{COLLECTIONS[kind]}/items{'?' * (query > '')}{query}")

    def filter(self, kind):
        choice = FILTERS + (NAMED if kind in NAMING else 2 * OF_UNITS)
        choice += 2 * OF_PARTIES if kind in NAMING["party"] else []
        near = self.chance.choice([day for days in self.days.values() for day in days])
        name = self.name(self.chance.choice(["unit", "party"]))
        text = self.chance.choice(choice).format(name=name, day=text_of(near), low=self.chance.randrange(3, self.number))
        return "filter=" + text.replace("%", "%25").replace(" ", "+").replace(">", "%3E").replace("<", "%3C")

    def datetime(self):
        near = text_of(self.chance.choice([day for days in self.days.values() for day in days]))
        return "datetime=" + self.chance.choice([near, f"../{near}", f"{near}/.."])

    def drawn(self, kind, revision):
        """The request for a part of a collection, by a filter, days, a box, a limit, or two of these."""
        chance = self.chance
        left = chance.randrange(5) * 70_000
        parts = [self.filter(kind), self.datetime(), f"limit={chance.randrange(1, 4)}"]
        parts += [f"bbox={left},0,{left + 210_000},5"] * 2 if kind == "parcel" else []
        given = [f"revision={revision}"] if revision < self.revision else []
        given += {it.partition("=")[0]: it for it in chance.sample(parts, chance.choice([1, 1, 2]))}.values()
        return asked(f"/collections/{COLLECTIONS[kind]}/items?{'&'.join(given)}")

    def touched(self, number):
        """The classes whose features a command on the object can touch."""
        kind = self.kinds[number]
        return [kind, *NAMING.get(kind, [])]

    def naming(self, number):
        """The objects that name an object, or the object itself if its class cannot be named."""
        field = self.kinds[number]
        return [it for it, body in self.bodies.items() if body.get(field) == number] or [number]

    def questions(self, number, begun):
        """The requests after a command on the object. The second part begins with the revision `begun`."""
        chance, kinds = self.chance, self.touched(number)
        for kind in kinds:
            yield self.whole(kind, self.revision)
        for revision in chance.sample(range(begun, self.revision), self.revision - begun):
            for kind in chance.sample(kinds, len(kinds)):
                yield self.whole(kind, revision)
        yield self.drawn(chance.choice(kinds), self.revision)
        yield self.drawn(chance.choice(kinds), chance.randrange(begun - 1, self.revision + 1))
        yield self.drawn(chance.choice(list(COLLECTIONS)), chance.choice([begun - 1, chance.randrange(self.revision)]))
        singles = [self.version(number), self.version(number, back=1), *(self.version(it) for it in chance.sample(self.naming(number), 1))]
        yield from map(asked, dict.fromkeys(singles))


    def at_each_revision(self):
        """The requests at the end."""
        kinds = list(COLLECTIONS)
        for revision in range(self.revision + 1):
            yield self.whole(kinds[revision % len(kinds)], revision)
            yield self.drawn(kinds[(revision * 5 + 3) % len(kinds)], revision)


# ---- the sixty registers

def merged(chance, runs):
    """The elements of all lists, mixed. Each list keeps its order."""
    runs = [list(run) for run in runs]
    while any(runs):
        yield chance.choice([run for run in runs if run]).pop(0)


def changes(chance, are_same, is_amended_again):
    """The amendments and retirements of units and parties, and the kinds whose same object is amended and retired."""
    day, runs = chance.randrange(20, 50), []
    for kind, (one, other) in OBJECTS.items():
        at = day + chance.choice([0, 0, 0, 0, 1])
        amended = [Change(kind, one, "amend", at)]
        if is_amended_again == kind:
            amended.append(Change(kind, one, "amend", at + 1))
        if kind in are_same:
            runs.append([*amended, Change(kind, one, "retire", amended[-1].day + chance.choice([0, 0, 1]))])
        else:
            runs += [amended, [Change(kind, other, "retire", day + chance.choice([-1, 0, 0, 0, 0]))]]
    return list(merged(chance, runs))


def first_part(register, planned):
    """Enters units and parties, and objects that name them on the days around each change."""
    chance = register.chance
    needed = {number: {it.day + aside for it in planned if it.object == number for aside in (-1, 0, 1)} for numbers in OBJECTS.values() for number in numbers}
    for kind, numbers in OBJECTS.items():
        for number in numbers:
            yield register.enter(kind, min(needed[number], default=20) - chance.randrange(4), register.body(kind))
    rows = []
    for kind in DEPENDENTS:
        for day in sorted(set().union(*needed.values())):
            units, parties = ([it for it in OBJECTS[named] if day in needed[it] and kind in NAMING[named]] for named in OBJECTS)
            chance.shuffle(parties)
            rows += [(kind, day, unit or chance.choice(OBJECTS["unit"]), party) for unit, party in zip_longest(units, parties)]
    for kind, day, unit, party in chance.sample(rows, len(rows)):
        yield register.enter(kind, day, register.body(kind, unit, party))


def change(register, it):
    if it.do == "amend":
        return register.amend(it.object, it.day, register.renamed(it.object))
    return register.retire(it.object, it.day)


def dependent_changed(register, is_amended):
    """Amends a dependent on the day after it begins, so that it names others, or retires it."""
    chance = register.chance
    number = chance.choice([it for it, kind in register.kinds.items() if kind in DEPENDENTS])
    first = register.days[number][-1]
    if not is_amended:
        return number, register.retire(number, first + chance.randrange(2))
    kind = register.kinds[number]
    return number, register.amend(number, first + 1, register.body(kind, chance.choice(OBJECTS["unit"]), chance.choice(OBJECTS["party"])))


def entered_late(register, retired, aside):
    """Enters a dependent of a retired object, which begins on its last day or on the day after."""
    kind = register.chance.choice(NAMING[retired.kind])
    named = {"unit": register.chance.choice(OBJECTS["unit"]), retired.kind: retired.object}
    line = register.enter(kind, retired.day + aside, register.body(kind, **named))
    return register.number, line


def second_part(register, planned, more):
    """Each command with its object. Commands that are not planned changes come anywhere, or at the end."""
    chance = register.chance
    acts = [lambda it=it: (it.object, change(register, it)) for it in planned]
    if more in ("amended", "retired"):
        acts.insert(chance.randrange(2, len(acts) + 1), lambda: dependent_changed(register, more == "amended"))
    if more == "late":
        retired = chance.choice([it for it in planned if it.do == "retire"])
        acts += [lambda aside=aside: entered_late(register, retired, aside) for aside in chance.sample([0, 1], 2)]
    for act in acts:
        yield act()


def script(chance, at):
    """The lines of one register. Its number decides which objects are changed twice and which commands are added."""
    are_same = {0: [], 3: [], 6: [], 9: chance.sample(list(OBJECTS), 1)}.get(at % 10, list(OBJECTS))
    more = ["amended", "late", "retired", None, "again", None][(at // 10 + at) % 6]
    planned = changes(chance, are_same, chance.choice(list(OBJECTS)) if more == "again" else None)
    register = Register(chance)
    yield from ("empty", "open 1")
    if at // 20 == 0:
        yield register.whole("unit", 0)
    yield from first_part(register, planned)
    if at // 20 == 1:
        yield register.whole(chance.choice(DEPENDENTS), register.revision)
    begun = register.revision + 1
    for number, line in second_part(register, planned, more):
        yield line
        yield from register.questions(number, begun)
    if at % 2:
        yield from ("restart", "open 1")
    register.chance = random.Random(at)
    yield from register.at_each_revision()


# ---- further registers

def many_revisions(chance):
    """Renames a unit and a party alternately, from days before their dependents begin. So each revision has its own names."""
    register = Register(chance)
    yield from ("empty", "open 1")
    yield register.enter("unit", 0, {"name": "A"})
    yield register.enter("party", 0, {"name": "B", "code": "n"})
    for kind, day in [("parcel", 300), ("right", 300), ("restriction", 80), ("responsibility", 301)]:
        yield register.enter(kind, day, register.body(kind, 1, 2))
    for turn in range(150):
        number, name = 1 + turn % 2, chr(65 + turn // 26) + chr(97 + turn % 26)
        yield register.amend(number, 1 + turn, {**register.bodies[number], "name": name})
        if turn % 5 == 2:
            yield register.whole("right", register.revision)
            yield register.whole(chance.choice(DEPENDENTS), chance.randrange(6, register.revision))
            yield register.drawn(chance.choice(DEPENDENTS), chance.randrange(register.revision))
            yield asked(register.version(number, back=chance.randrange(9)))
    for revision in chance.sample(range(register.revision + 1), register.revision + 1):
        yield register.whole(chance.choice(DEPENDENTS), revision)
    yield "restart"
    yield "open 1"
    for revision in [register.revision, *chance.sample(range(register.revision), 20)]:
        yield register.whole(chance.choice(DEPENDENTS), revision)
        yield asked(f"/collections/units/items?limit=2&after=1.{chance.randrange(75)}&revision={revision}")


def many_named(chance, most):
    """Changes a party that many objects name, while a base gets at most that many changes."""
    register = Register(chance)
    yield from (f"changes {most}", "empty", "open 1")
    yield register.enter("unit", 0, {"name": "A"})
    yield register.enter("party", 0, {"name": "B", "code": "n"})
    for turn in range(most + 4):
        kind = "restriction" if turn % 4 == 3 else "right"
        yield register.enter(kind, 10 + turn % 4, register.body(kind, 1, 2))
    acts = [
        lambda: (2, register.amend(2, 10, {"name": "C", "code": "n"})),
        lambda: (5, register.amend(5, 20, register.body("right", 1))),
        lambda: (1, register.amend(1, 11, {"name": None})),
        lambda: (2, register.amend(2, 12, {"name": "D", "code": "n"})),
        lambda: (7, register.retire(7, 30)),
        lambda: (2, register.retire(2, 12)),
        lambda: (register.number + 1, register.enter("right", 12, register.body("right", 1, 2))),
        lambda: (register.number + 1, register.enter("right", 13, register.body("right", 1, 2))),
    ]
    begun = register.revision + 1
    for turn, act in enumerate(acts):
        number, line = act()
        yield line
        if turn:
            yield from register.questions(number, begun)
            yield register.whole("right", chance.randrange(begun))
    yield from ("restart", "open 1")
    for revision in [register.revision, *chance.sample(range(register.revision), 12)]:
        yield register.whole("right", revision)


def cases(seed):
    """The lines of the sixty registers and of the further ones."""
    chance = random.Random(seed)
    yield f"# Sixty registers whose units and parties are amended and retired under what names them, by scripts/changes_cases.py {seed}"
    for at in range(COUNT):
        yield from script(chance, at)
    yield "# A register of a hundred and fifty revisions and more, asked at old ones, some from before the first page"
    yield from many_revisions(chance)
    yield "# A command touches more features than a base may get changes, and is asked for at old revisions, some from before the first page"
    yield from (*many_named(chance, 5), "changes 512")


def main():
    print("\n".join(cases(*with_defaults(arguments(__doc__, a_number), 1))))


if __name__ == "__main__":
    main()
