#!/usr/bin/env python3
"""Writes cases of crates/cad_cases that show that a server reads its ledger once, and has every revision then.

    scripts/listing_cases.py        prints the cases, which are the last of the stored ones

A server over the sample register may list its ledger once, for the first page. Then the cases enter each kind of command on each class.
The first of them change names that parcels, rights and restrictions show. After each command, they request pages of what it can touch.

At the end they request pages of all collections at every revision. This is done with bases that get at most 512, 3 and no changes. A server
that may not list its ledger reports out of memory, and continues with what needs no ledger.
"""
import json

HEAD = "# Servers that may list their ledger a few times, by scripts/listing_cases.py"
COLLECTIONS = ["parcels", "rights", "restrictions", "units", "parties", "responsibilities"]
UNITS, PARTIES = COLLECTIONS[:4] + COLLECTIONS[5:], COLLECTIONS[1:3] + COLLECTIONS[4:]
FIRST, NO_BOUND = 10, 2**64 - 1

# The bounds of changes.
BOUNDS = [512, 3, 0]

# A command, and the collections that it can touch.
COMMANDS = [
    ({"do": "amend", "object": 10, "first": "2002-01-01", "unit": {"name": "Old Mill"}}, UNITS),
    ({"do": "amend", "object": 20, "first": "2004-01-01", "party": {"name": "Ana", "code": "naturalPerson"}}, PARTIES),
    ({"do": "enter", "object": 12, "first": "2000-01-01", "unit": {"name": "Quarry"}}, UNITS),
    ({"do": "enter", "object": 21, "first": "2000-01-01", "party": {"name": "Bo", "code": "naturalPerson"}}, PARTIES),
    ({"do": "enter", "object": 5, "first": "2000-01-01", "parcel": {"unit": 12, "label": "D-4"}}, ["parcels"]),
    ({"do": "enter", "object": 32, "first": "2000-01-01", "right": {"unit": 12, "party": 21, "code": "ownership"}}, ["rights"]),
    ({"do": "enter", "object": 33, "first": "2000-01-01", "restriction": {"unit": 12, "party": 21, "code": "noBuilding"}}, ["restrictions"]),
    ({"do": "enter", "object": 34, "first": "2000-01-01", "responsibility": {"unit": 12, "party": 21, "code": "upkeep"}}, ["responsibilities"]),
    ({"do": "amend", "object": 12, "first": "2001-01-01", "unit": {"name": "Pit"}}, UNITS),
    ({"do": "amend", "object": 21, "first": "2001-01-01", "party": {"code": "naturalPerson"}}, PARTIES),
    ({"do": "amend", "object": 5, "first": "2001-01-01", "parcel": {"unit": 11, "label": "D-5"}}, ["parcels"]),
    ({"do": "amend", "object": 32, "first": "2001-01-01", "right": {"unit": 12, "code": "lease"}}, ["rights"]),
    ({"do": "amend", "object": 33, "first": "2001-01-01", "restriction": {"unit": 11, "code": "noBuilding"}}, ["restrictions"]),
    ({"do": "amend", "object": 34, "first": "2001-01-01", "responsibility": {"unit": 12, "code": "waterway"}}, ["responsibilities"]),
    ({"do": "retire", "object": 5, "last": "2005-01-01"}, ["parcels"]),
    ({"do": "retire", "object": 32, "last": "2005-01-01"}, ["rights"]),
    ({"do": "retire", "object": 33, "last": "2005-01-01"}, ["restrictions"]),
    ({"do": "retire", "object": 34, "last": "2005-01-01"}, ["responsibilities"]),
    ({"do": "retire", "object": 21, "last": "2005-01-01"}, PARTIES),
    ({"do": "retire", "object": 12, "last": "2005-01-01"}, UNITS),
]


def asked(collection, revision=None):
    query = "" if revision is None else f"?revision={revision}"
    head = f"GET /collections/{collection}/items{query} HTTP/1.1\r\nHost: x\r\n\r\n"
    return f"bytes 1 {json.dumps(head)}"


def entered(command):
    return f"office {json.dumps(command, separators=(',', ':'))}"


def listed_once(most):
    yield from (f"changes {most}", "listings 1", "sample", "open 1")
    yield from map(asked, COLLECTIONS)
    for command, touched in COMMANDS:
        yield entered(command)
        yield from map(asked, touched)
    for revision in range(FIRST + len(COMMANDS) + 1):
        yield from (asked(it, revision) for it in COLLECTIONS)


def wanting():
    """A ledger that cannot be listed, one that can be listed once, and the same after a restart: first asked for an old revision, then for the
    newest, then after a command."""
    yield from ("memory may be wanting", "listings 0", "sample", "open 1", asked("units"), asked("units", 3), "open 1", asked("lakes"))
    yield from ("listings 1", "restart", "open 1", asked("units", 3), asked("units"), asked("parcels", 3))
    yield from (entered(COMMANDS[0][0]), asked("units", FIRST), asked("units"), asked("parcels", 3), "restart", "open 1")
    yield from (asked("units"), entered(COMMANDS[1][0]), asked("parties"), asked("parties", 3), asked("parties"), "restart")
    yield from (entered(COMMANDS[2][0]), "open 1", *(asked("units", it) for it in range(FIRST + 4)))
    yield f"listings {NO_BOUND}"


def cases():
    """The lines of these cases."""
    yield HEAD
    for most in BOUNDS:
        yield from listed_once(most)
    yield "changes 512"
    yield from wanting()


def main():
    print("\n".join(cases()))


if __name__ == "__main__":
    main()
