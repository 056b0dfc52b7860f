#!/usr/bin/env python3
"""Writes the cases of crates/cad_register_cases: runs of requests and commands, in which scripts/refused refuses memory.

    scripts/memory_cases.py        prints the cases

scripts/refused refuses one growth after another, over a ledger without a database and over a register in one. There are runs by the events
of a desk, and runs by serving a connection. Runs with commands come a second time, with bases that get no changes. There, each command
that changes features makes new bases.
"""
import itertools
import json


def sent(number, text):
    return f"bytes {number} {json.dumps(text)}"


def request(target):
    return f"GET {target} HTTP/1.1\r\nHost: x\r\n\r\n"


# What another connection sends before and after a row. Its reply shows the revision.
BEGUN, REST = "GET /collections/units/items?limit=1 HTTP/1.1\r\n", "Host: x\r\n\r\n"


def by_events(row):
    """The row on connection 1. Each request is sent again on a new connection, and each command is entered again."""
    others = itertools.count(10)
    yield from ("memory may be wanting", "open 1", "open 2", sent(2, BEGUN))
    for it in row:
        if it.startswith("{"):
            yield from [f"office {it}"] * 2
        else:
            other = next(others)
            yield from (sent(1, request(it)), f"open {other}", sent(other, request(it)))
    yield sent(2, REST)


def by_serving(row):
    """Each request of the row twice, on a connection that is served, and each command entered twice."""
    yield from ("memory may be wanting", "open 2", sent(2, BEGUN))
    for it in row:
        yield from [f"office {it}" if it.startswith("{") else f"serve 3 {json.dumps(request(it))}"] * 2
    yield sent(2, REST)


PARCELS, RIGHTS = "/collections/parcels/items?datetime=2012-05-01", "/collections/rights/items?datetime=2012-05-01"
ROWS = {
    "a first page": ["/collections/parcels/items?filter=area+%3E+400"],
    "LIKE": [
        f"{PARCELS}&filter=label+LIKE+'C%5C%25%25'",
        f"{PARCELS}&filter=CASEI(label)+LIKE+CASEI('B-_')",
        f"{RIGHTS}&filter=CASEI(party_name)+=+'ana+strasse'",
    ],
    "pages": [f"{PARCELS}&limit=2", f"{PARCELS}&limit=2&revision=10&after=2.1", f"{PARCELS}&limit=0", f"{PARCELS}&limit=99999"],
    "a walk with a command between": [
        f"{PARCELS}&limit=2",
        '{"do":"amend","object":3,"first":"2011-01-01","parcel":{"unit":11,"label":"b-7","area":900,'
        '"shape":[[0,30000],[30000,30000],[0,60000]]}}',
        f"{PARCELS}&limit=2&revision=10&after=2.1",
        PARCELS,
    ],
    "commands of each kind": [
        '{"do":"enter","object":5,"first":"2009-01-01","parcel":{"unit":10,"label":"D-1","area":50,"shape":[[50000,0],[60000,0],'
        '[60000,10000]],"spot":[55000,2000]}}',
        f"{PARCELS}&after=3.1",
        '{"do":"amend","object":10,"first":"2008-01-01","unit":{"name":"New Mill"}}',
        RIGHTS,
        '{"do":"retire","object":5,"last":"2011-12-31"}',
        f"{PARCELS}&after=3.1",
    ],
    "boxes": [
        f"{PARCELS}&bbox=40000,20000,50000,50000",
        f"{PARCELS}&bbox=25000,55000,30000,60000",
        f"{PARCELS}&bbox=1,2,3,4,5,6",
        f"{RIGHTS}&bbox=0,0,100000,100000",
    ],
}

# Memory may run out in the middle of this run. It has two connections. One sends a long head in pieces while the other gets replies.
# Connections that may have been closed are opened again. The run has pages, features, filters, and a reply of more than 4 KB. The office
# enters commands twice, and requests show them. The register has ten commands at first, and is then empty, so that its first command needs
# memory.
GOING_ON = r"""memory may be wanting
open 1
open 2
bytes 1 "GET /collections/parcels/items?limit=1&datetime=2012-05-01 HTTP/1.1\r\nHost: x\r\n\r\n"
bytes 2 "GET /collections/parcels/items?limit=1&filter=CASEI(label)+LIKE+CASEI('B%25') HTTP/1.1\r\nHost: x\r\n\r\n"
bytes 1 "GET /collections/parcels/items?limit=1&datetime=2012-05-01&revision=10&after=1.2 HTTP/1.1\r\nHost: x\r\n\r\n"
bytes 2 "GET / HTTP/1.1\r\nHost: x\r\n\r\n"
open 1
open 2
bytes 1 "GET /collections/rights HTTP/1.1\r\nHost: x\r\n\r\nGET /collections/units/queryables HTTP/1.1\r\nHost: x\r\n\r\n"
bytes 2 "GET /collections/parties/items/20.1 HTTP/1.1\r\nHost: x\r\n\r\n"
bytes 1 "GET /collections/parcels/items?filter=label+%3E+5 HTTP/1.1\r\nHost: x\r\n\r\n"
bytes 2 ["GET /collections/units/items?limit=1&filter=TRUE",[4100,"+"]," HTTP/1.1\r\nHost: x\r\n\r\n"]
open 1
open 2
bytes 1 ["GET /collections/units/items/10.1 HTTP/1.1\r\nX: ",[2000,"a"]]
bytes 2 "GET /collections/units/items/12.1 HTTP/1.1\r\nHost: x\r\n\r\n"
bytes 1 [[3000,"b"],"\r\n"]
bytes 2 "GET /collections/units/items?limit=1 HTTP/1.1\r\nHost: x\r\n\r\n"
bytes 1 "Host: x\r\n\r\n"
open 1
open 2
office {"do":"amend","object":10,"first":"2008-01-01","unit":{"name":"New Mill"}}
bytes 1 "GET /collections/units/items?limit=1&after=10.1 HTTP/1.1\r\nHost: x\r\n\r\n"
bytes 2 "GET /collections/units/items?limit=1&after=10.1 HTTP/1.1\r\nHost: x\r\n\r\n"
bytes 1 "GET /collections/units/items?limit=1&after=10.1&revision=10 HTTP/1.1\r\nHost: x\r\n\r\n"
serve 3 "GET /collections/units/items/10.2 HTTP/1.1\r\nHost: x\r\n\r\n"
open 3
bytes 3 "GET /collections/units/items/10.2 HTTP/1.0\r\n\r\n"
bytes 3 "GET / HTTP/1.1\r\nHost: x\r\n\r\n"
bytes 2 "GET\u0000\n"
bytes 1 "GET /collections HTTP/1.1\r\nHost: x\r\n\r\n"
close 1
empty
open 1
open 2
office {"do":"enter","object":1,"first":"2000-01-01","unit":{}}
bytes 1 "GET /collections/units/items?limit=1 HTTP/1.1\r\nHost: x\r\n\r\n"
bytes 2 "GET /collections/units/items?limit=1 HTTP/1.1\r\nHost: x\r\n\r\n"
office {"do":"enter","object":1,"first":"2000-01-01","unit":{}}
bytes 1 "GET /collections/units/items?limit=1 HTTP/1.1\r\nHost: x\r\n\r\n"
office {"do":"amend","object":1,"first":"2001-01-01","unit":{}}
office {"do":"amend","object":1,"first":"2002-01-01","unit":{}}
office {"do":"amend","object":1,"first":"2003-01-01","unit":{}}
office {"do":"amend","object":1,"first":"2004-01-01","unit":{}}
bytes 2 "GET /collections/units/items?limit=1&after=1.3 HTTP/1.1\r\nHost: x\r\n\r\n"
close 1
close 2
"""

# A server that starts again over the ledger of the one before, between two pages of a walk and after a command.
RESTART = r"""memory may be wanting
open 1
bytes 1 "GET /collections/parcels/items?limit=2 HTTP/1.1\r\nHost: x\r\n\r\n"
office {"do":"amend","object":10,"first":"2008-01-01","unit":{"name":"New Mill"}}
restart
bytes 1 "GET / HTTP/1.1\r\nHost: x\r\n\r\n"
open 1
bytes 1 "GET /collections/parcels/items?limit=2&revision=10&after=1.2 HTTP/1.1\r\nHost: x\r\n\r\n"
bytes 1 "GET /collections/parcels/items?limit=2 HTTP/1.1\r\nHost: x\r\n\r\n"
office {"do":"retire","object":4,"last":"2020-12-31"}
serve 2 "GET /collections/parcels/items?limit=1&after=3.1 HTTP/1.1\r\nHost: x\r\n\r\n"
"""


def runs():
    """The runs by their names."""
    made = {"connections and commands": GOING_ON.splitlines(), "a restart": RESTART.splitlines()}
    for name, row in ROWS.items():
        made[f"{name}, by events"], made[f"{name}, by serving"] = list(by_events(row)), list(by_serving(row))
    for name, lines in list(made.items()):
        if any(it.startswith("office ") for it in lines):
            made[f"{name}, with new bases"] = ["changes 0", "sample", *lines]
    return made


def cases():
    """All runs one after the other, each over the sample register."""
    for name, lines in runs().items():
        yield from (f"# {name}", "sample", *lines)


if __name__ == "__main__":
    for case in cases():
        print(case)
