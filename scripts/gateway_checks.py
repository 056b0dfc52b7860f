"""What the checks of the gateway share: a village in EPSG:25832 with the office's lines, its programs, requests, and the count of what was found."""
import contextlib
import datetime
import json
import os
import shutil
import subprocess
import sys
import urllib.error
import urllib.request
from pathlib import Path

from served import PROGRAM, SERVICE, TOP, hosting_at, started

GATEWAY = Path(os.environ.get("GATEWAY") or TOP / "gateway")
PROGRAM_OF_GATEWAY, MAPS = GATEWAY / "cadastre-gateway", GATEWAY / "cadastre-maps"
CRS, METRES = "EPSG:25832", "http://www.opengis.net/def/crs/EPSG/0/25832"
CRS84 = "http://www.opengis.net/def/crs/OGC/1.3/CRS84"
GEOJSON = "application/geo+json"
CLASSES = {"parcel": "parcels", "right": "rights", "restriction": "restrictions", "responsibility": "responsibilities", "unit": "units", "party": "parties"}
PLACE = "477000,5526000"


class Found(Exception):
    """Something was found, and with the variable FIRST that is enough."""


class Checks:
    """Counts what was compared, and what was found wrong."""

    def __init__(self, name):
        self.name, self.count, self.failed = name, 0, 0

    def same(self, what, found, wanted):
        self.count += 1
        if found != wanted:
            self.failed += 1
            print(f"FAULT {self.name}: {what}: {str(found)[:200]}, not {str(wanted)[:200]}", flush=True)
            if os.environ.get("FIRST"):
                raise Found

    def holds(self, what, found):
        self.same(what, bool(found), True)


def day_after(text, days):
    return (datetime.date.fromisoformat(text) + datetime.timedelta(days)).isoformat()


def versions_of(lines):
    """The versions of all objects, as [class, begin, last, body], by identifier."""
    found, newest = {}, {}
    for it in map(json.loads, lines):
        number = newest.get(it["object"], 0)
        mine = f"{it['object']}.{number}"
        if it["do"] == "retire":
            found[mine][2] = it["last"]
            continue
        if it["do"] == "amend":
            found[mine][2] = day_after(it["first"], -1)
        name = next(name for name in CLASSES if name in it)
        newest[it["object"]] = number + 1
        found[f"{it['object']}.{number + 1}"] = [name, it["first"], None, it[name]]
    return found


def in_force(version, day):
    return version[1] <= day and (version[2] is None or day <= version[2])


def near(rings, body):
    """Whether rings in metres are those of an office's line, each corner within a millimetre."""
    wanted = [body["shape"], *body.get("holes", [])]
    return len(rings) == len(wanted) and all(
        len(ring) == len(it) + 1 and all(abs(a[at] - b[at] / 1000) < 0.001 for a, b in zip(ring, it + it[:1]) for at in (0, 1))
        for ring, it in zip(rings, wanted))


class Land:
    """A register of the village in a folder, with the office's lines and the versions that they make."""

    def __init__(self, folder, blocks=int(os.environ.get("BLOCKS") or 10)):
        self.folder, self.file = Path(folder), Path(folder) / "land.db"
        self.folder.mkdir(exist_ok=True)
        made = subprocess.run([TOP / "scripts/village", str(blocks), "--at", PLACE], stdout=subprocess.PIPE, check=True).stdout
        answers = subprocess.run([PROGRAM, "office", self.file], input=made, stdout=subprocess.PIPE, check=True).stdout.splitlines()
        self.lines = made.decode().splitlines()
        self.revision = len(self.lines)
        if answers != [b"revision %d" % it for it in range(1, self.revision + 1)]:
            sys.exit("the office does not accept the village")
        self.versions = versions_of(self.lines)
        self.parcels = self.of("parcel")

    def of(self, name):
        """The versions of a class."""
        return {number: it for number, it in self.versions.items() if it[0] == name}

    def open_parcel(self):
        """The object and the body of an open version of a parcel that is its first."""
        return next((int(number[:-2]), it[3]) for number, it in self.parcels.items() if it[2] is None and number.endswith(".1"))

    def copy(self, name):
        """A copy of the register, before anything is entered."""
        copy = self.folder / name
        for end in ("", "-wal"):
            if Path(f"{self.file}{end}").exists():
                shutil.copy(f"{self.file}{end}", f"{copy}{end}")
        return copy

    @contextlib.contextmanager
    def served(self, name, *options):
        """Runs `cadastred` and a gateway on a copy of the register. Gives both addresses and the office's socket."""
        with hosting_at(self.copy(f"{name}.db")) as (upstream, office), gateway(upstream, *options) as base:
            yield Served(self, base, upstream, office)


class Served:
    """A gateway, the server behind it, and the office."""

    def __init__(self, land, base, upstream, office):
        self.land, self.base, self.upstream, self.office, self.next = land, base, upstream, office, 9_000_000

    def enter(self, *lines):
        """Has the office enter lines."""
        enter(self.office, *lines)

    def enter_one(self):
        """Enters a unit that was not there."""
        self.next += 1
        self.enter({"do": "enter", "object": self.next, "first": "2020-01-01", "unit": {}})


def enter(office, *lines):
    text = "".join(json.dumps(it) + "\n" for it in lines)
    done = subprocess.run([TOP / "scripts/enter", office], input=text, stdout=subprocess.PIPE, text=True)
    if done.returncode:
        sys.exit(f"the office answers {done.stdout}")


@contextlib.contextmanager
def gateway(upstream, *options):
    """Runs a gateway in front of a server, and gives its address."""
    with started(PROGRAM_OF_GATEWAY, "--upstream", upstream, "--crs", CRS, "--listen", "127.0.0.1:0", *options) as (address, _):
        yield address


def fetch(url, method="GET", **fields):
    """Status, fields and body."""
    request = urllib.request.Request(url, method=method, headers={it.replace("_", "-"): value for it, value in fields.items()})
    try:
        with urllib.request.urlopen(request, timeout=60) as it:
            return it.status, it.headers, it.read()
    except urllib.error.HTTPError as it:
        return it.code, it.headers, it.read()


def page(url):
    """The body of a page, as a tree."""
    return json.loads(fetch(url)[2])


def walk(url, meanwhile=lambda: None):
    """The features of all pages from this one on. Something may be done after each page."""
    found = []
    while url:
        it = page(url)
        found += it["features"]
        url = next((link["href"] for link in it["links"] if link["rel"] == "next"), None)
        meanwhile()
    return found


def identifiers(features):
    return [it["id"] for it in features]


def in_order(names):
    return sorted(names, key=lambda it: tuple(map(int, it.split("."))))
