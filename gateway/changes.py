"""What changed in the register since a revision, by the office's journal, as a GeoPackage; and such changes applied to a GeoPackage.

A version never vanishes. So what changed are versions that were added, and those that have other values than before: they ended, or their unit
or party has another name on their first day. A file of changes has these versions as they are now.
"""
import json
import os
import shutil
import socket
from pathlib import Path

from osgeo import ogr

from describe import COLLECTIONS
from geopackage import ABOUT, POINTS, GeoPackage, about, opened
from reading import Unread

NAMING_UNITS = ("parcels", "rights", "restrictions", "responsibilities")
NAMING_PARTIES = NAMING_UNITS[1:]


def touched(office, since):
    """The objects of the commands after a revision, and the newest revision, by the office's socket of `cadastred`."""
    found = set()
    with socket.socket(socket.AF_UNIX) as it:
        it.settimeout(300)
        try:
            it.connect(office)
            it.sendall(b"journal %d\n" % since)
            for line in it.makefile("rb"):
                if line.startswith(b"end "):
                    return found, int(line[4:])
                if not line.startswith(b"{"):
                    raise Unread(f"the journal after revision {since}: {line.decode(errors='replace').strip()}")
                found.add(json.loads(line)["object"])
        except OSError as fault:
            raise Unread(f"{office}: {fault.strerror or fault}") from None
    raise Unread("the journal has no end")


def candidates(source, objects):
    """The features that the commands may have changed, as a list for each collection: the objects, and what names these units and parties."""
    found = {name: {it["id"]: it for it in source.features_with(name, "object", objects)} for name in COLLECTIONS}
    for naming, named, member in ((NAMING_UNITS, "units", "unit"), (NAMING_PARTIES, "parties", "party")):
        numbers = {it["properties"]["object"] for it in found[named].values()}
        for name in naming if numbers else ():
            found[name].update((it["id"], it) for it in source.features_with(name, member, numbers))
    return found


def changed(before, after, objects):
    """The changed features of each collection, in the order of their identifiers."""
    old, new = candidates(before, objects), candidates(after, objects)
    in_order = lambda it: tuple(map(int, it["id"].split(".")))
    return {name: sorted((it for it in found.values() if old[name].get(it["id"]) != it), key=in_order) for name, found in new.items()}


def write(path, before, after, objects):
    """Writes the changes between two revisions. Returns how many versions changed."""
    found = changed(before, after, objects)
    with GeoPackage(path, after) as file:
        count = sum(file.add(name, features) for name, features in found.items())
        file.tell(since=before.revision)
    return count


def apply(path, changes):
    """Brings a GeoPackage up to date. It is a copy until it is whole. Returns how many versions changed."""
    told, now = about(changes), about(path)
    if told["since"] is None:
        raise ValueError(f"{changes} is no file of changes")
    if told["since"] != now["revision"]:
        raise ValueError(f"{changes} has the changes since revision {told['since']}, and {path} shows revision {now['revision']}")
    part = Path(path).with_name(f".part-{Path(path).name}")
    shutil.copy(path, part)
    try:
        count = put(part, changes, told)
        os.replace(part, path)
    finally:
        part.unlink(missing_ok=True)
    return count


def put(part, changes, told):
    """Puts the rows of the changes into a file."""
    source, target = opened(changes), opened(part, True)
    target.StartTransaction()
    count = 0
    for name in (*COLLECTIONS, POINTS):
        rows = target.GetLayerByName(name)
        for it in source.GetLayerByName(name):
            count += name != POINTS
            put_row(rows, it)
    row = target.GetLayerByName(ABOUT).GetNextFeature()
    for field in ("revision", "name", "address"):
        row[field] = told[field]
    target.GetLayerByName(ABOUT).SetFeature(row)
    target.CommitTransaction()
    return count


def put_row(rows, it):
    """Replaces the row with the same identifier, or adds one."""
    rows.SetAttributeFilter(f"id = '{it['id']}'")
    old = rows.GetNextFeature()
    rows.SetAttributeFilter(None)
    row = ogr.Feature(rows.GetLayerDefn())
    row.SetFrom(it)
    if old is None:
        rows.CreateFeature(row)
    else:
        row.SetFID(old.GetFID())
        rows.SetFeature(row)
