"""Writes a revision of the register as a GeoPackage, in metres of the register's own system, and changes to one.

A GeoPackage has a table for each collection, whose rows are versions, a table `reference_points`, and a table `register` with one row: the
revision, its name in addresses, the revision since which a file of changes lists them, and the address that was read.
"""
import contextlib
import json
import os
from pathlib import Path

from osgeo import ogr, osr

from describe import COLLECTIONS

ogr.UseExceptions()
KINDS = {"integer": ogr.OFTInteger64, "boolean": ogr.OFTInteger, "string": ogr.OFTString}
POINTS, ABOUT = "reference_points", "register"


class GeoPackage:
    """A file that is written under another name, and renamed when it is whole."""

    def __init__(self, path, source):
        self.path, self.source = Path(path), source
        self.part = self.path.with_name(f".part-{self.path.name}")
        self.system = osr.SpatialReference()
        self.system.ImportFromEPSG(int(source.crs.rpartition("/")[2]))
        # The gateway writes the axes in the order of the system's definition, and a GeoPackage the east first.
        self.turned = bool(self.system.EPSGTreatsAsNorthingEasting())
        self.system.SetAxisMappingStrategy(osr.OAMS_TRADITIONAL_GIS_ORDER)

    def __enter__(self):
        self.part.unlink(missing_ok=True)
        self.file = ogr.GetDriverByName("GPKG").CreateDataSource(str(self.part))
        self.file.StartTransaction()
        self.points = self.file.CreateLayer(POINTS, self.system, ogr.wkbPoint)
        self.points.CreateField(ogr.FieldDefn("id", ogr.OFTString))
        return self

    def __exit__(self, fault, *_):
        if fault is None:
            self.file.CommitTransaction()
        self.file = self.points = None  # this closes the file
        if fault is None:
            os.chmod(self.part, 0o640)  # it names parties
            os.replace(self.part, self.path)
        else:
            self.part.unlink(missing_ok=True)

    def table(self, name):
        """A table for a collection, with the kinds of its schema."""
        layer = self.file.CreateLayer(name, self.system if name == "parcels" else None, ogr.wkbPolygon if name == "parcels" else ogr.wkbNone)
        layer.CreateField(ogr.FieldDefn("id", ogr.OFTString))
        for field, kind in self.source.fields(name).items():
            if kind["type"] == "object":
                continue
            it = ogr.FieldDefn(field, ogr.OFTDate if kind.get("format") == "date" else KINDS[kind["type"]])
            if kind["type"] == "boolean":
                it.SetSubType(ogr.OFSTBoolean)
            layer.CreateField(it)
        return layer

    def add(self, name, features):
        """Adds a table with features. Returns how many there were."""
        layer, count = self.table(name), 0
        for count, it in enumerate(features, 1):
            row = ogr.Feature(layer.GetLayerDefn())
            row["id"] = it["id"]
            for field, value in it["properties"].items():
                if field == "reference_point":
                    self.add_point(it["id"], value)
                elif value is not None:
                    row[field] = int(value) if isinstance(value, bool) else value
            if it["geometry"]:
                row.SetGeometryDirectly(self.geometry(it["geometry"]))
            layer.CreateFeature(row)
        self.file.ExecuteSQL(f'CREATE UNIQUE INDEX "{name}_id" ON "{name}" (id)')
        return count

    def add_point(self, identifier, point):
        if point is not None:
            row = ogr.Feature(self.points.GetLayerDefn())
            row["id"] = identifier
            row.SetGeometryDirectly(self.geometry(point))
            self.points.CreateFeature(row)

    def geometry(self, tree):
        found = ogr.CreateGeometryFromJson(json.dumps(tree))
        if self.turned:
            found.SwapXY()
        found.AssignSpatialReference(self.system)
        return found

    def tell(self, since=None):
        """Adds the row that says what the file shows."""
        layer = self.file.CreateLayer(ABOUT, None, ogr.wkbNone)
        told = {"revision": self.source.revision, "name": self.source.name, "since": since, "address": self.source.url}
        for field in told:
            layer.CreateField(ogr.FieldDefn(field, ogr.OFTInteger64 if field in ("revision", "since") else ogr.OFTString))
        row = ogr.Feature(layer.GetLayerDefn())
        for field, value in told.items():
            if value is not None:
                row[field] = value
        layer.CreateFeature(row)


def about(path):
    """The row that says what a file shows, by field."""
    file = opened(path)
    row = file.GetLayerByName(ABOUT)
    if row is None:
        raise ValueError(f"{path} was not written by cadastre-maps")
    row = row.GetNextFeature()
    return {it: row[it] for it in ("revision", "name", "since", "address")}


def opened(path, is_changed=False):
    with contextlib.suppress(RuntimeError):
        file = ogr.Open(str(path), int(is_changed))
        if file is not None:
            return file
    raise ValueError(f"{path} cannot be opened as a GeoPackage")


def write(path, source):
    """Writes all versions of a revision. Returns how many there are."""
    with GeoPackage(path, source) as file:
        count = sum(file.add(name, source.features(name)) for name in COLLECTIONS)
        file.tell()
    return count
