"""`cadastre-maps`: the layer file in QGIS, a GeoPackage against the office's lines, what changed against all pages, and tiles."""
import datetime
import os
import subprocess
from xml.etree import ElementTree

from osgeo import ogr

from gateway_checks import CLASSES, MAPS, METRES, day_after, near, page, walk
from gateway_qgis import begin, picture_of, to_plane

from qgis.core import QgsLayerDefinition, QgsProject, QgsRectangle, QgsRelation

NEEDS = ("ogr2ogr",)
SIZE = (1000, 700)


def check(checks, land):
    begin(land.folder)
    with land.served("maps") as served:
        layers(checks, land, served.base)
        tiles(checks, land, served)
        geopackage(checks, land, served)
        changes(checks, land, served)


def run(*words):
    """Runs `cadastre-maps`, and returns its status and what it prints."""
    ran = subprocess.run([MAPS, *map(str, words)], capture_output=True, text=True)
    return ran.returncode, (ran.stdout + ran.stderr).strip()


def made(checks, *words):
    status, told = run(*words)
    checks.same(f"cadastre-maps {words[0]} ends well ({told[:200]})", status, 0)
    return told


# A layer file

def layers(checks, land, base):
    file = land.folder / "land.qlr"
    made(checks, "layers", base, file)
    project = QgsProject.instance()
    checks.same("QGIS reads the layer file", QgsLayerDefinition.loadLayerDefinition(str(file), project, project.layerTreeRoot()), (True, ""))
    found = {it.name(): it for it in project.mapLayers().values()}
    checks.same("it has six layers", sorted(found), ["Parcels", "Parties", "Responsibilities", "Restrictions", "Rights", "Units"])
    checks.same("QGIS opens each", [name for name, it in found.items() if not it.isValid()], [])
    parcels = found["Parcels"]
    checks.same("parcels are drawn by two rules, with labels", (len(parcels.renderer().rootRule().children()), parcels.labelsEnabled()), (2, True))
    checks.same("layers cannot be changed", [name for name, it in found.items() if not it.readOnly()], [])
    related(checks, project, found, file)
    drawn(checks, land, parcels)
    opened(checks, land, base)


def opened(checks, land, base):
    """The same layers as a project, with their relations, at the village."""
    file, project = land.folder / "land.qgs", QgsProject.instance()
    made(checks, "layers", base, file)
    checks.same("QGIS reads the project", (project.read(str(file)), project.crs().authid()), (True, "EPSG:25832"))
    relations = project.relationManager().relations().values()
    checks.same("all its relations are valid", (len(relations), all(it.isValid() for it in relations)), (11, True))
    checks.same("it has six layers, too", [it.name() for it in project.mapLayers().values() if not it.isValid()], [])
    box = ElementTree.parse(file).find("mapcanvas/extent")
    west, north = float(box.find("xmin").text), float(box.find("ymax").text)
    corners = [point for it in land.parcels.values() for point in it[3]["shape"]]
    checks.holds("it begins at the village", abs(west - min(x for x, _ in corners) / 1000) < 5 and abs(north - max(y for _, y in corners) / 1000) < 5)


def related(checks, project, found, file):
    """The relations of the file are valid, and list what the parcel's unit has."""
    one = min(found["Parcels"].getFeatures(), key=lambda it: it["object"])
    listed = {}
    for it in ElementTree.parse(file).iter("relation"):
        field, relation = it.find("fieldRef"), QgsRelation()
        by_name = lambda name: next(layer for layer in project.mapLayers().values() if f"'{name.rpartition('_')[2]}'" in layer.source())
        relation.setReferencingLayer(by_name(it.get("referencingLayer")).id())
        relation.setReferencedLayer(by_name(it.get("referencedLayer")).id())
        relation.addFieldPair(field.get("referencingField"), field.get("referencedField"))
        relation.setId(it.get("id"))
        checks.same(f"the relation {it.get('name')} is valid", relation.isValid(), True)
        project.relationManager().addRelation(relation)
        if it.get("referencedLayer").endswith("_parcels"):
            listed[it.get("name")] = sorted(row["id"] for row in relation.getRelatedFeatures(one))
    checks.same("the relations of a parcel", sorted(listed), ["responsibilities of the parcel", "restrictions of the parcel", "rights of the parcel", "unit of the parcel"])
    checks.same("the unit of a parcel", listed["unit of the parcel"], [f"{one['unit']}.1"])
    holds = {name: sorted(row["id"] for row in found[name].getFeatures() if row["unit"] == one["unit"]) for name in ("Rights", "Restrictions", "Responsibilities")}
    checks.same("what the parcel's unit has", {name: listed[f"{name.lower()} of the parcel"] for name in holds}, holds)
    checks.holds("and that is something", holds["Rights"])


def middle_of(parcels):
    """A box in the middle of the village, at most 460 metres wide, so that labels are shown."""
    box = to_plane().transformBoundingBox(parcels.extent())
    middle, half = box.center(), min(230, 0.45 * box.width(), 0.6 * box.height())
    return QgsRectangle(middle.x() - half, middle.y() - 0.7 * half, middle.x() + half, middle.y() + 0.7 * half)


def drawn(checks, land, parcels):
    """A picture of the middle of the village: both fills, and labels."""
    box = middle_of(parcels)
    image, errors = picture_of([parcels], box, SIZE)
    if os.environ.get("PICTURE"):
        image.save(os.environ["PICTURE"])
    colors = [image.pixelColor(x, y).name() for x in range(0, 1000, 2) for y in range(0, 700, 2)]
    share = lambda name: sum(it == name for it in colors) / len(colors)
    checks.same("it draws without errors", list(errors), [])
    checks.holds(f"parcels are filled ({share('#faf5eb'):.2f})", share("#faf5eb") > 0.2)
    newest = max(it[1] for it in land.parcels.values() if it[2] is None)
    if newest > day_after(datetime.date.today().isoformat(), -3500):
        checks.holds(f"newer ones in another colour ({share('#f6d7a7'):.3f})", share("#f6d7a7") > 0.001)
    parcels.setLabelsEnabled(False)
    bare, _ = picture_of([parcels], box, SIZE)
    changed = sum(bare.pixelColor(x, y) != image.pixelColor(x, y) for x in range(0, 1000, 2) for y in range(0, 700, 2)) / len(colors)
    checks.holds(f"labels are written ({changed:.4f})", 0.005 < changed < 0.2)


# A GeoPackage

def rows(path, name):
    """The rows of a table by identifier, with the text of their shapes."""
    file = ogr.Open(str(path))
    return {it["id"]: ({name: it[name] for name in it.keys()}, it.GetGeometryRef() and it.GetGeometryRef().ExportToIsoWkt()) for it in file.GetLayerByName(name)}


def geopackage(checks, land, served):
    file = land.folder / "land.gpkg"
    made(checks, "geopackage", served.base, file, "--revision", land.revision)
    for name, table in CLASSES.items():
        found = {number: (it["begin"].replace("/", "-"), it["last"] and it["last"].replace("/", "-")) for number, (it, _) in rows(file, table).items()}
        checks.same(f"the table {table} has the office's versions", found, {number: (it[1], it[2]) for number, it in land.of(name).items()})
    source = ogr.Open(str(file))
    parcels = source.GetLayerByName("parcels")
    good = [near([ring.GetPoints() for ring in it.GetGeometryRef()], land.parcels[it["id"]][3]) for it in parcels]
    checks.same("each corner is in its place", (len(good), all(good)), (len(land.parcels), True))
    checks.same("the file names its system", parcels.GetSpatialRef().GetAuthorityCode(None), "25832")
    exact = {(round(1000 * x), round(1000 * y)) == (1000 * x, 1000 * y) or abs(1000 * x - round(1000 * x)) < 1e-4
             for it in source.GetLayerByName("parcels") for ring in it.GetGeometryRef() for x, y in ring.GetPoints()}
    checks.same("corners are whole millimetres", exact, {True})
    spots = {number: it[3]["spot"] for number, it in land.parcels.items() if it[3].get("spot")}
    found = {it["id"]: [round(1000 * it.GetGeometryRef().GetX()), round(1000 * it.GetGeometryRef().GetY())] for it in source.GetLayerByName("reference_points")}
    checks.same("reference points are a table of their own", found, spots)
    about = source.GetLayerByName("register").GetNextFeature()
    checks.same("the file names its revision", (about["revision"], about["name"]), (land.revision, str(land.revision)))
    restrictions = [it["party_required"] for it, _ in rows(file, "restrictions").values()]
    checks.same("truth values are such", set(restrictions), {0, 1})


def changes(checks, land, served):
    """The office divides a parcel, renames a unit and a party, and sells. What changed is found out from all pages, too."""
    old, new, listed = land.folder / "land.gpkg", land.folder / "new.gpkg", land.folder / "changes.gpkg"
    number, body = land.open_parcel()
    served.enter(
        {"do": "retire", "object": number, "last": "2026-01-31"},
        {"do": "enter", "object": 900001, "first": "2026-02-01", "parcel": {**body, "label": "1/1c"}},
        {"do": "amend", "object": 1000002, "first": "2026-02-01", "unit": {"name": "Renamed"}},
        {"do": "amend", "object": 2000001, "first": "1951-01-01", "party": {"name": "Ana Other", "code": "naturalPerson"}},
        {"do": "enter", "object": 900002, "first": "2026-02-01", "right": {"unit": 1000002, "party": 2000001, "code": "ownership", "share": [1, 1]}})
    made(checks, "changes", served.base, served.office, land.revision, listed)
    made(checks, "geopackage", served.base, new)
    newest = page(served.base + "/collections/units/items?limit=1")["revision"]
    for table in CLASSES.values():
        at = lambda revision, table=table: {it["id"]: it for it in walk(f"{served.base}/revision/{revision}/collections/{table}/items?limit=1000&crs={METRES}")}
        before, after = at(land.revision), at(newest)
        wanted = sorted(number for number, it in after.items() if before.get(number) != it)
        checks.same(f"what changed among {table}", sorted(rows(listed, table)), wanted)
    checks.holds("the renamed party changes what names it", len(rows(listed, "rights")) > 3)
    made(checks, "apply", old, listed)
    for table in (*CLASSES.values(), "reference_points"):
        checks.same(f"{table} of the old file with the changes are those of a new one", rows(old, table) == rows(new, table), True)
    status, told = run("apply", old, listed)
    checks.same(f"changes are not applied twice ({told})", status, 1)
    file = ogr.Open(str(old))
    told = file.GetLayerByName("register").GetNextFeature()
    checks.same("the old file shows the newest revision", (told["revision"], told["name"]), (newest, str(newest)))
    status, told = run("changes", served.base, served.office, newest + 9, listed)
    checks.same(f"a revision to come ({told})", status, 1)


# Tiles

def tiles(checks, land, served):
    folder = land.folder / "tiles"
    made(checks, "tiles", served.base, folder, "--zooms", "14-15")
    checks.holds("a second time there is nothing to do", "are there" in made(checks, "tiles", served.base, folder, "--zooms", "14-15"))
    source = ogr.GetDriverByName("MVT").Open(f"MVT:{folder}/current/15")
    layer = source.GetLayerByName("parcels")
    names = {it["id"] for it in layer}
    wanted = {it["id"] for it in walk(served.base + "/today/collections/parcels/items?limit=1000")}
    checks.same("tiles have each parcel of today", names, wanted)
    served.enter_one()
    made(checks, "tiles", served.base, folder, "--zooms", "14-15")
    checks.same("two sets of tiles stay", len([it for it in folder.iterdir() if "-revision-" in it.name]), 2)
