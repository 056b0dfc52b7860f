"""QGIS, without a screen, reads the register through the gateway, filters, pans, and draws a map."""
import os

from gateway_checks import in_force, near

os.environ["QT_QPA_PLATFORM"] = "offscreen"

from qgis.core import (  # noqa: E402
    QgsApplication, QgsCoordinateReferenceSystem, QgsCoordinateTransform, QgsFeatureRequest, QgsMapRendererParallelJob, QgsMapSettings, QgsProject,
    QgsRectangle, QgsVectorLayer)
from qgis.PyQt.QtCore import QSize  # noqa: E402

PLANE, DEGREES = "EPSG:25832", "EPSG:4326"


KEPT = []


def begin(folder):
    """Starts QGIS, with a home in a folder, since Qt keeps caches there. It runs until the process ends, and is not asked to tidy up."""
    os.environ["HOME"] = os.environ["XDG_RUNTIME_DIR"] = str(folder)
    KEPT.append(QgsApplication([], False))
    KEPT[0].initQgis()


def check(checks, land):
    begin(land.folder)
    with land.served("qgis") as served:
        features = opened(checks, land, served.base)
        pans(checks, served.base, features)
        filters(checks, land, served.base)
        drawn(checks, served.base)


def layer(base, path="", name="parcels"):
    source = f" pagingEnabled='true' restrictToRequestBBOX='1' typename='{name}' url='{base}{path}' version='OGC_API_FEATURES'"
    return QgsVectorLayer(source, name, "OAPIF")


def numbers(one, request=QgsFeatureRequest()):
    return sorted(it["id"] for it in one.getFeatures(request))


def to_plane():
    return QgsCoordinateTransform(QgsCoordinateReferenceSystem(DEGREES), QgsCoordinateReferenceSystem(PLANE), QgsProject.instance())


def rings_of(geometry):
    return [[(it.x(), it.y()) for it in ring] for ring in geometry.asPolygon()]


def opened(checks, land, base):
    one = layer(base)
    checks.same("it opens the layer", one.isValid(), True)
    features = list(one.getFeatures())
    checks.same("it reads each version once", sorted(it["id"] for it in features), sorted(land.parcels))
    placed, transform = [], to_plane()
    for it in features:
        geometry = it.geometry()
        geometry.transform(transform)
        placed.append(near(rings_of(geometry), land.parcels[it["id"]][3]))
    checks.same("it has each corner within a millimetre of its place", all(placed), True)
    kinds = {it.name(): it.typeName() for it in one.fields()}
    checks.same("it knows the kinds", [kinds.get(it) for it in ("area", "begin", "last", "label")], ["Integer", "Date", "Date", "String"])
    day = "2012-05-01"
    checks.same(f"the layer of {day}", numbers(layer(base, f"/day/{day}/")), sorted(name for name, it in land.parcels.items() if in_force(it, day)))
    checks.same("the layer of open versions", numbers(layer(base, "/open/")), sorted(name for name, it in land.parcels.items() if it[2] is None))
    checks.holds("the layer of an old revision", 0 < len(numbers(layer(base, f"/revision/{land.revision // 2}/"))) < len(land.parcels))
    for name in ("rights", "restrictions", "units", "parties", "responsibilities"):
        one = layer(base, "/today/", name)
        checks.same(f"the layer of {name}", (one.isValid(), next(one.getFeatures(), None) is not None), (True, True))
    return features


def pans(checks, base, features):
    extent = layer(base).extent()
    middle = extent.center()
    for share in (1, 0.5, 0.1):
        box = QgsRectangle(middle.x(), middle.y(), middle.x() + share * extent.width() / 2, middle.y() + share * extent.height() / 2)
        wanted = sorted(it["id"] for it in features if it.geometry().intersects(box))
        checks.same(f"it pans to {share} of the view", numbers(layer(base), QgsFeatureRequest(box)), wanted)


def filters(checks, land, base):
    for text, meets in (
            ("\"area\" > 600", lambda it: it[3].get("area", 0) > 600), ("\"last\" IS NULL", lambda it: it[2] is None),
            ("\"last\" < to_date('2010-01-01')", lambda it: it[2] is not None and it[2] < "2010-01-01"),
            ("\"begin\" >= to_date('2000-01-01')", lambda it: it[1] >= "2000-01-01"),
            ("\"label\" = '1/1'", lambda it: it[3]["label"] == "1/1"),
            # QGIS asks for these by datetime, and would take every version that was in force then. The gateway refuses, and QGIS lists none.
            ("\"begin\" >= '2000-01-01'", lambda it: False), ("\"last\" <= '2010-01-01'", lambda it: False)):
        one = layer(base)
        one.setSubsetString(text)
        checks.same(f"it filters by {text}", numbers(one), sorted(name for name, it in land.parcels.items() if meets(it)))


def picture_of(layers, box, size, plane=PLANE):
    """The picture of layers in a box of the plane, and the errors of drawing."""
    settings = QgsMapSettings()
    settings.setLayers(layers)
    settings.setOutputSize(QSize(*size))
    settings.setDestinationCrs(QgsCoordinateReferenceSystem(plane))
    settings.setExtent(box)
    job = QgsMapRendererParallelJob(settings)
    job.start()
    job.waitForFinished()
    return job.renderedImage(), job.errors()


def drawn(checks, base):
    one = layer(base, "/today/")
    box = to_plane().transformBoundingBox(one.extent())
    image, errors = picture_of([one], box, (800, 600))
    covered = sum(image.pixelColor(x, y).lightness() < 200 for x in range(0, 800, 8) for y in range(0, 600, 8)) / 7500
    checks.same("it draws a map in the register's plane", (0.2 < covered < 0.95, list(errors)), (True, []))
