"""GDAL reads the register through the gateway, without any setting."""
import subprocess
from urllib.parse import quote

from osgeo import ogr

from gateway_checks import METRES, near, page

DRIVER = "OAPIF:"


def check(checks, land):
    with land.served("gdal") as served:
        copied(checks, land, served.base)
        filtered(checks, land, served.base)


def copy(source, target, *more):
    subprocess.run(["ogr2ogr", "-f", "GPKG", target, *more[:2], source, *more[2:]], check=True, stderr=subprocess.DEVNULL)
    return ogr.Open(str(target))


def copied(checks, land, base):
    source = copy(DRIVER + base, land.folder / "all.gpkg")
    checks.same("ogr2ogr without any option writes each version", sum(it.GetFeatureCount() for it in source), len(land.versions))
    source = copy(DRIVER + base, land.folder / "plane.gpkg", "-t_srs", "EPSG:25832", "parcels")
    good = [near([ring.GetPoints() for ring in it.GetGeometryRef()], land.parcels[it["id"]][3]) for it in source["parcels"]]
    checks.same("ogr2ogr -t_srs has each corner within a millimetre", (len(good), all(good)), (len(land.parcels), True))
    definition = source["parcels"].GetLayerDefn()
    kinds = {it: definition.GetFieldDefn(definition.GetFieldIndex(it)).GetTypeName() for it in ("area", "begin", "last", "label")}
    checks.same("GDAL has the kinds of the schema", kinds, {"area": "Integer", "begin": "Date", "last": "Date", "label": "String"})
    source = copy(f"{base}/collections/parcels/items?limit=1000&crs={quote(METRES, '')}", land.folder / "page.gpkg")
    checks.same("GDAL knows the system of a page in metres", source[0].GetSpatialRef().GetAuthorityCode(None), "25832")


def count(base, *more, layer="parcels"):
    """How many features ogrinfo finds, or that it reports an error."""
    run = subprocess.run(["ogrinfo", "-ro", "-so", DRIVER + base, layer, "-oo", "PAGE_SIZE=1000", *more], capture_output=True, text=True)
    return int(run.stdout.partition("Feature Count: ")[2].partition("\n")[0]) if "ERROR" not in run.stderr else "an error"


def filtered(checks, land, base):
    unit = land.parcels["1.1"][3]["unit"]
    wanted = lambda meets, name="parcel": sum(meets(it) for it in land.of(name).values())
    checks.same("-where of an equality", count(base, "-where", f"unit = {unit}"), wanted(lambda it: it[3]["unit"] == unit))
    checks.same("-where of a truth value", count(base, "-where", "party_required = 1", layer="restrictions"), wanted(lambda it: it[3].get("required") is True, "restriction"))
    checks.same("-where of open ones", count(base, "-where", "last IS NULL"), wanted(lambda it: it[2] is None))
    checks.same("-where of an area", count(base, "-where", "area > 600"), wanted(lambda it: it[3]["area"] > 600))
    # GDAL asks for it by datetime, and would take every version that was in force then
    checks.same("-where of a day is an error", count(base, "-where", "begin >= '2000-01-01'"), "an error")
    checks.same("-where of a day that is cast", count(base, "-where", "CAST(begin AS CHARACTER) >= '2000/01/01'"), wanted(lambda it: it[1] >= "2000-01-01"))
    west, south, east, north = page(base + "/collections/parcels")["extent"]["spatial"]["bbox"][0]
    part = count(base + "/day/2012-05-01", "-spat", str(west), str(south), str((west + east) / 2), str(north))
    checks.holds("-spat cuts a part out", 0 < part < count(base + "/day/2012-05-01"))
