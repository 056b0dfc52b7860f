"""OWSLib reads the register through the gateway."""
from owslib.ogcapi.features import Features

from gateway_checks import CLASSES


def check(checks, land):
    with land.served("owslib") as served:
        it = Features(served.base)
        checks.holds("conformance", len(it.conformance()["conformsTo"]) > 5)
        checks.same("the API definition", it.api()["openapi"], "3.0.3")
        checks.same("collections", sorted(it.feature_collections()), sorted(CLASSES.values()))
        checks.holds("queryables", "area" in it.collection_queryables("parcels")["properties"])
        checks.same("items", [one["id"] for one in it.collection_items("parcels", limit=1)["features"]], ["1.1"])
        day = it.collection_items("parcels", limit=1000, datetime="2012-05-01/2012-05-01")
        checks.holds("items of a day", 0 < day["numberReturned"] < len(land.parcels))
        checks.same("one item", it.collection_item("units", "1000001.1")["properties"]["object"], 1000001)
