"""What the gateway says of itself: the landing page, conformance, collections, schemas and the API definition."""
from plane import CRS84
from problems import PROBLEM

JSON, GEOJSON, SCHEMA = "application/json", "application/geo+json", "application/schema+json"
OPENAPI = "application/vnd.oai.openapi+json;version=3.0"
COLLECTIONS = {
    "parcels": "versions of parcels, with their shapes",
    "rights": "versions of rights in units, and who holds them",
    "restrictions": "versions of restrictions of units",
    "units": "versions of units, to which parcels and rights belong",
    "parties": "versions of parties, who hold rights",
    "responsibilities": "versions of responsibilities in units",
}
PART = "http://www.opengis.net/spec/ogcapi-features-"
# No class of CQL2 is here. The server's profile has no fractions and no moments, which basic CQL2 asks for.
CONFORMANCE = [PART + it for it in (
    "1/1.0/conf/core", "1/1.0/conf/geojson", "1/1.0/conf/oas30", "2/1.0/conf/crs",
    "3/1.0/conf/queryables", "3/1.0/conf/queryables-query-parameters", "3/1.0/conf/filter", "3/1.0/conf/features-filter")]
QUERYABLES = "http://www.opengis.net/def/rel/ogc/1.0/queryables"


def link(rel, href, kind=JSON, **more):
    return {"rel": rel, "href": href, "type": kind, **more}


def landing(title, view):
    """The landing page of a view."""
    base = view.base
    return {
        "title": title, "description": view.describe(),
        "links": [
            link("self", base + "/"), link("service-desc", base + "/api", OPENAPI), link("conformance", base + "/conformance"),
            link("data", base + "/collections"), *(link("related", href, title=text) for text, href in view.others())]}


def collection(base, name, plane, extent):
    """One collection of a view."""
    here = f"{base}/collections/{name}"
    return {
        "id": name, "title": name, "description": COLLECTIONS[name], "itemType": "feature",
        **({"extent": extent} if extent else {}),
        "crs": [CRS84, plane.uri], **({"storageCrs": plane.uri} if name == "parcels" else {}),
        "links": [
            link("self", here), link("items", here + "/items", GEOJSON), link(QUERYABLES, here + "/queryables", SCHEMA),
            # GDAL compares this relation with its capital.
            link("describedBy", here + "/schema", SCHEMA)]}


def property_schema(name, kind):
    """The schema of one property of a feature."""
    if name == "reference_point":
        return {"type": "object"}
    return {it: kind[it] for it in ("type", "format") if it in kind}


def schema(href, name, queryables):
    """The JSON schema of one feature."""
    shown = {it: property_schema(it, kind) for it, kind in queryables["properties"].items() if it not in ("geometry", "lifespan")}
    polygon = {"oneOf": [{"type": "null"}, {"$ref": "https://geojson.org/schema/Polygon.json"}]}
    return {
        "$schema": "https://json-schema.org/draft/2020-12/schema", "$id": href, "title": name, "type": "object",
        "required": ["type", "id", "geometry", "properties"],
        "properties": {
            "type": {"const": "Feature"}, "id": {"type": "string"}, "geometry": polygon if name == "parcels" else {"type": "null"},
            "properties": {"type": "object", "properties": shown}}}


def parameter(name, text, kind, where="query", **more):
    return {"name": name, "in": where, "description": text, "required": where == "path", "schema": kind, **more}


LISTED = {"style": "form", "explode": False}


def shared_parameters(plane, is_pinned):
    """The parameters of the items of each collection, by name. A path with a revision has no parameter for it."""
    text, numbers = {"type": "string"}, {"type": "array", "items": {"type": "number"}, "minItems": 4, "maxItems": 6}
    systems = {"type": "string", "format": "uri", "enum": [CRS84, plane.uri], "default": CRS84}
    found = [
        parameter("limit", "the most features of the page", {"type": "integer", "minimum": 1, "maximum": 1000, "default": 10}, **LISTED),
        parameter("bbox", "features that meet this box", numbers, **LISTED),
        parameter("bbox-crs", "the system of bbox", systems),
        parameter("crs", "the system of the response", systems),
        parameter("datetime", "features that are in force on one of these days", text, **LISTED),
        parameter("filter", "a condition in the server's profile of CQL2 text", text),
        # GDAL 3.6 would send filters in a draft of the language if `cql-text` was listed here, and write days as '2000-01-01T'.
        parameter("filter-lang", "the filter's language", {"type": "string", "enum": ["cql2-text"], "default": "cql2-text"}),
        parameter("filter-crs", "the system of the filter's geometries", systems),
        parameter("after", "features after this identifier", text)]
    revision = parameter("revision", "the revision that is shown", text)
    return {it["name"]: it for it in (found if is_pinned else [*found, revision])}


def components():
    """The schemas of responses, as Part 1 has them."""
    text, links = {"type": "string"}, {"type": "array", "items": {"$ref": "#/components/schemas/link"}}
    listed = lambda name: {"type": "array", "items": {"$ref": f"#/components/schemas/{name}"}}
    made = lambda required, **members: {"type": "object", "required": required, "properties": members}
    one = made(["id", "links"], id=text, title=text, description=text, itemType=text, links=links, crs={"type": "array", "items": text},
               storageCrs=text, extent={"type": "object"})
    feature = made(["type", "geometry", "properties"], type={"type": "string", "enum": ["Feature"]}, id=text, links=links,
                   geometry={"type": "object", "nullable": True}, properties={"type": "object", "nullable": True})
    page = made(["type", "features"], type={"type": "string", "enum": ["FeatureCollection"]}, features=listed("feature"), links=links,
                timeStamp={"type": "string", "format": "date-time"}, revision={"type": "integer"},
                numberMatched={"type": "integer", "minimum": 0}, numberReturned={"type": "integer", "minimum": 0})
    return {
        "link": made(["href"], href=text, rel=text, type=text, title=text),
        "landingPage": made(["links"], title=text, description=text, links=links),
        "confClasses": made(["conformsTo"], conformsTo={"type": "array", "items": text}),
        "collections": made(["links", "collections"], links=links, collections=listed("collection"), crs={"type": "array", "items": text}),
        "collection": one, "feature": feature, "featureCollection": page, "document": {"type": "object"},
        "exception": made(["code"], code=text, description=text, title=text, detail=text, status={"type": "integer"}, cause=text,
                          place={"type": "integer"})}


def operation(name, kind, text, form, parameters=()):
    """A resource that is read by GET."""
    content = lambda media, it: {media: {"schema": {"$ref": f"#/components/schemas/{it}"}}}
    refused = {"description": "what is wrong", "content": content(PROBLEM, "exception")}
    responses = {"200": {"description": text, "content": content(kind, form)}, "4XX": refused, "5XX": refused}
    return {"get": {"operationId": name, "summary": text, "parameters": list(parameters), "responses": responses}}


def paths_of(name, queryables, shared):
    """The paths of one collection. Each queryable with a simple kind is a parameter, too."""
    own = [parameter(it, "features with this value", kind, **LISTED) for it, kind in queryables["properties"].items() if kind.get("type")]
    referred = lambda names: [{"$ref": f"#/components/parameters/{it}"} for it in names]
    identifier = parameter("id", "the identifier", {"type": "string"}, "path")
    here = f"/collections/{name}"
    return {
        here: operation(f"{name}.collection", JSON, "the collection", "collection"),
        here + "/queryables": operation(f"{name}.queryables", SCHEMA, "the names that its filters may use", "document"),
        here + "/schema": operation(f"{name}.schema", SCHEMA, "the schema of its features", "document"),
        here + "/items": operation(f"{name}.items", GEOJSON, "a page of its features", "featureCollection", referred(shared) + own),
        here + "/items/{id}": operation(f"{name}.item", GEOJSON, "one feature", "feature", [identifier, *referred(["crs"])])}


def api(base, title, version, plane, queryables, is_pinned):
    """The OpenAPI 3.0 document. `queryables` has those of each collection."""
    shared = shared_parameters(plane, is_pinned)
    paths = {
        "/": operation("landing", JSON, "the landing page", "landingPage"),
        "/conformance": operation("conformance", JSON, "the classes that are met", "confClasses"),
        "/api": operation("api", OPENAPI, "this document", "document"),
        "/collections": operation("collections", JSON, "the collections", "collections")}
    for name, found in queryables.items():
        paths |= paths_of(name, found, shared)
    return {
        "openapi": "3.0.3", "info": {"title": title, "version": version}, "servers": [{"url": base}], "paths": paths,
        "components": {"parameters": shared, "schemas": components()}}
