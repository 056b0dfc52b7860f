"""Files for QGIS: the six collections of a view in one group, with a style, labels and relations.

A layer file (.qlr) is dragged into a map, or added by Layer, Add from Layer Definition File. A project (.qgs) is opened. It begins at the
register, in the register's own system. QGIS 3.22 leaves the relations of a layer file aside when it opens one, and takes those of a project.
"""
from xml.sax.saxutils import quoteattr

import pyproj

# The layers in the order of the legend, and the property that names a row.
LAYERS = {
    "parcels": ("Parcels", '"label"'), "units": ("Units", 'coalesce("name", \'unit \' || "object")'),
    "rights": ("Rights", '"type" || \' \' || coalesce("party_name", \'\')'), "restrictions": ("Restrictions", '"type" || \' \' || coalesce("party_name", \'\')'),
    "responsibilities": ("Responsibilities", '"type" || \' \' || coalesce("party_name", \'\')'), "parties": ("Parties", '"name"')}
# Each relation: what it lists in the form of the second layer, the layer of what is listed, its field, the second layer, and its field.
RELATIONS = (
    ("parcels of the unit", "parcels", "unit", "units", "object"),
    ("rights of the unit", "rights", "unit", "units", "object"),
    ("restrictions of the unit", "restrictions", "unit", "units", "object"),
    ("responsibilities of the unit", "responsibilities", "unit", "units", "object"),
    ("unit of the parcel", "units", "object", "parcels", "unit"),
    ("rights of the parcel", "rights", "unit", "parcels", "unit"),
    ("restrictions of the parcel", "restrictions", "unit", "parcels", "unit"),
    ("responsibilities of the parcel", "responsibilities", "unit", "parcels", "unit"),
    ("rights of the party", "rights", "party", "parties", "object"),
    ("restrictions of the party", "restrictions", "party", "parties", "object"),
    ("responsibilities of the party", "responsibilities", "party", "parties", "object"))
# Fills, by what a rule is for, with its condition.
FILLS = (("parcel", "ELSE", "250,245,235,255"), ("newer than ten years", '"begin" >= now() - make_interval(10)', "246,215,167,255"))
TIP = ("<b>[% \"label\" %]</b><br/>[% coalesce(\"unit_name\", 'unit ' || \"unit\") %]<br/>"
       "[% coalesce(\"area\" || ' m²', '') %] since [% format_date(\"begin\", 'yyyy-MM-dd') %]")
LABELS_FROM = 4000  # the scale 1:4,000
# Without this property QGIS leaves the system of a project aside.
ENABLED = '<properties><SpatialRefSys><ProjectionsEnabled type="int">1</ProjectionsEnabled></SpatialRefSys></properties>'


def mark(name):
    """The identifier of a layer. QGIS gives another one to a layer whose identifier has no more than ten characters."""
    return f"cadastre_{name}"


def source(url, name):
    """Where QGIS reads a layer. It asks for what is in view."""
    return f" pagingEnabled='true' restrictToRequestBBOX='1' typename='{name}' url='{url}' version='OGC_API_FEATURES'"


def system(name):
    """A reference system. QGIS does not ask a layer of a file for it, and takes no name without the definition."""
    return f"<spatialrefsys><wkt>{escaped(pyproj.CRS(name).to_wkt())}</wkt><authid>{name}</authid></spatialrefsys>"


def options(**values):
    return '<Option type="Map">' + "".join(f'<Option type="QString" name={quoteattr(it)} value={quoteattr(value)}/>' for it, value in values.items()) + "</Option>"


def renderer():
    """The fill of each rule, with thin brown outlines."""
    rules = "".join(f'<rule key="{{rule-{at}}}" symbol="{at}" filter={quoteattr(when)} label={quoteattr(label)}/>' for at, (label, when, _) in enumerate(FILLS))
    fill = lambda color: options(color=color, outline_color="91,70,54,255", outline_style="solid", outline_width="0.2", outline_width_unit="MM", style="solid")
    symbols = "".join(
        f'<symbol type="fill" name="{at}" alpha="1" clip_to_extent="1" force_rhr="0"><layer class="SimpleFill" enabled="1" pass="0" locked="0">'
        f'{fill(color)}</layer></symbol>' for at, (_, _, color) in enumerate(FILLS))
    return f'<renderer-v2 type="RuleRenderer" enableorderby="0" symbollevels="0" forceraster="0"><rules key="{{rules}}">{rules}</rules><symbols>{symbols}</symbols></renderer-v2>'


def labeling():
    """The label of a parcel, from a scale on."""
    return (
        '<labeling type="simple"><settings calloutType="simple">'
        '<text-style fieldName="label" isExpression="0" fontSize="7" fontSizeUnit="Point" fontWeight="50" fontKerning="1" textColor="58,45,34,255" textOpacity="1" '
        'multilineHeight="1" textOrientation="horizontal" blendMode="0" capitalization="0" allowHtml="0">'
        '<text-buffer bufferDraw="1" bufferSize="0.6" bufferSizeUnits="MM" bufferColor="255,255,255,255" bufferOpacity="1" bufferNoFill="1" bufferJoinStyle="128" bufferBlendMode="0"/>'
        '</text-style><text-format multilineAlign="3" decimals="3"/>'
        '<placement placement="4" priority="5" polygonPlacementFlags="2" placementFlags="10" quadOffset="4" centroidInside="0" fitInPolygonOnly="0" dist="0" '
        'distUnits="MM" layerType="PolygonGeometry"/>'
        f'<rendering drawLabels="1" obstacle="1" obstacleType="1" obstacleFactor="1" scaleVisibility="1" scaleMin="0" scaleMax="{LABELS_FROM}" maxNumLabels="2000" '
        'fontMaxPixelSize="10000" fontMinPixelSize="3"/></settings></labeling>')


def relations(url, name):
    """The relations by which rows of a layer are listed in the forms of others. Each names the other layer by its source, too."""
    found = ""
    for text, listed, field, other, key in RELATIONS:
        if listed == name:
            title = LAYERS[other][0]
            found += (
                f'<relation id={quoteattr(text.replace(" ", "_"))} name={quoteattr(text)} strength="Association" referencingLayer="{mark(name)}" '
                f'referencedLayer="{mark(other)}" layerId="{mark(other)}" layerName={quoteattr(title)} providerKey="OAPIF" dataSource={quoteattr(source(url, other))}>'
                f'<fieldRef referencingField="{field}" referencedField="{key}"/></relation>')
    return f"<referencedLayers>{found}</referencedLayers>"


def layer(url, name):
    """One layer. Only parcels have shapes, and so a style."""
    title, shown = LAYERS[name]
    is_map = name == "parcels"
    drawn = f'<srs>{system("OGC:CRS84")}</srs>{renderer()}{labeling()}<mapTip>{escaped(TIP)}</mapTip>' if is_map else ""
    return (
        f'<maplayer type="vector" geometry="{"Polygon" if is_map else "No geometry"}" labelsEnabled="{int(is_map)}" readOnly="1" '
        'styleCategories="AllStyleCategories" simplifyDrawingHints="1" simplifyDrawingTol="1" simplifyLocal="1" simplifyMaxScale="1" simplifyAlgorithm="0">'
        f'<id>{mark(name)}</id><datasource>{escaped(source(url, name))}</datasource><layername>{title}</layername><provider encoding="UTF-8">OAPIF</provider>'
        f'<flags><Identifiable>1</Identifiable><Removable>1</Removable><Searchable>1</Searchable></flags>{drawn}'
        f'<blendMode>0</blendMode><layerOpacity>1</layerOpacity>{relations(url, name)}<previewExpression>{escaped(shown)}</previewExpression></maplayer>')


def escaped(text):
    return text.replace("&", "&amp;").replace("<", "&lt;")


def tree(url, title):
    """The legend: one group."""
    entries = "".join(
        f'<layer-tree-layer id="{mark(name)}" name="{LAYERS[name][0]}" providerKey="OAPIF" source={quoteattr(source(url, name))} checked="Qt::Checked" expanded="0"/>'
        for name in LAYERS)
    group = f'<layer-tree-group name={quoteattr(title)} checked="Qt::Checked" expanded="1">{entries}</layer-tree-group>'
    return f'<layer-tree-group name="" checked="Qt::Checked" expanded="1">\n{group}\n</layer-tree-group>'


def layers(url):
    return "\n".join(layer(url, name) for name in LAYERS)


def layer_file(url, title):
    """The text of a layer file for an address, such as https://maps.example/today/."""
    return f'<!DOCTYPE qgis-layer-definition>\n<qlr>\n{tree(url, title)}\n<maplayers>\n{layers(url)}\n</maplayers>\n</qlr>\n'


def project(url, title, crs, extent):
    """The text of a project. `crs` is the register's system, and `extent` its box in degrees, or None."""
    own = pyproj.CRS(crs)
    box = pyproj.Transformer.from_crs("OGC:CRS84", own, always_xy=True).transform_bounds(*extent) if extent else (0, 0, 1000, 1000)
    corners = "".join(f"<{name}>{value:.3f}</{name}>" for name, value in zip(("xmin", "ymin", "xmax", "ymax"), box))
    name = ":".join(own.to_authority())
    listed = "".join(
        f'<relation id={quoteattr(text.replace(" ", "_"))} name={quoteattr(text)} strength="Association" referencingLayer="{mark(listed)}" '
        f'referencedLayer="{mark(other)}"><fieldRef referencingField="{field}" referencedField="{key}"/></relation>'
        for text, listed, field, other, key in RELATIONS)
    return (
        f'<!DOCTYPE qgis PUBLIC \'http://mrcc.com/qgis.dtd\' \'SYSTEM\'>\n<qgis version="3.22.0" projectname={quoteattr(title)}>\n<title>{escaped(title)}</title>\n'
        f'<projectCrs>{system(name)}</projectCrs>\n{ENABLED}\n{tree(url, title)}\n<relations>{listed}</relations>\n'
        f'<mapcanvas name="theMapCanvas" annotationsVisible="1"><units>meters</units><extent>{corners}</extent><rotation>0</rotation>'
        f'<destinationsrs>{system(name)}</destinationsrs></mapcanvas>\n<projectlayers>\n{layers(url)}\n</projectlayers>\n</qgis>\n')
