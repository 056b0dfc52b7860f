"""The register's plane: whole millimetres, x to the east and y to the north, as a reference system of the EPSG register and as CRS84.

In the register's own system a coordinate is exact: a millimetre is the third decimal of a metre. In CRS84 it has nine decimals of a degree,
a ninth of a millimetre at most, so rounding back to whole millimetres gives the register's number again.
"""
import math
import re
from fractions import Fraction

import numpy
import pyproj

from problems import Refused

CRS84 = "http://www.opengis.net/def/crs/OGC/1.3/CRS84"
LIMIT = 100_000_000_000  # the plane's edge, in millimetres
WHOLE = f"{-LIMIT},{-LIMIT},{LIMIT},{LIMIT}"
GROWN = 5  # degrees around the system's area of use in which boxes are projected
NUMBER = re.compile(r"[+-]?(?:\d{1,15}\.?\d{0,30}|\.\d{1,30})(?:[eE][+-]?\d{1,2})?")
COORDINATES = re.compile(rb'"coordinates":(\[[-0-9,\[\]]*\])')
PAIR = re.compile(rb"\[-?\d+,-?\d+\]")
BARE = bytes.maketrans(b"[]\n", b"  ,")


class Plane:
    """A reference system for the register. Its name is one of EPSG's, such as EPSG:25832."""

    def __init__(self, name):
        self.crs = pyproj.CRS.from_user_input(name)
        authority, code = self.crs.to_authority() or (None, None)
        if authority is None:
            raise ValueError(f"{name} is no system of a register such as EPSG's")
        self.uri = f"http://www.opengis.net/def/crs/{authority}/0/{code}"
        self.urn = f"urn:ogc:def:crs:{authority}::{code}"
        axes = self.crs.axis_info
        if not self.crs.is_projected or any(it.unit_conversion_factor != 1 for it in axes) or self.crs.area_of_use is None:
            raise ValueError(f"{name} is not a plane in metres with an area of use")
        # Part 2 asks for the order of the axes that the system's definition has.
        self.turned = axes[0].direction == "north"
        self.degrees = pyproj.Transformer.from_crs(self.crs, "OGC:CRS84", always_xy=True)
        area = self.crs.area_of_use
        self.area = (area.west - GROWN, max(area.south - GROWN, -89.0), area.east + GROWN, min(area.north + GROWN, 89.0))

    def is_degrees(self, parameter, uri):
        """Whether a parameter names CRS84 and not the register's own system. A client's text is only compared, and never read as a system."""
        if uri not in (CRS84, self.uri):
            raise Refused(parameter, f"the systems are {CRS84} and {self.uri}")
        return uri == CRS84

    # From the register

    def to_degrees(self, x, y):
        """Longitudes and latitudes of points in metres."""
        lon, lat = self.degrees.transform(x, y)
        if not (numpy.isfinite(lon).all() and numpy.isfinite(lat).all()):
            raise ValueError("a coordinate lies where the plane has no degrees")
        return lon, lat

    def write(self, text, in_degrees):
        """The server's JSON text with its coordinates in the response's system. All other bytes stay as they are.

        The server writes JSON without blanks, and a quotation mark in a text is written with a backslash before it. So what the expression
        finds is a member, and never a part of a text.
        """
        parts = COORDINATES.split(text)
        if len(parts) == 1:
            return text
        lists = b"\n".join(parts[1::2])
        numbers = numpy.array(lists.translate(BARE).split(b","), dtype=float) / 1000
        x, y = numbers[::2], numbers[1::2]
        pairs = self.to_degrees(x, y) if in_degrees else (y, x) if self.turned else (x, y)
        # Of a number of at most twelve digits a float keeps more than three decimals, so metres are exact.
        form = rb"[%.9f,%.9f]" if in_degrees else rb"[%.3f,%.3f]"
        found = PAIR.sub(form, lists) % tuple(numpy.column_stack(pairs).ravel().tolist())
        parts[1::2] = [b'"coordinates":' + it for it in found.split(b"\n")]
        return b"".join(parts)

    # Towards the register

    def box(self, text, in_degrees):
        """What a parameter `bbox` asks of the server: the value of its `bbox` or None, and a condition of its filter or None."""
        words = text.split(",")
        if len(words) not in (4, 6) or not all(NUMBER.fullmatch(it) for it in words):
            raise Refused("bbox", "four numbers, or six with heights, separated by commas")
        if len(words) == 6:  # parcels have no heights
            words = words[:2] + words[3:5]
        return self.box_of_degrees(*map(float, words)) if in_degrees else (self.box_of_metres([Fraction(it) for it in words]), None)

    def box_of_metres(self, ends):
        """The box in whole millimetres around a box in metres."""
        if self.turned:
            ends = [ends[at] for at in (1, 0, 3, 2)]
        if ends[0] > ends[2] or ends[1] > ends[3]:
            raise Refused("bbox", "the least numbers come first")
        outward = [math.floor(it * 1000) for it in ends[:2]] + [math.ceil(it * 1000) for it in ends[2:]]
        return ",".join(str(max(-LIMIT, min(LIMIT, it))) for it in outward)

    def box_of_degrees(self, west, south, east, north):
        """The same two for a box in degrees. It is no box in the plane, but a ring of bent edges."""
        if south > north or max(abs(south), abs(north)) > 90 or max(abs(west), abs(east)) > 180:
            raise Refused("bbox", "degrees of longitude and latitude, the least first")
        if west > east:
            raise Refused("bbox", "a box over the 180th meridian is not served")
        inner = (max(west, self.area[0]), max(south, self.area[1]), min(east, self.area[2]), min(north, self.area[3]))
        if inner[0] > inner[2] or inner[1] > inner[3]:
            return None, "FALSE"
        if inner != (west, south, east, north):
            # The box sticks out of where the plane can be projected.
            return WHOLE, None
        ring = self.ring([(west, south), (east, south), (east, north), (west, north)], 32)
        if abs(doubled_area(ring)) < 2_000_000:  # a point, a line, or less than a square metre
            x, y = zip(*ring)
            return f"{min(x)},{min(y)},{max(x)},{max(y)}", None
        corners = ",".join(f"{x} {y}" for x, y in ring + ring[:1])
        return None, f"S_INTERSECTS(geometry, POLYGON(({corners})))"

    def millimetres(self, points):
        """Points in degrees as whole millimetres, each to the nearest."""
        lon, lat = zip(*points)
        x, y = self.degrees.transform(lon, lat, direction="INVERSE")
        if not all(map(math.isfinite, x + y)):
            raise Refused("coordinates", "a point lies where the register's plane is not defined")
        return [(round(a * 1000), round(b * 1000)) for a, b in zip(x, y)]

    def ring(self, corners, most):
        """A ring of degrees in the plane. A straight edge of degrees is bent there, so it gets points until none is off by a millimetre, or `most`."""
        found = []
        for one, other in zip(corners, corners[1:] + corners[:1]):
            middle = ((one[0] + other[0]) / 2, (one[1] + other[1]) / 2)
            a, m, b = self.millimetres([one, middle, other])
            bend = math.dist(m, ((a[0] + b[0]) / 2, (a[1] + b[1]) / 2))
            count = max(1, min(most, math.ceil(math.sqrt(bend))))
            shares = [it / count for it in range(count)]
            found += self.millimetres([(one[0] + (other[0] - one[0]) * it, one[1] + (other[1] - one[1]) * it) for it in shares])
        return [it for at, it in enumerate(found) if it != found[at - 1]] or found[:1]

    def degrees_around(self, box):
        """The box in degrees around a box of millimetres."""
        west, south, east, north = self.degrees.transform_bounds(*(it / 1000 for it in box), densify_pts=21)
        return [math.floor(west * 1e6) / 1e6, math.floor(south * 1e6) / 1e6, math.ceil(east * 1e6) / 1e6, math.ceil(north * 1e6) / 1e6]


def doubled_area(ring):
    """Twice the area of a ring, which is negative if it runs clockwise."""
    return sum(a[0] * b[1] - b[0] * a[1] for a, b in zip(ring, ring[1:] + ring[:1]))
