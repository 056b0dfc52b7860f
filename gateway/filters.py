"""Filters of clients, with geometries in metres or degrees, as filters of the server in whole millimetres.

Only the numbers of POINT, POLYGON and BBOX change, and one property's name. Everything else goes to the server as it came, and the server
judges it. A text that this lexer does not read goes there unchanged, too, so that its fault is the server's.
"""
import re

from problems import Refused

LONGEST = 8192  # bytes, the server's limit
# Clients see the server's property `end` as `last`. QGIS 3.22 takes no feature, or wrong ones, by a condition on a property of that name.
SHOWN = {"last": "end", '"last"': '"end"'}
TOKEN = re.compile(
    r"""(?P<blank>[ \t\r\n]+)
      | "[^"]*"
      | '(?:[^'\\]|''|\\'|\\(?!'))*+'
      | (?P<name>[A-Za-z_:][A-Za-z0-9_.:]*)
      | (?P<number>(?:[0-9]+\.?[0-9]*|\.[0-9]+)(?:[eE][+-]?[0-9]+)?)
      | <>|<=|>=|[-(),=<>+*%]""", re.X)

# The shapes of literals, in which `n` is a number and each run of blanks is one.
SPOT = r" ?[+-]? ?n [+-]? ?n ?"
RING = rf" ?\({SPOT}(?:,{SPOT})*\) ?"
POINT, POLYGON = re.compile(rf" ?\({SPOT}\)"), re.compile(rf" ?\({RING}(?:,{RING})*\)")
LONGEST_NUMBER = 45


class Filter:
    """A filter's text for the server, and where its bytes came from."""

    def __init__(self, text, plane, in_degrees):
        if len(text.encode()) > LONGEST:
            raise Refused("filter", f"the filter has more than {LONGEST} bytes", cause="TooLong", place=LONGEST)
        self.given, self.plane, self.in_degrees = text, plane, in_degrees
        self.pieces = []  # (place in the given text, text for the server, whether it is the same)
        tokens = self.tokens()
        self.balanced = tokens is not None
        if tokens is None:
            self.pieces = [(0, text, True)]
        else:
            self.convert(tokens)
        self.text = "".join(it[1] for it in self.pieces)

    def tokens(self):
        """The tokens, or None if the text is not in tokens or its parentheses do not match."""
        found, at, open_ones = [], 0, 0
        while at < len(self.given):
            it = TOKEN.match(self.given, at)
            if it is None:
                return None
            open_ones += {"(": 1, ")": -1}.get(it[0], 0)
            if open_ones < 0:
                return None
            found.append(it)
            at = it.end()
        return found if open_ones == 0 else None

    def convert(self, tokens):
        """Makes the pieces of the server's text."""
        at = 0
        while at < len(tokens):
            word = tokens[at]
            end = self.end_of_literal(tokens, at)
            if end is None:
                self.keep(word)
                at += 1
            else:
                self.literal(tokens[at:end])
                at = end

    def literal(self, tokens):
        """A literal in millimetres. `1.2.3` is two numbers to this lexer, and the server has to see it as it is."""
        shape = "".join(map(shape_of, tokens[1:]))
        if "nn" in shape:
            for it in tokens:
                self.keep(it)
        elif self.in_degrees:
            self.in_millimetres(tokens, shape)
        else:
            for it in tokens:
                self.in_metres(it) if it["number"] else self.keep(it)

    def keep(self, token):
        """Passes a token on."""
        text = SHOWN.get(token[0], token[0])
        self.pieces.append((token.start(), text, text == token[0]))

    @staticmethod
    def end_of_literal(tokens, at):
        """The place after the literal that begins here, or None."""
        if not tokens[at]["name"] or tokens[at][0].upper() not in ("POINT", "POLYGON", "BBOX"):
            return None
        depth = 0
        for place in range(at + 1, len(tokens)):
            it = tokens[place]
            if it[0] == "(":
                depth += 1
            elif it[0] == ")":
                depth -= 1
                if depth == 0:
                    return place + 1
            elif not (it["blank"] or it["number"] or it[0] in ",+-") or depth == 0 and not it["blank"]:
                return None
        return None

    def in_metres(self, token):
        """A number of metres. Exponents stay, and the server refuses them at this place."""
        if "e" in token[0].lower():
            return self.keep(token)
        self.judge(token)
        whole, _, part = token[0].partition(".")
        if part[3:].strip("0"):
            raise Refused("filter", "a coordinate has parts of a millimetre", cause="NotWhole", place=self.byte(token))
        self.pieces.append((token.start(), str(int(whole + part[:3].ljust(3, "0"))), False))

    def in_millimetres(self, tokens, shape):
        """A literal in degrees. What is not well-formed stays as it is."""
        word, place = tokens[0][0].upper(), self.byte(tokens[0])
        if word == "BBOX":
            detail = f"a box of degrees is no box in the register's plane: use POLYGON, or filter-crs={self.plane.uri}"
            raise Refused("filter", detail, cause="BadShape", place=place)
        if (POINT if word == "POINT" else POLYGON).fullmatch(shape) is None:
            for it in tokens:
                self.keep(it)
            return
        for it in tokens:
            self.judge(it)
        lists = [read_points(it) for it in re.findall(r"\(([^()]*)\)", "".join(it[0] for it in tokens[1:]))]
        if any(abs(x) > 180 or abs(y) > 90 for it in lists for x, y in it):
            raise Refused("filter", "longitudes are within 180 degrees and latitudes within 90", cause="BadShape", place=place)
        made = "({} {})".format(*self.plane.millimetres(lists[0])[0]) if word == "POINT" else "(" + ",".join(map(self.ring, lists)) + ")"
        self.keep(tokens[0])
        self.pieces.append((tokens[1].start(), made, False))

    def judge(self, token):
        """Refuses a number of too many digits."""
        if token["number"] and len(token[0]) > LONGEST_NUMBER:
            raise Refused("filter", f"a coordinate has more than {LONGEST_NUMBER} digits", cause="NumberTooLarge", place=self.byte(token))

    def ring(self, points):
        """A ring of degrees in whole millimetres. If it is not closed, the server will refuse it."""
        if len(points) > 1 and points[0] == points[-1]:
            found = self.plane.ring(points[:-1], 250)
            found += found[:1]
        else:
            found = self.plane.millimetres(points)
        return "(" + ",".join(f"{x} {y}" for x, y in found) + ")"

    def byte(self, token):
        """The place of a token in the client's text, as the server counts."""
        return len(self.given[:token.start()].encode())

    def place(self, byte):
        """The byte of the given text that a byte of the server's text came from."""
        at = 0
        for given, text, same in self.pieces:
            size = len(text.encode())
            if byte < at + size:
                return len(self.given[:given].encode()) + (byte - at if same else 0)
            at += size
        return len(self.given.encode())


def shape_of(token):
    """A token as the shapes of literals have it."""
    if token["number"] and "e" not in token[0].lower():
        return "n"
    return " " if token["blank"] else token[0]


def read_points(text):
    """The points of a text such as `8.6 49.8, 8.7 49.9`."""
    return [tuple(float("".join(it.split())) for it in re.findall(r"[+-]?[ \t\r\n]*[0-9.]+", point)) for point in text.split(",")]


def joined(one, conditions):
    """The filter for the server: the client's, if there is one, and further conditions. Returns None without any."""
    parts = ([f"({one.text})"] if one and conditions else [one.text] if one else []) + conditions
    return " AND ".join(parts) if parts else None


def equality(name, kind, value):
    """The condition of a queryable that came as a parameter of its own (Part 3, queryables as query parameters)."""
    name = SHOWN.get(name, name)
    if kind.get("type") == "integer":
        if not re.fullmatch(r"-?[0-9]{1,19}", value):
            raise Refused(name, "a whole number")
        return f'"{name}" = {value}'
    if kind.get("type") == "boolean":
        words = {"true": "TRUE", "1": "TRUE", "false": "FALSE", "0": "FALSE"}  # GDAL writes a digit
        if value not in words:
            raise Refused(name, "true or false")
        return f'"{name}" = {words[value]}'
    if kind.get("format") == "date":
        if not re.fullmatch(r"\d{4}-\d\d-\d\d", value):
            raise Refused(name, "a day YYYY-MM-DD")
        return f"\"{name}\" = DATE('{value}')"
    if re.search(r"\\(?:'|\Z)", value):
        raise Refused(name, "a filter cannot have a backslash before a quotation mark or at the end of a text")
    return f'"{name}" = \'' + value.replace("'", "''") + "'"
