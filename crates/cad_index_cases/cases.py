#!/usr/bin/env python3
"""Writes `stdin` and `stdout` of this folder: questions asked of indexes, and what must be answered.

The answers come from a look at every value, and not from an index: a cell is a square of 65,536 mm with its left and its
lower edge, and a box touches it where the two share a point; texts are ordered by code point, as Python orders them. What extents say
comes from the least and the greatest of all values, from the marks of their places, from the least block of cells around all shapes, or
from the squares of cells that shapes touch.
"""
from pathlib import Path
from random import Random

SIDE = 65_536
EDGE = 100_000_000_000
PLANE = (-EDGE, -EDGE, EDGE, EDGE)
# A square has this many columns and rows of cells. The first one begins with the first cell of the plane.
SQUARE, FIRST_CELL = 8, -1_525_879
# Squares this many columns or rows apart share a mark. A box that reaches over more is compared with the block alone.
MARKS = 64
# A number, or the characters of a text one after the other, are multiplied by this, by this modulus: the hash. Its
# remainder by the number of places is the first of four places, and its quotient is how far each is behind the one before.
PLACES, FACTOR, MODULUS = 65_536, 16_777_619, 4_294_967_291
# Numbers are looked up if they are fewer than this, and none of them is the greatest of 64 bits.
MOST_NUMBERS = 64
# Days have no place.
DAY_NAMES = ("begin", "end")


def reaches(low, high, number):
    """Whether some whole number from low to high lies in the column or row."""
    return number * SIDE <= high and low < (number + 1) * SIDE


def numbers(low, high):
    """The columns or rows that are reached, and none where they are more than 65."""
    found = []
    number = low // SIDE - 1
    while number * SIDE <= high and len(found) <= 65:
        if reaches(low, high, number):
            found.append(number)
        number += 1
    return found


def is_near(shape, asked):
    if shape is None:
        return False
    columns = numbers(shape[0], shape[2])
    rows = numbers(shape[1], shape[3])
    if len(columns) * len(rows) > 64:
        return True
    return any(
        reaches(asked[0], asked[2], column) and reaches(asked[1], asked[3], row)
        for column in columns
        for row in rows
    )


def listed(positions):
    return "".join(f" {position}" for position in positions)


def shape_word(shape):
    return "-" if shape is None else ",".join(str(n) for n in shape)


def spot_word(shape):
    return "-" if shape is None else f"{shape[0]},{shape[1]}"


def is_wide(shape):
    return len(numbers(shape[0], shape[2])) * len(numbers(shape[1], shape[3])) > 64


def squares(low, high):
    """The columns or rows of squares between two coordinates, counted from the plane's edge."""
    return range((low // SIDE - FIRST_CELL) // SQUARE, (high // SIDE - FIRST_CELL) // SQUARE + 1)


def marks(shape):
    """The marks of the squares that the box touches."""
    return {(row % MARKS, column % MARKS) for row in squares(shape[1], shape[3]) for column in squares(shape[0], shape[2])}


def reaches_far(asked):
    """Whether the box is as long or as high as all marks."""
    return any(asked[at + 2] // SIDE - asked[at] // SIDE >= SQUARE * MARKS for at in (0, 1))


def may_be_near(shapes, asked):
    """Whether a shape is wide, or the block of all their cells shares one with the box, which shares a mark with a shape."""
    shapes = [shape for shape in shapes if shape is not None]
    if not shapes or any(is_wide(shape) for shape in shapes):
        return bool(shapes)
    lows, highs = [min(it) // SIDE for it in list(zip(*shapes))[:2]], [max(it) // SIDE for it in list(zip(*shapes))[2:]]
    if not all(low <= asked[at + 2] // SIDE and asked[at] // SIDE <= high for at, (low, high) in enumerate(zip(lows, highs))):
        return False
    return reaches_far(asked) or any(marks(shape) & marks(asked) for shape in shapes)


def places(value):
    """The four marks of a number or of a text."""
    if isinstance(value, int):
        at = value * FACTOR % MODULUS
    else:
        at = 0
        for character in value:
            at = (at * FACTOR + ord(character)) % MODULUS
    step, first = divmod(at, PLACES)
    return {(first + times * step) % PLACES for times in range(4)}


def looked_up(low, high):
    """The values from one end to the other, if their marks are looked up one by one."""
    if "free" in (low, high) or low[0] != "with" or high[0] != "with":
        return None
    if isinstance(low[1], int):
        are_few = high[1] - low[1] + 1 < MOST_NUMBERS and high[1] < 2**63 - 1
        return range(low[1], high[1] + 1) if are_few else None
    return [low[1]] if low[1] == high[1] else None


def may_be_noted(values, low, high):
    """Whether one of the values between the ends has marks of those that are there, or their marks are not looked up."""
    asked = looked_up(low, high)
    marked = {mark for value in values for mark in places(value)}
    return asked is None or any(places(value) <= marked for value in asked)


def reaches_values(values, low, high):
    """Whether there are values, and, if they are numbers, some from the least to the greatest could lie there."""
    if not values or not isinstance(values[0], int):
        return bool(values)
    least, greatest = min(values), max(values)
    reaches_low = low == "free" or low[1] < greatest or (low[0] == "with" and low[1] == greatest)
    return reaches_low and (high == "free" or least < high[1] or (high[0] == "with" and least == high[1]))


def may_lie_in(values, low, high, are_days):
    values = [value for value in values if value is not None]
    return reaches_values(values, low, high) and (are_days or may_be_noted(values, low, high))


def told_by_extents(may):
    return "may be" if may else "none"


def near_case(shapes, asked, spots=False):
    word = spot_word if spots else shape_word
    name = "reference_point" if spots else "geometry"
    near = [p for p, shape in enumerate(shapes) if is_near(shape, asked)]
    words = " ".join(word(shape) for shape in shapes)
    return f"{name} {words} ? {shape_word(asked)}", f"near{listed(near)} count {len(near)} {told_by_extents(may_be_near(shapes, asked))}"


def lies_in(value, low, high):
    if value is None:
        return False
    if low != "free" and (value < low[1] or (low[0] == "without" and value == low[1])):
        return False
    return high == "free" or value < high[1] or (high[0] == "with" and value == high[1])


def edge_word(edge):
    return edge if edge == "free" else f"{edge[0]}:{edge[1]}"


def range_case(name, values, low, high):
    found = [p for p, value in enumerate(values) if lies_in(value, low, high)]
    words = " ".join("-" if value is None else str(value) for value in values)
    text = listed(found)
    return (
        f"{name} {words} ? {edge_word(low)} {edge_word(high)}",
        f"range{text} count {len(found)} {told_by_extents(may_lie_in(values, low, high, name in DAY_NAMES))}",
    )


def box_at(random, x, y, widest):
    return (x, y, x + random.randint(1, widest), y + random.randint(1, widest))


def named_boxes():
    low, high = (0, 0, 65_535, 65_535), (0, 0, 65_536, 65_536)
    for point in [(65_536, 0), (0, 0), (65_535, 65_535), (65_536, 65_536), (-1, 0), (0, -1), (131_071, 65_536)]:
        yield near_case([low, high], (*point, *point))
    middle = (-1, -1, 1, 1)
    for point in [(-65_536, -65_536), (65_535, 65_535), (65_536, 0), (-65_537, 0), (0, -65_537), (-1, 65_535), (0, 65_536)]:
        yield near_case([middle], (*point, *point))
    far = (10_000_000, 10_000_000, 10_000_001, 10_000_001)
    sides = [(8, 8), (1, 64), (64, 1), (4, 16), (13, 5), (5, 13), (1, 65), (65, 1), (9, 8), (8, 9)]
    for columns, rows in sides:
        for corner in [(0, 0), (-SIDE, -3 * SIDE)]:
            shape = (*corner, corner[0] + columns * SIDE - 1, corner[1] + rows * SIDE - 1)
            yield near_case([None, shape, low], far)
            yield near_case([None, shape, low], shape)
    # one more millimetre is one more column
    yield near_case([(0, 0, 8 * SIDE - 1, 8 * SIDE - 1), (0, 0, 8 * SIDE, 8 * SIDE - 1)], far)
    some = [None, low, middle, (EDGE - 1, EDGE - 1, EDGE, EDGE), None, (-EDGE, -EDGE, 1 - EDGE, 1 - EDGE), (-EDGE, 0, EDGE, 1)]
    for asked in [PLANE, (EDGE, EDGE, EDGE, EDGE), (-EDGE, -EDGE, -EDGE, -EDGE), (0, 0, EDGE, EDGE), (-EDGE, -EDGE, -1, -1)]:
        yield near_case(some, asked)
    yield near_case([None, None], PLANE)
    # a shape in many of the asked cells is given once
    yield near_case([(-SIDE, -SIDE, SIDE, SIDE), (-3 * SIDE, 0, 3 * SIDE, 1)], (-2 * SIDE, -2 * SIDE, 2 * SIDE, 2 * SIDE))


def drawn_boxes(random):
    for size in [1, 2, 5, 9, 20, 40]:
        for _ in range(8):
            shapes = [
                None if random.random() < 0.1 else box_at(random, random.randint(-400_000, 400_000), random.randint(-400_000, 400_000), random.choice([10, 70_000, 300_000, 900_000]))
                for _ in range(size)
            ]
            yield near_case(shapes, box_at(random, random.randint(-500_000, 500_000), random.randint(-500_000, 500_000), random.choice([5, 65_536, 400_000, 1_500_000])))
    for size in [1, 4, 12, 30]:
        for _ in range(5):
            spots = []
            for _ in range(size):
                x, y = random.randint(-200_000, 200_000), random.choice([-65_537, -65_536, -1, 0, 65_535, 65_536, 131_072])
                spots.append(None if random.random() < 0.2 else (x, y, x, y))
            yield near_case(spots, box_at(random, random.randint(-200_000, 200_000), random.randint(-200_000, 200_000), 90_000), spots=True)


def in_cells(left, low, right=None, high=None):
    """The box from the first point of one cell to the last point of another, or of the same."""
    right, high = left if right is None else right, low if high is None else high
    return (left * SIDE, low * SIDE, right * SIDE + SIDE - 1, high * SIDE + SIDE - 1)


def square_boxes():
    """Squares begin at the cells 1, 9 and so on of a row or column, and at -7, -15 and so on."""
    # the block is the same, and the squares are others
    corners = [in_cells(-40, -40), in_cells(0, 0), in_cells(40, 40)]
    for cell in [(-40, 40), (40, -40), (-40, 0), (0, 40), (20, 20), (-20, -20), (1, 1), (8, 8), (-7, -7), (-7, 0), (0, -7), (0, 0), (40, 40), (-40, -40), (33, 40), (41, 40), (-40, -47), (-47, -40), (-39, -40)]:
        yield near_case(corners, in_cells(*cell))
    # on both sides of each edge of a square, by one millimetre
    for at in [-8 * SIDE, -7 * SIDE, SIDE, 9 * SIDE]:
        for x in [at - 1, at]:
            yield near_case(corners, (x, 0, x, 0))
            yield near_case(corners, (0, x, 0, x))
            yield near_case([(x, 0, x, 0), *map(lambda it: (it[0], it[1], it[0], it[1]), corners[::2])], (SIDE - 1, 0, SIDE - 1, 0), spots=True)
    # a shape over an edge, and one over the corner of four squares
    for shape in [in_cells(0, 0, 1, 0), in_cells(0, 0, 0, 1), in_cells(0, 0, 1, 1), in_cells(-8, 0, 9, 0), in_cells(0, -8, 0, 9)]:
        for cell in [(-7, -7), (1, 0), (0, 1), (8, 8), (9, 0), (0, 9), (9, 9), (-8, 0), (0, -8), (-15, -15)]:
            yield near_case([corners[0], shape, corners[2]], in_cells(*cell))
    # the longest rows and columns of cells that are not wide
    for shape in [in_cells(0, 0, 63, 0), in_cells(0, 0, 0, 63), in_cells(0, 0, 7, 7), in_cells(1, 1, 8, 8)]:
        for cell in [(0, 0), (63, 0), (0, 63), (64, 0), (65, 0), (0, 64), (0, 65), (7, 7), (8, 8), (32, 0), (0, 32), (32, 32)]:
            yield near_case([in_cells(-100, -100), None, shape, in_cells(100, 100)], in_cells(*cell))
    # squares that share a mark, as near to one another as such are and as far as the plane allows
    step = SQUARE * MARKS
    for times in [1, 2, 2980]:
        for across, up in [(1, 0), (0, 1), (1, 1), (-1, 1)]:
            far = in_cells(times * step * across, times * step * up)
            ends = [in_cells(-1_525_878, -1_525_878), in_cells(1_525_877, 1_525_877)]
            yield near_case([*ends, in_cells(0, 0), far], far)
            yield near_case([*ends, far, in_cells(0, 0)], in_cells(0, 0))
            yield near_case([*ends, in_cells(0, 0)], far)
            yield near_case([in_cells(0, 0), in_cells(1, 1)], far)
            for aside in [-SQUARE, SQUARE]:
                yield near_case([*ends, in_cells(0, 0)], in_cells(times * step * across + aside, times * step * up))
                yield near_case([*ends, in_cells(0, 0)], in_cells(times * step * across, times * step * up + aside))
    # to the left of the block and below it, at the same marks
    for cell in [(-step, 0), (0, -step), (-step, -step), (step, 0), (0, step)]:
        yield near_case([in_cells(0, 0), in_cells(2, 2), in_cells(4, 4)], in_cells(*cell))
    # at the edges of the plane
    low, high = (-EDGE, -EDGE, 1 - EDGE, 1 - EDGE), (EDGE - 1, EDGE - 1, EDGE, EDGE)
    for asked in [low, high, (-EDGE, -EDGE, -EDGE, -EDGE), (EDGE, EDGE, EDGE, EDGE), (-EDGE, EDGE, -EDGE, EDGE), (EDGE, -EDGE, EDGE, -EDGE), (0, 0, 0, 0), in_cells(-1_525_872, -1_525_872), in_cells(-1_525_871, -1_525_872)]:
        yield near_case([low, high], asked)
    # boxes as long as all marks, less a cell and more by one
    ends = [in_cells(-2000, -2000), in_cells(2000, 2000)]
    for cells in [step - 2, step - 1, step, step + 1, step + SQUARE]:
        for asked in [in_cells(0, 100, cells, 100), in_cells(100, 0, 100, cells), in_cells(0, 0, cells, cells)]:
            yield near_case(ends, asked)
            yield near_case([*ends, in_cells(200, 200)], asked)


LABELS = ["a", "A", "b", "Ab", "aB", "ab", "z", "Z", "0", "9", "é", "ß", "\ud7ff", "\ue000", "\uffff", "\U00010000", "\U0010ffff", "a\u0301", "a\uffff", "a\U00010000"]
DAYS = ["0000-01-01", "1969-12-31", "1970-01-01", "2000-02-29", "2001-01-01", "2001-12-31", "2010-06-15", "9999-12-31"]


def edges(random, values):
    return random.choice(["free", ("with", random.choice(values)), ("without", random.choice(values))])


def ranges(random):
    areas = [0, 1, 2, 3, 100, 380, 390, 400, 4_294_967_295]
    later = [day for day in DAYS if day >= "2000-01-01"]
    for name, values, nulls in [("area", areas, 0.2), ("label", LABELS, 0), ("begin", DAYS, 0), ("end", later, 0.3)]:
        whole = [*values, None] if nulls else values
        for low in ["free", ("with", values[2]), ("without", values[2])]:
            for high in ["free", ("with", values[4]), ("without", values[4]), ("with", values[2]), ("without", values[2]), ("with", values[1])]:
                yield range_case(name, whole, low, high)
        for size in [1, 3, 10, 70, 200]:
            for _ in range(6):
                drawn = [None if random.random() < nulls else random.choice(values) for _ in range(size)]
                yield range_case(name, drawn, edges(random, values), edges(random, values))
    yield range_case("area", [None, None], "free", "free")
    # beside all of them, and between two
    for low, high in [(("with", 8), "free"), (("without", 7), "free"), (("with", 7), "free"), ("free", ("with", 4)), ("free", ("without", 5)), ("free", ("with", 5)), (("with", 6), ("with", 6)), (("without", 5), ("without", 7))]:
        for values in [[5, None, 7], [7, 5], [None, 7, 6, 5]]:
            yield range_case("area", values, low, high)
    # beyond what a parcel's area may be
    yield range_case("area", [5, None, 7], ("with", -(2**63)), ("without", 2**63 - 1))
    yield range_case("object", list(range(1, 151)), ("with", 3), ("with", 3))
    yield range_case("object", list(range(1, 151)), ("without", 3), ("with", 120))


def same(value):
    return ("with", value), ("with", value)


def noted_values():
    """Values that are there, that are not, and that are not there but have the place of one that is."""
    for number in [0, 4, 5, 6, 7, 8]:
        yield range_case("area", [5, None, 7], *same(number))
    for number in [0, 3, 65_535, 65_536, 65_538, 65_539, 65_540, 131_075, 200_000, 4_294_967_295]:
        yield range_case("area", [3, 200_000], *same(number))
    # one with the hash of 4,294,967,295, one with the places of 3 in the opposite order, two with one of these alone, two with three of them
    # and another one, and one with the hash of 3
    for number in [4, 280_078_517, 874_079_739, 3_497_068_250, 835_989_393, 3_458_977_904, 4_294_967_294]:
        yield range_case("area", [3, 4_294_967_295], *same(number))
        yield range_case("area", [2, None, 4_294_967_295], *same(number))
    # two with a place of each of four others, and four where no other has the first, the second, the third or the fourth place
    for number in [73_156, 535_020, 1_119_042, 20_450_965, 50_852_667, 3_293_553]:
        yield range_case("area", list(range(1, 151)), *same(number))
    yield range_case("area", [3, 60_000], *same(65_539))
    yield range_case("area", [65_535, 4_294_967_295], *same(131_071))
    yield range_case("area", [0, 4_294_967_295], *same(131_072))
    # up to 63 numbers are looked up
    for low, high in [(1, 62), (1, 63), (1, 64), (36, 99), (37, 99), (38, 99), (38, 100), (99, 99), (0, 62), (100, 100), (50, 40), (101, 163), (338, 400), (337, 399)]:
        yield range_case("area", [0, 100, None, 400], ("with", low), ("with", high))
    # numbers past a multiple of 65,536
    for low, high in [(65_530, 65_537), (65_530, 65_538), (65_539, 65_590)]:
        yield range_case("area", [2, 100_000], ("with", low), ("with", high))
    # an end that is left out, and no end
    for low, high in [(("without", 5), ("without", 7)), (("with", 6), ("without", 7)), (("without", 5), ("with", 6)), (("with", 6), "free"), ("free", ("with", 6))]:
        yield range_case("area", [5, 7], low, high)
    for number in [2**63 - 1, -(2**63), -1]:
        yield range_case("area", [5, 7], *same(number))
    for label in ["a", "b", "c", "A", "ab", "ba", "\u00e9", "\U0010ffff"]:
        yield range_case("label", ["a", "b", "ab"], *same(label))
    # a label with the hash of "ba", one with its places in the opposite order, and two with three of them and another one
    for label in ["ba", "ea\U000cb051", "fw\U00053937", "ea\U000c4e51", "ea\U000d1251", "ab", "b"]:
        yield range_case("label", ["ba", "z"], *same(label))
        yield range_case("label", ["ba"], *same(label))
        yield range_case("label", ["ea\U000cb051", "z"], *same(label))
    # two labels with others between them, or with none
    for low, high in [("a", "b"), ("b", "a"), ("c", "d")]:
        yield range_case("label", ["a", "b"], ("with", low), ("with", high))
    yield range_case("label", ["a", "c"], ("without", "b"), ("with", "b"))
    # longer labels, and many
    for label in ["x" * 99, "x" * 100, "x" * 101, "y" + "x" * 99]:
        yield range_case("label", ["x" * 100], *same(label))
    for label in ["p1", "p150", "p151", "q1"]:
        yield range_case("label", [f"p{number}" for number in range(1, 151)], *same(label))
    # days have no place
    for day in ["2000-02-29", "2000-03-01"]:
        yield range_case("begin", ["2000-02-29", "2001-01-01"], *same(day))
        yield range_case("end", [None, None], *same(day))


# How many features a segment is cut of, how many times parcels are merged in, and the most changes.
SIZES, TIMES, MOST = (0, 1, 2, 3, 4, 100), (0, 1, 2), (0, 1, 2, 8)
BASES = ["a", "a b", "a b c d e", "a b c d e f g h i j k l"]
CHANGED = ["x", "x y", "x y z", "v w x y z new", "1 2 3 4 5 6 7 8 9 10 11 12 13 14 15 16"]
FURTHER = [
    (["a"], 0, 65, 1, ["x"]),
    (["a"], 1, 3, 1, "1 2 3 4 5 6 7".split()),
    ("a b c d e f g h".split(), 1, 1, 3, "x y z 4 5 6 7 8 9".split()),
    ("a b c d e f g h".split(), 2, 300, 8, "x y z".split()),
    ([*"abcdefghijklmnopqrstuvwxyz", *"abcdefghijklmnopqrstuvwxyz"], 1, 3, 0, [*"zyxwvutsrqponmlkjihgfedcba"]),
    ([*"abcdefghijklmnopqrstuvwxyz"], 30, 3, 25, [*"zyxwvutsrqponmlkjihgfedcba", "more", "than", "there", "were"]),
]
# Several lists, so that recent changes stand over older ones and over a base, over older ones alone, and over neither.
LISTS = ["v w x y z / p", "v w x y z / p q", "v w x y z / p / q r s t u o", "x / v w x y z", "v w x y z / p q r s t u", "v w x y z /", "/ x", "x y / p / x y z", "1 2 3 4 5 6 7 8 9 / x / y z"]
# A layer with a base that has more than so many times as many features as a segment is cut of is cut anew; a segment with more than
# this part of the most changes gets a new base, too.
MOST_GROWN = MANY_OF_MOST = 4
# A segment has no more recent changes than one for so many of the parcels of which it is cut, and no more than so many: where there are
# more they are put into indexes, with the older ones and with what these stand in the place of.
PARCELS_FOR_A_RECENT, MOST_RECENT = 4, 64


class Segment:
    """The parcels of a base, older changes to it and recent ones."""

    def __init__(self, parcels):
        self.base, self.older, self.recent = dict(parcels), {}, {}

    def start(self):
        return min(self.base, default=0)

    def changes(self):
        return len(self.older) + len(self.recent)

    def parcels(self):
        return {**self.base, **self.older, **self.recent}

    def merge(self, own, most_recent):
        self.recent |= own
        if len(self.recent) > most_recent:
            self.older, self.recent = self.older | self.recent, {}


class Layer:
    def __init__(self, labels, size):
        self.size = size
        self.cut(list(enumerate(labels, 1)))

    def cut(self, parcels):
        self.segments = []
        while self.size < len(parcels):
            at = len(parcels) - 1 - self.size
            self.segments.insert(0, Segment(parcels[at:]))
            parcels = parcels[:at]
        self.segments.insert(0, Segment(parcels))

    def merge(self, labels):
        starts = [segment.start() for segment in self.segments]
        own = [{} for _ in starts]
        for number, label in enumerate(labels, 1):
            at = max([0] + [place for place, start in enumerate(starts) if 0 < place and start <= number])
            own[at][number] = label
        for segment, parcels in zip(self.segments, own):
            if parcels:
                segment.merge(parcels, min(self.size // PARCELS_FOR_A_RECENT, MOST_RECENT))

    def parcels(self):
        return sorted({number: label for segment in self.segments for number, label in segment.parcels().items()}.items())

    def renew(self, most):
        if max(len(segment.base) for segment in self.segments) // MOST_GROWN > self.size:
            self.cut(self.parcels())
            return
        counts = [segment.changes() for segment in self.segments]
        fullest = counts.index(max(counts))
        for place, segment in enumerate(self.segments):
            if place == fullest or counts[place] > most // MANY_OF_MOST:
                self.segments[place] = Segment(segment.parcels())

    def told(self, most):
        parcels = self.parcels()
        state = "settled" if sum(segment.changes() for segment in self.segments) <= most else "due"
        labels = "".join(f"{label} " for _, label in parcels)
        return f"{labels}count {len(parcels)} in {len(self.segments)} {state}"


def layer_case(labels, size, times, most, changed):
    layer = Layer(labels, size)
    for some in " ".join(changed).split("/"):
        for _ in range(times):
            layer.merge(some.split())
    told = layer.told(most)
    layer.renew(most)
    return f"layer {' '.join(labels)} ? {size} {times} {most} {' '.join(changed)}", f"{told} then {layer.told(most)}"


def layers():
    """Parcels are the objects 1, 2 and so on, a label each; those that are merged in stand in the place of the first ones, and the last of them are new where there are more."""
    for labels in BASES:
        for size in SIZES:
            for changed in CHANGED:
                for times in TIMES:
                    for most in MOST:
                        yield layer_case(labels.split(), size, times, most, changed.split())
    for case in FURTHER:
        yield layer_case(*case)


def lists():
    """The same with several lists, of which the later ones stand over what the earlier ones left."""
    for labels in BASES:
        for size in (1, 4, 12, 16, 100, 300):
            for changed in LISTS:
                for times in (1, 2):
                    for most in (0, 1, 8):
                        yield layer_case(labels.split(), size, times, most, changed.split())
    # A parcel that changes again after its change got indexes counts as two changes: an older one and a recent one.
    for most in (5, 6):
        yield layer_case("a b c d e f g h".split(), 16, 1, most, "v w x y z / p".split())


# No revision has this number: periods without an end end there.
NO_REVISION = 2**32 - 1


def history_case(lists, revisions):
    """Each list is that of one revision, from 1 on: it gives the first parcels these labels, and all others keep theirs."""
    shown = [[]]
    for labels in lists:
        shown.append(labels + shown[-1][len(labels):])

    def labels_at(revision):
        return shown[min(revision, len(lists))] if revision < NO_REVISION else []

    asked = f"history {' / '.join(' '.join(labels) for labels in lists)} ? {' '.join(map(str, revisions))}"
    return asked, "".join(f"{revision}:{''.join(f' {label}' for label in labels_at(revision))};" for revision in revisions)


def histories(random):
    """Parcels that change at every revision, at some, once, or never, and revisions that change none of them."""
    for lists in ["a", "a/b", "a b/c", "a/b c", "a b c//d", "//a", "a/a/a", "a b c d/e/f g/h/i j k", "a b//c//d e f//g"]:
        named = [labels.split() for labels in lists.split("/")]
        yield history_case(named, [*range(len(named) + 2), NO_REVISION - 1, NO_REVISION, 2**64 - 1])
    for _ in range(60):
        named = [[random.choice("abcdefgh") for _ in range(random.choice((0, 1, 1, 2, 3, 5, 8, 13)))] for _ in range(random.randrange(1, 9))]
        yield history_case(named, [random.randrange(len(named) + 2) for _ in range(4)])
    # More changes of one parcel than of the others, so that its earlier rows need many lists.
    yield history_case([["a", "b", "c"], *([label] for label in "defghijklmnopqrstuvwxyz" * 3)], range(0, 72, 5))
    yield history_case([[f"p{number}" for number in range(1, 41)], *([f"q{revision}"] * (revision % 40) for revision in range(2, 60))], range(0, 61, 7))


def counts_case(name, word, lists, revisions, ends, passes):
    """As `history_case` with values of any property: how many parcels a revision shows, and how many of them pass."""
    at_revision = [[]]
    for values in lists:
        at_revision.append(values + at_revision[-1][len(values):])

    def counts(revision):
        values = at_revision[min(revision, len(lists))] if revision < NO_REVISION else []
        return f"{revision}: {len(values)} {sum(map(passes, values))};"

    words = " / ".join(" ".join("-" if value is None else word(value) for value in values) for values in lists)
    return f"counts {name} {words} ? {' '.join(map(str, revisions))} ? {ends}", "".join(map(counts, revisions))


def range_counts(name, lists, revisions, low, high):
    return counts_case(name, str, lists, revisions, f"{edge_word(low)} {edge_word(high)}", lambda value: lies_in(value, low, high))


def near_counts(lists, revisions, box, spots=False):
    name, word = ("reference_point", spot_word) if spots else ("geometry", shape_word)
    return counts_case(name, word, lists, revisions, shape_word(box), lambda shape: is_near(shape, box))


def drawn_lists(random, value, sizes, most):
    return [[value() for _ in range(random.choice(sizes))] for _ in range(random.randrange(1, most))]


def all_revisions(lists):
    return [*range(len(lists) + 2), NO_REVISION - 1, NO_REVISION, 2**64 - 1]


def counts_in_ranges(random):
    areas = [0, 1, 2, 3, 100, 380, 390, 400, 4_294_967_295]
    later = [day for day in DAYS if day >= "2000-01-01"]
    for lists in [[[5]], [[5], [7]], [[5, 7], [7]], [[5, 7, None], [None, 5]], [[5, None], [], [7, 7, 7]], [[], [], [5]], [[7], [5], [7], [5], [7]], [[1, 2, 3, 4], [5], [6, 7], [8, 9, 10]]]:
        for low, high in [("free", "free"), (("with", 5), ("with", 5)), (("without", 5), "free"), ("free", ("without", 7)), (("with", 6), ("with", 6))]:
            yield range_counts("area", lists, all_revisions(lists), low, high)
    for name, values, nulls in [("area", areas, 0.2), ("label", LABELS, 0), ("begin", DAYS, 0), ("end", later, 0.3)]:
        for _ in range(12):
            lists = drawn_lists(random, lambda: None if random.random() < nulls else random.choice(values), (0, 1, 1, 2, 3, 5, 8, 13), 9)
            yield range_counts(name, lists, all_revisions(lists), edges(random, values), edges(random, values))
        # More parcels than recent changes, so that the newest rows are in indexes, too.
        for _ in range(4):
            lists = drawn_lists(random, lambda: None if random.random() < nulls else random.choice(values), (0, 1, 3, 30, 66, 90, 140), 7)
            yield range_counts(name, lists, all_revisions(lists), edges(random, values), edges(random, values))
    # A first list that no later revision touches as a whole.
    for changes in [[[5]], [[5]] * 7, [[5] * 66, [7]], [[7], [5] * 66], [[5] * 100]]:
        lists = [[number % 11 for number in range(100)], *changes]
        yield range_counts("area", lists, all_revisions(lists), ("with", 5), ("without", 8))
        yield range_counts("area", lists, all_revisions(lists), "free", ("with", 4))
    # By the number of the object, whatever the words are.
    for sizes in [(3, 1), (70, 2), (1, 70), (140, 66, 66)]:
        lists = [list(range(1, size + 1)) for size in sizes]
        yield range_counts("object", lists, all_revisions(lists), ("without", 1), ("with", 67))
    # More changes of one parcel than of the others, so that its earlier rows need many lists.
    lists = [[1, 2, 3], *([revision % 5] for revision in range(2, 60))]
    yield range_counts("area", lists, range(0, 62, 3), ("with", 2), ("with", 3))


def counts_near_boxes(random):
    low, high, middle = (0, 0, 65_535, 65_535), (0, 0, 65_536, 65_536), (-1, -1, 1, 1)
    for lists in [[[low]], [[low], [None]], [[None, low], [high]], [[middle, None, high], [], [low, low]], [[low], [middle], [low], [middle]]]:
        for point in [(65_536, 0), (0, 0), (-65_536, -65_536), (131_072, 0)]:
            yield near_counts(lists, all_revisions(lists), (*point, *point))

    def shape():
        if random.random() < 0.1:
            return None
        return box_at(random, random.randint(-400_000, 400_000), random.randint(-400_000, 400_000), random.choice([10, 70_000, 300_000, 900_000]))

    def spot():
        x, y = random.randint(-200_000, 200_000), random.choice([-65_537, -65_536, -1, 0, 65_535, 65_536, 131_072])
        return None if random.random() < 0.2 else (x, y, x, y)

    for sizes, times in [((0, 1, 1, 2, 3, 5, 8), 12), ((1, 2, 30, 66, 90), 6)]:
        for _ in range(times):
            lists = drawn_lists(random, shape, sizes, 7)
            yield near_counts(lists, all_revisions(lists), box_at(random, random.randint(-500_000, 500_000), random.randint(-500_000, 500_000), random.choice([5, 65_536, 400_000, 1_500_000])))
            lists = drawn_lists(random, spot, sizes, 7)
            yield near_counts(lists, all_revisions(lists), box_at(random, random.randint(-200_000, 200_000), random.randint(-200_000, 200_000), 90_000), spots=True)
    # Indexes of rows with several periods, of which a box is asked that touches one cell, several in few rows, or several in many rows.
    kinds = [low, high, middle, None, *((0, row * SIDE, columns * SIDE - 1, (row + rows) * SIDE - 1) for row, columns, rows in [(2, 5, 1), (20, 8, 8), (20, 9, 8)])]
    for sizes in [(70, 10, 68), (70, 68, 65), (40, 70, 66, 3)]:
        lists = [[kinds[(at + revision) % (len(kinds) - revision)] for at in range(size)] for revision, size in enumerate(sizes)]
        for box in [(0, 0, 0, 0), (0, 0, 3 * SIDE, 2 * SIDE), (-SIDE, -SIDE, -1, 4 * SIDE)]:
            yield near_counts(lists, all_revisions(lists), box)
    # No box is near a number, and no shape lies in a range.
    yield counts_case("area", str, [[1, 2], [3]], [0, 1, 2], shape_word(PLANE), lambda value: False)
    yield counts_case("geometry", shape_word, [[low, high], [middle]], [0, 1, 2], "free free", lambda value: False)


UNREAD = [
    "counts area 1 / 2 ? 1 x ? free free",
    "counts area 1 / 2 ? -1 ? free free",
    "counts area 1 / 2 ? 18446744073709551616 ? free free",
    "counts area 1 / 2 ? 1 ? free",
    "counts area 1 / 2 ? 1",
    "counts nothing 1 / 2 ? 1 ? free free",
    "counts area 1 / 2 ? 1 ? with:x free",
    "history a / b ? 1 x",
    "history a / b ? -1",
    "history a / b ? 18446744073709551616",
    "layer a b ? 1 1 1",
    "layer a b ? 1 1",
    "layer a b ? 1",
    "layer a b ? 1 65536 1 x",
    "layer a b ? 1 1 -1 x",
    "layer a b ? -1 1 1 x",
    "layer a b ? x 1 1 x",
    "lifespan 1 ? free free",
    "area 1 2 ? free",
    "area 1 2 ? with:x free",
    "area 1 2 ? with:99999999999999999999 free",
    "end - ? with:2001-02-29 free",
    "geometry 0,0,1,1 ? 1,1,0,0",
    "nothing 1 ? free free",
    "area 1 2",
]


def main():
    random = Random(65_536)
    cases = [("# Boxes", None), *named_boxes(), *drawn_boxes(random), ("# Squares", None), *square_boxes(), ("# Ranges", None), *ranges(random), ("# Values that are noted", None), *noted_values(), ("# Layers", None), *layers(), ("# Lists of changes", None), *lists(), ("# As many times as a line may say", None), layer_case("a b c d e f g h".split(), 3, 65535, 40, ["x"]), ("# Histories", None), *histories(random), ("# Counts at revisions", None), *counts_in_ranges(random), *counts_near_boxes(random), ("# Lines that are no cases", None), *((line, "unread") for line in UNREAD)]
    here = Path(__file__).parent
    (here / "stdin").write_text("".join(f"{asked}\n" for asked, _ in cases), encoding="utf-8")
    (here / "stdout").write_text("".join(f"{answer}\n" for _, answer in cases if answer is not None), encoding="utf-8")


main()
