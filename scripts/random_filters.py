#!/usr/bin/env python3
"""Prints random filters, each with a collection before it, as the programs of cases read them.

    scripts/random_filters.py SEED COUNT

The script draws filters by the grammar, with the names of the collection and with values of the sample register. Some have a wrong kind, an
unknown name or an invalid literal. A third has a character or a word too many or too few.
"""
import random

from calling import a_number, arguments, wrong_call
from filter_model import SCHEMAS, SPATIAL, TEMPORAL

TEXTS = ["A-1", "A%", "b-7", "B", "_-1", "%1", "A_1", "", "Mill", "ana", "a-1", "C%1", "%", "é", "Ä%", "ownership", "ß", "o'", "\U0010ffff"]
DAYS = ["2000-01-01", "2001-01-01", "2003-01-01", "2005-06-01", "2009-12-31", "2010-01-01", "2010-01-02", "1999-12-31", "2020-12-31"]
NO_DAYS = ["2020-02-30", "0000-01-01", "2001-1-1", ""]
NUMBERS = ["0", "1", "2", "3", "4", "5", "10", "11", "50", "380", "390", "400", "900", "1000", "00012", "4e2", "1e3", "3e18",
           "9223372036854775807", "9223372036854775808", "1e19", "1.5", ".5", "1e-1"]
COORDINATES = ["0", "1", "-10", "10000", "15000", "19999", "20000", "20000.0", "30000", "40000", "60000", "5e3", "1.5"]
COMPARISONS = ["=", "<>", "<", ">", "<=", ">="]
OPERATORS = [" + ", " - ", " * ", "+", "-", "*", " DIV ", " div ", " % ", "/"]
STRAY = "()'\"%.,<>=+-*/ eE0;:_\\\t{}"
WORDS = ["NOT", "AND", "OR", "NULL", "IN", "BETWEEN", "1", "=", "(", ")"]


class Drawn:
    """Draws filters for one collection."""

    def __init__(self, draw, collection):
        self.draw, self.collection = draw, collection

    def is_so(self, share):
        return self.draw.random() < share

    def word(self, word):
        """A keyword, in upper, lower or mixed case."""
        if self.is_so(0.8):
            return word
        return "".join(self.draw.choice([it.lower(), it.upper()]) for it in word)

    def one(self, *ways):
        """The result of one of these calls."""
        return self.draw.choice(ways)()

    def name(self, *kinds):
        schema = SCHEMAS[self.collection]
        fitting = [name for name, kind in schema.items() if kind in kinds]
        if not fitting or self.is_so(0.02):
            fitting = [*schema, "nothing", "x.y"]
        found = self.draw.choice(fitting)
        return f'"{found}"' if self.is_so(0.05) else found

    def quoted(self, texts):
        return "'" + self.draw.choice(texts).replace("'", "''") + "'"

    def number(self, depth):
        if depth == 0 or self.is_so(0.35):
            return ("-" if self.is_so(0.15) else "") + self.draw.choice(NUMBERS)
        if self.is_so(0.6):
            return self.name("Whole")
        if self.is_so(0.2):
            return f"({self.number(depth - 1)})"
        return self.number(depth - 1) + self.draw.choice(OPERATORS) + self.number(depth - 1)

    def text(self, depth):
        if self.is_so(0.5):
            return self.name("Text")
        if depth == 0 or self.is_so(0.7):
            return self.quoted(TEXTS)
        return f"{self.word('CASEI')}({self.text(depth - 1)})"

    def day(self, _depth):
        if self.is_so(0.5):
            return self.name("Day")
        return f"{self.word('DATE')}({self.quoted(NO_DAYS if self.is_so(0.03) else DAYS)})"

    def flag(self, _depth):
        return self.one(lambda: self.word("TRUE"), lambda: self.word("FALSE"), lambda: self.name("Flag"))

    def end(self):
        return self.one(lambda: "'..'", lambda: self.quoted(DAYS), lambda: self.name("Day"))

    def span(self, depth):
        return self.one(lambda: self.name("Span"), lambda: self.day(depth), lambda: f"{self.word('INTERVAL')}({self.end()},{self.end()})")

    def coordinate(self):
        return self.draw.choice(COORDINATES)

    def corner(self):
        return f"{self.coordinate()} {self.coordinate()}"

    def ring(self):
        x, y, side = self.draw.choice([0, 10000, 20000]), self.draw.choice([0, 10000, 30000]), self.draw.choice([5000, 10000, 20000, 30000])
        corners = self.draw.choice([
            [(x, y), (x + side, y), (x + side, y + side), (x, y + side)],
            [(x, y), (x + side, y), (x, y + side)],
            [(self.draw.randint(-3, 3) * 10000, self.draw.randint(-3, 3) * 10000) for _ in range(self.draw.randint(2, 6))],
        ])
        if self.is_so(0.3):
            corners.reverse()
        corners.append((1, 1) if self.is_so(0.05) else corners[0])
        return "(" + ",".join(f"{x} {y}" for x, y in corners) + ")"

    def box(self):
        if self.is_so(0.2):
            return ",".join(self.coordinate() for _ in range(4))
        (west, east), (south, north) = sorted(self.draw.choices(range(-10000, 70000, 5000), k=2)), sorted(self.draw.choices(range(-10000, 70000, 5000), k=2))
        return f"{west},{south},{east},{north}"

    def shape(self, _depth):
        return self.one(
            lambda: self.name("Area", "Spot"),
            lambda: self.name("Area", "Spot"),
            lambda: f"{self.word('POINT')}({self.corner()})",
            lambda: f"{self.word('BBOX')}({self.box()})",
            lambda: f"{self.word('POLYGON')}({','.join(self.ring() for _ in range(self.draw.choice([1, 1, 1, 2])))})",
        )

    def value(self, depth):
        return self.draw.choice([self.number, self.text, self.day, self.flag, self.span, self.shape])(depth)

    def compared(self):
        kind = self.draw.choice([self.number, self.number, self.text, self.day, self.flag])
        return kind(2) + self.draw.choice(["", " "]) + self.draw.choice(COMPARISONS) + " " + kind(2)

    def negated(self, word):
        return (self.word("NOT") + " " if self.is_so(0.3) else "") + self.word(word)

    def among(self):
        kind = self.draw.choice([self.number, self.text, self.day, self.flag])
        return f"{kind(1)} {self.negated('IN')} ({', '.join(kind(1) for _ in range(self.draw.randint(1, 4)))})"

    def condition(self):
        return self.one(
            self.compared,
            self.compared,
            self.among,
            lambda: f"{self.text(2)} {self.negated('LIKE')} {self.text(1)}",
            lambda: f"{self.number(2)} {self.negated('BETWEEN')} {self.number(2)} {self.word('AND')} {self.number(2)}",
            lambda: f"{self.value(1)} {self.word('IS')} {self.negated('NULL')}",
            lambda: f"{self.word(self.draw.choice(sorted(SPATIAL)))}({self.shape(1)},{self.shape(1)})",
            lambda: f"{self.word(self.draw.choice(sorted(TEMPORAL)))}({self.span(1)},{self.span(1)})",
            lambda: self.value(1) if self.is_so(0.2) else self.word(self.draw.choice(["TRUE", "FALSE"])),
        )

    def filter(self, depth):
        if depth == 0 or self.is_so(0.3):
            return self.condition()
        return self.one(
            lambda: f"{self.filter(depth - 1)} {self.word('AND')} {self.filter(depth - 1)}",
            lambda: f"{self.filter(depth - 1)} {self.word('OR')} {self.filter(depth - 1)}",
            lambda: f"{self.word('NOT')} {self.condition()}",
            lambda: f"{self.word('NOT')} ({self.filter(depth - 1)})",
            lambda: f"({self.filter(depth - 1)})",
        )

    def changed(self, text):
        """The text, with a character or a word added or removed."""
        words, at = text.split(" "), self.draw.randrange(len(text) + 1)
        place = self.draw.randrange(len(words))
        return self.draw.choice([
            text[:at] + text[at + 1 :],
            text[:at] + self.draw.choice(STRAY) + text[at:],
            " ".join(words[:place] + words[place + 1 :]),
            " ".join(words[:place] + [self.draw.choice(words + WORDS)] + words[place:]),
        ])


def filters(seed, count):
    """That many lines `COLLECTION FILTER`, the same for the same seed."""
    draw = random.Random(seed)
    names = [*SCHEMAS, *["parcels"] * 3]
    while count:
        drawn = Drawn(draw, draw.choice(names))
        text = drawn.filter(draw.randrange(4))
        while drawn.is_so(0.3):
            text = drawn.changed(text)
        if text.strip():
            count -= 1
            yield f"{drawn.collection} {text}"


if __name__ == "__main__":
    words = arguments(__doc__, a_number, a_number)
    for line in filters(*words) if len(words) == 2 else wrong_call(__doc__):
        print(line)
