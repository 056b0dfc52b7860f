#!/usr/bin/env python3
"""Writes the lines of days in crates/land_cases/stdin. A line is a question.

    scripts/day_cases.py      prints each line with its answer

The answers come from Python's calendar and from a second writing of the table of relations, over ends as numbers. They do not follow the
crate. scripts/check_land_cases compares the stored lines and answers with them.
"""
from datetime import date

OPEN = ".."
EPOCH = date(1970, 1, 1).toordinal()
PAST, FUTURE = float("-inf"), float("inf")

# first day, last day; None is open
INTERVALS = [
    (5, 5), (5, 9), (5, 12), (1, 5), (1, 9), (6, 8), (9, 12), (10, 12),
    (None, 5), (None, 9), (5, None), (9, None), (None, None),
]


def text(number):
    return date.fromordinal(number + EPOCH).isoformat()


def asked_text(days):
    return "/".join(OPEN if n is None else text(n) for n in days)


def relations(a, b):
    (p, q), (r, s) = ((PAST if x is None else x, FUTURE if y is None else y) for x, y in (a, b))
    table = {
        "T_AFTER": p > s,
        "T_BEFORE": q < r,
        "T_DISJOINT": p > s or q < r,
        "T_INTERSECTS": not (p > s or q < r),
        "T_EQUALS": (p, q) == (r, s),
        "T_CONTAINS": p < r and q > s,
        "T_DURING": p > r and q < s,
        "T_MEETS": q == r,
        "T_METBY": p == s,
        "T_STARTS": p == r and q < s,
        "T_STARTEDBY": p == r and q > s,
        "T_FINISHES": q == s and p > r,
        "T_FINISHEDBY": q == s and p < r,
        "T_OVERLAPS": p < r and r < q and q < s,
        "T_OVERLAPPEDBY": r < p and p < s and s < q,
    }
    return " ".join(name for name, holds in table.items() if holds)


# texts of days: the number, or None
DAYS = [
    ("0000-01-01", -719528), ("0000-02-29", -719469), ("1969-12-31", -1), ("1970-01-01", 0), ("2000-02-29", 11016),
    ("9999-12-31", 2932896), ("2000-03-01", 11017), ("1600-02-29", -135081),
    ("1900-02-29", None), ("2001-02-29", None), ("2001-1-01", None), ("2001-13-01", None),
    ("2001-00-10", None), ("2001-04-31", None), ("2001-04-00", None), ("2001/04/01", None), (" 2001-04-01", None),
    ("2001-04-01 ", None), ("+201-04-01", None), ("20010401", None), ("", None), ("2001-04-01T", None), ("१९७०-०१-०१", None),
]

# texts of datetime: the days, or the fault
ASKED = [
    ("2010-01-01", "2010-01-01/2010-01-01"),
    ("0000-01-01", "0000-01-01/0000-01-01"),
    ("9999-12-31", "9999-12-31/9999-12-31"),
    ("2010-01-01T00:30:00+01:00", "2009-12-31/2009-12-31"),
    ("2010-01-01T23:30:00-01:00", "2010-01-02/2010-01-02"),
    ("2010-01-01T00:30:00Z", "2010-01-01/2010-01-01"),
    ("2010-01-01t23:59:59.999999999z", "2010-01-01/2010-01-01"),
    ("2010-01-01 12:00:00Z", "2010-01-01/2010-01-01"),
    ("1969-12-31T23:59:59.9Z", "1969-12-31/1969-12-31"),
    ("1970-01-01T00:00:00Z", "1970-01-01/1970-01-01"),
    ("2010-01-01T00:00:00+25:59", "2009-12-30/2009-12-30"),
    ("0000-01-01T00:00:00Z", "0000-01-01/0000-01-01"),
    ("9999-12-30T22:00:00.999999999Z", "9999-12-30/9999-12-30"),
    ("9999-12-31T00:00:00Z", "NotADate"),
    ("0000-01-01T00:30:00+01:00", "NotADate"),
    ("-000001-12-31T00:00:00Z", "NotADate"),
    ("2010-01-01T00:30:00", "NotADate"),
    ("2010-01-01T24:00:00Z", "NotADate"),
    ("2010-02-30T12:00:00Z", "NotADate"),
    ("2010-01-01T00:30:00+01:00[Europe/Berlin]", "NotADate"),
    ("2010-01-01T00:30:00Z[UTC]", "NotADate"),
    ("2010-01-01[u-ca=iso8601]", "NotADate"),
    ("2010-02-29", "NotADate"),
    ("2010-1-1", "NotADate"),
    ("yesterday", "NotADate"),
    ("", "NotADate"),
    ("..", "NotADate"),
    (".", "NotADate"),
    ("/", "../.."),
    ("../..", "../.."),
    ("/..", "../.."),
    ("../", "../.."),
    ("2010-01-01/", "2010-01-01/.."),
    ("2010-01-01/..", "2010-01-01/.."),
    ("/2010-01-01", "../2010-01-01"),
    ("../2010-01-01", "../2010-01-01"),
    ("2009-12-31/2010-01-01", "2009-12-31/2010-01-01"),
    ("2010-01-01/2010-01-01", "2010-01-01/2010-01-01"),
    ("2009-12-31T23:30:00-01:00/2010-01-01", "2010-01-01/2010-01-01"),
    ("2010-01-01T00:00:00Z/2010-01-01T23:00:00Z", "2010-01-01/2010-01-01"),
    ("2010-01-01/2009-12-31", "EndsTurned"),
    ("2010-01-01/2010-01-01T00:30:00+01:00", "EndsTurned"),
    ("2010-01-01T12:00:00Z/2010-01-01T00:00:00Z", "2010-01-01/2010-01-01"),
    ("9999-12-31/0000-01-01", "EndsTurned"),
    ("2010-01-01/2009-02-29", "NotADate"),
    ("2010-02-29/2009-12-31", "NotADate"),
    ("2010-01-01/...", "NotADate"),
    ("2010-01-01/2010-01-02/2010-01-03", "NotADate"),
    ("2010-01-01//", "NotADate"),
    ("2010-01-01 /2010-01-02", "NotADate"),
]

BETWEEN = [((5, 6), "in order"), ((6, 6), "in order"), ((6, 5), "turned"), ((-719528, 2932896), "in order"), ((2932896, -719528), "turned")]


def questions():
    """Each question with its answer."""
    yield from ((f"day {words}", "no day" if number is None else f"{number} {words}") for words, number in DAYS)
    yield from ((f"asked {words}", answer) for words, answer in ASKED)
    yield from ((f"interval {first} {last}", answer) for (first, last), answer in BETWEEN)
    yield from ((f"relations {asked_text(a)} {asked_text(b)}", relations(a, b)) for a in INTERVALS for b in INTERVALS)


def lines():
    """The lines of the part, as bytes."""
    return [question.encode() for question, _ in questions()]


def answers():
    """What is printed for each line: the line, and its answer."""
    return [f"{question}: {answer}".rstrip() for question, answer in questions()]


def main():
    for answer in answers():
        print(answer)


if __name__ == "__main__":
    main()
