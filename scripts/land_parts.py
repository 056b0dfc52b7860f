#!/usr/bin/env python3
"""Prints the lines of a part of crates/land_cases/stdin.

    scripts/land_parts.py NAME      NAME is one of NAMES, as "dry run"

A line `= NAME` begins each part. The part ends before the line break in front of the next such line.
"""
import re
import sys
from pathlib import Path

from calling import arguments, one_of, wrong_call

CASES = Path(__file__).resolve().parent.parent / "crates/land_cases"
# The parts, in their order.
NAMES = ["days", "shapes", "office", "features", "histories", "rows", "starts", "journals", "memory journals", "dry run"]


def parts():
    """The lines of each part, by its name. It fails if a part is missing, empty or in another place, and if there are others."""
    front, *rest = re.split(rb"\n= (.*)", b"\n" + (CASES / "stdin").read_bytes())
    names, texts = [it.decode(errors="replace") for it in rest[::2]], [it.removeprefix(b"\n") for it in rest[1::2]]
    if front or names != NAMES:
        sys.exit(f"land_parts: the parts of crates/land_cases/stdin are {names}, and not {NAMES} from its first line on")
    empty = [name for name, text in zip(names, texts) if not text.strip()]
    if empty:
        sys.exit(f"land_parts: crates/land_cases/stdin has no lines of {empty}")
    return dict(zip(names, texts))


if __name__ == "__main__":
    known = parts()
    [wanted] = arguments(__doc__, one_of(known)) or wrong_call(__doc__)
    sys.stdout.buffer.write(known[wanted])
