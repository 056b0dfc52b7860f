#!/usr/bin/env python3
"""Prints the stored cases of a program, or their answers, by the word that a case begins with.

    scripts/stored_cases.py PROGRAM in|out [-] WORD ..

With `in` it prints the cases of crates/PROGRAM/stdin that begin with one of the words, and with `out` their answers. After `-` it prints
those that begin with none of the words. It leaves out the words `truth` and `normal`, since the case itself follows them.

Some lines are not cases and have no answers: empty lines, lines that begin with `#`, and lines that only write the next case
(`repeat N TEXT`).
"""
import re
import sys
from pathlib import Path

from calling import arguments, one_of, wrong_call

CRATES = Path(__file__).resolve().parent.parent / "crates"
BEFORE_THE_CASE = (b"truth", b"normal")


def cases(program):
    """Each case as its first word, the lines that write it, and its answer. The lines do not have a word that precedes the case."""
    stored = CRATES / program
    answers = iter((stored / "stdout").read_bytes().split(b"\n")[:-1])
    written = []
    for line in (stored / "stdin").read_bytes().removesuffix(b"\n").split(b"\n"):
        if not line or line.startswith(b"#"):
            continue
        if re.match(rb"repeat [0-9]+ ", line):
            written.append(line)
            continue
        word, _, rest = line.partition(b" ")
        yield word, [*written, rest if word in BEFORE_THE_CASE else line], next(answers)
        written = []


def of_words(program, words, others=False):
    """The lines of these cases, and their answers."""
    chosen = [(lines, answer) for word, lines, answer in cases(program) if (word in words) != others]
    return [line for lines, _ in chosen for line in lines], [answer for _, answer in chosen]


def main():
    program, part, *words = arguments(__doc__, str, one_of(("in", "out")), more=str) if len(sys.argv) > 3 else wrong_call(__doc__)
    others = words[0] == "-"
    chosen = of_words(program, {it.encode() for it in words[others:]}, others)[part == "out"]
    sys.stdout.buffer.write(b"".join(it + b"\n" for it in chosen))


if __name__ == "__main__":
    main()
