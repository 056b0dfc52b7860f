"""How a script is called: its arguments by their kinds, or its usage if they do not fit."""
import re
import sys
from pathlib import Path


def wrong_call(text):
    """Prints the calls that a docstring shows on standard error, and ends the run with status 2."""
    calls = re.search(r"^    \S.*(?:\n    .*)*", text, re.M)[0]
    print("usage:", re.sub(r"^    ", "       ", calls, flags=re.M).lstrip(), file=sys.stderr)
    sys.exit(2)


def arguments(text, *kinds, more=None):
    """The arguments by their kinds. Those that are not given are missing at the end. `more` is the kind of all further ones."""
    words = sys.argv[1:]
    try:
        if len(words) > len(kinds) and more is None:
            raise ValueError
        return [(kinds[at] if at < len(kinds) else more)(it) for at, it in enumerate(words)]
    except ValueError:
        return wrong_call(text)


def a_number(word):
    """A whole number from 0 on."""
    if not re.fullmatch(r"[0-9]{1,9}", word):
        raise ValueError
    return int(word)


def a_file(word):
    """The path of a file that is there."""
    if not Path(word).is_file():
        raise ValueError
    return Path(word)


def a_word(word):
    """Any text that is no option."""
    if word.startswith("-"):
        raise ValueError
    return word


def one_of(known):
    """The kind of names that are known."""
    def kind(word):
        if word not in known:
            raise ValueError
        return word
    return kind


def with_defaults(words, *others):
    """The words, and for those that are missing at the end the others."""
    return [*words, *others[len(words) :]]
