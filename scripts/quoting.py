"""The functions of docs/FILTERS.md that write a text of a user into a filter, and texts to try them on."""
import itertools
import re
import sys

from served import TOP

LETTERS = "'\\a%_é"
FURTHER = ["", "''", "O'Neill", "100 %", "C:\\it's", "\\'", "\\\\'", "a\nb", "'; --", "\"x\"", "x" * 200, "💡'", "' OR '' = '"]


def functions(language):
    """The lines of the functions that the page has in a language."""
    text = (TOP / "docs/FILTERS.md").read_text(encoding="utf-8")
    blocks = re.findall(r"(?:^    .*\n|^\n(?=    ))+", text, re.M)
    head = {"Python": "    def quoted", "JavaScript": "    function quoted"}[language]
    found = next((it for it in blocks if head in it), None)
    if found is None:
        sys.exit(f"docs/FILTERS.md has no function in {language} that quotes a text")
    lines = [it[4:] for it in found.splitlines()]
    start = lines.index(next(it for it in lines if it.startswith(head.strip())))
    other = {"Python": "function ", "JavaScript": "def "}[language]
    ends = [at for at, it in enumerate(lines) if at > start and it.startswith(other)]
    return "\n".join(lines[start : ends[0] if ends else None])


def in_python():
    """The two functions of the page."""
    names = {"re": re}
    exec(functions("Python"), names)
    return names["quoted"], names["pattern"]


def texts():
    return [*map("".join, itertools.chain.from_iterable(itertools.product(LETTERS, repeat=it) for it in range(6))), *FURTHER]


def written(quoted, text):
    """What the function writes, or None if it refuses the text."""
    try:
        return quoted(text)
    except ValueError:
        return None
