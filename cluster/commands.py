"""What a node has to know of the office's lines: how a journal writes a command, which objects it names, and the name that the office gave it.

The node never decides whether a line is accepted. It asks its own `cadastred`, by the line `check`. Here a line is only written as the
journal writes it, so that the log, the journals of all nodes and their chains have the same bytes.
"""
import json
import sys

# numbers may have any number of digits
sys.set_int_max_str_digits(0)

# a line of the office as long as `check LINE` allows
LONGEST = 65536 - len("check ")
LONGEST_NAME = 200
RIGHT = ("code", "party", "share", "unit")
MEMBERS = {
    "party": ("code", "name"),
    "unit": ("name",),
    "parcel": ("area", "holes", "label", "shape", "spot", "unit"),
    "right": RIGHT,
    "restriction": (*RIGHT, "required"),
    "responsibility": RIGHT,
}


class Reading:
    """A line as JSON. `is_odd` says that another reader might understand it in another way."""

    def __init__(self, raw):
        self.is_odd = False
        try:
            self.tree = json.loads(raw.decode(), object_pairs_hook=self.members, parse_int=self.whole, parse_float=self.odd, parse_constant=self.odd)
        except (ValueError, RecursionError):
            self.tree = None
        if not isinstance(self.tree, dict):
            self.tree = None

    def members(self, pairs):
        tree = dict(pairs)
        self.is_odd |= len(tree) < len(pairs)
        return tree

    def whole(self, text):
        self.is_odd |= text == "-0"
        return int(text)

    def odd(self, _):
        self.is_odd = True


def with_all_members(tree):
    """The tree of a command with every member that its body may have."""
    whole = dict(tree)
    for name, members in MEMBERS.items():
        body = tree.get(name)
        if isinstance(body, dict):
            whole[name] = {**dict.fromkeys(members), **body}
            if name == "parcel" and body.get("shape") is not None and body.get("holes") is None:
                whole[name]["holes"] = []
    return whole


def as_journal(tree):
    """The line of a command as a journal has it, or None if it cannot be written."""
    try:
        return json.dumps(with_all_members(tree), ensure_ascii=False, separators=(",", ":"), sort_keys=True).encode()
    except ValueError:
        return None


class Line:
    """A line of the office.

    - `asked`: the texts that `cadastred` has to accept before the line is written into the log.
    - `text`: the line as the journal has it, or None.
    - `name`: the name that the office gave to it, or None.
    - `changes`, `needs`: the objects that the command changes, and those on which its answer depends.
    """

    def __init__(self, raw):
        reading = Reading(raw)
        tree, self.name = reading.tree, None
        if tree and is_name(tree.get("name")) and not reading.is_odd:
            self.name = tree.pop("name")
        self.text = as_journal(tree) if tree else None
        self.asked = [self.text] if self.text and not reading.is_odd else [raw, self.text] if self.text else [raw]
        named = [tree.get("object")] if tree else []
        self.changes = {it for it in named if isinstance(it, int)}
        bodies = [it for it in (tree or {}).values() if isinstance(it, dict)]
        self.needs = self.changes | {body[it] for body in bodies for it in ("unit", "party") if isinstance(body.get(it), int)}


def is_name(value):
    try:
        return isinstance(value, str) and 1 <= len(value.encode()) <= LONGEST_NAME
    except ValueError:
        return False
