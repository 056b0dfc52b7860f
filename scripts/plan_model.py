#!/usr/bin/env python3
"""A second implementation of the rules of plans, in Python. It does not follow the crates.

    scripts/stored_cases.py page_cases in - asks self next body word fault | scripts/plan_model.py      prints the answers
    scripts/plan_model.py docs/FILTERS.md          fails if a row of its table of examined features has another number

It gives the answers of crates/page_cases about filters and pages. It uses scripts/normal_model.py, the parameters of
scripts/server_model.py, and the table of menus and costs.

A plan is ("all",), ("empty",), ("range", property, low, high), ("near", property, box), ("meet", plans) or ("join", plans). A box is the least
and the greatest coordinates. Forms are those of normal_model.py, and in addition ("near", property, box).
"""
import re
import sys
from urllib.parse import quote_plus

from calling import a_file, arguments
import filter_meaning as meaning
import filter_model as model
import normal_model as normal
import server_model as server

MOST = 2**64 - 1
CELL = 65536
ALL, EMPTY = ("all",), ("empty",)
plain_form = normal.form_of


def corners(shape):
    if shape[0] == "region":
        return meaning.corners_of(shape)
    return [tuple(it) for it in shape[1:]]


def box_of(shape):
    xs, ys = zip(*corners(shape))
    return min(xs), min(ys), max(xs), max(ys)


def form_of(tree, side):
    """The form of a condition. Features for which a relation with a shape is true are near that shape."""
    if tree[0] != "spatial" or not side or tree[3] == "S_DISJOINT":
        return plain_form(tree, side)
    named = [it for it in tree[2] if it[0] == "name"]
    fixed = [it for it in tree[2] if it[0] != "name"]
    return ("near", named[0][3], box_of(meaning.value(fixed[0], None))) if len(named) == 1 else normal.OTHER


normal.form_of = form_of


# ---- candidates

def is_inside(value, low, high):
    if value is None:
        return False
    if low is not None and (value < low[1] or (low[0] == "without" and value == low[1])):
        return False
    return high is None or value < high[1] or (high[0] == "with" and value == high[1])


def cells(box):
    return [it // CELL for it in box]


def is_near(shape, box):
    """Whether the shape is in more than 64 cells, or in one that the box touches."""
    if shape is None:
        return False
    (left, low, right, high), (x0, y0, x1, y1) = cells(box_of(shape)), cells(box)
    return (right - left + 1) * (high - low + 1) > 64 or (left <= x1 and x0 <= right and low <= y1 and y0 <= high)


def has(plan, x):
    kind, *rest = plan
    if kind in ("all", "empty"):
        return kind == "all"
    if kind == "range":
        return is_inside(x[rest[0]], *rest[1:])
    if kind == "near":
        return is_near(x[rest[0]], rest[1])
    return (all if kind == "meet" else any)(has(it, x) for it in rest[0])


# ---- costs and menus

def cost(plan, features):
    if plan[0] == "meet" and plan[1]:
        return min(cost(it, features) for it in plan[1])
    if plan[0] == "join":
        return min(MOST, sum(cost(it, features) for it in plan[1]))
    return sum(has(plan, x) for x in features)


def menu(form, features):
    kind, *rest = form
    if form == normal.FALSE:
        return [ALL, EMPTY]
    if kind in ("range", "front"):
        return [ALL, ("range", *rest)]
    if kind == "near":
        return [ALL, ("near", *rest)]
    if kind not in ("and", "or"):
        return [ALL]
    choices = [choice(it, features) for it in rest[0]]
    if kind == "or":
        return [ALL, ("join", choices)]
    narrow = [it for it in choices if it != ALL]
    return [ALL] + ([("meet", narrow)] if len(narrow) > 1 else []) + choices


def choice(form, features):
    return min(menu(form, features), key=lambda it: cost(it, features))


# ---- answers

def told_end(end):
    return "free" if end is None else f"{end[0]} {normal.shown(end[1])}"


def told(plan):
    kind, *rest = plan
    if kind in ("meet", "join"):
        return f"{kind}({'; '.join(told(it) for it in rest[0])})"
    if kind == "range":
        return f"range({rest[0]} {told_end(rest[1])} {told_end(rest[2])})"
    if kind == "near":
        return f"near({rest[0]} {','.join(map(str, rest[1]))})"
    return kind


def priced(plan, features):
    return f"{told(plan)} {cost(plan, features)}"


def windowed(form, collection, window):
    if window is None:
        return form
    return normal.all_of([form, ("near", "geometry", window) if "geometry" in model.SCHEMAS[collection] else normal.FALSE])


def given(identifiers):
    return " ".join(["gives", *(identifiers or ["none"])])


def filter_answer(line):
    """The answer about a filter, with its window."""
    found = re.fullmatch(rb"([a-z]+)(?:/(-?[0-9]+),(-?[0-9]+),(-?[0-9]+),(-?[0-9]+))? (.*)", line)
    if not found or found[1].decode() not in model.SCHEMAS:
        return "no case"
    collection = found[1].decode()
    window = None if found[2] is None else tuple(int(found[at]) for at in range(2, 6))
    if window and (window[0] > window[2] or window[1] > window[3] or max(map(abs, window)) > 10**11):
        return "no case"
    if model.answer(collection, found[6]) != "accepted":
        return "refused"
    rows = list(meaning.features(collection))
    features, tree = [x for _, x in rows], model.tree_of(found[6])
    form = windowed(form_of(tree, True), collection, window)
    best = choice(form, features)
    menus = ", ".join(priced(it, features) for it in menu(form, features))
    taken = [name for name, x in rows if meets_window(x, window) and meaning.truth(tree, x) is True]
    return f"{menus} -> {priced(best, features)} has {sum(has(best, x) for x in features)} {given(taken)}"


def meets_window(x, window):
    """Whether a feature meets the window. Every feature meets a missing window. A feature without geometry meets no window."""
    if window is None:
        return True
    return x.get("geometry") is not None and meaning.meets(x["geometry"], ("frame", window[:2], window[2:]))


def request_answer(target):
    """The answer about a request: the page by the chosen plan, and what the page cost."""
    name, _, query = target.partition(b"?")
    collection = name.decode(errors="replace")
    if collection not in model.SCHEMAS:
        return "no case"
    register = server.sample()
    try:
        limit, days, box, tree, revision, after = server.asked(server.pairs_of(query), collection)
    except server.Refused as refused:
        return "refused " + "".join(it.capitalize() for it in refused.tree["fault"].split("-"))
    if revision is not None and revision > register.revision:
        return "no revision"
    window = box and (*box[1], *box[2])
    rows = list(server.features(register.as_of(register.revision if revision is None else revision), collection))
    features = [x for _, _, x in rows]
    form = windowed(normal.TRUE if tree is None else form_of(tree, True), collection, window)
    best = choice(form, features)
    looked_at = [(name, x) for name, _, x in rows if has(best, x)]
    listed, examined = [], 0
    for name, x in looked_at:
        if name > after and len(listed) <= limit:
            examined += 1
            lives = meaning.related("T_INTERSECTS", x["lifespan"], days)
            if lives and meets_window(x, window) and (tree is None or meaning.truth(tree, x) is True):
                listed.append("%d.%d" % name)
    more = " and more" if len(listed) > limit else ""
    counts = f"cost {cost(best, features)} candidates {len(looked_at)} examined {examined}"
    return f"{told(best)} {counts} {given(listed[:limit])}{more}"


def page_answer(target):
    """The body of the requested page, and the target of its link to the next one. If the query has a fault, the body of the fault."""
    name, _, query = target.partition(b"?")
    collection = name.decode(errors="replace")
    if collection not in model.SCHEMAS:
        return "no case"
    register, pairs = server.sample(), server.pairs_of(query)
    try:
        revision = server.asked(pairs, collection)[4]
        if revision is not None and revision > register.revision:
            return "no revision"
        tree = server.items_tree(register, collection, pairs)
    except server.Refused as refused:
        return server.compact(refused.tree).decode()
    return " ".join([server.compact(tree).decode(), *(it["href"] for it in tree["links"] if it["rel"] == "next")])


def feature_answer(words):
    """The body of a feature, or the body that says that it does not exist."""
    collection, space, name = words.decode().partition(" ")
    if not space or collection not in model.SCHEMAS or server.identifier_of(name) is None:
        return "no case"
    try:
        return server.compact(server.item_tree(server.sample(), collection, name)).decode()
    except server.Refused as refused:
        return server.compact(refused.tree).decode()


SHOWN = {
    b"explain": request_answer,
    b"grown-explain": request_answer,
    b"page": page_answer,
    b"grown": page_answer,
    b"feature": feature_answer,
}


def answer(line):
    try:
        line.decode()
    except UnicodeDecodeError:
        return "no case"
    word, space, target = line.partition(b" ")
    if not space:
        return "no case"
    return SHOWN[word](target) if word in SHOWN else filter_answer(line)


ROW = re.compile(r"\| ([0-9]+) \| `([^`]+)` \| [^|]* \|")


def check_page(path):
    """Compares the rows below a head `looked at`. Each has the number of tested parcels, and the filter."""
    with open(path, encoding="utf-8") as page:
        rows = page.read().partition("| looked at | filter |")[2].partition("\n\n")[0].split("\n")[2:]
    for row in rows:
        shown = ROW.fullmatch(row)
        found = request_answer(b"parcels?filter=" + quote_plus(shown[2]).encode()) if shown else ""
        if f" examined {shown and shown[1]} " not in found:
            sys.exit(f"plan_model: {path}: {row}: {found}")
    print(f"plan_model: {len(rows)} rows of {path} have the number of features that are tested")


def main():
    sys.setrecursionlimit(20000)
    for page in arguments(__doc__, a_file):
        return check_page(page)
    for line in sys.stdin.buffer.read().split(b"\n"):
        if line and not line.startswith(b"#"):
            print(answer(line))


if __name__ == "__main__":
    main()
