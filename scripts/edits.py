"""Reads wrong bodies, which are edits of a crate's code that the prover or a test has to refuse, and edits of other programs."""
import glob
import os

TOP = os.path.realpath(os.path.join(os.path.dirname(os.path.abspath(__file__)), ".."))


def of_gate(crate="*", name="*"):
    """The edits that the gate tries, for a crate or with one name."""
    return sorted(glob.glob(f"{TOP}/crates/{crate}/must-fail/{name}.edit"))


def aside(crate="*", name="*"):
    """The further edits, those in wrong-bodies/."""
    return sorted(glob.glob(f"{TOP}/wrong-bodies/{crate}/{name}.edit"))


def for_tests():
    """The edits that a test has to refuse. No contract can, since what they report may happen at any call."""
    return sorted(glob.glob(f"{TOP}/wrong-for-tests/*/*.edit"))


def crate_of(edit):
    """The name of the crate whose code the edit changes."""
    folder = os.path.dirname(edit)
    return os.path.basename(os.path.dirname(folder) if os.path.basename(folder) == "must-fail" else folder)


def turned(edit, folder=None):
    """The changed texts by the paths of their files in the crate, or in a folder, and the reasons why the edit cannot be put in place."""
    crate = folder or f"{TOP}/crates/{crate_of(edit)}"
    path, old, pairs, texts, why = "", None, 0, {}, []
    with open(edit, encoding="utf-8", newline="") as it:
        lines = it.read().split("\n")
    for line in lines:
        if line.startswith("file: "):
            path = line[len("file: ") :].strip()
        elif line.startswith("old: "):
            old = line[len("old: ") :]
        elif line.startswith("new:"):
            if path not in texts:
                with open(f"{crate}/{path}", encoding="utf-8") as it:
                    texts[path] = it.read()
            count = texts[path].count(old)
            if count != 1:
                why.append(f"a text occurs {count} times in {path}")
            new = line[len("new:") :]
            texts[path] = texts[path].replace(old, new[1:] if new.startswith(" ") else new)
            pairs += 1
    if not pairs:
        why.append("it changes nothing")
    return texts, why


def changed(edit):
    """The lines that the edit changes: what each becomes, by pairs of a file and a number from 0."""
    texts, why = turned(edit)
    if why:
        raise SystemExit(f"{edit}: {why[0]}")
    found = {}
    for path, text in texts.items():
        with open(f"{TOP}/crates/{crate_of(edit)}/{path}", encoding="utf-8", newline="") as it:
            was = it.read().split("\n")
        found |= {(path, at): new for at, (old, new) in enumerate(zip(was, text.split("\n"), strict=True)) if old != new}
    return found


def apart(todo, at):
    """As many of the edits as change different places, by the places of each."""
    chosen, taken = [], set()
    for edit in todo:
        if not set(at[edit]) & taken:
            chosen.append(edit)
            taken |= set(at[edit])
    return chosen


def in_place(crate, chosen, call):
    """The result of the call while these edits, which change different lines, are in place."""
    folder, kept = f"{TOP}/crates/{crate}", {}
    lines = {place: new for edit in chosen for place, new in changed(edit).items()}
    try:
        for path in {it[0] for it in lines}:
            with open(f"{folder}/{path}", encoding="utf-8", newline="") as it:
                kept[path] = it.read()
            text = [lines.get((path, at), old) for at, old in enumerate(kept[path].split("\n"))]
            with open(f"{folder}/{path}", "w", encoding="utf-8", newline="") as it:
                it.write("\n".join(text))
        return call()
    finally:
        for path, text in kept.items():
            with open(f"{folder}/{path}", "w", encoding="utf-8", newline="") as it:
                it.write(text)
