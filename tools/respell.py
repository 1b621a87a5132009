#!/usr/bin/env python3
"""Spells this repository's own definitions, fields, constructors and lemmas in snake case, as today's Rattle wants them.

usage: python3 tools/respell.py      once, at the top, behind /opt/rattle/port/port.py

A word of a proof, a definition or a clause with a capital inside, as `slotsWanted` or `part-valueBits`, becomes `slots_wanted` or
`part-value_bits`. Types and facts keep their capitals, functions of src/ have none. Where two names would fall together, OTHER says
which name one of them gets. Edits and the names in backticks of the pages follow.
"""
import os
import re

OTHER = {"usageMarker": "marker_of_usage", "rowWords": "words_of_row"}
WORD = re.compile(r"[A-Za-z_][\w'\-]*")
INSIDE = re.compile(r"[a-z][a-z0-9_]*[A-Z]")


def snake(part):
    if not INSIDE.match(part):
        return part
    part = re.sub(r"([a-z0-9])([A-Z])", r"\1_\2", part)
    part = re.sub(r"([A-Z]+)([A-Z][a-z])", r"\1_\2", part)
    return re.sub("__+", "_", part).lower()


def spelled(word):
    return OTHER.get(word) or "-".join(OTHER.get(p) or snake(p) for p in word.split("-"))


def files(top, endings):
    for folder, dirs, names in os.walk(top):
        dirs[:] = sorted(d for d in dirs if d not in ("out", ".git", "target"))
        for n in sorted(names):
            if n.endswith(endings):
                yield os.path.join(folder, n)


def code(text, rt):
    """The text without strings and comments."""
    text = re.sub(r'"[^"\n]*"', '""', text)
    return re.sub(r"//.*" if rt else r"(?m)(^|\s)--.*", "", text)


def turn(path, change):
    with open(path, encoding="utf-8") as f:
        old = f.read()
    new = change(old)
    if new != old:
        with open(path, "w", encoding="utf-8") as f:
            f.write(new)
    return new != old


def main():
    words = set()
    for p in files("crates", (".antt",)):
        with open(p, encoding="utf-8") as f:
            words |= {w for w in WORD.findall(code(f.read(), False)) if spelled(w) != w}
    names = {w: spelled(w) for w in words}

    def every(text):
        return WORD.sub(lambda m: names.get(m.group(), m.group()), text)

    def outside_strings(text):
        return re.sub(r'"[^"\n]*"|[^"]+|"', lambda m: m.group() if m.group().startswith('"') else every(m.group()), text)

    def in_backticks(text):
        return re.sub(r"`[^`\n]*`", lambda m: every(m.group()), text)

    n = sum(turn(p, every) for p in files("crates", (".antt",)))
    n += sum(turn(p, outside_strings) for p in files("crates", (".rt",)))
    n += sum(turn(p, outside_strings) for p in [*files("crates", (".edit",)), *files("tests", (".edit",))])
    n += sum(turn(p, in_backticks) for p in [*files("docs", (".md",)), "README.md"])
    print(f"respell: {len(names)} names, {n} files")


if __name__ == "__main__":
    main()
