#!/usr/bin/env python3
"""The definitions and laws of specs/ and proofs/ that nothing cites: no contract, no answer to a goal of the check, no document.

usage: python3 tools/uncited.py [CRATE..]      at the top

A name is followed through the `use` lines: a word of a file is the definition that the file states, or the one that its `use` brings in. What only
things cite that nothing cites is listed too, with what cites it. Taken as cited: what a file of src/ has in its text, an answer to a goal
(`: goal.`), and what a document, but those of what moved, names in backticks. A word behind a dot that no `use` explains is no citation.
MAYBE: the word stands in an edit.
"""
import collections
import glob
import os
import re
import subprocess
import sys

SIGNATURE = re.compile(r"( *)((?:(?:abbrev|unfoldable|opaque|pub) +)*)(?:(record|data) +)?([^\s(){},;.:=|\[\]\"]+|\[\])((?: *\{[^}]*\})*)( .*)?$")
WORD = re.compile(r"(?<![^\s(){}\[\],;:\"`|.])(\.?)([^\s(){}\[\],;:\"`|.]+)")
KEYWORDS = {"use", "mod", "module", "open", "infix", "infixl", "infixr", "prefix", "let", "where", "unfolding", "in", "λ", "ruleset", "syntax"}
LISTS_ONLY = ("docs/DESIGN-PASS.md", "docs/PORT.md", "docs/changes/")  # documents of what moved: to be named there holds nothing


def code(line):
    return re.sub(r"(?:^|\s)--(?:\s.*)?$", "", line)


class Item:
    def __init__(self, file, line, name, kind, inner, marks):
        self.file, self.line, self.name, self.kind, self.inner, self.marks = file, line, name, kind, inner, marks
        self.words, self.text = [], []

    def place(self):
        return f"{self.file}:{self.line} {self.name}"


def words_of(text):
    """The words of a text, each with whether it stands behind a dot."""
    out = []
    for dot, word in WORD.findall(text):
        out.append((word.strip("«»'") if word.startswith("«") else word, bool(dot)))
    return out


def starts(line, after):
    """The signature that begins at a line: its indent, marks, record or data, name."""
    m = SIGNATURE.match(line)
    if not m or m[4] in KEYWORDS or m[4] == "_":
        return None
    if m[3]:
        return m
    rest = (m[6] or "").strip()
    if rest.startswith(": ") or rest == ":":
        return m
    if not rest and re.match(r" *: ", after) and (m[2] or len(after) - len(after.lstrip()) > len(m[1])):
        return m
    return None


def imports_of(text):
    """What `use` lines bring in: the name here, to the pairs of a path and the name there; and what `pub use` passes on."""
    here, passed = collections.defaultdict(set), collections.defaultdict(set)
    for m in re.finditer(r"(?m)^\s*(pub +)?(?:ghost +)?use +([^\s{};]+?)(?:\.\{([^}]*)\}|( as \S+?)?;?\s*$)", text):
        path, names = m[2], m[3]
        if names is None:
            path, _, names = path.rpartition(".")
            names += m[4] or ""
        for n in names.split(","):
            n = n.strip().split("--")[0].strip()
            if not n:
                continue
            there, _, alias = n.partition(" as ")
            there, alias = there.strip(), alias.strip() or there.strip()
            here[alias].add((path, there))
            if m[1]:
                passed[alias].add((path, there))
    return here, passed


def parse(path):
    raw = [code(l) for l in open(path, encoding="utf-8").read().split("\n")]
    items, modules, current, skip = [], [], None, None
    here, passed = imports_of("\n".join(raw))
    inside_use = False
    for i, line in enumerate(raw):
        if not line.strip():
            continue
        depth = len(line) - len(line.lstrip())
        if inside_use:
            inside_use = "}" not in line
            continue
        if re.match(r" *(pub +)?use\s", line) and (current is None or depth <= current.depth):
            inside_use = "{" in line and "}" not in line
            continue
        if current is not None and depth > current.depth:
            current.text.append(line)
            continue
        if re.match(r" *(pub +)?mod\s", line):
            continue
        m = re.match(r"( *)(?:pub +)?module +(\S+)(.*)", line)
        if m or re.match(r" *infix[lr]?\s", line):
            current = None
        if m:
            while modules and modules[-1][0] >= depth:
                modules.pop()
            modules.append((depth, m[2], [m[3]], i))
            continue
        if re.match(r" *infix[lr]?\s", line):
            continue
        m = starts(line, raw[i + 1] if i + 1 < len(raw) else "")
        if m and not (m[4] == (current.name if current else None) and not re.search(r"\s:\s", line)):
            while modules and modules[-1][0] >= depth:
                modules.pop()
            current = Item(path, i + 1, m[4], m[3] or "", [x[1] for x in modules if x[1] != "_"], m[2].split())
            current.depth = depth
            current.heads = [w for x in modules for w in x[2]]
            current.text.append(line[m.end(4):] if m[4] in line else line)
            items.append(current)
            continue
        if current is None:  # a module's head goes on
            if modules:
                modules[-1][2].append(line)
            continue
        current.text.append(line)
    return items, here, passed


def module_of(path):
    """crates/uplink/proofs/A/B.antt is Rattle.uplink.proofs.A.B."""
    return "Rattle." + path[len("crates/"):-len(".antt")].replace("/", ".")


def pieces(name):
    return [p for p in name.split("◌") if p] if "◌" in name else [name]


def main():
    only = set(sys.argv[1:])
    antt = sorted(glob.glob("crates/*/specs/**/*.antt", recursive=True) + glob.glob("crates/*/proofs/**/*.antt", recursive=True))
    files = {p: parse(p) for p in antt}
    by_module = {module_of(p): p for p in antt}
    by_file = {p: collections.defaultdict(list) for p in antt}
    named = collections.defaultdict(list)
    for p, (items, _, _) in files.items():
        for it in items:
            by_file[p][it.name].append(it)
            named[it.name].append(it)

    def found(path, name, seen=()):
        """The items that a name of a module's path stands for."""
        head, inner = path, []
        while head and head not in by_module:
            head, _, last = head.rpartition(".")
            inner.insert(0, last)
        if not head:
            return []
        p = by_module[head]
        out = [it for it in by_file[p].get(name, []) if not inner or it.inner[-len(inner):] == inner]
        if not out and (p, name) not in seen:
            for path2, name2 in files[p][2].get(name, ()):
                out += found(path2, name2, (*seen, (p, name)))
        return out

    operators = {piece: name for name in named if "◌" in name for piece in pieces(name)}

    def meant(word, dotted, here, own):
        names = [word] + ([operators[word]] if word in operators else [])
        out = []
        for n in names:
            if own and n in by_file[own]:
                out += by_file[own][n]
            for path, there in here.get(n, ()):
                out += found(path, there)
        return out

    def qualified(text, here, own):
        """Module.name, where Module comes in by `use` or is of this file."""
        out = []
        for m in re.finditer(r"(?<![\w.])((?:[A-Za-z_][\w'-]*\.)+)([^\s(){}\[\],;:\"`|.]+)", text):
            path, name = m[1][:-1], m[2]
            first, _, rest = path.partition(".")
            tries = [path] + [(p + "." + n if p else n) + ("." + rest if rest else "") for p, n in here.get(first, ())]
            for t in tries:
                out += found(t, name)
            if own:
                out += [it for it in by_file[own].get(name, []) if it.inner and it.inner[-1] == path.split(".")[-1]]
        return out

    cites = collections.defaultdict(set)  # item -> items it cites
    for p, (items, here, _) in files.items():
        for it in items:
            text = "\n".join(it.text + it.heads)
            for word, dotted in words_of(text):
                for other in meant(word, dotted, here, p):
                    if other is not it:
                        cites[it].add(other)
            for other in qualified(text, here, p):
                if other is not it:
                    cites[it].add(other)

    roots = {}
    for p in sorted(glob.glob("crates/*/src/**/*.rt", recursive=True)):
        text = open(p, encoding="utf-8").read()
        here, _ = imports_of(text)
        body = re.sub(r"(?m)^\s*ghost +use [^;]*;", "", text)
        body = re.sub(r"//.*", "", body)
        for word, dotted in words_of(body):
            for it in meant(word, dotted, here, None):
                roots.setdefault(it, p)
        for m in re.finditer(r"((?:\w+::)+)(\w+)", body):  # using(..), unfolding(..)
            path = m[1][:-2].split("::")
            path = ["Rattle", p.split("/")[1] if path[0] == "crate" else path[0], *path[1:]]
            for it in found(".".join(path), m[2]):
                roots.setdefault(it, p)
        for it in qualified(body, here, None):
            roots.setdefault(it, p)
    edits = sorted(glob.glob("crates/*/must-fail/*.edit") + glob.glob("tests/**/*.edit", recursive=True))
    by_edit = collections.defaultdict(list)
    for p in edits:
        for word in {w for w, _ in words_of(open(p, encoding="utf-8").read())}:
            by_edit[word].append(p)
    documents, pages = collections.defaultdict(list), ["README.md"] + sorted(glob.glob("docs/**/*.md", recursive=True)) + sorted(glob.glob("rust/**/*.md", recursive=True))
    for p in pages:
        for m in re.finditer(r"`([^`\n ]+)`", open(p, encoding="utf-8").read()):
            documents[re.split(r"[./:]", m[1])[-1]].append(p)
    for p, (items, _, _) in files.items():
        for it in items:
            sign = " ".join(it.text[:2])
            if re.match(r"\s*(?:\{[^}]*\} *)*:\s*(?:\{[^}]*\} *→ *)?goal\.", sign) or os.path.basename(p) == "Proof.antt" and it.name.endswith("_spec"):
                roots.setdefault(it, "goal")
            elif "pub" in it.marks:
                holding = [d for d in documents.get(it.name, ()) if not d.startswith(LISTS_ONLY)]
                if holding:
                    roots.setdefault(it, holding[0])

    live, todo = set(roots), list(roots)
    while todo:
        for other in cites[todo.pop()]:
            if other not in live:
                live.add(other)
                todo.append(other)
    cited_by = collections.defaultdict(set)
    for it, others in cites.items():
        for other in others:
            cited_by[other].add(it)

    everything = subprocess.run(["git", "ls-files", "-co", "--exclude-standard", "crates"], capture_output=True, text=True, check=True).stdout.split()
    texts = {p: open(p, encoding="utf-8").read() for p in everything if p.endswith((".antt", ".rt", ".edit"))}

    def elsewhere(it):
        """Other files in which the word stands, though no `use` says that it is this one."""
        word = pieces(it.name)[0]
        pattern = re.compile(r"(?<![\w'-])" + re.escape(word) + r"(?![\w'-])")
        return [p for p in texts if p != it.file and pattern.search(texts[p])]

    total = 0
    for crate in sorted({p.split("/")[1] for p in antt}):
        if only and crate not in only:
            continue
        rows = []
        for p in antt:
            if p.split("/")[1] != crate:
                continue
            for it in files[p][0]:
                if it in live:
                    continue
                note = []
                if cited_by[it]:
                    note.append("only by " + ", ".join(sorted({o.name for o in cited_by[it]})))
                if it.name in documents:
                    note.append("named in " + ", ".join(sorted(set(documents[it.name]))))
                if by_edit.get(it.name):
                    note.append("MAYBE, in " + ", ".join(by_edit[it.name]))
                if not cited_by[it]:
                    other = elsewhere(it)
                    if other:
                        note.append("the word also in " + ", ".join(other[:3]) + (" .." if len(other) > 3 else ""))
                mark = "" if "pub" in it.marks else " (not pub)"
                rows.append("  " + it.place() + mark + (": " + "; ".join(note) if note else ""))
        if rows:
            total += len(rows)
            print(crate, len(rows))
            print("\n".join(rows))
    print(total, "that nothing cites")


if __name__ == "__main__":
    main()
