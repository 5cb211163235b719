#!/usr/bin/env python3
"""Brings this repository's own names to the spelling of today's Rattle: definitions, lemmas, fields and constructors in snake case.

usage: python3 tools/respell.py [FOLDER]      the top of a checkout, with nothing uncommitted; the default is this folder

A name is the repository's own if a file of specs/ or proofs/ has it, outside the folders of single functions: what stands there
are goals, whose names Rattle makes. `addedCost` becomes `added_cost`, `told-reply` becomes `told_reply`; types, modules and the
functions of src/ keep their names, and so does a name in a file that imports it from a library of the kit. Two names that would
fall together are told apart: the lemma beside a function gets `_lem`, a field the word that APART has for it. In prose only what
stands between backquotes, in a block of code, or cannot be an English word is turned. Running it again changes nothing.
"""
import collections
import os
import re
import sys

# Fields and locals that would fall together with a function. A lemma that would gets `_lem`.
APART = {
    "alone-row": "alone_row_is",
    "cost-shown": "cost_is_shown",
    "diversity-shown": "diversity_is_shown",
    "is-taxon": "taxon_here",
    "locked-set": "locked_is_set",
    "marked-set": "marked_is_set",
    "up-to": "up_to_cases",
}

PLAIN = re.compile(r"[a-z][A-Za-z0-9_'\-]*")
TOKEN = re.compile(r"[^\s(){}\[\],;:.=|\"`→λ⟨⟩]+")
USE = re.compile(r"(?m)^\s*(?:ghost |pub )*use ([^;{]*)\{([^}]*)\}")
COMMENT = re.compile(r"(?:(?<=\s)|^)--(?=\s|$).*", re.M)


def snake(name):
    return re.sub(r"(?<=[a-z0-9])(?=[A-Z])", "_", name).lower().replace("-", "_")


def walk(top, ends):
    for folder, dirs, files in os.walk(top):
        dirs[:] = sorted(d for d in dirs if d not in ("out", "target", ".git"))
        yield from (os.path.join(folder, f) for f in sorted(files) if f.endswith(ends))


def read(path):
    with open(path, encoding="utf-8") as f:
        return f.read()


def of_a_function(path, crates):
    parts = os.path.relpath(path, crates).split(os.sep)
    return parts[1] == "proofs" and len(parts) > 3


def foreign(text, own_crates):
    """The names that a file brings in from the kit's libraries."""
    names = set()
    for path, items in USE.findall(text):
        crate = re.match(r"Rattle\.(\w+)", path.strip())
        if not (crate and crate[1] in own_crates):
            names.update(i.split(" as ")[0].strip() for i in items.split(","))
    return names


def own_names(crates, own_crates):
    names = set()
    for path in walk(crates, ".antt"):
        if not of_a_function(path, crates):
            text = COMMENT.sub("", read(path))
            skip = foreign(text, own_crates)
            names.update(m[0] for m in TOKEN.finditer(text) if PLAIN.fullmatch(m[0]) and not is_foreign(text, m, skip))
    return names


def is_foreign(text, m, skip):
    """Brought in from the kit, or named in a module that is."""
    module = re.search(r"([^\s(){}.]+)\.$", text[: m.start()][-80:])
    return m[0] in skip or bool(module and module[1] in skip)


def turned(text, names, skip):
    return TOKEN.sub(lambda m: names[m[0]] if m[0] in names and not is_foreign(text, m, skip) else m[0], text)


def prose(text, names):
    """Names between backquotes; elsewhere those with a capital inside, which are no English words."""
    camel = {n: s for n, s in names.items() if "-" not in n and n.lower() != n}
    out = []
    for i, part in enumerate(re.split(r"(```.*?```|`[^`\n]*`)", text, flags=re.S)):
        out.append(turned(part, names if i % 2 else camel, ()))
    return "".join(out)


def split_comments(text, mark):
    return re.split(r"((?:(?<=\s)|^)" + mark + r"(?=\s|$|/|!).*)", text, flags=re.M)


def respelled(path, text, names, own_crates):
    if path.endswith(".md"):
        return prose(text, names)
    skip = foreign(text, own_crates) if path.endswith(".antt") else set()
    mark = "--" if path.endswith(".antt") else "//" if path.endswith(".rt") else "#"
    out = []
    for i, part in enumerate(split_comments(text, mark)):
        if i % 2:
            out.append(prose(part, names))
        elif path.endswith(".rt"):
            out.append("".join(p if j % 2 else turned(p, names, ()) for j, p in enumerate(re.split(r'("(?:\\.|[^"\\])*")', part))))
        else:
            out.append(turned(part, names, skip))
    return "".join(out)


def main(argv):
    top = os.path.abspath(argv[0] if argv else ".")
    crates = os.path.join(top, "crates")
    own_crates = set(os.listdir(crates))
    own = own_names(crates, own_crates)
    names = {n: snake(n) for n in own if snake(n) != n}
    together = collections.Counter(snake(n) for n in own)
    for name in sorted(names):
        if together[snake(name)] > 1 and "-" in name:
            names[name] = APART.get(name, snake(name) + "_lem")
            print(f"{name} is {names[name]}, apart from {snake(name)}")
    turned_to = collections.Counter(names.values())
    for name, new in sorted(names.items()):
        if turned_to[new] > 1 or new in own:
            print(f"{name} falls together with another name as {new}")
    paths = [*walk(crates, (".antt", ".rt", ".edit")), os.path.join(top, "README.md"), *walk(os.path.join(top, "docs"), ".md")]
    changed = 0
    for path in paths:
        if os.path.basename(path) == "PORT.md":
            continue
        text = read(path)
        new = respelled(path, text, names, own_crates)
        if new != text:
            changed += 1
            with open(path, "w", encoding="utf-8") as f:
                f.write(new)
    print(f"{len(names)} names, {changed} files changed")
    return 0


if __name__ == "__main__":
    raise SystemExit(main(sys.argv[1:]))
