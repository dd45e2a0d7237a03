#!/usr/bin/env python3
"""Respells the repository's own names: words in snake case, types and facts in camel case.

usage: python3 tools/respell.py [ROOT]

The table respell.tsv has a line for each name of specs/ and proofs/: the old name, the new one, and 'field' where it is a
field of a record. Names of functions of src/, of what is exported to C and of files stay. It rewrites every .antt and .rt
file below ROOT/crates, what stands between backticks on the pages, and then lays the files out by `rt fmt`.
A name stands as a whole word; behind a dot only a field or a name in camel case is meant. In a comment a name with a dash is
English unless it stands between backticks.
"""
import os
import re
import subprocess
import sys

HERE = os.path.dirname(os.path.realpath(__file__))
WORD = re.compile(r"[^\s(){}\[\],;.«»⌜⌝`\"&*!:|]+")


def table():
    names, fields = {}, set()
    with open(os.path.join(HERE, "respell.tsv"), encoding="utf-8") as f:
        for line in f:
            old, new, *field = line.rstrip("\n").split("\t")
            names[old] = new
            if field:
                fields.add(old)
    return names, fields


NAMES, FIELDS = table()


def one(text, m):
    """The new spelling of a word that stands in the text, or the word itself."""
    word = m.group(0)
    if word not in NAMES:
        return word
    behind_dot = m.start() > 0 and text[m.start() - 1] == "."
    if behind_dot and "-" in word and word not in FIELDS:
        return word
    return NAMES[word]


def code(text):
    return WORD.sub(lambda m: one(text, m), text)


def comment(text):
    """Between backticks as code; elsewhere names in camel case alone."""
    parts = text.split("`")
    for k, part in enumerate(parts):
        parts[k] = code(part) if k % 2 else WORD.sub(lambda m: m.group(0) if "-" in m.group(0) or "_" in m.group(0) else one(part, m), part)
    return "`".join(parts)


def respelled(text, marks):
    """The lines of a file; marks begins a comment."""
    lines = []
    for line in text.split("\n"):
        at = re.search(r"(^|\s)" + re.escape(marks) + r"(\s|$)", line)
        k = at.start() if at else len(line)
        lines.append(code(line[:k]) + comment(line[k:]))
    return "\n".join(lines)


def page(text):
    """Between backticks: the names of the table, and every other name in camel case, which an earlier script turned."""

    def turned(m):
        word = one(m.string, m)
        if re.fullmatch(r"[a-z][a-z0-9]*([A-Z][a-z0-9]*)+", word):
            word = re.sub(r"[A-Z]", lambda k: "_" + k.group(0).lower(), word)
        return word

    return "`".join(WORD.sub(turned, p) if k % 2 else p for k, p in enumerate(text.split("`")))


def rewrite(path, turn):
    with open(path, encoding="utf-8") as f:
        old = f.read()
    new = turn(old)
    if new != old:
        with open(path, "w", encoding="utf-8") as f:
            f.write(new)


def main(root):
    crates = os.path.join(root, "crates")
    for folder, dirs, files in os.walk(crates):
        dirs[:] = sorted(d for d in dirs if d != "out")
        for name in sorted(files):
            if name.endswith(".antt"):
                rewrite(os.path.join(folder, name), lambda t: respelled(t, "--"))
            elif name.endswith(".rt"):
                rewrite(os.path.join(folder, name), lambda t: respelled(t, "//"))
    pages = [os.path.join(root, "README.md")] + [os.path.join(root, "docs", f) for f in sorted(os.listdir(os.path.join(root, "docs"))) if f.endswith(".md") and not f.startswith("PORT")]
    for path in pages:
        rewrite(path, page)
    for name in sorted(os.listdir(crates)):
        if os.path.isdir(os.path.join(crates, name, "src")):
            subprocess.run(["rt", "fmt"], cwd=os.path.join(crates, name), stdout=subprocess.DEVNULL)


if __name__ == "__main__":
    main(sys.argv[1] if len(sys.argv) > 1 else ".")
