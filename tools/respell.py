#!/usr/bin/env python3
"""Brings the repository's own definitions, lemmas and fields to the spelling of today's Rattle: words in snake case, types and modules in upper camel case.

usage: python3 tools/respell.py        at the top of the repository, once, right after the kit's port.py

A word in mixed case, such as blockSize, becomes block_size, also as a part of a longer name, such as length-xorEach. A field or definition of specs/ that
was written with dashes gets underscores. Rust code, texts in quotes, and names that the library or the check makes stay as they are, and so does
docs/LANDINGS.md, which has the names of its days.
"""

import os
import re

WORD = re.compile(r"[A-Za-z_0-9'₀-₉◌\u0370-\u03ff-]+")
MIXED = re.compile(r"[a-z][a-z0-9']*(?:[A-Z][A-Za-z0-9']*)+")
# What the rule for mixed case would spell badly, and library words in the older spelling that scripts leave inside a longer name.
BY_HAND = {"by7E": "by_7e", "p7E": "p_7e", "upto7E": "upto_7e", "getD": "get_or", "mu4Rows": "mu4_rows", "mu8Rows": "mu8_rows"}
DASHED = {
    "key-len", "served-back", "sealed-taken", "same-before", "plain-values", "plain-text", "plain-taken", "key-bytes", "is-written", "count-back",
    "block-bytes", "before-close",
}


def snake(part):
    if part in BY_HAND:
        return BY_HAND[part]
    if not MIXED.fullmatch(part):
        return part
    return re.sub(r"(?<=[a-z0-9'])[A-Z]+", lambda m: "_" + m.group().lower(), part)


def word(name):
    if name in DASHED:
        return name.replace("-", "_")
    return "-".join(snake(part) for part in name.split("-"))


def ghost(text):
    return WORD.sub(lambda m: word(m.group()), text)


def outside_quotes(text):
    # a text stays as it is
    pieces = re.split(r'("(?:[^"\\]|\\.)*")', text)
    return "".join(piece if i % 2 else ghost(piece) for i, piece in enumerate(pieces))


def turned(path, text):
    if path.endswith((".antt", ".rt")):
        return "".join(outside_quotes(line) for line in text.splitlines(keepends=True))
    if path.endswith(".edit"):
        return "".join(
            line if line.startswith("file:") else outside_quotes(line) for line in text.splitlines(keepends=True))
    # in a page, what stands between backticks
    return re.sub(r"`[^`\n]+`", lambda m: ghost(m.group()), text)


def paths():
    for folder, inner, files in os.walk("crates"):
        inner[:] = sorted(d for d in inner if d != "out")
        for name in sorted(files):
            if name.endswith((".antt", ".rt", ".edit")):
                yield os.path.join(folder, name)
    for folder, names in ((".", ["README.md"]), ("docs", sorted(os.listdir("docs")))):
        for name in names:
            if name.endswith(".md") and not name.startswith(("PORT", "LANDINGS")):
                yield os.path.join(folder, name)


def main():
    changed = 0
    for path in paths():
        with open(path, encoding="utf-8") as file:
            text = file.read()
        new = turned(path, text)
        if new != text:
            changed += 1
            with open(path, "w", encoding="utf-8") as file:
                file.write(new)
    print(f"{changed} files respelled")


if __name__ == "__main__":
    main()
