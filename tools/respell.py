#!/usr/bin/env python3
"""Brings the names of the crates' own definitions, lemmas and labels to snake case; run once at the top, after the toolchain's port.py.

A word that begins with a small letter and has a capital inside (`recordSize`, `openCount-got`) gets its words joined by `_` (`record_size`,
`open_count-got`), in specs/, proofs/, the clauses of src/ and the must-fail edits; a projection in an edit is written tight, as in the files. Strings
keep their text, and so do comments but for the names in them. The names of functions, types, modules and exported symbols stay: they have no such capital.
"""
import glob
import re
import sys

WORD = re.compile(r"(?<![\w'-])[a-z][\w'-]*[A-Z][\w'-]*")
# what the toolchain's own respelling calls a word of the library, or of ours, that the edits still have in the older form
LIBRARY = {"getD": "get_or", "getD-padded": "get_or-padded", "getD-grid": "get_or-grid", "getD-tab": "get_or-tab"}
STRING = re.compile(r'b?"(?:[^"\\]|\\.)*"')


def snake(word):
    if word in LIBRARY:
        return LIBRARY[word]
    parts = word.split("-")
    parts = [part if part[:1].isupper() else re.sub(r"(?<=[a-z0-9])([A-Z]+)", lambda m: "_" + m.group(1).lower(), part) for part in parts]
    return "-".join(parts)


def respelled(text, keeps_strings):
    if not keeps_strings:
        return WORD.sub(lambda m: snake(m.group(0)), text)
    out, at = [], 0
    for string in STRING.finditer(text):
        out += [WORD.sub(lambda m: snake(m.group(0)), text[at : string.start()]), string.group(0)]
        at = string.end()
    return "".join(out) + WORD.sub(lambda m: snake(m.group(0)), text[at:])


def edit(text):
    """An edit's lines, with projections tight and the two signs that changed."""
    lines = []
    for line in text.split("\n"):
        key, colon, rest = line.partition(":")
        if key in ("old", "new") and colon:
            rest = re.sub(r"(?<=[\w)]) \.(?=[a-z])", ".", respelled(rest, False)).replace("′", "'")
        lines.append(key + colon + rest)
    return "\n".join(lines)


def main():
    changed = 0
    for path in sorted(glob.glob("crates/*/src/**/*.rt", recursive=True) + glob.glob("crates/*/specs/**/*.antt", recursive=True) + glob.glob("crates/*/proofs/**/*.antt", recursive=True) + glob.glob("crates/*/must-fail/*.edit")):
        with open(path, encoding="utf8") as f:
            text = f.read()
        new = edit(text) if path.endswith(".edit") else respelled(text, path.endswith(".rt"))
        if new != text:
            changed += 1
            with open(path, "w", encoding="utf8") as f:
                f.write(new)
    print(f"respell: {changed} files")
    return 0


sys.exit(main())
