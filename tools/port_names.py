#!/usr/bin/env python3
"""Spells this repository's own definitions and lemmas in snake case, after the toolchain's port.py.

usage: python3 tools/port_names.py     at the top of the repository, once, with port.py's result in the tree

A word in lower camel case becomes a word in snake case ('halfCarries': 'half_carries'), in specs/, proofs/, the contracts
of src/ and must-fail/. Strings, comments that quote no code, inputs and outputs keep their text. No Rust name of src/ is
in lower camel case, so none is touched. Words of the standard library that hold a capital keep it.
"""

import os
import re

# Names of the library, and a type within a name, which keeps its capital.
KEPT = {"IsStore-byte", "WpFn-mono", "mut_Tells", "mut_slice_Tells", "shr_slice_Tells", "walk_Meets", "both-T"}
# Where a digit and a letter are one number.
SPELLED = {"inc-7F": "inc-7f", "inc-FF": "inc-ff", "onlyAs9F": "only_as_9f"}
# A lemma or a variable that would fall together with a word of its file.
APART = {("crates/history/proofs/Rows.antt", "count_at"): "count_read"}
WORD = re.compile(r"(?<![\w'$-])[A-Za-z_][\w'-]*(?![\w'])")
STRING = re.compile(r'"(?:[^"\\\n]|\\.)*"')
CAMEL = re.compile(r"[a-z][a-z0-9]*[A-Z]|-[a-z]+[A-Z]|_[A-Z]")


def snake(word):
    word = re.sub(r"(?<=[a-z0-9])(?=[A-Z])", "_", word)
    return re.sub(r"(?<=[A-Z])(?=[A-Z][a-z])", "_", word).lower()


def spelled(path, word):
    if (path, word) in APART:
        return APART[(path, word)]
    if word in SPELLED:
        return SPELLED[word]
    if word in KEPT or not word[0].islower() or not CAMEL.search(word):
        return word
    return snake(word)


def turned(path, text):
    """The text with its words spelled anew, strings left alone."""
    out, at = [], 0
    for string in STRING.finditer(text):
        out.append(WORD.sub(lambda m: spelled(path, m.group(0)), text[at : string.start()]))
        out.append(string.group(0))
        at = string.end()
    out.append(WORD.sub(lambda m: spelled(path, m.group(0)), text[at:]))
    return "".join(out)


def main():
    for folder, dirs, files in os.walk("crates"):
        dirs[:] = sorted(d for d in dirs if d != "out")
        for name in sorted(files):
            if name.endswith((".antt", ".rt", ".edit")):
                path = os.path.join(folder, name)
                with open(path, encoding="utf-8") as f:
                    old = f.read()
                new = turned(path, old)
                if new != old:
                    with open(path, "w", encoding="utf-8") as f:
                        f.write(new)


main()
