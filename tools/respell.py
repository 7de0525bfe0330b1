#!/usr/bin/env python3
"""Brings the project's own definitions and lemmas to today's spelling, once, after the kit's port.py: by the pairs of respell.tsv, in the sources of crates/.

Words are in snake case; a dash stays between the names of two functions; a lemma that would have its function's name ends in _lem. Functions of src/, exported
names, types and modules keep their names.
Use: tools/respell.py, at the top of the repository."""
import os
import re

HERE = os.path.dirname(os.path.abspath(__file__))
TOP = os.getcwd()

with open(os.path.join(HERE, "respell.tsv"), encoding="utf-8") as table:
    NAMES = dict(line.rstrip("\n").split("\t") for line in table if line.strip())

# A name ends where no letter, digit, underscore, dash or prime follows.
WORD = re.compile(r"[A-Za-z][\w'-]*")


def turned(word):
    return NAMES.get(word, word)


for folder, folders, files in os.walk(os.path.join(TOP, "crates")):
    folders[:] = [name for name in folders if name != "out"]
    for name in files:
        if not name.endswith((".rt", ".antt", ".edit")):
            continue
        path = os.path.join(folder, name)
        with open(path, encoding="utf-8") as source:
            text = source.read()
        new = WORD.sub(lambda found: turned(found.group()), text)
        if new != text:
            with open(path, "w", encoding="utf-8") as source:
                source.write(new)
