#!/usr/bin/env python3
"""Gives the repository's own definitions and lemmas the spelling of today's Rattle: snake case for all but types and modules.

usage: tools/respell.py          at the top of the repository, right after port.py, once

`canMove` becomes `can_move` in specs/, proofs/, and the clauses and ghost items of src/. A dash goes on joining the parts of a
lemma's name. Functions of src/, exported names, strings, inputs and outputs keep their names: a token after a dot is a path
or a field and stays. port.py gave some lemmas an underscore for a dash since the library has a word of that name; where such
a name is now a definition's, the lemma gets its dash back (DASHED).
"""
import os
import re

# Lemmas whose name, with an underscore, falls together with a definition's.
DASHED = """chosen_by first_above flip_bits flip_of goes_over in_order least_at map_of near_load number_by number_read
value_read written_read""".split()

SEGMENT = re.compile(r"[a-z][a-z0-9]*(?:[A-Z][a-z0-9]*)+[0-9'₀-₉]*")
TOKEN = re.compile(r"(?<![\w.'-])" + SEGMENT.pattern + r"(?![\w'])|(?<=[\w']-)" + SEGMENT.pattern + r"(?![\w'])")
BACK = re.compile(r"(?<![\w.'-])(" + "|".join(DASHED) + r")(?![\w'.-])")


def snake(word):
    return re.sub(r"([a-z0-9])([A-Z])", lambda m: m[1] + "_" + m[2].lower(), word)


def files():
    for folder, dirs, names in os.walk("crates"):
        dirs[:] = sorted(d for d in dirs if d != "out")
        for name in sorted(names):
            if name.endswith((".antt", ".rt")):
                yield os.path.join(folder, name)


def main():
    for path in files():
        with open(path, encoding="utf-8") as f:
            text = f.read()
        new = text
        if path.endswith(".antt"):
            new = "".join(
                line if line.lstrip().startswith("--") else BACK.sub(lambda m: m[1].replace("_", "-"), line)
                for line in text.splitlines(keepends=True)
            )
        new = TOKEN.sub(lambda m: snake(m[0]), new)
        if new != text:
            with open(path, "w", encoding="utf-8") as f:
                f.write(new)


if __name__ == "__main__":
    main()
