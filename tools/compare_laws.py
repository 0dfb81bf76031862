#!/usr/bin/env python3
"""Lays the statements of two checkouts beside each other, wherever they stand in specs/ or proofs/.

usage: tools/compare_laws.py [--proofs] OLD NEW       each a folder that has crates/

Prints each statement or definition head of OLD's specs/ (with --proofs, of its proofs/ too) that NEW has nowhere in the same crate, word for word but for white
space, and then how many there are. Answers and invariants of functions are left out.
"""
import os
import re
import sys

HEAD = re.compile(
    r"(?m)^( *)((?:(?:pub|abbrev|unfoldable|record|data) )*)([^\s:(){}=]+)((?: \([^)]*\)| \{[^}]*\})* :(?= |$).*(?:\n\1 {2,}(?! *(?:pub |[^\s]+ :)).*)*)"
)


def heads(root, crate, parts):
    found = set()
    for part in parts:
        for folder, dirs, names in os.walk(os.path.join(root, "crates", crate, part)):
            dirs[:] = [d for d in dirs if d != "out"]
            for name in names:
                if name.endswith(".antt") and name not in ("Answers.antt", "Invariants.antt", "Proof.antt"):
                    with open(os.path.join(folder, name), encoding="utf-8") as f:
                        text = re.sub(r"(?m)^\s*--.*\n", "", f.read())
                    for m in HEAD.finditer(text):
                        end = m[4].split(" where\n")[0]
                        found.add(m[3] + " " + " ".join(re.sub(r"\n.*= .*(?:\n.*)*", "", end).split()))
    return found


def main(old, new, parts=("specs",)):
    count = lost = 0
    for crate in sorted(os.listdir(os.path.join(old, "crates"))):
        there = heads(new, crate, ("specs", "proofs"))
        for it in sorted(heads(old, crate, parts)):
            count += 1
            if it not in there:
                lost += 1
                print(f"{crate}: {it}")
    print(f"{count} statements, {lost} not found again")


if __name__ == "__main__":
    args = [a for a in sys.argv[1:] if a != "--proofs"]
    main(*args[:2], parts=("specs", "proofs") if "--proofs" in sys.argv else ("specs",))
