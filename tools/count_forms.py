#!/usr/bin/env python3
"""Counts the places that docs/DESIGN-PASS.md speaks of, in the src/ of each crate.

usage: tools/count_forms.py [FOLDER]     a folder that has crates/; --list names the places of each line
"""
import os
import re
import sys


def files(root, part, end):
    for folder, dirs, names in os.walk(os.path.join(root, "crates")):
        dirs[:] = sorted(d for d in dirs if d != "out")
        for name in sorted(names):
            path = os.path.join(folder, name)
            if name.endswith(end) and f"{os.sep}{part}{os.sep}" in path:
                with open(path, encoding="utf-8") as f:
                    yield os.path.relpath(path, os.path.join(root, "crates")), f.read()


def bodies(text):
    """Each function's name and its body, comments and clauses left out."""
    for m in re.finditer(r"(?m)^( *)(?:pub )?(?:extern \"C\" )?fn (\w+)[^;{]*?(?:\n *(?:requires|ensures)[^\n]*)*\s*\{\n((?:.*\n)*?)\1\}$", text):
        lines = [re.sub(r"//.*", "", l).strip() for l in m[3].split("\n")]
        yield m[2], [l for l in lines if l]


def shape(lines):
    """A body with its names and numbers taken out."""
    return tuple(re.sub(r"\b[a-z_]\w*\b", "v", re.sub(r"\b\d\w*\b", "0", l)) for l in lines)


def places(root):
    found = {}

    def add(key, where):
        found.setdefault(key, []).append(where)

    twins = {}
    for path, text in files(root, "src", ".rt"):
        code = re.sub(r"(?m)//.*$|^ghost use .*$", "", text)
        for m in re.finditer(r"enum (\w+) \{([^}]*)\}", code):
            variants = [v.strip() for v in re.findall(r"\w+(?:\([^)]*\))?", m[2])]
            add("1 own enums", f"{path} {m[1]}")
            bare = [v for v in variants if "(" not in v]
            if len(variants) == 2 and (len(bare) == 1 or any(v.startswith("Refused(") for v in variants)):
                add("1 own enums of the shape of Option or Result", f"{path} {m[1]}")
            elif any(v.startswith("Refused(") for v in variants):
                add("1 own enums with a refusal beside other answers", f"{path} {m[1]}")
        for m in re.finditer(r"(?m)^    (?:pub )?refusal: u8", code):
            add("1 a refusal's number beside a value", path)
        for m in re.finditer(r"(?m)fn (\w+)[^;{]*?-> Result<[^\n]*, u8>", code):
            add("1 functions whose error is a number", f"{path} {m[1]}")
        for m in re.finditer(r"(?m)^(?:pub )?const (\w+): u8 =", code):
            add("1 constants of one byte", f"{path} {m[1]}")
        for m in re.finditer(r"(?m)^\s*(while\b.*|(?:'\w+: )?loop) \{$", code):
            add("3 loops by while or loop", f"{path}:{code[: m.start(1)].count(chr(10)) + 1}")
        for m in re.finditer(r"(?m)^\s*for .* in .*\{$", code):
            add("3 loops by for", f"{path}:{code[: m.start()].count(chr(10)) + 2}")
        for m in re.finditer(r"if [^{}\n]* \{ [01] \} else \{ [01] \}", code):
            add("4 a number from a test by hand", path)
        for m in re.finditer(r"(?s)fn (\w+)\(([^{;]*?)\)", code):
            if re.search(r"\bfirst: &\[u8\]", m[2]) and re.search(r"\bsecond: &\[u8\]", m[2]):
                add("5 functions with both lent tables", f"{path} {m[1]}")
        for m in re.finditer(r"\bway: u8", code):
            add("7 a step chosen by a number", path)
        for name, lines in bodies(text):
            if len(lines) >= 4:
                twins.setdefault(shape(lines), []).append(f"{path} {name}")
    for group in twins.values():
        if len(group) > 1:
            for it in group:
                add("2 functions alike but for names and numbers, of four lines and more", it)
    for path, text in files(root, "proofs", "Answers.antt"):
        add("8 files of answers", path)
        found.setdefault("8 lines in them", []).extend([path] * text.count("\n"))
    return found


def main(args):
    lists = "--list" in args
    args = [a for a in args if a != "--list"]
    found = places(args[0] if args else ".")
    for key in sorted(found):
        print(f"{len(found[key]):6} {key}")
        if lists and not key.startswith("8"):
            for it in found[key]:
                print(f"       {it}")


if __name__ == "__main__":
    main(sys.argv[1:])
