#!/usr/bin/env python3
"""Brings the repository's own definitions and lemmas from camel case to snake case: maxDecided becomes max_decided.

usage: tools/snake_names.py [--check]    at the top of the repository; --check writes nothing

A name is turned where an .antt file of crates/ declares it, begins with a small letter and has a capital. It is turned wherever it stands as a whole word
in .antt and .rt files, in must-fail edits and their .txt, but not in Rust's strings. Functions of src/, fields, types, modules and dashes keep their names.
It lists names that fall together: two that become one, one that some file has already as a word, a parameter that would hide it.
"""
import os
import re
import sys

WORD = r"[A-Za-z_][A-Za-z0-9_'-]*"
DECLARED = re.compile(r"^\s*(?:(?:pub|abbrev|unfoldable|opaque|private|data|record)\s+)*(" + WORD + r")\s*:(?!:)")
CASE = re.compile(r"^\s+(?:pub\s+)?(" + WORD + r")\s*:(?!:)")


# Lemmas that would fall together with a definition of the same file: they take a dash, as they had before.
APART = {
    "crates/report/proofs/Lines.antt": "line_after",
    "crates/depot_link/proofs/Link.antt": "no_record",
    "crates/desk/proofs/Wrong.antt": "no_record",
    "crates/depot/proofs/Laws.antt": "written_back",
    "crates/lent_heads/proofs/Laws.antt": "written_back",
}


def files(endings):
    for folder, dirs, names in os.walk("crates"):
        dirs[:] = sorted(d for d in dirs if d not in ("out", "target"))
        for name in sorted(names):
            if name.endswith(endings):
                yield os.path.join(folder, name)


def text_of(path):
    with open(path, encoding="utf-8") as f:
        return f.read()


def is_camel(name):
    return re.match(r"[a-z][A-Za-z0-9_']*$", name) and re.search(r"[A-Z]", name)


def snake(name):
    # a lone capital at the end, as in `fromX`, stays one word
    return re.sub(r"([a-z0-9])([A-Z])", r"\1_\2", name).lower()


def declared():
    found = set()
    for path in files((".antt", ".antt.txt")):
        for line in text_of(path).split("\n"):
            m = DECLARED.match(line)
            if m and is_camel(m[1]):
                found.add(m[1])
    return found


def turn(text, names):
    return re.sub(r"(?<![A-Za-z0-9_'\u00ab])([a-z][A-Za-z0-9_]*[A-Z][A-Za-z0-9_]*)(?![A-Za-z0-9_'])", lambda m: names.get(m[1], m[1]), text)


def main():
    check = "--check" in sys.argv
    names = {n: snake(n) for n in declared()}
    if not names:
        print("no name is left to turn")
        return
    back = {}
    for n, s in sorted(names.items()):
        back.setdefault(s, []).append(n)
    for s, ns in back.items():
        if len(ns) > 1:
            print(f"together: {ns} become {s}")
    for path in files((".antt", ".rt", ".edit", ".txt")):
        old = text_of(path)
        apart = APART.get(path)
        first = re.sub(r"(?<![\w.'-])" + apart + r"(?![\w'-])", apart.replace("_", "-"), old) if apart else old
        words = set(re.findall(r"(?<![A-Za-z0-9_'.-])[a-z][a-z0-9_]*(?![A-Za-z0-9_'-])", old)) if path.endswith(".antt") and "/Proof.antt" not in path else set()
        used = {names[w] for w in re.findall(r"[a-z][A-Za-z0-9_]*", old) if w in names}
        for w in sorted(words & used):
            print(f"word: {path}: {w}")
        if path.endswith(".rt"):
            for sig in re.finditer(r"fn \w+(?:<[^>]*>)?\(([^)]*)\)([^;]*?)\n?\{\n", old):
                params = set(re.findall(r"(\w+):", sig[1]))
                cited = {names[w] for w in re.findall(r"[a-z][A-Za-z0-9_]*", sig[2]) if w in names}
                for w in sorted(params & cited):
                    print(f"hides: {path}: {w}: {sig[0][:60]!r}")
        new = turn(first, names)
        if new != old and not check:
            with open(path, "w", encoding="utf-8") as f:
                f.write(new)
    print(f"{len(names)} names")


main()
