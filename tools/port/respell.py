#!/usr/bin/env python3
"""Respells the project's own names in snake case: definitions, lemmas, fields, constructors and variables of the language of contracts.

usage: python3 tools/port/respell.py [FOLDER]      in place, in FOLDER or the checkout

It runs once, after the kit's port.py, which respells only the names that the kit's library has too. A name's parts, which dashes join, are turned
one by one: `orFail-silent` becomes `or_fail-silent`. Types and modules begin with a capital letter and stay. Functions and fields of the code are in
snake case already, so the code between contracts has no such name; strings stay as they are. `hasValue` and `orValue` in comments are functions of CEL.
A lemma that has the new spelling of a definition in its file already gets `_lem`, there and where it is imported. It stops, and writes nothing, where two
names of one file would still fall together, and says which names of the library it leaves alone.
"""

import os
import re
import sys

# a part of a name: a small letter first, a capital later
PART = re.compile(r"(?<![A-Za-z0-9_'′₀-₉])[a-z][a-z0-9_]*[A-Z][A-Za-z0-9_]*")
CEL = {"hasValue", "orValue"}
IMPORT = re.compile(r"use\s+((?:mathlib|lib|mir|borrow|native|Prim|base|denote|types|contract|prog|Rattle\.std|Rattle\.core)[\w.]*)\.\{([^}]*)\}")


def snake(word):
    word = re.sub(r"([A-Z]+)([A-Z][a-z])", r"\1_\2", word)
    return re.sub(r"([a-z0-9])([A-Z])", r"\1_\2", word).lower()


def files(root):
    for folder, dirs, names in os.walk(os.path.join(root, "crates")):
        dirs[:] = sorted(d for d in dirs if d != "out")
        for name in sorted(names):
            if name.endswith((".antt", ".rt", ".edit")):
                yield os.path.join(folder, name)


def comment_at(line, mark):
    """Where a line's comment begins, past strings."""
    inside = False
    for i, letter in enumerate(line):
        if letter == '"' and (i == 0 or line[i - 1] != "\\"):
            inside = not inside
        if not inside and line.startswith(mark, i) and (i == 0 or line[i - 1] in " \t"):
            return i
    return len(line)


def turned(text, mark, kept):
    def word(m):
        return m.group(0) if m.group(0) in kept else snake(m.group(0))

    out = []
    for line in text.split("\n"):
        at = len(line) if mark is None else comment_at(line, mark)
        pieces = re.split(r'("(?:[^"\\]|\\.)*")', line[:at])
        code = "".join(p if i % 2 else PART.sub(word, p) for i, p in enumerate(pieces))
        said = PART.sub(lambda m: m.group(0) if m.group(0) in CEL else word(m), line[at:])
        out.append(code + said)
    return "\n".join(out)


def said_by(path, root):
    """The module of a file of specs/ or proofs/."""
    parts = os.path.relpath(path, os.path.join(root, "crates"))[: -len(".antt")].split(os.sep)
    return ".".join(["Rattle", *parts])


def bare(name):
    return re.compile(r"(?<![.\w'-])" + re.escape(name) + r"(?![\w'-])")


def uses(text):
    for m in re.finditer(r"use\s+([\w.+]+)\.\{([^}]*)\}", text):
        for name in m.group(2).split(","):
            yield m.group(1), name.strip().split(" as ")[0].strip()


def fallen(text):
    """Names with no dash that a file of definitions or lemmas has in both spellings."""
    code = re.sub(r"--.*", "", text)
    words = set(re.findall(r"(?<![.\w'-])[A-Za-z][A-Za-z0-9_]*(?![\w'-])", code))
    return sorted(w for w in words if PART.fullmatch(w) and snake(w) in words)


def main(root):
    texts = {p: open(p, encoding="utf-8").read() for p in files(root)}
    kept = set()
    for p, text in texts.items():
        for m in IMPORT.finditer(text):
            for name in m.group(2).split(","):
                name = name.strip().split(" as ")[0].strip()
                kept.update(PART.findall(name))
    if kept:
        print("names of the library that stay:", ", ".join(sorted(kept)))
    lemmas = set()
    for p, text in texts.items():
        if not p.endswith(".antt"):
            continue
        for w in fallen(text):
            new = snake(w)
            if re.search(r"(?m)^ *(?:abbrev |unfoldable |pub )*" + new + r" :", text):
                lemmas.add((said_by(p, root), new))
            for module, name in uses(text):
                if name == new:
                    lemmas.add((module, new))
    for module, new in sorted(lemmas):
        print(f"{module}.{new} becomes {new}_lem")
        for p, text in texts.items():
            if p.endswith(".antt") and (said_by(p, root) == module or (module, new) in set(uses(text))):
                texts[p] = bare(new).sub(new + "_lem", text)
    bad = 0
    for p, text in texts.items():
        if not p.endswith(".antt"):
            continue
        for w in fallen(text):
            print(f"falls together in {os.path.relpath(p, root)}: {w}")
            bad += 1
    if bad:
        print(f"{bad} places, nothing written")
        return 1
    changed = 0
    for p, text in texts.items():
        mark = "--" if p.endswith(".antt") else "//" if p.endswith(".rt") else None
        new = turned(text, mark, kept)
        with open(p, encoding="utf-8") as f:
            old = f.read()
        if new != old:
            with open(p, "w", encoding="utf-8") as f:
                f.write(new)
            changed += 1
    print(f"{changed} files")
    return 0


if __name__ == "__main__":
    given = [a for a in sys.argv[1:] if not a.startswith("--")]
    raise SystemExit(main(os.path.abspath(given[0] if given else os.path.join(os.path.dirname(__file__), "..", ".."))))
