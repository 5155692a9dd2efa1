#!/usr/bin/env python3
"""Compares the statements of lemmas in proofs/ with those of another checkout, word by word.

usage: python3 tools/port/statements.py OTHER      OTHER: LANDED after the kit's port.py and respell.py, in a folder of its own

Files in the folders of functions are left out: invariants and answers take the place of walks there. It prints each lemma whose statement differs, and
each that is gone or new.
"""

import os
import re
import sys

W = r"[^\s(){}.;,@\"«»\[\]\\:]+"
HEAD = re.compile(r"^ *(?:pub |abbrev |unfoldable |opaque )*(" + W + r") :(?=\s|$)")


def statements(path):
    """Each name that a file declares, with its statement."""
    out, lines = {}, open(path, encoding="utf-8").read().split("\n")
    at = 0
    while at < len(lines):
        found = HEAD.match(lines[at])
        if found:
            indent = len(lines[at]) - len(lines[at].lstrip())
            text = [lines[at]]
            at += 1
            while at < len(lines) and lines[at].strip() and not re.match(r" *unfolding ", lines[at]):
                deep = len(lines[at]) - len(lines[at].lstrip())
                if deep <= indent and not lines[at].lstrip().startswith(("→", ")", "}")):
                    break
                text.append(lines[at])
                at += 1
            said = re.sub(r"--.*", "", "\n".join(text))
            out.setdefault(found[1], re.sub(r"\s+", " ", said.replace("(", " ( ").replace(")", " ) ")).strip())
        else:
            at += 1
    return out


def files(root):
    for crate in sorted(os.listdir(os.path.join(root, "crates"))):
        top = os.path.join(root, "crates", crate, "proofs")
        for folder, dirs, names in os.walk(top):
            dirs[:] = sorted(d for d in dirs if d != "out")
            if {"Proof.antt", "Answers.antt", "Invariants.antt"} & set(names) or "/Proof" in folder or "+" in folder:
                continue
            for name in sorted(names):
                if name.endswith(".antt"):
                    yield os.path.relpath(os.path.join(folder, name), root)


def main(other):
    here = os.path.dirname(os.path.dirname(os.path.dirname(os.path.abspath(__file__))))
    mine, theirs = set(files(here)), set(files(other))
    same = 0
    for path in sorted(mine | theirs):
        a = statements(os.path.join(other, path)) if path in theirs else {}
        b = statements(os.path.join(here, path)) if path in mine else {}
        for name in [*a, *(n for n in b if n not in a)]:
            if a.get(name) == b.get(name):
                same += 1
            else:
                print(f"{path}: {name}\n    - {a.get(name, 'not there')}\n    + {b.get(name, 'gone')}")
    print(f"{same} statements the same")


main(sys.argv[1])
