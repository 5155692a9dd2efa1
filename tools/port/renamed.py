#!/usr/bin/env python3
"""Lists, crate by crate, the names of definitions and lemmas that the port respelled, and the proof files that it turned.

usage: python3 tools/port/renamed.py LANDED      LANDED: the commit before the port; prints Markdown
"""

import os
import re
import subprocess
import sys

W = r"[^\s(){}.;,@\"«»\[\]\\:]+"
HEAD = re.compile(r"(?m)^ *(?:pub |abbrev |unfoldable |opaque )*(?:(?:data|record) )?(" + W + r")(?: \([^\n]*)? :(?=\s|$)")


def git(*words):
    return subprocess.run(["git", *words], capture_output=True, text=True, check=True).stdout


def main(landed):
    root = git("rev-parse", "--show-toplevel").strip()
    os.chdir(root)
    old = [p for p in git("ls-tree", "-r", "--name-only", landed, "crates").split("\n") if p.endswith(".antt")]
    by_crate = {}
    for path in old:
        by_crate.setdefault(path.split("/")[1], []).append(path)
    for crate in sorted(by_crate):
        pairs, odd, turned, gone = {}, [], 0, 0
        for path in by_crate[crate]:
            if re.search(r"/proofs/.*(Proof\.antt|/Proof/)", path):
                folder = re.sub(r"/Proof(\.antt|/.*)$", "", path)
                if path.endswith("Proof.antt"):
                    if os.path.exists(os.path.join(folder, "Answers.antt")) or os.path.exists(os.path.join(folder, "Invariants.antt")):
                        turned += 1
                    elif not os.path.exists(path):
                        gone += 1
                continue
            if not os.path.exists(path):
                odd.append(path)
                continue
            before = HEAD.findall(git("show", f"{landed}:{path}"))
            with open(path, encoding="utf-8") as it:
                now = HEAD.findall(it.read())
            squeeze = lambda names: [re.sub("[-_']", "", n).lower() for n in names]
            if len(before) != len(now):
                before = [n for n in before if re.sub("[-_'′]", "", n).lower() not in squeeze(now)]
                now = [n for n in now if re.sub("[-_'′]", "", n).lower() not in squeeze(before)]
                if before:
                    odd.append(f"{path.split('/', 2)[2]}: {', '.join(before)}")
                continue
            pairs.update({b: n for b, n in zip(before, now) if b != n})
        said = [f"`{b}` → `{n}`" for b, n in sorted(pairs.items())]
        print(f"- **{crate}**: {turned} proofs of functions are answers or invariants now, {gone} need no file." + (f" Respelled: {', '.join(said)}." if said else ""))
        for it in odd:
            print(f"  - look: {it}")


main(sys.argv[1])
