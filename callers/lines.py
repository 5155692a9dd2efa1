#!/usr/bin/env python3
"""Cases of tools/rules through the Rust crate, each answer compared with the independent model's.

    callers/lines.py PROGRAM [EACH]     PROGRAM is the crate's example `lines`, built; each EACH-th case, 5 if left out

Values, errors and limits with their places and counts, refusals, bindings brought in and refused, damaged tables.
"""

from __future__ import annotations

import subprocess
import sys
from pathlib import Path
from typing import Iterator

sys.path.insert(0, str(Path(__file__).resolve().parent.parent / "tools" / "rules"))

from families import FAMILIES
from families.common import Case, Script
from model import CELLS_MAX, TEXT_MAX
from replay import LONGEST_VALUE, Replay, bind_line, eval_line

PATIENCE = 600  # seconds for all lines
KINDS = ("Value", "Error", "Exhausted", "Refused", "ok", "refused binding")


def groups(each: int) -> "Iterator[list[str]]":
    """The lines of a case; those on other binding rooms than an empty one of the largest size are left out."""
    for family in FAMILIES.values():
        for number, case in enumerate(family()):
            if number % each or case.room is not None:
                continue
            if isinstance(case, Case):
                limits = case.limits
                bound = [bind_line(*binding) for binding in case.bindings]
                yield ["empty", *bound, eval_line(case.table, case.text, (limits.steps, limits.cells, limits.text))]
            elif isinstance(case, Script) and case.lent == (CELLS_MAX, TEXT_MAX):
                yield ["empty", *("empty" if step is None else bind_line(*step) for step in case.steps)]


def kind_of(answer: str) -> str:
    first = answer.split(" ")[0]
    return "refused binding" if first.isdigit() else first if first in KINDS else "Value"


def main() -> None:
    model, lines, wanted = Replay(), [], []
    for group in groups(int(sys.argv[2]) if len(sys.argv) > 2 else 5):
        answers = [model.answer(line) for line in group]
        if all(answer is None or len(answer) < LONGEST_VALUE for answer in answers):
            lines += group
            wanted += [(line, answer) for line, answer in zip(group, answers) if answer is not None]
    try:
        run = subprocess.run([sys.argv[1]], input="\n".join(lines) + "\n", capture_output=True, text=True, timeout=PATIENCE)
    except subprocess.TimeoutExpired:
        sys.exit(f"no end within {PATIENCE} seconds: {sys.argv[1]}")
    got = run.stdout.splitlines()
    for (line, want), answer in zip(wanted, got):
        if want != answer:
            sys.exit(f"{line[:300]}\nis answered {answer[:300]}\nand by the model {want[:300]}")
    if run.returncode or len(got) != len(wanted):
        sys.exit(f"{len(got)} answers to {len(wanted)} lines; {run.stderr[-500:]}")
    seen = [sum(kind_of(answer) == kind for answer in got) for kind in KINDS]
    if not all(seen):
        sys.exit(f"a kind of answer did not occur: {dict(zip(KINDS, seen))}")
    print(f"lines: {len(got)} answers are the model's (" + ", ".join(f"{many} {kind}" for kind, many in zip(KINDS, seen)) + ")")


if __name__ == "__main__":
    main()
