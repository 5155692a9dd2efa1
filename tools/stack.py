#!/usr/bin/env python3
"""How much stack an evaluation takes: the least on which the program `replay` answers rules that nest as deep as rules can.

    tools/stack.py crates/replay/out/replay

Each shape is tried at the deepest nesting that it can have; a flat rule's need, which is the program's own, is taken off.
"""

from __future__ import annotations

import resource
import subprocess
import sys
from pathlib import Path

sys.path.insert(0, str(Path(__file__).resolve().parent / "rules"))

from assemble import Node, assemble, binary, comprehension, integer, listing, mapping, name, negation, null, true

RECORDS, VALUES = 64, 32  # how deep records and values nest
MOST = 16_384  # KiB that are tried
PATIENCE = 60  # seconds for one answer
SHAPES = {
    "unary": (RECORDS, lambda inner: negation(inner)),
    "binary": (RECORDS, lambda inner: binary("==", integer(1), inner)),
    "list": (VALUES, lambda inner: listing(inner)),
    "map": (VALUES, lambda inner: mapping((integer(1), inner))),
    "range of a comprehension": (RECORDS, lambda inner: comprehension(1, 2, inner, true, true, true, name(1))),
    "result of a comprehension": (RECORDS, lambda inner: comprehension(1, 2, listing(), true, true, true, inner)),
}


def nested(shape, levels: int) -> Node:
    rule = null
    for _ in range(levels - 1):
        rule = shape(rule)
    return rule


def answers(program: str, table: bytes, kib: int) -> bool:
    """Whether the program answers on a stack of `kib` KiB."""
    lend = lambda: resource.setrlimit(resource.RLIMIT_STACK, (kib * 1024, kib * 1024))
    line = f"eval 1000000 4096 16384 - {table.hex()}\n"
    try:
        return subprocess.run([program], input=line.encode(), capture_output=True, preexec_fn=lend, timeout=PATIENCE).returncode == 0
    except subprocess.TimeoutExpired:
        sys.exit(f"no end within {PATIENCE} seconds on a stack of {kib} KiB: {line[:300]}")


def least(program: str, table: bytes) -> int:
    short, enough = 64, MOST
    while short + 4 < enough:
        middle = (short + enough) // 2
        short, enough = (short, middle) if answers(program, table, middle) else (middle, enough)
    return enough


def main() -> None:
    program = sys.argv[1]
    flat = least(program, assemble(negation(true)).table)
    for words, (levels, shape) in SHAPES.items():
        kib = least(program, assemble(nested(shape, levels)).table) - flat
        print(f"{words}, {levels} deep: {kib} KiB more than a flat rule, {kib * 1024 // (levels - 2)} bytes a level")


if __name__ == "__main__":
    main()
