#!/usr/bin/env python3
"""How much stack the calls take on the deepest tables, compared with what the header promises and with what the Rust crate touches before a call.

    callers/stack.py PROGRAM        PROGRAM is callers/c/stack.c, built
"""

from __future__ import annotations

import re
import subprocess
import sys
from pathlib import Path
from typing import Iterator, NamedTuple

HERE = Path(__file__).resolve().parent
sys.path[:0] = [str(HERE.parent / "tools"), str(HERE.parent / "tools" / "rules")]

from assemble import Node, assemble, comprehension, conditional, equals, listing, mapping, name, null, plus, true
from constants import header_numbers, source
from stack import RECORDS, SHAPES, VALUES, nested

# more than any call takes
AMPLE = 8 << 20
# seconds that a call may take
PATIENCE = 60
# an element of the list that the append path adds, three records a level; and its guard, two
APPENDED = lambda inner: comprehension(1, 2, listing(true), listing(), true, plus(name(1), listing(inner)), name(1))
GUARDED = lambda inner: comprehension(1, 2, listing(true), listing(), true, conditional(inner, plus(name(1), listing()), name(1)), name(1))
# an evaluation goes down to the last record also where the value would nest deeper than values may
RULES = {
    **{words: (RECORDS, around) for words, (_, around) in SHAPES.items()},
    "append path": (22, APPENDED),
    "guard of the append path": (32, GUARDED),
}
# the same number of KiB in all of them
PROMISES = {
    "include/ombravelik.h": r"A call takes up to ([0-9,]+) KiB of the calling thread's stack",
    "callers/README.md": r"A call takes up to ([0-9,]+) KiB of stack",
    "callers/rust/src/stack.rs": r"takes less than ([0-9,]+) KiB",
    "docs/FORMAT.md": r"With ([0-9,]+) KiB of stack every call has room",
    "docs/PROOFS.md": r"A call needs up to ([0-9,]+) KiB",
    "README.md": r"a call needs up to ([0-9,]+) KiB",
}


class Ran(NamedTuple):
    """The bytes that a call touched of its stack, and of its answer which it is, its number and its steps."""

    taken: int
    which: int
    number: int
    steps: int


class Case(NamedTuple):
    """A call on a table, the number that it is refused with or otherwise 0, and the steps that it makes at least."""

    words: str
    call: str
    table: bytes
    refused: int
    steps: int


def reserved() -> int:
    """The bytes that the Rust crate touches before a call."""
    factors = re.search(r"pub const STACK_BYTES: usize = ([0-9_* ]+);", source("callers/rust/src/stack.rs"))[1].split("*")
    product = 1
    for factor in factors:
        product *= int(factor)
    return product


def promised() -> int:
    """The bytes that a call takes at most, by the header and by everything else that says so."""
    said = {path: re.findall(pattern, source(path)) for path, pattern in PROMISES.items()}
    (kib, *others), *rest = said.values()
    if others or any(numbers != [kib] for numbers in rest):
        sys.exit(f"the stack that a call takes is said to be {said}")
    return int(kib.replace(",", "")) * 1024


def rules() -> "Iterator[Case]":
    """The deepest rules, checked and evaluated."""
    for shape, (levels, around) in RULES.items():
        words, table = f"{shape}, {levels} deep", assemble(nested(around, levels)).table
        yield Case(words, "check", table, 0, 0)
        yield Case(words, "evaluate", table, 0, levels)


def compared(levels: int) -> Node:
    """Two Maps that nest as deep as values may, made item by item, and compared below the results of `levels` comprehensions."""
    rule = equals(name(3), name(3))
    for _ in range(levels):
        rule = SHAPES["result of a comprehension"][1](rule)
    return comprehension(3, 4, listing(*[true] * VALUES), null, true, mapping((true, name(3))), rule)


def comparisons() -> "Iterator[Case]":
    """A comparison as deep in values as one can be, as deep in records as it can stand."""
    levels = RECORDS - 3
    yield Case(f"equality of maps, {VALUES} deep, below {levels} results", "evaluate", assemble(compared(levels)).table, 0, levels + 5 * VALUES)


def literals(header: "dict[str, int]") -> "Iterator[Case]":
    """Literals that nest as deep as a binding may, as a table may, and one record deeper, checked and brought in."""
    unsound, too_deep = header["REFUSAL_UNSOUND_BINDING"], header["REFUSAL_RECORD_NESTING"]
    for shape in ("list", "map"):
        for levels, check, bring_in in ((VALUES + 1, 0, 0), (RECORDS, 0, unsound), (RECORDS + 1, too_deep, too_deep)):
            words, table = f"{shape}, {levels} deep", assemble(nested(SHAPES[shape][1], levels)).table
            yield Case(words, "check", table, check, 0)
            yield Case(words, "bring_in", table, bring_in, 0)


def run(program: str, case: Case, stack: int) -> Ran:
    """A case on a stack of that size."""
    try:
        ran = subprocess.run([program, case.call, str(stack)], input=case.table, capture_output=True, timeout=PATIENCE)
    except subprocess.TimeoutExpired:
        sys.exit(f"{case.call} of {case.words} on a stack of {stack} bytes did not end within {PATIENCE} seconds")
    if ran.returncode != 0:
        sys.exit(f"{case.call} of {case.words} on a stack of {stack} bytes ended with status {ran.returncode}")
    return Ran(*map(int, ran.stdout.split()))


def taken(program: str, case: Case, refused: int, most: int) -> int:
    """The bytes that a case takes: the same with more stack than it needs and with the most that it may need."""
    ran = run(program, case, AMPLE)
    if (ran.number if ran.which == refused else 0) != case.refused or ran.steps < case.steps:
        sys.exit(f"{case.call} of {case.words} did not go as deep as it is there to go: {ran}")
    if ran.taken > most:
        sys.exit(f"{case.call} of {case.words}: {ran.taken} bytes of stack, and the header says {most}")
    if run(program, case, most) != ran:
        sys.exit(f"{case.call} of {case.words}: something else on a stack of {most} bytes")
    return ran.taken


def main() -> None:
    kept, most = reserved(), promised()
    if most > kept:
        sys.exit(f"the header says {most} bytes of stack, and the Rust crate touches {kept}")
    header = header_numbers(source("include/ombravelik.h"))
    calls = {"check": 0, "bring_in": 0, "evaluate": 0}
    for case in (*rules(), *comparisons(), *literals(header)):
        calls[case.call] = max(calls[case.call], taken(sys.argv[1], case, header["REFUSED"], most))
    measured = ", ".join(f"{call} {many}" for call, many in calls.items())
    print(f"stack: the deepest tables take {measured} bytes, and run on a stack of the {most} that the header says; the Rust crate touches {kept}")


if __name__ == "__main__":
    main()
