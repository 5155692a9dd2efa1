"""The families of cases: which tables, bindings and limits there are. The answers are the model's (cases.py).

    kinds      every record kind with every combination of operand kinds
    numbers    arithmetic, equality and order at the ends of Int, Uint and Double
    random     random well-formed expressions over bound and unbound names
    loops      comprehensions: the macros, their look-alikes, pending errors, random parts
    edges      limits at the counts of other cases, all one above, each one below and far below; document 01's own limits
    refusals   damaged tables
    bindings   bringing in, refusals in their order, unsound rooms, rules over bound values
    nesting    values that nest about 32
    pairs      equality, `in` and look-ups over nested lists, maps, Optionals and mixed numbers
"""

from __future__ import annotations

from typing import Callable, Iterable

from .bindings import bindings
from .common import Case, Script
from .edges import edges
from .kinds import kinds
from .loops import loops, random_loops
from .nesting import nesting
from .numbers import numbers
from .pairs import pairs
from .random import random
from .refusals import refusals

FAMILIES: "dict[str, Callable[[], Iterable[Case | Script]]]" = {
    "kinds": kinds, "numbers": numbers, "random": random, "loops": loops, "edges": edges, "refusals": refusals,
    "bindings": bindings, "nesting": nesting, "pairs": pairs,
}


def more(seed: int, count: int) -> "dict[str, Callable[[], Iterable[Case | Script]]]":
    """As many random expressions and random comprehensions from another seed."""
    return {"random": lambda: random(seed, count), "loops": lambda: random_loops(seed, count)}
