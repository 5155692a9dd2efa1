"""Module 2, comparison, and module 3, maps and look-ups. Rests on values and numbers.

`pair` is called for each pair of values as it is compared: the evaluator charges a step there.
"""

from __future__ import annotations

from fractions import Fraction
from typing import Callable, Sequence

from .numbers import SIGN, exact, is_infinite, is_nan
from .values import (INDEX_OUT_OF_BOUNDS, NO_OVERLOAD, NO_SUCH_KEY, UNORDERED, Bool, Bytes, Double, Fault, Int, List, Map,
                     Optional, String, Uint, Value)

Pair = Callable[[], None]

# ---------------------------------------------------------------- module 2: comparison


def is_number(value: Value) -> bool:
    return isinstance(value, (Int, Uint, Double))


def number_line(value: Value) -> "tuple[int, Fraction] | None":
    """Where a number lies: below all (-1), among (0) or above all (1) the finite ones. None for NaN."""
    if isinstance(value, Double):
        if is_nan(value.bits):
            return None
        if is_infinite(value.bits):
            return (-1 if value.bits & SIGN else 1), Fraction(0)
        return 0, exact(value.bits)
    return 0, Fraction(value.number)


def compare_values(a: Value, b: Value) -> int:
    """`compare_values`: below 0, 0 or above 0; error 12 with NaN among numbers, else 3 where there is no order."""
    if is_number(a) and is_number(b):
        left, right = number_line(a), number_line(b)
        if left is None or right is None:
            raise Fault(UNORDERED)
    elif isinstance(a, Bool) and isinstance(b, Bool):
        left, right = a.truth, b.truth
    elif isinstance(a, String) and isinstance(b, String) or isinstance(a, Bytes) and isinstance(b, Bytes):
        left, right = a.data, b.data
    else:
        raise Fault(NO_OVERLOAD)
    return (left > right) - (left < right)


def equal(a: Value, b: Value, pair: Pair) -> bool:
    """`==`: numbers by their place on the line, containers by what they hold; a map's entries may stand in another order."""
    pair()
    if is_number(a) and is_number(b):
        left, right = number_line(a), number_line(b)
        return left is not None and left == right
    if isinstance(a, List) and isinstance(b, List):
        return len(a.items) == len(b.items) and all(equal(x, y, pair) for x, y in zip(a.items, b.items))
    if isinstance(a, Map) and isinstance(b, Map):
        if len(a.entries) != len(b.entries):
            return False
        for key, value in a.entries:
            found = find(b.entries, key, pair)
            if found is None or not equal(value, found, pair):
                return False
        return True
    if isinstance(a, Optional) and isinstance(b, Optional):
        if a.part is None or b.part is None:
            return a.part is None and b.part is None
        return equal(a.part, b.part, pair)
    return type(a) is type(b) and a == b  # Null, Bool, String, Bytes


# ---------------------------------------------------------------- module 3: maps


def is_key(value: Value) -> bool:
    return isinstance(value, (Int, Uint, Bool, String))


def keys_match(a: Value, b: Value) -> bool:
    """Whether a key answers a look-up: the same key, or the same number as an Int and a Uint."""
    if isinstance(a, (Int, Uint)) and isinstance(b, (Int, Uint)):
        return a.number == b.number
    return a == b


def find(entries: Sequence[tuple[Value, Value]], key: Value, pair: Pair) -> "Value | None":
    """Walks the entries once, in order, a pair for each up to the match."""
    for other, value in entries:
        pair()
        if keys_match(other, key):
            return value
    return None


def index_into(container: Value, key: Value, pair: Pair) -> Value:
    """`index_into`, the look-up of an index: errors 3, 5 and 10."""
    if isinstance(container, Map) and is_key(key):
        found = find(container.entries, key, pair)
        if found is None:
            raise Fault(NO_SUCH_KEY)
        return found
    if isinstance(container, List) and isinstance(key, (Int, Uint)):
        if not 0 <= key.number < len(container.items):
            raise Fault(INDEX_OUT_OF_BOUNDS)
        return container.items[key.number]
    raise Fault(NO_OVERLOAD)


def contains(container: Value, value: Value, pair: Pair) -> bool:
    """`value in container`: an equal element of a List, a matching key of a Map, else error 3."""
    if isinstance(container, List):
        return any(equal(value, item, pair) for item in container.items)
    if isinstance(container, Map) and is_key(value):
        return find(container.entries, value, pair) is not None
    raise Fault(NO_OVERLOAD)
