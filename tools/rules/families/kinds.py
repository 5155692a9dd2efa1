"""Every record kind with every combination of operand kinds."""

from __future__ import annotations

from typing import Iterator

from assemble import (binary, bits, byte_string, comprehension, conditional, double, either, false, function, has,
                      integer, listing, mapping, mark, name, none, null, of, or_value, plus, select, string, true,
                      uint, unary)
from model.numbers import INT_MAX, INT_MIN, UINT_MAX
from model.table import BINARY, UNARY

from .common import FAILS, ONE, THREE, TWO, UNBOUND, WANTS_BOOL, ZERO, Case, binding, case

OPERANDS = (
    null, true, false, TWO, uint(2), double(2.0), string("a"), byte_string(b"a"), listing(), listing(TWO, string("a")),
    mapping(), mapping((string("a"), ONE), (TWO, true)), none, of(TWO), of(mapping((string("a"), ONE))), of(listing(TWO)),
    of(none), UNBOUND, WANTS_BOOL,
)


def kinds() -> Iterator[Case]:
    bindings = (binding(1, TWO),)
    for literal in (*OPERANDS, integer(INT_MIN), integer(INT_MAX), uint(UINT_MAX), bits(0xFFF8000000000001), string(""),
                    string("\u00e9\u20ac\U0001d11e"), byte_string(b"\xff\x00"), name(0), name(127)):
        yield case(literal)
    yield case(name(1), bindings)
    for operator in UNARY:
        for operand in OPERANDS:
            yield case(unary(operator, operand))
    for operator in BINARY:
        for left in OPERANDS:
            for right in OPERANDS:
                yield case(binary(operator, left, right))
    for condition in OPERANDS:
        for if_true in (ONE, FAILS):
            for if_false in (TWO, UNBOUND):
                yield case(conditional(condition, if_true, if_false))
    for operand in OPERANDS:
        for field in ("a", "b", ""):
            yield case(select(operand, field))
            yield case(has(operand, field))
    for first in OPERANDS:
        yield case(listing(first))
        yield case(listing(mark(first)))
        yield case(listing(ONE, mark(first), TWO))
        yield case(either(listing(ONE, mark(first), TWO), true))
        yield case(mapping((ONE, mark(first)), (uint(1), TWO)))
        yield case(either(mapping((ONE, TWO), (first, UNBOUND), (THREE, TWO)), true))
        yield case(either(mapping((THREE, null), (ONE, TWO), (uint(1), first), (TWO, null)), true))
        for second in OPERANDS:
            yield case(mapping((first, second)))
            yield case(mapping((first, mark(second))))
    for called in ("size", "optional.of", "hasValue", "value"):
        for operand in OPERANDS:
            yield case(function(called, operand))
    for first in OPERANDS:
        for second in OPERANDS:
            yield case(or_value(first, second))
            yield case(comprehension(3, 4, first, second, true, name(4), name(3)))
    for part in OPERANDS:
        over = listing(ONE, TWO)
        yield case(comprehension(3, 4, over, ZERO, part, plus(name(3), name(4)), name(3)))
        yield case(comprehension(3, 4, over, ZERO, true, part, name(3)))
        yield case(comprehension(3, 4, over, ZERO, true, name(3), part))
        yield case(comprehension(3, 4, over, listing(), true, plus(name(3), listing(part)), name(3)))
        yield case(comprehension(3, 4, over, listing(), true, plus(name(3), listing(mark(part))), name(3)))
        yield case(comprehension(3, 4, over, listing(), part, plus(name(3), listing(ONE)), name(3)))
        yield case(comprehension(3, 4, over, listing(), true, conditional(part, plus(name(3), listing(ONE)), name(3)), name(3)))
        yield case(comprehension(3, 4, over, part, true, plus(name(3), listing(name(4))), name(3)))
