"""Arithmetic, equality and order at the ends of Int, Uint and Double."""

from __future__ import annotations

from typing import Iterator

from assemble import binary, bits, byte_string, false, integer, minus, string, true, uint
from draw import Draw
from model.numbers import INT_MAX, INT_MIN, UINT_MAX

from .common import Case, case

INTS = (INT_MIN, INT_MIN + 1, -(1 << 53) - 1, -(1 << 32), -3, -1, 0, 1, 2, 7, 1 << 32, (1 << 53) + 1, INT_MAX - 1, INT_MAX)
UINTS = (0, 1, 2, 7, 1 << 32, (1 << 53) + 1, (1 << 63) - 1, 1 << 63, (1 << 63) + 1, UINT_MAX - 1, UINT_MAX)
DOUBLES = (
    0, 1, 0xFFFFFFFFFFFFF, 0x10000000000000, 0x3FF0000000000000, 0x3FF0000000000001, 0x3FF8000000000000,
    0x3FB999999999999A, 0x4008000000000000, 0x4340000000000000, 0x4340000000000001, 0x43E0000000000000, 0x43F0000000000000,
    0x7FEFFFFFFFFFFFFF, 0x7FF0000000000000, 0x7FF8000000000000, 0x7FF0000000000001,
)
SIGNED = tuple(word | sign for word in DOUBLES for sign in (0, 1 << 63))


def numbers() -> Iterator[Case]:
    draw = Draw(1)
    arithmetic = ("+", "-", "*", "/", "%")
    for operator in arithmetic:
        for a in INTS:
            for b in INTS:
                yield case(binary(operator, integer(a), integer(b)))
        for a in UINTS:
            for b in UINTS:
                yield case(binary(operator, uint(a), uint(b)))
    for a in INTS:
        yield case(minus(integer(a)))
    for a in SIGNED:
        yield case(minus(bits(a)))
    for operator in ("+", "-", "*", "/"):
        for a in SIGNED:
            for b in DOUBLES:
                yield case(binary(operator, bits(a), bits(b)))
        for _ in range(60):
            a = draw.word()
            near = (a >> 52 & 0x7FF) + draw.below(110) - 55
            b = draw.word() & ~(0x7FF << 52) | min(max(near, 0), 0x7FE) << 52
            yield case(binary(operator, bits(a), bits(b)))
    mixed = ([integer(a) for a in INTS] + [uint(a) for a in UINTS] + [bits(a) for a in SIGNED]
             + [bits(0x43DFFFFFFFFFFFFF), bits(0xC340000000000001), bits(0x43EFFFFFFFFFFFFF)])
    for number, a in enumerate(mixed):
        for other, b in enumerate(mixed):
            yield case(binary(("==", "<", "<=", ">", ">=", "!=")[(number + other) % 6], a, b))
    for operator in ("<", "<=", ">", ">="):
        for a, b in ((string("a"), string("b")), (string("a"), string("ab")), (string("\u00e9"), string("z")),
                     (string("\uffff"), string("\U00010000")), (byte_string(b""), byte_string(b"\0")),
                     (byte_string(b"\xff"), byte_string(b"\x7f")), (false, true), (true, true),
                     (string("a"), byte_string(b"a"))):
            yield case(binary(operator, a, b))
            yield case(binary(operator, b, a))
