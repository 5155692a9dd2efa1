"""Equality, `in` and look-ups over nested lists, maps, Optionals and mixed numbers."""

from __future__ import annotations

import struct
from typing import Iterator

from assemble import (Node, binary, bits, byte_string, comprehension, double, equals, false, has, index, integer,
                      listing, mapping, mark, none, null, of, optional_index, select, string, true, uint)
from draw import Draw
from model.numbers import INT_MAX, UINT_MAX

from .common import ONE, R, THREE, TWO, ZERO, Case, case


def random_value(draw: Draw, depth: int) -> Node:
    """A literal of any kind, containers and Optionals down to `depth`."""
    if depth == 0 or draw.chance(25):
        small = draw.below(3)
        return draw.pick((null, true, false, integer(small), uint(small), double(float(small)), bits(0x7FF8000000000000),
                          string(draw.pick(("a", "b"))), byte_string(b"a"), none))
    form = draw.below(5)
    if form <= 1:
        return listing(*(random_value(draw, depth - 1) for _ in range(draw.below(4))))
    if form <= 3:
        keys = [integer(0), uint(1), integer(2), string("a"), string("b"), true, false]
        count = draw.below(4)
        return mapping(*((keys.pop(draw.below(len(keys))), random_value(draw, depth - 1)) for _ in range(count)))
    return of(random_value(draw, depth - 1))


def variant(draw: Draw, node: Node, changes: int) -> Node:
    """The same value spelled differently: entries in another order, numbers of another kind; `changes` percent altered."""
    if draw.chance(changes):
        return random_value(draw, 1)
    if node.kind in (2, 3, 4):
        number = struct.unpack("<Q", node.fields)[0]
        if node.kind == 4:
            return node
        return draw.pick((integer(number), uint(number), double(float(number)), node))
    if node.kind == 12:
        return listing(*(variant(draw, operand, changes) for operand in node.operands))
    if node.kind == 13:
        entries = []
        for key, part in zip(node.operands[::2], node.operands[1::2]):
            if key.kind in (2, 3):
                number = struct.unpack("<Q", key.fields)[0]
                key = draw.pick((integer(number), uint(number)))
            entries.insert(draw.below(len(entries) + 1), (key, variant(draw, part, changes)))
        return mapping(*entries)
    if node.kind == 16 and node.operands:
        return of(variant(draw, node.operands[0], changes))
    return node


def pairs() -> Iterator[Case]:
    draw = Draw(6)
    for number in range(500):
        left = random_value(draw, 1 + number % 4)
        right = variant(draw, left, draw.pick((0, 0, 3, 8)))
        yield case(binary(draw.pick(("==", "==", "!=")), left, right))
    for _ in range(200):
        wanted = random_value(draw, 2)
        items = [random_value(draw, 2) for _ in range(draw.below(3))] + [variant(draw, wanted, draw.pick((0, 10)))]
        items.insert(draw.below(len(items) + 1), random_value(draw, 1))
        yield case(binary("in", wanted, listing(*items)))
    for _ in range(150):
        table = random_value(draw, 2)
        while table.kind != 13:
            table = random_value(draw, 2)
        key = draw.pick((integer(draw.below(4)), uint(draw.below(4)), string("a"), string("c"), true, false, null,
                         double(1.0), of(ONE)))
        yield case(binary(draw.pick(("index", "optional index", "in")),
                          *((key, table) if draw.below(3) == 0 else (table, key))))
        yield case(index(table, key))
        yield case(optional_index(of(table), key))
        yield case(draw.pick((select, has))(table, draw.pick(("a", "b", "c"))))
    keys = (ONE, uint(1), TWO, uint(2), true, false, string("a"), string(""), integer(-1), uint(UINT_MAX),
            integer(INT_MAX), uint(INT_MAX))
    for first in keys:
        for second in keys:
            yield case(mapping((first, null), (second, null)))
            yield case(index(mapping((first, ONE)), second))
            yield case(equals(mapping((first, ONE), (string("z"), TWO)), mapping((string("z"), TWO), (second, ONE))))
        yield case(mapping((first, mark(none)), (first, ONE), (THREE, mark(none)), (first, mark(none))))
        yield case(mapping((first, mark(of(ONE))), (string("y"), TWO), (first, mark(of(TWO)))))
    wide = [(integer(number), uint(number)) for number in range(20)]
    turned = [(uint(number), integer(number)) for number in reversed(range(20))]
    yield case(equals(mapping(*wide), mapping(*turned)))
    yield case(equals(mapping(*wide), mapping(*turned[:-1], (integer(30), ONE))))
    yield case(equals(mapping(*wide), mapping(*turned[:-1], (ZERO, ONE))))
    for position in (0, 10, 19, 20):
        yield case(index(mapping(*wide), uint(position)))
        yield case(binary("in", uint(position), listing(*(key for key, _ in wide))))
    nan, of_nan = bits(0x7FF8000000000000), of(bits(0x7FF8000000000000))
    for value_ in (nan, listing(nan), mapping((ONE, nan)), of_nan, listing(of_nan)):
        yield case(equals(value_, value_))
        yield case(comprehension(3, 4, listing(ONE), value_, true, R, equals(R, R)))
        yield case(binary("in", value_, listing(value_, value_)))
