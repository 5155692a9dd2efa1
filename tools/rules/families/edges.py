"""Limits at the counts of other cases, all one above, each one below and far below; document 01's own limits."""

from __future__ import annotations

from dataclasses import replace
from typing import Iterator

from assemble import (Node, binary, byte_string, comprehension, conditional, either, equals, exists, filtered,
                      listing, map_to, mapping, name, negation, none, not_strictly_false, null, of, optional_index,
                      or_value, plus, size, string, true)
from draw import Draw
from model import Limits, Room, bring_in, evaluate

from .common import I, ONE, R, TWO, UNBOUND, ZERO, Case, binding, case
from .kinds import kinds
from .loops import loops
from .nesting import nesting
from .pairs import pairs
from .random import random


def counts_of(base: Case) -> "tuple[int, int, int] | None":
    room = Room.lent()
    for bound in base.bindings:
        bring_in(room, *bound)
    answer = evaluate(base.table, base.text, room, base.limits).answer
    return answer[2:] if answer[0] == "value" else answer[3] if answer[0] == "error" else None


def edges() -> Iterator[Case]:
    draw = Draw(4)
    bases: list[Case] = []
    for family, wanted in ((kinds, 60), (random, 90), (loops, 120), (pairs, 50), (nesting, 30)):
        found = [base for base in family() if not base.tag]
        for _ in range(wanted):
            bases.append(draw.pick(found))
    for base in bases:
        counts = counts_of(base)
        if counts is None:
            continue
        seen = []
        for which in range(3):
            for amount in (counts[which] - 1, counts[which] // 2, 0):
                limits = list(counts)
                limits[which] = amount
                if 0 <= amount < counts[which] and limits not in seen:
                    seen.append(limits)
        for limits in [list(counts), [counts[0] + 1, counts[1] + 1, counts[2] + 1], *seen]:
            yield replace(base, limits=Limits(*limits))
    whole_sweeps = (
        either(listing(true, UNBOUND), true), map_to(listing(ONE, TWO), 4, listing(I), accu=3),
        filtered(listing(ONE, TWO), 4, equals(I, TWO), accu=3),
        exists(listing(ZERO, TWO), 4, equals(binary("/", TWO, I), ONE), accu=3),
        plus(plus(string("ab"), string("c")), plus(string(""), string("d"))), mapping((ONE, of(ONE)), (TWO, listing(none))),
        not_strictly_false(equals(listing(of(ONE)), listing(of(TWO)))), optional_index(mapping((ONE, TWO)), ONE),
        or_value(of(listing(ONE)), plus(listing(ONE), listing(TWO))),
        comprehension(3, 4, listing(ONE), listing(ZERO), true, plus(R, listing(R)), R),
    )
    for rule in whole_sweeps:
        base = case(rule)
        steps, cells, text = counts_of(base)
        for amount in range(steps + 1):
            yield replace(base, limits=Limits(amount, cells, text))
        for amount in range(cells):
            yield replace(base, limits=Limits(steps, amount, text))
        for amount in range(text):
            yield replace(base, limits=Limits(steps, cells, amount))
    yield from own_limits()


def own_limits() -> Iterator[Case]:
    """Document 01's limits, with more lent."""
    much = Limits(2_000_000, 5_000, 20_000)
    ten = (binding(7, listing(*([null] * 10))),)

    def times(levels: int) -> Node:
        """10 turns of 10 turns and so on: 24, 254, 2,554, 25,554, 255,554 steps."""
        rule = ZERO
        for level in range(levels):
            rule = comprehension(30 + level, 40, name(7), ZERO, true, rule, ZERO)
        return rule

    pieces = [times(5)] * 3 + [times(4)] * 9 + [times(3)] + [times(2)] * 3
    for more in (33, 34, 35):  # 999,999, then 1,000,000, then 1,000,001 steps
        yield case(size(listing(*pieces, *([null] * more))), ten, much, tag="heavy")
    yield case(either(times(6), true), ten, much, tag="heavy")
    sixteen_cells = listing(*([null] * 16))
    for count in (255, 256, 257):
        over = listing(*([null] * count))
        rule = comprehension(3, 4, over, ZERO, true, conditional(equals(sixteen_cells, ZERO), R, R), R)
        yield case(rule, (), much)
    for limit in (4_095, 4_096, 4_097, 5_000):
        over = listing(*([null] * 240))  # 240 cells, then 16 an item: 240 + 16 * 240 = 4,080
        rule = comprehension(3, 4, over, ZERO, true, conditional(equals(sixteen_cells, ZERO), R, R), sixteen_cells)
        yield case(size(rule), (), Limits(2_000_000, limit, 0))  # 4,096
        yield case(size(either(negation(listing(true)), rule)), (), Limits(2_000_000, limit, 0))  # 4,097
    text = "abcdefgh" * 16  # 128 bytes
    for limit in (16_383, 16_384, 16_385, 20_000):
        over = listing(*([null] * 15))
        rule = comprehension(3, 4, over, string(text), true, plus(R, string(text)), R)  # 128 * (2 + .. + 16) = 17,280
        yield case(size(rule), (), Limits(9_999, 99, limit))
        over = listing(*([null] * 127))
        rule = comprehension(3, 4, over, ZERO, true, size(plus(string(text), string(""))), plus(string(text), string("")))
        yield case(size(rule), (), Limits(9_999, 999, limit))  # 128 * 128 = 16,384
        yield case(size(plus(plus(byte_string(b"x"), byte_string(b"")), rule)), (), Limits(9_999, 999, limit))
        yield case(size(plus(rule, plus(string("x"), string("")))), (), Limits(9_999, 999, limit))
    # doubling: few cells, very many pairs
    doubled = comprehension(3, 4, listing(*([null] * 24)), ZERO, true, listing(R, R), R)
    yield case(equals(doubled, doubled), (), much, tag="heavy")
