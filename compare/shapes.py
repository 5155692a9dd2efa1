"""Small random rules, each about one part of document 01: logic, folds, the append path, Optionals, maps.

What they are made of ends in every way that a record can: both Bools, values that are none, and an error of each number.
Names 1 to 12 are bound as in tools/rules/families/random.py; 3 and 4 are the accumulator and the item, 21 is never bound.
"""

from __future__ import annotations

from assemble import (Node, all_of, binary, both, byte_string, comprehension, conditional, double, either, equals, exists, exists_one, false,
                      filtered, has, has_value, index, integer, listing, map_to, mapping, mark, minus, name, negation, none,
                      not_strictly_false, null, of, optional_index, optional_select, or_value, plus, select, size, string, true, uint, value)
from draw import Draw
from families.common import ONE, TWO, ZERO
from model.numbers import INT_MAX

R, I = name(3), name(4)
ERRORS = (
    name(21), conditional(null, true, true), minus(true), value(none), select(mapping(), "a"), plus(integer(INT_MAX), ONE),
    binary("/", ONE, ZERO), binary("%", ONE, ZERO), equals(mapping((ONE, ONE), (uint(1), ONE)), null), index(listing(), ZERO),
    equals(mapping((null, ONE)), null), all_of(ONE, 4, true, accu=3),
)
OTHERS = (null, ONE, string("a"), listing(), none, of(true), mapping())
VALUES = (ZERO, ONE, uint(1), double(1.0), double(2.5), string("a"), string(""), byte_string(b"a"), true, false, null, listing(ONE), mapping((string("a"), ONE)),
          none, of(ONE), name(2), name(5), name(7), name(8), name(10), name(12))
FIELDS = ("a", "a", "b", "")


def outcome(draw: Draw) -> Node:
    """A Bool, mostly; else an error, or a value that is no Bool."""
    chance = draw.below(100)
    if chance < 55:
        return draw.pick((true, false))
    return draw.pick(ERRORS) if chance < 85 else draw.pick(OTHERS)


def truth(draw: Draw, fuel: int) -> Node:
    """Operators of logic over outcomes."""
    if fuel <= 0 or draw.chance(15):
        return outcome(draw)
    form = draw.below(12)
    if form < 4:
        return either(truth(draw, fuel - 1), truth(draw, fuel - 1))
    if form < 8:
        return both(truth(draw, fuel - 1), truth(draw, fuel - 1))
    if form == 8:
        return negation(truth(draw, fuel - 1))
    if form == 9:
        return not_strictly_false(truth(draw, fuel - 1))
    if form == 10:
        return conditional(truth(draw, fuel - 1), truth(draw, fuel - 1), truth(draw, fuel - 1))
    return equals(truth(draw, fuel - 1), truth(draw, fuel - 1))


def told(draw: Draw, count: int) -> Node:
    """An outcome for each of the items 0, 1, 2, .."""
    rule = truth(draw, 1)
    for number in reversed(range(count - 1)):
        rule = conditional(equals(I, integer(number)), truth(draw, draw.below(2)), rule)
    return rule


def mostly(draw: Draw, usual: Node, others: "tuple[Node, ...]", percent: int = 15) -> Node:
    """What is usual at this place, and now and then another: a near miss."""
    return draw.pick(others) if draw.chance(percent) else usual


def names(draw: Draw) -> "tuple[int, int]":
    """The accumulator's and the item's name."""
    return draw.pick(((3, 3), (4, 4), (4, 3))) if draw.chance(15) else (3, 4)


def fold(draw: Draw) -> Node:
    """A step of && or || over items that end in different ways, and what is nearly one."""
    count = 1 + draw.below(4)
    over = listing(*(integer(number) for number in range(count)))
    step_of = draw.pick((both, either))
    start, going = (true, not_strictly_false(R)) if step_of is both else (false, not_strictly_false(negation(R)))
    condition = mostly(draw, draw.pick((going, true)), (R, negation(R), told(draw, count), negation(equals(I, ZERO)), negation(equals(I, ONE))), 40)
    step = step_of(R, told(draw, count))
    step = mostly(draw, step, (step_of(told(draw, count), R), negation(step), conditional(true, step, R)))
    result = mostly(draw, R, (negation(R), I, outcome(draw)))
    rule = comprehension(*names(draw), over, mostly(draw, start, (outcome(draw),)), condition, step, result)
    return mostly(draw, rule, (either(rule, outcome(draw)), both(rule, outcome(draw)), optional_index(listing(rule), ZERO)), 25)


def append(draw: Draw) -> Node:
    """The append path, and what is nearly one."""
    over = mostly(draw, draw.pick((listing(ZERO, ONE), listing(ONE), name(7))), (listing(), name(8), name(11), mapping((ONE, TWO)), outcome(draw)), 25)
    init = mostly(draw, listing(), (name(11), listing(mark(none)), plus(listing(), listing()), listing(ONE), mapping(), outcome(draw)), 20)
    condition = mostly(draw, true, (false, null, ONE, string("t"), not_strictly_false(R), equals(I, ONE)))
    parts = [draw.pick((I, I, ONE, mark(of(I)), mark(none), mark(I), R, R, size(R), listing(I), outcome(draw), plus(I, I), name(20)))
             for _ in range((1, 1, 1, 0, 2)[draw.below(5)])]
    added = mostly(draw, listing(*parts), (name(7), plus(listing(*parts), listing()), mapping((I, I))), 10)
    step = mostly(draw, plus(R, added), (plus(added, R), binary("-", R, added), plus(name(7), added)), 10)
    if draw.chance(45):
        guard = draw.pick((told(draw, 2), binary(">", I, ZERO), equals(I, ONE), equals(R, listing()), outcome(draw)))
        step = conditional(guard, step, mostly(draw, R, (I, listing())))
    result = mostly(draw, R, (I, size(R), plus(R, listing()), listing(R)))
    return comprehension(*names(draw), over, init, condition, step, result)


def chain(draw: Draw) -> Node:
    """Selections and look-ups, one upon the other, on what may be an Optional."""
    held = draw.pick((mapping((string("a"), ONE)), mapping((string("a"), mapping((string("a"), listing(ONE))))), listing(ONE, TWO), listing(mapping((string("a"), ONE))),
                      ONE, null, none, of(ONE), string("a"), name(8), name(10), name(12), mapping((string("a"), none)), mapping((string("a"), of(mapping())))))
    rule = draw.pick((held, held, of(held), of(held), of(of(held)), none, draw.pick(ERRORS)))
    for _ in range(1 + draw.below(4)):
        key = draw.pick((string("a"), string("b"), ZERO, uint(0), ONE, integer(-1), null, true, draw.pick(ERRORS), draw.pick(VALUES)))
        form = draw.below(12)
        if form < 2:
            rule = select(rule, draw.pick(FIELDS))
        elif form < 4:
            rule = optional_select(rule, draw.pick((string("a"), string("a"), string("b"), key)))
        elif form < 6:
            rule = index(rule, key)
        elif form < 8:
            rule = optional_index(rule, key)
        else:
            rule = (has(rule, draw.pick(FIELDS)), has_value(rule), value(rule), or_value(rule, draw.pick((ONE, mapping(), outcome(draw)))))[form - 8]
    return rule


def entries(draw: Draw) -> Node:
    """Maps with keys of all kinds and marks, and what asks them."""
    def literal() -> Node:
        pairs = []
        for _ in range(draw.below(4)):
            key = draw.pick((ONE, TWO, uint(1), uint(2), string("a"), string("b"), true, false, integer(-1), null, double(1.0), outcome(draw))
                            if draw.chance(60) else (ONE, string("a"), string("b"), TWO))
            held = draw.pick((ONE, uint(1), double(1.0), null, listing(ONE), mark(none), mark(of(ONE)), mark(TWO), outcome(draw)))
            pairs.append((key, held))
        return mapping(*pairs)

    made, form = literal(), draw.below(8)
    probe = draw.pick((ONE, uint(1), TWO, string("a"), true, null, draw.pick(VALUES)))
    if form < 2:
        return binary(draw.pick(("==", "!=")), made, draw.pick((made, literal(), literal())))
    if form == 2:
        return binary("in", probe, made)
    if form == 3:
        return index(made, probe)
    if form == 4:
        return draw.pick((select, has))(made, draw.pick(FIELDS))
    if form == 5:
        return draw.pick((all_of, exists, exists_one, filtered, map_to))(made, 4, draw.pick((equals(I, probe), told(draw, 2), I)), accu=3)
    return made if form == 6 else size(made)


def pair(draw: Draw) -> Node:
    """Any operator on any two values, some of them inside containers."""
    def held() -> Node:
        part = draw.pick(VALUES)
        return draw.pick((part, part, part, listing(part), listing(part, draw.pick(VALUES)), of(part), mapping((string("a"), part))))

    operators = ("==", "!=", "in", "+", "-", "/", "*", "%", "<", "<=", ">", ">=", "index", "optional index", "optional select", "||", "&&")
    left = held()
    return binary(draw.pick(operators + ("==", "!=", "in", "==")), left, draw.pick((left, held(), held())))


SHAPES = (lambda draw: truth(draw, 2 + draw.below(4)), fold, append, chain, entries, pair)
