"""Comprehensions: the macros, their look-alikes, pending errors, random parts."""

from __future__ import annotations

from typing import Iterator

from assemble import (Node, all_of, binary, both, byte_string, comprehension, conditional, double, either, equals,
                      exists, exists_one, false, filtered, index, integer, listing, map_to, mapping, mark, name,
                      negation, none, not_strictly_false, null, of, optional_index, plus, size, string, true, uint)
from draw import Draw

from .common import FAILS, I, ONE, R, THREE, TWO, UNBOUND, WANTS_BOOL, ZERO, Case, binding, case
from .random import DESK, Rules


def loops() -> Iterator[Case]:
    yield from macros()
    yield from look_alikes()
    yield from pending_errors()
    yield from random_loops()


def macros() -> Iterator[Case]:
    """CEL's macros over ranges of every shape."""
    ranges = (listing(), listing(ONE), listing(ZERO, TWO), listing(TWO, ZERO), listing(ONE, TWO, THREE), mapping(),
              mapping((string("a"), ONE)), mapping((TWO, ONE), (ONE, ONE)), listing(string("a"), ONE), name(7), name(10),
              name(12), null, string("ab"), UNBOUND, of(listing(ONE)))
    tests = (true, false, equals(I, TWO), binary(">", I, ONE), equals(binary("/", integer(4), I), TWO), UNBOUND, ONE,
             WANTS_BOOL, equals(I, string("a")), binary("in", I, listing(ONE, TWO)))
    for over in ranges:
        for test in tests:
            for macro in (all_of, exists, exists_one, filtered):
                yield case(macro(over, 4, test, accu=3), DESK)
            yield case(map_to(over, 4, plus(I, I), test, accu=3), DESK)
        for part in (I, plus(I, ONE), listing(I), of(I), UNBOUND, mapping((I, I)), R):
            yield case(map_to(over, 4, part, accu=3), DESK)
    for over in (listing(listing(ONE, TWO), listing(THREE)), listing(listing(), ONE)):
        inner = map_to(I, 5, binary("*", name(5), TWO), accu=6)
        yield case(map_to(over, 4, inner, accu=3))
        yield case(map_to(over, 4, map_to(I, 4, plus(I, I), accu=3), accu=3))
        yield case(all_of(over, 4, exists(I, 5, equals(name(5), ONE), accu=3), accu=3))
        yield case(filtered(over, 4, exists_one(I, 5, binary(">", name(5), ONE), accu=6), accu=3))


def look_alikes() -> Iterator[Case]:
    """Comprehensions that are nearly the append path, and its corners."""
    over = listing(ONE, TWO)
    steps = (
        plus(R, listing(I)), plus(R, listing()), plus(R, listing(I, I)), plus(R, listing(mark(none), I)),
        plus(R, listing(mark(of(I)))), plus(R, listing(R)), plus(listing(I), R), plus(R, name(7)), plus(R, R),
        plus(name(7), listing(I)), plus(R, plus(listing(I), listing())), plus(plus(R, listing(I)), listing(I)),
        plus(R, mapping((I, I))), plus(R, of(I)), conditional(true, plus(R, listing(I)), R),
        conditional(binary(">", I, ONE), plus(R, listing(I)), R), conditional(ONE, plus(R, listing(I)), R),
        conditional(UNBOUND, plus(R, listing(I)), R), conditional(WANTS_BOOL, plus(R, listing(I)), R),
        conditional(equals(size(R), ZERO), plus(R, listing(I)), R),
        conditional(true, plus(R, listing(I)), listing()), conditional(true, R, plus(R, listing(I))),
        conditional(false, plus(R, listing(I)), conditional(true, R, R)), conditional(true, plus(R, name(7)), R),
        conditional(true, conditional(true, plus(R, listing(I)), R), R), binary("-", R, listing(I)),
        either(R, listing(I)), equals(R, listing(I)),
    )
    inits = (listing(), name(11), listing(mark(none)), plus(listing(), listing()), filtered(listing(ONE), 5, false),
             index(listing(listing()), ZERO), conditional(true, listing(), null), listing(ZERO), mapping(), null, UNBOUND)
    conditions = (true, false, null, ONE, string("t"), negation(false), not_strictly_false(R), equals(size(R), ZERO),
                  equals(I, ONE))
    results = (R, plus(R, listing()), size(R), I, listing(R))
    for step in steps:
        for init in (inits[0], inits[7]):
            for result in results[:3]:
                yield case(comprehension(3, 4, over, init, true, step, result), DESK[3:])
        yield case(comprehension(3, 4, over, listing(), true, step, R), DESK)  # n3 is bound outside
        yield case(comprehension(3, 3, over, listing(), true, step, R), DESK)  # one name for both
        yield case(comprehension(4, 4, over, listing(ZERO), true, step, I), DESK)
    for init in inits:
        for condition in conditions:
            for step in (steps[0], steps[5], steps[14]):
                yield case(comprehension(3, 4, over, init, condition, step, R), DESK[3:])
    for result in results:
        for condition in conditions:
            yield case(comprehension(3, 4, over, listing(), condition, steps[0], result), DESK[3:])
    for first in (listing(), mapping(), mapping((ONE, ONE)), null, ONE, string("a"), of(listing()), UNBOUND):
        for step in (steps[0], steps[14], steps[16]):
            for condition in (true, false, null, ZERO, uint(0), double(0.0), string(""), byte_string(b""), negation(true)):
                yield case(comprehension(3, 4, first, listing(), condition, step, R), DESK[3:])
            yield case(comprehension(3, 4, first, UNBOUND, true, step, R), DESK[3:])


def pending_errors() -> Iterator[Case]:
    """Steps that fold with && or ||: errors held, replaced, cleared; conditions that end the loop while one is held."""
    outcomes = {"t": true, "f": false, "e": FAILS, "x": UNBOUND, "n": null, "w": WANTS_BOOL}

    def told(word: str) -> Node:
        """What the item's number says: a conditional for each item."""
        rule: Node = outcomes[word[-1]]
        for number in reversed(range(len(word) - 1)):
            rule = conditional(equals(I, integer(number)), outcomes[word[number]], rule)
        return rule

    def over(word: str) -> Node:
        return listing(*(integer(number) for number in range(len(word))))

    words = [a for a in outcomes] + [a + b for a in outcomes for b in outcomes]
    words += [a + b + c for a in "tfex" for b in "tfex" for c in "tfen"]
    for word in words:
        for fold in (both, either):
            init = true if fold is both else false
            yield case(comprehension(3, 4, over(word), init, true, fold(R, told(word)), R))
    for word in ("et", "ef", "eet", "exf", "tef", "fet", "ext", "nn", "ne"):
        for fold in (both, either):
            init = true if fold is both else false
            step = fold(R, told(word))
            for condition in (
                    not_strictly_false(R), not_strictly_false(negation(R)), R, negation(R),
                    not_strictly_false(equals(I, TWO)), negation(equals(I, ONE)), binary("<", I, ONE),
                    conditional(not_strictly_false(equals(I, ZERO)), UNBOUND, true),
                    conditional(not_strictly_false(equals(I, ZERO)), true, UNBOUND),
                    conditional(not_strictly_false(binary(">", I, ZERO)), true, ONE)):
                yield case(comprehension(3, 4, over(word), init, condition, step, R), (binding(4, integer(7)),))
            yield case(comprehension(3, 4, over(word), init, true, step, UNBOUND))
            yield case(comprehension(3, 3, over(word), init, true, fold(R, told(word)), R))
            yield case(comprehension(4, 4, over(word), init, true, fold(I, told(word)), I))
            yield case(comprehension(3, 4, over(word), init, true, fold(told(word), R), R))  # accumulator not first
            yield case(comprehension(3, 4, over(word), init, true, fold(fold(R, true), told(word)), R))
            yield case(comprehension(3, 4, over(word), init, true, negation(step), R))
            for start in (null, false if init is true else true, UNBOUND, ONE):
                yield case(comprehension(3, 4, over(word), start, true, step, R))
            yield case(either(comprehension(3, 4, over(word), init, true, step, R), true))
            yield case(optional_index(listing(ONE), comprehension(3, 4, over(word), init, true, step, R)))


def random_loop(draw: Draw) -> Node:
    """A comprehension whose parts are drawn: those of the macros, and any."""
    rules = Rules(draw)
    accu, item = draw.pick(((3, 4), (3, 4), (3, 3), (4, 3), (20, 21)))
    over = draw.pick((listing(ONE, TWO), listing(ZERO, ONE, TWO), name(7), name(10), name(8), rules.rule("list", 8)))
    init = draw.pick((true, false, listing(), listing(), ZERO, string(""), rules.any(4)))
    rules.items = [accu, item]
    accu_, item_ = name(accu), name(item)
    condition = draw.pick((true, true, not_strictly_false(accu_), not_strictly_false(negation(accu_)),
                           rules.rule("bool", 6)))
    step = draw.pick((
        both(accu_, rules.rule("bool", 8)), either(accu_, rules.rule("bool", 8)), plus(accu_, listing(rules.any(6))),
        conditional(rules.rule("bool", 6), plus(accu_, listing(rules.any(4))), accu_), plus(accu_, item_),
        rules.any(10), listing(accu_, item_)))
    result = draw.pick((accu_, accu_, accu_, item_, rules.any(5)))
    return comprehension(accu, item, over, init, condition, step, result)


def random_loops(seed: int = 3, count: int = 900) -> Iterator[Case]:
    draw = Draw(seed)
    for _ in range(count):
        yield case(random_loop(draw), DESK)
