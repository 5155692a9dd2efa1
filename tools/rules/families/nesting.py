"""Values that nest about 32."""

from __future__ import annotations

from dataclasses import replace
from typing import Callable, Iterator

from assemble import (Node, all_of, binary, both, comprehension, conditional, either, equals, exists, false, has,
                      index, listing, map_to, mapping, mark, name, none, not_strictly_false, null, of, optional_index,
                      optional_select, or_value, plus, select, size, string, true, value)
from model import STEPS_MAX, TEXT_MAX, Limits

from .common import I, ONE, R, TWO, ZERO, Case, binding, case, nested


def nesting() -> Iterator[Case]:
    arounds: tuple[tuple[str, Callable[[Node], Node]], ...] = (
        ("[r]", listing), ("optional.of(r)", of), ("{1: r}", lambda e: mapping((ONE, e))),
        ("[1, r, 2]", lambda e: listing(ONE, e, TWO)),
        ("[?of(r)]", lambda e: listing(mark(of(e)))), ("[r][?0]", lambda e: optional_index(listing(e), ZERO)),
        ("{'a': r}.?a", lambda e: optional_select(mapping((string("a"), e)), string("a"))),
        ("[r] + [r]", lambda e: plus(listing(e), listing(ONE))))
    for _, around in arounds:
        for count in (29, 30, 31, 32, 33):
            for inside in (null, listing(), none):
                over = listing(*([null] * count))
                yield case(comprehension(3, 4, over, inside, true, around(R), R))
        for depth in (15, 16, 20, 21, 31, 32, 33):
            yield case(nested(depth, null, around))
            yield case(nested(depth, listing(), around))
    deep, deeper = nested(32, null), nested(33, null)
    for rule in (
            of(deep), listing(deep), mapping((ONE, deep)), optional_index(listing(ONE), deep), optional_index(deep, ZERO),
            index(deep, ZERO), of(index(deep, ZERO)), of(value(of(index(deep, ZERO)))), plus(deep, deep), plus(deep, listing()),
            equals(deep, deep), binary("in", deep, listing(ONE)), binary("in", null, deep), size(deep),
            listing(mark(of(ONE)), index(deep, ZERO)),
            listing(mark(of(deep))), either(deeper, true), both(deeper, false), not_strictly_false(deeper),
            conditional(deeper, true, true),
            conditional(true, ONE, deeper), or_value(of(ONE), deeper), or_value(none, deep), or_value(deeper, ONE),
            optional_index(listing(ONE), deeper), optional_index(deeper, ZERO), optional_select(mapping(), deeper),
            map_to(listing(ONE), 4, nested(31, null), accu=3), map_to(listing(ONE), 4, nested(32, null), accu=3),
            map_to(nested(32, null), 4, I, accu=3), map_to(nested(32, null), 4, listing(I), accu=3),
            exists(listing(ONE, TWO), 4, either(deeper, true), accu=3), all_of(listing(ONE), 4, deeper, accu=3),
            select(of(mapping((string("a"), nested(30, null)))), "a"),
            select(of(mapping((string("a"), nested(31, null)))), "a"),
            optional_select(mapping((string("a"), nested(31, null))), string("a")),
            has(of(mapping((string("a"), nested(30, null)))), "a"),
            optional_index(mapping((ONE, nested(31, null))), ONE), index(of(listing(nested(30, null))), ZERO),
            index(of(listing(nested(29, null))), ZERO), mapping((deep, ONE)), mapping((ONE, deeper), (null, null))):
        made = case(rule)
        yield made
        for cells in (31, 32, 33, 34):
            yield replace(made, limits=Limits(STEPS_MAX, cells, TEXT_MAX))
    for depth in (31, 32):
        brought = (binding(5, nested(depth, null)), binding(6, nested(depth, ONE, lambda e: mapping((string("a"), e)))))
        for rule in (name(5), listing(name(5)), of(name(5)), index(name(5), ZERO), equals(name(5), name(5)),
                     select(name(6), "a"),
                     optional_select(name(6), string("a")), map_to(name(5), 4, I, accu=3),
                     map_to(name(5), 4, listing(I), accu=3),
                     equals(name(6), name(6)), plus(name(5), name(5)), mapping((ONE, name(6)))):
            yield case(rule, brought)
