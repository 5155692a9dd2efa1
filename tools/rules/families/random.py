"""Random well-formed expressions over bound and unbound names."""

from __future__ import annotations

from typing import Callable, Iterable, Iterator

from assemble import (Node, all_of, assemble, binary, bits, both, byte_string, conditional, double, either, exists,
                      exists_one, false, filtered, has, has_value, index, integer, listing, map_to, mapping, mark,
                      minus, name, negation, none, not_strictly_false, null, of, optional_index, optional_select,
                      or_value, select, size, string, true, uint, value)
from draw import Draw
from model import TABLE_MAX
from model.numbers import INT_MAX, INT_MIN, UINT_MAX

from .common import ONE, THREE, TWO, UNBOUND, ZERO, Case, binding
from .numbers import SIGNED

DESK = (
    binding(1, true), binding(2, THREE), binding(3, uint(3)), binding(4, double(2.5)), binding(5, string("ab")),
    binding(6, byte_string(b"\x80b")), binding(7, listing(ONE, TWO, THREE)), binding(8, mapping((string("a"), ONE))),
    binding(9, null), binding(10, mapping((ONE, string("x")), (uint(2), listing(null)), (true, mapping()))),
    binding(11, listing()), binding(12, listing(listing(ONE), mapping((string("a"), TWO)))),
)
BOUND = {"bool": 1, "int": 2, "uint": 3, "double": 4, "string": 5, "bytes": 6, "list": 7, "map": 8, "null": 9}


class Rules:
    """Random rules: mostly of the kind that is wanted, now and then of another."""

    KINDS = ("bool", "int", "uint", "double", "string", "bytes", "null", "list", "map", "optional")

    def __init__(self, draw: Draw) -> None:
        self.draw = draw
        self.items: list[int] = []

    def rule(self, kind: str, fuel: int) -> Node:
        draw = self.draw
        if draw.chance(2):
            kind = draw.pick(self.KINDS)
        if draw.chance(1):
            return UNBOUND
        if self.items and draw.chance(30 if kind in ("int", "bool") else 8):
            return name(draw.pick(self.items))
        if fuel <= 1 or draw.chance(12):
            return self.leaf(kind)
        forms: Iterable[Callable[[int], Node]] = getattr(self, kind + "_forms")(fuel - 1)
        return draw.pick(tuple(forms))(fuel - 1)

    def leaf(self, kind: str) -> Node:
        draw = self.draw
        if kind in BOUND and draw.chance(25):
            return name(BOUND[kind])
        small = draw.below(4)
        return {
            "bool": draw.pick((true, false)), "int": integer(draw.pick((small, small, small, small, -small, -small,
                    INT_MAX, INT_MIN))),
            "uint": uint(draw.pick((small, small, small, small, UINT_MAX))), "double": bits(draw.pick(SIGNED)),
            "string": string(draw.pick(("", "a", "b", "\u00e9"))), "bytes": byte_string(draw.pick((b"", b"a", b"\xff"))),
            "null": null, "list": draw.pick((listing(), listing(ONE, TWO), name(12), name(11))),
            "map": draw.pick((mapping(), name(10), name(8))), "optional": draw.pick((none, of(ONE), of(null))),
        }[kind]

    def any(self, fuel: int) -> Node:
        return self.rule(self.draw.pick(self.KINDS), fuel)

    def shared_forms(self, kind: str) -> tuple:
        return (
            lambda f: conditional(self.rule("bool", f // 3), self.rule(kind, f // 3), self.rule(kind, f // 3)),
            lambda f: index(listing(self.rule(kind, f // 2), self.any(f // 2)),
                            self.draw.pick((ZERO, ZERO, uint(0), ONE, TWO))),
            lambda f: select(mapping((string("a"), self.rule(kind, f - 1))), self.draw.pick(("a", "a", "b"))),
            lambda f: value(of(self.rule(kind, f - 1))),
            lambda f: or_value(self.rule("optional", f // 2), self.rule(kind, f // 2)),
        )

    def bool_forms(self, fuel: int) -> tuple:
        def ordered(f: int) -> Node:
            kind = self.draw.pick(("int", "uint", "double", "string", "bytes", "bool"))
            return binary(self.draw.pick(("<", "<=", ">", ">=")), self.rule(kind, f // 2), self.rule(kind, f // 2))

        def alike(f: int) -> Node:
            kind = self.draw.pick(self.KINDS)
            return binary(self.draw.pick(("==", "!=")), self.rule(kind, f // 2), self.rule(kind, f // 2))

        return self.shared_forms("bool") + (
            lambda f: either(self.rule("bool", f // 2), self.rule("bool", f // 2)),
            lambda f: both(self.rule("bool", f // 2), self.rule("bool", f // 2)),
            lambda f: negation(self.rule("bool", f)), lambda f: not_strictly_false(self.rule("bool", f)),
            ordered, alike, alike, lambda f: binary("in", self.any(f // 2), self.rule("list", f // 2)),
            lambda f: binary("in", self.rule("string", f // 2), self.rule("map", f // 2)),
            lambda f: has(self.rule("map", f), self.draw.pick(("a", "b"))),
            lambda f: has_value(self.rule("optional", f)),
            lambda f: self.loop(all_of, f), lambda f: self.loop(exists, f), lambda f: self.loop(exists_one, f),
        )

    def loop(self, macro: Callable[..., Node], fuel: int) -> Node:
        over = self.rule("list", fuel // 2)
        item = 20 + len(self.items)
        self.items.append(item)
        test = self.rule("bool", fuel // 2)
        self.items.pop()
        return macro(over, item, test, accu=60 + item)

    def mapped(self, fuel: int) -> Node:
        over = self.rule(self.draw.pick(("list", "list", "map")), fuel // 2)
        item = 20 + len(self.items)
        self.items.append(item)
        part = self.any(fuel // 3)
        guard = self.rule("bool", fuel // 3) if self.draw.chance(40) else None
        self.items.pop()
        return map_to(over, item, part, guard, accu=60 + item)

    def arithmetic(self, kind: str, operators: tuple) -> Callable[[int], Node]:
        return lambda f: binary(self.draw.pick(operators), self.rule(kind, f // 2), self.rule(kind, f // 2))

    def int_forms(self, fuel: int) -> tuple:
        sized = self.draw.pick(("string", "bytes", "list", "map"))
        return self.shared_forms("int") + (self.arithmetic("int", ("+", "-", "*", "/", "%")),) * 3 + (
            lambda f: size(self.rule(sized, f)), lambda f: minus(self.rule("int", f)))

    def uint_forms(self, fuel: int) -> tuple:
        return self.shared_forms("uint") + (self.arithmetic("uint", ("+", "-", "*", "/", "%")),) * 3

    def double_forms(self, fuel: int) -> tuple:
        return self.shared_forms("double") + (self.arithmetic("double", ("+", "-", "*", "/")),) * 3 + (
            lambda f: minus(self.rule("double", f)),)

    def string_forms(self, fuel: int) -> tuple:
        return self.shared_forms("string") + (self.arithmetic("string", ("+",)),) * 3

    def bytes_forms(self, fuel: int) -> tuple:
        return self.shared_forms("bytes") + (self.arithmetic("bytes", ("+",)),) * 3

    def null_forms(self, fuel: int) -> tuple:
        return self.shared_forms("null")

    def part(self, fuel: int) -> Node:
        return mark(self.rule("optional", fuel)) if self.draw.chance(20) else self.any(fuel)

    def list_forms(self, fuel: int) -> tuple:
        def plain(f: int) -> Node:
            count = self.draw.below(4)
            return listing(*(self.part(f // max(count, 1)) for _ in range(count)))

        return self.shared_forms("list") + (plain, plain, self.arithmetic("list", ("+",)), self.mapped, self.mapped,
                                            lambda f: self.loop(filtered, f))

    def map_forms(self, fuel: int) -> tuple:
        def plain(f: int) -> Node:
            count = self.draw.below(4)
            each = f // max(2 * count, 1)
            return mapping(*((self.rule(self.draw.pick(("string", "int", "uint", "bool")), min(each, 2)), self.part(each))
                             for _ in range(count)))

        return self.shared_forms("map") + (plain,) * 3

    def optional_forms(self, fuel: int) -> tuple:
        return self.shared_forms("optional") + (
            lambda f: of(self.any(f)), lambda f: of(self.any(f)),
            lambda f: optional_index(self.rule("list", f // 2), self.rule("int", f // 2)),
            lambda f: optional_index(self.rule("map", f // 2), self.rule(self.draw.pick(("int", "string")), f // 2)),
            lambda f: optional_select(self.rule("map", f // 2), self.rule("string", f // 2)),
            lambda f: index(self.rule("optional", f // 2), self.rule("int", f // 2)),
            lambda f: select(self.rule("optional", f), "a"),
        )


def random(seed: int = 2, count: int = 2_400) -> Iterator[Case]:
    draw = Draw(seed)
    for number in range(count):
        rules = Rules(draw)
        rule = rules.rule(draw.pick(Rules.KINDS), 4 + number % 60)
        made = assemble(rule)
        if len(made.table) <= TABLE_MAX:
            yield Case(rule.says, made.table, made.text, DESK)
