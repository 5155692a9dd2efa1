"""What the families share: a case, a script on a binding room, and a few rules."""

from __future__ import annotations

from dataclasses import dataclass
from typing import Callable

from assemble import Node, assemble, binary, conditional, integer, listing, name, null, true
from model import CELLS_MAX, STEPS_MAX, TEXT_MAX, Limits, Room

Binding = tuple  # name, table, text


@dataclass
class Case:
    """A table to evaluate. The binding room is `room` as it stands, or one lent whole with `bindings` brought in."""

    says: str
    table: bytes
    text: bytes = b""
    bindings: "tuple[Binding, ...]" = ()
    limits: Limits = Limits(STEPS_MAX, CELLS_MAX, TEXT_MAX)
    room: "Room | None" = None
    tag: str = ""


@dataclass
class Script:
    """Steps on a binding room: a Binding to bring in, or None to empty it. The room is `room`, or lent empty."""

    says: str
    steps: "list[Binding | None]"
    lent: "tuple[int, int]" = (CELLS_MAX, TEXT_MAX)
    room: "Room | None" = None
    tag: str = ""


def case(rule: Node, bindings: "tuple[Binding, ...]" = (), limits: Limits = Limits(STEPS_MAX, CELLS_MAX, TEXT_MAX),
         tag: str = "") -> Case:
    made = assemble(rule)
    return Case(rule.says, made.table, made.text, bindings, limits, tag=tag)


def binding(number: int, spelled: Node) -> Binding:
    made = assemble(spelled)
    return number, made.table, made.text


UNBOUND = name(99)
R, I = name(3), name(4)  # the accumulator and the item of most comprehensions here
ONE, TWO, THREE = integer(1), integer(2), integer(3)
ZERO = integer(0)
FAILS = binary("/", ONE, ZERO)  # error 7
WANTS_BOOL = conditional(null, true, true)  # error 2


def nested(depth: int, inside: Node, around: Callable[[Node], Node] = listing) -> Node:
    for _ in range(depth):
        inside = around(inside)
    return inside
