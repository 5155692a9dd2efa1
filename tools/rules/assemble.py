"""Node tables from a small Python syntax: cases can be written readably, and damaged on purpose.

    rule = either(name(1), true)                     # n1 || true
    made = assemble(rule)                            # made.table, made.text
    made.place(rule.operands[0])                     # where the record of n1 starts
    made.records                                     # (place, node) in table order
    patched(made.table, 1, b"\x08\x00")              # other bytes at a place

Extents are worked out from the parts; `u16` fields hold numbers modulo 65,536, so that too large a table can be spelled.
"""

from __future__ import annotations

import struct
from dataclasses import dataclass

from model.table import BINARY, FUNCTIONS, UNARY


@dataclass(eq=False)
class Node:
    """A record to be: its kind, the fields after its extent (a span stands behind them), its operands.

    An extent that is given holds, right or wrong. A node of kind RAW has no head: its fields stand as they are.
    """

    kind: int
    fields: bytes = b""
    operands: "tuple[Node, ...]" = ()
    span: "bytes | None" = None
    says: str = ""
    extent: "int | None" = None

    def __repr__(self) -> str:
        return self.says


RAW = -1


def u16(number: int) -> bytes:
    return struct.pack("<H", number % 65_536)


# ---------------------------------------------------------------- literals and names

null = Node(0, says="null")
true = Node(1, b"\1", says="true")
false = Node(1, b"\0", says="false")


def integer(number: int) -> Node:
    return Node(2, struct.pack("<q", number), says=str(number))


def uint(number: int) -> Node:
    return Node(3, struct.pack("<Q", number), says=f"{number}u")


def double(number: float) -> Node:
    return bits(struct.unpack("<Q", struct.pack("<d", number))[0])


def bits(word: int) -> Node:
    """A Double by its 64 bits."""
    return Node(4, struct.pack("<Q", word), says=f"double(0x{word:016x})")


def string(text: "str | bytes") -> Node:
    data = text.encode() if isinstance(text, str) else text
    return Node(5, span=data, says=repr(data)[1:])


def byte_string(data: bytes) -> Node:
    return Node(6, span=data, says=repr(data))


def name(number: int) -> Node:
    return Node(7, bytes([number]), says=f"n{number}")


# ---------------------------------------------------------------- operators


def unary(operator: str, operand: Node) -> Node:
    return Node(8, bytes([UNARY.index(operator) + 1]), (operand,), says=f"{operator}({operand})")


def binary(operator: str, left: Node, right: Node) -> Node:
    forms = {"index": "{}[{}]", "optional index": "{}[?{}]", "optional select": "{}.?({})"}
    says = forms.get(operator, "({} " + operator.replace("{", "{{") + " {})").format(left, right)
    return Node(9, bytes([BINARY.index(operator) + 1]), (left, right), says=says)


def negation(operand: Node) -> Node:
    return unary("!", operand)


def minus(operand: Node) -> Node:
    return unary("-", operand)


def not_strictly_false(operand: Node) -> Node:
    return unary("not-strictly-false", operand)


def either(left: Node, right: Node) -> Node:
    return binary("||", left, right)


def both(left: Node, right: Node) -> Node:
    return binary("&&", left, right)


def equals(left: Node, right: Node) -> Node:
    return binary("==", left, right)


def plus(left: Node, right: Node) -> Node:
    return binary("+", left, right)


def index(left: Node, right: Node) -> Node:
    return binary("index", left, right)


def optional_index(left: Node, right: Node) -> Node:
    return binary("optional index", left, right)


def optional_select(left: Node, right: Node) -> Node:
    return binary("optional select", left, right)


def conditional(condition: Node, if_true: Node, if_false: Node) -> Node:
    return Node(10, operands=(condition, if_true, if_false), says=f"({condition} ? {if_true} : {if_false})")


def select(operand: Node, field: "str | bytes", test: bool = False) -> Node:
    data = field.encode() if isinstance(field, str) else field
    says = f"{operand}.{data.decode(errors='replace')}"
    return Node(11, bytes([test]), (operand,), span=data, says=f"has({says})" if test else says)


def has(operand: Node, field: "str | bytes") -> Node:
    return select(operand, field, test=True)


# ---------------------------------------------------------------- containers, functions, comprehensions


def listing(*items: Node) -> Node:
    return Node(12, u16(len(items)), items, says="[" + ", ".join(map(repr, items)) + "]")


def mapping(*entries: "tuple[Node, Node]") -> Node:
    parts = tuple(part for entry in entries for part in entry)
    return Node(13, u16(len(entries)), parts, says="{" + ", ".join(f"{k}: {v}" for k, v in entries) + "}")


def mark(operand: Node) -> Node:
    return Node(14, operands=(operand,), says=f"?{operand}")


def function(called: str, *operands: Node) -> Node:
    says = f"{called}(" + ", ".join(map(repr, operands)) + ")"
    return Node(16, bytes([FUNCTIONS.index(called) + 1]), operands, says=says)


def size(operand: Node) -> Node:
    return function("size", operand)


def of(operand: Node) -> Node:
    return function("optional.of", operand)


none = function("optional.none")


def has_value(operand: Node) -> Node:
    return function("hasValue", operand)


def value(operand: Node) -> Node:
    return function("value", operand)


def or_value(operand: Node, other: Node) -> Node:
    return function("orValue", operand, other)


def comprehension(accu: int, item: int, over: Node, init: Node, condition: Node, step: Node, result: Node) -> Node:
    says = f"fold(n{item} in {over}, n{accu} = {init}, while {condition}, {step}, {result})"
    return Node(15, bytes([accu, item]), (over, init, condition, step, result), says=says)


# CEL's macros, as its parser expands them; the accumulator is name `accu`, the item name `item`.


def all_of(over: Node, item: int, test: Node, accu: int = 120) -> Node:
    return comprehension(accu, item, over, true, not_strictly_false(name(accu)), both(name(accu), test), name(accu))


def exists(over: Node, item: int, test: Node, accu: int = 120) -> Node:
    going = not_strictly_false(negation(name(accu)))
    return comprehension(accu, item, over, false, going, either(name(accu), test), name(accu))


def exists_one(over: Node, item: int, test: Node, accu: int = 120) -> Node:
    step = conditional(test, plus(name(accu), integer(1)), name(accu))
    return comprehension(accu, item, over, integer(0), true, step, equals(name(accu), integer(1)))


def map_to(over: Node, item: int, part: Node, guard: "Node | None" = None, accu: int = 120) -> Node:
    step = plus(name(accu), listing(part))
    if guard is not None:
        step = conditional(guard, step, name(accu))
    return comprehension(accu, item, over, listing(), true, step, name(accu))


def filtered(over: Node, item: int, test: Node, accu: int = 120) -> Node:
    return map_to(over, item, name(item), test, accu)


# ---------------------------------------------------------------- assembling


@dataclass
class Assembled:
    table: bytes
    text: bytes
    records: "list[tuple[int, Node]]"

    def place(self, node: Node) -> int:
        """Where the first record of this very node starts."""
        return next(at for at, other in self.records if other is node)


def assemble(root: Node, text: bytes = b"") -> Assembled:
    """The table, and the literal text: `text`, then each span that it does not hold already."""
    records: list[tuple[int, Node]] = []
    pool = bytearray(text)

    def place(node: Node, at: int) -> bytes:
        records.append((at, node))
        fields = node.fields
        if node.span is not None:
            offset = pool.find(node.span)
            if offset < 0:
                offset = len(pool)
                pool.extend(node.span)
            fields += struct.pack("<HH", offset, len(node.span))
        parts, inside = [], at + len(fields) + (0 if node.kind == RAW else 3)
        for operand in node.operands:
            parts.append(place(operand, inside))
            inside += len(parts[-1])
        head = b"" if node.kind == RAW else bytes([node.kind]) + u16(inside - at if node.extent is None else node.extent)
        return head + fields + b"".join(parts)

    table = place(root, 0)
    return Assembled(table, bytes(pool), records)


def patched(table: bytes, at: int, other: bytes) -> bytes:
    """The table with other bytes from `at` on."""
    return table[:at] + other + table[at + len(other):]
