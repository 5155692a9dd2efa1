"""The CEL text of an accepted table: what parse.py makes the same records of again.

    unparse(record, names)      a record of model/table.py to text

Macros are told by their shape. What CEL cannot say is written with the words with `@` that parse.py takes.
"""

from __future__ import annotations

import re
import struct

from lexer import KEYWORDS
from model.numbers import is_infinite, is_nan
from model.table import (K_BINARY, K_CONDITIONAL, K_FUNCTION, K_LIST, K_MAP, K_MARK, K_NAME, K_SELECT, K_UNARY,
                         Record)
from model.values import Bool, Bytes, Double, Int, Null, String, Uint, Value, quoted
from names import MACRO_NAMES, Names

# How tightly a form binds: an operand is put in brackets where it binds less than its place asks for.
CONDITIONAL, OR, AND, RELATION, ADDITION, MULTIPLICATION, UNARY, MEMBER, PRIMARY = range(9)
LEVELS = {"||": OR, "&&": AND, "+": ADDITION, "-": ADDITION, "*": MULTIPLICATION, "/": MULTIPLICATION, "%": MULTIPLICATION}
RESULT = MACRO_NAMES["@result"]


def unparse(record: Record, names: "Names | None" = None) -> str:
    return Writer(Names() if names is None else names).text(record, CONDITIONAL)


def literal(value: Value) -> "tuple[str, int]":
    """A literal and how tightly it binds; a number binds as if it had a minus, which can be read only in front."""
    if isinstance(value, Null):
        return "null", PRIMARY
    if isinstance(value, Bool):
        return ("true" if value.truth else "false"), PRIMARY
    if isinstance(value, (Int, Uint)):
        return str(value.number) + ("u" if isinstance(value, Uint) else ""), UNARY
    if isinstance(value, Double):
        if is_nan(value.bits) or is_infinite(value.bits):
            return f"@double(0x{value.bits:016x}u)", PRIMARY
        return repr(struct.unpack("<d", struct.pack("<Q", value.bits))[0]), UNARY
    if isinstance(value, Bytes):
        return "b" + quoted(value.data), PRIMARY
    return string(value.data), PRIMARY


def string(data: bytes) -> str:
    def spelled(char: str) -> str:
        if char in '"\\':
            return "\\" + char
        return char if char.isprintable() else f"\\u{ord(char):04x}" if ord(char) < 0x10000 else f"\\U{ord(char):08x}"
    return '"' + "".join(map(spelled, data.decode())) + '"'


def field(data: bytes) -> "str | None":
    """A field's name as it can stand after a dot; None if it cannot."""
    name = data.decode()
    if re.fullmatch("[_a-zA-Z][_a-zA-Z0-9]*", name) and name not in KEYWORDS:
        return name
    return f"`{name}`" if re.fullmatch("[a-zA-Z0-9_.\\-/ ]+", name) else None


class Writer:
    def __init__(self, names: Names) -> None:
        self.names = names

    def text(self, record: Record, level: int) -> str:
        says, binds = self.form(record)
        return f"({says})" if binds < level else says

    def listed(self, records: "list[Record]") -> str:
        return ", ".join(self.text(record, CONDITIONAL) for record in records)

    def form(self, record: Record) -> "tuple[str, int]":
        kind, operands = record.kind, record.operands
        if kind < K_NAME:
            return literal(record.value)
        if kind == K_NAME:
            return self.names.name(record.name), PRIMARY
        if kind == K_UNARY:
            return self.unary(record)
        if kind == K_BINARY:
            return self.binary(record)
        if kind == K_CONDITIONAL:
            condition, if_true, if_false = operands
            return f"{self.text(condition, OR)} ? {self.text(if_true, OR)} : {self.text(if_false, CONDITIONAL)}", CONDITIONAL
        if kind == K_SELECT:
            return self.select(record)
        if kind == K_LIST:
            return f"[{', '.join(self.part(operand) for operand in operands)}]", PRIMARY
        if kind == K_MAP:
            return "{" + ", ".join(map(self.entry, operands[::2], operands[1::2])) + "}", PRIMARY
        if kind == K_FUNCTION:
            return self.function(record)
        return self.comprehension(record), MEMBER

    def part(self, record: Record) -> str:
        return "?" * (record.kind == K_MARK) + self.text(self.inside(record), CONDITIONAL)

    def inside(self, record: Record) -> Record:
        return record.operands[0] if record.kind == K_MARK else record

    def entry(self, key: Record, value: Record) -> str:
        return "?" * (value.kind == K_MARK) + f"{self.text(key, CONDITIONAL)}: {self.text(self.inside(value), CONDITIONAL)}"

    def unary(self, record: Record) -> "tuple[str, int]":
        operand = record.operands[0]
        if record.operator == "not-strictly-false":
            return f"@not_strictly_false({self.text(operand, CONDITIONAL)})", PRIMARY
        says, binds = self.form(operand)
        same = operand.kind == K_UNARY and operand.operator == record.operator
        bare = binds > UNARY or same
        return record.operator + (says if bare else f"({says})"), UNARY

    def binary(self, record: Record) -> "tuple[str, int]":
        operator, (left, right) = record.operator, record.operands
        if operator in ("index", "optional index"):
            return f"{self.text(left, MEMBER)}[{'?' * (operator != 'index')}{self.text(right, CONDITIONAL)}]", MEMBER
        if operator == "optional select":
            name = field(right.value.data) if isinstance(right.value, String) and right.kind < K_NAME else None
            if name is not None:
                return f"{self.text(left, MEMBER)}.?{name}", MEMBER
            return f"@optional_select({self.listed([left, right])})", PRIMARY
        level = LEVELS.get(operator, RELATION)
        return f"{self.text(left, level)} {operator} {self.text(right, level + 1)}", level

    def select(self, record: Record) -> "tuple[str, int]":
        name = field(record.field)
        if name is None:
            return f"{'@has' if record.test else '@select'}({self.listed(record.operands)}, {string(record.field)})", PRIMARY
        says = f"{self.text(record.operands[0], MEMBER)}.{name}"
        return (f"has({says})", PRIMARY) if record.test else (says, MEMBER)

    def function(self, record: Record) -> "tuple[str, int]":
        name, operands = record.operator, record.operands
        if name in ("size", "optional.of", "optional.none"):
            return f"{name}({self.listed(operands)})", MEMBER
        return f"{self.text(operands[0], MEMBER)}.{name}({self.listed(operands[1:])})", MEMBER

    # ------------------------------------------------------------ comprehensions

    def comprehension(self, record: Record) -> str:
        macro = macro_of(record)
        if macro is None:
            names = [self.names.name(record.name), self.names.name(record.item)]
            return f"@fold({', '.join(names)}, {self.listed(record.operands)})"
        called, given = macro
        return f"{self.text(record.operands[0], MEMBER)}.{called}({self.names.name(record.item)}, {self.listed(given)})"


def is_result(record: Record) -> bool:
    return record.kind == K_NAME and record.name == RESULT


def is_literal(record: Record, value: Value) -> bool:
    return record.kind < K_NAME and record.value == value


def is_operator(record: Record, operator: str) -> bool:
    return record.kind in (K_UNARY, K_BINARY) and record.operator == operator


def macro_of(record: Record) -> "tuple[str, list[Record]] | None":
    """The macro that gives this comprehension, and what it is given after the item's name."""
    _, init, condition, step, result = record.operands
    if record.name != RESULT or record.item == RESULT:
        return None
    if is_literal(condition, Bool(True)):
        return gathering(init, step, result, record.item) or counting(init, step, result)
    if not (is_result(result) and is_operator(condition, "not-strictly-false") and step.kind == K_BINARY and is_result(step.operands[0])):
        return None
    going = condition.operands[0]
    if is_literal(init, Bool(True)) and is_result(going) and step.operator == "&&":
        return "all", [step.operands[1]]
    if is_literal(init, Bool(False)) and is_operator(going, "!") and is_result(going.operands[0]) and step.operator == "||":
        return "exists", [step.operands[1]]
    return None


def gathering(init: Record, step: Record, result: Record, item: int) -> "tuple[str, list[Record]] | None":
    """filter, or map with a guard or without."""
    guard: "list[Record]" = []
    if step.kind == K_CONDITIONAL and is_result(step.operands[2]):
        guard, step = [step.operands[0]], step.operands[1]
    if init.kind == K_LIST and not init.operands and is_result(result) and is_operator(step, "+") and is_result(step.operands[0]):
        items = step.operands[1]
        if items.kind == K_LIST and len(items.operands) == 1 and items.operands[0].kind != K_MARK:
            if guard and items.operands[0].kind == K_NAME and items.operands[0].name == item:
                return "filter", guard
            return "map", guard + items.operands
    return None


def counting(init: Record, step: Record, result: Record) -> "tuple[str, list[Record]] | None":
    one = Int(1)
    if not (is_literal(init, Int(0)) and is_operator(result, "==") and step.kind == K_CONDITIONAL):
        return None
    test, more, same = step.operands
    adds = is_operator(more, "+") and is_result(more.operands[0]) and is_literal(more.operands[1], one)
    counts = is_result(result.operands[0]) and is_literal(result.operands[1], one)
    return ("exists_one", [test]) if adds and counts and is_result(same) else None
