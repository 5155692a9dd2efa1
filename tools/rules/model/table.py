"""The node table: bytes and literal text to one expression, or a refusal 1 to 7. Rests on values."""

from __future__ import annotations

from dataclasses import dataclass, field

from .values import (NAMES, NULL, RECORD_NESTING_MAX, TABLE_MAX, Bool, Bytes, Double, Int, Refused, String, Uint, Value,
                     utf8_valid)

(K_NULL, K_BOOL, K_INT, K_UINT, K_DOUBLE, K_STRING, K_BYTES, K_NAME, K_UNARY, K_BINARY, K_CONDITIONAL, K_SELECT, K_LIST,
 K_MAP, K_MARK, K_COMPREHENSION, K_FUNCTION) = range(17)
BODY = (2, 3, 10, 10, 10, 6, 6, 3, 3, 3, 2, 7, 4, 4, 2, 4, 3)
UNARY = ("!", "-", "not-strictly-false")
BINARY = ("||", "&&", "==", "!=", "index", "optional index", "optional select", "+", "-", "/", "*", "%", "<", "<=", ">",
          ">=", "in")
FUNCTIONS = ("size", "optional.of", "optional.none", "hasValue", "value", "orValue")
FUNCTION_OPERANDS = (1, 1, 0, 1, 1, 2)
OPERANDS = {K_UNARY: 1, K_BINARY: 2, K_CONDITIONAL: 3, K_SELECT: 1, K_MARK: 1, K_COMPREHENSION: 5}


@dataclass(eq=False)
class Record:
    """A record of an accepted table. What it holds depends on its kind."""

    kind: int
    place: int
    operands: list[Record] = field(default_factory=list)
    value: Value = NULL  # kinds 0 to 6
    name: int = 0  # name; accumulator of a comprehension
    item: int = 0  # item name of a comprehension
    operator: str = ""  # unary, binary, function
    test: bool = False  # select
    field: bytes = b""  # select


class Reader:
    """Reads records in table order; within one, refusals 2, 3, 4, 5, 6."""

    def __init__(self, table: bytes, text: bytes) -> None:
        self.table, self.text, self.at = table, text, 0

    def u16(self, at: int) -> int:
        return int.from_bytes(self.table[at:at + 2], "little")

    def span(self, at: int, utf8: bool) -> "bytes | None":
        """The text that an offset and a length name; None if it is wrong."""
        offset, length = self.u16(at), self.u16(at + 2)
        if offset + length > len(self.text):
            return None
        data = bytes(self.text[offset:offset + length])
        return None if utf8 and not utf8_valid(data) else data

    def operand_count(self, kind: int, fields: int) -> "int | None":
        """How many operands the record has; None for an unknown function, which is refused before they are read."""
        if kind in (K_LIST, K_MAP):
            return self.u16(fields) * (1 if kind == K_LIST else 2)
        if kind == K_FUNCTION:
            number = self.table[fields]
            return FUNCTION_OPERANDS[number - 1] if 1 <= number <= len(FUNCTIONS) else None
        return OPERANDS.get(kind, 0)

    def take_fields(self, record: Record, fields: int) -> bool:
        """Takes in what stands after the extent; False if it is wrong (refusal 5)."""
        kind, table = record.kind, self.table
        number = table[fields] if BODY[kind] > 2 else 0
        if kind == K_BOOL:
            record.value = Bool(number == 1)
            return number <= 1
        if kind in (K_INT, K_UINT, K_DOUBLE):
            word = int.from_bytes(table[fields:fields + 8], "little", signed=kind == K_INT)
            record.value = {K_INT: Int, K_UINT: Uint, K_DOUBLE: Double}[kind](word)
            return True
        if kind in (K_STRING, K_BYTES):
            data = self.span(fields, utf8=kind == K_STRING)
            if data is not None:
                record.value = String(data) if kind == K_STRING else Bytes(data)
            return data is not None
        if kind == K_NAME:
            record.name = number
            return number < NAMES
        if kind in (K_UNARY, K_BINARY, K_FUNCTION):
            names = {K_UNARY: UNARY, K_BINARY: BINARY, K_FUNCTION: FUNCTIONS}[kind]
            if 1 <= number <= len(names):
                record.operator = names[number - 1]
            return record.operator != ""
        if kind == K_SELECT:
            data = self.span(fields + 1, utf8=True)
            record.test, record.field = number == 1, data or b""
            return number <= 1 and data is not None
        if kind == K_COMPREHENSION:
            record.name, record.item = table[fields], table[fields + 1]
            return record.name < NAMES and record.item < NAMES
        return True

    def record(self, end: int, depth: int, may_mark: bool) -> Record:
        """The record that starts at `self.at`, inside a parent that ends at `end`."""
        place = self.at
        if place >= len(self.table):
            raise Refused(3, place)
        kind = self.table[place]
        if kind >= len(BODY):
            raise Refused(2, place)
        fields, head = place + 3, place + 1 + BODY[kind]
        if head > end:
            raise Refused(3, place)
        stop = place + self.u16(place + 1)
        operands = self.operand_count(kind, fields)
        if stop > end or stop < head or operands == 0 and stop != head:
            raise Refused(3, place)
        if depth > RECORD_NESTING_MAX:
            raise Refused(4, place)
        record = Record(kind, place)
        if not self.take_fields(record, fields):
            raise Refused(5, place)
        if kind == K_MARK and not may_mark:
            raise Refused(6, place)
        self.at = head
        for number in range(operands):
            marks = kind == K_LIST or kind == K_MAP and number % 2 == 1
            record.operands.append(self.record(stop, depth + 1, marks))
        if self.at != stop:
            raise Refused(3, place)
        return record


def read_table(table: bytes, text: bytes) -> Record:
    """One expression, or a refusal: 1 first, then the records' own, then 7."""
    if not 1 <= len(table) <= TABLE_MAX:
        raise Refused(1, 0)
    reader = Reader(table, text)
    root = reader.record(len(table), 1, may_mark=False)
    if reader.at != len(table):
        raise Refused(7, reader.at)
    return root
