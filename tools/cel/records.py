"""Tables as readable records and back, byte for byte, the damaged ones too.

    disassemble(table, text)      lines of text
    assembled(lines)              the table and the literal text

    text "name"                       the literal text; `text "a" * 500` repeats a piece, and pieces follow each other
        0  binary &&                  a record a line: its place, which a person may leave out, its kind, its fields
        4    select test 0+4 "name"   operands stand deeper than their record; a span is offset+length, or the text alone
       12      name 1
       16    bool true

Kinds: null | bool true | int -3 | uint 4 | double 0x3FF0000000000000 or 1.5 | string SPAN | bytes SPAN | name 7 |
unary OPERATOR | binary OPERATOR | conditional | select [test] SPAN | list | map | mark | comprehension ACCUMULATOR ITEM |
function NAME. Operators and functions have the names of model/table.py; a number there may be a wrong one.

The extent of a record and the count of a list or map follow from the lines below them; `extent N` and `count N` put another
number there. `raw HEX` is bytes that are no record. `#` opens a comment.
"""

from __future__ import annotations

import re
import struct
from typing import Iterable, Iterator

from assemble import RAW, Node, assemble, double, u16
from model.table import (BINARY, BODY, FUNCTION_OPERANDS, FUNCTIONS, K_BINARY, K_BOOL, K_BYTES, K_COMPREHENSION, K_DOUBLE,
                         K_FUNCTION, K_INT, K_LIST, K_MAP, K_NAME, K_SELECT, K_STRING, K_UINT, K_UNARY, OPERANDS, UNARY)
from model.values import RECORD_NESTING_MAX, quoted

WORDS = ("null", "bool", "int", "uint", "double", "string", "bytes", "name", "unary", "binary", "conditional", "select", "list",
         "map", "mark", "comprehension", "function")
NUMBERED = {K_UNARY: UNARY, K_BINARY: BINARY, K_FUNCTION: FUNCTIONS}
SHOWN = 40  # bytes of a span that a line shows
PIECE = 64  # bytes of the literal text on a line
WORD = re.compile(r'"(?:\\x[0-9A-Fa-f]{2}|[^"\\])*"|#.*|[^\s"#]+')


class RecordsError(Exception):
    """What is wrong with a line, its number before it."""


# ---------------------------------------------------------------- bytes to records


class Reading:
    """Reads records by their kinds and counts alone; what cannot be read so is raw, and with it all the rest."""

    def __init__(self, table: bytes) -> None:
        self.table, self.at, self.stopped = table, 0, False

    def rest(self) -> "list[Node]":
        raw, self.at, self.stopped = self.table[self.at:], len(self.table), True
        return [Node(RAW, raw)] if raw else []

    def operands(self, kind: int, fields: bytes) -> "int | None":
        if kind in (K_LIST, K_MAP):
            return int.from_bytes(fields, "little") * (1 if kind == K_LIST else 2)
        if kind == K_FUNCTION:
            return FUNCTION_OPERANDS[fields[0] - 1] if 1 <= fields[0] <= len(FUNCTIONS) else None
        return OPERANDS.get(kind, 0)

    def record(self, depth: int) -> "list[Node]":
        """The record that begins here; none where the table ends."""
        place, table = self.at, self.table
        kind = table[place] if place < len(table) else len(BODY)
        if kind >= len(BODY) or place + 1 + BODY[kind] > len(table) or depth > RECORD_NESTING_MAX + 1:
            return self.rest()
        self.at += 1 + BODY[kind]
        fields, parts = table[place + 3:self.at], []
        count = self.operands(kind, fields)
        if count is None:
            parts = self.rest()
        while not self.stopped and len(parts) < count:
            parts += self.record(depth + 1)
        extent = int.from_bytes(table[place + 1:place + 3], "little")
        return [Node(kind, fields, tuple(parts), extent=None if extent == (self.at - place) % 65_536 else extent)]


def read(table: bytes) -> Node:
    """All of the table: a raw node that holds the root and what follows it."""
    reading = Reading(table)
    return Node(RAW, b"", tuple(reading.record(1) + reading.rest()))


# ---------------------------------------------------------------- records to lines


def disassemble(table: bytes, text: bytes) -> "list[str]":
    top = read(table)
    made = assemble(top)
    assert made.table == table
    depths = {id(top): -1}
    lines = [f"text {piece}" for piece in text_pieces(text)]
    for place, node in made.records:
        depths.update((id(part), depths[id(node)] + 1) for part in node.operands)
        if node is not top:
            lines.append(f"{place:5}  " + "  " * depths[id(node)] + record_words(node, text))
    return lines


def text_pieces(text: bytes) -> Iterator[str]:
    at = 0
    while at < len(text):
        run = len(text) - at - len(text[at:].lstrip(text[at:at + 1]))
        if run > PIECE:
            yield f"{quoted(text[at:at + 1])} * {run}"
        else:
            run = PIECE
            yield quoted(text[at:at + PIECE])
        at += run


def record_words(node: Node, text: bytes) -> str:
    if node.kind == RAW:
        return f"raw {node.fields.hex()}"
    words = [WORDS[node.kind], *field_words(node, text)]
    if node.extent is not None:
        words.append(f"extent {node.extent}")
    return " ".join(words)


def counted(node: Node) -> int:
    """The count of a list or map that has these operands."""
    return sum(part.kind != RAW for part in node.operands) // (2 if node.kind == K_MAP else 1)


def field_words(node: Node, text: bytes) -> "list[str]":
    kind, fields = node.kind, node.fields
    if kind == K_BOOL:
        return [("false", "true")[fields[0]] if fields[0] < 2 else str(fields[0])]
    if kind in (K_INT, K_UINT):
        return [str(int.from_bytes(fields, "little", signed=kind == K_INT))]
    if kind == K_DOUBLE:
        return [f"0x{int.from_bytes(fields, 'little'):016X}"]
    if kind in (K_STRING, K_BYTES):
        return span_words(fields, text)
    if kind == K_SELECT:
        return [{0: "", 1: "test "}.get(fields[0], f"test {fields[0]} ") + span_words(fields[1:], text)[0], *span_words(fields[1:], text)[1:]]
    if kind in NUMBERED:
        names = NUMBERED[kind]
        return [names[fields[0] - 1] if 1 <= fields[0] <= len(names) else str(fields[0])]
    if kind in (K_LIST, K_MAP):
        count = int.from_bytes(fields, "little")
        return [] if count == counted(node) else [f"count {count}"]
    return [str(number) for number in fields]  # name, comprehension


def span_words(fields: bytes, text: bytes) -> "list[str]":
    offset, length = struct.unpack("<HH", fields)
    if offset + length > len(text):
        return [f"{offset}+{length}"]
    shown = quoted(text[offset:offset + min(length, SHOWN)])
    return [f"{offset}+{length}", shown if length <= SHOWN else f"# begins {shown}"]


# ---------------------------------------------------------------- lines to records


def assembled(lines: "Iterable[str]") -> "tuple[bytes, bytes]":
    """The table and the literal text that the lines spell."""
    text = bytearray()
    stack: "list[tuple[int, list]]" = [(-1, [])]  # (column, the parts below it), the innermost last
    for number, line in enumerate(lines, 1):
        try:
            words = [word for word in WORD.findall(line.rstrip("\n")) if not word.startswith("#")]
            if not words:
                continue
            if words[0] == "text":
                text += text_line(words[1:])
                continue
            column = len(line) - len(line.lstrip(" 0123456789"))
            words = words[1:] if words[0].isdigit() else words
            parts: list = []
            while stack[-1][0] >= column:
                stack.pop()
            stack[-1][1].append((words, parts, number))
            stack.append((column, parts))
        except (ValueError, IndexError) as wrong:
            raise RecordsError(f"line {number}: {wrong}") from None
    made = assemble(Node(RAW, b"", tuple(node_of(*part, bytes(text)) for part in stack[0][1])), bytes(text))
    return made.table, made.text


def unquoted(word: str) -> bytes:
    if not word.startswith('"'):
        raise ValueError(f"{word} is no quoted text")
    return re.sub(rb"\\x(..)", lambda found: bytes.fromhex(found[1].decode()), word[1:-1].encode())


def text_line(words: "list[str]") -> bytes:
    if len(words) == 3 and words[1] == "*":
        return unquoted(words[0]) * int(words[2])
    if len(words) != 1:
        raise ValueError('text takes "..", or ".." * COUNT')
    return unquoted(words[0])


def node_of(words: "list[str]", below: list, number: int, text: bytes) -> Node:
    parts = tuple(node_of(*part, text) for part in below)
    try:
        if words[0] == "raw":
            return Node(RAW, bytes.fromhex("".join(words[1:])), parts)
        kind, given = WORDS.index(words[0]), {}
        words = words[1:]
        while len(words) >= 2 and words[-2] in ("extent", "count"):
            given[words[-2]] = int(words[-1])
            words = words[:-2]
        node = Node(kind, operands=parts, extent=given.get("extent"))
        take_fields(node, words, text)
        if kind in (K_LIST, K_MAP):
            node.fields = u16(given.get("count", counted(node)))
        return node
    except (ValueError, IndexError, struct.error) as wrong:
        raise RecordsError(f"line {number}: {wrong}") from None


def take_fields(node: Node, words: "list[str]", text: bytes) -> None:
    kind = node.kind
    if kind in (K_BOOL, K_INT, K_UINT, K_DOUBLE) and len(words) > 1:
        raise ValueError(f"{WORDS[kind]} has no field {words[1]}")
    if kind in (K_STRING, K_BYTES):
        take_span(node, b"", words, text)
    elif kind == K_SELECT:
        test = words[:1] == ["test"]
        flag = int(words[1]) if test and words[1].isdigit() else int(test)
        take_span(node, bytes([flag]), words[2 if test and words[1].isdigit() else int(test):], text)
    elif kind == K_BOOL:
        node.fields = bytes([{"false": 0, "true": 1}[words[0]] if words[0] in ("false", "true") else int(words[0])])
    elif kind in (K_INT, K_UINT):
        node.fields = struct.pack("<q" if kind == K_INT else "<Q", int(words[0]))
    elif kind == K_DOUBLE:
        hexed = words[0].startswith("0x")
        node.fields = struct.pack("<Q", int(words[0], 16)) if hexed else double(float(words[0])).fields
    elif kind in NUMBERED:
        name = " ".join(words)
        node.fields = bytes([int(name) if name.isdigit() else NUMBERED[kind].index(name) + 1])
    elif kind in (K_NAME, K_COMPREHENSION):
        node.fields = bytes(int(word) for word in words)
    elif words:
        raise ValueError(f"{WORDS[kind]} has no field {words[0]}")
    if node.span is None and kind not in (K_LIST, K_MAP) and len(node.fields) != BODY[kind] - 2:
        raise ValueError(f"{WORDS[kind]} has {BODY[kind] - 2} bytes of fields")


def take_span(node: Node, before: bytes, words: "list[str]", text: bytes) -> None:
    """A span by offset and length, with its text for the reader, or by its text alone."""
    if len(words) > (1 if words[0].startswith('"') else 2):
        raise ValueError(f"a span has no field {words[-1]}")
    if words[0].startswith('"'):
        node.fields, node.span = before, unquoted(words[0])
        return
    offset, length = map(int, words[0].split("+"))
    if words[1:] and text[offset:offset + length] != unquoted(words[1]):
        raise ValueError(f"the text has {quoted(text[offset:offset + length])} there")
    node.fields = before + struct.pack("<HH", offset, length)
