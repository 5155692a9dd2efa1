"""Bindings: the room they lie in, its soundness, bringing in, emptying. Rests on table and comparison.

A cell is ("Null",), ("Bool", 0 or 1), ("Int", n), ("Uint", n), ("Double", bits), ("String", start, length), ("Bytes",
start, length), ("List", start, n), ("Map", start, n), or ("Other",), which stands for all that no binding writes.
"""

from __future__ import annotations

from dataclasses import dataclass, field
from typing import Iterator

from .comparison import keys_match
from .evaluation import Scope
from .table import K_BOOL, K_BYTES, K_INT, K_LIST, K_MAP, K_STRING, K_UINT, Record, read_table
from .values import (CELLS_MAX, NAMES, NULL, TEXT_MAX, VALUE_NESTING_MAX, Bool, Bytes, Double, Int, List, Map, Null,
                     Refused, String, Uint, Value, utf8_valid)

Cell = tuple
SCALARS = {"Null": lambda: NULL, "Bool": lambda bit: Bool(bit == 1), "Int": Int, "Uint": Uint, "Double": Double}
KEYS = ("Int", "Uint", "Bool", "String")


@dataclass
class Room:
    """The lent cells and text, whole; how much of each is used; a slot for each name, None if absent."""

    cells: list[Cell]
    text: bytearray
    used_cells: int = 0
    used_text: int = 0
    slots: "list[Cell | None]" = field(default_factory=lambda: [None] * NAMES)

    @staticmethod
    def lent(cells: int = CELLS_MAX, text: int = TEXT_MAX) -> Room:
        return Room([("Null",)] * cells, bytearray(text))

    def cell_limit(self) -> int:
        return min(len(self.cells), CELLS_MAX)

    def text_limit(self) -> int:
        return min(len(self.text), TEXT_MAX)

    def value(self, cell: Cell) -> Value:
        """The value that a cell or slot of a sound room holds."""
        kind = cell[0]
        if kind in SCALARS:
            return SCALARS[kind](*cell[1:])
        _, start, length = cell
        if kind in ("String", "Bytes"):
            return (String if kind == "String" else Bytes)(bytes(self.text[start:start + length]))
        parts = [self.value(part) for part in self.cells[start:start + cells_of(cell)]]
        return List(tuple(parts)) if kind == "List" else Map(tuple(zip(parts[::2], parts[1::2])))

    def scope(self) -> Scope:
        return [None if slot is None else self.value(slot) for slot in self.slots]


def cells_of(cell: Cell) -> int:
    """How many cells a container's cell refers to."""
    return cell[2] * (2 if cell[0] == "Map" else 1)


class Soundness:
    """Judges the cells and slots of a room. `least` is the first cell that a container may refer to."""

    def __init__(self, room: Room) -> None:
        self.room = room
        self.cells = room.cells[:min(room.used_cells, room.cell_limit())]
        self.text = bytes(room.text[:min(room.used_text, room.text_limit())])
        self.nests = [0] * len(self.cells)
        for at in reversed(range(len(self.cells))):
            self.nests[at] = self.nest(self.cells[at], at + 1)

    def refers_well(self, cell: Cell, least: int) -> bool:
        return least <= cell[1] and cell[1] + cells_of(cell) <= len(self.cells)

    def nest(self, cell: Cell, least: int) -> int:
        """The nesting of a cell; parts that a bad reference names do not count."""
        if cell[0] not in ("List", "Map"):
            return 0
        parts = self.nests[cell[1]:cell[1] + cells_of(cell)] if self.refers_well(cell, least) else []
        return 1 + max(parts, default=0)

    def span(self, cell: Cell) -> "bytes | None":
        return self.text[cell[1]:cell[1] + cell[2]] if cell[1] + cell[2] <= len(self.text) else None

    def keys_good(self, keys: list[Cell]) -> bool:
        """Kinds of key, no two that match. A String with a bad span matches none: its own cell is bad."""
        if any(key[0] not in KEYS for key in keys):
            return False
        known: list[Value] = []
        for key in keys:
            data = self.span(key) if key[0] == "String" else None
            if key[0] == "String" and data is None:
                continue
            value = SCALARS[key[0]](*key[1:]) if data is None else String(data)
            if any(keys_match(value, other) for other in known):
                return False
            known.append(value)
        return True

    def good(self, cell: Cell, least: int) -> bool:
        kind = cell[0]
        if kind in SCALARS:
            return True
        if kind in ("String", "Bytes"):
            data = self.span(cell)
            return data is not None and (kind == "Bytes" or utf8_valid(data))
        if kind not in ("List", "Map") or not self.refers_well(cell, least) or self.nest(cell, least) > VALUE_NESTING_MAX:
            return False
        return kind == "List" or self.keys_good(self.cells[cell[1]:cell[1] + cells_of(cell):2])


def unsound(room: Room) -> "int | None":
    """Refusal 8 for a room: its first bad cell, 0 if only a slot or a used count is bad; None if the room is sound."""
    judge = Soundness(room)
    for at, cell in enumerate(judge.cells):
        if not judge.good(cell, at + 1):
            return at
    if room.used_cells > room.cell_limit() or room.used_text > room.text_limit():
        return 0
    return None if all(slot is None or judge.good(slot, 0) for slot in room.slots) else 0


def records_in_order(record: Record) -> Iterator[Record]:
    yield record
    for operand in record.operands:
        yield from records_in_order(operand)


def spelled_nesting(record: Record) -> int:
    """How deep a binding's containers nest, keys included."""
    if record.kind not in (K_LIST, K_MAP):
        return 0
    return 1 + max(map(spelled_nesting, record.operands), default=0)


def wrong_key(record: Record) -> "int | None":
    """The place of the first key, in table order, of a wrong kind or matching an earlier key of its Map."""
    for number, operand in enumerate(record.operands):
        if record.kind == K_MAP and number % 2 == 0:
            if operand.kind not in (K_BOOL, K_INT, K_UINT, K_STRING):
                return operand.place
            if any(keys_match(operand.value, earlier.value) for earlier in record.operands[:number:2]):
                return operand.place
        else:
            inside = wrong_key(operand)
            if inside is not None:
                return inside
    return None


def bring_in(room: Room, name: int, table: bytes, text: bytes) -> None:
    """Brings in a binding, or refuses and changes nothing: 8 (room), 5 (name), 11, 1 to 7, 9, 8 (binding), 10."""
    bad = unsound(room)
    if bad is not None:
        raise Refused(8, bad)
    if not 0 <= name < NAMES:
        raise Refused(5, 0)
    if room.slots[name] is not None:
        raise Refused(11, 0)
    root = read_table(table, text)
    records = list(records_in_order(root))
    for record in records:
        if record.kind > K_BYTES and record.kind not in (K_LIST, K_MAP):
            raise Refused(9, record.place)
    if spelled_nesting(root) > VALUE_NESTING_MAX:
        raise Refused(8, root.place)
    bad = wrong_key(root)
    if bad is not None:
        raise Refused(8, bad)
    cells = sum(len(record.operands) for record in records)
    text_bytes = sum(len(record.value.data) for record in records if record.kind in (K_STRING, K_BYTES))
    if room.used_cells + cells > room.cell_limit() or room.used_text + text_bytes > room.text_limit():
        raise Refused(10, 0)
    room.slots[name] = place_value(room, root)


def place_value(room: Room, record: Record) -> Cell:
    """Writes what a record spells into the room, a container's cells before its parts'; gives the cell for it."""
    value = record.value
    if record.kind in (K_LIST, K_MAP):
        start, count = room.used_cells, len(record.operands)
        room.used_cells += count
        for number, operand in enumerate(record.operands):
            room.cells[start + number] = place_value(room, operand)
        return ("List", start, count) if record.kind == K_LIST else ("Map", start, count // 2)
    if isinstance(value, (String, Bytes)):
        start = room.used_text
        room.text[start:start + len(value.data)] = value.data
        room.used_text += len(value.data)
        return type(value).__name__, start, len(value.data)
    if isinstance(value, Null):
        return ("Null",)
    if isinstance(value, Bool):
        return "Bool", int(value.truth)
    return type(value).__name__, value.bits if isinstance(value, Double) else value.number


def empty(room: Room) -> None:
    """Emptying: every name absent, all of the room serves again; no lent memory is touched."""
    room.used_cells = room.used_text = 0
    room.slots = [None] * NAMES
