"""Limits, the ways a run ends, values with their nesting, and UTF-8. Rests on nothing."""

from __future__ import annotations

from dataclasses import dataclass, field
from typing import Iterable, NamedTuple, Union

# ---------------------------------------------------------------- limits

TABLE_MAX = 16_384
RECORD_NESTING_MAX = 64
VALUE_NESTING_MAX = 32
NAMES = 128
STEPS_MAX = 1_000_000
CELLS_MAX = 4_096
TEXT_MAX = 16_384


class Limits(NamedTuple):
    """What is lent: a step limit, and the lengths of the cell room and the text room."""

    steps: int
    cells: int
    text: int

    def cut(self) -> Limits:
        """Cut to document 01's limits."""
        return Limits(min(self.steps, STEPS_MAX), min(self.cells, CELLS_MAX), min(self.text, TEXT_MAX))


# ---------------------------------------------------------------- how a run ends


class Refused(Exception):
    """A refusal: its number and its place."""

    def __init__(self, number: int, place: int) -> None:
        super().__init__(number, place)
        self.number, self.place = number, place


class Fault(Exception):
    """A record's rule gives this error number; the record adds its place."""

    def __init__(self, number: int) -> None:
        super().__init__(number)
        self.number = number


class Error(Exception):
    """The error of an evaluated record: its number and its place."""

    def __init__(self, number: int, place: int) -> None:
        super().__init__(number, place)
        self.number, self.place = number, place


class Exhausted(Exception):
    """A charge would pass its limit. No rule catches it."""

    def __init__(self, which: str) -> None:
        super().__init__(which)
        self.which = which


UNDECLARED_REFERENCE, BOOL_WANTED, NO_OVERLOAD, FUNCTION_ERROR, NO_SUCH_KEY, OVERFLOW = 1, 2, 3, 4, 5, 6
DIVISION_BY_ZERO, REMAINDER_BY_ZERO, DUPLICATE_KEY, INDEX_OUT_OF_BOUNDS, UNSUPPORTED_KEY_TYPE = 7, 8, 9, 10, 11
UNORDERED, ITERABLE_WANTED = 12, 13

# ---------------------------------------------------------------- values
#
# `nest` counts how deep a value goes: 0 where it has no parts to hold, 1 for an empty container, else one level above the
# deepest part. `leaves` is how long a value is when spelled out (parts may be shared).


class Scalar:
    nest = 0
    leaves = 1


@dataclass(frozen=True)
class Null(Scalar):
    pass


@dataclass(frozen=True)
class Bool(Scalar):
    truth: bool


@dataclass(frozen=True)
class Int(Scalar):
    number: int


@dataclass(frozen=True)
class Uint(Scalar):
    number: int


@dataclass(frozen=True)
class Double(Scalar):
    """A Double is its 64 bits."""

    bits: int


@dataclass(frozen=True)
class String(Scalar):
    data: bytes


@dataclass(frozen=True)
class Bytes(Scalar):
    data: bytes


@dataclass(frozen=True)
class Container:
    nest: int = field(init=False, compare=False, repr=False)
    leaves: int = field(init=False, compare=False, repr=False)

    def parts(self) -> Iterable[Value]:
        raise NotImplementedError

    def __post_init__(self) -> None:
        parts = tuple(self.parts())
        object.__setattr__(self, "nest", 1 + max((part.nest for part in parts), default=0))
        object.__setattr__(self, "leaves", 1 + sum(part.leaves for part in parts))


@dataclass(frozen=True)
class List(Container):
    items: tuple[Value, ...]

    def parts(self) -> Iterable[Value]:
        return self.items


@dataclass(frozen=True)
class Map(Container):
    """Entries in the order in which they were made."""

    entries: tuple[tuple[Value, Value], ...]

    def parts(self) -> Iterable[Value]:
        return (part for entry in self.entries for part in entry)


@dataclass(frozen=True)
class Optional(Container):
    part: Union[Value, None]

    def parts(self) -> Iterable[Value]:
        return () if self.part is None else (self.part,)

    def __post_init__(self) -> None:
        super().__post_init__()
        if self.part is None:
            object.__setattr__(self, "nest", 0)


Value = Union[Null, Bool, Int, Uint, Double, String, Bytes, List, Map, Optional]
NULL, NONE, EMPTY_LIST = Null(), Optional(None), List(())


def quoted(data: bytes) -> str:
    """Text as `ask` prints it: bytes from 0x20 to 0x7E as they are but for quote and backslash, all others as \\xHH."""
    return '"' + "".join(chr(byte) if 0x20 <= byte <= 0x7E and byte not in b'"\\' else f"\\x{byte:02X}" for byte in data) + '"'


def show(value: Value, sort: bool = False) -> str:
    """The value as `ask` prints it; with `sort`, a map's entries by kind of key, then by key."""
    if isinstance(value, Null):
        return "Null"
    if isinstance(value, Bool):
        return "Bool true" if value.truth else "Bool false"
    if isinstance(value, (Int, Uint)):
        return f"{type(value).__name__} {value.number}"
    if isinstance(value, Double):
        return f"Double 0x{value.bits:016X}"
    if isinstance(value, (String, Bytes)):
        return f"{type(value).__name__} {quoted(value.data)}"
    if isinstance(value, List):
        return "List [" + ", ".join(show(item, sort) for item in value.items) + "]"
    if isinstance(value, Map):
        entries = sorted(value.entries, key=lambda entry: key_rank(entry[0])) if sort else value.entries
        return "Map {" + ", ".join(f"{show(k, sort)}: {show(v, sort)}" for k, v in entries) + "}"
    return "Optional none" if value.part is None else "Optional of " + show(value.part, sort)


def key_rank(key: Value) -> tuple:
    """Ints, Uints, Bools, Strings, each in their order."""
    payload = key.number if isinstance(key, (Int, Uint)) else key.truth if isinstance(key, Bool) else key.data
    return (Int, Uint, Bool, String).index(type(key)), payload


# ---------------------------------------------------------------- text


def utf8_valid(data: bytes) -> bool:
    """Well-formed UTF-8: Unicode's table 3-7, row by row."""
    at = 0
    while at < len(data):
        lead = data[at]
        if lead <= 0x7F:
            second, more = None, 0
        elif 0xC2 <= lead <= 0xDF:
            second, more = (0x80, 0xBF), 0
        elif lead == 0xE0:
            second, more = (0xA0, 0xBF), 1
        elif 0xE1 <= lead <= 0xEC or 0xEE <= lead <= 0xEF:
            second, more = (0x80, 0xBF), 1
        elif lead == 0xED:
            second, more = (0x80, 0x9F), 1
        elif lead == 0xF0:
            second, more = (0x90, 0xBF), 2
        elif 0xF1 <= lead <= 0xF3:
            second, more = (0x80, 0xBF), 2
        elif lead == 0xF4:
            second, more = (0x80, 0x8F), 2
        else:
            return False
        at += 1
        for low, high in ([second] if second else []) + [(0x80, 0xBF)] * more:
            if at >= len(data) or not low <= data[at] <= high:
                return False
            at += 1
    return True


def code_points(data: bytes) -> int:
    """How many code points well-formed UTF-8 holds: its bytes that continue none."""
    return sum(1 for byte in data if not 0x80 <= byte <= 0xBF)
