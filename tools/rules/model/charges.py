"""Charges: the counts, the limits, and what the evaluation rooms hold. Rests on values."""

from __future__ import annotations

from typing import NamedTuple, Sequence

from .values import NULL, VALUE_NESTING_MAX, Exhausted, Limits, Value


class Charge(NamedTuple):
    """One charge: "Steps" (1), "Cells" or "Text" (how many, from where, what they hold at the end), or "Nesting"."""

    what: str
    amount: int
    start: int = 0
    held: "tuple[Value, ...] | bytes" = ()


class Meter:
    """Makes the charges; one that would pass its limit is not made and ends the run."""

    def __init__(self, limits: Limits, trace: "list[Charge] | None" = None) -> None:
        self.limits, self.trace = limits, trace
        self.steps = 0
        self.cells: list[Value] = []
        self.text = bytearray()

    def charge(self, what: str, amount: int, used: int, limit: int) -> None:
        if used + amount > limit:
            raise Exhausted(what)
        if self.trace is not None:
            self.trace.append(Charge(what, amount, used))

    def step(self) -> None:
        self.charge("Steps", 1, self.steps, self.limits.steps)
        self.steps += 1

    def take(self, count: int) -> int:
        """Takes cells, Null at first; gives where they start."""
        start = len(self.cells)
        self.charge("Cells", count, start, self.limits.cells)
        self.cells.extend([NULL] * count)
        return start

    def store(self, values: Sequence[Value]) -> None:
        """Takes a cell for each value and fills it."""
        start = self.take(len(values))
        self.cells[start:] = values

    def write(self, data: bytes) -> None:
        """Takes text."""
        self.charge("Text", len(data), len(self.text), self.limits.text)
        self.text += data

    def nesting(self, value: Value) -> Value:
        """Judges a value that is whole."""
        self.charge("Nesting", value.nest, 0, VALUE_NESTING_MAX)
        return value

    def counts(self) -> tuple[int, int, int]:
        return self.steps, len(self.cells), len(self.text)

    def close_trace(self) -> None:
        """Puts into the charges of cells and text what those hold at the end of the run."""
        rooms = {"Cells": tuple(self.cells), "Text": bytes(self.text)}
        for at, charge in enumerate(self.trace or []):
            if charge.what in rooms:
                held = rooms[charge.what][charge.start:charge.start + charge.amount]
                self.trace[at] = charge._replace(held=held)


def limited(trace: list[Charge], limits: Limits) -> "tuple[str | None, tuple[int, ...]]":
    """Walks a trace: the kind of the first charge that would pass its limit (None if all fit), and the counts."""
    counts = {"Steps": 0, "Cells": 0, "Text": 0}
    most = dict(zip(counts, limits.cut()))
    for what, amount, *_ in trace:
        if what == "Nesting":
            if amount > VALUE_NESTING_MAX:
                return what, tuple(counts.values())
        elif counts[what] + amount > most[what]:
            return what, tuple(counts.values())
        else:
            counts[what] += amount
    return None, tuple(counts.values())
