#!/usr/bin/env python3
"""Program `replay` by the model: the same lines in, the same lines out. Slow, and independent of the proved code.

    python3 replay.py < lines

    room CELLS TEXT                       a fresh empty binding room of these lengths
    bind NAME TEXTHEX TABLEHEX            ok, or NUMBER PLACE of the refusal
    empty                                 every name absent
    eval STEPS CELLS TEXT TEXTHEX TABLEHEX    the line of `ask`; what is lent, then the literal text and the table

`-` stands for no bytes; words have spaces between them. A line that is none of these, or has 524,288 bytes or more, is answered
with `bad line N`.
"""

from __future__ import annotations

import binascii
import sys
from typing import Iterator

from model import Limits, Outcome, Refused, Room, bring_in, empty, evaluate, show
from model.answers import answer_line
from model.values import CELLS_MAX, TEXT_MAX, List, Map, Optional, Value

LONGEST_VALUE = 1_000_000  # bytes of a value that a line shows
LINE = 524_288  # a line of this many bytes is bad


class Replay:
    """A binding room, and what each line does with it."""

    def __init__(self) -> None:
        self.room, self.number = Room.lent(), 0
        self.outcome: "Outcome | None" = None  # of the last eval

    def answer(self, line: str) -> "str | None":
        """The line that answers a line; None where nothing is printed."""
        self.number += 1
        if len(line) >= LINE:
            return f"bad line {self.number}"
        try:
            command, *words = (word for word in line.split(" ") if word)
            if command == "room" and len(words) == 2:
                cells, text = (number(word) for word in words)
                self.room = Room.lent(min(cells, CELLS_MAX), min(text, TEXT_MAX))
                return None
            if command == "empty" and not words:
                return empty(self.room)
            if command == "bind" and len(words) == 3:
                return self.bind(number(words[0]), unhex(words[2]), unhex(words[1]))
            if command == "eval" and len(words) == 5:
                return self.eval(Limits(*(number(word) for word in words[:3])), unhex(words[4]), unhex(words[3]))
        except ValueError:
            pass
        return f"bad line {self.number}"

    def bind(self, name: int, table: bytes, text: bytes) -> str:
        try:
            bring_in(self.room, name, table, text)
        except Refused as refused:
            return f"{refused.number} {refused.place}"
        return "ok"

    def eval(self, limits: Limits, table: bytes, text: bytes) -> str:
        self.outcome = evaluate(table, text, self.room, limits)
        return outcome_line(self.outcome.answer)


def number(word: str) -> int:
    if not (word.isascii() and word.isdigit()):
        raise ValueError(word)
    digits = word.lstrip("0")
    return int(digits or "0") if len(digits) <= 20 else 10**20  # above every limit


def unhex(word: str) -> bytes:
    return b"" if word == "-" else binascii.unhexlify(word)


def outcome_line(answer: tuple) -> str:
    if answer[0] != "value":
        return answer_line(answer)
    return "{} steps {} cells {} bytes {}".format(cut(answer[1]), *answer[2:])


def cut(value: Value) -> str:
    """The value as `ask` prints it, cut where it grows too long; parts that stand in it often make it long."""
    shown, length = [], 0
    for piece in pieces(value):
        shown.append(piece)
        length += len(piece)
        if length > LONGEST_VALUE:
            return "".join(shown)[:LONGEST_VALUE] + " ..."
    return "".join(shown)


def pieces(value: Value) -> Iterator[str]:
    if isinstance(value, List):
        yield "List ["
        for at, item in enumerate(value.items):
            yield ", " if at else ""
            yield from pieces(item)
        yield "]"
    elif isinstance(value, Map):
        yield "Map {"
        for at, (key, part) in enumerate(value.entries):
            yield ", " if at else ""
            yield from pieces(key)
            yield ": "
            yield from pieces(part)
        yield "}"
    elif isinstance(value, Optional) and value.part is not None:
        yield "Optional of "
        yield from pieces(value.part)
    else:
        yield show(value)


def eval_line(table: bytes, text: bytes, limits: "tuple[int, int, int]" = (1_000_000, CELLS_MAX, TEXT_MAX)) -> str:
    return "eval {} {} {} {} {}".format(*limits, text.hex() or "-", table.hex() or "-")


def bind_line(name: int, table: bytes, text: bytes) -> str:
    return f"bind {name} {text.hex() or '-'} {table.hex() or '-'}"


def main() -> None:
    replay = Replay()
    for line in sys.stdin.buffer:
        said = replay.answer(line.decode("latin-1").rstrip("\n"))
        if said is not None:
            print(said)


if __name__ == "__main__":
    main()
