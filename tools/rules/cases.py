"""Cases with their expected answers, by families, from fixed seeds: one JSON object a line.

    python3 cases.py > cases.jsonl          all families; the numbers of cases go to standard error
    python3 cases.py kinds loops            some of them
    python3 cases.py more SEED COUNT        random expressions and comprehensions from another seed, COUNT of each

README.md says what stands in a line. Rests on the model (answers) and assemble (tables).
"""

from __future__ import annotations

import json
import sys
from typing import Iterable, Iterator

import families
from families import Case, Script
from model import (Bool, Bytes, Double, Int, List, Map, Null, Optional, Outcome, Refused, Room, String, Uint, Value, bring_in,
                   empty, evaluate, unsound)

MOST_LEAVES = 6_000  # cases whose answer and rooms are longer than this when spelled out are left out


def value_json(value: Value) -> list:
    """A value: its kind and what it holds. Numbers as decimal text, bits and bytes as hex; none is ["Optional"]."""
    kind = type(value).__name__
    if isinstance(value, Null):
        return [kind]
    if isinstance(value, Bool):
        return [kind, value.truth]
    if isinstance(value, (Int, Uint)):
        return [kind, str(value.number)]
    if isinstance(value, Double):
        return [kind, f"{value.bits:016x}"]
    if isinstance(value, (String, Bytes)):
        return [kind, value.data.hex()]
    if isinstance(value, List):
        return [kind, [value_json(item) for item in value.items]]
    if isinstance(value, Map):
        return [kind, [[value_json(key), value_json(part)] for key, part in value.entries]]
    return [kind] if value.part is None else [kind, value_json(value.part)]


def value_from_json(data: list) -> Value:
    kind, rest = data[0], data[1:]
    if kind == "Null":
        return Null()
    if kind == "Bool":
        return Bool(rest[0])
    if kind in ("Int", "Uint"):
        return (Int if kind == "Int" else Uint)(int(rest[0]))
    if kind == "Double":
        return Double(int(rest[0], 16))
    if kind in ("String", "Bytes"):
        return (String if kind == "String" else Bytes)(bytes.fromhex(rest[0]))
    if kind == "List":
        return List(tuple(value_from_json(item) for item in rest[0]))
    if kind == "Map":
        return Map(tuple((value_from_json(key), value_from_json(part)) for key, part in rest[0]))
    return Optional(value_from_json(rest[0]) if rest else None)


def answer_json(answer: tuple) -> list:
    if answer[0] == "value":
        return ["value", value_json(answer[1]), *answer[2:]]
    return [list(part) if isinstance(part, tuple) else part for part in answer]


def cell_json(cell: tuple) -> list:
    """A cell of a binding room; a number as decimal text, a Double's bits as hex, references as numbers."""
    if cell[0] in ("Int", "Uint"):
        return [cell[0], str(cell[1])]
    if cell[0] == "Double":
        return [cell[0], f"{cell[1]:016x}"]
    return list(cell)


def room_json(room: Room) -> dict:
    """A binding room as it stands."""
    return {
        "cells": [cell_json(cell) for cell in room.cells], "text": room.text.hex(), "used": [room.used_cells, room.used_text],
        "slots": {str(number): cell_json(slot) for number, slot in enumerate(room.slots) if slot is not None},
    }


def answered(case: Case) -> "dict | None":
    """An evaluation with its answer and rooms; None if they would be too long."""
    line: dict = {"op": "evaluate", "says": case.says[:300], "table": case.table.hex(), "text": case.text.hex()}
    if case.room is not None:
        room = case.room
        line["room"] = room_json(room)
    else:
        room = Room.lent()
        for number, table, text in case.bindings:
            bring_in(room, number, table, text)
        line["bindings"] = [[number, table.hex(), text.hex()] for number, table, text in case.bindings]
    line["limits"] = list(case.limits)
    outcome: Outcome = evaluate(case.table, case.text, room, case.limits)
    if outcome.answer[0] == "value":
        if outcome.answer[1].leaves + sum(cell.leaves for cell in outcome.cells) > MOST_LEAVES:
            return None
        line["rooms"] = {"cells": [value_json(cell) for cell in outcome.cells], "text": outcome.text.hex()}
    line["answer"] = answer_json(outcome.answer)
    return line


def played(script: Script) -> dict:
    """Steps on a binding room with the answer to each, and the room at the end."""
    line: dict = {"op": "bindings", "says": script.says[:300]}
    room = script.room if script.room is not None else Room.lent(*script.lent)
    if script.room is not None:
        line["room"] = room_json(room)
    else:
        line["lent"] = list(script.lent)
    line["steps"], line["answers"] = [], []
    for step in script.steps:
        if step is None:
            line["steps"].append(["empty"])
            empty(room)
            line["answers"].append(["emptied"])
            continue
        number, table, text = step
        line["steps"].append(["bring", number, table.hex(), text.hex()])
        try:
            bring_in(room, number, table, text)
            line["answers"].append(["brought"])
        except Refused as refused:
            line["answers"].append(["refused", refused.number, refused.place])
    if unsound(room) is None:
        used = Room(room.cells[:room.used_cells], room.text[:room.used_text], room.used_cells, room.used_text, room.slots)
        line["after"] = room_json(used)
        line["holds"] = {str(number): value_json(held) for number, held in enumerate(room.scope()) if held is not None}
    return line


def lines(family: str, cases: "Iterable[Case | Script]") -> Iterator[dict]:
    number = 0
    for case in cases:
        line = answered(case) if isinstance(case, Case) else played(case)
        if line is None:
            continue
        number += 1
        line = {"id": f"{family}-{number}", "family": family, **line}
        if case.tag:
            line["tag"] = case.tag
        yield line


def main() -> None:
    chosen = families.FAMILIES
    if sys.argv[1:2] == ["more"]:
        chosen = families.more(int(sys.argv[2]), int(sys.argv[3]))
    elif sys.argv[1:]:
        chosen = {family: chosen[family] for family in sys.argv[1:]}
    total = 0
    for family, make in chosen.items():
        count = 0
        for line in lines(family, make()):
            print(json.dumps(line, separators=(",", ":")))
            count += 1
        total += count
        print(f"{family:10} {count}", file=sys.stderr)
    print(f"{'all':10} {total}", file=sys.stderr)


if __name__ == "__main__":
    main()
