#!/usr/bin/env python3
"""The cases of the public CEL language definition that lie in the domain: read, compared with the model, made into lines.

    conformance.py                 compares every row of cases/ with the model in tools/rules
    conformance.py stored FOLDER   tests that stdin and stdout in a folder (crates/replay) begin with them and their answers
    conformance.py deviations      the deliberate deviations with their rows, for docs/DIFFERENCES.md

A row of cases/*.txt is CEL text, bindings, and the answer that the language definition gives, in the words of `ask`:

    x + 1 ; x = 3 => Int 4
    0.0 / 0.0 < 1.0 => Bool false !! nan-order: Error 12

Behind `!!` stands a deviation that document 01 makes on purpose, and the answer here. A Double may be written as a number,
text beyond ASCII as it is. Errors have document 01's numbers, since the definition has only names for some. `==` opens a
section. Counts and places are not the language's; in the lines they are the model's.
"""

from __future__ import annotations

import re
import struct
import sys
from pathlib import Path
from typing import Iterator, NamedTuple

HERE = Path(__file__).resolve().parent
sys.path[:0] = [str(HERE.parent / "rules"), str(HERE.parent / "cel")]

from assemble import assemble
from lexer import CelError
from names import Names
from parse import parse
from replay import Replay, bind_line, eval_line

DEVIATIONS = {
    "nan-order": "`<`, `<=`, `>`, `>=` with a NaN among numbers are false in the definition; here error 12, Unordered",
    "double-key": "a Double of a whole number is an index or a key of that number in the definition; here a Double is none: error 3",
    "min-remainder": "the definition asks for an error where a result is out of range, and 0 is not; here error 6, as the crate shows",
    "or-value-order": "orValue leaves its argument alone where there is a value; here the argument comes first, as in the crate",
    "optional-any-error": "an optional look-up is none only where the key or position is missing; here any error of the look-up gives none",
    "mark-plain": "a marked element or entry must be an optional; here another value stands for itself",
}


class Row(NamedTuple):
    section: str
    at: str  # file and line
    cel: str
    bindings: "tuple[tuple[str, str], ...]"
    language: str  # the definition's answer
    deviation: str  # its name, or nothing
    answer: str  # the answer here


def rows() -> Iterator[Row]:
    for path in sorted((HERE / "cases").glob("*.txt")):
        section = ""
        for number, line in enumerate(path.read_text().splitlines(), 1):
            if line.startswith("== "):
                section = line[3:]
            elif line.strip():
                yield row(section, f"{path.name}:{number}", line)


def row(section: str, at: str, line: str) -> Row:
    rule, arrow, answers = line.rpartition(" => ")
    if not arrow or not section:
        raise SystemExit(f"{at}: a row is CEL => answer, below a section")
    cel, *bindings = rule.split(" ; ")
    language, _, other = answers.partition(" !! ")
    deviation, _, here = other.partition(": ")
    if other and (deviation not in DEVIATIONS or spelled(here) == spelled(language)):
        raise SystemExit(f"{at}: no such deviation")
    pairs = tuple(tuple(part.strip() for part in binding.split("=", 1)) for binding in bindings)
    return Row(section, at, cel, pairs, spelled(language), deviation, spelled(here or language))


def spelled(answer: str) -> str:
    """An answer as `ask` prints it."""
    def bits(found: re.Match) -> str:
        word = struct.unpack("<Q", struct.pack("<d", float(found[1])))[0]
        return f"Double 0x{word:016X}"
    answer = re.sub(r"Double (nan|-?inf|-?[0-9][0-9.e+-]*)(?=[],}: ]|$)", bits, answer.strip())
    return "".join(char if char.isascii() else "".join(f"\\x{byte:02X}" for byte in char.encode()) for char in answer)


def lines(row: Row) -> "list[str]":
    """The row as lines of `replay`, on an empty room."""
    names = Names([name for name, _ in row.bindings])
    try:
        values = [assemble(parse(cel)) for _, cel in row.bindings]
        rule = assemble(parse(row.cel, names))
    except CelError as wrong:
        raise SystemExit(f"{row.at}: {wrong.says}, at {wrong.at}") from None
    bound = [bind_line(number, made.table, made.text) for number, made in enumerate(values)]
    return ["empty", *bound, eval_line(rule.table, rule.text)]


def played() -> "Iterator[tuple[Row, list[str], list[str]]]":
    """Each row with its lines, and what the model answers to them."""
    replay = Replay()
    for one in rows():
        given = lines(one)
        yield one, given, [said for said in map(replay.answer, given) if said is not None]


def check() -> None:
    failed, sections, used = 0, set(), dict.fromkeys(DEVIATIONS, 0)
    count = 0
    for one, _, said in played():
        count += 1
        sections.add(one.section)
        if one.deviation:
            used[one.deviation] += 1
        answer = re.split(" at | steps ", said[-1])[0]
        if answer != one.answer or any(word != "ok" for word in said[:-1]):
            failed += 1
            print(f"{one.at}: {one.cel}: by the model {said}, in the row {one.answer}")
    print(f"{count} rows in {len(sections)} sections, {failed} against the model; deviations " + ", ".join(f"{k} {n}" for k, n in used.items()))
    sys.exit(1 if failed or not all(used.values()) else 0)


def stored(folder: Path) -> None:
    """The list of `replay` has each row as it is written in cases/, and the answer that stands there."""
    given, wanted = (iter((folder / name).read_bytes().decode().split("\n")) for name in ("stdin", "stdout"))
    next(given)  # the room
    count = 0
    for one in rows():
        asked = lines(one)
        if asked != [next(given, "") for _ in asked]:
            sys.exit(f"{one.at}: {one.cel}: not in {folder}/stdin at its place")
        *bound, said = [next(wanted, "") for _ in asked[1:]]
        if re.split(" at | steps ", said)[0] != one.answer or any(word != "ok" for word in bound):
            sys.exit(f"{one.at}: {one.cel}: in {folder}/stdout {said}, in the row {one.answer}")
        count += 1
    print(f"{count} rows stand in {folder}")


def deviations() -> None:
    for name, says in DEVIATIONS.items():
        some = [one for one in rows() if one.deviation == name]
        print(f"{name}: {says}")
        for one in some:
            print(f"    {one.at}: {one.cel}: {one.language} in the definition, {one.answer} here")


def main() -> None:
    if sys.argv[1:] == []:
        check()
    elif sys.argv[1] == "stored" and len(sys.argv) == 3:
        stored(Path(sys.argv[2]))
    elif sys.argv[1:] == ["deviations"]:
        deviations()
    else:
        sys.exit(__doc__)


if __name__ == "__main__":
    main()
