#!/usr/bin/env python3
"""Runs `ask` and `replay` on inputs of odd lengths and rules at every limit, and compares all that they write with what must come.

    python3 tools/programs.py [RUN]        RUN is ./run if left out: its words are the program's name, and --unproved before it or not

Each input comes once from a file and once through a pipe, so that it is read in other pieces. Both the proved program and the unproved one get it;
the unproved one must say on standard error that nothing is proved, and is run on its stored input too, as rt runs the proved one. If all is right
nothing is written; otherwise what differs is written, and the status is 1. Lines are written out here, or worked out by the model (tools/rules).
"""

from __future__ import annotations

import struct
import subprocess
import sys
import tempfile
from pathlib import Path
from typing import Iterator, NamedTuple

ROOT = Path(__file__).resolve().parent.parent
sys.path.insert(0, str(ROOT / "tools" / "rules"))

from assemble import Node, assemble, comprehension, equals, integer, listing, name, negation, null, plus, size, string
from assemble import true as yes
from model import CELLS_MAX, TABLE_MAX, TEXT_MAX, evaluate
from replay import LINE, outcome_line

LITERAL_MAX = 65_535  # bytes of literal text that a length of two bytes can say
PIECE = 65_536  # bytes that `replay` reads at once from a file
PATIENCE = 120  # seconds that a run may take, on an emulator too
MAKING = 4 * 60 * 60  # seconds in which a program must be there, proved from nothing on a slow machine
PROGRAMS = ("ask", "replay")
NO_LENGTH = "The input ends before the length of its text."
NO_TEXT = "The input ends before its text does."


class Case(NamedTuple):
    program: str
    says: str
    given: bytes
    wanted: "list[str]"  # lines


# ---------------------------------------------------------------- ask


def asked(says: str, text: bytes, table: bytes, wanted: "str | None" = None) -> Case:
    """A rule; its line is the model's if none is given."""
    line = outcome_line(evaluate(table, text).answer) if wanted is None else wanted
    return Case("ask", says, struct.pack("<H", len(text)) + text + table, [line])


def rule(says: str, root: Node, wanted: "str | None" = None) -> Case:
    made = assemble(root)
    return asked(says, made.text, made.table, wanted)


def short_inputs() -> Iterator[Case]:
    for given, line in ((b"", NO_LENGTH), (b"\5", NO_LENGTH), (b"\5\0", NO_TEXT), (b"\5\0ab", NO_TEXT), (b"\0\1ab", NO_TEXT),
                        (b"\0\1" + bytes(255), NO_TEXT), (b"\xff\xff" + bytes(LITERAL_MAX - 1), NO_TEXT),
                        (b"\0\0", "Refused 1 at 0"), (b"\2\0ab", "Refused 1 at 0"), (b"\xff\xff" + bytes(LITERAL_MAX), "Refused 1 at 0")):
        yield Case("ask", f"an input of length {len(given)}", given, [line])


def texts() -> Iterator[Case]:
    """The text's length takes both of its bytes, the lower first."""
    for length in (1, 255, 256, 257, 513, 4_660, LITERAL_MAX):
        text = b"." * (length - 1) + b"Z"
        table = assemble(string("Z"), text).table
        yield asked(f"a text of length {length}", text, table, 'String "Z" steps 1 cells 0 bytes 0')


def long_tables() -> Iterator[Case]:
    """The longest table, behind the longest text; then what is too long."""
    longest = assemble(listing(*(integer(number) for number in range(1_489)))).table
    text = bytes(LITERAL_MAX)
    yield asked("the longest input", text, longest)
    for more in (1, 2, 100_000):
        yield asked(f"a table of {len(longest) + more} bytes", text, longest + bytes(more), "Refused 1 at 0")
    assert len(longest) == TABLE_MAX


def doubled(levels: int) -> Node:
    """A list of twice the same list and so on, of few cells and many elements."""
    return comprehension(3, 4, listing(*([null] * levels)), listing(), yes, listing(name(3), name(3)), name(3))


def about_a_million(more: int) -> Node:
    """999,714 steps and one for each null more: lists that are compared with themselves take most."""
    pairs = [equals(doubled(levels), doubled(levels)) for levels in (17, 17, 17, 16, 15, 12, 11, 10, 9)]
    return size(listing(*pairs, *([null] * more)))


def within(around, root: Node, levels: int) -> Node:
    for _ in range(levels - 1):
        root = around(root)
    return root


def limits() -> Iterator[Case]:
    nulls = ", ".join(["Null"] * CELLS_MAX)
    half = "a" * (TEXT_MAX // 2)
    yield rule("cells", equals(listing(integer(1), integer(2)), listing(integer(1), integer(3))), "Bool false steps 10 cells 4 bytes 0")
    yield rule("all cells", listing(*([null] * CELLS_MAX)), f"List [{nulls}] steps 4097 cells 4096 bytes 0")
    yield rule("a cell too many", listing(*([null] * (CELLS_MAX + 1))), "Exhausted Cells steps 1 cells 0 bytes 0")
    yield rule("all text", plus(string(half), string(half)), f'String "{half}{half}" steps 3 cells 0 bytes 16384')
    yield rule("a byte too many", plus(string(half), string(half + "a")), "Exhausted Text steps 3 cells 0 bytes 0")
    for more in (285, 286, 287):
        yield rule(f"{999_714 + more} steps", about_a_million(more))
    for levels in (32, 33):
        yield rule(f"a list {levels} deep", within(listing, listing(), levels))
    for levels in (64, 65):
        yield rule(f"records {levels} deep", within(negation, yes, levels))
    yield rule("a value that is cut", doubled(20))


def asks() -> Iterator[Case]:
    yield Case("ask", "document 01's example", bytes.fromhex("00000808000101040001"), ["Bool false steps 2 cells 0 bytes 0"])
    yield rule("a name, which is not bound", name(0), "Error 1 at 0 steps 1 cells 0 bytes 0")
    for part in (short_inputs, texts, long_tables, limits):
        yield from part()


# ---------------------------------------------------------------- replay

TRUE, ANSWER = b"eval 9 9 9 - 01040001", "Bool true steps 1 cells 0 bytes 0"


def wide(length: int) -> bytes:
    """A line of `length` bytes, the words at its end. If a part of it were cut off, or read as a line of its own, that would show."""
    return TRUE.rjust(length)


def spelled(length: int) -> bytes:
    """A line of `length` bytes, most of which spell the text; the rule is the last byte that a span reaches."""
    head, tail = b"eval 9 9 9 ", b" " + assemble(string("Z"), b"." * LITERAL_MAX + b"Z").table.hex().encode()
    count = (length - len(head) - len(tail)) // 2
    text = b"." * LITERAL_MAX + b"Z" + b"." * (count - LITERAL_MAX - 1)
    return (head + text.hex().encode() + tail).ljust(length)


def ends() -> Iterator[Case]:
    """Whether the last line is ended or not, it is a line if it has a byte."""
    for given, wanted in ((b"", []), (b"\n", ["bad line 1"]), (b"\n\n", ["bad line 1", "bad line 2"]), (b" ", ["bad line 1"]), (TRUE, [ANSWER]),
                          (TRUE + b"\n", [ANSWER]), (TRUE + b"\n" + TRUE, [ANSWER] * 2), (TRUE + b"\nempty", [ANSWER]),
                          (TRUE + b"\n\nbind", [ANSWER, "bad line 2", "bad line 3"]), (b"bind 0 - 000300\nbind 0 - 000300", ["ok", "11 0"])):
        yield Case("replay", f"the lines {given!r}", given, wanted)


def long_lines() -> Iterator[Case]:
    """Up to the longest a line is read; a longer one is bad, whatever it holds, and the next is read."""
    for length in (LINE - 1, LINE, LINE + 1, LINE + len(TRUE), 2 * LINE - 1, 2 * LINE, 2_000_000):
        said = [ANSWER if length < LINE else "bad line 2"]
        around = TRUE + b"\n" + wide(length)
        yield Case("replay", f"a line of {length} bytes", around + b"\n" + TRUE + b"\n", [ANSWER, *said, ANSWER])
        yield Case("replay", f"a last line of {length} bytes without an end", around, [ANSWER, *said])
    for length in (LINE - 1, LINE):
        said = 'String "Z" steps 1 cells 0 bytes 0' if length < LINE else "bad line 1"
        yield Case("replay", f"a text in a line of {length} bytes", spelled(length) + b"\n" + TRUE + b"\n", [said, ANSWER])
    yield Case("replay", "long lines in a row", (wide(LINE) + b"\n") * 3 + wide(LINE - 1), ["bad line 1", "bad line 2", "bad line 3", ANSWER])


def pieces() -> Iterator[Case]:
    """Lines that end where a piece of the input does, or beside it."""
    for length in (PIECE - 2, PIECE - 1, PIECE, PIECE + 1, 3 * PIECE - 1):
        yield Case("replay", f"a line of {length} bytes and another", wide(length) + b"\n" + TRUE + b"\n" + b"what\n", [ANSWER, ANSWER, "bad line 3"])
        yield Case("replay", f"a line of {length} bytes alone", wide(length), [ANSWER])


def replays() -> Iterator[Case]:
    for part in (ends, long_lines, pieces):
        yield from part()


# ---------------------------------------------------------------- stored


def stored() -> Iterator[Case]:
    for program in PROGRAMS:
        folder = ROOT / "crates" / program
        yield Case(program, "its stored input", (folder / "stdin").read_bytes(), (folder / "stdout").read_text().splitlines())


# ---------------------------------------------------------------- running


class Told(NamedTuple):
    status: int
    wrote: bytes
    said: bytes  # on standard error


def from_file(command: "list[str]", given: bytes) -> Told:
    with tempfile.TemporaryFile() as file:
        file.write(given)
        file.seek(0)
        run = subprocess.run(command, stdin=file, stdout=subprocess.PIPE, stderr=subprocess.PIPE, timeout=PATIENCE)
    return Told(run.returncode, run.stdout, run.stderr)


def through_pipe(command: "list[str]", given: bytes) -> Told:
    run = subprocess.run(command, input=given, stdout=subprocess.PIPE, stderr=subprocess.PIPE, timeout=PATIENCE)
    return Told(run.returncode, run.stdout, run.stderr)


def difference(found: bytes, wanted: bytes) -> str:
    """Both from a little before where they first differ."""
    at = next((place for place, (one, other) in enumerate(zip(found, wanted)) if one != other), min(len(found), len(wanted)))
    first = max(at - 40, 0)
    return f"{found[first:at + 60]!r} and not {wanted[first:at + 60]!r}, from byte {first} on, of {len(found)} and {len(wanted)} bytes"


WAYS = {"from a file": from_file, "through a pipe": through_pipe}
KINDS = {"proved": [], "unproved": ["--unproved"]}  # with the words that ask for it
WARNING = b"nothing is proved"


def unmade(run: str) -> Iterator[str]:
    """The programs are made if they are not there; which could not be?"""
    for kind, words in KINDS.items():
        for program in PROGRAMS:
            try:
                status = subprocess.run([run, *words, program], stdin=subprocess.DEVNULL, stdout=subprocess.DEVNULL, timeout=MAKING).returncode
            except subprocess.TimeoutExpired:
                yield f"{kind} {program}: not there within {MAKING} seconds"
                continue
            if status != 0:
                yield f"{kind} {program}: ended with {status} on no input"


def amiss(run: str, kind: str, case: Case, way: str) -> Iterator[str]:
    """What a program does otherwise than it must on a case."""
    what = f"{kind} {case.program}, {case.says}, {way}"
    wanted = "".join(line + "\n" for line in case.wanted).encode()
    try:
        told = WAYS[way]([run, *KINDS[kind], case.program], case.given)
    except subprocess.TimeoutExpired:
        yield f"{what}: no end within {PATIENCE} seconds"
        return
    if told.status != 0:
        yield f"{what}: ended with {told.status}"
    if told.wrote != wanted:
        yield f"{what}: {difference(told.wrote, wanted)}"
    if (WARNING in told.said) != (kind == "unproved"):
        yield f"{what}: standard error was {told.said[:200]!r}"


def misused(run: str) -> Iterator[str]:
    """Without a program's name both ways are told; a name that is no program is refused alike."""
    for words, said in (([], b"--unproved PROGRAM"), (["nothing"], b"run: there is no program nothing; there is: ask replay ")):
        for kind, before in KINDS.items():
            told = from_file([run, *before, *words], b"")
            if told.status != 2 or told.wrote or said not in told.said:
                yield f"{kind}, the words {words}: ended with {told.status}, wrote {told.wrote!r} and said {told.said!r}"


def wrong(run: str) -> Iterator[str]:
    missing = list(unmade(run))
    if missing:
        yield from missing
        return
    for case in [*asks(), *replays()]:
        for kind in KINDS:
            for way in WAYS:
                yield from amiss(run, kind, case, way)
    for case in stored():
        yield from amiss(run, "unproved", case, "from a file")
    yield from misused(run)


def main() -> None:
    found = list(wrong(sys.argv[1] if len(sys.argv) > 1 else str(ROOT / "run")))
    for line in found:
        print(line)
    sys.exit(bool(found))


if __name__ == "__main__":
    main()
