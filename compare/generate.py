"""Lines of `replay` by the thousand, from a seed: rules over bindings, for programs to be compared on.

    batch(seed, count)       a list of lines, begun with `room`; `count` of them are `eval`
    hand_made()              the same for the cases of tools/rules that need no room of their own and no limits

A batch draws bindings anew every few hundred rules. Its rules are small ones about one subject each (shapes.py), and random
expressions and comprehensions (tools/rules/families). Each is followed by variants with a few records changed in place: another
operator, function, flag, number or name, a Bool for a name, a Bytes for a String, operands exchanged. So every shape comes with
its near misses, an append path with other names and a fold with its accumulator second among them. A variant is always accepted.
"""

from __future__ import annotations

import struct
import sys
from pathlib import Path
from typing import Iterator

TOOLS = Path(__file__).resolve().parent.parent / "tools"
sys.path[:0] = [str(TOOLS / "rules"), str(TOOLS / "cel")]

from assemble import Assembled, Node, assemble, bits, byte_string, false, integer, listing, mapping, null, string, true, uint
from draw import Draw
from families import FAMILIES
from families.common import Case
from families.loops import random_loop
from families.numbers import SIGNED
from families.random import BOUND, DESK, Rules
from model import CELLS_MAX, STEPS_MAX, TEXT_MAX
from model.numbers import INT_MAX, INT_MIN, UINT_MAX
from model.table import K_BINARY, K_BOOL, K_BYTES, K_COMPREHENSION, K_DOUBLE, K_FUNCTION, K_INT, K_NAME, K_SELECT, K_STRING, K_UINT, K_UNARY
from replay import bind_line, eval_line
from shapes import SHAPES

VARIANTS = 5  # beside each rule
RULES_A_DESK = 60  # rules, with their variants, between two sets of bindings
LONGEST = 1_500  # bytes of a table
ROOM = f"room {CELLS_MAX} {TEXT_MAX}"
WORDS = [struct.pack("<Q", number % 2**64) for number in (0, 0, 1, 1, 2, 3, -1, -2, INT_MAX, INT_MIN, UINT_MAX)] + [
    struct.pack("<d", number) for number in (0.0, -0.0, 1.0, 2.0, 2.5, 1e300)]
OTHER_NAMES = (1, 2, 3, 4, 5, 6, 7, 8, 9, 10, 11, 12, 99)
ALIKE = {operator: group for group in ((1, 2), (3, 4), (5, 6), (8, 9, 10, 11, 12), (13, 14, 15, 16), (7,), (17,)) for operator in group}
CALLS = tuple((K_UNARY, number) for number in (1, 2, 3)) + tuple((K_FUNCTION, number) for number in (1, 2, 4, 5))
ALIKE_CALLS = {call: group for group in (((K_UNARY, 1), (K_UNARY, 3)), ((K_FUNCTION, 4), (K_FUNCTION, 5))) for call in group}


# ---------------------------------------------------------------- bindings


def literal(draw: Draw, kind: str, depth: int = 2) -> Node:
    """A value as a binding spells it."""
    def any_part() -> Node:
        return literal(draw, draw.pick(Rules.KINDS[:9 if depth > 1 else 7]), depth - 1)

    if kind == "list":
        return listing(*(any_part() for _ in range(draw.below(4))))
    if kind == "map":
        keys = draw.pick(((string("a"), string("b"), integer(1)), (integer(1), uint(2), true), (string("a"),), (uint(1), string(""))))
        return mapping(*((key, any_part()) for key in keys[:draw.below(len(keys) + 1)]))
    return {
        "bool": draw.pick((true, false)), "int": integer(draw.pick((0, 1, 2, 3, -1, INT_MIN, INT_MAX))),
        "uint": uint(draw.pick((0, 1, 2, 3, UINT_MAX))), "double": bits(draw.pick(SIGNED)),
        "string": string(draw.pick(("", "a", "b", "ab", "\u00e9"))), "bytes": byte_string(draw.pick((b"", b"a", b"\xff\x00"))), "null": null,
    }[kind]


def desk(draw: Draw) -> Iterator[str]:
    """Lines that bind: mostly to the kinds that the random rules count on, now and then to others or not at all."""
    yield "empty"
    usual = {number: kind for kind, number in BOUND.items()} | {10: "map", 11: "list", 12: "list"}
    for number, table, text in DESK:
        if draw.chance(40):
            yield bind_line(number, table, text)
        elif draw.chance(95):
            kind = usual[number] if draw.chance(88) else draw.pick(Rules.KINDS[:9])
            made = assemble(literal(draw, kind))
            yield bind_line(number, made.table, made.text)
    if draw.chance(10):
        yield bind_line(20, b"\0\3\0", b"")
    if draw.chance(5):
        yield bind_line(1, b"\0\3\0", b"")  # bound already, as a rule


# ---------------------------------------------------------------- variants


def spots(made: Assembled) -> "tuple[list[int], tuple[int, ...]]":
    """The places of the records that can be changed in place, operators and names twice, for they say more; and the names."""
    changeable = (K_BOOL, K_INT, K_UINT, K_DOUBLE, K_STRING, K_NAME, K_UNARY, K_BINARY, K_SELECT, K_COMPREHENSION, K_FUNCTION)
    places, names = [], set()
    for place, node in made.records:
        if node.kind in changeable and not (node.kind == K_FUNCTION and node.fields == b"\3"):  # optional.none has no operand
            places += [place] * (2 if node.kind >= K_NAME else 1)
        if node.kind in (K_NAME, K_COMPREHENSION):
            names.update(node.fields)
    return places, tuple(sorted(names))


def extent(table: bytearray, place: int) -> int:
    return table[place + 1] | table[place + 2] << 8


def change(table: bytearray, place: int, names: "tuple[int, ...]", draw: Draw) -> None:
    """Changes one record in place, mostly to one alike; the table stays accepted. `names` are those of the rule."""
    kind, word = table[place], draw.word()
    alike, word = word % 100 < 80, word >> 16
    if kind in (K_INT, K_UINT, K_DOUBLE):
        table[place + 3:place + 11] = WORDS[word % len(WORDS)]
        table[place] = kind if alike else (K_INT, K_INT, K_UINT, K_DOUBLE)[word >> 32 & 3]
    elif kind in (K_STRING, K_BYTES):
        table[place] = (K_STRING, K_BYTES)[word & 1]
    elif kind in (K_BOOL, K_NAME):
        if alike == (kind == K_BOOL):
            table[place], table[place + 3] = K_BOOL, (word & 1 if kind == K_NAME else 1 - table[place + 3])
        else:
            among = names if names and word & 1 else OTHER_NAMES
            table[place], table[place + 3] = K_NAME, among[(word >> 8) % len(among)]
    elif kind == K_UNARY or kind == K_FUNCTION and table[place + 3] != 6:
        among = ALIKE_CALLS.get((kind, table[place + 3]), CALLS) if alike else CALLS
        table[place], table[place + 3] = among[(word >> 8) % len(among)]
    elif kind in (K_BINARY, K_FUNCTION):
        if word & 7 == 0:
            exchange(table, place)
        elif alike and kind == K_BINARY:
            group = ALIKE[table[place + 3]]
            table[place + 3] = group[(word >> 8) % len(group)]
        else:
            choice = (word >> 8) % 18
            table[place] = K_FUNCTION if choice == 17 else K_BINARY
            table[place + 3] = 6 if choice == 17 else choice + 1
    elif kind == K_SELECT:
        table[place + 3] ^= 1
    else:
        among = names if alike else OTHER_NAMES
        table[place + 3 + (word & 1)] = among[(word >> 8) % len(among)]


def exchange(table: bytearray, place: int) -> None:
    """Lets the two operands change places."""
    first, end = place + 4, place + extent(table, place)
    second = first + extent(table, first)
    table[first:end] = table[second:end] + table[first:second]


def variant(made: Assembled, places: "list[int]", names: "tuple[int, ...]", draw: Draw) -> bytes:
    """The table with a record changed, or a few, from the end on: what an exchange moves lies behind what is still to come."""
    table = bytearray(made.table)
    changes = (1, 1, 1, 1, 1, 1, 2, 2, 3, 4)[draw.below(10)]
    for place in sorted({draw.pick(places) for _ in range(changes)}, reverse=True):
        change(table, place, names, draw)
    return bytes(table)


# ---------------------------------------------------------------- batches


def rules(draw: Draw) -> Iterator[Node]:
    """Each of the small shapes, a random expression and a random comprehension by turns, without end."""
    number = 0
    while True:
        number += 1
        for shape in SHAPES:
            yield shape(draw)
        yield Rules(draw).rule(draw.pick(Rules.KINDS), 3 + number % 26)
        yield random_loop(draw)


def batch(seed: int, count: int) -> "list[str]":
    draw = Draw(Draw(seed).word())  # mixed, so that no two seeds share a stretch of draws
    lines, made_rules, drawn = [ROOM], 0, rules(draw)
    while count > 0:
        if made_rules % RULES_A_DESK == 0:
            lines += desk(draw)
        made_rules += 1
        made = assemble(next(drawn))
        if len(made.table) > LONGEST:
            continue
        lines.append(eval_line(made.table, made.text))
        count -= 1
        places, names = spots(made)
        for _ in range(min(VARIANTS, count) if places else 0):
            lines.append(eval_line(variant(made, places, names, draw), made.text))
            count -= 1
    return lines


def hand_made() -> Iterator[str]:
    """The families' cases with all of the limits and bindings that are brought in one after the other."""
    yield ROOM
    bound: tuple = ()
    for family, make in FAMILIES.items():
        for case in make():
            if not isinstance(case, Case) or case.room is not None or case.tag == "heavy" or tuple(case.limits) != (STEPS_MAX, CELLS_MAX, TEXT_MAX):
                continue
            if case.bindings != bound:
                bound = case.bindings
                yield "empty"
                for number, table, text in bound:
                    yield bind_line(number, table, text)
            yield eval_line(case.table, case.text)


if __name__ == "__main__":
    print(*batch(int(sys.argv[1]), int(sys.argv[2])), sep="\n")
