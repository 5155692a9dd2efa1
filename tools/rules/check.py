"""Checks of the model: document 01's examples, the rows of its readings, and cross-checks against Python's own floats
and UTF-8. Prints one line for each check that fails, and a count.

    python3 check.py
"""

from __future__ import annotations

import math
import struct
import sys

from assemble import (Node, all_of, assemble, binary, bits, both, byte_string, comprehension, conditional, double, either,
                      equals, exists, false, has, has_value, index, integer, listing, map_to, mapping,
                      mark, minus, name, negation, none, not_strictly_false, null, of, optional_index, optional_select,
                      or_value, plus, select, size, string, true, uint, value)
from draw import Draw
from families.common import nested
from model import (Bool, Bytes, Double, Int, Limits, List, Map, Null, Optional, Refused, Room, String, Uint, ask, bring_in,
                   empty, evaluate, limited, show, unsound, utf8_valid)
from model.numbers import DOUBLE_RULES, INT_MAX, INT_MIN, NAN
from replay import Replay, outcome_line

failed: list[str] = []
done = 0


def check(what: str, got: object, wanted: object) -> None:
    global done
    done += 1
    if got != wanted:
        failed.append(what)
        print(f"{what}: got {got}, wanted {wanted}")


def answer(rule: Node, limits: "tuple[int, int, int]" = (1_000_000, 4_096, 16_384), room: "Room | None" = None) -> tuple:
    made = assemble(rule)
    return evaluate(made.table, made.text, room, Limits(*limits)).answer


def rooms(rule: Node, room: "Room | None" = None) -> tuple:
    made = assemble(rule)
    outcome = evaluate(made.table, made.text, room)
    return outcome.cells, outcome.text


def refusal(table: str, text: bytes = b"") -> tuple:
    return evaluate(bytes.fromhex(table), text).answer


def error_at(rule: Node, node: Node, number: int) -> bool:
    """Whether the rule ends in this error at this record."""
    return answer(rule)[:3] == ("error", number, assemble(rule).place(node))


def bound(*bindings: "tuple[int, Node]", cells: int = 4_096, text: int = 16_384) -> Room:
    room = Room.lent(cells, text)
    for number, spelled in bindings:
        made = assemble(spelled)
        bring_in(room, number, made.table, made.text)
    return room


def bringing(room: Room, number: int, table: bytes, text: bytes = b"") -> "tuple[int, int] | None":
    before = (list(room.cells), bytes(room.text), room.used_cells, room.used_text, list(room.slots))
    try:
        bring_in(room, number, table, text)
    except Refused as refused:
        check("a refused binding changes nothing", before,
              (list(room.cells), bytes(room.text), room.used_cells, room.used_text, list(room.slots)))
        return refused.number, refused.place
    return None


# ---------------------------------------------------------------- document 01's examples


def examples() -> None:
    x, y, r = name(1), name(2), name(3)
    check("P1", answer(either(true, x)), ("value", Bool(True), 2, 0, 0))
    check("P2", answer(either(x, true)), ("value", Bool(True), 3, 0, 0))
    check("P3", answer(either(x, true), (2, 4_096, 16_384)), ("exhausted", "Steps", (2, 0, 0)))
    rule = either(x, y)
    check("P4", answer(rule), ("error", 1, assemble(rule).place(y), (3, 0, 0)))
    check("P5 overflow", answer(binary("%", integer(INT_MIN), integer(-1)))[:3], ("error", 6, 0))
    check("P5 remainder", answer(binary("%", integer(INT_MIN), integer(0)))[:3], ("error", 8, 0))
    over, quotient = listing(integer(0), integer(2)), binary("/", integer(4), name(5))
    check("P6 false", answer(all_of(over, 5, equals(quotient, integer(3))))[:2], ("value", Bool(False)))
    check("P6 error 7 at the division", error_at(all_of(over, 5, equals(quotient, integer(2))), quotient, 7), True)
    rule = equals(listing(integer(1), integer(2)), listing(integer(1), integer(3)))
    check("P7", answer(rule), ("value", Bool(False), 10, 4, 0))
    inner = name(3)
    step = plus(r, listing(inner))
    check("P8 error 1 at the inner r", error_at(comprehension(3, 4, listing(integer(7)), listing(), true, step, r),
                                                inner, 1), True)
    rule = comprehension(3, 4, listing(integer(7)), listing(integer(0)), true, step, r)
    zero = Int(0)
    # steps: comprehension, init 2, range 2, condition, step 4, result; cells: init, range, [r], the sum's two
    check("P8 [0, [0]]", answer(rule), ("value", List((zero, List((zero,)))), 11, 5, 0))
    check("P8 rooms", rooms(rule), ([zero, Int(7), List((zero,)), zero, List((zero,))], b""))
    check("ask", ask(bytes.fromhex("00000808000101040001")), "Bool false steps 2 cells 0 bytes 0")
    lines()


def lines() -> None:
    """The lines of `ask` and of `replay`."""
    for shown, says in (
            (String(b'a "\\\x1f~\x7f\xc3'), 'String "a \\x22\\x5C\\x1F~\\x7F\\xC3"'), (Bytes(b""), 'Bytes ""'), (Double(0x3FF0_0000_0000_000A), "Double 0x3FF000000000000A"),
            (Map(((Int(-3), Null()), (String(b"k"), Optional(None)))), 'Map {Int -3: Null, String "k": Optional none}'),
            (List((Uint(4), Optional(Bool(True)), List(()))), "List [Uint 4, Optional of Bool true, List []]")):
        check(says, show(shown), says)
    wide = List((Null(),))
    for _ in range(18):
        wide = List((wide, wide))
    cut_short = outcome_line(("value", wide, 1, 2, 3))
    check("a long value is cut", cut_short[1_000_000:], " ... steps 1 cells 2 bytes 3")
    replay = Replay()
    said = [replay.answer(line) for line in ("room 1 0", "bind 3 - 0c08000100000300", "bind 3 - 000300", "bind 4 - 0c08000100000300", "bind 128 - 00", "what",
                                             "eval 1 0 0 - 07040003", "empty", "eval 1 0 0 - 07040003", "eval 0 0 0 - 000300", "eval 9 0 0 - ff", "eval 1 0 0 -")]
    check("replay", said, [None, "ok", "11 0", "10 0", "5 0", "bad line 6", "List [Null] steps 1 cells 0 bytes 0", None, "Error 1 at 0 steps 1 cells 0 bytes 0",
                           "Exhausted Steps steps 0 cells 0 bytes 0", "Refused 2 at 0", "bad line 12"])


# ---------------------------------------------------------------- the readings, row by row


def reading_refusals() -> None:
    check("operand at its parent's end, unknown kind", refusal("08040001ff"), ("refused", 2, 4))
    check("operand at its parent's end, known kind", refusal("0804000100"), ("refused", 3, 4))
    check("operand at the table's end", refusal("08040001"), ("refused", 3, 4))
    check("extent below the head", refusal("0803000101040001"), ("refused", 3, 0))
    check("operands that cannot fit", refusal("09070001000300"), ("refused", 3, 7))
    check("extent above the sum", refusal("0808000100030000"), ("refused", 3, 0))
    check("an operand's own refusal comes before", refusal("080900010104000500"), ("refused", 5, 4))
    check("unknown function", refusal("1005000700"), ("refused", 5, 0))
    inner = bytes.fromhex("1005000300")
    for depth in range(64):
        inner = b"\x08" + struct.pack("<H", len(inner) + 4) + b"\1" + inner
    check("wrong extent without operands before nesting", evaluate(inner, b"").answer, ("refused", 3, 256))
    check("empty span past the text", refusal("05070001000000"), ("refused", 5, 0))
    check("empty span at the text's end", evaluate(bytes.fromhex("05070001000000"), b"a").answer[:2], ("value", String(b"")))
    made = assemble(nested(31, null, lambda e: listing(mark(e))))
    check("marks count in record nesting: 63", evaluate(made.table, b"").answer[0], "value")
    made = assemble(listing(nested(31, null, lambda e: listing(mark(e)))))
    check("64 records are not too deep", evaluate(made.table, b"").answer[0], "value")
    made = assemble(listing(mark(nested(31, null, lambda e: listing(mark(e))))))
    check("65 are: refused at the 65th", evaluate(made.table, b"").answer, ("refused", 4, 32 * 8))
    long_text = b"a" * 70_000
    made = Node(5, b"\xff\xff\0\0")
    check("literal text has no limit of its own", evaluate(assemble(made).table, long_text).answer[:2], ("value", String(b"")))


def reading_bindings() -> None:
    def brought(rule: Node, room: "Room | None" = None, number: int = 1) -> "tuple[int, int] | None":
        made = assemble(rule)
        return bringing(Room.lent() if room is None else room, number, made.table, made.text)

    check("a binding nesting 33", brought(nested(33, null)), (8, 0))
    check("a binding nesting 32", brought(nested(32, null)), None)
    twice = mapping((integer(1), null), (uint(1), null))
    check("matching keys at the later key", brought(twice), (8, assemble(twice).place(twice.operands[2])))
    other = mapping((null, null), (integer(1), name(2)))
    check("9 before 8", brought(other), (9, assemble(other).place(other.operands[3])))
    check("wrong key", brought(mapping((null, null))), (8, 5))
    check("full: cells", brought(listing(null, null, null), Room.lent(2, 9)), (10, 0))
    check("full: text", brought(listing(string("abc")), Room.lent(2, 2)), (10, 0))
    check("just not full", brought(listing(string("abc"), null), Room.lent(2, 3)), None)
    check("9 before 10", brought(listing(none, null, null), Room.lent(2, 9)), (9, 5))
    check("wrong name", brought(null, number=128), (5, 0))
    check("name bound", brought(null, bound((1, true))), (11, 0))
    check("name wrong before table", bringing(Room.lent(), 200, b""), (5, 0))
    check("name bound before table", bringing(bound((1, true)), 1, b""), (11, 0))
    check("table before 9", bringing(Room.lent(), 1, assemble(listing(name(1))).table + b"\0"), (7, 9))
    room = bound((1, listing(integer(1))), (2, string("ab")))
    before = room.scope()
    brought(mapping((string("k"), listing())), room, 3)
    check("other names keep their values", [room.scope()[n] for n in (1, 2)], [before[n] for n in (1, 2)])
    check("the new one is as spelled", room.scope()[3], Map(((String(b"k"), List(())),)))
    cells = list(room.cells)
    empty(room)
    check("emptying", (room.used_cells, room.used_text, set(room.slots), room.cells), (0, 0, {None}, cells))

    def judged(cells: list, used: "int | None" = None, text: bytes = b"", used_text: "int | None" = None,
               slots: "dict | None" = None) -> "int | None":
        used_text = len(text) if used_text is None else used_text
        room = Room(list(cells), bytearray(text), len(cells) if used is None else used, used_text)
        for number, slot in (slots or {}).items():
            room.slots[number] = slot
        return unsound(room)

    nothing = ("Null",)
    check("sound", judged([("List", 1, 1), nothing]), None)
    check("a reference to the cell itself", judged([("List", 0, 1), nothing]), 0)
    check("a reference back", judged([nothing, ("List", 0, 1)]), 1)
    check("a reference outside", judged([nothing, ("List", 2, 1)]), 1)
    check("an empty list's reference", judged([nothing, ("List", 2, 0)]), None)
    check("an empty list's reference back", judged([nothing, ("List", 1, 0)]), 1)
    check("a slot may refer to cell 0", judged([nothing], slots={3: ("List", 0, 1)}), None)
    check("a slot's reference outside", judged([nothing], slots={3: ("List", 0, 2)}), 0)
    check("a cell no binding writes", judged([nothing, ("Other",)]), 1)
    check("cells above the used count", judged([nothing, ("Other",)], used=1), None)
    check("used count above the room", judged([nothing], used=2), 0)
    check("a bad cell before a bad count", judged([nothing, ("Other",)], used=3), 1)
    check("used text above the room", judged([nothing], text=b"a", used_text=2), 0)
    check("bad text", judged([nothing, ("String", 0, 1)], text=b"\xff"), 1)
    check("bytes need not be UTF-8", judged([nothing, ("Bytes", 0, 1)], text=b"\xff"), None)
    check("text outside", judged([nothing, ("Bytes", 0, 2)], text=b"a"), 1)
    check("keys that match: the map's own cell", judged([nothing, ("Map", 2, 2), ("Int", 1), nothing, ("Uint", 1), nothing]), 1)
    check("a key of a wrong kind", judged([("Map", 1, 1), ("Double", 0), nothing]), 0)
    check("sharing", judged([("List", 2, 1), ("List", 2, 1), nothing]), None)
    chain = [("List", at + 1, 1) for at in range(33)] + [nothing]
    check("nesting 33", judged(chain), 0)
    check("nesting 32", judged(chain[:32] + [nothing]), None)
    check("a slot nesting 33", judged([("List", at + 1, 1) for at in range(32)] + [nothing], slots={0: ("List", 0, 1)}), 0)
    doubled = [cell for at in range(31) for cell in (("List", 2 * at + 2, 2), ("List", 2 * at + 2, 2))] + [nothing, nothing]
    check("shared parts are not walked again and again", judged(doubled), None)
    check("rooms above the limits", judged([nothing] * 5_000, used=4_097), 0)
    room = Room.lent(5_000, 20_000)
    made = assemble(byte_string(b"a" * 16_385))
    check("10 counts against the cut length", bringing(room, 1, made.table, made.text), (10, 0))
    bad = Room([("Other",)], bytearray(), 1)
    made = assemble(listing())
    check("evaluate: 8 after 7", evaluate(made.table + b"\0", b"", bad).answer, ("refused", 7, 5))
    check("evaluate: 8", evaluate(made.table, b"", bad).answer, ("refused", 8, 0))
    check("bringing in: 8 before 5", bringing(bad, 200, made.table), (8, 0))


def reading_errors() -> None:
    one, x = integer(1), name(9)
    rule = mapping((one, null), (uint(1), null))
    check("9 at the Map", error_at(rule, rule, 9), True)
    rule = mapping((null, x))
    check("11 at the Map, before the value", error_at(rule, rule, 11), True)
    rule = comprehension(3, 4, listing(one), true, one, true, true)
    check("2 at the comprehension: condition", error_at(rule, rule, 2), True)
    rule = comprehension(3, 4, listing(one), listing(), true, conditional(one, plus(name(3), listing(one)), name(3)), name(3))
    check("2 at the comprehension: guard", error_at(rule, rule, 2), True)
    rule = comprehension(3, 4, one, true, true, true, true)
    check("13 at the comprehension", error_at(rule, rule, 13), True)
    check("NaN against no number", answer(binary("<", bits(NAN), true))[1], 3)
    check("NaN among numbers", answer(binary("<", bits(NAN), one))[1], 12)
    check("a Double in a Map", answer(binary("in", double(1.0), mapping((one, one))))[:2], ("error", 3))
    check("a Double as index", answer(index(listing(one), double(0.0)))[:2], ("error", 3))


def reading_charges() -> None:
    one, two = integer(1), integer(2)
    check("unlike kinds: one pair", answer(equals(null, one))[2], 4)
    check("unequal lengths: one pair", answer(equals(listing(one), listing()))[2], 5)
    table = mapping((one, one), (two, two), (string("a"), null))  # 7 records, 0 + 1 + 2 duplicate pairs
    check("a Map's steps and cells", answer(table)[2:], (10, 6, 0))
    check("a look-up walks to the match", answer(index(table, two))[2], 10 + 2 + 2)
    check("a look-up without a match", answer(index(table, integer(3)))[3][0], 10 + 2 + 3)
    check("a wrong kind of key: no pair", answer(index(table, null))[3][0], 10 + 2)
    check("in a list, up to the match", answer(binary("in", two, listing(one, two, two)))[2], 6 + 2)
    check("select, a look-up", answer(select(table, "a"))[2], 10 + 1 + 3)
    check("test, a look-up", answer(has(table, "b"))[2], 10 + 1 + 3)
    check("optional select, a look-up", answer(optional_select(table, string("a")))[2:], (10 + 2 + 3, 7, 0))
    check("a list's index costs no pair", answer(index(listing(one, two), one))[2], 5)
    check("literals, names, marks, value, orValue take no cells",
          answer(or_value(of(value(of(one))), two))[3], 2)
    check("a mark costs no step", answer(listing(mark(one)))[2], 2)
    check("+ charges the whole result", answer(plus(string("ab"), string("")))[2:], (3, 0, 2))
    check("+ charges the whole result of lists", answer(plus(listing(one, two), listing()))[2:], (5, 4, 0))
    rule = map_to(listing(one, two), 4, name(4))
    # steps: comprehension, init, range 3, then for each item condition, list and its element
    check("append path", answer(rule), ("value", List((Int(1), Int(2))), 5 + 2 * 3, 2 + 2 * 2 + 2, 0))
    check("append path's rooms", rooms(rule)[0], [Int(1), Int(2)] + [Int(1)] * 2 + [Int(2)] * 2 + [Int(1), Int(2)])
    check("append: gathered cells come at once", answer(rule, (99, 3, 0)), ("exhausted", "Cells", (8, 3, 0)))
    check("counts after an error are the charges made", answer(listing(one, name(9))), ("error", 1, 16, (3, 2, 0)))
    check("cells before nesting", answer(nested(33, null), (99, 32, 0))[:2], ("exhausted", "Cells"))
    check("nesting", answer(nested(33, null))[:2], ("exhausted", "Nesting"))
    # the outermost list's charge is the first, its nesting the last
    check("nesting after the operands", answer(nested(33, null))[2], (34, 33, 0))


def reading_rooms() -> None:
    one, x = integer(1), name(9)
    one_, null_ = Int(1), Null()
    check("a failed list keeps what was ready", rooms(either(listing(true, x), true)), ([Bool(True), null_], b""))
    check("a container before its parts", rooms(listing(listing(one), one)), ([List((one_,)), one_, one_], b""))
    check("a map's cells", rooms(mapping((one, true))), ([one_, Bool(True)], b""))
    check("dropped entries leave Null at the end",
          rooms(listing(mark(none), one, mark(of(true)))), ([one_, Bool(True), null_, Bool(True)], b""))
    check("a dropped map entry", rooms(mapping((one, mark(none)), (one, one))), ([one_, one_, null_, null_], b""))
    failing = mapping((one, true), (uint(1), true))
    check("an entry is ready after its duplicate test", rooms(either(failing, true))[0], [one_, Bool(True), null_, null_])
    check("an entry without its value", rooms(either(mapping((one, x)), true))[0], [null_, null_])
    check("text", rooms(plus(plus(string("a"), string("b")), string("c"))), ([], b"ababc"))


def reading_comprehensions() -> None:
    one, two, r, i, x = integer(1), integer(2), name(3), name(4), name(9)
    append = plus(r, listing(i))
    room = bound((3, string("outer")), (6, listing()))
    rule = comprehension(3, 4, listing(one), name(6), true, plus(r, listing(name(3))), r)
    check("chosen by init's value; the outer accumulator shows through",
          answer(rule, room=room)[1], List((String(b"outer"),)))
    for literal in (null, one, uint(1), double(1.0), string("a"), byte_string(b"a")):
        rule = comprehension(3, 4, listing(one), listing(), literal, append, r)
        check(f"condition {literal}", answer(rule)[:3], ("error", 2, 0))
        rule = comprehension(3, 4, listing(), listing(), literal, append, r)
        check(f"condition {literal} over an empty range", answer(rule), ("value", List(()), 3, 0, 0))
    rule = comprehension(4, 4, listing(one, two), integer(5), true, plus(name(4), name(4)), name(4))
    check("one name: the item over the accumulator", answer(rule)[1], Int(4))
    rule = comprehension(3, 4, listing(one, two), integer(0), true, r, i)
    check("the result sees the last item", answer(rule)[1], Int(2))
    rule = comprehension(3, 4, listing(), integer(0), x, r, r)
    check("no condition over an empty range", answer(rule), ("value", Int(0), 4, 0, 0))
    failing = either(r, x)
    bad = name(9)
    rule = comprehension(3, 4, listing(one, two), false, conditional(equals(i, one), bad, true), failing, r)
    check("a condition that fails at the first item", error_at(rule, rule.operands[2].operands[0].operands[0], 1), True)
    # the condition sees the previous item: absent at first, so not-strictly-false lets the first item through
    going = conditional(not_strictly_false(equals(i, two)), true, bad)
    rule = comprehension(3, 4, listing(one, two), false, going, failing, r)
    check("a failing condition beats a pending error", error_at(rule, bad, 1), True)
    rule = comprehension(3, 4, listing(one, two), false, not_strictly_false(equals(i, two)), failing, r)
    check("a false condition gives the pending one", error_at(rule, failing.operands[1], 1), True)
    rule = exists(listing(one, two), 4, conditional(equals(i, one), x, true))
    check("a later true clears", answer(rule)[1], Bool(True))
    rule = exists(listing(one, two), 4, conditional(equals(i, one), x, binary("/", one, integer(0))))
    check("the newest error is held", answer(rule)[1], 7)
    check("a present Optional of an Optional: index", answer(index(of(none), one))[1], Optional(None))
    check("a present Optional of an Optional: select", answer(select(of(none), "a"))[1], 5)


def modules() -> None:
    """Sentences of document 01's modules that the other checks do not touch."""
    one, x, deep = integer(1), name(9), conditional(null, true, true)
    check("module 1: toward zero", [answer(binary(operator, integer(-7), integer(2)))[1] for operator in "/%"],
          [Int(-3), Int(-1)])
    check("module 1: 7 before 6", answer(binary("/", integer(INT_MIN), integer(0)))[1], 7)
    check("module 1: a sum out of range", answer(plus(integer(INT_MAX), one))[1], 6)
    check("module 1: no % on Doubles", answer(binary("%", double(1.0), double(1.0)))[1], 3)
    check("module 2: never by first rounding", answer(equals(integer(2 ** 53 + 1), double(2.0 ** 53)))[1], Bool(False))
    check("module 2: Uint above Int", answer(binary("<", integer(INT_MAX), uint(2 ** 63)))[1], Bool(True))
    check("module 2: none and present", answer(equals(none, of(null)))[1], Bool(False))
    check("module 3: Int against Uint", answer(index(mapping((uint(1), true)), one))[1], Bool(True))
    check("module 3: Bool is no number", answer(index(mapping((true, true)), one))[1], 5)
    check("module 4: value of none", answer(value(none))[:3], ("error", 4, 0))
    check("module 4: others", answer(has_value(one))[:3], ("error", 3, 0))
    check("module 5: index of none", answer(index(none, x)), ("value", Optional(None), 2, 0, 0))
    check("module 5: an error inside the index stays", answer(optional_index(listing(), x))[1], 1)
    check("module 5: a field that is no String, of none", answer(optional_select(none, one))[:3], ("error", 4, 0))
    check("module 5: select on a present Int", answer(select(of(one), "a"))[1], 5)
    check("module 5: select on a present List", answer(select(of(listing(one)), "a"))[1], Optional(None))
    check("module 5: test on a present List", answer(has(of(listing(one)), "a"))[1], Bool(False))
    check("module 5: test on an Int", answer(has(one, "a"))[1], 3)
    check("module 6: left error 2 gives 3 here", answer(either(negation(deep), false))[:3], ("error", 3, 0))
    check("module 6: a right error is the answer", error_at(either(one, x), x, 1), True)
    check("module 6: && the same way", answer(both(x, false))[1], Bool(False))
    check("module 6: && with a non-Bool left", answer(both(one, true))[:3], ("error", 3, 0))
    check("module 6: not-strictly-false of no Bool", answer(not_strictly_false(one))[1], Bool(True))
    check("module 7: orValue begins its second operand first", error_at(or_value(name(8), x), x, 1), True)
    check("module 7: size", [answer(size(part))[1] for part in (string("\u00e9a"), byte_string(b"ab"), listing(one),
                                                                mapping())],
          [Int(2), Int(2), Int(1), Int(0)])
    check("module 8: a marked none makes no test", answer(mapping((one, one), (one, mark(none))))[:2],
          ("value", Map(((Int(1), Int(1)),))))
    rule = comprehension(3, 4, listing(one), true, true, both(name(3), x), name(8))
    check("module 9: pending before the result", error_at(rule, x, 1), True)
    rule = comprehension(3, 4, mapping((string("k"), one)), null, true, name(4), name(3))
    check("module 9: a Map's keys", answer(rule)[1], String(b"k"))


def slips() -> None:
    """Exhaustion goes past ||, a pending step, an optional index and not-strictly-false."""
    deep = nested(33, null)
    for rule in (either(deep, true), exists(listing(true), 4, deep), optional_index(listing(true), deep),
                 not_strictly_false(deep), conditional(true, deep, true), or_value(of(true), deep)):
        check(f"exhaustion: {str(rule)[:20]}", answer(rule)[:2], ("exhausted", "Nesting"))


# ---------------------------------------------------------------- cross-checks


def doubles() -> None:
    """The exact rules against Python's own floats, which are IEEE 754 binary64."""
    draw = Draw(7)
    special = [0, 1, 2, 3, 0xFFFFFFFFFFFFF, 0x10000000000000, 0x3FF0000000000000, 0x3FF0000000000001, 0x3FE0000000000000,
               0x4340000000000000, 0x4340000000000001, 0x7FEFFFFFFFFFFFFF, 0x7FE0000000000000, 0x7FF0000000000000, NAN,
               0x7FF0000000000001, 0x3CA0000000000000, 0x3CB0000000000000, 0x1E60000000000000]
    words = [word | sign for word in special for sign in (0, 1 << 63)]
    pairs = [(a, b) for a in words for b in words]
    for _ in range(20_000):
        a = draw.word()
        near = (a & 0x7FF0000000000000) + (draw.below(120) - 60 << 52)
        b = draw.word() if draw.below(2) else draw.word() & ~0x7FF0000000000000 | max(0, min(near, 0x7FE << 52))
        pairs.append((a, b))
    for a, b in pairs:
        for operator, rule in DOUBLE_RULES.items():
            got = rule(a, b)
            x, y = (struct.unpack("<d", struct.pack("<Q", word))[0] for word in (a, b))
            if operator == "/" and y == 0:
                sign = math.copysign(1, x) * math.copysign(1, y)
                wanted = math.nan if x == 0 or math.isnan(x) else math.copysign(math.inf, sign)
            else:
                wanted = {"+": lambda: x + y, "-": lambda: x - y, "*": lambda: x * y, "/": lambda: x / y}[operator]()
            word = NAN if math.isnan(wanted) else struct.unpack("<Q", struct.pack("<d", wanted))[0]
            check(f"{a:016x} {operator} {b:016x}", got, word)
    check("unary minus of a NaN", answer(minus(bits(0xFFF8000000000123)))[1], Double(NAN))
    check("a NaN literal keeps its bits", answer(bits(0xFFF8000000000123))[1], Double(0xFFF8000000000123))


def utf8() -> None:
    draw = Draw(8)
    interesting = [0x00, 0x41, 0x7F, 0x80, 0x8F, 0x90, 0x9F, 0xA0, 0xBF, 0xC0, 0xC1, 0xC2, 0xDF, 0xE0, 0xE1, 0xEC, 0xED,
                   0xEE, 0xEF, 0xF0, 0xF1, 0xF3, 0xF4, 0xF5, 0xFF]
    samples = [bytes([a, b]) for a in interesting for b in interesting]
    samples += [bytes([a, b, c]) for a in interesting for b in interesting for c in interesting]
    samples += [bytes(draw.pick(interesting) for _ in range(draw.below(7))) for _ in range(20_000)]
    for data in samples:
        try:
            wanted = len(data.decode("utf-8", "strict"))
        except UnicodeDecodeError:
            wanted = None
        check(f"utf8 {data.hex()}", utf8_valid(data), wanted is not None)
        if wanted is not None:
            check(f"code points {data.hex()}", answer(size(string(data)))[1], Int(wanted))


def traces() -> None:
    """A run under limits is the trace of the run under the greatest limits, walked up to its limit."""
    rules = [map_to(listing(integer(1), integer(2)), 4, listing(name(4))), equals(listing(null), listing(null)),
             plus(plus(string("ab"), string("c")), string("d")), either(listing(name(9)), of(of(true))),
             all_of(listing(integer(0), integer(2)), 5, equals(binary("/", integer(4), name(5)), integer(2)))]
    for rule in rules:
        made = assemble(rule)
        trace: list = []
        whole = evaluate(made.table, made.text, trace=trace).answer
        steps, cells, text = whole[2:] if whole[0] == "value" else whole[3]
        for limits in [(s, c, t) for s in range(steps + 2) for c in range(cells + 2) for t in range(text + 2)]:
            which, counts = limited(trace, Limits(*limits))
            got = evaluate(made.table, made.text, limits=Limits(*limits)).answer
            check(f"{rule} under {limits}", got, whole if which is None else ("exhausted", which, counts))


def main() -> None:
    for part in (examples, reading_refusals, reading_bindings, reading_errors, reading_charges, reading_rooms,
                 reading_comprehensions, modules, slips, doubles, utf8, traces):
        part()
    print(f"{done} checks, {len(failed)} failed")
    sys.exit(1 if failed else 0)


if __name__ == "__main__":
    main()
