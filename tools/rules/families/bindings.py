"""Bringing in, refusals in their order, unsound rooms, rules over bound values."""

from __future__ import annotations

from typing import Iterator

from assemble import (assemble, binary, bits, byte_string, comprehension, conditional, double, either, equals,
                      false, has, index, integer, listing, map_to, mapping, mark, name, negation, none, null, of,
                      optional_index, plus, select, size, string, true, uint)
from model import Room
from model.numbers import INT_MAX, INT_MIN, UINT_MAX

from .common import I, ONE, THREE, TWO, ZERO, Case, Script, binding, case, nested


def bindings() -> "Iterator[Case | Script]":
    yield from accepted_bindings()
    yield from refused_bindings()
    yield from unsound_rooms()
    yield from rules_over_bindings()


BINDABLE = (
    null, true, false, ZERO, integer(INT_MIN), integer(INT_MAX), uint(0), uint(UINT_MAX), double(1.5), bits(1 << 63),
    bits(0x7FF8000000000000), bits(0xFFF0000000000001), bits(0x7FF0000000000000), string(""), string("a"),
    string("\u00e9\U0001d11e"),
    byte_string(b""), byte_string(b"\xff\0"), listing(), listing(null), listing(ONE, TWO, THREE), listing(listing(), listing()),
    listing(listing(ONE, listing(TWO)), string("ab"), byte_string(b"ab")), mapping(), mapping((ONE, TWO)),
    mapping((TWO, ONE), (ONE, TWO)), mapping((true, null), (false, null)), mapping((string("a"), ONE), (string(""), TWO)),
    mapping((ONE, listing(ONE)), (uint(2), mapping((ONE, ONE))), (true, null), (string("1"), null)),
    mapping((integer(-1), null), (uint(UINT_MAX), null)), listing(mapping((ONE, ONE)), mapping((uint(1), ONE))),
    mapping((ONE, mapping((ONE, mapping((ONE, listing())))))),
)


def accepted_bindings() -> Iterator[Script]:
    for spelled in BINDABLE:
        yield Script(f"n5 = {spelled}", [binding(5, spelled)])
        yield Script(f"n1, then n5 = {spelled}, then n127",
                     [binding(1, listing(string("b"), ONE)), binding(5, spelled), binding(127, mapping((string("bb"), ONE)))])
    for number in (0, 1, 126, 127):
        yield Script(f"name {number}", [binding(number, listing(ONE))])
    yield Script("all 128 names", [binding(number, listing(integer(number))) for number in range(128)])
    yield Script("emptying", [binding(1, listing(string("ab"))), None, binding(1, listing(string("c"), ONE)),
                              binding(2, null), None])
    yield Script("emptying an empty room", [None, None, binding(0, null)])
    yield Script("full, emptied, full again", [binding(1, listing(ONE, TWO)), binding(2, listing(ONE)), None,
                                               binding(2, listing(ONE, TWO)), binding(1, null)], lent=(2, 0))
    for around in (listing, lambda e: mapping((ONE, e)), lambda e: listing(ONE, e)):
        for depth in (1, 31, 32):
            yield Script(f"{depth} containers", [binding(1, nested(depth, null, around))])


def refused_bindings() -> Iterator[Script]:
    for number in (128, 129, 200, 255):
        yield Script(f"name {number}", [binding(number, null)])
        yield Script(f"name {number} and a bad table", [(number, b"", b"")])
    yield Script("bound already", [binding(1, null), binding(1, ONE), binding(2, ONE)])
    for bad in (b"", b"\xff", b"\0\3\0\0", b"\1\4\0\2", b"\0" * 16_385, b"\0\4\0", assemble(mark(null)).table,
                assemble(listing(name(200))).table):
        yield Script(f"table {bad[:8].hex()}", [(1, bad, b"")])
        yield Script(f"bound already, table {bad[:8].hex()}", [binding(1, null), (1, bad, b"")])
    made = assemble(nested(64, null))
    yield Script("nesting 65 records", [(1, made.table, b"")])
    others = (name(1), name(0), negation(true), either(true, true), conditional(true, true, true), select(mapping(), "a"),
              comprehension(3, 4, listing(), true, true, true, true), none, of(ONE), size(listing()))
    for other in others:
        yield Script(f"n1 = {other}", [binding(1, other)])
        yield Script(f"9 within: {other}", [binding(1, listing(ONE, mapping((ONE, other), (other, ONE))))])
        yield Script(f"9 before 8: {other}", [binding(1, mapping((null, ONE), (ONE, ONE), (uint(1), other)))])
    yield Script("a mark is no value", [binding(1, listing(ONE, mark(TWO)))])
    yield Script("a mark on a map value", [binding(1, mapping((ONE, mark(TWO))))])
    yield Script("a mark about a name", [binding(1, listing(mark(name(1))))])
    wrong = (null, double(1.0), byte_string(b"a"), listing(), mapping(), listing(ONE))
    for key in wrong:
        for spelled in (mapping((key, ONE)), mapping((ONE, ONE), (key, ONE)), listing(ONE, mapping((ONE, mapping((key, ONE))))),
                        mapping((ONE, mapping((TWO, ONE), (key, ONE))), (uint(1), ONE)),
                        mapping((ONE, mapping((TWO, ONE), (THREE, ONE))), (uint(1), ONE), (key, ONE))):
            yield Script(f"wrong key: {spelled}", [binding(1, spelled)])
    for first, second in ((ONE, ONE), (ONE, uint(1)), (uint(1), ONE), (true, true), (string("a"), string("a")),
                          (string(""), string("")), (integer(INT_MAX), uint(INT_MAX)), (false, false)):
        yield Script(f"{first} and {second}", [binding(1, mapping((first, ONE), (second, ONE)))])
        between = mapping((first, ONE), (string("z"), mapping()), (second, ONE), (null, ONE))
        yield Script(f"{first}, between, {second}", [binding(1, between)])
        within = listing(mapping((first, mapping((first, ONE), (second, ONE))), (second, ONE)))
        yield Script(f"{first} and {second} within", [binding(1, within)])
    for first, second in ((ONE, true), (ONE, string("1")), (integer(-1), uint(UINT_MAX)), (ZERO, false)):
        yield Script(f"{first} and {second} do not match", [binding(1, mapping((first, ONE), (second, ONE)))])
    for around in (listing, lambda e: mapping((ONE, e)), lambda e: listing(ONE, e), lambda e: mapping((null, null), (ONE, e))):
        for depth in (32, 33, 40):
            yield Script(f"{depth} containers", [binding(1, nested(depth, listing(), around))])
    yield Script("33 containers through a key", [binding(1, mapping((nested(32, null), ONE)))],
                 tag="choice: nesting through a wrong key")
    yield Script("32 containers through a key", [binding(1, mapping((nested(31, null), ONE)))])
    for cells, text, spelled in ((0, 0, listing()), (0, 0, listing(ONE)), (1, 0, listing(ONE)),
                                 (1, 0, mapping((ONE, ONE))), (2, 0, mapping((ONE, ONE))),
                                 (3, 2, listing(string("a"), string("b"), byte_string(b""))),
                                 (3, 1, listing(string("a"), string("b"), null)),
                                 (2, 9, listing(string("a"), listing(null))),
                                 (3, 9, listing(string("a"), listing(null))), (0, 1, string("ab")),
                                 (0, 2, string("ab")), (5_000, 20_000, byte_string(b"a" * 16_384)),
                                 (5_000, 20_000, byte_string(b"a" * 16_385)),
                                 (5_000, 0, listing(*([null] * 4_096))), (5_000, 0, listing(*([null] * 4_097))),
                                 (4_096, 0, mapping((ONE, null)))):
        yield Script(f"room {cells} {text}: {spelled.says[:40]}", [binding(1, spelled)], lent=(cells, text))
        yield Script(f"room {cells} {text}: twice {spelled.says[:40]}", [binding(1, spelled), binding(2, spelled)],
                     lent=(cells, text))
    yield Script("8 before 10", [binding(1, mapping((null, ONE), (TWO, ONE)))], lent=(1, 0))
    yield Script("9 before 10", [binding(1, listing(null, null, none))], lent=(1, 0))
    yield Script("11 before 10", [binding(1, null), binding(1, listing(null))], lent=(0, 0))


def room_of(cells: list, used: "int | None" = None, text: bytes = b"", used_text: "int | None" = None,
            slots: "dict[int, tuple] | None" = None) -> Room:
    room = Room(list(cells), bytearray(text), len(cells) if used is None else used,
                len(text) if used_text is None else used_text)
    for number, slot in (slots or {}).items():
        room.slots[number] = slot
    return room


def unsound_rooms() -> "Iterator[Case | Script]":
    nothing, other = ("Null",), ("Other",)
    chain = [("List", at + 1, 1) for at in range(33)] + [nothing]
    rooms = {
        "sound": room_of([("List", 1, 1), nothing], slots={1: ("List", 0, 1)}),
        "shared": room_of([("List", 2, 1), ("List", 2, 1), nothing],
                          slots={1: ("List", 0, 2), 2: ("List", 0, 2), 3: ("List", 1, 1)}),
        "overlapping": room_of([("Int", 1), ("Int", 2), ("Int", 3)],
                               slots={1: ("List", 0, 2), 2: ("List", 1, 2), 3: ("Map", 0, 1)}),
        "a cell no binding writes": room_of([nothing, other]),
        "a cell no binding writes, unused": room_of([nothing, other], used=1, slots={1: ("List", 0, 1)}),
        "to itself": room_of([("List", 0, 1), nothing]),
        "back": room_of([nothing, nothing, ("List", 1, 1)]),
        "outside": room_of([nothing, ("List", 2, 1)]),
        "outside by one": room_of([("List", 1, 2), nothing]),
        "a map outside by one": room_of([("Map", 1, 1), nothing]),
        "beyond the used count": room_of([("List", 1, 1), nothing], used=1),
        "empty, at the end": room_of([nothing, ("List", 2, 0)], slots={1: ("List", 1, 1)}),
        "empty, behind the end": room_of([nothing, ("List", 3, 0)]),
        "empty, at itself": room_of([nothing, ("Map", 1, 0)]),
        "a slot outside": room_of([nothing], slots={5: ("List", 0, 2)}),
        "an empty slot at the end": room_of([nothing], slots={5: ("List", 1, 0)}),
        "an empty slot behind the end": room_of([nothing], slots={5: ("List", 2, 0)}),
        "a slot that no binding writes": room_of([nothing], slots={127: other}),
        "a slot's text outside": room_of([nothing], text=b"ab", used_text=1, slots={0: ("String", 0, 2)}),
        "a slot's text not UTF-8": room_of([nothing], text=b"\xff", slots={0: ("String", 0, 1)}),
        "a slot's bytes not UTF-8": room_of([nothing], text=b"\xff", slots={0: ("Bytes", 0, 1)}),
        "a slot's keys match": room_of([("Int", 1), nothing, ("Uint", 1), nothing], slots={0: ("Map", 0, 2)}),
        "a slot's key of a wrong kind": room_of([("Double", 0), nothing], slots={0: ("Map", 0, 1)}),
        "a slot nesting 33": room_of(chain[:32] + [nothing], slots={0: ("List", 0, 1)}),
        "a slot nesting 32": room_of(chain[:31] + [nothing], slots={0: ("List", 0, 1)}),
        "used above the room": room_of([nothing], used=2),
        "used above the room, and a bad cell": room_of([nothing, other], used=3),
        "used text above the room": room_of([nothing], text=b"a", used_text=2),
        "used text above the room, a string in it": room_of([("String", 0, 1)], text=b"a", used_text=2),
        "a bad cell and a bad slot": room_of([nothing, nothing, other], slots={0: other}),
        "two bad cells": room_of([nothing, ("List", 0, 1), other]),
        "text outside": room_of([nothing, ("Bytes", 0, 2)], text=b"a"),
        "text beyond the used": room_of([nothing, ("Bytes", 0, 2)], text=b"ab", used_text=1),
        "empty text at the end": room_of([("String", 2, 0)], text=b"ab"),
        "empty text behind the end": room_of([("String", 3, 0)], text=b"ab"),
        "text not UTF-8": room_of([nothing, ("String", 1, 1)], text=b"a\xc3"),
        "bytes not UTF-8": room_of([nothing, ("Bytes", 1, 1)], text=b"a\xc3"),
        "keys match": room_of([nothing, ("Map", 2, 2), ("Int", 1), nothing, ("Uint", 1), nothing]),
        "string keys match": room_of([("Map", 1, 2), ("String", 0, 1), nothing, ("String", 1, 1), nothing], text=b"aa"),
        "keys of unlike kinds": room_of([("Map", 1, 2), ("Bool", 1), nothing, ("Int", 1), nothing]),
        "a key is a list": room_of([("Map", 1, 1), ("List", 3, 0), nothing]),
        "a key is Null": room_of([nothing, ("Map", 2, 1), nothing, nothing]),
        "a map's value is bad": room_of([("Map", 1, 1), ("Int", 1), other]),
        "nesting 32": room_of(chain[:32] + [nothing]),
        "nesting 33": room_of(chain),
        "nesting 33, later": room_of([nothing] + [("List", at + 2, 1) for at in range(33)] + [nothing]),
        "doubled": room_of([cell for at in range(31) for cell in [("List", 2 * at + 2, 2)] * 2] + [nothing, nothing]),
        "doubled too deep": room_of([cell for at in range(33) for cell in [("List", 2 * at + 2, 2)] * 2] + [nothing, nothing]),
        "4,096 used": room_of([nothing] * 4_100, used=4_096),
        "4,097 used": room_of([nothing] * 4_100, used=4_097),
        "a bad cell above 4,096": room_of([nothing] * 4_098 + [other], used=4_097),
        "a reference above 4,096": room_of([("List", 4_095, 1)] + [nothing] * 4_099, used=4_096),
        "16,385 bytes used": room_of([nothing], text=b"a" * 16_400, used_text=16_385),
        "16,384 bytes used": room_of([nothing], text=b"a" * 16_400, used_text=16_384),
    }
    tagged = {
        "a reference within the used count and outside the room": room_of([("List", 1, 1), ], used=2),
        "33 deep above a bad cell": room_of(chain[:33] + [other]),
        "33 deep above a bad reference": room_of(chain[:32] + [("List", 0, 1)]),
        "a key's text is bad": room_of([("Map", 1, 2), ("String", 0, 9), nothing, ("String", 0, 9), nothing], text=b"a"),
    }
    table = assemble(listing(name(1)))
    for says, room in [*rooms.items(), *tagged.items()]:
        tag = "choice: place in an unsound room" if says in tagged else ""
        yield Case(f"{says}: evaluate", table.table, room=room, tag=tag)
        yield Case(f"{says}: evaluate, bytes after the root", table.table + b"\0", room=room, tag=tag)
        yield Script(f"{says}: bring in", [binding(9, listing(ONE))], room=copied(room), tag=tag)
        yield Script(f"{says}: bring in a wrong name", [(200, b"", b"")], room=copied(room), tag=tag)


def copied(room: Room) -> Room:
    return Room(list(room.cells), bytearray(room.text), room.used_cells, room.used_text, list(room.slots))


def rules_over_bindings() -> Iterator[Case]:
    for spelled in BINDABLE:
        brought = (binding(5, spelled), binding(6, listing(spelled)))
        held = name(5)
        for rule in (held, equals(held, spelled), equals(held, held), size(held), listing(held), of(held), index(name(6), ZERO),
                     map_to(held, 4, I, accu=3), binary("in", held, name(6)), index(held, ONE), optional_index(held, ZERO),
                     select(held, "a"), has(held, "a"), plus(held, held), binary("<", held, held), mapping((held, held)),
                     conditional(held, ONE, TWO), either(held, held), comprehension(5, 4, listing(ONE), held, true, held, held),
                     comprehension(3, 5, held, ZERO, true, held, held)):
            yield case(rule, brought)
