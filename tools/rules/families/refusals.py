"""Damaged tables: every refusal 1 to 7, and the order among them."""

from __future__ import annotations

import struct
from typing import Callable, Iterator

from assemble import (Node, assemble, both, byte_string, comprehension, conditional, double, either, equals, false,
                      integer, listing, mapping, mark, minus, name, negation, none, not_strictly_false, null, of,
                      optional_index, or_value, patched, select, size, string, true, uint)
from draw import Draw

from .common import I, ONE, R, TWO, Case, case, nested


def every_kind() -> Node:
    """A rule of all seventeen kinds."""
    over = listing(null, mark(of(true)), integer(-2), uint(3), double(0.5), string("xy"), byte_string(b"\xff"), mark(none))
    init = mapping((string("k"), mark(conditional(negation(false), none, null))), (ONE, listing()))
    step = either(select(R, "k", test=True), equals(size(or_value(of(I), null)), minus(integer(1))))
    return comprehension(3, 4, over, init, not_strictly_false(R), step, optional_index(R, string("k")))


def refusals() -> Iterator[Case]:
    yield from truncations_and_bytes()
    yield from extents()
    yield from record_nesting()
    yield from marks_and_fields()
    yield from spans()
    yield from lengths()
    yield from spelled()


def truncations_and_bytes() -> Iterator[Case]:
    made = assemble(every_kind())
    table, text = made.table, made.text
    yield Case("every kind", table, text)
    for length in range(len(table)):
        yield Case(f"every kind, its first {length} bytes", table[:length], text)
    for more in (b"\0", b"\xff", b"\0\3\0", table):
        yield Case("every kind, and bytes after the root", table + more, text)
    for at in range(len(table)):
        for byte in sorted({0, 0xFF, table[at] + 1 & 0xFF, table[at] - 1 & 0xFF, 14, 16, 17} - {table[at]}):
            yield Case(f"every kind, byte {at} is {byte}", patched(table, at, bytes([byte])), text)
    for length in range(len(text)):
        yield Case(f"every kind, {length} bytes of its text", table, text[:length])
    draw = Draw(5)
    for _ in range(250):
        length = 1 + draw.below(24)
        wild = bytes(draw.pick((draw.below(18), draw.below(18), 0, 0, 1, 3, 4, 5, draw.below(256))) for _ in range(length))
        yield Case("wild bytes", wild, b"ab\xc3\xa9")


def extents() -> Iterator[Case]:
    for rule in (every_kind(), listing(listing(), mapping(), none), negation(negation(true)), mapping((ONE, TWO)),
                 conditional(true, listing(ONE), none), of(select(mapping(), "a")), or_value(none, listing(mark(null)))):
        made = assemble(rule)
        places = [at for at, _ in made.records]
        for at in places:
            extent = struct.unpack_from("<H", made.table, at + 1)[0]
            for other in (extent - 1, extent + 1, 0, 1, 2, 3, extent + 256, 0xFFFF, len(made.table) - at,
                          len(made.table) - at + 1):
                if other != extent:
                    yield Case(f"{rule.says}: extent {other} at {at}",
                               patched(made.table, at + 1, struct.pack("<H", other)), made.text)
        for at, node in made.records:
            if node.kind in (12, 13):
                count = struct.unpack_from("<H", made.table, at + 3)[0]
                for other in (count - 1, count + 1, 0xFFFF):
                    if other >= 0:
                        yield Case(f"{rule.says}: count {other} at {at}",
                                   patched(made.table, at + 3, struct.pack("<H", other)), made.text)
        # a record less and a record more, with the root's extent as it was and as it should be
        for more in (b"\0\3\0", b"\1\4\0\1", b"\x11", b"\xff\0"):
            yield Case(f"{rule.says}: extent takes in {more.hex()}",
                       patched(made.table, 1, struct.pack("<H", len(made.table) + len(more))) + more, made.text)


def record_nesting() -> Iterator[Case]:
    arounds: tuple[Callable[[Node], Node], ...] = (
        listing, negation, not_strictly_false, lambda e: listing(true, e), lambda e: either(true, e), lambda e: both(e, false),
        lambda e: conditional(true, true, e), lambda e: mapping((true, e)), lambda e: select(e, "a"), of, size,
        lambda e: comprehension(3, 4, listing(), true, true, e, true), lambda e: comprehension(3, 4, e, true, true, true, true),
        lambda e: or_value(none, e))
    for around in arounds:
        for depth in (62, 63, 64, 65):
            yield case(nested(depth, true, around))
    for depth in (30, 31, 32, 33):
        yield case(nested(depth, true, lambda e: listing(mark(e))))
        yield case(listing(nested(depth, true, lambda e: listing(mark(e)))))
    # within the record too deep: 2 and 3 come before 4, 5 and 6 after
    for inner in ("ff", "ff0300", "00", "000400", "010300", "01040002", "010400ff", "0e0600000300", "0e0300000300",
                  "1005000300",
                  "10040003", "10040007", "0c05000000", "0c06000000", "0c0800010000", "05070000000100", "07040080"):
        for depth in (63, 64):
            table = bytes.fromhex(inner)
            for _ in range(depth):
                table = b"\x08" + struct.pack("<H", len(table) + 4) + b"\1" + table
            yield Case(f"{depth} negations about {inner}", table)


def marks_and_fields() -> Iterator[Case]:
    m = mark(ONE)
    for rule in (m, mark(m), listing(mark(m)), negation(m), either(m, true), either(true, m), conditional(m, true, true),
                 conditional(true, m, true), conditional(true, true, m), select(m, "a"), mapping((m, true)), mapping((m, m)),
                 mapping((true, m)), mapping((true, mark(m))), of(m), or_value(m, true), or_value(none, m), size(m),
                 comprehension(3, 4, m, true, true, true, true), comprehension(3, 4, true, m, true, true, true),
                 comprehension(3, 4, true, true, m, true, true), comprehension(3, 4, true, true, true, m, true),
                 comprehension(3, 4, true, true, true, true, m), listing(m, listing(m), mapping((true, m))),
                 listing(listing(m), conditional(true, true, m)), mapping((ONE, true), (listing(m), m), (m, ONE))):
        yield case(rule)
    for wrong in ([Node(1, bytes([n]), says=f"Bool {n}") for n in (2, 3, 128, 255)]
                  + [name(n) for n in (127, 128, 200, 255)]
                  + [Node(8, bytes([n]), (true,), says=f"unary {n}") for n in (0, 4, 5, 255)]
                  + [Node(9, bytes([n]), (true, true), says=f"binary {n}") for n in (0, 18, 19, 255)]
                  + [Node(11, bytes([n]), (true,), b"", says=f"select {n}") for n in (2, 3, 255)]
                  + [Node(15, bytes(names), (true,) * 5, says=f"comprehension {names}")
                     for names in ((128, 0), (0, 128), (127, 127), (255, 255))]
                  + [Node(16, bytes([n]), (true,) * count, says=f"function {n}")
                     for n in (0, 1, 2, 3, 4, 5, 6, 7, 255) for count in range(4)]):
        yield case(wrong)
        yield case(listing(null, wrong, mark(null)))
        yield case(either(wrong, wrong))
    for first in (Node(1, b"\2", says="Bool 2"), mark(ONE), Node(17, says="kind 17"), name(200)):
        for second in (Node(1, b"\2", says="Bool 2"), mark(ONE), Node(17, says="kind 17"), name(200)):
            yield case(either(first, second))


def spans() -> Iterator[Case]:
    def literal(kind: int, offset: int, length: int) -> bytes:
        if kind == 11:
            return struct.pack("<BHBHH", 11, 11, 0, offset, length) + b"\0\3\0"
        return struct.pack("<BHHH", kind, 7, offset, length)

    for kind in (5, 6, 11):
        for text, pairs_ in ((b"", ((0, 0), (0, 1), (1, 0), (65_535, 0), (65_535, 65_535))),
                             (b"abc", ((0, 3), (0, 4), (3, 0), (2, 1), (2, 2), (4, 0), (3, 1), (65_535, 1), (1, 65_535))),
                             (b"a" * 65_535, ((65_534, 1), (65_535, 0), (65_535, 1), (0, 65_535))),
                             (b"a" * 65_536, ((65_535, 1), (65_535, 2), (1, 65_535), (2, 65_535)))):
            for offset, length in pairs_:
                yield Case(f"kind {kind}, span {offset} {length} of {len(text)} bytes", literal(kind, offset, length), text)
        bad = ["80", "bf", "c0", "c080", "c1bf", "c2", "c27f", "c2c0", "df", "e0", "e080", "e09fbf", "e0a0", "e0a07f", "e18080",
               "ecbfbf", "ed9fbf", "eda080", "edbfbf", "ee8080", "efbfbf", "efbf", "f0", "f08fbfbf", "f0908080", "f0bfbfbf",
               "f3bfbfbf", "f48fbfbf", "f4908080", "f5808080", "ff", "fe", "41c3", "41c3a9", "c3a941", "c3a9c3",
               "e282ac", "e282",
               "f09d849e", "f09d84", "00", "7f", "c280", "dfbf", "4180"]
        for data in map(bytes.fromhex, bad):
            yield Case(f"kind {kind}, text {data.hex()}", literal(kind, 0, len(data)), data)
    # a span that cuts a code point
    for offset, length in ((0, 1), (1, 1), (0, 2), (1, 2), (2, 1)):
        yield Case(f"a span {offset} {length} of c3a9c3a9", literal(5, offset, length), bytes.fromhex("c3a9c3a9"))


def lengths() -> Iterator[Case]:
    yield Case("an empty table", b"")
    full = size(listing(*([ONE] * 1_487), *([null] * 6)))  # 16,384 bytes
    yield case(full)
    yield case(size(listing(*([ONE] * 1_487), *([null] * 5), true)))
    yield case(size(listing(*([null] * 5_455), true, true)))
    yield Case("16,385 bytes of which the first is unknown", b"\xff" * 16_385)
    yield Case("16,384 bytes of which the first is unknown", b"\xff" * 16_384)
    yield Case("a Null and bytes after the root, 16,384 in all", b"\0\3\0" + b"\0" * 16_381)
    yield Case("a Null and bytes after the root, 16,385 in all", b"\0\3\0" + b"\0" * 16_382)
    for length in range(1, 12):
        yield Case(f"{length} zeros", b"\0" * length)
        yield Case(f"a Null and {length} bytes", b"\0\3\0" + b"\7" * length)


def spelled() -> Iterator[Case]:
    """The rows of the readings, and their neighbours."""
    for table in ("08040001ff", "0804000100", "08040001", "0803000101040001", "09070001000300", "0808000100030000",
                  "080900010104000500", "1005000700", "10040007", "1007000700", "1004000300", "1005000300", "10040003",
                  "05070001000000", "0e0600000300", "0c05000100", "0c0500010000", "0d05000100", "0d080001000003 00",
                  "0c080001000003 00",
                  "0c08000100ff", "0c0800010000", "0a0300", "0a0600000300", "0a09000003000003 00", "0a0c000003000003000003 00",
                  "08", "0800", "080000", "08000001", "0801000100030000", "0802", "09", "11", "1100", "ff", "00",
                  "0003", "000300",
                  "000400", "00040000", "000200", "000000", "0104", "010400", "01040000", "01040001", "01040002", "0105000100"):
        yield Case("spelled", bytes.fromhex(table.replace(" ", "")))
