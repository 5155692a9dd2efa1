#!/usr/bin/env python3
"""Makes the list of node tables of the program `test_tables`, and the answers that it must give.

    tools/tables.py                 writes crates/test_tables/stdin and crates/test_tables/stdout
    tools/tables.py --against FILE  names the lines in which FILE, what a run wrote, differs from the answers

The answers are those of the model in tools/rules, which knows nothing of the code; the rows of KNOWN are written by hand.
A line of the list is the table and the literal text in hexadecimal digits, `-` for an empty one; `HEX*COUNT` is a piece
COUNT times, and `+` joins pieces. A line of the answers is the line's number, the two lengths, and

    = accepted      = refused NUMBER at PLACE
"""
import struct
import sys
from collections import Counter
from functools import cache
from pathlib import Path

TOOLS = Path(__file__).resolve().parent
CRATE = TOOLS.parent / "crates" / "test_tables"
sys.path.insert(0, str(TOOLS / "rules"))

from assemble import (Node, assemble, binary, both, comprehension, conditional, either, has,
                      integer, listing, mapping, mark, name, negation, none, null, of, or_value,
                      patched, select, size, true, u16, uint, value)
from draw import Draw
from families.common import nested
from families.random import Rules
from families.refusals import every_kind
from model import Refused, read_table

LONGEST_LIST = 524287  # bytes that the program has room for
LONGEST_TABLE = 16_384
ONE = integer(1)
NULL = b"\0\3\0"

# Rows of docs/FORMAT.md, and others that can be read off it: table, text, and number and place of the refusal or None.
KNOWN = (
    ("08040001ff", "", (2, 4)), ("08040001", "", (3, 4)), ("0803000101040001", "", (3, 0)), ("0808000100030000", "", (3, 0)),
    ("1005000700", "", (5, 0)), ("05070001000000", "", (5, 0)), ("0808000101040001", "", None), ("", "", (1, 0)),
    ("0918001107040000" + "0c10000100" + "020b000100000000000000", "", None), ("000300", "", None), ("00030000", "", (7, 3)),
    ("0e0600000300", "", (6, 0)), ("0d0e0001000e0600000300000300", "", (6, 5)), ("0d0e0001000003000e0600000300", "", None),
    ("05070000000100", "80", (5, 0)), ("06070000000100", "80", None), ("0b0b000000000100000300", "80", (5, 0)),
    ("0c0b00010008080001010400", "", (3, 5)), ("0c0d000100080800010104000102", "", (7, 13)),
)


def expected(table, text):
    try:
        read_table(table, text)
    except Refused as refusal:
        return refusal.number, refusal.place
    return None


# ---- contexts, and wrong records


def around():
    """Rules with a place for a record: each operand of each kind, marked ones too."""
    yield "root", lambda e: e
    yield "unary", negation
    yield "left", lambda e: either(e, true)
    yield "right", lambda e: either(null, e)
    for place in range(3):
        yield f"conditional {place}", lambda e, place=place: conditional(*(e if n == place else true for n in range(3)))
    yield "select", lambda e: select(e, "ab")
    for place in range(3):
        yield f"element {place}", lambda e, place=place: listing(*(e if n == place else null for n in range(3)))
    for place in range(4):
        parts = lambda e, place: [e if n == place else ONE for n in range(4)]
        yield f"entry {place}", lambda e, place=place: mapping(tuple(parts(e, place)[:2]), tuple(parts(e, place)[2:]))
    yield "marked element", lambda e: listing(ONE, mark(e))
    yield "marked value", lambda e: mapping((ONE, mark(e)))
    for place in range(5):
        yield f"fold {place}", lambda e, place=place: comprehension(1, 2, *(e if n == place else name(1) for n in range(5)))
    for called in (size, of, value):
        yield "function", called
    yield "target", lambda e: or_value(e, true)
    yield "default", lambda e: or_value(none, e)


WRONG = (
    Node(17, says="kind 17"), Node(255, says="kind 255"), Node(1, b"\2", says="Bool 2"), name(128), name(255),
    Node(8, b"\0", (true,)), Node(8, b"\4", (true,)), Node(9, b"\0", (true, true)), Node(9, b"\x12", (true, true)),
    Node(11, b"\2", (true,), span=b"a"), Node(15, b"\x80\0", (true,) * 5), Node(15, b"\0\x80", (true,) * 5),
    Node(16, b"\0", (true,)), Node(16, b"\7", (true,)), Node(16, b"\3", (true,)), Node(16, b"\6", (true,)),
    Node(16, b"\1"), Node(16, b"\1", (true, true)), Node(8, b"\1"), Node(8, b"\1", (true, true)), Node(9, b"\1", (true,)),
    Node(10, operands=(true, true)), Node(10, operands=(true,) * 4), Node(12, u16(2), (true,)), Node(12, u16(1), (true, true)),
    Node(13, u16(1), (true,)), Node(13, u16(1), (true,) * 3), Node(14), Node(14, operands=(true, true)),
    Node(15, b"\0\1", (true,) * 4), Node(15, b"\0\1", (true,) * 6), Node(0, b"\0"), Node(1), Node(1, b"\1\1"), Node(2, bytes(7)),
    Node(4, bytes(9)), Node(5, bytes(3)), Node(6, bytes(5)), Node(7), Node(5, u16(0) + u16(9)), Node(6, u16(9) + u16(0)),
    Node(5, span=b"\xff"), Node(11, b"\0", (null,), span=b"\xc3"), mark(ONE), mark(mark(ONE)),
)


def wrong_places():
    """Each wrong record at each place where a record stands."""
    for _, rule in around():
        for wrong in WRONG:
            made = assemble(rule(wrong))
            yield made.table, made.text


def first_faults():
    """Two wrong records: the first in the order of the table is the answer. And wrong fields above a wrong operand."""
    for first in WRONG[::3]:
        for second in WRONG[::4]:
            made = assemble(either(first, second))
            yield made.table, made.text
    for wrong in WRONG[::2]:
        for outer in (Node(8, b"\0", (wrong,)), Node(16, b"\7", (wrong,)), mark(wrong), Node(12, u16(2), (wrong,)),
                      Node(15, b"\x80\0", (wrong,))):
            made = assemble(outer)
            yield made.table, made.text


# ---- one table that has all kinds


def short_rule():
    return both(has(name(1), "name"), binary("in", select(name(1), "age"), listing(integer(18), mark(of(uint(21))))))


def truncations():
    for rule in (every_kind(), short_rule()):
        made = assemble(rule)
        yield made.table, made.text
        for length in range(len(made.table)):
            yield made.table[:length], made.text
        for length in range(len(made.text)):
            yield made.table, made.text[:length]
        for more in (b"\0", b"\xff", NULL, made.table):
            yield made.table + more, made.text


def extents():
    """Each extent of a table off by one both ways; in smaller tables other wrong ones too."""
    for rule in (every_kind(), short_rule(), listing(listing(), mapping(), none), negation(negation(true)), mapping((ONE, null)),
                 conditional(true, listing(ONE), none), of(select(mapping(), "a")), or_value(none, listing(mark(null)))):
        made = assemble(rule)
        whole = len(made.table) > 100
        for at, node in made.records:
            extent = struct.unpack_from("<H", made.table, at + 1)[0]
            left = len(made.table) - at
            for other in {extent - 1, extent + 1} | (set() if whole else {0, 1, 2, 3, 4, extent + 256, 65_535, left, left + 1}):
                if other != extent:
                    yield patched(made.table, at + 1, u16(other)), made.text
            if node.kind in (12, 13):
                count = struct.unpack_from("<H", made.table, at + 3)[0]
                for other in {count - 1, count + 1, 0, 65_535} - {count, -1}:
                    yield patched(made.table, at + 3, u16(other)), made.text
        for more in (NULL, b"\1\4\0\1", b"\x11", b"\xff\0", b"\0"):
            yield patched(made.table, 1, u16(len(made.table) + len(more))) + more, made.text


def each_byte():
    """Each byte of a table changed, of a longer one each third."""
    made = assemble(every_kind())
    draw = Draw(11)
    for at in range(0, len(made.table), 3):
        yield patched(made.table, at, bytes([made.table[at] ^ 1 + draw.below(255)])), made.text
    made = assemble(short_rule())
    for at, byte in enumerate(made.table):
        for other in sorted({255, byte + 1 & 255, byte - 1 & 255, 14} - {byte}):
            yield patched(made.table, at, bytes([other])), made.text


# ---- nesting


def nesting():
    arounds = (
        listing, negation, lambda e: both(null, e), lambda e: conditional(null, null, e),
        lambda e: mapping((null, e)), lambda e: mapping((e, null)), lambda e: select(e, "a"),
        of, lambda e: or_value(none, e), lambda e: comprehension(3, 4, null, null, null, null, e))
    for form in arounds:
        for depth in (62, 63, 64):  # and the innermost: 63, 64 and 65 records
            made = assemble(nested(depth, null, form))
            yield made.table, made.text
    marked = (lambda e: listing(mark(e)), lambda e: mapping((null, mark(e))), lambda e: listing(null, mark(e)))
    for form in marked:
        for depth in (30, 31, 32):
            made = assemble(nested(depth, null, form))
            yield made.table, made.text
            made = assemble(listing(nested(depth, null, form)))
            yield made.table, made.text
            made = assemble(listing(mark(listing(nested(depth - 1, null, form)))))
            yield made.table, made.text
    # one level too many behind the other operands of a conditional and of a comprehension
    for form in (lambda e: conditional(e, null, null), lambda e: conditional(null, e, null), *(
            lambda e, place=place: comprehension(3, 4, *(e if n == place else null for n in range(5))) for place in range(4))):
        made = assemble(nested(64, null, form))
        yield made.table, made.text
    # in the record that is too deep: 2 and 3 before 4; 5 and 6 after it. `!` takes no mark
    for inner in ("ff", "ff0300", "00", "000400", "010300", "01040002", "010400ff", "0e0600000300", "0e0300000300", "1005000300",
                  "10040003", "10040007", "0c05000000", "0c06000000", "0d06000000", "0c0800010000", "05070000000100", "06070000000100",
                  "07040080", "0705008000", "08070000000300", "08070001000300", "090a0000000300000300", "0b0b000200000000000300",
                  "0f14008000" + "000300" * 5, "0f14000080" + "000300" * 5):
        for depth in (63, 64):
            table = bytes.fromhex(inner)
            for _ in range(depth):
                table = b"\x08" + u16(len(table) + 4) + b"\1" + table
            yield table, b""


# ---- counts


def counts():
    """Counts with the highest bit set, and those whose double has more than 16 bits."""
    for count in (255, 256, 32_767, 32_768, 32_769, 65_535):
        for kind in (12, 13):
            for inside in (b"", NULL, NULL + NULL):
                yield bytes([kind]) + u16(5 + len(inside)) + u16(count) + inside, b""


# ---- marks


def marks():
    """A mark at each place, alone, and beside a mark that may stand."""
    for _, rule in around():
        for inside in (mark(null), mark(mark(null)), mark(listing(mark(null))), listing(mark(ONE)), mapping((null, mark(ONE))),
                       mapping((mark(ONE), null)), mapping((mark(ONE), mark(ONE)))):
            made = assemble(rule(inside))
            yield made.table, made.text
        made = assemble(listing(mark(ONE), rule(mark(null)), mark(null)))
        yield made.table, made.text
    for entries in range(1, 5):
        for place in range(2 * entries):
            parts = [mark(null) if n == place else ONE for n in range(2 * entries)]
            yield assemble(Node(13, u16(entries), tuple(parts))).table, b""
    for elements in range(1, 5):
        for which in range(2**elements):
            parts = [mark(null) if which >> n & 1 else null for n in range(elements)]
            yield assemble(listing(*parts)).table, b""


# ---- fields, spans and UTF-8


def fields():
    """Each byte in each one-byte field, and as the kind."""
    for byte in range(256):
        one = bytes([byte])
        for node in (Node(1, one), Node(7, one), Node(8, one, (null,)), Node(9, one, (null, null)), Node(16, one, (null,)),
                     Node(11, one, (null,), span=b""), Node(15, one + b"\0", (null,) * 5), Node(15, b"\0" + one, (null,) * 5)):
            yield assemble(node).table, b""
        if byte < 10:
            yield from ((assemble(Node(16, one, (null,) * count)).table, b"") for count in range(4))
        yield one, b""
        yield one + b"\4\0\1", b""
        yield one + b"\5\0\0\0", b"ab"


def literal(kind, offset, length):
    if kind == 11:
        return b"\x0b\x0b\0\0" + u16(offset) + u16(length) + NULL
    return bytes([kind]) + b"\7\0" + u16(offset) + u16(length)


def spans():
    """Spans at the ends of texts, up to the longest that a span can reach."""
    for kind in (5, 6, 11):
        for length in (0, 1, 3, 255, 256, 65_534, 65_535, 65_536, 131_069, 131_070):
            text = b"a" * length
            ends = {0, 1, length - 1, length, length + 1, 65_535, 65_534}
            for offset in sorted(n for n in ends if 0 <= n <= 65_535):
                rest = length - offset
                for taken in sorted(n for n in {0, 1, rest - 1, rest, rest + 1, 65_535} if 0 <= n <= 65_535):
                    yield literal(kind, offset, taken), text
        yield literal(kind, 65_535, 65_535), b"a" * 131_069 + b"\xff"
        yield literal(kind, 65_535, 65_535), b"\xff" * 65_535 + b"a" * 65_535


SEQUENCES = """00 7f 80 bf c0 c080 c1bf c2 c27f c280 c2bf c2c0 df dfbf e0 e080 e08080 e09fbf e0a0 e0a07f e0a080 e0a0c0 e0bfbf e18080
    e1bfbf ecbfbf ed8080 ed9fbf eda080 edadbf edb080 edbfbf ee8080 efbfbf efbf f0 f08080 f08fbfbf f0908080 f09080 f0bfbfbf f1808080
    f3bfbfbf f4808080 f48fbfbf f4908080 f5808080 f7bfbfbf f888808080 fc8480808080 fe ff 41c3 41c3a9 c3a941 c3a9c3 e282ac e282 e28241
    f09d849e f09d84 f09d8441 4180 8080 eda080edb080 c2c280 e1e180 f4c08080 f09080c3"""


def utf8():
    """Sequences in a String, in Bytes and as a field's name: alone, within a text, cut at each byte."""
    for sequence in map(bytes.fromhex, SEQUENCES.split()):
        for kind in (5, 6, 11):
            yield literal(kind, 0, len(sequence)), sequence
            yield literal(kind, 2, len(sequence) + 2), b"\xffa" + sequence + "é".encode() + b"\xff"
            yield assemble(listing(null, Node(kind, literal(kind, 1, len(sequence) + 1)[3:8 if kind == 11 else 7],
                                              (null,) if kind == 11 else ()))).table, b"a" + sequence + b"b"
    text = "aé€𝄞".encode()
    for offset in range(len(text) + 1):
        for length in range(len(text) - offset + 2):
            yield literal(5 if (offset + length) % 2 else 11, offset, length), text


# ---- lengths


def filler(length, kind):
    """A list of `length` bytes: of one kind, the rest in other kinds."""
    unit = {0: NULL, 1: b"\1\4\0\1", 2: assemble(ONE).table, 5: literal(5, 0, 2), 7: b"\7\4\0\x7f", 12: b"\x0c\5\0\0\0"}[kind]
    room = length - 5
    count = room // len(unit)
    while (room - count * len(unit)) % 3 and count > 0 and len(unit) != 3:
        count -= 1
    rest = room - count * len(unit)
    parts = unit * count + NULL * (rest // 3)
    return b"\x0c" + u16(5 + len(parts)) + u16(count + rest // 3) + parts


def lengths():
    yield b"", b""
    yield b"", b"ab"
    for length in range(LONGEST_TABLE - 4, LONGEST_TABLE + 3):
        for kind in (0, 1, 2, 5, 7, 12):
            table = filler(length, kind)
            yield table, b"ab"
            yield table + b"\0" * (length - len(table)), b"ab"
            yield table[:-1], b"ab"
            yield patched(table, len(table) - 3, b"\xff"), b"ab"
            yield patched(table, 3, u16(struct.unpack_from("<H", table, 3)[0] + 1)), b"ab"
    for byte in (0, 1, 12, 14, 17, 255):
        for length in (LONGEST_TABLE - 1, LONGEST_TABLE, LONGEST_TABLE + 1, 65_535, 65_536, 131_072):
            yield bytes([byte]) * length, b""
            yield NULL + bytes([byte]) * (length - 3), b""
    for length in range(1, 14):
        for byte in (0, 1, 7, 8, 12):
            yield bytes([byte]) * length, b""
            yield NULL + bytes([byte]) * length, b""


# ---- by chance


def rules(seed, count, fuel):
    draw = Draw(seed)
    for number in range(count):
        made = assemble(Rules(draw).rule(draw.pick(Rules.KINDS), 2 + number % fuel))
        if len(made.table) <= 600:
            yield draw, made


def accepted():
    for _, made in rules(21, 340, 20):
        yield made.table, made.text
    for _, made in rules(22, 10, 90):
        yield made.table, made.text


def damaged():
    for draw, made in rules(23, 590, 10):
        table = made.table
        for _ in range(1 + draw.below(2)):
            at = draw.below(len(table))
            byte = bytes([draw.pick((draw.below(18), draw.below(18), 3, 4, 5, draw.below(256)))])
            table = draw.pick((patched(table, at, byte), table[:at] + table[at + 1:], table[:at] + byte + table[at:],
                               patched(table, at, bytes([table[at] + 1 & 255])), patched(table, at, bytes([table[at] - 1 & 255]))))
            if not table:
                break
        text = made.text
        if text and draw.chance(10):
            text = patched(text, draw.below(len(text)), bytes([draw.below(256)]))
        yield table, text


def wild():
    draw = Draw(24)
    for _ in range(400):
        length = 1 + draw.below(24)
        yield bytes(draw.pick((draw.below(18), draw.below(18), 0, 0, 1, 3, 4, 5, draw.below(256))) for _ in range(length)), b"ab\xc3\xa9"


# ---- the files


def pieces(data):
    """The data as pieces and how often each stands: greedily the longest run of a short piece."""
    start = at = 0
    while at < len(data):
        spared, unit = 0, 1
        for wide in range(1, 13):
            end = at + wide
            while end < len(data) and data[end] == data[end - wide]:
                end += 1
            if (end - at) // wide * wide - wide > spared:
                spared, unit = (end - at) // wide * wide - wide, wide
        if spared < 4:
            at += 1
            continue
        if start < at:
            yield data[start:at], 1
        yield data[at:at + unit], spared // unit + 1
        start = at = at + unit + spared
    if start < at:
        yield data[start:], 1


@cache
def spelled(data):
    """Digits, in pieces where that is shorter; `-` for none."""
    if len(data) < 32:
        return data.hex() or "-"
    return "+".join(piece.hex() + (f"*{count}" if count > 1 else "") for piece, count in pieces(data))


FAMILIES = {
    "known": lambda: ((bytes.fromhex(table), bytes.fromhex(text)) for table, text, _ in KNOWN), "wrong": wrong_places,
    "first": first_faults, "truncated": truncations, "extents": extents, "bytes": each_byte, "nesting": nesting, "counts": counts, "marks": marks,
    "fields": fields, "spans": spans, "utf8": utf8, "lengths": lengths, "accepted": accepted, "damaged": damaged, "wild": wild,
}
UNREADABLE = ("", "00", "000300-")


def all_cases():
    """The cases of each family, each case once."""
    seen, families = set(), {}
    for family, make in FAMILIES.items():
        families[family] = []
        for case in make():
            if case not in seen:
                seen.add(case)
                families[family].append((*case, expected(*case)))
    for table, text, answer in KNOWN:
        if expected(bytes.fromhex(table), bytes.fromhex(text)) != answer:
            sys.exit(f"{table} {text} is {answer}, and by the model {expected(bytes.fromhex(table), bytes.fromhex(text))}")
    return families


def answers(families):
    lines = []
    for table, text, answer in (case for cases in families.values() for case in cases):
        says = "accepted" if answer is None else f"refused {answer[0]} at {answer[1]}"
        lines.append(f"{len(lines) + 1} {len(table)} {len(text)} = {says}\n")
    for _ in UNREADABLE:
        lines.append(f"{len(lines) + 1} unreadable\n")
    return "".join(lines) + f"{len(lines)} cases\n"


def write(families):
    lines = "".join(f"{spelled(table)} {spelled(text)}\n" for cases in families.values() for table, text, _ in cases)
    lines += "".join(line + "\n" for line in UNREADABLE)
    for family, cases in families.items():
        numbers = Counter(answer[0] if answer else 0 for _, _, answer in cases)
        taken = sum(len(spelled(table)) + len(spelled(text)) + 2 for table, text, _ in cases)
        print(f"{family:10} {len(cases):5} {taken:7} bytes  accepted {numbers.pop(0, 0)}, refused {dict(sorted(numbers.items()))}")
    numbers = Counter(answer[0] if answer else 0 for cases in families.values() for _, _, answer in cases)
    places = {n: len({a[1] for cases in families.values() for *_, a in cases if a and a[0] == n}) for n in range(1, 8)}
    print(f"{'all':10} {sum(numbers.values()):5} and {len(UNREADABLE)} unreadable, {len(lines)} bytes: accepted {numbers.pop(0)}, "
          f"refused {dict(sorted(numbers.items()))}, places of each {places}")
    if len(lines) > LONGEST_LIST:
        sys.exit(f"The list has {len(lines)} bytes, and the program takes {LONGEST_LIST}.")
    (CRATE / "stdin").write_text(lines)
    (CRATE / "stdout").write_text(answers(families))


def against(families, path):
    expect, wrote = answers(families).splitlines(), Path(path).read_text().splitlines()
    differences = [(want, found) for want, found in zip(expect, wrote) if want != found]
    for want, found in differences[:20]:
        print(f"expected {want}\n   found {found}")
    print(f"{len(differences)} lines differ; {len(expect)} lines expected, {len(wrote)} found")
    sys.exit(bool(differences) or len(expect) != len(wrote))


def main():
    families = all_cases()
    if len(sys.argv) == 1:
        write(families)
    elif len(sys.argv) == 3 and sys.argv[1] == "--against":
        against(families, sys.argv[2])
    else:
        sys.exit(__doc__)


if __name__ == "__main__":
    main()
