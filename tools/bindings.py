#!/usr/bin/env python3
"""Makes the list of binding rooms of the program `test_bindings`, and the answers that it must give.

    tools/bindings.py                 writes crates/test_bindings/stdin and crates/test_bindings/stdout
    tools/bindings.py --against FILE  names the lines in which FILE, what a run wrote, differs from the answers

Rooms are modelled here word by word, from docs/FORMAT.md; tables are read by the model in tools/rules. Nothing is taken from the code.
A line of the list is a row of deeds, each of four words:

    l WORDS BYTES -       that much is lent, filled with a5
    w FROM HEX -          words from one on, 16 digits each        t FROM HEX -     bytes of the text
    s NAME HEAD PAYLOAD   a slot, by the words of a cell           u CELLS BYTES -  the used counts
    b NAME TABLE TEXT     a binding is brought in
    e - - -               the room is emptied
    q - - -               is it sound?

The last three are answered, with the used counts and a digest each of the lent words, the lent text and the slots.
"""
import sys
from functools import cache
from pathlib import Path

TOOLS = Path(__file__).resolve().parent
CRATE = TOOLS.parent / "crates" / "test_bindings"
sys.path.insert(0, str(TOOLS / "rules"))

from assemble import (Node, assemble, bits, byte_string, double, false, integer, listing, mapping, mark, name, negation, none,
                      null, string, true, uint)
from draw import Draw
from model import Refused, read_table

MOST_CELLS, MOST_BYTES, NAMES, DEEPEST = 4096, 16384, 128, 32
NULL, BOOL, INT, UINT, DOUBLE, STRING, BYTES, LIST, MAP, NONE, OF, ABSENT = 0, 1, 2, 3, 4, 5, 6, 12, 13, 14, 15, 16
NO_VALUE = (ABSENT, 0)


# ---- cells


def head(kind, space=0, nesting=0, length=0):
    return kind + (space << 8) + (nesting << 16) + (length << 24)


def text_cell(kind, first, length, space=1):
    return head(kind, space, 0, length), first


def row_cell(kind, nesting, first, length, space=0):
    return head(kind, space, nesting, length), first


@cache
def fields(word, payload):
    """Kind, space, nesting, length of a cell's head with its payload, or None where no value is written so."""
    kind, space, nesting, length = word & 255, word >> 8 & 255, word >> 16 & 255, word >> 24
    if kind in (STRING, BYTES, LIST, MAP, OF):
        known = space <= (2 if kind in (STRING, BYTES) else 1) and length <= 65535 and payload <= 65535
        fits = nesting == 0 if kind in (STRING, BYTES) else kind != OF or length == 0
        return (kind, space, nesting, length, payload) if known and fits else None
    if kind != word or kind not in (NULL, BOOL, INT, UINT, DOUBLE, NONE):
        return None
    if payload > {NULL: 0, BOOL: 1, NONE: 0}.get(kind, payload):
        return None
    return kind, 0, 0, 0, payload


def valid_utf8(data):
    try:
        data.decode()
        return True
    except UnicodeDecodeError:
        return False


class Room:
    def __init__(self, words, size):
        self.words, self.text = [0xA5A5A5A5A5A5A5A5] * words, bytearray(b"\xa5" * size)
        self.empty()

    def empty(self):
        self.cells = self.bytes = 0
        self.slots = [NO_VALUE] * NAMES

    def cell(self, at):
        return fields(self.words[2 * at], self.words[2 * at + 1]) if at < len(self.words) // 2 else None

    def put(self, at, cell):
        self.words[2 * at], self.words[2 * at + 1] = cell

    def limits(self):
        return min(len(self.words) // 2, MOST_CELLS), min(len(self.text), MOST_BYTES)

    # ---- soundness

    def key(self, at):
        """What a key is compared by; None for what is no key."""
        found = self.cell(at)
        if found is None or found[0] not in (BOOL, INT, UINT, STRING):
            return None
        kind, space, _, length, payload = found
        if kind == STRING:
            return "text", bytes(self.text[payload:payload + length]) if space == 1 else b""
        return ("truth", payload) if kind == BOOL else ("number", payload - (1 << 64) if kind == INT and payload >> 63 else payload)

    def good(self, found, least, used, size):
        if found is None or found[0] in (NONE, OF):
            return False
        kind, space, nesting, length, first = found
        if kind in (STRING, BYTES):
            whole = space == 1 and first + length <= size
            return whole and (kind == BYTES or valid_utf8(self.text[first:first + length]))
        if kind not in (LIST, MAP):
            return True
        count = length if kind == LIST else 2 * length
        if space != 0 or first < least or first + count > used or nesting > DEEPEST:
            return False
        parts = [self.cell(at) for at in range(first, first + count)]
        if nesting != 1 + max((part[2] for part in parts if part), default=0):
            return False
        keys = [self.key(at) for at in range(first, first + count, 2)] if kind == MAP else []
        return None not in keys and len(set(keys)) == len(keys)

    def unsound(self):
        """The first bad cell, 0 where only a slot or a count is bad, or None."""
        cells, size = self.limits()
        used, size_used = min(self.cells, cells), min(self.bytes, size)
        for at in range(used):
            if not self.good(self.cell(at), at + 1, used, size_used):
                return at
        slots = all(slot == NO_VALUE or self.good(fields(*slot), 0, used, size_used) for slot in self.slots)
        return None if self.cells <= cells and self.bytes <= size and slots else 0

    # ---- bringing in

    def judge(self, number, table, text):
        bad = self.unsound()
        if bad is not None:
            raise Refused(8, bad)
        if number >= NAMES:
            raise Refused(5, 0)
        if self.slots[number] != NO_VALUE:
            raise Refused(11, 0)
        root = read_table(table, text)
        records = list(in_order(root))
        for record in records:
            if record.kind not in (NULL, BOOL, INT, UINT, DOUBLE, STRING, BYTES, LIST, MAP):
                raise Refused(9, record.place)
        if nesting_of(root) > DEEPEST:
            raise Refused(8, 0)
        for place in sorted(wrong_keys(records)):
            raise Refused(8, place)
        cells, size = self.limits()
        if self.cells + len(records) - 1 > cells or self.bytes + sum(len(text_of(record)) for record in records) > size:
            raise Refused(10, 0)
        return root

    def bring(self, number, table, text):
        root = self.judge(number, table, text)
        self.slots[number] = self.lay(root, table)

    def lay(self, record, table):
        kind, parts = record.kind, record.operands
        if kind in (LIST, MAP):
            first = self.cells
            self.cells += len(parts)
            for number, part in enumerate(parts):
                self.put(first + number, self.lay(part, table))
            return row_cell(kind, nesting_of(record), first, len(parts) if kind == LIST else len(parts) // 2)
        if kind in (STRING, BYTES):
            data, first = text_of(record), self.bytes
            self.text[first:first + len(data)] = data
            self.bytes += len(data)
            return text_cell(kind, first, len(data))
        if kind == NULL:
            return 0, 0
        at = record.place + 3
        return kind, int.from_bytes(table[at:at + (1 if kind == BOOL else 8)], "little")


def in_order(record):
    yield record
    for part in record.operands:
        yield from in_order(part)


def nesting_of(record):
    return 1 + max(map(nesting_of, record.operands), default=0) if record.kind in (LIST, MAP) else 0


def text_of(record):
    return record.value.data if record.kind in (STRING, BYTES) else b""


def key_of(record):
    value = record.value
    if record.kind == STRING:
        return "text", value.data
    return ("truth", value.truth) if record.kind == BOOL else ("number", value.number)


def wrong_keys(records):
    """The places of all keys of a wrong kind or equal to one before them in their Map."""
    for record in records:
        known = set()
        for key in record.operands[::2] if record.kind == MAP else ():
            if key.kind not in (BOOL, INT, UINT, STRING) or key_of(key) in known:
                yield key.place
            else:
                known.add(key_of(key))


# ---- deeds, and what must be written of them

PRIME = 1000003


def mixed(digest, item):
    return (digest * 31 + item % PRIME) % PRIME


def word_digest(words):
    digest = 0
    for word in words:
        digest = mixed(mixed(digest, word), word // PRIME)
    return digest


def byte_digest(data):
    digest = 0
    for byte in data:
        digest = mixed(digest, byte)
    return digest


def runs(data):
    """Runs of one byte, and what lies between them: the pieces of a spelling."""
    between, at = "", 0
    while at < len(data):
        end = at
        while end < len(data) and data[end] == data[at]:
            end += 1
        if end - at > 3:
            yield from filter(None, (between, f"{data[at]:02x}*{end - at}"))
            between = ""
        else:
            between += data[at:end].hex()
        at = end
    yield from filter(None, (between,))


def digits(data):
    """Hexadecimal digits; what is one piece of 3 to 22 bytes again and again, and runs of one byte, are spelled by a count."""
    for size in range(3, 23):
        piece = data[:size]
        if len(data) >= 8 * size and data == piece * (len(data) // size) and len(set(piece)) > 1:
            return f"{piece.hex()}*{len(data) // size}"
    return min("+".join(runs(data)), data.hex(), key=len) or "-"


def table_digits(table):
    """A container's head and then a run of equal records."""
    whole = digits(table)
    rest = digits(table[5:]) if table[:1] in (b"\x0c", b"\x0d") else "-"
    return f"{table[:5].hex()}+{rest}" if "*" in rest else whole


class Case:
    """A room and what was done to it, with what must be written."""

    def __init__(self, words=64, size=32):
        self.deeds, self.answers, self.room = [f"l {words} {size} -"], [], Room(words, size)

    def words(self, first, *words):
        self.deeds.append(f"w {first} {digits(b''.join(word.to_bytes(8, 'big') for word in words))} -")
        self.room.words[first:first + len(words)] = words
        return self

    def cells(self, *cells, first=0):
        return self.words(2 * first, *(word for cell in cells for word in cell)) if cells else self

    def text(self, data, first=0):
        if data:
            self.deeds.append(f"t {first} {digits(data)} -")
            self.room.text[first:first + len(data)] = data
        return self

    def slot(self, number, cell):
        self.deeds.append(f"s {number} {cell[0]:016x} {cell[1]:016x}")
        self.room.slots[number] = cell if fields(*cell) else NO_VALUE
        return self

    def used(self, cells, size):
        self.deeds.append(f"u {cells} {size} -")
        self.room.cells, self.room.bytes = cells, size
        return self

    def answer(self, says):
        room = self.room
        slots = word_digest(word for slot in room.slots for word in slot)
        self.answers.append(f" {says} cells {room.cells} bytes {room.bytes} digests {word_digest(room.words)}"
                            f" {byte_digest(room.text)} {slots};")
        return self

    def bring(self, number, table, text=b""):
        if isinstance(table, Node):
            made = assemble(table)
            table, text = made.table, made.text
        self.deeds.append(f"b {number} {table_digits(table)} {digits(text)}")
        try:
            self.room.bring(number, table, text)
            return self.answer("done")
        except Refused as refused:
            return self.answer(f"refused {refused.number} at {refused.place}")

    def empty(self):
        self.deeds.append("e - - -")
        self.room.empty()
        return self.answer("emptied")

    def ask(self):
        self.deeds.append("q - - -")
        bad = self.room.unsound()
        return self.answer("sound" if bad is None else f"unsound at {bad}")


# ---- families of cases

ONE, TWO = integer(1), integer(2)
SCALARS = (null, true, false, integer(0), integer(-1), integer(2 ** 63 - 1), integer(-2 ** 63), uint(0), uint(1), uint(2 ** 64 - 1),
           double(0.0), double(-0.0), double(1.5), bits(0x7FF0000000000000), bits(0x7FF8000000000000), bits(0xFFF8000000000001),
           bits(0x7FF0000000000001), string(""), string("a"), string("\u00e9\U0001F600"), byte_string(b""), byte_string(b"\xff\0"))
KEYS = (true, false, integer(0), integer(1), integer(-1), uint(0), uint(1), uint(2 ** 63), string(""), string("a"), string("b"))
OTHERS = (name(0), negation(true), none, listing(mark(ONE)), Node(10, operands=(true, ONE, TWO)))


def nested(depth, inner=null, around=listing):
    for _ in range(depth):
        inner = around(inner)
    return inner


def spelled():
    """What tables spell: every literal, alone and in containers."""
    for value in SCALARS:
        yield Case().bring(0, value).ask()
        yield Case().bring(127, listing(value, null, value)).ask()
        yield Case().bring(64, mapping((ONE, value), (string("k"), value))).bring(65, value).ask()
    for key in KEYS:
        yield Case().bring(1, mapping((key, null))).bring(2, listing(mapping((key, key)))).ask()
    for depth in (1, 2, 31, 32, 33, 62):
        for inner in (null, listing(), mapping(), string("deep")):
            for around in (listing, lambda value: mapping((ONE, value)), lambda value: listing(null, value, ONE)):
                yield Case(600, 40).bring(3, nested(depth, inner, around)).ask()
    yield Case(9000, 20000).bring(0, listing(*[null] * 4096)).bring(1, listing(null)).ask()
    yield Case(9000, 20000).bring(0, listing(*[null] * 4095)).bring(1, listing(null)).bring(2, listing(null)).bring(3, listing()).ask()
    yield Case(8191, 16).bring(0, listing(*[null] * 4096)).bring(1, listing(*[null] * 4095)).bring(2, listing(listing())).ask()
    yield Case(200, 20000).bring(0, string("a" * 16384)).bring(1, byte_string(b"b")).bring(2, string("")).ask()
    yield Case(200, 20000).bring(0, string("a" * 16385)).bring(1, byte_string(b"b" * 16383)).bring(2, string("\u00e9")).bring(3, string("c")).ask()


def drawn(draw, depth):
    """A value at random; its keys are sometimes equal."""
    kind = draw.below(6) if depth else 0
    if kind < 3:
        return draw.pick(SCALARS)
    if kind < 5:
        return listing(*(drawn(draw, depth - 1) for _ in range(draw.below(4))))
    keys = [draw.pick(KEYS) for _ in range(draw.below(4))]
    if draw.chance(80):
        keys = [key for number, key in enumerate(keys) if all(repr(key).rstrip("u") != repr(other).rstrip("u") for other in keys[:number])]
    return mapping(*((key, drawn(draw, depth - 1)) for key in keys))


def many():
    """Several bindings in one room, some of which do not fit; then emptied, and again."""
    draw = Draw(7)
    for number in range(420):
        case = Case(draw.pick((0, 1, 2, 7, 16, 40, 41, 120)), draw.pick((0, 1, 4, 9, 30, 64)))
        for _ in range(2 + draw.below(4)):
            case.bring(draw.pick((0, 1, 2, 5, 126, 127, 128, 200)), drawn(draw, 3))
        if number % 3 == 0:
            case.empty()
            for _ in range(2):
                case.bring(draw.below(3), drawn(draw, 2))
        yield case.ask()


def fits():
    """Room for a binding exactly, one cell short, one byte short; lengths and counts above the limits."""
    for value, cells, size in ((listing(null, ONE), 2, 0), (mapping((ONE, listing(null))), 3, 0), (string("abc"), 0, 3),
                               (listing(string("ab"), byte_string(b"c")), 2, 3), (mapping((string("k"), string("v"))), 2, 2)):
        for less_cells in (0, 1, 2):
            for less_bytes in (0, 1):
                for odd in (0, 1):
                    yield Case(max(0, 2 * (cells - less_cells) + odd), max(0, size - less_bytes)).bring(9, value).ask()
    for words in (8190, 8191, 8192, 8193, 8194):
        for used in (4094, 4095, 4096, 4097, 4098, 9000):
            case = Case(words, 8)
            case.words(0, *[0] * words).used(used, 0)
            yield case.bring(0, listing(null)).bring(1, listing(null)).ask()
    for size in (16383, 16384, 16385):
        for used in (16382, 16383, 16384, 16385, 99999):
            yield Case(8, size).used(0, used).bring(0, string("a")).bring(1, string("b")).ask()


def refused():
    """Each refusal, alone and with a later one: the earlier in the order is the answer, and nothing changes."""
    bad_room = lambda case: case.cells((NONE, 0)).used(1, 0)
    tables = (b"", b"\x11\x03\0", b"\0\4\0\0", assemble(nested(64, null)).table, b"\1\4\0\2", assemble(mark(ONE)).table, b"\0\3\0\0",
              assemble(name(1)).table, assemble(nested(33, null)).table, assemble(mapping((ONE, null), (uint(1), null))).table,
              assemble(listing(*[null] * 5)).table, b"\0\3\0")
    for table in tables:
        for number in (0, 1, 127, 128, 129, 255, 256, 99999):
            yield Case(8, 8).slot(1, (NULL, 0)).bring(number, table).ask()
            yield bad_room(Case(8, 8).slot(1, (NULL, 0))).bring(number, table).ask()
    for table in tables:
        yield Case(0, 0).bring(3, table).bring(4, b"\0\3\0").bring(4, table).ask()
    for other in OTHERS:
        for around in (lambda value: value, listing, lambda value: listing(null, value), lambda value: mapping((ONE, value)),
                       lambda value: mapping((ONE, ONE), (ONE, value)), lambda value: mapping((value, null), (ONE, null)),
                       lambda value: nested(40, value), lambda value: listing(mapping((listing(), null)), value)):
            yield Case(8, 8).bring(0, around(other)).bring(0, ONE).ask()


def wrong_key_cases():
    for first in KEYS:
        for second in KEYS:
            yield Case().bring(0, mapping((first, null), (second, ONE))).ask()
    for wrong in (null, double(1.0), byte_string(b"a"), listing(), mapping(), listing(mapping((ONE, null), (ONE, null)))):
        for around in (lambda key: mapping((key, null)), lambda key: mapping((ONE, null), (key, null), (ONE, null)),
                       lambda key: mapping((ONE, mapping((TWO, null), (TWO, null))), (key, null)),
                       lambda key: listing(mapping((ONE, mapping((key, null))), (uint(1), null)), mapping((ONE, null), (ONE, null))),
                       lambda key: mapping((key, null), (key, null)), lambda key: nested(31, mapping((key, null)))):
            yield Case().bring(0, around(wrong)).bring(1, mapping((ONE, null), (TWO, null))).ask()
    for keys in (("a", "b", "a"), ("", "\u00e9", ""), ("ab", "a", "b"), ("a",) * 3):
        yield Case().bring(0, mapping(*((string(key), ONE) for key in keys))).ask()
    yield Case(200).bring(0, mapping((ONE, mapping((TWO, null), (TWO, null))), (uint(1), null))).ask()
    yield Case(200).bring(0, mapping((ONE, null), (uint(1), mapping((TWO, null), (TWO, null))))).ask()


def damaged():
    """Each reason for which a room is unsound, at each of its cells; and two, of which the first cell is the place."""
    value = mapping((ONE, listing(string("ab"), listing())), (string("k"), mapping((true, byte_string(b"\xff")))))

    def again():
        return Case(26, 12).bring(5, value).bring(6, listing(ONE, listing(TWO)))

    start = again()
    words, slots, used, size = list(start.room.words), list(start.room.slots), start.room.cells, start.room.bytes
    yield again().ask().bring(7, ONE).ask()
    cells = [(words[2 * at], words[2 * at + 1]) for at in range(used)]
    for at, (word, payload) in enumerate(cells):
        wrong = [(NONE, 0), (OF + (1 << 16), at + 1), (ABSENT, 0), (7, 0), (255, 0), (NULL, 1), (BOOL, 2), (BOOL + (1 << 8), 0), (INT + (1 << 16), 0),
                 (DOUBLE + (1 << 24), 0), text_cell(STRING, 0, 1, 0), text_cell(STRING, 0, 1, 2), text_cell(STRING, 0, 1, 3), text_cell(BYTES, 0, 0, 0),
                 text_cell(STRING, size, 1), text_cell(STRING, size, 0), text_cell(BYTES, size + 1, 0), text_cell(STRING, size - 1, 1),
                 text_cell(BYTES, 65535, 65535), (head(STRING, 1, 1, 0), 0), (head(STRING, 1, 0, 65536), 0), (head(BYTES, 1, 0, 0), 65536),
                 row_cell(LIST, 1, at, 0), row_cell(LIST, 1, at + 1, 0), row_cell(LIST, 1, used, 0), row_cell(LIST, 1, used + 1, 0),
                 row_cell(LIST, 1, 0, 1), row_cell(LIST, 1, used, 1), row_cell(LIST, 0, used, 0), row_cell(LIST, 2, used, 0), row_cell(LIST, 33, used, 0),
                 row_cell(LIST, 1, used, 0, 1), row_cell(LIST, 1, used, 0, 2), row_cell(MAP, 1, used, 0), row_cell(MAP, 1, used - 1, 1),
                 row_cell(MAP, 1, used - 2, 1), row_cell(MAP, 2, used - 2, 1), row_cell(LIST, 2, used - 2, 2), (head(LIST, 0, 1, 65536), used),
                 (head(LIST, 0, 1, 0), 65536), (word ^ 1 << 63, payload), (word, payload ^ 1 << 63), (word + (1 << 16), payload), (word, payload + 1),
                 (word + (1 << 24), payload), (word + (1 << 8), payload)]
        for cell in wrong:
            if cell != (word, payload):
                yield again().cells(cell, first=at).ask()
        yield again().cells((NONE, 0), first=at).cells((NONE, 0), first=used - 1).bring(0, ONE).ask()
        yield again().cells((NONE, 0), first=at).used(99, 99).slot(1, (NONE, 0)).bring(0, ONE)
    for count in range(used + 3):
        yield again().used(count, size).ask()
    for count in (0, 1, size - 1, size, size + 1, 12, 13, 16384, 16385):
        yield again().used(used, count).ask().bring(0, string("zz")).ask()
    for cell in ((NONE, 0), (OF + (1 << 16), 0), (NULL, 0), (INT, 5), (DOUBLE, 0x7FF8000000000001), text_cell(STRING, 0, 1), text_cell(STRING, size - 1, 1),
                 text_cell(STRING, 0, 1, 0), text_cell(STRING, 0, 1, 2), text_cell(BYTES, size, 0), text_cell(BYTES, size, 1), row_cell(LIST, 1, 0, 0),
                 row_cell(LIST, 1, used, 0), row_cell(LIST, 1, used, 1), row_cell(LIST, 3, 0, 4), row_cell(LIST, 2, 0, 4), row_cell(LIST, 4, 0, 4),
                 row_cell(MAP, 3, 0, 2), row_cell(MAP, 2, 0, 2), row_cell(MAP, 3, 1, 2), row_cell(LIST, 1, used, 0, 1), row_cell(LIST, 33, 0, 1),
                 row_cell(MAP, 1, used - 1, 1), slots[5], slots[6]):
        for number in (0, 5, 127):
            yield again().slot(number, cell).ask().bring(number, null).bring(1, null)
    draw = Draw(23)
    for _ in range(300):
        case = again()
        for _ in range(1 + draw.below(2)):
            at = draw.below(2 * used)
            case.words(at, case.room.words[at] ^ 1 << draw.pick((0, 1, 2, 3, 8, 9, 16, 17, 20, 24, 25, 40, 63)))
        if draw.chance(20):
            case.text(bytes([draw.below(256)]), draw.below(size))
        yield case.ask()


def keys_in_cells():
    """Maps in cells, with keys of all kinds, and text that is cut off by the lent text."""
    keys = ((NULL, 0), (BOOL, 0), (BOOL, 1), (INT, 0), (INT, 1), (INT, 2 ** 64 - 1), (UINT, 0), (UINT, 1), (UINT, 2 ** 64 - 1), (DOUBLE, 0),
            text_cell(STRING, 0, 1), text_cell(STRING, 1, 1), text_cell(STRING, 0, 0), text_cell(STRING, 9, 3), text_cell(BYTES, 0, 1),
            row_cell(LIST, 1, 5, 0), (NONE, 0), (ABSENT, 0))
    for first in keys:
        for second in keys:
            deep = 2 if (LIST + (1 << 16)) in (first[0], second[0]) else 1
            yield Case(10, 8).cells(row_cell(MAP, deep, 1, 2), first, (NULL, 0), second, (NULL, 0)).text(b"aa").used(5, 2).ask()


def shared():
    """Parts that several containers refer to, deep ones too: the answer must not take a walk for each way to a part."""
    for levels in (1, 5, 31, 32, 33, 40):
        cells = [row_cell(LIST, levels - at // 2, at + 2 - at % 2, 2) for at in range(2 * levels)] + [(NULL, 0), (NULL, 0)]
        yield Case(256, 8).cells(*cells).used(len(cells), 0).slot(0, row_cell(LIST, levels + 1, 0, 2)).ask().bring(1, listing(ONE)).ask()
    for count in (1, 30, 31, 32, 33):
        cells = [row_cell(LIST, count - at, at + 1, 1) for at in range(count)] + [(INT, 1)]
        yield Case(256, 8).cells(*cells).used(count + 1, 0).slot(0, row_cell(LIST, count, 1, 1)).ask()
        yield Case(256, 8).cells(*cells).used(count + 1, 0).slot(0, row_cell(LIST, count + 1, 0, 1)).ask().empty().bring(0, listing(null)).ask()
    entries = [part for at in range(300) for part in ((INT, at), (NULL, 0))]
    for last in (299, 0, 298):
        cells = [row_cell(MAP, 1, 2, 300), row_cell(MAP, 1, 4, 299), *entries[:-2], (UINT, last), (NULL, 0)]
        yield Case(1300, 8).cells(*cells).used(602, 0).slot(0, row_cell(LIST, 2, 0, 2)).ask()
    cells = [row_cell(LIST, 1, 300, 300)] * 300 + [(NULL, 0)] * 300
    yield Case(1300, 8).cells(*cells).used(600, 0).ask()


def all_cases():
    for family in (spelled, many, fits, refused, wrong_key_cases, damaged, keys_in_cells, shared):
        yield from family()


def main():
    cases = list(all_cases())
    answers = [f"{number}{''.join(case.answers)}" for number, case in enumerate(cases, 1)] + [f"{len(cases)} cases"]
    if len(sys.argv) == 3:
        wrote = Path(sys.argv[2]).read_text().splitlines()
        for number, (said, answer) in enumerate(zip(wrote, answers)):
            if said != answer:
                print(f"{answer}\n    was {said}\n    {' '.join(cases[number].deeds)[:400] if number < len(cases) else ''}")
        print(f"{len(wrote)} lines against {len(answers)}")
        sys.exit(wrote != answers)
    (CRATE / "stdin").write_text("".join(" ".join(case.deeds) + "\n" for case in cases))
    (CRATE / "stdout").write_text("\n".join(answers) + "\n")
    print(f"{len(cases)} cases, {(CRATE / 'stdin').stat().st_size} bytes, {sum(answer.count(';') for answer in answers)} calls")


main()
