#!/usr/bin/env python3
"""Writes the tables that are timed, and those on which both validators must agree.

    inputs.py TIMED CASES

A record of either file is three little-endian lengths of four bytes, then a name, a table and a literal text.
"""
import struct
import sys
from pathlib import Path

TOOLS = Path(__file__).resolve().parent.parent
sys.path[:0] = [str(TOOLS), str(TOOLS / "rules")]

import tables
from assemble import (assemble, binary, both, conditional, either, equals, exists, has, integer, listing, mapping, mark, name, null, of,
                      optional_select, or_value, select, size, string, true, u16)
from families.common import nested
from families.refusals import every_kind
from model import read_table


def typical():
    """(has(n1.name) && n1.age >= 18 || n1.role in ["admin", "owner"]) && n2.exists(i, i.scope == n3.scope && size(i.tags) > 0)"""
    person, item = name(1), name(10)
    first = both(has(person, "name"), binary(">=", select(person, "age"), integer(18)))
    role = binary("in", select(person, "role"), listing(string("admin"), string("owner")))
    test = both(equals(select(item, "scope"), select(name(3), "scope")), binary(">", size(select(item, "tags")), integer(0)))
    return both(either(first, role), exists(name(2), 10, test))


def mixed(text):
    """A list of about 16,384 bytes: all kinds, and small rules among them."""
    parts = [every_kind(), typical(), conditional(true, mapping((string("k"), mark(of(name(5))))), or_value(
        optional_select(name(6), string("field")), integer(-1))), listing(*(integer(n) for n in range(8)))]
    chosen, taken = [], 5
    while True:
        part = parts[len(chosen) % len(parts)]
        length = len(assemble(part, text).table)
        if taken + length > 16_384:
            return listing(*chosen)
        chosen.append(part)
        taken += length


def long_text(piece):
    """A list of 60 Strings of about 1,000 bytes each, of such pieces."""
    span = piece * (1_000 // len(piece))
    text = span * 60
    records = b"".join(b"\5\7\0" + u16(n * len(span)) + u16(len(span)) for n in range(60))
    return b"\x0c" + u16(5 + len(records)) + u16(60) + records, text


def of_one_kind():
    """Lists of about 16,000 bytes of one kind of record, and one of Lists in one another."""
    marked = mapping((integer(1), mark(name(1))), (integer(2), mark(name(2))))
    parts = {"Null": null, "Int": integer(7), "name": name(7), "binary": both(null, null), "Map with marks": marked,
             "select, 4 bytes": select(name(7), "span"), "String, 2 bytes": string("ab"), "String, 8 bytes": string("abcdefgh"),
             "String, 20 bytes": string("a string of 20 bytes")}
    for label, part in parts.items():
        size = len(assemble(part).table)
        yield label, assemble(listing(*[part] * (16_000 // size)))
    yield "60 deep", assemble(listing(*[nested(60, null)] * 52))


def record(label, table, text):
    label = label.encode()
    return struct.pack("<III", len(label), len(table), len(text)) + label + table + text


def main(timed, cases):
    rule, large = assemble(typical()), assemble(mixed(b""))
    chosen = [("typical rule", rule.table, rule.text), ("large, mixed kinds", large.table, large.text),
              *((label, made.table, made.text) for label, made in of_one_kind()), ("much text, ASCII", *long_text(b"plain words, ")), ("much text, mixed", *long_text("naïve café, 日本語 𝄞 ".encode()))]
    for _, table, text in chosen:
        read_table(table, text)
    Path(timed).write_bytes(b"".join(record(*each) for each in chosen))
    with open(cases, "wb") as out:
        for family, each in tables.all_cases().items():
            for table, text, _ in each:
                out.write(record(family, table, text))


if __name__ == "__main__":
    main(*sys.argv[1:])
