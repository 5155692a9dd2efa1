#!/usr/bin/env python3
"""Tests of the tools for tables: `python3 tools/cel/test.py`. Ends with the number of checks, or names what failed.

Rows by hand for tokens, precedence, macros and records; round trips over the stored tables of crates/test_tables and over the
families of tools/rules, damaged tables included.
"""

from __future__ import annotations

import re
import struct
import sys

import paths
from assemble import assemble
from families import FAMILIES, more
from families.common import Script
from lexer import CelError
from model import Refused, evaluate, read_table
from model.answers import answer_line
from names import Names
from parse import parse
from records import RecordsError, assembled, disassemble
from unparse import unparse

failures: "list[str]" = []
checks = 0


def check(what: str, got: object, want: object) -> None:
    global checks
    checks += 1
    if got != want:
        failures.append(f"{what}: {got!r}, and not {want!r}")


# ---------------------------------------------------------------- rows by hand

# CEL text, and the records as assemble.py says them: every operator in brackets.
SPELLED = (
    ("1 + 2 * 3", "(1 + (2 * 3))"), ("1 - 2 - 3", "((1 - 2) - 3)"), ("(1 - 2) % 3u", "((1 - 2) % 3u)"),
    ("a || b && c || d", "((n0 || (n1 && n2)) || n3)"), ("a == b != c", "((n0 == n1) != n2)"), ("a < b + 1", "(n0 < (n1 + 1))"),
    ("a ? b : c ? d : e", "(n0 ? n1 : (n2 ? n3 : n4))"), ("a || b ? c : d", "((n0 || n1) ? n2 : n3)"),
    ("!a.b", "!(n0.b)"), ("-a[0]", "-(n0[0])"), ("!!a", "!(!(n0))"), ("- 5", "-5"), ("-(5)", "-(5)"), ("--5", "-(-5)"),
    ("3 -5", "(3 - 5)"), ("3 - -5", "(3 - -5)"), ("-1u", "-(1u)"), ("a in b in c", "((n0 in n1) in n2)"),
    ("a.?b[?1].c", "n0.?('b')[?1].c"), ("[1][ ?0]", "[1][?0]"), ("{'a': 1}. ?a", "{'a': 1}.?('a')"), ("a . ? b [ // so\n ? 1 ]", "n0.?('b')[?1]"),
    ("a ? [?b] : .5", "(n0 ? [?n1] : double(0x3fe0000000000000))"), ("a[?.5]", "n0[?double(0x3fe0000000000000)]"), ("a?b:c", "(n0 ? n1 : n2)"),
    ("[,]", "[]"), ("{ , }", "{}"), ("[ ?a,]", "[?n0]"), ("[?a, b, ]", "[?n0, n1]"), ("{?'k': a, 1: 2,}", "{'k': ?n0, 1: 2}"), ("[]", "[]"), ("{}", "{}"),
    ("size(a) + a.size()", "(size(n0) + size(n0))"), ("optional.of(a).orValue(b)", "orValue(optional.of(n0), n1)"),
    ("optional.none().hasValue()", "hasValue(optional.none())"), ("optional.x", "n0.x"), ("optional.of", "n0.of"),
    ("has(a.b.c)", "has(n0.b.c)"), ("a.`b-c`", "n0.b-c"), ("a.while", "n0.while"), ("n7 + n0 + x", "((n7 + n0) + n1)"),
    ("a.all(x, x)", "fold(n1 in n0, n127 = true, while not-strictly-false(n127), (n127 && n1), n127)"),
    ("a.exists(x, x)", "fold(n1 in n0, n127 = false, while not-strictly-false(!(n127)), (n127 || n1), n127)"),
    ("a.exists_one(x, x)", "fold(n1 in n0, n127 = 0, while true, (n1 ? (n127 + 1) : n127), (n127 == 1))"),
    ("a.map(x, x)", "fold(n1 in n0, n127 = [], while true, (n127 + [n1]), n127)"),
    ("a.map(x, b, x)", "fold(n1 in n0, n127 = [], while true, (n2 ? (n127 + [n1]) : n127), n127)"),
    ("a.filter(x, b)", "fold(n1 in n0, n127 = [], while true, (n2 ? (n127 + [n1]) : n127), n127)"),
    ("a.optMap(x, b)", "(hasValue(n0) ? optional.of(fold(n126 in [], n1 = value(n0), while false, n1, n2)) : optional.none())"),
    ("a[0].optFlatMap(x, x)", "fold(n126 in [], n125 = n0[0], while false, n125, (hasValue(n125) ? "
     "fold(n126 in [], n1 = value(n125), while false, n1, n1) : optional.none()))"),
    ("@fold(r, i, [1], 0, true, r + i, r)", "fold(n1 in [1], n0 = 0, while true, (n0 + n1), n0)"),
)

# A literal, and the answer.
LITERALS = (
    ("0x1F", "Int 31"), ("-0x8000000000000000", "Int -9223372036854775808"), ("0xffu", "Uint 255"), ("7U", "Uint 7"),
    (".5", "Double 0x3FE0000000000000"), ("1e3", "Double 0x408F400000000000"), ("-0.0", "Double 0x8000000000000000"),
    ("2.5E-1", "Double 0x3FD0000000000000"), ("1e999", "Double 0x7FF0000000000000"), ("'a\"b'", 'String "a\\x22b"'),
    ('"\\a\\b\\f\\n\\r\\t\\v\\\\\\?\\"\\\'\\`"', 'String "\\x07\\x08\\x0C\\x0A\\x0D\\x09\\x0B\\x5C?\\x22\'`"'),
    ("'\\x41\\u00e9\\U0001F600\\101'", 'String "A\\xC3\\xA9\\xF0\\x9F\\x98\\x80A"'), ("'\\377'", 'String "\\xC3\\xBF"'),
    ("r'\\n'", 'String "\\x5Cn"'), ("R\"\\\"", 'String "\\x5C"'), ("'''a'b\nc'''", 'String "a\'b\\x0Ac"'), ('"""a""b"""', 'String "a\\x22\\x22b"'),
    ("b'\\377\\x80a'", 'Bytes "\\xFF\\x80a"'), ("b'é'", 'Bytes "\\xC3\\xA9"'), ("rb'\\x'", 'Bytes "\\x5Cx"'), ("Br'\\d'", 'Bytes "\\x5Cd"'),
    ("@double(0x7ff8000000000001u)", "Double 0x7FF8000000000001"), ("null // so", "Null"), ("''", 'String ""'), ("true", "Bool true"),
)

# What is no CEL of the domain, and where that is found.
WRONG = (
    ("", 0), ("1 +", 3), ("(1", 2), ("1 2", 2), ("a.b(1)", 2), ("f(1)", 0), ("9223372036854775808", 0), ("18446744073709551616u", 0),
    ("'a", 0), ("'a\nb'", 0), ("'\\q'", 1), ("'\\ud800'", 1), ("'\\400'", 1), ("b'\\u0041'", 2), ("has(a)", 0), ("has(has(a.b))", 0),
    ("a.all(1, true)", 6), ("a.all(x.y, true)", 7), ("a.all(x, 1, 2)", 2), ("while", 0), ("a.in", 2), ("a.true", 2), (".a", 0), ("a ? b", 5),
    ("[1,,2]", 3), ("[,,]", 2), ("[,1]", 2), ("{,,}", 2), ("[1,", 3), ("[1 2]", 3), ("size(a,)", 7), ("size(,)", 5), ("{1}", 2), ("{1: 2, , }", 7),
    ("a.??b", 3), ("a[??1]", 3), ("a[?]", 3), ("a.?", 3), ("a.?b(1)", 4), ("[??a]", 2), ("?a", 0),
    ("!-a", 1), ("a = b", 2), ("a &", 2), ("size()", 0), ("optional.of()", 0), ("\"\\x4\"", 1),
)

# Records by hand, with neither places nor counts, and the table and text that they are.
RECORDS = (
    ("unary !\n  bool true", "0808000101040001", ""), ("null", "000300", ""), ("", "", ""), ("raw ff00", "ff00", ""),
    ("binary in\n  name 0\n  list\n    int 1", "09180011070400000c10000100020b000100000000000000", ""),
    ('list   # two\n string "ab"\n string "b"', "0c130002000507000000020005070001000100", "6162"),
    ('text "xy"\nmap\n  string 1+1 "y"\n  mark\n    double 1.0', "0d1a000100050700010001000e0e00040b00000000000000f03f", "7879"),
    ("null extent 4\nraw 00", "00040000", ""), ("list count 3\n  null", "0c08000300000300", ""),
    ('text "a" * 3\nselect test 7 0+9\n  null', "0b0b000700000900000300", "616161"), ("function 9\n  raw 01", "1005000901", ""),
    ("comprehension 1 2\n  list\n  null\n  null\n  null\n  null", "0f16000102" "0c05000000" + "000300" * 4, ""),
)

UNREADABLE = ("nul", "bool maybe", "int", "int 9223372036854775808", "string 0", 'text "a"\nstring 0+1 "b"', "null 4", "text a", "name 256",
              "comprehension 1", "int 5 6", "bool true false", 'string "a" "b"', 'string 0+0 "" 1', "string 70000+3", "raw 0", "binary foo", "conditional true")


def rows_by_hand() -> None:
    for text, says in SPELLED:
        check(text, parse(text).says, says)
    for text, says in LITERALS:
        check(text, answer_line(evaluate(*compiled(text)).answer).split(" steps")[0], says)
    for text, at in WRONG:
        try:
            check(text, parse(text).says, f"an error at {at}")
        except CelError as wrong:
            check(text, wrong.at, at)
    for lines, table, text in RECORDS:
        check(lines, tuple(part.hex() for part in assembled(lines.split("\n"))), (table, text))
    for lines in UNREADABLE:
        try:
            check(lines, assembled(lines.split("\n")), "an error")
        except RecordsError as wrong:
            check(lines, str(wrong).startswith("line "), True)
    try:
        check("a text of 65,536 bytes", compiled("'" + "a" * 65_536 + "'"), "an error")
    except struct.error:
        pass
    names = Names(["b", "a"])
    parse("a + c + b.map(x, x)", names)
    check("names", str(names), "b=0 a=1 c=2 x=3 @result=127")
    check("n0 beside its listed name", parse("n0 + b", Names(["b"])).says, "(n0 + n0)")
    for text in ("a + n0", "n0.all(a, a) && n1"):
        try:
            check(text, parse(text).says, "two names of one number, refused")
        except ValueError as wrong:
            check(text, "would both have" in str(wrong), True)


def compiled(text: str) -> "tuple[bytes, bytes]":
    made = assemble(parse(text))
    return made.table, made.text


# ---------------------------------------------------------------- round trips


def same(a, b) -> bool:
    """Whether two records spell the same, wherever their texts lie."""
    return (a.kind, a.value, a.name, a.item, a.operator, a.test, a.field, len(a.operands)) == (
        b.kind, b.value, b.name, b.item, b.operator, b.test, b.field, len(b.operands)) and all(map(same, a.operands, b.operands))


def round_trip(table: bytes, text: bytes) -> None:
    check(f"records of {table[:30].hex()}", assembled(disassemble(table, text)) == (table, text), True)
    try:
        root = read_table(table, text)
    except Refused:
        return
    cel = unparse(root)
    try:
        again = read_table(*compiled(cel))
    except (CelError, Refused) as wrong:
        again = wrong
    check(f"CEL of {table[:30].hex()}, {cel[:200]}", not isinstance(again, Exception) and same(root, again), True)


def spelled_out(word: str) -> bytes:
    """A word of crates/test_tables/stdin."""
    pieces = [] if word == "-" else [piece.partition("*") for piece in word.split("+")]
    return b"".join(bytes.fromhex(digits) * int(times or 1) for digits, _, times in pieces)


def stored_tables() -> None:
    for line in (paths.ROOT / "crates" / "test_tables" / "stdin").read_text().splitlines():
        words = line.split(" ")
        if len(words) == 2:
            round_trip(*map(spelled_out, words))


def stored_lines() -> None:
    """Every table of crates/replay/stdin, each once, as records."""
    digits = re.compile("(?:bind|eval) .* (-|(?:[0-9a-f]{2})+) ((?:[0-9a-f]{2})+)")
    lines = (paths.ROOT / "crates" / "replay" / "stdin").read_text().splitlines()
    for text, table in sorted({found.groups() for found in map(digits.fullmatch, lines) if found}):
        given = bytes.fromhex(table), bytes.fromhex(text.strip("-"))
        check(f"records of {table[:60]}", assembled(disassemble(*given)) == given, True)


def families() -> None:
    for make in (*FAMILIES.values(), *more(77, 500).values()):
        for number, case in enumerate(make()):
            if isinstance(case, Script):
                for step in case.steps:
                    if step is not None:
                        round_trip(step[1], step[2])
            elif number % 7 == 0:
                round_trip(case.table, case.text)


def main() -> None:
    rows_by_hand()
    stored_tables()
    stored_lines()
    families()
    print(*failures[:40], sep="\n", end="\n" if failures else "")
    print(f"{checks} checks, {len(failures)} failed")
    sys.exit(bool(failures))


if __name__ == "__main__":
    main()
