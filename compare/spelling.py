"""Values as `ask` prints them, compared with a map's entries in any order and all NaN as one."""

from __future__ import annotations

import re

TOKEN = re.compile(r'"[^"]*"|0x[0-9A-F]{16}|[-\w]+|[\[\]{},:]')


def same_value(a: str, b: str) -> bool:
    try:
        return parsed(a) == parsed(b)
    except (IndexError, ValueError):
        return False


def parsed(text: str) -> object:
    left = TOKEN.findall(text)[::-1]
    value = part(left)
    if left:
        raise ValueError(text)
    return value


def part(left: "list[str]") -> object:
    word = left.pop()
    if word == "Null":
        return word
    if word == "List":
        return word, tuple(parts(left, "[", "]"))
    if word == "Map":
        entries = parts(left, "{", "}")
        return word, frozenset(zip(entries[::2], entries[1::2]))
    if word == "Optional":
        return (word, part(left)) if left.pop() == "of" else word
    if word not in ("Bool", "Int", "Uint", "Double", "String", "Bytes"):
        raise ValueError(word)
    held = left.pop()
    if word == "Double" and int(held, 16) & 2**63 - 1 > 0x7FF << 52:
        held = "NaN"
    return word, held


def parts(left: "list[str]", opening: str, closing: str) -> "list[object]":
    if left.pop() != opening:
        raise ValueError(opening)
    found: "list[object]" = []
    while left[-1] != closing:
        if left[-1] in (",", ":"):
            left.pop()
        found.append(part(left))
    left.pop()
    return found
