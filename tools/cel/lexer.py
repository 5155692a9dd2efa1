"""CEL's tokens, after the language definition's lexical grammar: literals with their values, names, punctuation.

    tokens("a.b + 1u")      Token(kind, value, at) for each, the last of kind "end"

Kinds: int, uint, double, string, bytes, word (a name or keyword), field (a name in backquotes), mark (punctuation), end.
Beside CEL a word may begin with `@` or `#`: so the crate's parser names what only its macros may use.
"""

from __future__ import annotations

import re
from typing import Iterator, NamedTuple

KEYWORDS = {"true", "false", "null", "in"}
RESERVED = {"as", "break", "const", "continue", "else", "for", "function", "if", "import", "let", "loop", "package", "namespace",
            "return", "var", "void", "while"}

TOKEN = re.compile(r"""
    (?P<space> [\t\n\f\r ]+ | //[^\r\n]* )
  | (?P<text> (?P<prefix> [bB][rR]? | [rR][bB]? )? (?P<quote> \"\"\" | ''' | " | ' ) )
  | (?P<double> [0-9]*\.[0-9]+(?:[eE][+-]?[0-9]+)? | [0-9]+[eE][+-]?[0-9]+ )
  | (?P<whole> (?: 0x[0-9a-fA-F]+ | [0-9]+ ) [uU]? )
  | (?P<word> [_a-zA-Z@\#][_a-zA-Z0-9]* )
  | (?P<field> `[a-zA-Z0-9_.\-/ ]+` )
  | (?P<mark> \|\| | && | == | != | <= | >= | [-+*/%<>!?:,.(){}\[\]] )
""", re.VERBOSE)

SIMPLE = {"a": 7, "b": 8, "f": 12, "n": 10, "r": 13, "t": 9, "v": 11, "\\": 92, "?": 63, '"': 34, "'": 39, "`": 96}


class CelError(Exception):
    """What is wrong with a text, and where in it."""

    def __init__(self, says: str, at: int) -> None:
        super().__init__(says)
        self.says, self.at = says, at


class Token(NamedTuple):
    kind: str
    value: "int | float | bytes | str"
    at: int


def tokens(text: str) -> Iterator[Token]:
    at = 0
    while at < len(text):
        found = TOKEN.match(text, at)
        if found is None:
            raise CelError(f"no token begins with {text[at]!r}", at)
        kind, start, at = found.lastgroup, at, found.end()
        if found["text"]:
            prefix = (found["prefix"] or "").lower()
            data, at = text_body(text, at, found["quote"], raw="r" in prefix, as_bytes="b" in prefix)
            yield Token("bytes" if "b" in prefix else "string", data, start)
        elif kind == "whole":
            yield whole(found[0], start)
        elif kind == "double":
            yield Token("double", float(found[0]), start)
        elif kind == "field":
            yield Token("field", found[0][1:-1], start)
        elif kind != "space":
            yield Token(kind, found[0], start)
    yield Token("end", "", len(text))


def whole(digits: str, at: int) -> Token:
    """An Int or a Uint; an Int may be 2^63, since a minus can stand before it."""
    bare = digits.rstrip("uU")
    number = int(bare, 16 if bare.startswith("0x") else 10)
    if bare != digits:
        if number >= 2**64:
            raise CelError("a uint is below 2^64", at)
        return Token("uint", number, at)
    if number > 2**63:
        raise CelError("an int is below 2^63", at)
    return Token("int", number, at)


def text_body(text: str, at: int, quote: str, raw: bool, as_bytes: bool) -> "tuple[bytes, int]":
    """The bytes of a string or bytes literal whose opening quote ends at `at`, and where it ends."""
    start, data = at, bytearray()
    while not text.startswith(quote, at):
        if at >= len(text) or len(quote) == 1 and text[at] in "\r\n":
            raise CelError("this text is not closed", start - len(quote))
        if text[at] == "\\" and not raw:
            more, at = escape(text, at, as_bytes)
            data += more
        else:
            data += text[at].encode()
            at += 1
    return bytes(data), at + len(quote)


def escape(text: str, at: int, as_bytes: bool) -> "tuple[bytes, int]":
    """The bytes that an escape stands for, and where it ends. In bytes, \\x and octal give a byte, and \\u none."""
    letter = text[at + 1:at + 2]
    if letter in SIMPLE:
        return bytes([SIMPLE[letter]]), at + 2
    digits, base = {"x": (2, 16), "X": (2, 16), "u": (4, 16), "U": (8, 16)}.get(letter, (3, 8))
    first = at + 1 if base == 8 else at + 2
    word = text[first:first + digits]
    if not re.fullmatch("[0-9a-fA-F]+" if base == 16 else "[0-3][0-7][0-7]", word) or len(word) < digits:
        raise CelError("no such escape", at)
    point = int(word, base)
    if as_bytes:
        if letter in ("u", "U"):
            raise CelError("bytes have no \\u escape", at)
        return bytes([point]), first + digits
    if point > 0x10FFFF or 0xD800 <= point <= 0xDFFF:
        raise CelError("no such code point", at)
    return chr(point).encode(), first + digits
