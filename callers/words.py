#!/usr/bin/env python3
"""Checks every number in the words of include/ombravelik.h against the source that it comes from, and every constant that they name against the header's own.

    callers/words.py

A sentence with a number in it is listed here, with the number put in from its source; a number anywhere else in the header's comments is a failure.
At the end this itself is tried: each number and each name is changed, and each time it must be found.
"""

from __future__ import annotations

import re
import sys

from constants import PREFIX, equations, found, header_numbers, listed, named, source

SPELLED = ("two", "three", "four", "five", "six", "seven", "eight", "nine", "ten", "eleven", "twelve")
# "two's complement" is no number of anything
NUMBER = re.compile(r"\d[\d,]*\d|\d|\b(?:" + "|".join(SPELLED) + r")\b(?!')", re.I)
NAME = re.compile(rf"\b{PREFIX}\w+")
COMMENT = re.compile(r"/\*.*?\*/", re.S)

CELLS = "crates/rooms/specs/Cells.antt"
SHAPES = "crates/board_words/specs/Shapes.antt"
LIBRARY = "crates/board_c/src/lib.rt"


def spelled(number: int) -> str:
    return SPELLED[number - 2]


def one(pattern: str, path: str) -> int:
    """The number that all places of this form have."""
    numbers = set(found(pattern, source(path), path))
    if len(numbers) != 1:
        sys.exit(f"{path}: {pattern} has the numbers {sorted(numbers)}")
    return int(numbers.pop())


# ---------------------------------------------------------------- the sentences


def of_cells() -> "list[str]":
    words, bits = len(listed(SHAPES, "part_of")), one(r"cells: &(?:mut )?\[u(\d+)\]", LIBRARY)
    a_cell = one(r"^has_cell w i = ltb i \(length w / (\d+)\)$", CELLS)
    (head, again, payload), = found(r"cell_of \(get_or w \(i \* (\d+)\) 0\) \(get_or w \(i \* (\d+) \+ (\d+)\) 0\)", source(CELLS), CELLS)
    return [
        f"A value is {spelled(words)} words of {bits} bits, a head and a payload",
        f"a cell is those {spelled(words)} words in a slice, so that a room for n cells has {a_cell}n words",
        f"Words {head}n and {again}n + {payload} are the value of name n",
    ]


def of_answers() -> "list[str]":
    answers, sound = "crates/board_words/specs/Answers.antt", "crates/bindings_sound/specs/Sound.antt"
    nothing = {int(number) for number in re.findall(r"= (\d+)[; ]", found(r"^nothing_used = (record .*)$", source(answers), answers)[0])}
    number, place = found(r"^done = report which_done (\d+) (\d+) nothing_used Value\.Absent$", source(answers), answers)[0]
    if nothing != {int(number)} or number != place:
        sys.exit(f"{answers}: what does not apply has several numbers")
    cell = one(r"^verdict None rest = cond rest \(Ok tt\) \(Err (\d+)\)$", sound)
    return [f"What does not apply is {number}.", f"with the first bad cell, {cell} if no cell is bad"]


def of_shapes() -> "list[str]":
    bits, counts = equations(CELLS, "bit_of"), equations("crates/answer_values/specs/SpansAndCounts.antt", "count_in")
    number = one(r"^number_or None = (\d+)$", SHAPES)
    no_text = one(r"^span_words None = (\d+) ∷ \1 ∷ \1 ∷ \[\]$", SHAPES)
    return [
        f"A Bool as {bits['false']} or {bits['true']}, an Int in two's complement, a Uint, a Double by its bits; of anything else {number}.",
        f"the space, the first byte there, how many bytes; of anything else {no_text}.",
        f"{counts['Present']} of a present Optional; of anything else {counts['Nothing']}.",
    ]


def of_text() -> "list[str]":
    """A span's length has as many bytes as the definition of tables gives a word."""
    most = named("crates/meaning/specs/Limits.antt")["byte_numbers"] ** one(r"^word_bytes = (\d+)$", "crates/meaning/specs/Table.antt") - 1
    return [f"a String or Bytes of it has at most {most:,} bytes"]


def of_stack() -> "list[str]":
    """callers/stack.py compares the documents with one another, and the calls with what they say."""
    kib, = found(r"^A call takes up to ([\d,]+) KiB of stack", source("callers/README.md"), "callers/README.md")
    return [f"A call takes up to {kib} KiB of the calling thread's stack"]


SENTENCES = (of_cells, of_answers, of_shapes, of_text, of_stack)


# ---------------------------------------------------------------- the test


def wrong(text: str, sentences: "list[str]") -> "list[str]":
    """What the header's comments say otherwise, or beside the sentences."""
    comments = " ".join(re.sub(r"\s+(?:\* )?", " ", comment) for comment in COMMENT.findall(text))
    names = set(header_numbers(text))
    said = [f"{name} is named, and is no constant" for name in NAME.findall(comments) if name.removeprefix(PREFIX) not in names]
    for sentence in sentences:
        if comments.count(sentence) != 1:
            said.append(f"it does not say once: {sentence}")
        comments = comments.replace(sentence, "")
    beside = [comments[max(0, number.start() - 60) : number.end() + 30] for number in NUMBER.finditer(comments)]
    return said + [f"a number that nothing holds: {words}" for words in beside]


def other(number: str) -> str:
    return f"{int(number.replace(',', '')) + 1:,}" if number[0].isdigit() else SPELLED[SPELLED.index(number.lower()) + 1]


def changed(text: str) -> "list[str]":
    """The header with one number of its words another, or one name, or a number that was not there."""
    texts = [text.replace("/* An evaluation's answers. */", "/* An evaluation's 5 answers. */")]
    for comment in COMMENT.finditer(text):
        for number in NUMBER.finditer(text, comment.start(), comment.end()):
            texts.append(text[: number.start()] + other(number[0]) + text[number.end() :])
        for name in NAME.finditer(text, comment.start(), comment.end()):
            texts.append(text[: name.end()] + "S" + text[name.end() :])
    return texts


def main() -> None:
    text = source("include/ombravelik.h")
    sentences = [sentence for part in SENTENCES for sentence in part()]
    said = wrong(text, sentences)
    if said:
        sys.exit("the header's words: " + "\n".join(said))
    texts = changed(text)
    for number, mutant in enumerate(texts):
        if mutant == text or not wrong(mutant, sentences):
            sys.exit(f"wrong words were not found: change {number}")
    print(f"words: {len(sentences)} sentences with numbers are those of the sources; each of {len(texts)} changes is found")


if __name__ == "__main__":
    main()
