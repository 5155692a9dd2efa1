#!/usr/bin/env python3
"""Checks every number and every function of include/ombravelik.h against the library's sources, and those of the Rust crate against the header.

    callers/constants.py

Numbers are read off the definitions (crates/*/specs) and off the code (crates/*/src). A constant that is missing on one side, or has another number
there, is a failure. At the end the comparison itself is tried: each constant is changed, left out and added, and each time it must be found.
"""

from __future__ import annotations

import re
import sys
from pathlib import Path

ROOT = Path(__file__).resolve().parent.parent
PREFIX = "OMBRAVELIK_"
GUARD = "OMBRAVELIK_H"
Numbers = dict  # names with their numbers


def source(path: str) -> str:
    return (ROOT / path).read_text()


def found(pattern: str, text: str, where: str) -> "list":
    matches = re.findall(pattern, text, re.M)
    if not matches:
        sys.exit(f"{where}: nothing there has the form {pattern}")
    return matches


def capitals(name: str) -> str:
    """BytesAfterRoot or bytes_after_root as BYTES_AFTER_ROOT."""
    return re.sub(r"(?<!^)(?=[A-Z])", "_", name).upper()


# ---------------------------------------------------------------- the sources, each as a list of names with numbers


def equations(path: str, function: str) -> Numbers:
    """`function Case = number` of a definition, a case by its last word."""
    rows = found(rf"^{function} \(?(?:\w+\.)*(\w+)[^=\n]* = (\d+)$", source(path), path)
    return {case: int(number) for case, number in rows}


def arms(path: str, kind: str, names: "Numbers | None" = None) -> Numbers:
    """`Kind::Case => number` of code, or the name of a number."""
    rows = found(rf"^ +{kind}::(\w+)(?:\([_, ]*\))? => (\w+),$", source(path), path)
    return {case: int(number) if number.isdigit() else (names or {})[number] for case, number in rows}


def variants(path: str) -> Numbers:
    """`Case = number,` of an enum of code."""
    return {case: int(number) for case, number in found(r"^    (\w+) = (\d+),$", source(path), path)}


def entries(path: str, before: str) -> "list[str]":
    """The entries of the array that opens behind some words of code."""
    row, = found(rf"{before} \[([^\[\]]*(?:\[\d\][^\[\]]*)*),\s*\]", source(path), path)
    return [" ".join(entry.split()) for entry in row.split(",")]


def declared(path: str) -> Numbers:
    """`const NAME: type = number;` of code."""
    rows = found(r"^(?:pub )?const (\w+): \w+ = (\d+);$", source(path), path)
    return {name: int(number) for name, number in rows}


def named(path: str) -> Numbers:
    """`name = number` of a definition."""
    return {name: int(number) for name, number in found(r"^(\w+) = (\d+)$", source(path), path)}


def positions(words: "list[str]", meant: "dict[str, str]", where: str) -> Numbers:
    """The words of a layout in their order, by what they are called."""
    for word in words:
        if word not in meant:
            sys.exit(f"{where}: {word} is not known")
    return {meant[word]: place for place, word in enumerate(words)}


def listed(path: str, function: str) -> "list[str]":
    """The parts of `function .. = a ∷ b ∷ []`."""
    return found(rf"^{function} [^=\n]* = (.*) ∷ \[\]\)?$", source(path), path)[0].split(" ∷ ")


def renamed(numbers: Numbers, names: "dict[str, str]", where: str) -> Numbers:
    """By other names; every one of them must be known, and a name that is known must be there."""
    if set(numbers) != set(names):
        sys.exit(f"{where}: {sorted(set(numbers) ^ set(names))} known on one side only")
    return {names[name]: number for name, number in numbers.items() if names[name]}


def prefixed(prefix: str, numbers: Numbers) -> Numbers:
    return {prefix + capitals(name): number for name, number in numbers.items()}


def laid_out(prefix: str, places: Numbers) -> Numbers:
    return {f"{prefix}_WORDS": len(places)} | {f"{prefix}_{name}": place for name, place in places.items()}


# ---------------------------------------------------------------- the groups of the header


def answers() -> "list[Numbers]":
    specs = {name.removeprefix("which_"): number for name, number in named("crates/board_words/specs/Answers.antt").items()}
    where = "crates/board_words/src/answers.rt"
    code = prefixed("", arms(where, "Which"))
    words = declared(where)["ANSWER_WORDS"]
    meant = {
        "which": "WHICH", "number": "NUMBER", "place": "PLACE", "u.steps": "STEPS", "u.cells": "CELLS", "u.bytes": "BYTES",
        "head_of v": "HEAD", "payload_of v": "PAYLOAD",
    }
    layout = laid_out("ANSWER", positions(listed("crates/board_words/specs/Answers.antt", "report"), meant, "report"))
    no_room = {"NO_ROOM": named("crates/board_words/specs/Overlay.antt")["no_room"]}
    code |= declared("crates/board_words/src/overlay.rt") | layout | {"ANSWER_WORDS": words}
    return [prefixed("", specs) | no_room | layout, code]


def refusals() -> "list[Numbers]":
    specs = equations("crates/meaning/specs/Errors.antt", "refusal_number")
    return [prefixed("REFUSAL_", specs), prefixed("REFUSAL_", arms("crates/meaning/src/refusal.rt", "Reason"))]


def errors() -> "list[Numbers]":
    where = "crates/meaning/specs/Errors.antt"
    of_meaning = {case: int(number) for case, number in found(r"^error_number \(?([\w ]+?)\)? = (\d+)$", source(where), where)}
    where = "crates/answer/specs/Numbers.antt"
    meant = dict(found(r"^error_meant Error\.(\w+) = Errors\.([\w ]+)$", source(where), where))
    arithmetic = equations("crates/numbers/specs/Error.antt", "number_of")
    specs = {case: of_meaning[meaning] for case, meaning in meant.items()} | arithmetic
    code = arms("crates/answer/src/reasons.rt", "Error") | variants("crates/numbers/src/error.rt")
    return [prefixed("ERROR_", specs), prefixed("ERROR_", code)]


def limits_exhausted() -> "list[Numbers]":
    specs = equations("crates/answer/specs/Numbers.antt", "limit_number")
    return [prefixed("LIMIT_", specs), prefixed("LIMIT_", arms("crates/answer/src/reasons.rt", "Limit"))]


def kinds() -> "list[Numbers]":
    def of(numbers: Numbers, where: str) -> Numbers:
        if numbers.pop("Nan") != numbers["Double"]:
            sys.exit(f"{where}: a NaN is of another kind than other Doubles")
        numbers["Nothing"] = numbers.pop("Absent")
        return prefixed("", numbers)

    code = declared("crates/rooms_cells/src/packing.rt")
    code["NOTHING"] = code.pop("ABSENT")
    specs = of(equations("crates/answer_values/specs/Kinds.antt", "kind_of"), "kind_of")
    where = "crates/answer_values/src/kinds.rt"
    # a name of the table's kinds, brought in under that name, or of the reader's own
    brought = found(r"^use table_layout::kinds::\{([\w, ]+)\};$", source(where), where)[0].split(", ")
    table = declared("crates/table_layout/src/kinds.rt")
    names = {**{name: table[name] for name in brought}, **declared(where)}
    return [specs, of(arms(where, "Value", names), "kind_of"), code]


def spaces() -> "list[Numbers]":
    specs = equations("crates/rooms/specs/Cells.antt", "text_number")
    return [prefixed("SPACE_", numbers) for numbers in (specs, arms("crates/rooms_cells/src/packing.rt", "TextSpace"))]


def most() -> "list[Numbers]":
    names = {
        "longest_table": "MOST_TABLE_BYTES", "deepest_record": "MOST_RECORD_NESTING", "deepest_value": "MOST_VALUE_NESTING", "names": "NAMES",
        "most_steps": "MOST_STEPS", "most_cells": "MOST_CELLS", "most_bytes": "MOST_TEXT_BYTES",
        "shortest_table": "", "byte_numbers": "",  # no caller's concern
    }
    specs = renamed(named("crates/meaning/specs/Limits.antt"), names, "Limits.antt")
    table = declared("crates/table_check/src/lib.rt")
    rooms = declared("crates/rooms_taking/src/lib.rt")
    code = {
        "MOST_TABLE_BYTES": table["LONGEST_TABLE"], "MOST_RECORD_NESTING": table["RECORD_LEVELS"],
        "MOST_VALUE_NESTING": declared("crates/rooms/src/value.rt")["DEEPEST"],
        "NAMES": declared("crates/rooms/src/scope.rt")["NAMES"],
        "MOST_STEPS": declared("crates/answer/src/lib.rt")["MOST_STEPS"],
        "MOST_CELLS": rooms["MOST_CELLS"], "MOST_TEXT_BYTES": rooms["MOST_BYTES"],
    }
    return [specs, code]


def states() -> "list[Numbers]":
    where = "crates/board_state/specs/State.antt"
    (words, mark, names), = found(r"^is_state w = eqb \(length w\) (\w+) && eqb \(get_or w (\w+) 0\) (\w+)$", source(where), where)
    (cells, used), = found(r"record \{ scope = scope_in w; cells = get_or w (\w+) 0; bytes = get_or w (\w+) 0 \}", source(where), where)
    nothing, = found(r"eqb \(get_or w \(i \* 2\) 0\) (\w+)", source(where), where)
    said = named(where) | named("crates/meaning/specs/Limits.antt")
    meant = {words: "STATE_WORDS", cells: "STATE_CELLS", used: "STATE_BYTES", mark: "STATE_MARK", names: "NAMES", nothing: "NOTHING"}
    called = {
        "STATE_WORDS": "STATE_WORDS", "CELLS_AT": "STATE_CELLS", "BYTES_AT": "STATE_BYTES", "SLOTS_AT": "STATE_MARK", "SLOTS": "NAMES",
        "ABSENT": "NOTHING",
    }
    return [{of: said[word] for word, of in meant.items()}, renamed(declared("crates/board_state/src/lib.rt"), called, "board_state")]


def shapes() -> "list[Numbers]":
    where = "crates/board_words/specs/Shapes.antt"
    (first, last), = found(r"^shape_of v = (.*) ∷ \(span_words \(span_in \(plain_of v\)\) \+\+ (.*) ∷ \[\]\)$", source(where), where)
    whole = first.split(" ∷ ") + listed(where, r"span_words \(Some") + [last]
    meant = {
        "kind_of v": "KIND", "number_word v": "NUMBER", "text_number sp.space": "SPACE", "sp.first": "FIRST", "sp.length": "LENGTH",
        "count_in (parts_of v)": "COUNT",
    }
    specs = laid_out("SHAPE", positions(whole, meant, where))
    where = "crates/board_words/src/shapes.rt"
    found(r"^use rooms_cells::packing::\{.*\btext_number\b.*\};$", source(where), where)
    span = dict(zip(("span[0]", "span[1]", "span[2]"), entries(where, r"Some\(span\) =>")))
    whole = [span.get(word, word) for word in entries(where, "let words =")]
    meant = {
        "u64::from(kind)": "KIND", "number": "NUMBER", "text_number(span.space)": "SPACE", "span.first as u64": "FIRST",
        "u64::from(span.length)": "LENGTH", "u64::from(count)": "COUNT",
    }
    return [specs, laid_out("SHAPE", positions(whole, meant, where))]


def parts() -> "list[Numbers]":
    where = "crates/board_words/specs/Shapes.antt"
    return [laid_out("PART", positions(listed(where, "part_of"), {"head_of v": "HEAD", "payload_of v": "PAYLOAD"}, where))]


GROUPS = (answers, refusals, errors, limits_exhausted, kinds, spaces, most, states, shapes, parts)


# ---------------------------------------------------------------- the header and the Rust crate


def header_numbers(text: str) -> Numbers:
    rows = re.findall(r"^[ \t]*#[ \t]*define[ \t]+(\w+)(.*)$", text, re.M)
    other = [name for name, value in rows if name != GUARD and not (name.startswith(PREFIX) and value.strip().isdigit())]
    if other:
        sys.exit(f"the header defines {other}, which are no numbers of its own")
    return {name.removeprefix(PREFIX): int(value) for name, value in rows if name != GUARD}


def crate_numbers() -> Numbers:
    where = "callers/rust/src/constants.rs"
    return {name: int(number) for name, number in found(r"^pub const (\w+): \w+ = (\d+);$", source(where), where)}


def crate_cases() -> Numbers:
    """The cases of the crate's enums of refusals, errors and limits, under the constants' names, with the numbers of the constants that they are."""
    where, numbers = "callers/rust/src/reasons.rs", crate_numbers()
    prefixes = {"Reason": "REFUSAL_", "Error": "ERROR_", "Limit": "LIMIT_"}
    cases = {}
    for enum, inside in re.findall(r"^    (\w+) \{\n(.*?)^    \}$", source(where), re.M | re.S):
        for case, constant in found(r"^ +(\w+) = c::(\w+),", inside, where):
            cases[prefixes[enum] + capitals(case)] = numbers.get(constant)
    return cases


def differences(header: Numbers, groups: "dict[str, list[Numbers]]", crate: Numbers, cases: Numbers) -> "list[str]":
    """What is missing or other than in the header."""
    said = []
    for title, sources in groups.items():
        if any(set(numbers) != set(sources[0]) for numbers in sources):
            said.append(f"{title}: a name is in one source and not in another")
        for numbers in sources:
            wrong = [name for name, number in numbers.items() if header.get(name) != number]
            said += [f"{title}: {name} is {numbers[name]}, and in the header {header.get(name, 'missing')}" for name in wrong]
    known = {name for sources in groups.values() for name in sources[0]}
    said += [f"the header's {name} is in no source" for name in header if name not in known]
    for name in sorted(set(header) | set(crate)):
        if header.get(name) != crate.get(name):
            said.append(f"{name} is {crate.get(name, 'missing')} in the Rust crate, and {header.get(name, 'missing')} in the header")
    numbered = {name: number for name, number in header.items() if name.startswith(("REFUSAL_", "ERROR_", "LIMIT_"))}
    return said + ([] if cases == numbered else ["the cases of the Rust crate's enums are not the header's"])


# ---------------------------------------------------------------- functions

Functions = dict  # names with what they return and the names and types of their arguments
C_TYPES = {
    "const uint8_t *": "*const u8", "uint8_t *": "*mut u8", "const uint64_t *": "*const u64", "uint64_t *": "*mut u64",
    "size_t ": "usize", "uint64_t ": "u64", "uint8_t ": "u8",
}
SLICES = {"&[u8]": "*const u8", "&mut [u8]": "*mut u8", "&[u64]": "*const u64", "&mut [u64]": "*mut u64"}


def declarations(text: str) -> "list[str]":
    """What the header declares, each on one line: what is left without comments, lines for the preprocessor and `extern "C"`."""
    text = re.sub(r"/\*.*?\*/", " ", text, flags=re.S)
    text = re.sub(r"^[ \t]*#.*$", " ", text, flags=re.M)
    inside = re.fullmatch(r'\s*extern "C" \{(.*)\}\s*', text, re.S)
    if not inside:
        sys.exit('the header has something before or behind what is in extern "C"')
    *ended, rest = [re.sub(r"\s+", " ", declaration).strip() for declaration in inside[1].split(";")]
    return ended + ([rest] if rest else [])


def c_argument(text: str) -> "tuple[str, str]":
    """Its name, and its type as Rust has it; a type that is not known as it stands there."""
    parts = re.fullmatch(r"((?:const )?\w+ \*?)(\w+)", text)
    return (parts[2], C_TYPES.get(parts[1], parts[1])) if parts else ("", text)


def rust_arguments(given: str) -> "list[tuple[str, str]]":
    return [tuple(argument.split(": ")) for argument in given.split(", ") if argument]


def header_functions(text: str) -> Functions:
    """Of whatever name and return type; anything else that is declared is a failure."""
    functions = {}
    for declaration in declarations(text):
        parts = re.fullmatch(r"(\w[\w ]*? \*?)(\w+)\(([^()]*)\)", declaration)
        if not parts:
            sys.exit(f"the header declares something else than a function: {declaration}")
        arguments = [c_argument(argument) for argument in parts[3].strip().split(", ")]
        functions[parts[2]] = (C_TYPES.get(parts[1], parts[1]), arguments)
    return functions


def crate_functions() -> Functions:
    text = re.sub(r"\s+", " ", source("callers/rust/src/raw.rs"))
    rows = re.findall(r"pub fn (\w+)\( ?([^()]*?),? ?\)(?: -> ([^;{]+))?;", text)
    return {name: (returned, rust_arguments(given)) for name, given, returned in rows}


def library_functions() -> Functions:
    """The exported functions with their slices as a pointer and a length; lengths have no name there."""
    text = re.sub(r"\s+", " ", source("crates/board_c/src/lib.rt"))
    functions = {}
    for name, given, returned in re.findall(r'pub extern "C" fn (\w+)\( ?([^()]*?),? ?\)(?: -> (\w+))?', text):
        arguments = []
        for called, kind in rust_arguments(given):
            arguments += [(called, SLICES[kind]), ("", "usize")] if kind in SLICES else [(called, kind)]
        functions[name] = (returned, arguments)
    return functions


def without_lengths(arguments: "list[tuple[str, str]]") -> "list[tuple[str, str]]":
    """The arguments, those behind a pointer without a name."""
    behind = [False] + [kind.startswith("*") for _, kind in arguments]
    return [("" if length else called, kind) for length, (called, kind) in zip(behind, arguments)]


def differing(text: str, crate: Functions, library: Functions) -> "list[str]":
    """What the Rust crate or the library has otherwise than the header."""
    header = header_functions(text)
    lengthless = {name: (returned, without_lengths(arguments)) for name, (returned, arguments) in header.items()}
    said = []
    for who, there, here in (("the Rust crate", crate, header), ("the library", library, lengthless)):
        other = sorted(name for name in set(there) | set(here) if there.get(name) != here.get(name))
        said += [f"{name} is {there.get(name, 'missing')} in {who}, and {here.get(name, 'missing')} in the header" for name in other]
    return said


# ---------------------------------------------------------------- the test


def tried(header: Numbers, differ) -> None:
    """Each constant changed, left out, and one added: found each time."""
    wrong = [header | {name: number + 1} for name, number in header.items()]
    wrong += [{other: number for other, number in header.items() if other != name} for name in header]
    wrong.append(header | {"ERROR_MADE_UP": 99})
    for numbers in wrong:
        if not differ(numbers):
            sys.exit(f"a wrong header was not found: {set(numbers.items()) ^ set(header.items())}")


def tried_functions(text: str, differ) -> None:
    """A function of another return type added, one that returns something else, one with another argument: found each time."""
    first = "uint8_t ombravelik_check("
    added = f"int ombravelik_extra(const uint8_t *x);\n{first}"
    for other in (added, "int ombravelik_check(", "uint8_t *ombravelik_check(", f"{first}int flags, "):
        if not differ(text.replace(first, other)):
            sys.exit(f"a wrong header was not found: {other}")


def main() -> None:
    text = source("include/ombravelik.h")
    header = header_numbers(text)
    groups = {group.__name__: group() for group in GROUPS}
    crate, cases = crate_numbers(), crate_cases()
    in_crate, exported = crate_functions(), library_functions()
    said = differences(header, groups, crate, cases) + differing(text, in_crate, exported)
    if said:
        sys.exit("\n".join(said))
    tried(header, lambda numbers: differences(numbers, groups, crate, cases))
    tried_functions(text, lambda other: differing(other, in_crate, exported))
    print(f"header: {len(header)} constants and {len(exported)} functions are those of the library's sources and of the Rust crate")


if __name__ == "__main__":
    main()
