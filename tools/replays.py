#!/usr/bin/env python3
"""Makes the list of lines of the program `replay`, and the answers that it must give.

    tools/replays.py ORACLE FOLDER        writes FOLDER/stdin and FOLDER/stdout (FOLDER: crates/replay)
    tools/replays.py --against FILE FOLDER    names the lines in which FILE, what a run wrote, differs from FOLDER/stdout

The parts, in this order, each on rooms of its own:
    conformance   the rows of tools/conformance
    crate         at least 20,000 generated cases (compare/generate.py, seeds from 1,001 on) on which the crate was run: ORACLE is the
                  program of compare/build. A case that it puts outside the compared domain is left out; one that differs ends all
    limits        rules with each limit by itself one below, at and one above what their runs need (tools/rules, family `edges`)
    elsewhere     rules under bindings that differ only where the rule names nothing: the same line each time
    bindings      bringing in and emptying, every refusal (tools/rules, family `bindings`)
    bad lines     lines that are none
    refusals      tables that are refused, and those beside them that are not (tools/rules, family `refusals`)
    nesting       values that nest up to 32 deep and deeper, records up to 64 and deeper (tools/rules, family `nesting`)
    text limits   rules that join text, with each of the three limits by itself one below, at and one above what their runs need
    most          999,999 to 1,000,001 steps, and a value whose line is cut
    odd lines     spaces, numbers of any length, digits of either case, carriage returns; rooms of no length

All answers are the model's (tools/rules), with places and counts; of part `crate` value and error are the crate's too.
"""

from __future__ import annotations

import re
import sys
from collections import Counter
from pathlib import Path
from typing import Iterator

TOOLS = Path(__file__).resolve().parent
sys.path[:0] = [str(TOOLS / "rules"), str(TOOLS / "cel"), str(TOOLS / "conformance"), str(TOOLS.parent / "compare")]

import conformance
import generate
from assemble import assemble, binary, byte_string, comprehension, equals, listing, null, size, string, true
from compare import told, verdict
from draw import Draw
from families import FAMILIES
from families.common import I, R, Case, Script
from families.edges import counts_of, own_limits
from model import CELLS_MAX, TEXT_MAX, read_table
from model.table import K_COMPREHENSION, K_NAME
from replay import Replay, bind_line, eval_line
from shapes import SHAPES

WANTED = 20_000  # answers of the crate
LONGEST_LINE = 300  # of a generated case; two pending errors need more than 200
OF_A_KIND = 2_000  # most answers of one kind, and of one error
LONGEST = 2_000  # bytes of a table in the other parts
Part = Iterator["list[str]"]  # groups of lines; what they bind comes after `empty`


def conformance_part() -> Part:
    for one in conformance.rows():
        yield conformance.lines(one)


def kind_of(answer: str) -> str:
    return " ".join(answer.split(" ")[:2]) if answer.startswith("Error") else answer.split(" ")[0]


def crate_part(oracle: str) -> Part:
    """Generated cases that the crate answers as the model does, some of each kind of answer."""
    kept, total, seed, seen = Counter(), 0, 1_000, set()
    while total < WANTED:
        seed += 1
        lines = generate.batch(seed, 10_000)
        replay, theirs, group = Replay(), iter(told([oracle], lines)), []
        for line in lines:
            answer = replay.answer(line)
            if answer is None:
                if line == "empty" and len(group) > 1:
                    yield group
                group = [line] if line == "empty" else []
                continue
            crate = next(theirs)
            found = verdict(crate, answer)
            if found == "DIFFERENT":
                sys.exit(f"the crate says {crate}, the model {answer}: {line}")
            if line.startswith("bind"):
                group.append(line)
            elif found.startswith("same") and kept[kind_of(answer)] < OF_A_KIND and len(line) <= LONGEST_LINE and line not in seen:
                group.append(line)
                seen.add(line)
                kept[kind_of(answer)] += 1
                total += 1
        if len(group) > 1:
            yield group
    print("crate:", ", ".join(f"{kind} {count}" for kind, count in sorted(kept.items())))


def limits_part() -> Part:
    bound: tuple = ()
    for case in FAMILIES["edges"]():
        if isinstance(case, Case) and case.room is None and case.tag != "heavy" and len(case.table) <= LONGEST:
            anew = [] if case.bindings == bound else ["empty", *(bind_line(*one) for one in case.bindings)]
            bound = case.bindings
            yield [*anew, eval_line(case.table, case.text, case.limits)]
            if counts_of(case) == tuple(case.limits):
                for which in range(3):
                    yield [eval_line(case.table, case.text, tuple(limit + (at == which) for at, limit in enumerate(case.limits)))]


def names_of(record) -> "set[int]":
    own = {record.name} if record.kind == K_NAME else {record.name, record.item} if record.kind == K_COMPREHENSION else set()
    return own.union(*(names_of(operand) for operand in record.operands))


def elsewhere_part(rules: int = 250) -> Part:
    """The same rule on four sets of bindings that agree on what it names; other names are bound otherwise, or not."""
    draw = Draw(5)
    for number in range(rules):
        made = assemble(SHAPES[number % len(SHAPES)](draw))
        named = names_of(read_table(made.table, made.text))
        bound = [line for line in generate.desk(draw) if line.startswith("bind")]
        own = [line for line in bound if int(line.split()[1]) in named]
        for turn in range(4):
            others = [] if turn == 0 else [line for line in generate.desk(draw) if line.startswith("bind") and int(line.split()[1]) not in named]
            yield ["empty", *(own + others if turn % 2 else others + own), eval_line(made.table, made.text)]


def bindings_part() -> Part:
    for script in FAMILIES["bindings"]():
        if isinstance(script, Script) and script.room is None and all(step is None or len(step[1]) <= LONGEST for step in script.steps):
            lines = ["room {} {}".format(*script.lent)]
            for step in script.steps:
                lines.append("empty" if step is None else bind_line(*step))
                if step is not None:
                    lines.append(eval_line(bytes([K_NAME, 4, 0, step[0] % 128]), b""))
            yield lines
    yield [f"room {CELLS_MAX} {TEXT_MAX}"]


def bad_part() -> Part:
    yield ["what", "eval", "eval 1 1 1 -", "eval 1 1 1 - 000300 00", "eval x 1 1 - 000300", "eval 1 1 1 - 00030", "eval 1 1 1 - 0003zz", "bind 1 -",
           "bind one - 000300", "room 1", "room 1 1 1", "empty now", eval_line(b"\0\3\0", b"")]


def family_part(family: str) -> Part:
    """The cases of a family, each by itself."""
    for case in FAMILIES[family]():
        if isinstance(case, Case) and case.room is None and len(case.table) + len(case.text) <= LONGEST:
            yield ["empty", *(bind_line(*one) for one in case.bindings), eval_line(case.table, case.text, case.limits)]


def text_limits_part(rules: int = 120) -> Part:
    """Rules that join text, each under limits of which one is off by one; what they need is counted with much lent."""
    draw = Draw(6)
    for _ in range(rules):
        made = assemble(joins(draw))
        need = counts_of(Case("", made.table, made.text))
        for off in ((0, 0, 0), (-1, 0, 0), (1, 0, 0), (0, -1, 0), (0, 1, 0), (0, 0, -1), (0, 0, 1), (1, 1, 1)):
            limits = tuple(count + more for count, more in zip(need, off))
            if min(limits) >= 0:
                yield [eval_line(made.table, made.text, limits)]


def joins(draw: Draw):
    """Strings or Bytes joined, one upon the other, in a list or a comprehension."""
    spell, text = draw.pick(((string, ("", "a", "bc", "\u00e9", "def")), (byte_string, (b"", b"a", b"bc", b"\xff\x00", b"def"))))

    def joined(fuel: int):
        return spell(draw.pick(text)) if fuel == 0 else binary("+", joined(draw.below(fuel)), joined(draw.below(fuel)))

    rule, form = joined(1 + draw.below(4)), draw.below(6)
    over = listing(*([null] * (1 + draw.below(4))))
    around = (rule, listing(rule, joined(1)), size(rule), equals(rule, joined(2)), binary("||", rule, true),
              comprehension(3, 4, over, spell(text[1]), true, binary("+", R, rule), R), comprehension(3, 4, over, listing(), true, binary("+", R, listing(rule, I)), R))
    return around[form if form < 5 else 5 + draw.below(2)]


def most_part() -> Part:
    for case in own_limits():
        if case.tag == "heavy":
            yield ["empty", *(bind_line(*one) for one in case.bindings), eval_line(case.table, case.text, case.limits)]
    doubled = assemble(comprehension(3, 4, listing(*([null] * 20)), listing(), true, listing(R, R), R))
    yield [eval_line(doubled.table, doubled.text)]


def odd_part() -> Part:
    true_table = "01040001"
    yield ["", " ", "   empty   ", "empty\r", "\tempty", "Empty", f"eval 1 0 0 - {true_table}\r", f"  eval  1 0 0  -  {true_table}  ", f"eval 1 0 0 {true_table}",
           f"eval 0 0 0 - {true_table}", f"eval {'0' * 40}1 0 0 - {true_table}", *(f"eval {most} {most} {most} - {true_table}" for most in (2**64 - 1, 2**64, 10**40)),
           f"eval +1 0 0 - {true_table}", f"eval -1 0 0 - {true_table}", "eval 1 0 0 - -", f"eval 1 0 0 -- {true_table}", f"eval 1 0 0 - {true_table}-",
           "eval 1 0 0 - 0C05000000", "eval 1 0 0 - 0c05000000", *(f"eval 1 0 0 - 0104000{digit}" for digit in "/:@Gg`"), "eval 1 0 0 - 0X040001"]
    yield ["room 0 0", "bind 0 - 000300", "bind 0 - 000300", "bind 1 - 0c05000000", "bind 2 - 0c08000100000300", "bind 3 61 05070000000100", "bind 3 - 05070000000000",
           *(f"eval 9 9 9 - 070400{name:02x}" for name in range(5))]
    yield ["room 1 1", "bind 0 - 0c08000100000300", "bind 1 - 0c08000100000300", "bind 1 6162 05070000000200", "bind 1 6162 05070001000100", "bind 2 6162 05070001000100",
           "empty", "bind 2 6162 05070001000100", *(f"eval 9 9 9 - 070400{name:02x}" for name in range(3))]
    yield [f"room {2**64} {2**64}", *(f"bind {name} - 000300" for name in (127, 128, 255, 256, 2**64, 10**30)), "eval 9 9 9 - 0704007f", "eval 9 9 9 - 07040080"]


def make(oracle: str, folder: Path) -> None:
    given, wanted, replay = [], [], Replay()
    parts = {"conformance": conformance_part, "crate": lambda: crate_part(oracle), "limits": limits_part, "elsewhere": elsewhere_part,
             "bindings": bindings_part, "bad lines": bad_part, "refusals": lambda: family_part("refusals"), "nesting": lambda: family_part("nesting"),
             "text limits": text_limits_part, "most": most_part, "odd lines": odd_part}
    for name, part in parts.items():
        before = len(wanted)
        for lines in ([[f"room {CELLS_MAX} {TEXT_MAX}"]] + list(part())):
            given += lines
            answers = [answer for answer in map(replay.answer, lines) if answer is not None]
            wanted += answers
            if name == "elsewhere" and lines[-1].startswith("eval"):
                same_elsewhere(lines[-1], answers[-1])
        print(f"{name}: {len(wanted) - before} answers")
    (folder / "stdin").write_text("\n".join(given) + "\n")
    (folder / "stdout").write_text("\n".join(wanted) + "\n")
    print(f"{len(given)} lines, {len(wanted)} answers, {sum(map(len, given)) + len(given)} and {sum(map(len, wanted)) + len(wanted)} bytes")


def same_elsewhere(rule: str, answer: str, last: list = []) -> None:
    """The four answers of part `elsewhere` to one rule are one."""
    if last and last[0] == rule and last[1] != answer:
        sys.exit(f"other bindings changed {last[1]} into {answer}: {rule}")
    last[:] = [rule, answer]


def against(path: Path, folder: Path) -> None:
    given, expect, wrote = (file.read_bytes().decode().split("\n")[:-1] for file in (folder / "stdin", folder / "stdout", path))
    asked = [line for line in given if not re.match(r" *(room \d+ \d+|empty) *$", line)]
    differences = [(line, want, found) for line, want, found in zip(asked, expect, wrote) if want != found]
    for line, want, found in differences[:20]:
        print(f"{line[:300]}\nexpected {want[:300]}\n   found {found[:300]}")
    print(f"{len(differences)} lines differ; {len(expect)} lines expected, {len(wrote)} found")
    sys.exit(bool(differences) or len(expect) != len(wrote))


def main() -> None:
    if len(sys.argv) == 4 and sys.argv[1] == "--against":
        against(Path(sys.argv[2]), Path(sys.argv[3]))
    elif len(sys.argv) == 3:
        make(sys.argv[1], Path(sys.argv[2]))
    else:
        sys.exit(__doc__)


if __name__ == "__main__":
    main()
