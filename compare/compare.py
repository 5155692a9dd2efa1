#!/usr/bin/env python3
"""Gives the same generated lines to the crate (oracle) and to `replay`, and compares their answers.

    compare.py ORACLE REPLAY                      1,000,000 generated cases, and the hand-made ones before them
    compare.py ORACLE REPLAY --count 20000 --seed 7
    compare.py ORACLE --conformance               the oracle against the rows of tools/conformance
    compare.py --exact REPLAY --count 20000       `replay` against the model in tools/rules, places and counts included

REPLAY is a command in quotes; `model` is the model itself. Cases come in batches of 20,000, each from a seed of its own; a rule
that came before is left out, so no two cases are alike. `--keep FILE` writes the lines of the cases that differ.

Compared are values (a map's entries in any order), error numbers, refusals and whether a binding is taken. Not compared,
and counted apart: exhausted runs, runs that the oracle's flags put outside the compared domain (docs/DIFFERENCES.md), and
lines that took the oracle too long. Ends with 0 only if nothing differs and nine tenths at least were compared.
"""

from __future__ import annotations

import argparse
import re
import shlex
import subprocess
import sys
import time
from collections import Counter
from pathlib import Path
from typing import Iterator

import generate
from spelling import same_value

MODEL = [sys.executable, str(Path(generate.TOOLS) / "rules" / "replay.py")]
BATCH = 20_000
COUNTS = re.compile(r" steps \d+ cells \d+ bytes \d+$")
FLAGS = re.compile(r" !((?: mapiter| doublekey| nanorder)+)$")
SHOWN = 25  # differences that are printed


def batches(arguments: argparse.Namespace) -> "Iterator[tuple[str, list[str]]]":
    if not arguments.no_hand_made and arguments.seed == 1:
        yield "hand-made", list(generate.hand_made())
    left, seed = arguments.count, arguments.seed
    seen: "set[int]" = set()
    while left > 0:
        lines = fresh(generate.batch(seed, BATCH), seen, left)
        yield f"seed {seed}", lines
        left, seed = left - sum(line.startswith("eval") for line in lines), seed + 1


def fresh(lines: "list[str]", seen: "set[int]", most: int) -> "list[str]":
    """The lines without the rules that were seen already, up to `most` rules."""
    kept = []
    for line in lines:
        if line.startswith("eval"):
            mark = hash(line)
            if mark in seen or most == 0:
                continue
            seen.add(mark)
            most -= 1
        kept.append(line)
    return kept


def told(command: "list[str]", lines: "list[str]") -> "list[str]":
    run = subprocess.run(command, input="\n".join(lines) + "\n", stdout=subprocess.PIPE, text=True)
    answers = run.stdout.splitlines()
    asked = sum(line.startswith(("bind", "eval")) for line in lines)
    if run.returncode or len(answers) != asked:
        sys.exit(f"{command[0]} ended with {run.returncode}, after {len(answers)} answers of {asked}")
    return answers


def verdict(crate: str, answer: str) -> str:
    """What a pair of answers shows: `same ..`, `DIFFERENT`, or why it is not compared."""
    if crate in ("ok", "no"):
        return "same binding" if (crate == "ok") == (answer == "ok") else "DIFFERENT"
    if crate == "Limit":
        return "not compared: too long for the oracle"
    flags = FLAGS.search(crate)
    crate = crate[:flags.start()] if flags else crate
    said = COUNTS.sub("", answer)
    if said == answer and not answer.startswith("Refused"):
        return "DIFFERENT"  # no counts: not a line of an answer
    if said.startswith("Exhausted"):
        return "not compared: exhausted"
    if said.startswith("Error"):
        said = said.split(" at ")[0]
    same = said == crate or same_value(said, crate)
    if flags:
        return f"not compared:{flags[1]}, " + ("same" if same else "different")
    return "same " + said.split(" ")[0] if same else "DIFFERENT"


class Tally:
    """What was found, and the cases that differ with the bindings that they stood on."""

    def __init__(self) -> None:
        self.counts: Counter = Counter()
        self.errors: Counter = Counter()
        self.different: "list[tuple[int, str, list[str], str, str]]" = []

    def add(self, name: str, lines: "list[str]", ours: "list[str]", theirs: "list[str]", judge) -> None:
        bound: "list[str]" = []
        answers = zip(ours, theirs)
        for line in lines:
            if line.startswith(("room", "empty")):
                bound = []
                continue
            other, answer = next(answers)
            found = judge(other, answer)
            self.counts[found] += 1
            if answer.startswith("Error"):
                self.errors[int(answer.split(" ")[1])] += 1
            if found == "DIFFERENT":
                self.different.append((len(line), name, bound + [line], other, answer))
            if line.startswith("bind") and answer == "ok":
                bound = bound + [line]

    def report(self, keep: "str | None", seconds: float, who: "tuple[str, str]") -> None:
        self.different.sort()
        for _, name, lines, other, answer in self.different[:SHOWN]:
            print(f"{name}: {explained(lines[-1])}\n    {lines[-1]}\n    {who[0]}: {other[:200]}\n    {who[1]}: {answer[:200]}")
        if keep:
            Path(keep).write_text("".join("\n".join([generate.ROOM, *lines]) + "\n" for _, _, lines, _, _ in self.different))
        for what, count in sorted(self.counts.items()):
            print(f"{count:9} {what}")
        print("errors by number: " + ", ".join(f"{number}: {count}" for number, count in sorted(self.errors.items())))
        print(f"{sum(self.counts.values())} answers in {seconds:.0f} seconds, {len(self.different)} different, {self.same()} the same")

    def same(self) -> int:
        return sum(count for found, count in self.counts.items() if found.startswith("same"))

    def failed(self) -> bool:
        """Whether something differs, or more than a tenth of the answers could not be compared."""
        return bool(self.different) or 10 * self.same() < 9 * sum(self.counts.values())


def explained(line: str) -> str:
    """The CEL text of a rule, for the reader of a difference."""
    from model import Refused, read_table
    from unparse import unparse
    words = line.split()
    try:
        text, table = (b"" if word == "-" else bytes.fromhex(word) for word in words[-2:])
        return unparse(read_table(table, text))[:400]
    except Refused as refused:
        return f"refused {refused.number} at {refused.place}"


def conformance(oracle: "list[str]") -> None:
    """Rows whose deviation is the crate's too agree with the answer here; others are outside the compared domain."""
    sys.path.insert(0, str(Path(generate.TOOLS) / "conformance"))
    from conformance import played
    tally, start = Tally(), time.time()
    given, wanted = [generate.ROOM], []
    for _, lines, answers in played():
        given += lines
        wanted += answers
    tally.add("conformance", given, told(oracle, given), wanted, verdict)
    tally.report(None, time.time() - start, ("crate", "row"))
    sys.exit(tally.failed())


def main() -> None:
    parser = argparse.ArgumentParser(description=__doc__, formatter_class=argparse.RawDescriptionHelpFormatter)
    parser.add_argument("programs", nargs="+", metavar="PROGRAM")
    parser.add_argument("--count", type=int, default=1_000_000)
    parser.add_argument("--seed", type=int, default=1)
    parser.add_argument("--keep")
    parser.add_argument("--no-hand-made", action="store_true")
    parser.add_argument("--exact", action="store_true")
    parser.add_argument("--conformance", action="store_true")
    arguments = parser.parse_args()
    programs = [MODEL if program == "model" else shlex.split(program) for program in arguments.programs]
    if arguments.conformance and len(programs) == 1:
        conformance(programs[0])
    if len(programs) != (1 if arguments.exact else 2):
        parser.error("an oracle and a replay, or --exact and a replay")
    first, second = (MODEL, programs[0]) if arguments.exact else programs
    judge = (lambda a, b: "same " + b.split(" ")[0] if a == b else "DIFFERENT") if arguments.exact else verdict
    tally, start = Tally(), time.time()
    for name, lines in batches(arguments):
        tally.add(name, lines, told(first, lines), told(second, lines), judge)
        print(f"{name}: {sum(tally.counts.values())} answers, {len(tally.different)} different", file=sys.stderr)
    tally.report(arguments.keep, time.time() - start, ("model" if arguments.exact else "crate", "replay"))
    sys.exit(tally.failed())


if __name__ == "__main__":
    main()
