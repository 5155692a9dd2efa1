#!/usr/bin/env python3
"""The tables of docs/SPEED.md on rules, from what `flown` measured.

    report.py FOLDER

FOLDER holds `times` and, where instructions were counted, the folders `few` and `more`: `runs`, and the dumps dump.1, dump.2, .. in the same order.
"""
import os
import platform
import sys
from pathlib import Path

INSTRUCTIONS, NANOSECONDS = "instructions", "nanoseconds"
LOST = 1 / 20  # the part of the two checks below which an evaluation is lost in the difference of times
GROUPS = {"items": "Items", "entries": "Entries and elements", "text": "Bytes of text", "nesting": "Levels"}


def lines(path):
    for line in path.read_text().splitlines():
        *case, what, number = [word.strip() for word in line.split(" | ")]
        yield tuple(case), what, float(number)


def gathered(runs):
    found = {}
    for case, what, number in runs:
        found.setdefault(case, {})[what] = number
    return found


def times(folder):
    """Nanoseconds for each case and what was run."""
    return gathered(lines(folder / "times"))


def totals(folder):
    """The runs that were counted, with how many they are and their instructions."""
    for number, (case, what, runs) in enumerate(lines(folder / "runs"), 1):
        dump = (folder / f"dump.{number}").read_text()
        yield case, what, runs, next(int(line.split()[1]) for line in dump.splitlines() if line.startswith("totals:"))


def counts(folder):
    """Instructions for each case and what was run: those of more runs less those of few. None where they were not counted."""
    if not (folder / "more").exists():
        return {}
    pairs = zip(totals(folder / "few"), totals(folder / "more"))
    return gathered((case, what, (total - before) / (runs - few)) for (_, _, few, before), (case, what, runs, total) in pairs)


def evaluation_of(run, unit):
    """`evaluate` checks the table and the binding room, then evaluates: what is left of it is the evaluation. None where that is lost; counts are exact."""
    checks = run["check"] + run["room"]
    left = run["evaluate"] - checks
    return None if unit == NANOSECONDS and left < LOST * checks else left


def table(heads, rows):
    print("| " + " | ".join(heads) + " |\n|" + "-|" * len(heads))
    for row in rows:
        print("| " + " | ".join(row) + " |")
    print()


def figure(number):
    return "" if number is None else f"{number:,.0f}"


def ratio(crate, ours):
    return "" if ours is None else f"{crate / ours:.2f}"


def flown(measured, steps, unit):
    print(f"### Rules as flown: {unit}\n")
    rows = []
    for case, run in measured.items():
        if case[0] == "flown":
            evaluation, crate = evaluation_of(run, unit), run["crate"]
            row = map(figure, (run["check"], run["room"], evaluation, crate))
            rows.append((case[1], steps[case], *row, ratio(crate, evaluation), ratio(crate, run["evaluate"])))
    table(("Rule", "Steps", "Table check", "Binding check", "Evaluation", "Crate", "Crate / evaluation", "Crate / whole call"), rows)


def growth(group, every):
    """A row for each size: evaluation, crate, their ratio, and what one more of what grows costs; in all units."""
    print(f"### {GROUPS[group]}\n")
    heads = ["Rule", GROUPS[group]]
    for unit, _ in every:
        heads += [f"{unit}: binding check", "evaluation", "one more", "crate", "crate / evaluation"]
    rows, before = [], {}
    for case in [case for case in every[0][1] if case[0] == group]:
        row = [case[1], f"{int(case[2]):,}"]
        for unit, measured in every:
            run = measured[case]
            evaluation, crate = evaluation_of(run, unit), run["crate"]
            size, last = before.get((unit, case[1]), (0, None))
            more = "" if None in (last, evaluation) else f"{(evaluation - last) / (int(case[2]) - size):,.1f}"
            before[unit, case[1]] = int(case[2]), evaluation
            row += [figure(run["room"]), figure(evaluation), more, figure(crate), ratio(crate, evaluation)]
        rows.append((case[1], row))
    order = list(dict.fromkeys(label for label, _ in rows))
    table(heads, [row for _, row in sorted(rows, key=lambda each: order.index(each[0]))])


def machine():
    try:
        model = next(line.split(":")[1].strip() for line in os.popen("lscpu") if line.startswith("Model name"))
    except StopIteration:
        model = platform.processor()
    load = ", ".join(f"{part:.1f}" for part in os.getloadavg())
    print(f"Machine: {platform.machine()} {model}, {os.cpu_count()} cores, {platform.system()}; load {load} at the end of the run; {os.popen('rustc --version').read().strip()}.\n")


def main(folder):
    folder = Path(folder)
    time, count = times(folder), counts(folder)
    steps = {case: figure(run["steps"]) for case, run in time.items()}
    every = [(unit, measured) for unit, measured in ((INSTRUCTIONS, count), (NANOSECONDS, time)) if measured]
    machine()
    for unit, measured in every:
        flown(measured, steps, unit)
    for group in GROUPS:
        growth(group, every)


if __name__ == "__main__":
    main(*sys.argv[1:])
