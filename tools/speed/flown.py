#!/usr/bin/env python3
"""Writes the rules that `tools/speed/rules` times, with their bindings, from CEL text.

    flown.py CASES

A case is the lines `case GROUP | LABEL | SIZE`, a `bind NAME TEXT TABLE` for each binding, and `eval TEXT TABLE`; bytes are hexadecimal
digits, `-` for none. The group is the table of the report, the size what a row of growth stands for.
"""
import sys
from pathlib import Path

sys.path.insert(0, str(Path(__file__).resolve().parent.parent / "cel"))

import paths  # noqa: F401
from assemble import assemble
from names import Names
from parse import parse


def hexed(data):
    return data.hex() or "-"


def compiled(cel, names):
    made = assemble(parse(cel, names))
    return f"{hexed(made.text)} {hexed(made.table)}"


def quoted(text):
    return '"' + text + '"'


def case(group, label, size, cel, **bindings):
    names = Names(list(bindings))
    lines = [f"case {group} | {label} | {size}"]
    lines += [f"bind {names.number(name)} {compiled(value, Names())}" for name, value in bindings.items()]
    return "\n".join([*lines, f"eval {compiled(cel, names)}"])


def numbers(count):
    return f"[{', '.join(str(n) for n in range(count))}]"


def waypoints(count):
    return f"[{', '.join('{' + quoted('id') + f': {n}, ' + quoted('alt') + f': {100 + n}, ' + quoted('open') + ': true}' for n in range(count))}]"


def entries(count):
    return "{" + ", ".join(f"{quoted(f'key{n}')}: {n}" for n in range(count)) + "}"


def first():
    """Not reported: what runs first loads what later ones find loaded."""
    return case("first", "first", "", "x + x", x="1")


def flat():
    """Rules without a loop, as flown."""
    states = ", ".join(map(quoted, ("IDLE", "TAXI", "TAKEOFF", "CLIMB", "CRUISE", "DESCENT", "LAND")))
    yield case("flown", "threshold, `&&`", "", "altitude >= 1000 && speed < 250.5 && battery > 20u", altitude="1520", speed="213.25", battery="64u")
    yield case("flown", "state in a list of 7", "", f"state in [{states}]", state=quoted("CRUISE"))
    yield case("flown", "map look-up, 6 entries", "", 'limits["egt"] > reading.egt', reading='{"egt": 611, "rpm": 2400}',
               limits='{"rpm": 2700, "oil": 8, "fuel": 40, "volt": 28, "amp": 60, "egt": 700}')
    yield case("flown", "text joined", "", '"unit " + unit + ": " + state', unit=quoted("NAV-2"), state=quoted("CRUISE"))
    yield case("flown", "nested conditionals", "", 't > 95 ? "red" : t > 80 ? "amber" : t > 60 ? "yellow" : t > 40 ? "green" : "cold"', t="55")


LOOPS = {"all": "xs.all(x, x < 5000)", "exists": "xs.exists(x, x == 5000)", "filter": "xs.filter(x, x % 2 == 0)", "map": "xs.map(x, x * 2)"}


def loops():
    for label, cel in LOOPS.items():
        for count in (100, 1000):
            yield case("flown", f"`{label}`, {count:,} items", "", cel, xs=numbers(count))
    yield case("flown", "`all` over 100 maps", "", "ws.all(w, w.alt >= 100 && w.open)", ws=waypoints(100))
    yield case("flown", "`exists` over 100 maps", "", 'ws.exists(w, has(w.id) && w.alt == top)', ws=waypoints(100), top="199")


def growth():
    for label, cel in LOOPS.items():
        for count in (1, 10, 100, 1000):
            yield case("items", f"`{label}`", count, cel, xs=numbers(count))
    for count in (1, 10, 100, 400):
        yield case("entries", "select, last key", count, f"m.key{count - 1}", m=entries(count))
        yield case("entries", "`in` a map, no such key", count, '"other" in m', m=entries(count))
        yield case("entries", "`in` a list, last", count, f"{count - 1} in xs", xs=numbers(count))
        yield case("entries", "index, last", count, f"xs[{count - 1}]", xs=numbers(count))
    for size in (10, 100, 1000, 8000):
        one, other = quoted("a" * size), quoted("a" * (size - 1) + "b")
        yield case("text", "`a + b`", size, "a + b", a=one, b=one)
        yield case("text", "`a == b`, last byte", size, "a == b", a=one, b=other)
        yield case("text", "`size(a)`", size, "size(a)", a=one)
    for depth in (1, 4, 16, 60):
        yield case("nesting", "`x + (x + ..)`", depth, "x + (" * depth + "x" + ")" * depth, x="1")
        yield case("nesting", "`x < n ? n : ..`", depth, "".join(f"x < {n} ? {n} : (" for n in range(depth)) + "x" + ")" * depth, x="99")
        yield case("nesting", "`b && (b && ..)`", depth, "b && (" * depth + "b" + ")" * depth, b="true")
    for depth in (1, 2, 3):
        yield case("nesting", "`all` in `all`, 10 items", depth, "".join(f"xs.all(x{n}, " for n in range(depth)) + f"x{depth - 1} < 10" + ")" * depth, xs=numbers(10))


def main(out):
    Path(out).write_text("\n".join([first(), *flat(), *loops(), *growth()]) + "\n")


if __name__ == "__main__":
    main(*sys.argv[1:])
