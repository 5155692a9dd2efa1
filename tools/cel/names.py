"""Which number each name of a rule has in its table.

The names of an explicit list are 0, 1, 2, .. ; `n0` to `n127` are the names of those numbers; what the macros bring in has
numbers from the top; each other name gets, as it first appears, the lowest number that is free. Two names of one number are
refused, but for `n0` and its like beside the listed name of that number.
"""

from __future__ import annotations

import re

MACRO_NAMES = {"@result": 127, "#unused": 126, "@target": 125}
NUMBERED = re.compile("n(0|[1-9][0-9]?|1[01][0-9]|12[0-7])")


class Names:
    def __init__(self, listed: "list[str] | tuple[str, ...]" = ()) -> None:
        if len(set(listed)) < len(listed) or len(listed) > 128:
            raise ValueError("a name stands twice in the list, or there are more than 128")
        self.numbers = {name: number for number, name in enumerate(listed)}
        self.listed = frozenset(listed)

    def number(self, name: str) -> int:
        if name not in self.numbers:
            number = self.new_number(name)
            for other in self.numbers:
                if self.numbers[other] == number and (name in MACRO_NAMES or other not in self.listed):
                    raise ValueError(f"{other} and {name} would both have the number {number}: give the names with --names")
            self.numbers[name] = number
        return self.numbers[name]

    def new_number(self, name: str) -> int:
        if NUMBERED.fullmatch(name):
            return int(name[1:])
        if name in MACRO_NAMES:
            return MACRO_NAMES[name]
        taken = set(self.numbers.values()) | set(MACRO_NAMES.values())
        free = [number for number in range(128) if number not in taken]
        if not free:
            raise ValueError("a rule has at most 128 names")
        return free[0]

    def name(self, number: int) -> str:
        """The name that has this number; `n` and the number if none has."""
        for name, other in self.numbers.items():
            if other == number and not NUMBERED.fullmatch(name):
                return name
        return {other: name for name, other in MACRO_NAMES.items()}.get(number, f"n{number}")

    def __str__(self) -> str:
        return " ".join(f"{name}={number}" for name, number in sorted(self.numbers.items(), key=lambda pair: pair[1]))
