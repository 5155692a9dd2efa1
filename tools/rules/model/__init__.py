"""A model of the evaluator of document 01: table reader, bindings, evaluation, charges.

Written from document 01, its readings and the given Rust alone, module by module in document 01's order, so that a
proved evaluator has an independent source of expected answers. It rests on Python's standard library, and it is slow.

    read_table(table, text)                    one expression, or Refused
    bring_in(room, name, table, text)          a binding, or Refused;  empty(room)
    evaluate(table, text, room, limits)        an Outcome: the answer, and what the evaluation rooms hold afterwards

Files: values (limits, endings, values, text), numbers (module 1), comparison (modules 2 and 3), table, charges,
evaluation (modules 4 to 9), bindings, answers.
"""

from .answers import Outcome, ask, evaluate
from .bindings import Room, bring_in, empty, unsound
from .charges import Charge, Meter, limited
from .table import Record, read_table
from .values import (CELLS_MAX, NAMES, STEPS_MAX, TABLE_MAX, TEXT_MAX, VALUE_NESTING_MAX, Bool, Bytes, Double, Int, Limits,
                     List, Map, Null, Optional, Refused, String, Uint, Value, code_points, show, utf8_valid)

__all__ = [
    "CELLS_MAX", "NAMES", "STEPS_MAX", "TABLE_MAX", "TEXT_MAX", "VALUE_NESTING_MAX", "Bool", "Bytes", "Charge", "Double",
    "Int", "Limits", "List", "Map", "Meter", "Null", "Optional", "Outcome", "Record", "Refused", "Room", "String", "Uint",
    "Value", "ask", "bring_in", "code_points", "empty", "evaluate", "limited", "read_table", "show", "unsound", "utf8_valid",
]
