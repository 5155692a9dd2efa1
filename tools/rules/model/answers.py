"""What comes back: the whole answer to a table, and program `ask`. Rests on all the others."""

from __future__ import annotations

from dataclasses import dataclass

from .bindings import Room, unsound
from .charges import Charge, Meter
from .evaluation import Evaluator
from .table import read_table
from .values import CELLS_MAX, STEPS_MAX, TEXT_MAX, Error, Exhausted, Limits, Refused, Value, show

ALL = Limits(STEPS_MAX, CELLS_MAX, TEXT_MAX)


@dataclass
class Outcome:
    """The answer, one of

        ("refused", number, place)
        ("value", value, steps, cells, bytes)
        ("error", number, place, (steps, cells, bytes))
        ("exhausted", "Steps" | "Cells" | "Text" | "Nesting", (steps, cells, bytes))

    and what the evaluation rooms hold below the counts after a value. None stands for zero after an error or exhaustion,
    and for "unchanged" after a refusal. Above the counts the rooms are always unchanged.
    """

    answer: tuple
    cells: "list[Value] | None" = None
    text: "bytes | None" = None


def evaluate(table: bytes, text: bytes, room: "Room | None" = None, limits: Limits = ALL,
             trace: "list[Charge] | None" = None) -> Outcome:
    """Refusals 1 to 7, then 8, then the run under the limits. The charges made are added to `trace`."""
    room = Room.lent(0, 0) if room is None else room
    try:
        root = read_table(table, text)
        bad = unsound(room)
        if bad is not None:
            raise Refused(8, bad)
    except Refused as refusal:
        return Outcome(("refused", refusal.number, refusal.place))
    meter = Meter(limits.cut(), trace)
    try:
        value = Evaluator(meter).record(root, room.scope())
    except Error as error:
        return Outcome(("error", error.number, error.place, meter.counts()))
    except Exhausted as exhausted:
        return Outcome(("exhausted", exhausted.which, meter.counts()))
    finally:
        meter.close_trace()
    return Outcome(("value", value, *meter.counts()), meter.cells, bytes(meter.text))


def answer_line(answer: tuple) -> str:
    """An answer as the line that `ask` prints."""
    if answer[0] == "value":
        return "{} steps {} cells {} bytes {}".format(show(answer[1]), *answer[2:])
    if answer[0] == "refused":
        return "Refused {} at {}".format(*answer[1:])
    head = "Error {} at {}".format(*answer[1:3]) if answer[0] == "error" else f"Exhausted {answer[1]}"
    return head + " steps {} cells {} bytes {}".format(*answer[-1])


def ask(data: bytes) -> str:
    """Program `ask`: from the length of the text, the text and the table to one line."""
    length = int.from_bytes(data[:2], "little")
    return answer_line(evaluate(data[2 + length:], data[2:2 + length]).answer)
