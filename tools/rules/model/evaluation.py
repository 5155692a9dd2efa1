"""Modules 4 to 9: the rule of each record kind. Rests on numbers, comparison, table and charges."""

from __future__ import annotations

from typing import Callable, NamedTuple

from .charges import Meter
from .comparison import compare_values, contains, equal, find, index_into, is_key
from .numbers import arithmetic, negate
from .table import (K_BINARY, K_BYTES, K_COMPREHENSION, K_CONDITIONAL, K_FUNCTION, K_LIST, K_MAP, K_MARK, K_NAME, K_SELECT,
                    K_UNARY, Record)
from .values import (BOOL_WANTED, DUPLICATE_KEY, EMPTY_LIST, FUNCTION_ERROR, ITERABLE_WANTED, NO_OVERLOAD, NO_SUCH_KEY, NONE,
                     UNDECLARED_REFERENCE, UNSUPPORTED_KEY_TYPE, Bool, Bytes, Error, Fault, Int, List, Map, Optional,
                     String, Value, code_points)

Scope = list  # one slot for each of the 128 names: a Value, or None if absent


class AppendStep(NamedTuple):
    """The step of a comprehension that only appends: its guard, if it has one, and the List record appended."""

    guard: "Record | None"
    items: Record


def append_step(comprehension: Record) -> "AppendStep | None":
    """Module 9, `AppendStep::of`: step `accu + [..]` or `guard ? accu + [..] : accu`, literal condition, result `accu`."""
    _, _, condition, step, result = comprehension.operands

    def is_accu(record: Record) -> bool:
        return record.kind == K_NAME and record.name == comprehension.name

    if not is_accu(result) or condition.kind > K_BYTES:
        return None
    guard = None
    if step.kind == K_CONDITIONAL:
        guard, step, otherwise = step.operands
        if not is_accu(otherwise):
            return None
    if step.kind != K_BINARY or step.operator != "+":
        return None
    left, right = step.operands
    return AppendStep(guard, right) if is_accu(left) and right.kind == K_LIST else None


def logical_fold(comprehension: Record) -> "Bool | None":
    """Module 9, `LogicalFold::of`: the Bool that clears a pending error, if the step is `accu && ..` or `accu || ..`."""
    step = comprehension.operands[3]
    if step.kind == K_BINARY and step.operator in ("||", "&&"):
        first = step.operands[0]
        if first.kind == K_NAME and first.name == comprehension.name:
            return Bool(step.operator == "||")
    return None


class Evaluator:
    """Evaluates records. A rule raises Fault with an error number, and `record` adds the place."""

    def __init__(self, meter: Meter) -> None:
        self.meter = meter
        self.pair = meter.step

    def record(self, record: Record, scope: Scope) -> Value:
        """One step as a record begins, then its rule."""
        self.meter.step()
        try:
            return record.value if record.kind <= K_BYTES else self.RULES[record.kind](self, record, scope)
        except Fault as fault:
            raise Error(fault.number, record.place) from None

    def name(self, record: Record, scope: Scope) -> Value:
        value = scope[record.name]
        if value is None:
            raise Fault(UNDECLARED_REFERENCE)
        return value

    def unary(self, record: Record, scope: Scope) -> Value:
        """Module 1, `-` and `!`; module 6, not-strictly-false."""
        operand = record.operands[0]
        if record.operator == "not-strictly-false":
            try:
                value = self.record(operand, scope)
            except Error:
                return Bool(True)
            return value if isinstance(value, Bool) else Bool(True)
        value = self.record(operand, scope)
        if record.operator == "-":
            return negate(value)
        if not isinstance(value, Bool):
            raise Fault(NO_OVERLOAD)
        return Bool(not value.truth)

    def binary(self, record: Record, scope: Scope) -> Value:
        """Modules 1 to 3; operators that do not simply begin both operands have rules of their own."""
        operator = record.operator
        if operator in ("||", "&&"):
            return self.logic(record, scope)
        if operator in ("index", "optional index"):
            return self.index(record, scope)
        left = self.record(record.operands[0], scope)
        right = self.record(record.operands[1], scope)
        if operator == "optional select":
            return self.optional_select(left, right)
        if operator in ("==", "!="):
            return Bool(equal(left, right, self.pair) == (operator == "=="))
        if operator == "in":
            return Bool(contains(right, left, self.pair))
        if operator in ("<", "<=", ">", ">="):
            order = compare_values(left, right)
            return Bool({"<": order < 0, "<=": order <= 0, ">": order > 0, ">=": order >= 0}[operator])
        if operator == "+" and type(left) is type(right):
            if isinstance(left, (String, Bytes)):
                joined = left.data + right.data
                self.meter.write(joined)
                return type(left)(joined)
            if isinstance(left, List):
                items = left.items + right.items
                self.meter.store(items)
                return self.meter.nesting(List(items))
        return arithmetic(operator, left, right)

    # ------------------------------------------------------------ modules 4 and 5: Optionals, selection

    def present(self, part: Value) -> Value:
        """A present Optional: one cell, then its nesting."""
        self.meter.store([part])
        return self.meter.nesting(Optional(part))

    def optional_look_up(self, container: Value, key: Value) -> Value:
        """What the look-up finds, wrapped; none if it fails in any way."""
        try:
            found = index_into(container, key, self.pair)
        except Fault:
            return NONE
        return self.present(found)

    def index(self, record: Record, scope: Scope) -> Value:
        """Index and optional index: of none it is none, and the index is not evaluated."""
        optional = record.operator == "optional index"
        container = self.record(record.operands[0], scope)
        if isinstance(container, Optional):
            if container.part is None:
                return NONE
            container, optional = container.part, True
        key = self.record(record.operands[1], scope)
        return self.optional_look_up(container, key) if optional else index_into(container, key, self.pair)

    def optional_select(self, container: Value, key: Value) -> Value:
        """Optional select, both operands evaluated."""
        if not isinstance(key, String):
            raise Fault(FUNCTION_ERROR)
        if isinstance(container, Optional):
            if container.part is None:
                return NONE
            container = container.part
        return self.optional_look_up(container, key)

    def select(self, record: Record, scope: Scope) -> Value:
        """`select_field`."""
        left, key = self.record(record.operands[0], scope), String(record.field)
        if isinstance(left, Optional):
            if left.part is None:
                return Bool(False) if record.test else NONE
            if not isinstance(left.part, (List, Map)):
                raise Fault(NO_SUCH_KEY)
            if not record.test:
                return self.optional_look_up(left.part, key)
            return Bool(isinstance(left.part, Map) and contains(left.part, key, self.pair))
        if not isinstance(left, Map):
            raise Fault(NO_OVERLOAD)
        return Bool(contains(left, key, self.pair)) if record.test else index_into(left, key, self.pair)

    # ------------------------------------------------------------ module 6: logic

    def logic(self, record: Record, scope: Scope) -> Value:
        """`||` and `&&`."""
        decides = Bool(record.operator == "||")
        left, left_error = None, None
        try:
            left = self.record(record.operands[0], scope)
        except Error as error:
            left_error = error
        if left == decides:
            return decides
        right = self.record(record.operands[1], scope)
        if right == decides:
            return decides
        if left_error is not None and left_error.number != BOOL_WANTED:
            raise left_error
        if isinstance(left, Bool) and isinstance(right, Bool):
            return right
        raise Fault(NO_OVERLOAD)

    def want_bool(self, record: Record, scope: Scope) -> bool:
        """`try_bool`: error 2 at the record that wanted a Bool."""
        value = self.record(record, scope)
        if not isinstance(value, Bool):
            raise Fault(BOOL_WANTED)
        return value.truth

    def conditional(self, record: Record, scope: Scope) -> Value:
        condition, if_true, if_false = record.operands
        return self.record(if_true if self.want_bool(condition, scope) else if_false, scope)

    # ------------------------------------------------------------ module 7: calls

    def function(self, record: Record, scope: Scope) -> Value:
        """A call evaluates its argument first, and then what it is called on."""
        name = record.operator
        if name == "optional.none":
            return NONE
        other = self.record(record.operands[1], scope) if name == "orValue" else None
        value = self.record(record.operands[0], scope)
        if name == "optional.of":
            return self.present(value)
        if name == "size":
            return self.size(value)
        if not isinstance(value, Optional):
            raise Fault(NO_OVERLOAD)
        if name == "hasValue":
            return Bool(value.part is not None)
        if value.part is not None:
            return value.part
        if name == "value":
            raise Fault(FUNCTION_ERROR)
        return other

    def size(self, value: Value) -> Value:
        if isinstance(value, String):
            return Int(code_points(value.data))
        if isinstance(value, Bytes):
            return Int(len(value.data))
        if isinstance(value, List):
            return Int(len(value.items))
        if isinstance(value, Map):
            return Int(len(value.entries))
        raise Fault(NO_OVERLOAD)

    # ------------------------------------------------------------ module 8: containers

    def part(self, record: Record, scope: Scope) -> "Value | None":
        """A list element or a map value; None if a mark drops it. The mark itself costs no step."""
        if record.kind != K_MARK:
            return self.record(record, scope)
        value = self.record(record.operands[0], scope)
        return value.part if isinstance(value, Optional) else value

    def list_record(self, record: Record, scope: Scope) -> Value:
        """Its cells as it begins, each filled as its part is ready, then its nesting."""
        start, items = self.meter.take(len(record.operands)), []
        for operand in record.operands:
            item = self.part(operand, scope)
            if item is not None:
                self.meter.cells[start + len(items)] = item
                items.append(item)
        return self.meter.nesting(List(tuple(items)))

    def map_record(self, record: Record, scope: Scope) -> Value:
        """For each entry its key, the key's kind, its value and the duplicate test; then both its cells are ready."""
        start, entries = self.meter.take(len(record.operands)), []
        for key_record, value_record in zip(record.operands[::2], record.operands[1::2]):
            key = self.record(key_record, scope)
            if not is_key(key):
                raise Fault(UNSUPPORTED_KEY_TYPE)
            value = self.part(value_record, scope)
            if value is None:
                continue
            if find(entries, key, self.pair) is not None:
                raise Fault(DUPLICATE_KEY)
            at = start + 2 * len(entries)
            self.meter.cells[at:at + 2] = key, value
            entries.append((key, value))
        return self.meter.nesting(Map(tuple(entries)))

    # ------------------------------------------------------------ module 9: comprehension

    def comprehension(self, record: Record, scope: Scope) -> Value:
        """Init, then range; the condition before each item; an error of a `LogicalFold` step is held pending."""
        over, init, condition, step, result = record.operands
        accu = self.record(init, scope)
        items = self.iterate(self.record(over, scope))
        append = append_step(record)
        if append is not None and accu == EMPTY_LIST:
            return self.append_path(record, append, items, scope)
        inner = list(scope)
        inner[record.name] = accu
        fold, pending = logical_fold(record), None
        for item in items:
            if not self.want_bool(condition, inner):
                break
            inner[record.item] = item
            try:
                accu = self.record(step, inner)
            except Error as error:
                if fold is None:
                    raise
                pending = error
                continue
            if pending is None or accu == fold:
                pending = None
                inner[record.name] = accu
        if pending is not None:
            raise pending
        return self.record(result, inner)

    def iterate(self, value: Value) -> tuple[Value, ...]:
        """The items of a List, the keys of a Map; else error 13."""
        if isinstance(value, List):
            return value.items
        if isinstance(value, Map):
            return tuple(key for key, _ in value.entries)
        raise Fault(ITERABLE_WANTED)

    def append_path(self, record: Record, append: AppendStep, items: tuple[Value, ...], scope: Scope) -> Value:
        """`AppendStep::run`: elements are gathered with no accumulator in scope; of the step only guard and list are evaluated."""
        condition = record.operands[2]
        inner, gathered = list(scope), []
        for item in items:
            if not self.want_bool(condition, inner):
                break
            inner[record.item] = item
            if append.guard is not None and not self.want_bool(append.guard, inner):
                continue
            more = self.record(append.items, inner)
            self.meter.store(more.items)
            gathered.extend(more.items)
        self.meter.store(gathered)
        return self.meter.nesting(List(tuple(gathered)))

    RULES: dict[int, Callable] = {
        K_NAME: name, K_UNARY: unary, K_BINARY: binary, K_CONDITIONAL: conditional, K_SELECT: select, K_LIST: list_record,
        K_MAP: map_record, K_COMPREHENSION: comprehension, K_FUNCTION: function,
    }
