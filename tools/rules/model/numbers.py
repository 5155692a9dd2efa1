"""Module 1, numbers: checked Int and Uint, Double by exact fractions rounded once. Rests on values."""

from __future__ import annotations

from fractions import Fraction
from typing import Callable

from .values import (DIVISION_BY_ZERO, NO_OVERLOAD, OVERFLOW, REMAINDER_BY_ZERO, Double, Fault, Int, Uint, Value)

INT_MIN, INT_MAX, UINT_MAX = -(1 << 63), (1 << 63) - 1, (1 << 64) - 1
SIGN, INFINITY, NAN = 1 << 63, 0x7FF0000000000000, 0x7FF8000000000000


def is_nan(bits: int) -> bool:
    return bits & ~SIGN > INFINITY


def is_infinite(bits: int) -> bool:
    return bits & ~SIGN == INFINITY


def is_zero(bits: int) -> bool:
    return bits & ~SIGN == 0


def exact(bits: int) -> Fraction:
    """The number that finite bits stand for."""
    exponent, fraction = bits >> 52 & 0x7FF, bits & (1 << 52) - 1
    whole, power = (fraction, -1074) if exponent == 0 else (fraction | 1 << 52, exponent - 1075)
    return Fraction(-whole if bits & SIGN else whole) * Fraction(2) ** power


def rounded(x: Fraction, zero: int) -> int:
    """The bits of x rounded once, to nearest and ties to even; an exact zero is `zero`, which has a sign."""
    if x == 0:
        return zero
    sign, x = (SIGN, -x) if x < 0 else (0, x)
    power = x.numerator.bit_length() - x.denominator.bit_length()
    if Fraction(2) ** power > x:
        power -= 1
    quantum = max(power - 52, -1074)
    scaled = x / Fraction(2) ** quantum
    whole, rest = divmod(scaled.numerator, scaled.denominator)
    if 2 * rest > scaled.denominator or 2 * rest == scaled.denominator and whole % 2 == 1:
        whole += 1
    if whole == 1 << 53:
        whole, quantum = whole // 2, quantum + 1
    if whole < 1 << 52:
        return sign | whole
    exponent = quantum + 1075
    return sign | (INFINITY if exponent >= 0x7FF else exponent << 52 | whole - (1 << 52))


def add_doubles(a: int, b: int) -> int:
    if is_nan(a) or is_nan(b) or is_infinite(a) and is_infinite(b) and a != b:
        return NAN
    if is_infinite(a) or is_infinite(b):
        return a if is_infinite(a) else b
    return rounded(exact(a) + exact(b), zero=SIGN if a == b == SIGN else 0)


def subtract_doubles(a: int, b: int) -> int:
    return NAN if is_nan(b) else add_doubles(a, b ^ SIGN)


def multiply_doubles(a: int, b: int) -> int:
    sign = (a ^ b) & SIGN
    if is_nan(a) or is_nan(b) or is_infinite(a) and is_zero(b) or is_zero(a) and is_infinite(b):
        return NAN
    if is_infinite(a) or is_infinite(b):
        return sign | INFINITY
    return rounded(exact(a) * exact(b), zero=sign)


def divide_doubles(a: int, b: int) -> int:
    sign = (a ^ b) & SIGN
    if is_nan(a) or is_nan(b) or is_infinite(a) and is_infinite(b) or is_zero(a) and is_zero(b):
        return NAN
    if is_infinite(a) or is_zero(b):
        return sign | INFINITY
    return sign if is_infinite(b) else rounded(exact(a) / exact(b), zero=sign)


DOUBLE_RULES: dict[str, Callable[[int, int], int]] = {
    "+": add_doubles, "-": subtract_doubles, "*": multiply_doubles, "/": divide_doubles,
}


def whole_numbers(operator: str, a: int, b: int) -> int:
    """Over whole numbers: the quotient is cut, and what is left keeps the sign of the left operand."""
    if operator in "/%":
        if b == 0:
            raise Fault(DIVISION_BY_ZERO if operator == "/" else REMAINDER_BY_ZERO)
        quotient = abs(a) // abs(b) if (a < 0) == (b < 0) else -(abs(a) // abs(b))
        return quotient if operator == "/" else a - quotient * b
    return a + b if operator == "+" else a - b if operator == "-" else a * b


def arithmetic(operator: str, a: Value, b: Value) -> Value:
    """`+ - / * %` on numbers of one kind; else error 3."""
    if isinstance(a, Int) and isinstance(b, Int):
        result = whole_numbers(operator, a.number, b.number)
        if not INT_MIN <= result <= INT_MAX or operator == "%" and (a.number, b.number) == (INT_MIN, -1):
            raise Fault(OVERFLOW)
        return Int(result)
    if isinstance(a, Uint) and isinstance(b, Uint):
        result = whole_numbers(operator, a.number, b.number)
        if not 0 <= result <= UINT_MAX:
            raise Fault(OVERFLOW)
        return Uint(result)
    if isinstance(a, Double) and isinstance(b, Double) and operator in DOUBLE_RULES:
        return Double(DOUBLE_RULES[operator](a.bits, b.bits))
    raise Fault(NO_OVERLOAD)


def negate(value: Value) -> Value:
    """Unary `-`: Int or Double, else error 3."""
    if isinstance(value, Int):
        if value.number == INT_MIN:
            raise Fault(OVERFLOW)
        return Int(-value.number)
    if isinstance(value, Double):
        return Double(NAN if is_nan(value.bits) else value.bits ^ SIGN)
    raise Fault(NO_OVERLOAD)
