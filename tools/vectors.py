#!/usr/bin/env python3
"""Makes the list of cases of the program `test_numbers`, and the answers that it must give.

    tools/vectors.py                 writes crates/test_numbers/stdin and crates/test_numbers/stdout
    tools/vectors.py --check         compares the answers with this machine's floats and its UTF-8 decoder
    tools/vectors.py --against FILE  names the lines in which FILE, what a run wrote, differs from the answers

The answers are worked out here from the rules, over whole numbers and fractions alone: no float takes part.
A number is spelled by the 16 hexadecimal digits of its 64 bits, a text by two digits for each byte, the empty text by `-`.

    int + A B, and - * / %      int - A           the same with uint, which has no `-` on one number
    double + A B, and - * /     double - A        double bits A, which answers A
    order KIND KIND A B         equal KIND KIND A B
    text valid T                text points T     text order T T     text equal T T
"""
import math
import random
import struct
import sys
from fractions import Fraction
from itertools import product
from pathlib import Path

CRATE = Path(__file__).resolve().parent.parent / "crates" / "test_numbers"
LONGEST_LIST = 524287  # bytes that the program has room for

LIMITS = {"int": (-(2**63), 2**63 - 1), "uint": (0, 2**64 - 1)}
MIN, MAX = LIMITS["int"]
UMAX = 2**64 - 1


def word(number):
    """A number's 64 bits, of a negative one in two's complement, as 16 digits."""
    return f"{number % 2**64:016x}"


# ---- Int and Uint


def quotient(a, b):
    """a / b with its fraction cut off: rounded toward zero."""
    size = abs(a) // abs(b)
    return size if (a < 0) == (b < 0) else -size


def whole(kind, operator, a, b):
    """The exact result where the kind holds it, else the error. A zero divisor comes before a result out of range.

    A remainder has the dividend's sign, and is out of range where its quotient is.
    """
    low, high = LIMITS[kind]
    if b == 0 and operator == "/":
        return "DivisionByZero 7"
    if b == 0 and operator == "%":
        return "RemainderByZero 8"
    if operator == "%":
        return word(a - b * quotient(a, b)) if low <= quotient(a, b) <= high else "Overflow 6"
    result = a + b if operator == "+" else a - b if operator == "-" else a * b if operator == "*" else quotient(a, b)
    return word(result) if low <= result <= high else "Overflow 6"


# ---- Double, by its bits

SIGN = 2**63
INFINITY = 0x7FF << 52
NAN = 0x7FF8 << 48  # the one that arithmetic gives
INFINITE = "infinite"


def point(bits):
    """What the bits stand for: a sign, 1 below zero, and a size, a fraction or INFINITE. None for a NaN."""
    sign, exponent, digits = bits >> 63, bits >> 52 & 0x7FF, bits & 2**52 - 1
    if exponent == 0x7FF:
        return None if digits else (sign, INFINITE)
    if exponent == 0:
        return sign, Fraction(digits, 2**1074)
    return sign, (2**52 + digits) * Fraction(2) ** (exponent - 1075)


def rounded(sign, size):
    """The bits of the Double nearest to the exact size, with this sign; of two equally near, the one whose last digit is 0.

    Doubles are the multiples of 2**e with at most 53 digits, for each e from -1074. The size is counted in units of 2**e
    with the smallest e at which its whole part has at most 53 digits, and the count is rounded. A count of 2**53 carries
    into the exponent by itself. A result of 2**1024 or above is an infinity.
    """
    if size == 0:
        return sign * SIGN
    e = max(-1074, size.numerator.bit_length() - size.denominator.bit_length() - 54)
    while size >= Fraction(2) ** (e + 53):
        e += 1
    units = size / Fraction(2) ** e
    count, rest = divmod(units.numerator, units.denominator)
    if 2 * rest > units.denominator or 2 * rest == units.denominator and count % 2 == 1:
        count += 1
    return sign * SIGN + min(((e + 1074) << 52) + count, INFINITY)


def add(x, y):
    if point(x) is None or point(y) is None:
        return NAN
    (s, a), (t, b) = point(x), point(y)
    if a is INFINITE:
        return NAN if b is INFINITE and s != t else x
    if b is INFINITE:
        return y
    total = (-a if s else a) + (-b if t else b)
    if total == 0:
        return s * SIGN if a == 0 and s == t else 0
    return rounded(int(total < 0), abs(total))


def sub(x, y):
    return add(x, y ^ SIGN)


def mul(x, y):
    if point(x) is None or point(y) is None:
        return NAN
    (s, a), (t, b) = point(x), point(y)
    if a is INFINITE or b is INFINITE:
        return NAN if a == 0 or b == 0 else (s ^ t) * SIGN + INFINITY
    return rounded(s ^ t, a * b)


def div(x, y):
    if point(x) is None or point(y) is None:
        return NAN
    (s, a), (t, b) = point(x), point(y)
    if a is INFINITE:
        return NAN if b is INFINITE else (s ^ t) * SIGN + INFINITY
    if b is INFINITE:
        return (s ^ t) * SIGN
    if b == 0:
        return NAN if a == 0 else (s ^ t) * SIGN + INFINITY
    return rounded(s ^ t, a / b)


def neg(x):
    return NAN if point(x) is None else x ^ SIGN


DOUBLE = {"+": add, "-": sub, "*": mul, "/": div}


# ---- order


def place(kind, number):
    """Where a number stands on the line: -1, 0 or 1 for below, among or above the finite ones, and then its value."""
    if kind != "double":
        return 0, Fraction(number)
    if point(number) is None:
        return None
    sign, size = point(number)
    if size is INFINITE:
        return (-1 if sign else 1), Fraction(0)
    return 0, (-size if sign else size)


def order(kind, a, other, b):
    x, y = place(kind, a), place(other, b)
    if x is None or y is None:
        return "Unordered"
    return "Less" if x < y else "Equal" if x == y else "Greater"


def truth(answer):
    return "true" if answer else "false"


# ---- text


def decoded(data):
    """The code points of UTF-8, or None.

    The ones that a first byte begins with count the bytes of its code point, each later byte begins with the bits 10, and
    the other bits spell a number: at most 10FFFF, no surrogate, and with no shorter spelling.
    """
    points = []
    at = 0
    while at < len(data):
        first = data[at]
        count = 1 if first < 0x80 else 2 if first >> 5 == 0b110 else 3 if first >> 4 == 0b1110 else 4
        if first >> 6 == 0b10 or first > 0b11110111:
            return None
        later = data[at + 1 : at + count]
        if len(later) < count - 1 or any(byte >> 6 != 0b10 for byte in later):
            return None
        number = first if count == 1 else first & 0x7F >> count
        for byte in later:
            number = number << 6 | byte & 0x3F
        if number < (0, 0, 0x80, 0x800, 0x10000)[count] or 0xD800 <= number < 0xE000 or number > 0x10FFFF:
            return None
        points.append(number)
        at += count
    return points


def spelled(data):
    return data.hex() or "-"


# ---- the cases: a line and its answer


def whole_case(kind, operator, a, b):
    return f"{kind} {operator} {word(a)} {word(b)}", whole(kind, operator, a, b)


def double_case(operator, x, y):
    return f"double {operator} {word(x)} {word(y)}", word(DOUBLE[operator](x, y))


def order_case(kind, a, other, b):
    return f"order {kind} {other} {word(a)} {word(b)}", order(kind, a, other, b)


def equal_case(kind, a, other, b):
    return f"equal {kind} {other} {word(a)} {word(b)}", truth(order(kind, a, other, b) == "Equal")


def valid_case(data):
    return f"text valid {spelled(data)}", truth(decoded(data) is not None)


def text_order_case(left, right):
    answer = "Less" if left < right else "Equal" if left == right else "Greater"
    return f"text order {spelled(left)} {spelled(right)}", answer


def text_equal_case(left, right):
    return f"text equal {spelled(left)} {spelled(right)}", truth(left == right)


def at_limits(kind, values):
    """Operations on these values whose exact result is a limit of the kind, or one off it; of products, the nearest."""
    for a, limit, off in product(values, LIMITS[kind], (-1, 0, 1)):
        yield "+", a, limit + off - a
        yield "-", a, a - limit - off
        if a != 0:
            yield "*", a, quotient(limit, a) + off


def whole_cases(kind, edges, values, chance):
    """Every operator on every pair of edges; results at the limits; pairs by chance."""
    low, high = LIMITS[kind]
    for operator, a, b in product("+-*/%", edges, edges):
        yield whole_case(kind, operator, a, b)
    for operator, a, b in at_limits(kind, values):
        if low <= b <= high:
            yield whole_case(kind, operator, a, b)
    for operator, _ in product("+-*/%", range(16)):
        a, b = (chance.randint(low, high) >> chance.randrange(64) for _ in "ab")
        yield whole_case(kind, operator, a, b)


def int_cases(chance):
    edges = [0, 1, -1, 2, -2, 3, -3, MAX, MAX - 1, MIN, MIN + 1]
    edges += [2**31, -(2**32), 2**53 + 1, 2**62, -(2**62), 3037000500]
    roots = [3037000499, 3037000500, -3037000499, -3037000500]  # about the root of 2**63
    yield from whole_cases("int", edges, roots + [7, -7, 2**31 - 1, 2**32, -(2**53)], chance)
    for operator, a, b in product("/%", (7, -7, 2, -2, MAX, MIN), (2, -2, 7, -7, 10, -10)):
        yield whole_case("int", operator, a, b)
    for a in edges + roots:
        yield f"int - {word(a)}", word(-a) if -a <= MAX else "Overflow 6"


def uint_cases(chance):
    edges = [0, 1, 2, 3, UMAX, UMAX - 1, 2**31, 2**32 - 1, 2**32, 2**53 + 1, 2**63 - 1, 2**63]
    roots = [2**32 - 1, 2**32, 2**32 + 1]  # about the root of 2**64
    yield from whole_cases("uint", edges, roots + [3, 7, 2**31 + 1, 2**53, 2**63 + 1], chance)


ZERO, ONE, TWO, HALF = 0, 0x3FF << 52, 0x400 << 52, 0x3FE << 52
LEAST, LEAST_NORMAL, LARGEST = 1, 1 << 52, INFINITY - 1  # the largest subnormal is LEAST_NORMAL - 1
NANS = [NAN, NAN + SIGN, INFINITY + 1, INFINITY + 1 + SIGN, 2**63 - 1, 2**64 - 1, 0x7FF4 << 48, 0xFFF800000000ABCD]


def power(n):
    """The bits of 2**n. One more or one less is the next Double above or below."""
    return rounded(0, Fraction(2) ** n)


def double_of(numerator, denominator=1):
    return rounded(int(numerator < 0), Fraction(abs(numerator), denominator))


def double_edges():
    """Pairs at which rounding, overflow and underflow turn over, for each operator."""
    for x, y in [(power(53), ONE), (power(53) + 1, ONE), (ONE, power(-53)), (ONE + 1, power(-53)), (ONE, power(-54))]:
        for near in (y - 1, y, y + 1):  # the middle one lies halfway between two Doubles
            yield from (("+", x, near), ("-", x, near))
    for y in (power(969), power(970) - 1, power(970), power(970) + 1, LARGEST):
        yield "+", LARGEST, y
    for x in (ONE, power(52) + 1, LEAST_NORMAL, LARGEST):
        yield from (("-", x, x), ("-", x, x - 1), ("-", x, x + 1), ("+", x, x + SIGN))
    for x, y in [(power(512), power(512)), (power(512), power(511)), (LARGEST, ONE), (LARGEST, TWO), (ONE, ONE)]:
        yield from product("*", (x - 1, x), (y - 1, y, y + 1))
    for x, y in product((2**26 + 1, 2**26 + 3), (2**27 + 1, 2**27 + 3)):  # products halfway between two Doubles
        yield "*", double_of(x), double_of(y)
    for count in (1, 2, 3, 5, 7, LEAST_NORMAL - 1, LEAST_NORMAL, LEAST_NORMAL + 1, LEAST_NORMAL + 3):
        yield from product("*", [count], (HALF - 1, HALF, HALF + 1, ONE - 1, ONE + 1))
        yield from product("/", [count], (TWO - 1, TWO, TWO + 1, double_of(3)))
    for y in (power(-538) - 1, power(-538), power(-538) + 1):
        yield "*", power(-537), y
    for x, y in [(1, 3), (2, 3), (1, 10), (10, 3), (1, 49), (2**53 - 1, 2**53 + 2), (-22, 7)]:
        yield "/", double_of(x), double_of(y)
    for y in (ONE - 1, HALF, HALF - 1, LEAST, LEAST_NORMAL):
        yield from (("/", LARGEST, y), ("/", LEAST, y), ("/", LEAST_NORMAL - 1, y))
    for y in (power(73), power(74), power(75), LARGEST):
        yield from (("/", power(-1000), y), ("/", LEAST, y))
    for x, y in [(1, 2), (1, 7), (11, 3)]:
        for operator in DOUBLE:  # 0.1 and 0.2, and the like
            yield operator, double_of(x, 10), double_of(y, 10)


def double_chance(chance):
    """Pairs by chance: any bits; exponents so near that digits meet; results about the largest and the smallest."""

    def double_at(exponent):
        return chance.getrandbits(1) * SIGN + (exponent + 1023 << 52) + chance.getrandbits(52)

    for operator, _ in product(DOUBLE, range(20)):
        yield operator, chance.getrandbits(64), chance.getrandbits(64)
    for _ in range(40):
        exponent = chance.randint(-960, 1023)
        yield chance.choice("+-"), double_at(exponent), double_at(exponent - chance.randint(0, 54))
    for middle, spread in [(1023, 2), (-1022, 3), (-1050, 24), (-1074, 3)]:
        for _ in range(12):
            exponent, sum_of_both = chance.randint(-500, 500), middle + chance.randint(-spread, spread)
            yield "*", double_at(exponent), double_at(sum_of_both - exponent)
            yield "/", double_at(exponent), double_at(exponent - sum_of_both)


def double_cases(chance):
    special = [ZERO, LEAST, LEAST_NORMAL - 1, LEAST_NORMAL, ONE, LARGEST, INFINITY]
    special += [SIGN + x for x in (ZERO, LEAST, ONE, LARGEST, INFINITY)] + [INFINITY + 1, NAN + SIGN]
    for operator, x, y in product(DOUBLE, special, special):
        yield double_case(operator, x, y)
    for operator, x, y in double_edges():
        yield double_case(operator, x, y)
        yield double_case(operator, x ^ SIGN, y)
    for operator, x, y in double_chance(chance):
        yield double_case(operator, x, y)
    for x in special + NANS + [chance.getrandbits(64) for _ in range(12)] + [INFINITY + chance.getrandbits(52) for _ in "nan"]:
        yield f"double - {word(x)}", word(neg(x))
        yield f"double bits {word(x)}", word(x)


def around(number):
    """The Doubles about a whole number: the nearest, its neighbours, and one with a fraction where there is one."""
    sign, size = int(number < 0), Fraction(abs(number))
    nearest = rounded(sign, size)
    inward = SIGN + LEAST if nearest == ZERO else nearest - 1
    return [nearest, nearest + 1, inward, rounded(sign, size + Fraction(1, 2))]


def order_pairs():
    ints = [MIN, MIN + 1, -(2**53) - 1, -(2**53), 1 - 2**53, -(2**52), -2, -1, 0, 1, 2]
    ints += [2**51, 2**52 - 1, 2**52, 2**53 - 1, 2**53, 2**53 + 1, MAX - 1, MAX]
    uints = [0, 1, 2**53, 2**53 + 1, 2**63 - 1, 2**63, 2**63 + 1, UMAX - 1025, UMAX - 1024, UMAX]
    ends = [ZERO, SIGN, LEAST, SIGN + LEAST, INFINITY, SIGN + INFINITY, NAN, NAN + SIGN, INFINITY + 1]
    doubles = ends[:7] + [LEAST_NORMAL - 1, LEAST_NORMAL, ONE - 1, ONE, SIGN + ONE, LARGEST, SIGN + LARGEST, 2**64 - 1]
    yield from (("int", a, "int", b) for a, b in product((MIN, MIN + 1, -1, 0, 1, MAX - 1, MAX), repeat=2))
    yield from (("uint", a, "uint", b) for a, b in product((0, 1, 2**63 - 1, 2**63, UMAX), repeat=2))
    yield from (("double", a, "double", b) for a, b in product(doubles, repeat=2))
    across = [("int", a, "uint", b) for a, b in product((MIN, -1, 0, 1, 2**53, MAX - 1, MAX), uints)]
    for kind, values in (("int", ints), ("uint", uints)):
        for a in values:
            across += [(kind, a, "double", b) for b in around(a) + (ends if a in (0, 1, -1, MIN, MAX, UMAX) else [])]
    across += [("uint", UMAX, "double", power(64)), ("int", MAX, "double", power(64)), ("int", MIN, "double", SIGN + power(64))]
    for kind, a, other, b in across:
        yield kind, a, other, b
        yield other, b, kind, a
    for n in range(2, 63, 3):  # every third exponent
        yield from (("int", -(2**n) - 1, "double", b) for b in around(-(2**n) - 1))
        yield from (("double", b, "uint", 2**n + 1) for b in around(2**n + 1))


def order_cases():
    for pair in order_pairs():
        yield order_case(*pair)


def equal_cases():
    """Every pair of the orders that is equal or has no order, and each fourth of the others."""
    for index, pair in enumerate(order_pairs()):
        if order(*pair) in ("Equal", "Unordered") or index % 4 == 0:
            yield equal_case(*pair)


# The first and the last sequence of each row of Unicode's table of well-formed sequences.
ROWS = """00 7f c280 dfbf e0a080 e0bfbf e18080 ecbfbf ed8080 ed9fbf ee8080 efbfbf
    f0908080 f0bfbfbf f1808080 f3bfbfbf f4808080 f48fbfbf"""
# Lone continuations; what has a shorter spelling; surrogates; above 10FFFF; what begins nothing; sequences broken off.
BAD = """80 bf c080 c0af c1bf e08080 e09fbf f0808080 f08fbfbf eda080 edadbf edb080 edbfbf eda080edb080 f4908080 f5808080 f7bfbfbf
    f888808080 fc8480808080 fe ff c27f c2c0 c2c280 e0a07f e0a0c0 e1e180 e28241 f0908041 f09080c3 f09d41 f4c08080 8080 c3a980"""


def valid_cases():
    rows = [bytes.fromhex(row) for row in ROWS.split()]
    broken = [bytes.fromhex(bad) for bad in BAD.split()]
    broken += [row[:length] for row in rows for length in range(1, len(row))]
    for part in rows + broken:
        yield valid_case(part)
        yield valid_case(part + b"ab")
        yield valid_case("é€".encode() + part + "€é".encode())
        yield valid_case("a𝄞".encode() + part)
    for first in (0xC0, 0xC1, 0xC2, 0xDF, 0xE0, 0xE1, 0xEC, 0xED, 0xEE, 0xEF, 0xF0, 0xF1, 0xF3, 0xF4, 0xF5):
        rest = b"\x80" * (0 if first < 0xE0 else 1 if first < 0xF0 else 2)
        for second in (0x7F, 0x80, 0x8F, 0x90, 0x9F, 0xA0, 0xBF, 0xC0):
            yield valid_case(bytes([first, second]) + rest)
    yield from (valid_case(b""), valid_case(b"x" * 256), valid_case("é".encode() * 128), valid_case(b"x" * 255 + b"\xc3"))


def text_cases():
    yield from valid_cases()
    rows = [bytes.fromhex(row) for row in ROWS.split()]
    mixed = ["", "a", "CEL", "é", "€", "𝄞", "aé€𝄞", "𝄞€éa", "naïve café", "\0", "e\u0301", "日本語", "🙂🙂", "\ufeff", "é" * 128]
    for data in rows + [b"".join(rows)] + [text.encode() for text in mixed]:
        yield f"text points {spelled(data)}", str(len(decoded(data)))
    texts = ["", "61", "6161", "6162", "62", "00", "6100", "7f", "80", "c3a9", "c3aa", "f09d849e", "ff"]
    for left, right in product(map(bytes.fromhex, texts), repeat=2):
        yield text_order_case(left, right)
        if len(left) == len(right) or b"" in (left, right):
            yield text_equal_case(left, right)
    long = bytes(range(256))
    for other in (long, long[:-1], long[:-1] + b"\xfe", b"\x01" + long[1:], long[:128] + b"\x81" + long[129:]):
        yield from (text_order_case(long, other), text_order_case(other, long), text_equal_case(long, other))


def unreadable_cases():
    one = word(1)
    lines = ["", " ", "int", "int +", f"int + {one}", f"int ^ {one} {one}", f"int add {one} {one}", f"int + {one[1:]} {one}"]
    lines += [f"int + {one} 0{one}", f"int + {one} 000000000000000A", f"int + {one} 000000000000000g", f"uint - {one}"]
    lines += [f"double % {one} {one}", f"double sign {one}", f"real + {one} {one}", f"order int {one} {one}"]
    lines += [f"order int real {one} {one}", f"equal uint int {one}", "text valid c", "text valid C3A9", "text valid 6g"]
    lines += ["text lower 61", "text order 61 --", "text valid " + "61" * 257]
    yield from ((line, "unreadable") for line in lines)


# ---- the files


def all_cases():
    """The cases of each family, each case once."""
    chance = random.Random(1074)
    families = [("int", int_cases(chance)), ("uint", uint_cases(chance)), ("double", double_cases(chance))]
    families += [("order", order_cases()), ("equal", equal_cases()), ("text", text_cases()), ("unreadable", unreadable_cases())]
    return {family: dict(cases) for family, cases in families}


def answers(families):
    cases = [f"{line} = {answer}\n" for cases in families.values() for line, answer in cases.items()]
    return "".join(cases) + f"{len(cases)} cases\n"


def write(families):
    lines = "".join(line + "\n" for cases in families.values() for line in cases)
    if len(lines) > LONGEST_LIST:
        sys.exit(f"The list has {len(lines)} bytes, and the program takes {LONGEST_LIST}.")
    (CRATE / "stdin").write_text(lines)
    (CRATE / "stdout").write_text(answers(families))
    for family, cases in families.items():
        print(f"{family:10} {len(cases):5}")
    print(f"{'all':10} {sum(map(len, families.values())):5} cases, {len(lines)} bytes")


def by_machine(words):
    """The answer that this machine's floats and its decoder give, or None where they say nothing of the case."""

    def read(kind, digits):
        if kind == "double":
            return struct.unpack(">d", bytes.fromhex(digits))[0]
        return int(digits, 16) - (2**64 if kind == "int" and digits[0] in "89abcdef" else 0)

    def bits(x):
        return word(NAN) if math.isnan(x) else struct.pack(">d", x).hex()

    family, name, operands = words[0], words[1], words[2:]
    if family == "double" and len(operands) == 2:
        x, y = (read("double", digits) for digits in operands)
        if name == "/":
            return None if y == 0 else bits(x / y)
        return bits(x + y if name == "+" else x - y if name == "-" else x * y)
    if family == "double" and name == "-":
        return bits(-read("double", operands[0]))
    if family in ("order", "equal"):
        x, y = read(name, operands[1]), read(operands[0], operands[2])
        if family == "equal":
            return truth(x == y)
        return "Less" if x < y else "Equal" if x == y else "Greater" if x > y else "Unordered"
    if family == "text" and name in ("valid", "points"):
        try:
            points = bytes.fromhex(operands[0].strip("-")).decode()
        except UnicodeDecodeError:
            return "false"
        return "true" if name == "valid" else str(len(points))
    return None


def check(families):
    compared = 0
    for family, cases in families.items():
        for line, answer in cases.items() if family != "unreadable" else ():
            other = by_machine(line.split())
            compared += other is not None
            if other not in (None, answer):
                sys.exit(f"{line} = {answer}, and by the machine {other}")
    print(f"{compared} answers are the machine's too")


def against(families, path):
    expected, wrote = answers(families).splitlines(), Path(path).read_text().splitlines()
    differences = [(want, found) for want, found in zip(expected, wrote) if want != found]
    for want, found in differences[:20]:
        print(f"expected {want}\n   found {found}")
    print(f"{len(differences)} lines differ; {len(expected)} lines expected, {len(wrote)} found")
    sys.exit(bool(differences) or len(expected) != len(wrote))


def main():
    families = all_cases()
    if len(sys.argv) == 1:
        write(families)
    elif sys.argv[1:] == ["--check"]:
        check(families)
    elif len(sys.argv) == 3 and sys.argv[1] == "--against":
        against(families, sys.argv[2])
    else:
        sys.exit(__doc__)


if __name__ == "__main__":
    main()
