"""Four-state vectors, and what each operator gives of them (IEEE 1364-2001, clause 4.1).

This is a second account of the operators beside the program's own, bit by bit or by whole numbers, and slow.
"""
from functools import lru_cache
from typing import NamedTuple

ONES, STRANGE = str.maketrans("01xz", "0101"), str.maketrans("01xz", "0011")


class Vector(NamedTuple):
    """Bits as two numbers: a 0 is in neither, a 1 in `ones`, an x in `strange`, a z in both."""
    width: int
    ones: int
    strange: int


def mask(width):
    return (1 << width) - 1


def of_number(width, number):
    return Vector(width, number & mask(width), 0)


def fill(width, digit):
    """All bits are this digit, one of `01xz`."""
    return Vector(width, mask(width) if digit in "1z" else 0, mask(width) if digit in "xz" else 0)


@lru_cache(maxsize=100_000)
def of_digits(digits):
    """The vector of these digits, the highest bit first."""
    return Vector(len(digits), int(digits.translate(ONES), 2), int(digits.translate(STRANGE), 2))


@lru_cache(maxsize=100_000)
def digits_of(vector):
    return "".join("01xz"[(vector.ones >> k & 1) + 2 * (vector.strange >> k & 1)] for k in range(vector.width - 1, -1, -1))


def zeros(vector):
    """The places of the bits that are 0."""
    return mask(vector.width) & ~(vector.ones | vector.strange)


def known_ones(vector):
    """The places of the bits that are 1."""
    return vector.ones & ~vector.strange


def of_masks(width, ones, zero):
    """Bits that are 1, bits that are 0, and the others x."""
    return Vector(width, ones, mask(width) & ~(ones | zero))


def whole(vector, signed):
    """The whole number of known bits, in two's complement where it is signed."""
    top = vector.ones >> (vector.width - 1) & 1
    return vector.ones - (1 << vector.width) if signed and top else vector.ones


def index(vector, signed):
    """The whole number, or None where a bit is x or z."""
    return None if vector.strange else whole(vector, signed)


def truth(vector):
    """True with a 1 bit, False with all bits 0, else None."""
    if known_ones(vector):
        return True
    return None if vector.strange else False


def extend(vector, width, signed):
    """Cut to the width, or filled by the top bit where the vector is signed and else by 0."""
    if width <= vector.width:
        return Vector(width, vector.ones & mask(width), vector.strange & mask(width))
    added = mask(width) & ~mask(vector.width) if signed else 0
    top = vector.width - 1
    return Vector(width, vector.ones | (added if vector.ones >> top & 1 else 0),
                  vector.strange | (added if vector.strange >> top & 1 else 0))


def select(vector, low, width):
    """The bits from an offset up; those outside are x, and all are where there is no offset."""
    if low is None:
        return fill(width, "x")
    outside = sum(1 << k for k in range(width) if not 0 <= low + k < vector.width)
    ones = vector.ones >> low if low >= 0 else vector.ones << -low
    strange = vector.strange >> low if low >= 0 else vector.strange << -low
    return Vector(width, ones & mask(width) & ~outside, strange & mask(width) | outside)


def place(vector, low, part):
    """The vector with a part written from an offset up; what falls outside is dropped."""
    if low is None:
        return vector
    written = written_mask(vector.width, low, part.width)
    ones = part.ones << low if low >= 0 else part.ones >> -low
    strange = part.strange << low if low >= 0 else part.strange >> -low
    return Vector(vector.width, vector.ones & ~written | ones & written, vector.strange & ~written | strange & written)


def written_mask(width, low, part_width):
    """The places of a vector that such a part is written to."""
    if low is None:
        return 0
    part = mask(part_width) << low if low >= 0 else mask(part_width) >> -low
    return part & mask(width)


def joined(parts):
    """The vectors side by side, the first one highest."""
    ones = strange = width = 0
    for part in parts:
        ones, strange, width = ones << part.width | part.ones, strange << part.width | part.strange, width + part.width
    return Vector(width, ones, strange)


def bit(value):
    """One bit: of True, False, or None for x."""
    return fill(1, "x" if value is None else "1" if value else "0")


def inverted(vector):
    return of_masks(vector.width, zeros(vector), known_ones(vector))


def reduced_and(vector):
    return bit(False if zeros(vector) else None if vector.strange else True)


def reduced_or(vector):
    return bit(truth(vector))


def reduced_xor(vector):
    return bit(None if vector.strange else bin(vector.ones).count("1") % 2 == 1)


def arithmetic(width, operands, number):
    """The number cut to the width, all x where an operand has a bit x or z or there is no number."""
    if number is None or any(operand.strange for operand in operands):
        return fill(width, "x")
    return of_number(width, number)


UNARY = {
    "+": lambda a: arithmetic(a.width, [a], a.ones),
    "-": lambda a: arithmetic(a.width, [a], -a.ones),
    "!": lambda a: inverted(bit(truth(a))),
    "~": inverted,
    "&": reduced_and,
    "~&": lambda a: inverted(reduced_and(a)),
    "|": reduced_or,
    "~|": lambda a: inverted(reduced_or(a)),
    "^": reduced_xor,
    "~^": lambda a: inverted(reduced_xor(a)),
    "^~": lambda a: inverted(reduced_xor(a)),
}


def bitwise_and(a, b):
    return of_masks(a.width, known_ones(a) & known_ones(b), zeros(a) | zeros(b))


def bitwise_or(a, b):
    return of_masks(a.width, known_ones(a) | known_ones(b), zeros(a) & zeros(b))


def bitwise_xor(a, b):
    known = mask(a.width) & ~(a.strange | b.strange)
    return of_masks(a.width, (a.ones ^ b.ones) & known, ~(a.ones ^ b.ones) & known)


def quotient(a, b):
    """The whole quotient, cut toward zero; None for a division by zero."""
    if b == 0:
        return None
    return abs(a) // abs(b) * (1 if (a < 0) == (b < 0) else -1)


def remainder(a, b):
    """The remainder, with the sign of the first number; None for a division by zero."""
    return None if b == 0 else a - b * quotient(a, b)


def equal(a, b):
    """One pair of bits 0 and 1 is enough for 0; else an x or z makes x."""
    differ = (a.ones ^ b.ones) & ~(a.strange | b.strange)
    return bit(False if differ else None if a.strange | b.strange else True)


def relation(a, b, holds):
    return bit(None if a.strange | b.strange else holds)


def shifted(a, amount, moved):
    """What a shift by a known amount gives, all x for another amount."""
    return fill(a.width, "x") if amount.strange else moved(amount.ones)


def shifted_left(a, amount):
    """Shifts the bits left; 0 is shifted in."""
    def moved(n):
        n = min(n, a.width)
        return Vector(a.width, a.ones << n & mask(a.width), a.strange << n & mask(a.width))
    return shifted(a, amount, moved)


def shifted_right(a, amount, signed):
    """Shifts the bits right; the top bit is shifted in where it is signed, else 0."""
    def moved(n):
        long = extend(a, 2 * a.width, signed)
        return Vector(a.width, long.ones >> min(n, a.width) & mask(a.width), long.strange >> min(n, a.width) & mask(a.width))
    return shifted(a, amount, moved)


ARITHMETIC = {"*": lambda a, b: a * b, "/": quotient, "%": remainder, "+": lambda a, b: a + b, "-": lambda a, b: a - b}
BITWISE = {"&": bitwise_and, "|": bitwise_or, "^": bitwise_xor,
           "~^": lambda a, b: inverted(bitwise_xor(a, b)), "^~": lambda a, b: inverted(bitwise_xor(a, b))}
RELATIONS = {"<": lambda a, b: a < b, "<=": lambda a, b: a <= b, ">": lambda a, b: a > b, ">=": lambda a, b: a >= b}
SHIFTS = {"<<": lambda a, b, signed: shifted_left(a, b), "<<<": lambda a, b, signed: shifted_left(a, b),
          ">>": lambda a, b, signed: shifted_right(a, b, False), ">>>": shifted_right}
EQUALITIES = {"==": equal, "!=": lambda a, b: inverted(equal(a, b)),
              "===": lambda a, b: bit(a == b), "!==": lambda a, b: bit(a != b)}
LOGIC = {"&&": lambda a, b: bitwise_and(bit(truth(a)), bit(truth(b))), "||": lambda a, b: bitwise_or(bit(truth(a)), bit(truth(b)))}


def binary(operator, signed, a, b):
    """What an operator with two operands gives; the sign is that of both, of a shift that of the left one."""
    if operator in ARITHMETIC:
        if a.strange or b.strange:
            return fill(a.width, "x")
        return arithmetic(a.width, [], ARITHMETIC[operator](whole(a, signed), whole(b, signed)))
    if operator in RELATIONS:
        return relation(a, b, RELATIONS[operator](whole(a, signed), whole(b, signed)))
    if operator in SHIFTS:
        return SHIFTS[operator](a, b, signed)
    return {**BITWISE, **EQUALITIES, **LOGIC}[operator](a, b)


def choose(test, a, b):
    """`test ? a : b`: with an x bits that are equal 0 or equal 1 stay, and the others are x."""
    if test is None:
        return of_masks(a.width, known_ones(a) & known_ones(b), zeros(a) & zeros(b))
    return a if test else b


def matches(kind, a, b):
    """Whether a label matches, by `case`, `casez` or `casex`."""
    ignored = {"case": 0, "casez": a.ones & a.strange | b.ones & b.strange, "casex": a.strange | b.strange}[kind]
    return not ((a.ones ^ b.ones) | (a.strange ^ b.strange)) & ~ignored
