"""Numbers in 16.16 (01, "Numbers in 16.16"). A number is its bits, a whole number of Python's.

By 01's rules, in exact fractions.
"""

from fractions import Fraction

LOW, HIGH = -(2**31), 2**31 - 1
FRACTION_BITS, OUTPUT_BITS = 16, 10
ONE = 1 << FRACTION_BITS
HALF = ONE // 2


def wrapped(whole):
    """The low 32 bits as a signed number."""
    return (whole - LOW) % 2**32 + LOW


def nearest(value):
    """The nearest whole number, halves away from zero."""
    size = int(abs(value) + Fraction(1, 2))
    return size if value >= 0 else -size


def product(a, b):
    return wrapped(nearest(Fraction(a * b, ONE)))


def quotient(a, b):
    if b == 0:
        return -HIGH if a < 0 else HIGH
    return wrapped(nearest(Fraction(a * ONE, b)))


def product_quotient(a, b, c):
    return wrapped(nearest(Fraction(a * b, c)))


def cleared(a, bits):
    """A number whose so many low bits are 0."""
    return a >> bits << bits


def rounded(a):
    return cleared(wrapped(a + HALF), FRACTION_BITS)


def fraction(a):
    return a % ONE


def half(a):
    """`int` cuts a fraction off toward zero."""
    return int(Fraction(a, 2))


def midpoint(a, b):
    return wrapped(a + half(wrapped(b - a)))


def output(a):
    return cleared(a, OUTPUT_BITS)


def bits(*numbers):
    """Whole units, or parts that have such bits, as numbers in 16.16."""
    return tuple(int(number * ONE) for number in numbers)
