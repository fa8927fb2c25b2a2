"""Exact numbers. One is an `int` where it is whole, else a `Fraction`: both have `numerator` and `denominator`."""
import re
import sys
from fractions import Fraction
from typing import Union

Number = Union[int, Fraction]

LONGEST = 20_000  # digits of one number; more than this is refused, since reading them takes time that grows with their square
WHOLE = re.compile(rb"-?[0-9]+")
QUOTIENT = re.compile(rb"(-?[0-9]+)/([0-9]+)")


def lowest(value: Number) -> Number:
    """The same number as an `int` where it is whole."""
    return value.numerator if value.denominator == 1 else value


if hasattr(sys, "set_int_max_str_digits"):
    sys.set_int_max_str_digits(0)  # the limit is LONGEST


def digits(word: bytes) -> int:
    """The whole number of decimal digits, with a minus sign or without. `ValueError`: too long."""
    if len(word) > LONGEST:
        raise ValueError(f"a number of more than {LONGEST} digits")
    return int(word)


def exact(word: bytes) -> Number:
    """The number that a word of a certificate spells: `p`, or `p/q` with q above 0. `ValueError`: none."""
    if WHOLE.fullmatch(word):
        return digits(word)
    found = QUOTIENT.fullmatch(word)
    if not found:
        raise ValueError("no number")
    below = digits(found[2])
    if below == 0:
        raise ValueError("a denominator of 0")
    return lowest(Fraction(digits(found[1]), below))


def spelt(value: Number) -> str:
    """The number as a certificate spells it: `p`, or `p/q` in lowest terms."""
    return str(value.numerator) if value.denominator == 1 else f"{value.numerator}/{value.denominator}"


def brief(value: Number) -> str:
    """The number as a message shows it: spelt, and in the middle of many digits left out."""
    text = spelt(value)
    return text if len(text) <= 60 else f"{text[:20]}..{text[-10:]} ({len(text)} digits)"


def decimal(value: Number, places: int = 15) -> str:
    """The number in decimals: exact where it has at most so many places, else `about` and six of them."""
    for count in range(places + 1):
        shifted = value * 10 ** count
        if shifted.denominator == 1:
            return pointed(shifted.numerator, count)
    return "about " + pointed(round(value * 10 ** 6), 6)


def pointed(scaled: int, places: int) -> str:
    """`scaled` divided by ten to the power of `places`, with a point."""
    if places == 0:
        return str(scaled)
    text = str(abs(scaled)).rjust(places + 1, "0")
    return ("-" if scaled < 0 else "") + text[:-places] + "." + text[-places:]


def told(value: Number) -> str:
    """The number as a reader wants it: spelt, and a fraction in decimals too."""
    return spelt(value) if value.denominator == 1 else f"{spelt(value)} ({decimal(value)})"
