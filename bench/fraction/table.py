#!/usr/bin/env python3
"""Writes `stdin` and `stdout` of the crate fraction_bench: operations, and their values by Python's `fractions`.

Run it in crates/fraction_bench. A line of stdin has the parts of two numbers, x and y; the line of stdout has x + y, x - y, x * y and
x / y, `-` for one that isn't there (a number on the way is above 2^127 - 1, or y is 0), and how x compares with y.
"""
import random
from fractions import Fraction
from math import gcd

TOP = 2**127 - 1


def added(x, y):
    a, b, c, d = x.numerator, x.denominator, y.numerator, y.denominator
    g = gcd(b, d)
    steps = (a * (d // g), c * (b // g), a * (d // g) + c * (b // g), b * (d // g))
    return None if any(abs(n) > TOP for n in steps) else x + y


def multiplied(a, b, c, d):
    g, h = gcd(a, d), gcd(c, b)
    steps = ((a // g) * (c // h), (b // h) * (d // g))
    return None if any(abs(n) > TOP for n in steps) else Fraction(a * c, b * d)


def number(choose):
    bits = choose.choice([1, 2, 5, 10, 20, 31, 32, 62, 63, 64, 65, 90, 126, 127])
    size = choose.getrandbits(bits)
    edge = choose.choice([0, 0, 0, 1, 2])
    if edge:
        size = min(TOP, 2**bits - edge)
    return size


def fraction(choose):
    num = number(choose) * choose.choice([1, -1])
    den = 1 if choose.random() < 0.3 else max(1, number(choose))
    return Fraction(num, den)


def text(x):
    return "-" if x is None else str(x)


def main():
    choose = random.Random(127)
    pairs = [(Fraction(1, 2), Fraction(1, 3)), (Fraction(2**126), Fraction(2**126)), (Fraction(1, 2**126), Fraction(1, 2)),
             (Fraction(2, 3), Fraction(3, 2)), (Fraction(1, 2**126), Fraction(1, 2**126 + 1)), (Fraction(0), Fraction(-3)),
             (Fraction(-1, 2), Fraction(1)), (Fraction(TOP), Fraction(1)), (Fraction(TOP - 1), Fraction(1)), (Fraction(-TOP), Fraction(1))]
    while len(pairs) < 400:
        x = fraction(choose)
        y = choose.choice([fraction(choose), fraction(choose), Fraction(fraction(choose).numerator, x.denominator), x])
        pairs.append((x, y))
    with open("stdin", "w") as asked, open("stdout", "w") as answers:
        for x, y in pairs:
            a, b, c, d = x.numerator, x.denominator, y.numerator, y.denominator
            quotient = None if c == 0 else multiplied(a, b, d if c > 0 else -d, abs(c))
            order = "<" if x < y else ">" if x > y else "="
            k = choose.choice([1, 1, 2, 3, 6, 35])
            k = k if max(abs(a), b) * k <= TOP else 1
            print(a * k, b * k, c, d, file=asked)
            print(text(added(x, y)), text(added(x, -y)), text(multiplied(a, b, c, d)), text(quotient), order, file=answers)


main()
