"""Makes the pairs of number texts in the table crates/case_tables/data/numbers.cases.

The order of a pair comes from Python's exact fractions, so every exponent here is small enough to
be written out. Pairs with exponents near the limit stand in the table by hand.

    python3 crates/case_tables/data/number_pairs.py
"""
import random
from fractions import Fraction

SMALL = [
    "0", "-0", "0.0", "-0.000", "0e5", "-0E-7", "0.00e+99", "1", "-1", "1.0", "1.000", "10e-1", "0.1e1",
    "1E0", "1e+0", "1e-0", "0.01e002", "-1.00", "-10e-1", "2", "-2", "9", "10", "1e1", "100e-1", "0.1",
    "-0.1", "1e-1", "0.10", "0.09", "0.11", "0.099999999999999999999", "1.01", "1.1", "1.10", "1.09", "11",
    "110e-2", "12.5", "-12.5", "125e-1", "1.25E+1", "0.125e2", "12.50", "12.49", "99", "100", "1e2", "101",
    "999", "1000", "1e3", "255", "256", "4294967295", "4294967296", "9007199254740991", "9007199254740992",
    "9007199254740993", "9.007199254740993e15", "900719925474099.3E+1", "9223372036854775807",
    "9223372036854775808", "-9223372036854775808", "-9223372036854775809", "18446744073709551615",
    "18446744073709551616", "18446744073709551617", "1e19", "1e20", "100000000000000000000",
    "340282366920938463463374607431768211456", "0.1e21", "1e308", "1.7976931348623157e308",
    "1.7976931348623158e308", "1e309", "-1e309", "5e-324", "4e-324", "1e-325", "-1e-400", "1e400", "1e-400",
    "12345678", "12345679", "1234567812345678", "1234567812345679", "123456781234567812", "0.30000000000000004",
    "0.3", "3e-1",
]


def value(text):
    mantissa, _, exponent = text.replace("E", "e").partition("e")
    whole, _, fraction = mantissa.partition(".")
    return Fraction(int(whole + fraction)) * Fraction(10) ** (int(exponent or "0") - len(fraction))


def spelling(rng, sign, digits, power):
    """One of the many texts of sign * digits * 10 ** power, where digits begin with no zero."""
    zeros = rng.randrange(4)
    digits, power = digits + "0" * zeros, power - zeros
    point = rng.randrange(0, len(digits) + 1)
    whole, fraction = digits[:point], digits[point:]
    if not whole:
        whole, fraction = "0", "0" * rng.randrange(3) + fraction
    power += len(fraction)
    text = ("-" if sign < 0 else "") + whole + ("." + fraction if fraction else "")
    if power or rng.random() < 0.3:
        text += rng.choice("eE") + ("-" if power < 0 else rng.choice(["", "+"]))
        text += "0" * rng.randrange(3) + str(abs(power))
    return text


def pairs():
    rng = random.Random(8259)
    found = set()
    while len(found) < 140:
        a, b = rng.sample(SMALL, 2)
        near = abs(SMALL.index(a) - SMALL.index(b)) < 12
        if near or rng.random() < 0.1:
            found.add((a, b))
    while len(found) < 240:
        sign = rng.choice([1, 1, -1])
        digits = str(rng.randrange(1, 10 ** rng.randrange(1, 21)))
        power = rng.randrange(-40, 41)
        a = spelling(rng, sign, digits, power)
        other = digits if rng.random() < 0.5 else str(int(digits) + rng.choice([-1, 1]))
        b = spelling(rng, sign, other, power)
        if a != b and len(a) < 40 and len(b) < 40:
            found.add((a, b))
    return sorted(found)


def main():
    lines = set()
    for a, b in pairs():
        if value(a) == value(b):
            lines.add((a, "equal", b))
        elif value(a) < value(b):
            lines.add((a, "less", b))
        else:
            lines.add((b, "less", a))
    for left, order, right in sorted(lines):
        print("numbers", order, left, right, sep="\t")


main()
