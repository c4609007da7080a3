#!/usr/bin/env python3
"""Number words with their grid values, worked out by exact arithmetic that shares no code with the crate.

    words.py table         the rows of crates/decimals/src/tests/table.rt
    words.py words N       N words of the kinds that exporters write, one a line, for the benchmark
"""
import random
import re
import sys
from fractions import Fraction
from math import floor

GREATEST = 2**40
DECIMAL = re.compile(rb"([+-]?)([0-9]*)(?:\.([0-9]*))?(?:[eE]([+-]?)([0-9]+))?\Z")


def grid(word, unit):
    """floor(x * unit + 1/2) for the exact fraction x that the word writes, brought in; or the name of its fault."""
    match = DECIMAL.match(word)
    if match is None:
        return "NotANumber"
    sign, whole, behind, exponent_sign, exponent = match.groups()
    behind = behind or b""
    if not whole + behind:
        return "NotANumber"
    if len((whole + behind).lstrip(b"0")) > 24:
        return "TooLong"
    mantissa = int(whole + behind)
    tens = int(exponent or 0) * (-1 if exponent_sign == b"-" else 1) - len(behind)
    if mantissa == 0 or tens < -1000:
        return 0  # a fraction of less than 10^-900 is no step
    minus = -1 if sign == b"-" else 1
    if tens > 1000:
        return minus * GREATEST
    value = floor(minus * mantissa * Fraction(10) ** tens * unit + Fraction(1, 2))
    return max(-GREATEST, min(GREATEST, value))


def ties(units):
    """Words that lie half a step from two values, and their neighbours."""
    for unit in units:
        for steps in (0, 2, 131071):
            half = Fraction(2 * steps + 1, 2 * unit)
            digits = str(half.numerator * 10**17 // half.denominator).rjust(18, "0")
            word = (digits[:-17] + "." + digits[-17:]).rstrip("0")
            for sign in ("", "-"):
                yield (sign + word).encode(), unit
                yield (sign + word + "0000001").encode(), unit
                yield (sign + word[:-1] + "49999999").encode(), unit


def long_words():
    """24 and 25 significant digits, with zeros before, inside and behind."""
    for digits in ("123456789012345678901234", "900000000000000000000000"):
        for word in (digits, "0" + digits, "000000000000000000000000000000" + digits, digits + "0", digits + "5"):
            for at, ending in ((0, ""), (12, "e-9"), (len(word), "e-20")):
                yield ("-" + word[:at] + "." + word[at:] + ending).encode(), 64
    yield b"0.00000000000000000000000000000000000000000000000000", 64
    yield b"0.0000000000000000000000000000000000000000000000000e9", 64


def edges():
    """The greatest value, and exponents of any length."""
    for word in ("1099511627775", "1099511627776", "1099511627777", "1099511627775.5", "1099511627775.49", "1099511627776.5"):
        yield word.encode(), 1
        yield ("-" + word).encode(), 1
    for word in ("17179869183.9921875", "17179869183.98", "-17179869183.9921875", "-17179869183.9921876"):
        yield word.encode(), 64
    for exponent in ("12", "18", "19", "35", "36", "99999999999999999999", "9" * 40):
        for sign in ("+", "-"):
            for front in ("-1", "0", "7.5", "0.00000000000000000000001"):
                yield f"{front}e{sign}{exponent}".encode(), 64


def plain(chance):
    """Words as exporters write them, and others of the same parts."""
    unit = chance.choice((1, 2, 3, 64, 1000, 65536))
    digits = lambda most: "".join(chance.choice("0123456789") for _ in range(chance.randint(0, most)))
    word = chance.choice(("", "", "-", "+")) + digits(6)
    if chance.random() < 0.8:
        word += "." + digits(chance.choice((2, 6, 6, 9, 16)))
    if chance.random() < 0.3:
        word += chance.choice("eE") + chance.choice(("", "+", "-")) + digits(2)
    return word.encode(), unit


NOT_NUMBERS = [
    b"", b".", b"-", b"+", b"-.", b"e1", b".e1", b"-e1", b"1e", b"1e+", b"1e-", b"1ee1", b"1e1.", b"1e1e1", b"1.2.3",
    b"--1", b"+-1", b"1-", b"1+1", b"0x1", b"inf", b"-inf", b"nan", b"NaN", b"1_000", b"1,5", b"1e 1", b" 1", b"1 ", b"1f",
    b"e", b"E5", b"..", b"1/2", b"1:", b"/1", b"1e:", b"1.0d2", b"\\xa01", b"\\x001",
]


def table():
    chance = random.Random(1)
    cases = [(word, 1) for word in (b"0.5", b"-0.5", b"1e-300", b"2.50e1", b".5", b"5.", b"1e40", b"1234567890123456789012345")]
    cases.append((b"6.500000", 64))
    cases += list(ties((1, 2, 64, 65536))) + list(long_words()) + list(edges())
    cases += [plain(chance) for _ in range(150)]
    good, bad = [], []
    for word, unit in cases:
        value = grid(word, unit)
        (good if isinstance(value, int) else bad).append((word.decode(), unit, value))
    return good, bad


def rows(name, cases, kind):
    print(f"pub const {name}: [(&[u8], u32, {kind}); {len(cases)}] = [")
    for word, unit, value in cases:
        print(f'    (b"{word}", {unit}, {value}),')
    print("];")


def write_table():
    good, bad = table()
    bad += [(word.decode(), 1, "NotANumber") for word in NOT_NUMBERS]
    size = 110
    print("//! Words with their grid values. Written by bench/decimals/words.py.")
    print()
    print("use crate::fault::NumberFault;")
    print("use crate::fault::NumberFault::{NotANumber, TooLong};")
    print()
    for k in range(0, len(good), size):
        rows(f"VALUES_{k // size + 1}", good[k : k + size], "i64")
        print()
    rows("FAULTS", bad, "NumberFault")


def write_words(count):
    chance = random.Random(2)
    for _ in range(count):
        kind = chance.random()
        if kind < 0.8:
            print(f"{chance.uniform(-200, 200):.6f}")
        elif kind < 0.9:
            print(chance.randint(-2000, 2000))
        else:
            print(f"{chance.uniform(-1, 1):.9g}")


if __name__ == "__main__":
    if sys.argv[1:] == ["table"]:
        write_table()
    elif len(sys.argv) == 3 and sys.argv[1] == "words":
        write_words(int(sys.argv[2]))
    else:
        sys.exit(__doc__)
