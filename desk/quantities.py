"""Decimal numbers and units, exactly as the program reads them.

A number or a unit is two integers: its digits, without a zero at their end, and the power of ten behind them.
"""
import re
from fractions import Fraction
from typing import NamedTuple

# What the program reads: so many significant digits, and an exponent of at most so much in size.
MOST_DIGITS = 30
MOST_EXPONENT = 99
MOST_MANTISSA = 9_999_999

LITERAL = re.compile(rb"([+-]?)([0-9]*)(?:\.([0-9]*))?(?:[eE]([+-]?[0-9]+))?")
NUMBER = re.compile(rb'[^\t-\r ,"\\]+')
# A number without an exponent, a list of such, and the end of each.
PLAIN = rb"[+-]?(?:[0-9]+(?:\.[0-9]*)?|\.[0-9]+)"
ONE_PLAIN = re.compile(PLAIN)
ALL_PLAIN = re.compile(rb"[\t-\r ,]*(?:%s(?:[\t-\r ,]+|\Z))*" % PLAIN)
ENDS = re.compile(rb"(?<=[0-9.])(?=[\t-\r ,]|\Z)")
# Numbers of so few digits that a float tells whether they are within the bounds.
is_short = re.compile(rb"(?:[0-9]{1,15}(?:\.[0-9]{0,14})?|\.[0-9]{1,15})(?:[eE][+-]?[0-9]{1,2})?").fullmatch

# The powers of ten of units in grains, in which the program counts: attoseconds, 10^-21 F and 10^-6 ohm.
TIMES = {b"1ps": 6, b"10ps": 7, b"100ps": 8, b"1ns": 9}
FARADS = {b"ff": 6, b"pf": 9}
OHMS = {b"ohm": 6, b"kohm": 9}
# The largest values, in grains: 10^6 ps, 1 nF, 10^8 ohm.
MOST_TIME = MOST_FARADS = 10**12
MOST_OHMS = 10**14


class Number(NamedTuple):
    digits: int
    exponent: int

    def fraction(self):
        return Fraction(self.digits) * Fraction(10) ** self.exponent


class TooLong(Exception):
    """A number has too many digits for the program once it is written in another unit."""


def number_of(digits, exponent):
    if digits == 0:
        return Number(0, 0)
    while digits % 10 == 0:
        digits, exponent = digits // 10, exponent + 1
    return Number(digits, exponent)


# One femtofarad, picosecond or ohm in grains.
ONE = number_of(1, 6)
# One unit is one of the other.
SAME = Number(1, 0)


def read_number(text):
    """The number that a text is, or None where the program would not read it."""
    found = LITERAL.fullmatch(text)
    if found is None or not (found[2] or found[3]):
        return None
    sign, fraction, power = found[1], found[3] or b"", found[4] or b"0"
    digits, size = found[2] + fraction, power.lstrip(b"+-").lstrip(b"0")
    if len(digits.strip(b"0")) > MOST_DIGITS or len(size) > 2:
        return None
    # Zeros go before the digits are read: there may be as many as a file holds.
    kept = digits.rstrip(b"0")
    value, exponent = int(kept.lstrip(b"0") or b"0"), int(size or b"0")
    exponent = (-exponent if power[:1] == b"-" else exponent) - len(fraction) + len(digits) - len(kept)
    return number_of(-value if sign == b"-" else value, exponent)


def time_unit(text):
    """The unit of times that a text names, or None."""
    power = TIMES.get(text)
    return None if power is None else Number(1, power)


def unit_of(values, powers):
    """The unit that a number and a word name, or None."""
    if values is None or len(values) != 2:
        return None
    number, power = read_number(values[0]), powers.get(values[1].lower())
    if number is None or power is None or not 0 < number.digits <= MOST_MANTISSA:
        return None
    unit = Number(number.digits, number.exponent + power)
    return unit if abs(unit.exponent) <= MOST_EXPONENT else None


def times(number, unit):
    """The exact value of a number in a unit, apart from any."""
    return number_of(number.digits * unit.digits, number.exponent + unit.exponent)


def ratio(theirs, ours):
    """The number that one of their units is of ours, or None where no decimal says it, as of a third."""
    part = Fraction(theirs.digits, ours.digits)
    for places in range(25):
        whole = part * 10**places
        if whole.denominator == 1:
            return number_of(whole.numerator, theirs.exponent - ours.exponent - places)
    return None


def grains(number, unit):
    """The whole grains of a number in a unit, half up."""
    digits, exponent = times(number, unit)
    return digits * 10**exponent if exponent >= 0 else (2 * digits + 10**-exponent) // (2 * 10**-exponent)


def exact_fault(text, unit, most):
    """Why a text is no value from 0 to so many grains in a unit, or None where it is one.

    Where the unit is not known nothing is too large, and what is negative is so in units of one.
    """
    number = read_number(text)
    whole = None if number is None else grains(number, unit or ONE)
    if whole is None or whole < 0:
        return "bad number"
    return "value too large" if unit and whole > most else None


def read_value(text, unit, most):
    """The typical member of a value of SPEF in the unit, as a float, and its fault or None. Where the unit is not known it is None.

    A file has millions of values, so those that are within the bounds by far are not read exactly.
    """
    members = text.split(b":") if b":" in text else (text,)
    scale = float(unit.fraction()) if unit else 0.0
    faults = []
    for member in members:
        if not is_short(member) or float(member) * scale > most * 0.999:
            faults.append(exact_fault(member, unit, most))
    fault = "bad number" if "bad number" in faults else next(filter(None, faults), None)
    return (0.0 if fault else float(members[len(members) // 2])), fault


def written(number):
    """A number as the program reads it: zeros stand for what an exponent cannot say."""
    digits, exponent = abs(number.digits), number.exponent
    if digits >= 10**MOST_DIGITS:
        raise TooLong
    sign, over = b"-" if number.digits < 0 else b"", abs(exponent) - MOST_EXPONENT
    if over <= 0:
        return b"%b%de%d" % (sign, digits, exponent)
    if exponent > 0:
        return b"%b%de%d" % (sign, digits * 10**over, MOST_EXPONENT)
    return b"%b%d.%0*de-%d" % (sign, digits // 10**over, over, digits % 10**over, MOST_EXPONENT)


def is_shift(factor):
    """An exponent behind a number without one says the factor."""
    return factor.digits == 1 and abs(factor.exponent) <= MOST_EXPONENT


def scaled(text, factor):
    """A number as text, in the unit of which a former one is so many. What is no number stays."""
    if factor == SAME:
        return text
    if is_shift(factor) and ONE_PLAIN.fullmatch(text):
        return b"%be%d" % (text, factor.exponent)
    number = read_number(text)
    return text if number is None else written(times(number, factor))


def scaled_list(text, factor):
    """The same of all numbers of a list, which commas and blanks part."""
    if factor == SAME:
        return text
    if is_shift(factor) and ALL_PLAIN.fullmatch(text):
        return ENDS.sub(b"e%d" % factor.exponent, text)
    return NUMBER.sub(lambda found: scaled(found[0], factor), text)
