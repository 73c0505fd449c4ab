"""Decimal numbers of files as whole numbers and binary32 values, and back, so that no digit is lost on the way."""
import math
import re
import struct
from decimal import ROUND_HALF_EVEN, Decimal

NUMBER = re.compile(r"[+-]?(?:[0-9]+\.?[0-9]*|\.[0-9]+)(?:[eE][+-]?[0-9]+)?|nan", re.IGNORECASE)
# a number with more digits in front of its point has no place in any field
MOST_DIGITS = 60


def number_of(text):
    """The number that a text writes, or ValueError. A text `nan` is a number that isn't given."""
    if not NUMBER.fullmatch(text):
        raise ValueError(f"{text} is no number")
    return Decimal(text)


def nearest_whole(number, digits=0):
    """The whole number nearest to `number * 10 ** digits`; of two, the even one."""
    if not number.is_finite() or number.adjusted() > MOST_DIGITS:
        raise ValueError(f"{number} is out of range")
    sign, figures, exponent = number.as_tuple()
    return int(Decimal((sign, figures, exponent + digits)).to_integral_value(ROUND_HALF_EVEN))


def as_float(value):
    """The binary32 value nearest to this one, as MAVLink carries it; an infinity where it is too large."""
    try:
        return struct.unpack("<f", struct.pack("<f", value))[0]
    except OverflowError:
        return math.copysign(math.inf, value)


def shortest(value):
    """A binary32 value as text: a whole number without a point, or the fewest digits that give the same value."""
    if not math.isfinite(value):
        return str(value)
    if value == 0:
        return "-0" if math.copysign(1, value) < 0 else "0"
    if value == int(value) and abs(value) < 1e16:
        return str(int(value))
    shorter = (float(f"{value:.{digits}g}") for digits in range(1, 18))
    return next(repr(short) for short in shorter if as_float(short) == value)
