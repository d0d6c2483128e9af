"""How exact numbers are printed: here they are rounded, and nowhere else."""
from __future__ import annotations

from fractions import Fraction
from typing import Union

Number = Union[int, Fraction]


def nearest(number: Number) -> int:
    """Returns the nearest integer, a half upwards."""
    return (2 * number.numerator + number.denominator) // (2 * number.denominator)


def decimal(number: Number, digits: int) -> str:
    """Returns the nearest decimal with so many `digits` after the point, a half away from zero."""
    text = str(nearest(abs(Fraction(number)) * 10**digits)).rjust(digits + 1, "0")
    sign = "-" if number < 0 and text.strip("0") else ""
    return sign + (f"{text[:-digits]}.{text[-digits:]}" if digits else text)


def exact(number: Number, digits: int = 3) -> str:
    """Returns the number as a decimal with at least so many `digits`, followed by .. if the decimal does not end."""
    for more in range(digits, digits + 7):
        if Fraction(number) * 10**more % 1 == 0:
            return decimal(number, more)
    return decimal(number, digits + 3) + ".."


def metres(units: Number) -> str:
    return exact(Fraction(units) / 1000)


def length(units: int, version: int) -> str:
    """Returns a length or a height: the number of units in a script of version 1, and metres in one of version 2."""
    return str(units) if version == 1 else f"{decimal(Fraction(units, 1000), 3)} m"


def square_metres(units: Number) -> str:
    return decimal(Fraction(units) / 10**6, 3)


def cubic_metres(units: Number) -> str:
    return decimal(Fraction(units) / 10**9, 3)


def few(names: list[str], most: int = 9) -> str:
    """Returns the first of some names, at `most` so many, and how many more there are."""
    return ", ".join(names[:most]) + (f" and {len(names) - most:,} more" if names[most:] else "")
