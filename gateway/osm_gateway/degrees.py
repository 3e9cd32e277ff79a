"""Positions: OSM's decimals of degrees, and the server's whole units of 1e-7 degrees. No float stands between them."""

from __future__ import annotations

import re
from decimal import ROUND_HALF_UP, Context, Decimal

LONGEST = 100
"""Characters of a decimal that is read."""
USUAL = re.compile(r"(-?[0-9]{1,3})\.([0-9]{1,7})")
"""A decimal that is a number of whole units."""
DECIMAL = re.compile(r"[+-]?(?:[0-9]+(?:\.[0-9]*)?|\.[0-9]+)(?:[eE][+-]?[0-9]{1,3})?")
EXACT = Context(prec=2 * LONGEST)
TENS = [int(10 ** (7 - places)) for places in range(8)]
"""Units of the last place, by how many there are."""


class NotDecimal(ValueError):
    """A text is no decimal."""


def rounded(value: Decimal) -> int:
    """Units of so many degrees; half a unit goes away from zero, as by OSM's `(lat * 10000000).round`."""
    return int(EXACT.scaleb(value, 7).to_integral_value(rounding=ROUND_HALF_UP))


def units_of(text: str) -> int:
    """The units that a decimal in degrees stands for, with an exponent too: Java's clients write 5.0E-4."""
    usual = USUAL.fullmatch(text)
    if usual:
        return int(usual[1] + usual[2].ljust(7, "0"))
    text = text.strip(" \t\r\n")
    if len(text) > LONGEST or not DECIMAL.fullmatch(text):
        raise NotDecimal(text[:LONGEST])
    return rounded(Decimal(text))


def units_in(number: str) -> int:
    """The same of a number as JSON has it, with a point or an exponent."""
    places = len(number) - number.find(".") - 1
    if places < 8:
        try:
            return int(number.replace(".", "", 1)) * TENS[places]
        except ValueError:  # it has an exponent
            pass
    return units_of(number)


def degrees_of(units: int) -> str:
    """The decimal with seven places."""
    text = f"{units:08}" if units >= 0 else f"{units:09}"
    return f"{text[:-7]}.{text[-7:]}"


def degrees_in(units: str) -> str:
    """The same of units as JSON has them."""
    if len(units) > 8 or len(units) == 8 and units[0] != "-":
        return f"{units[:-7]}.{units[-7:]}"
    return degrees_of(int(units))
