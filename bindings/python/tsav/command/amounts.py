"""Amounts as people write them, in dollars, and as a sheet has them, in whole cents; the scalar, in ten-thousandths; the whole numbers of
block and class.

Text is read as Canada's two languages write it: thousands apart by spaces, no-break spaces, apostrophes, commas or points, the decimals
behind a comma or a point. What can be read in two ways is not read, and nothing is rounded. A workbook's number is a float, and the shortest
decimal that is that float is what was typed into the cell, since amounts of up to 15 digits and floats go over into each other and back.
"""

import re
from decimal import Decimal

from tsav.command.messages import _, language
from tsav.command.money import LARGEST_AMOUNT, above_the_limit

# What is taken for a space between thousands: the plain one, the no-break one, the narrow no-break one of French, the thin and the figure's.
_SPACES = re.compile("[ \u00a0\u202f\u2009\u2007]")
_APOSTROPHES = re.compile("['\u2019]")
_MINUSES = "-\u2212\u2013("

_PLAIN = re.compile(r"([0-9]+)(?:[.,]([0-9]+))?")
# Thousands apart by one sign, the same throughout, and another one before the decimals.
_GROUPED = re.compile(r"([0-9]{1,3}(?:([ '.,])[0-9]{3})(?:\2[0-9]{3})*)(?:(?!\2)[.,]([0-9]+))?")
_EITHER = re.compile(r"([1-9][0-9]{0,2})[.,]([0-9]{3})")

# An amount within the limit has at most 12 digits before its decimals; a text much longer than one isn't looked at.
_WHOLE_DIGITS = 12
_SCALAR_DIGITS = 9
_LONGEST_TEXT = 60


class Unreadable(ValueError):
    """What stands in a cell can't be read; why, in the user's language."""


def cents(value) -> int:
    """An amount in dollars, a text or a Decimal, as whole cents."""
    if isinstance(value, Decimal):
        return _exact(value, 2, _("it is finer than a cent: round it to the cent, up or down as it must be"), above_the_limit())
    text = _bare(value, "$")
    either = _EITHER.fullmatch(text)
    if either:
        raise Unreadable(
            _("it may be {whole} or {decimal}: type it without a sign between thousands, or with two decimals").format(
                whole="".join(either.groups()), decimal=decimal_sign().join(either.groups())
            )
        )
    whole, decimals = _parts(text)
    if len(decimals) > 2:
        raise Unreadable(_("it has more than two decimals, and an amount is in whole cents: round it, up or down as it must be"))
    if len(whole) > _WHOLE_DIGITS:
        raise Unreadable(above_the_limit())
    return int(whole) * 100 + int(decimals.ljust(2, "0"))


def ten_thousandths(value) -> int:
    """The scalar, a text or a Decimal, in ten-thousandths. It is at most 2, so that a sign in it is never one between thousands."""
    finer, other = _("it is finer than 0.0001"), _("the scalar is a number like 1, 1.05 or 1,05")
    if isinstance(value, Decimal):
        return _exact(value, 4, finer, other)
    plain = _PLAIN.fullmatch(_bare(value, ""))
    if not plain or len(plain[1]) > _SCALAR_DIGITS:
        raise Unreadable(other)
    whole, decimals = _no_leading_zero(plain[1]), plain[2] or ""
    if decimals[4:].strip("0"):
        raise Unreadable(finer)
    return int(whole) * 10_000 + int(decimals[:4].ljust(4, "0"))


def decimal_sign() -> str:
    """The language's."""
    return "." if language() == "en" else ","


def whole(value) -> int:
    """A block or a class, a text or a Decimal: a whole number of at most two digits."""
    if isinstance(value, Decimal):
        if value in range(100):
            return int(value)
    elif re.fullmatch("[0-9]{1,2}", value.strip()):
        return int(value)
    raise Unreadable(_("a whole number of at most two digits belongs here"))


def number(value) -> Decimal:
    """A workbook's number, int or float, as the decimal that was typed."""
    return Decimal(repr(value))


def written(units: int, sign: str, places: int = 2) -> str:
    """An amount of cents with its two decimals behind this sign, and nothing between thousands; of smaller units with more."""
    minus = "-" if units < 0 else ""
    whole_, rest = divmod(abs(units), 10**places)
    return f"{minus}{whole_}{sign}{rest:0{places}}"


def scalar_written(ten_thousandths_: int, sign: str) -> str:
    return written(ten_thousandths_, sign, 4)


def _exact(value: Decimal, places: int, finer: str, above: str) -> int:
    """A workbook's number in hundredths or ten-thousandths, of which a sheet's columns hold as many as cents."""
    if value < 0:
        raise Unreadable(_("it is below zero, or has a sign"))
    units = value.scaleb(places)
    # Infinite ones too. What isn't has few digits, and was scaled exactly.
    if units > LARGEST_AMOUNT:
        raise Unreadable(above)
    if units != units.to_integral_value():
        raise Unreadable(finer)
    return int(units)


def _bare(text: str, currency: str) -> str:
    """The text with plain spaces and apostrophes, and without one currency sign before or behind it; refused where it has what no amount has."""
    bare = text.strip()
    if currency and bare.startswith(currency):
        bare = bare[1:].lstrip()
    elif currency and bare.endswith(currency):
        bare = bare[:-1].rstrip()
    if bare[:1] and bare[0] in _MINUSES:
        raise Unreadable(_("it is below zero, or has a sign"))
    if len(bare) > _LONGEST_TEXT:
        raise Unreadable(_("it is no amount"))
    return _APOSTROPHES.sub("'", _SPACES.sub(" ", bare))


def _parts(text: str):
    """The digits before the decimals, and the decimals."""
    match = _PLAIN.fullmatch(text)
    if match:
        return _no_leading_zero(match[1]), match[2] or ""
    match = _GROUPED.fullmatch(text)
    if match:
        return _no_leading_zero(re.sub("[^0-9]", "", match[1])), match[3] or ""
    if re.fullmatch(r"[0-9][0-9 '.,]*", text):
        raise Unreadable(_("its digits aren't grouped by three, or it has signs of more than two kinds"))
    raise Unreadable(_("it is no amount"))


def _no_leading_zero(digits: str) -> str:
    if len(digits) > 1 and digits[0] == "0":
        raise Unreadable(_("it begins with a zero: was it cut off from the digits before it?"))
    return digits
