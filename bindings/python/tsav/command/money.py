"""Amounts as people read them: dollars with two decimals, of whole cents."""

from tsav.command.messages import _, language

# Between thousands in French, and before the sign of the dollar: it doesn't break a line.
NO_BREAK = "\u00a0"
LARGEST_AMOUNT = 99_999_999_999_999


def number(whole: int) -> str:
    """A whole number, its thousands set apart."""
    return f"{whole:,}" if language() == "en" else f"{whole:,}".replace(",", NO_BREAK)


def dollars(units: int, places: int = 2) -> str:
    """$1,234.50, or 1 234,50 $, of cents; of smaller units with as many places more."""
    sign = "-" if units < 0 else ""
    whole, rest = divmod(abs(units), 10**places)
    if language() == "en":
        return f"{sign}${number(whole)}.{rest:0{places}}"
    return f"{sign}{number(whole)},{rest:0{places}}{NO_BREAK}$"


def scalar(ten_thousandths: int) -> str:
    """The scalar as people write it: 1, 1.05 or 1,05."""
    whole, rest = divmod(ten_thousandths, 10_000)
    decimals = f"{rest:04}".rstrip("0")
    return str(whole) + (("." if language() == "en" else ",") + decimals if decimals else "")


def above_the_limit() -> str:
    """For an amount that no call gives, as it has more than 14 digits in cents."""
    return _("above {limit}").format(limit=dollars(LARGEST_AMOUNT))
