"""Amounts that are finer than a cent, as exact decimals: half cents, charges, the allowance. Nothing is rounded here."""

from fractions import Fraction

from tsav.command.messages import language
from tsav.command.money import NO_BREAK, number


# As people read it; what programs read has a hyphen.
MINUS = "\u2212"


def decimal(amount, point: str = ".", least: int = 0) -> str:
    """For CSV and JSON: 562.5, -3, 0.00002; with at least so many decimals."""
    sign, whole, digits = _digits(Fraction(amount), least)
    return sign + str(whole) + (point + digits if digits else "")


def shown(amount, least: int = 0) -> str:
    """As people read it, with at least so many decimals."""
    sign, whole, digits = _digits(Fraction(amount), least)
    return sign.replace("-", MINUS) + number(whole) + (("." if language() == "en" else ",") + digits if digits else "")


def dollars(cents, least: int = 2) -> str:
    """$5.625, or 5,625 $; as many decimals as it has, at least two."""
    text = shown(Fraction(cents) / 100, least)
    if language() != "en":
        return f"{text}{NO_BREAK}$"
    return f"{MINUS}${text[1:]}" if text.startswith(MINUS) else f"${text}"


def _digits(amount: Fraction, least: int) -> tuple:
    """The sign, the whole part and the decimals; an amount that isn't so many tenth parts has none."""
    places = least
    while (amount * 10**places).denominator > 1:
        places += 1
        if places > 20:
            raise ValueError(f"{amount} is no decimal")
    whole, rest = divmod(abs((amount * 10**places).numerator), 10**places)
    return "-" if amount < 0 else "", whole, f"{rest:0{places}}" if places else ""
