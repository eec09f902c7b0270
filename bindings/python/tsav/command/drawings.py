"""Pictures of bars: where each begins and how long it is, of a width of 100. The page's template writes them as SVG, in which words keep
their size on any screen. A length is drawn, not told: the amount stands beside it."""

from fractions import Fraction
from typing import NamedTuple, Optional

# A line of words, a bar and what is left below it.
_WORDS = 18
_BAR = 12
_GAP = 10

# More letters than these don't stand on one line of a small screen.
_ONE_LINE = 40

TOTAL, MORE, LESS = "total", "more", "less"


class Given(NamedTuple):
    """A bar's name and amount, and from where to where it goes."""

    label: str
    amount: str
    start: Fraction
    end: Fraction
    kind: str


class Bar(NamedTuple):
    label: str
    amount: str
    kind: str
    x: str
    width: str
    label_at: int
    amount_at: int
    bar_at: int


class Picture(NamedTuple):
    key: str
    title: str
    description: str
    height: int
    bars: list
    # Where nothing is.
    zero: Optional[str]
    bar: int = _BAR


def picture(key: str, title: str, description: str, given: list) -> Picture:
    ends = [end for bar in given for end in (bar.start, bar.end)] + [Fraction(0)]
    low, high = min(ends), max(ends)
    span = (high - low) or Fraction(1)
    bars, at = [], 0
    for bar in given:
        label_at = at + _WORDS - 4
        lines = 1 if len(bar.label) + len(bar.amount) <= _ONE_LINE else 2
        at += _WORDS * lines
        left, right = sorted((bar.start, bar.end))
        x, width = _percent((left - low) / span), _percent((right - left) / span)
        bars.append(Bar(bar.label, bar.amount, bar.kind, x, width, label_at, at - 4, at))
        at += _BAR + _GAP
    return Picture(key, title, description, at, bars, _percent(-low / span))


def _percent(part: Fraction) -> str:
    thousandths = part.numerator * 100_000 // part.denominator
    return f"{thousandths // 1000}.{thousandths % 1000:03}%"
