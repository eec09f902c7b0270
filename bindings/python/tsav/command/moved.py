"""Amounts that moved much against the last sheet."""

import argparse
import re
from fractions import Fraction

from tsav.command import columns, labels
from tsav.command.accepted import Sheet
from tsav.command.doubts import CENTS, TEN_THOUSANDTHS, Amount, Doubt, Row
from tsav.command.messages import _, language, ngettext
from tsav.command.money import NO_BREAK

# What is told where no other share is asked for: this command's choice.
FIFTH = Fraction(1, 5)
_SHARE = re.compile(r"([0-9]{1,3})(?:[.,]([0-9]{1,6}))?(?:[ \u00a0]?(%))?")


def share(text: str) -> Fraction:
    """0.2 or 20%, up to 1."""
    found = _SHARE.fullmatch(text)
    if found:
        whole, decimals, percent = found.groups("")
        number = Fraction(int(whole + decimals), 10 ** len(decimals) * (100 if percent else 1))
        if number <= 1:
            return number
    raise argparse.ArgumentTypeError(_("a share is a number from 0 to 1, as 0.2, or a percentage with its sign, as 20%"))


def percentage(part: Fraction) -> str:
    """Of a share as it was read, which has at most eight decimals."""
    whole, rest = divmod(part * 10**8, 10**6)
    decimals = f"{rest.numerator:06}".rstrip("0")
    if language() == "en":
        return f"{whole}{'.' if decimals else ''}{decimals}%"
    return f"{whole}{',' if decimals else ''}{decimals}{NO_BREAK}%"


def doubts(sheet: Sheet, before: Sheet, part: Fraction):
    """One for each section that has such amounts."""
    found: dict = {}
    for key in sorted({*sheet.lines, *before.lines}):
        section = labels.label(key.code, key.block, key.klass).section
        found.setdefault(section, []).extend(_rows(sheet, before, key, part))
    for section, rows in found.items():
        if rows:
            title = ngettext("{count} amount moved by more than {share}", "{count} amounts moved by more than {share}", len(rows))
            yield Doubt(
                "moved",
                section,
                title.format(count=len(rows), share=percentage(part)),
                _("Against the last sheet: is it the business that moved, or is an amount in another unit or on another line?"),
                tuple(rows),
            )


def _rows(sheet: Sheet, before: Sheet, key: columns.Key, part: Fraction):
    lines = before.lines.get(key), sheet.lines.get(key)
    unit = TEN_THOUSANDTHS if key == columns.key(*columns.SCALAR) else CENTS
    for which in (1, 2):
        then, now = (line and (line.first, line.second)[which - 1] for line in lines)
        # In whole numbers, so that a fifth exactly isn't more than one.
        if abs((now or 0) - (then or 0)) * part.denominator > (then or 0) * part.numerator:
            amounts = Amount("before", _("last sheet"), then, unit), Amount("now", _("this sheet"), now, unit)
            yield Row(key, sheet.number(key), which, amounts=amounts)
