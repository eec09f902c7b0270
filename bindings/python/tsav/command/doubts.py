"""What is accepted and yet looks wrong: how it is told, in text and as a value for `--json`."""

from typing import NamedTuple, Optional

from tsav.command import columns, labels, money
from tsav.command.grid import grid
from tsav.command.messages import _

_MARGIN = "   "
CENTS = "cents"
TEN_THOUSANDTHS = "ten_thousandths"


class Amount(NamedTuple):
    """By a name of a stable list, and in words; None where there is no line that has it."""

    key: str
    name: str
    number: Optional[int]
    unit: str = CENTS

    def shown(self) -> str:
        if self.number is None:
            return _("no line")
        return money.dollars(self.number) if self.unit == CENTS else money.scalar(self.number)

    def value(self) -> dict:
        return {"key": self.key, "name": self.name, self.unit: self.number}


class Row(NamedTuple):
    """A line of the sheet that a doubt is about: its number, None where it is absent; which of its two amounts, if one; the line that it
    needs, class 0 for any, and whether that is missing or has first amount 0; and amounts."""

    key: columns.Key
    number: Optional[int]
    which: Optional[int] = None
    needs: Optional[columns.Key] = None
    missing: bool = False
    amounts: tuple = ()


class Doubt(NamedTuple):
    """Its cause, of a stable list; the section of the guideline; what it is, and why it is told."""

    cause: str
    section: str
    title: str
    reason: str
    rows: tuple = ()
    amounts: tuple = ()


def paragraph(count: int, doubt: Doubt) -> str:
    head = _("{count}. Section {section}: {title}").format(count=count, section=doubt.section, title=doubt.title)
    told = [doubt.reason]
    if doubt.rows:
        told += [_MARGIN + line for line in grid(_headed(doubt.rows), left=2)]
    if doubt.amounts:
        told += [_MARGIN + line for line in grid([(amount.name, amount.shown()) for amount in doubt.amounts])]
    return "\n".join([head] + [_MARGIN + line for line in told]) + "\n"


def _headed(rows) -> list:
    """The cells of each, below the names of the amounts."""
    names = amount_names(rows)
    return ([("", "", *names)] if names else []) + [cells(row) for row in rows]


def amount_names(rows) -> list:
    """The rows of a doubt have the same ones."""
    return [amount.name for amount in rows[0].amounts]


def cells(row: Row) -> tuple:
    """The line, what it is, and its amounts."""
    return place(row.key), _name(row), *(amount.shown() for amount in row.amounts)


def place(key: columns.Key) -> str:
    """As the columns of the sheet have it."""
    return f"{key.code} {key.block:2} {key.klass:2}"


def _name(row: Row) -> str:
    code, block, klass = row.key.code, row.key.block, row.key.klass
    name = labels.line_name(code, block, klass)
    if row.which and labels.amounts(code, klass)[1]:
        name = _("{line}: {amount}").format(line=name, amount=labels.amounts(code, klass)[row.which - 1])
    if row.needs:
        said = _("{line} needs {other}, which is missing") if row.missing else _("{line} needs {other}, which is 0")
        name = said.format(line=name, other=_needed(row.needs))
    return name


def _needed(key: columns.Key) -> str:
    if key.klass == 0:
        return _("an insurance risk (RSK) of the block")
    return f"{labels.line_name(key.code, key.block, key.klass)} ({place(key)})"


def value(doubt: Doubt) -> dict:
    """The texts are in the language of the answer."""
    return {
        "cause": doubt.cause,
        "section": doubt.section,
        "title": doubt.title,
        "reason": doubt.reason,
        "lines": [_row_value(row) for row in doubt.rows],
        "amounts": [amount.value() for amount in doubt.amounts],
    }


def _row_value(row: Row) -> dict:
    return {
        "line": row.number,
        **place_value(row.key),
        "name": labels.line_name(row.key.code, row.key.block, row.key.klass),
        "amount": row.which,
        "needs": {**place_value(row.needs), "missing": row.missing} if row.needs else None,
        "amounts": [amount.value() for amount in row.amounts],
    }


def place_value(key: columns.Key) -> dict:
    return {"code": key.code, "block": key.block, "class": key.klass}
