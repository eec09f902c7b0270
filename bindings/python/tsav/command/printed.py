"""How the answer of a call is written: as a table of words and amounts, as CSV, and as a value for `--json`; and its refusals."""

from typing import NamedTuple, Optional

import tsav
from tsav.command import accepted, amounts, csvfile, money, refusals
from tsav.command.answer import DONE, REFUSED, Answer
from tsav.command.grid import grid
from tsav.command.messages import _


class Amount(NamedTuple):
    """A cell of a table: so many cents, or, with three places, thousandths of a dollar."""

    units: int
    places: int = 2


def half_cents(count: int) -> Amount:
    return Amount(5 * count, 3)


class SheetRefused(Exception):
    """The sheet that a call's numbers were to be taken from is refused."""

    def __init__(self, refused_: accepted.Refused):
        self.refused = refused_
        super().__init__(refused_.refusal)


def add_options(parser) -> None:
    parser.add_argument("--csv", action="store_true", help=_("write the table as CSV, for scripts and spreadsheets"))
    parser.set_defaults(wrong=parser.error)


def one_form(options) -> None:
    if options.csv and options.json:
        options.wrong(_("give --csv or --json, not both"))


def table(rows) -> str:
    """The texts of a row to the left, its amounts behind them to the right."""
    left = min((at for row in rows for at, cell in enumerate(row) if isinstance(cell, Amount)), default=len(rows[0]))
    shown = [[money.dollars(*cell) if isinstance(cell, Amount) else cell for cell in row] for row in rows]
    return "".join(line + "\n" for line in grid(shown, left))


def done(options, text: str, rows, value: dict) -> Answer:
    """The rows, of which the first is the heading, are what CSV has."""
    if options.csv:
        sign = amounts.decimal_sign()
        text = csvfile.written([amounts.written(cell.units, sign, cell.places) if isinstance(cell, Amount) else cell for cell in row] for row in rows)
    return Answer(DONE, text, {**value, "refusal": None})


def sheet_refused(options, refused_: accepted.Refused, value: dict) -> Answer:
    return _refused(options, refused_.text(), refused_.refusal, value)


def refused(options, refusal: tsav.Refused, place: str, value: dict) -> Answer:
    """Of the call itself, whose position has this name."""
    return _refused(options, refusals.sentence(refusal, place), refusal, value)


def _refused(options, text: str, refusal: tsav.Refused, value: dict) -> Answer:
    at: dict[str, Optional[int]] = {"refusal": refusal.number, "line": refusal.line, "position": refusal.position}
    text += "\n"
    if options.csv:
        heading = (_("Refusal"), _("Line"), _("Position"))
        text = csvfile.written([heading, ["" if number is None else number for number in at.values()]])
    return Answer(REFUSED, text, {**value, **at})
