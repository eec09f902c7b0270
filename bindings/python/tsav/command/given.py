"""What the calls of a block are given: its 17 amounts, as they are typed, or of a block of a sheet."""

import argparse
from typing import NamedTuple, Optional

import tsav
from tsav.command import accepted, amounts, arguments, columns, files, labels, money, movements, printed, tables
from tsav.command.answer import Answer, Failure
from tsav.command.messages import _
from tsav.command.printed import Amount
from tsav.command.visible import visible

RISKS = 7
# The report's items that the block call gives, as its first figures.
FIGURES = (1, 2, 3, 4, 5)
_UNDIVERSIFIED = 3

# Of each part of a block its code and class, in the order of the numbers and of the shares.
PARTS = tuple(("RSK", klass) for klass in range(1, RISKS + 1)) + tuple(("OTH", klass) for klass in (1, 2, 3))


class Given(NamedTuple):
    """The call's numbers in cents; and of a sheet its name, the block, and what was taken off mortality for the block's MOR line, None
    where it has none."""

    numbers: tuple
    file: Optional[str] = None
    block: Optional[int] = None
    credit: Optional[int] = None

    def value(self) -> dict:
        return {"numbers": list(self.numbers), "credit": self.credit}

    def title(self) -> str:
        if self.file is None:
            return _("Amounts as they were typed:")
        return f"{visible(files.shown(self.file))}, {labels.block_name('RSK', self.block)}{_(': ').rstrip()}"


def add(parser) -> None:
    """The arguments of a call of a block."""
    parser.add_argument("given", nargs="+", metavar=_("SHEET|AMOUNT"), help=_("a sheet, or the 17 amounts of a block in dollars"))
    parser.add_argument("--block", metavar=_("BLOCK"), type=_block, help=_("the block of the sheet, 1 to 32"))
    parser.formatter_class = arguments.AsWritten
    parser.epilog = "\n".join(
        [_("The 17 amounts, in this order; where there is nothing, 0:")]
        + [f"  {number:2} {movements.name_of(number)}" for number in range(1, tsav.BLOCK_NUMBERS + 1)]
    )
    printed.add_options(parser)


def _block(text: str) -> int:
    if text not in map(str, columns.BLOCKS["RSK"]):
        raise argparse.ArgumentTypeError(_("a block is a number from 1 to 32"))
    return int(text)


def amount(text: str) -> int:
    """An amount that is typed, in cents."""
    try:
        return amounts.cents(text)
    except amounts.Unreadable as error:
        raise argparse.ArgumentTypeError(_("{cell}: {why}").format(cell=tables.quoted(text), why=error)) from error


def answered(options, call: str, answer) -> Answer:
    """The call's answer of what is given, or its refusal, or the sheet's."""
    printed.one_form(options)
    value = {"call": call, "file": options.given[0] if options.block else None, "block": options.block}
    try:
        return answer(options, _read(options), value)
    except printed.SheetRefused as refused:
        return printed.sheet_refused(options, refused.refused, value)
    except tsav.Refused as refusal:
        place = "" if refusal.position is None else movements.name_of(refusal.position + 1)
        return printed.refused(options, refusal, place, value)


def _read(options) -> Given:
    if options.block is None:
        return Given(_typed(options))
    if len(options.given) != 1:
        options.wrong(_("--block is of one sheet; names given: {count}").format(count=len(options.given)))
    return of_sheet(sheet(options.given[0]), options.block)


def _typed(options) -> tuple:
    if len(options.given) != tsav.BLOCK_NUMBERS:
        said = _("give a sheet and --block, or {wanted} amounts; given: {count}")
        options.wrong(said.format(wanted=tsav.BLOCK_NUMBERS, count=len(options.given)))
    numbers = []
    for number, text in enumerate(options.given, 1):
        try:
            numbers.append(amount(text))
        except argparse.ArgumentTypeError as error:
            options.wrong(f"{movements.name_of(number)}{_(': ')}{error}")
    return tuple(numbers)


def sheet(name: str) -> accepted.Sheet:
    data = files.read(name, tsav.LONGEST_SHEET)
    try:
        return accepted.Sheet(name, data)
    except tsav.Refused as refusal:
        raise printed.SheetRefused(accepted.Refused(name, refusal, data)) from refusal


def of_sheet(found: accepted.Sheet, block: int) -> Given:
    """The block's amounts as the sheet call has them, after the credit of its MOR line: by so much U of the report is below the sum of
    the components as they are entered. The block call must then give all that the report has of the block."""
    _there(found, block)
    numbers = []
    for code, klass in PARTS:
        line = found.lines.get(columns.key(code, block, klass), columns.Line(code, block, klass, 0, 0))
        numbers += [line.first, line.second] if code == "RSK" else [line.first]
    credit = sum(numbers[0 : 2 * RISKS : 2] + numbers[2 * RISKS :]) - found.figures["BLK", block, _UNDIVERSIFIED]
    numbers[0] -= credit
    numbers[1] -= credit
    agree(_figures(numbers), tuple(found.figures["BLK", block, item] for item in FIGURES))
    return Given(tuple(numbers), found.name, block, credit if columns.key("MOR", block, 1) in found.lines else None)


def _there(found: accepted.Sheet, block: int) -> None:
    blocks = sorted({place for code, place, _item in found.figures if code == "BLK"})
    if block not in blocks:
        said = _("{file} has no block {block}: it has {blocks}") if blocks else _("{file} has no block: it has no RSK or OTH line")
        raise Failure(said.format(file=visible(files.shown(found.name)), block=block, blocks=labels.numbers(blocks)))


def _figures(numbers: list) -> Optional[tuple]:
    """None where there are none: no sheet has such amounts."""
    try:
        return tuple(tsav.block(numbers))[: len(FIGURES)]
    except (tsav.Refused, ValueError):
        return None


def agree(one, other) -> None:
    """Two calls that are proved to say the same."""
    if one != other:
        raise Failure(_("the calls say different things of the same figures: what was loaded isn't the proved library"))


def text(given: Given) -> str:
    """The amounts that the call is given, by their names and symbols."""
    gross, trend = labels.amounts("RSK", 1)
    rows = [("", "", gross, trend)]
    numbers = iter(given.numbers)
    for code, klass in PARTS:
        label = labels.label(code, 1, klass)
        first = Amount(next(numbers))
        second = Amount(next(numbers)) if code == "RSK" else ""
        rows.append((label.name, f"{label.first}, {label.second}" if label.second else label.first, first, second))
    shown = f"{given.title()}\n\n{printed.table(rows)}"
    if given.credit is not None:
        said = _("Mortality is what is left after the credit of the block's MOR line (11.1.1), {amount}.")
        shown += "\n" + said.format(amount=money.dollars(given.credit)) + "\n"
    return shown
