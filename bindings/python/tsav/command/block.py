"""`tsav block`: what the block call says of a block of a sheet, or of 17 amounts."""

import tsav
from tsav.command import given, labels, printed
from tsav.command.answer import Answer
from tsav.command.messages import _
from tsav.command.printed import Amount, half_cents

NAME = "block"


def add(commands, common) -> None:
    parser = commands.add_parser(
        NAME,
        parents=[common],
        help=_("work out the figures of a block: I, D, U, LT and K"),
        usage=_("%(prog)s SHEET --block BLOCK [--json | --csv]\n%(prog)s AMOUNT ... [--json | --csv]"),
        description=_("Works out section 11.2 for a block of a sheet, after the credit of its MOR line, or for 17 amounts."),
    )
    given.add(parser)
    parser.set_defaults(run=run)


def run(options) -> Answer:
    return given.answered(options, NAME, _answer)


def _answer(options, found: given.Given, value: dict) -> Answer:
    figures = tsav.block(found.numbers)
    # I and D are in half cents.
    cells = (half_cents(figures.i), half_cents(figures.d), Amount(figures.u), Amount(figures.lt), Amount(figures.k))
    rows = [(_("Figure"), _("Section"), _("Symbol"), _("Amount"))]
    for item, cell in zip(given.FIGURES, cells):
        label = labels.REPORT["BLK", item]
        rows.append((_(label.name), label.section, label.first, cell))
    steps = _("Steps of the root of I: {i}; of the root of D: {d}.").format(i=figures.steps_i, d=figures.steps_d)
    text = f"{given.text(found)}\n{printed.table(rows[1:])}\n{steps}\n"
    return printed.done(options, text, rows, {**value, **found.value(), "figures": figures._asdict()})
