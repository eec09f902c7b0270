"""`tsav fluctuation`: a requirement times its fluctuation factor, by the fluctuation call; the row is named by its number or in words."""

import argparse
import re
import unicodedata
from typing import NamedTuple

import tsav
from tsav.command import arguments, given, printed
from tsav.command.answer import Answer
from tsav.command.messages import N_, _, language
from tsav.command.printed import Amount

NAME = "fluctuation"


class Row(NamedTuple):
    """What it is called; and how it is typed, in English and in French, short and written out, whatever language is spoken."""

    name: str
    typed: tuple


ROWS = {
    1: Row(N_("disability, level"), ("disability-level", "invalidite-niveau")),
    2: Row(N_("long-term care, level"), ("long-term-care-level", "sld-niveau", "soins-de-longue-duree-niveau")),
    3: Row(N_("disability, volatility"), ("disability-volatility", "invalidite-volatilite")),
    4: Row(N_("long-term care, volatility"), ("long-term-care-volatility", "sld-volatilite", "soins-de-longue-duree-volatilite")),
    5: Row(N_("travel and credit, volatility"), ("travel-and-credit", "voyages-et-credit")),
    6: Row(N_("medical and dental, volatility"), ("medical-and-dental", "medicale-et-dentaire")),
    7: Row(N_("critical illness, level or volatility"), ("critical-illness", "mg", "maladies-graves")),
}
# Its base is the face amount.
_OF_FACE = 7


def add(commands, common) -> None:
    parser = commands.add_parser(
        NAME,
        parents=[common],
        formatter_class=arguments.AsWritten,
        help=_("take a morbidity requirement times its fluctuation factor"),
        description=_("Works out a requirement of section 11.1.2 after its fluctuation factor."),
        epilog="\n".join([_("The rows:")] + [f"  {number} {_typed(row):27} {_(row.name)}" for number, row in ROWS.items()]),
    )
    parser.add_argument("row", metavar=_("ROW"), type=_row, help=_("the row of the factor: its number or its name, as below"))
    parser.add_argument("requirement", metavar=_("REQUIREMENT"), type=given.amount, help=_("the requirement before its factor, in dollars"))
    parser.add_argument("face", metavar=_("FACE"), type=given.amount, nargs="?", help=_("of critical illness the total face amount, in dollars"))
    printed.add_options(parser)
    parser.set_defaults(run=run)


def _typed(row: Row) -> str:
    return row.typed[0 if language() == "en" else 1]


def _plain(text: str) -> str:
    """Without accents and capitals, with one hyphen for all that stands between words."""
    parted = unicodedata.normalize("NFKD", text).casefold()
    return re.sub("[^a-z0-9]+", "-", "".join(sign for sign in parted if not unicodedata.combining(sign))).strip("-")


def _row(text: str) -> int:
    plain = _plain(text)
    found = [number for number, row in ROWS.items() if plain in (str(number), *row.typed, _plain(row.name), _plain(_(row.name)))]
    if not found:
        known = ", ".join(f"{number} {_typed(row)}" for number, row in ROWS.items())
        raise argparse.ArgumentTypeError(_("there is no such row; there are {rows}").format(rows=known))
    return found[0]


def run(options) -> Answer:
    printed.one_form(options)
    if options.row == _OF_FACE and options.face is None:
        options.wrong(_("critical illness has the face amount as its base: type it after the requirement"))
    name = _(ROWS[options.row].name)
    result = tsav.fluctuation(options.row, options.requirement, options.face or 0)
    cells = [(_("Requirement"), Amount(options.requirement))]
    if options.face is not None:
        cells.append((_("Face amount"), Amount(options.face)))
    cells.append((_("Requirement after its factor"), Amount(result)))
    text = _("Row {number}, {name}:").format(number=options.row, name=name) + f"\n\n{printed.table(cells)}"
    if options.face is not None and options.row != _OF_FACE:
        text += "\n" + _("The face amount changes nothing in this row.") + "\n"
    rows = [
        (_("Row"), _("Name"), _("Requirement"), _("Face amount"), _("Requirement after its factor")),
        (options.row, name, Amount(options.requirement), "" if options.face is None else Amount(options.face), Amount(result)),
    ]
    value = {"call": NAME, "row": options.row, "name": name, "requirement": options.requirement, "face": options.face, "result": result}
    return printed.done(options, text, rows, value)
