"""`tsav shares`: K of a block of a sheet, or of 17 amounts, divided among its ten parts by the shares call."""

import tsav
from tsav.command import given, labels, printed, tables
from tsav.command.answer import Answer
from tsav.command.messages import _
from tsav.command.printed import Amount

NAME = "shares"


def add(commands, common) -> None:
    parser = commands.add_parser(
        NAME,
        parents=[common],
        help=_("divide K of a block among its risks"),
        usage=_("%(prog)s SHEET --block BLOCK [--json | --csv]\n%(prog)s AMOUNT ... [--json | --csv]"),
        description=_("Divides K of a block of a sheet, or of 17 amounts, among its ten parts by the marginal method."),
    )
    given.add(parser)
    parser.set_defaults(run=run)


def run(options) -> Answer:
    return given.answered(options, NAME, _answer)


def _answer(options, found: given.Given, value: dict) -> Answer:
    shares, k = tsav.shares(found.numbers), tsav.block(found.numbers).k
    given.agree(sum(shares), k)
    headings = tables.column_names()
    rows = [(headings["code"], headings["class"], _("Name"), _("Share"))]
    parts = []
    for (code, klass), share in zip(given.PARTS, shares):
        name = labels.label(code, 1, klass).name
        rows.append((code, klass, name, Amount(share)))
        parts.append({"code": code, "class": klass, "name": name, "share": share})
    adjusted = labels.REPORT["BLK", 5]
    total = (f"{_(adjusted.name)}, {adjusted.first}", Amount(k))
    shown = printed.table([(name, share) for _code, _class, name, share in rows[1:]] + [total])
    text = f"{given.text(found)}\n{_('Shares of K, by the marginal method:')}\n\n{shown}"
    return printed.done(options, text, rows, {**value, **found.value(), "k": k, "shares": parts})
