"""`tsav movement`: how far K of a block of a sheet, or of 17 amounts, moves as each risk's component is raised, by the movement call."""

import tsav
from tsav.command import given, labels, money, printed
from tsav.command.answer import Answer
from tsav.command.messages import _
from tsav.command.printed import Amount

NAME = "movement"
_RAISED = 22


def add(commands, common) -> None:
    parser = commands.add_parser(
        NAME,
        parents=[common],
        help=_("say how far K of a block moves as a component is raised"),
        usage=_("%(prog)s SHEET --block BLOCK --by AMOUNT [--json | --csv]\n%(prog)s AMOUNT ... --by AMOUNT [--json | --csv]"),
        description=_("Says how far K of a block of a sheet, or of 17 amounts, moves as each risk's component is raised, all else kept."),
    )
    given.add(parser)
    parser.add_argument("--by", metavar=_("AMOUNT"), type=given.amount, required=True, help=_("by how much a component is raised, in dollars"))
    parser.set_defaults(run=run)


def run(options) -> Answer:
    return given.answered(options, NAME, _answer)


def _answer(options, found: given.Given, value: dict) -> Answer:
    said = tsav.movement(b"".join(b"%14d\n" % number for number in (*found.numbers, options.by)))
    rows = [(_("Risk"), _("Name"), _("Movement of K"), _("Refusal"))]
    movements = []
    for risk in range(1, given.RISKS + 1):
        line = said[(risk - 1) * tsav.REPORT_LINE : risk * tsav.REPORT_LINE]
        moved = None if line.startswith(b"REF") else int(line[10:])
        name = labels.label("RSK", 1, risk).name
        rows.append((risk, name, "" if moved is None else Amount(moved), _RAISED if moved is None else ""))
        movements.append({"risk": risk, "name": name, "movement": moved, "refusal": _RAISED if moved is None else None})
    shown = printed.table([(name, moved, _told(refusal)) for _risk, name, moved, refusal in rows[1:]])
    head = _("As the component of one risk is raised by {amount}, K moves by:").format(amount=money.dollars(options.by))
    text = f"{given.text(found)}\n{head}\n\n{shown}"
    return printed.done(options, text, rows, {**value, **found.value(), "by": options.by, "movements": movements})


def _told(refusal) -> str:
    if refusal == "":
        return ""
    return _("refusal {number}: raised, the component is {above}").format(number=refusal, above=money.above_the_limit())
