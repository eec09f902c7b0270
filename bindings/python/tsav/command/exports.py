"""`tsav export`: a sheet as rows (CSV) or as a workbook, which `tsav import` makes the same sheet of, byte for byte."""

import tsav
from tsav.command import accepted, csvfile, files, form
from tsav.command.answer import DONE, REFUSED, Answer
from tsav.command.columns import LENGTH, read
from tsav.command.messages import _, ngettext

NAME = "export"


def add(commands, common) -> None:
    parser = commands.add_parser(
        NAME,
        parents=[common],
        help=_("write a sheet as CSV or as a workbook"),
        description=_("Writes the lines of an accepted sheet as rows in dollars; tsav import makes the same sheet of them."),
    )
    parser.add_argument("file", metavar=_("SHEET"), help=_("the sheet; - is standard input"))
    parser.add_argument("-o", "--output", metavar=_("FILE"), required=True, help=_("what is written, by its ending: .csv or .xlsx"))
    parser.add_argument("--replace", action="store_true", help=_("replace a file that is there"))
    parser.set_defaults(run=run)


def run(options) -> Answer:
    ending = files.ending(options.output, ".csv", ".xlsx")
    files.differ(options.file, options.output)
    if not options.replace:
        files.new(options.output, _("{file} is there already: give another name, or --replace"))
    sheet = files.read(options.file, tsav.LONGEST_SHEET)
    try:
        tsav.sheet(sheet)
    except tsav.Refused as refusal:
        return _refused(accepted.Refused(options.file, refusal, sheet))
    lines = [read(sheet[at : at + LENGTH]) for at in range(0, len(sheet), LENGTH)]
    files.write(options.output, (csvfile if ending == ".csv" else form).content(lines))
    text = ngettext("{file}: {count} row.", "{file}: {count} rows.", len(lines)).format(file=options.output, count=len(lines))
    return Answer(DONE, text + "\n", {"written": options.output, "rows": len(lines)})


def _refused(refused: accepted.Refused) -> Answer:
    value = {"written": None, "refusal": refused.refusal.number, "line": refused.refusal.line}
    return Answer(REFUSED, f"{refused.text()} {_('Nothing is written.')}\n", value)
