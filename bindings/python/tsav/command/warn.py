"""`tsav warn`: what the sheet call accepts and yet looks wrong. It refuses nothing that the call doesn't."""

from tsav.command import accepted, alone, doubts, files, money, moved
from tsav.command.answer import DONE, REFUSED, Answer
from tsav.command.messages import _, ngettext
from tsav.command.visible import visible

NAME = "warn"


def add(commands, common) -> None:
    parser = commands.add_parser(
        NAME,
        parents=[common],
        help=_("say what looks wrong in a sheet that is accepted"),
        description=_("Says of an accepted sheet what looks wrong, each with its reason and the section of the guideline; it refuses nothing."),
    )
    parser.add_argument("file", metavar=_("SHEET"), help=_("the sheet; - is standard input"))
    parser.add_argument("--before", metavar=_("SHEET"), help=_("the last sheet: say also which amounts moved by more than a fifth"))
    parser.add_argument("--share", metavar=_("SHARE"), type=moved.share, help=_("more than this share in place of a fifth, as 0.1"))
    parser.set_defaults(run=run, wrong=parser.error)


def run(options) -> Answer:
    if options.share is not None and options.before is None:
        options.wrong(_("--share is of the last sheet: give it by --before"))
    names = [options.file] + ([options.before] if options.before is not None else [])
    sheets, refused = accepted.read(*names)
    value = {"file": options.file, "before": options.before, "refused": [some.value() for some in refused]}
    if refused:
        text = "".join(some.text() + "\n" for some in refused)
        return Answer(REFUSED, text, {**value, "buffer": None, "buffer_before": None, "warnings": []})
    sheet, before = (*sheets, None)[:2]
    found = list(alone.doubts(sheet))
    if before:
        found += moved.doubts(sheet, before, moved.FIFTH if options.share is None else options.share)
    value.update(buffer=sheet.buffer, buffer_before=before.buffer if before else None, warnings=[doubts.value(doubt) for doubt in found])
    return Answer(DONE, _text(sheet, before, found), value)


def _text(sheet, before, found) -> str:
    said = _("{file} is accepted. Base solvency buffer: {amount}")
    head = [said.format(file=visible(files.shown(some.name)), amount=money.dollars(some.buffer)) + "\n" for some in (sheet, before) if some]
    count = len(found)
    counted = ngettext("{count} warning:", "{count} warnings:", count).format(count=count) if found else _("No warnings.")
    told = ["\n" + doubts.paragraph(number, doubt) for number, doubt in enumerate(found, 1)]
    return "".join([*head, counted + "\n", *told])
