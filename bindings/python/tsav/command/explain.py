"""`tsav explain`: says in words what the sheet call says of a sheet, or with an option what the convert call, the quarter call or the
movement call says of its input: the line as it stands, a caret under the column, what is there, what is wanted, and what to type
instead, of every fault."""

import argparse
from typing import Optional

import tsav
from tsav.command import files, kinds, layout, lines, money, movements, quarters, refusals, telling
from tsav.command.answer import DONE, REFUSED, Answer
from tsav.command.compared import figures
from tsav.command.finder import Finder
from tsav.command.messages import _
from tsav.command.visible import visible

NAME = "explain"


def add(commands, common) -> None:
    parser = commands.add_parser(
        NAME,
        parents=[common],
        help=_("say in words why a sheet is refused, all its faults"),
        description=_("Says of a sheet what the sheet call says, in words: each fault with its line, and what to type instead."),
    )
    what = parser.add_mutually_exclusive_group()
    what.add_argument("--convert", action="store_true", help=_("say what the converter says of it"))
    what.add_argument("--quarter", action="store_true", help=_("the file is a quarter: sheets that are each closed by 39 minus signs"))
    what.add_argument("--movement", action="store_true", help=_("the file has the 18 numbers of the movement call"))
    what.add_argument("--refusal", metavar=_("NUMBER"), type=_number, help=_("say what a refusal means, and read no file"))
    parser.add_argument("file", metavar=_("FILE"), nargs="?", default=files.STANDARD_INPUT, help=_("the sheet; otherwise standard input"))
    parser.set_defaults(run=run)


def _number(text: str) -> int:
    if text not in map(str, refusals.NUMBERS):
        raise argparse.ArgumentTypeError(_("a refusal is a number from 1 to {most}").format(most=max(refusals.NUMBERS)))
    return int(text)


def run(options) -> Answer:
    name = options.file
    if options.refusal is not None:
        return _refusal(options.refusal)
    if options.quarter:
        return quarters.answer(name, files.read(options.file, quarters.MOST))
    if options.movement:
        return movements.answer(name, files.read(options.file, movements.MOST))
    sheet = files.read(options.file, tsav.LONGEST_SHEET)
    if options.convert:
        return _converted(name, Finder(sheet, tsav.convert))
    return of_sheet(name, sheet)


def _refusal(number: int) -> Answer:
    said = refusals.words(number)
    text = f"{_('Refusal {number}').format(number=number)}{_(': ')}{said.what}\n{said.mend}\n"
    return Answer(DONE, text, {"refusal": number, "what": said.what, "mend": said.mend})


def of_sheet(name: str, sheet: bytes) -> Answer:
    """Also for the subcommands that take an accepted sheet alone."""
    finder = Finder(sheet)
    value = {"file": name, "call": "sheet", **telling.value(finder)}
    if finder.first:
        return _refused(_("{file} is refused: {refusal}. {faults}:"), name, finder, value, kinds.of(sheet))
    buffer = figures(tsav.sheet(sheet))["TOT", 0, 3]
    said = _("{file} is accepted. Base solvency buffer: {amount}").format(file=visible(files.shown(name)), amount=money.dollars(buffer))
    return Answer(DONE, said + "\n", {**value, "buffer": buffer})


def _converted(name: str, finder: Finder) -> Answer:
    value = {"file": name, "call": "convert", **telling.value(finder)}
    if finder.first:
        return _refused(_("{file} is refused by the converter: {refusal}. {faults}:"), name, finder, value)
    return Answer(DONE, _("{file} is accepted by the converter.").format(file=visible(files.shown(name))) + "\n", value)


def _refused(said: str, name: str, finder: Finder, value: dict, kind: Optional[str] = None) -> Answer:
    """What the file is, where it isn't what was meant, stands before its faults, which then don't say again what is to be done with it."""
    head = said.format(file=visible(files.shown(name)), refusal=telling.refusal_place(finder.first), faults=telling.count_of(finder.faults))
    told, faults = kinds.told(kind, name), finder.faults
    heads = [head + "\n"] + ([told + "\n"] if told else [])
    if kind in (kinds.THOUSANDS, kinds.TO_MEND):
        for again in (lines.CONVERT_FIRST, lines.MEND_FIRST):
            faults = [fault._replace(advice=fault.advice.removeprefix(_(again) + " ")) for fault in faults]
    if kind == kinds.QUARTER:
        faults = [fault._replace(advice="") if fault.advice == _(layout.TAKE_OUT) else fault for fault in faults]
    return Answer(REFUSED, "\n".join([*heads, *telling.paragraphs(faults, finder.not_tested)]), value)
