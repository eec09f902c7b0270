"""`tsav template`: a workbook to fill in, which `tsav import` makes a sheet of."""

import argparse

from tsav.command import files, form
from tsav.command.answer import DONE, Answer
from tsav.command.columns import BLOCKS, CODES, PARTICIPATING, TERRITORIES, classes
from tsav.command.messages import _, ngettext

NAME = "template"


def add(commands, common) -> None:
    parser = commands.add_parser(
        NAME,
        parents=[common],
        help=_("write a workbook to fill in"),
        description=_("Writes a workbook with a row for every line of these blocks, their names, sections, symbols and units, and checks."),
    )
    parser.add_argument("-o", "--output", metavar=_("WORKBOOK"), required=True, help=_("the workbook (.xlsx); one that is there isn't replaced"))
    parser.add_argument("--blocks", metavar=_("BLOCKS"), type=blocks, default=(1,), help=_("its blocks, as 1,2,17; otherwise 1"))
    parser.set_defaults(run=run)


def blocks(text: str) -> tuple:
    """Blocks that are set apart by commas, in their order."""
    try:
        found = sorted(int(part) for part in text.split(","))
    except ValueError:
        found = []
    if not found or len(set(found)) < len(found) or not set(found) <= set(TERRITORIES + PARTICIPATING):
        raise argparse.ArgumentTypeError(_("blocks are numbers from 1 to 32 with commas between, none twice"))
    return tuple(found)


def run(options) -> Answer:
    files.ending(options.output, ".xlsx")
    files.new(options.output, _("{file} is there already: give another name, or delete it"))
    rows = [(code, block, klass, None, None) for block in (*options.blocks, 0) for code, klass in lines(block)]
    files.write(options.output, form.content(rows))
    text = ngettext("{file}: {count} row to fill in.", "{file}: {count} rows to fill in.", len(rows))
    return Answer(DONE, text.format(file=options.output, count=len(rows)) + "\n", {"written": options.output, "rows": len(rows)})


def lines(block: int):
    """The codes and classes that a block has, 0 what belongs to none."""
    return [(code, klass) for code in CODES if block in BLOCKS[code] for klass in classes(code, block)]
