"""`tsav operational`: the operational figure of a sheet, RO, by the operational call, with what it is worked out from."""

import tsav
from tsav.command import accepted, columns, files, given, labels, printed
from tsav.command.answer import Answer
from tsav.command.messages import _
from tsav.command.money import LARGEST_AMOUNT
from tsav.command.printed import Amount
from tsav.command.visible import visible

NAME = "operational"
_CLASSES = columns.classes("VOL", 1)
# The classes of GEN that the call is given, by their names in JSON.
_GENERAL = {"components": 1, "guarantees": 2, "ceded": 3}


def add(commands, common) -> None:
    parser = commands.add_parser(
        NAME,
        parents=[common],
        help=_("work out the requirement for operational risk, RO"),
        description=_("Works out section 8.2 for a sheet: RO, and the volumes and general figures that it comes of."),
    )
    parser.add_argument("file", metavar=_("SHEET"), help=_("the sheet; - is standard input"))
    printed.add_options(parser)
    parser.set_defaults(run=run)


def run(options) -> Answer:
    printed.one_form(options)
    value = {"call": NAME, "file": options.file}
    try:
        sheet = given.sheet(options.file)
    except printed.SheetRefused as refused:
        return printed.sheet_refused(options, refused.refused, value)
    volumes = [
        _volume(sheet, territory, klass)
        for territory in columns.TERRITORIES
        if any(key.code in ("VOL", "ACQ") and key.block == territory for key in sheet.lines)
        for klass in _CLASSES
    ]
    general = {name: sheet.first("GEN", 0, klass) for name, klass in _GENERAL.items()}
    ro = tsav.operational([number for volume in volumes for number in _pair(volume)], general.values())
    given.agree(ro, sheet.figures["TOT", 0, 2])
    label = labels.REPORT["TOT", 2]
    rows = [(_("Figure"), _("Section"), _("Symbol"), _("Amount")), (_(label.name), label.section, label.first, Amount(ro))]
    text = f"{visible(files.shown(options.file))}{_(': ').rstrip()}\n\n{_general_text(general)}\n{_volumes_text(volumes)}{printed.table(rows[1:])}"
    return printed.done(options, text, rows, {**value, "general": general, "volumes": volumes, "ro": ro})


def _volume(sheet: accepted.Sheet, territory: int, klass: int) -> dict:
    line = sheet.lines.get(columns.key("VOL", territory, klass))
    return {
        "territory": territory,
        "class": klass,
        "name": labels.label("VOL", territory, klass).name,
        "current": line.first if line else 0,
        "previous": line.second if line else 0,
        "bought": sheet.first("ACQ", territory, klass),
    }


def _pair(volume: dict) -> tuple:
    """What the call is given: of bought business both years before as one. It takes none above the largest amount, and no current volume
    is above 120 % of that, so that the largest itself then gives the same."""
    return volume["current"], min(volume["previous"] + volume["bought"], LARGEST_AMOUNT)


def _general_text(general: dict) -> str:
    rows = []
    for name, klass in _GENERAL.items():
        label = labels.label("GEN", 0, klass)
        rows.append((label.name, label.section, Amount(general[name])))
    return printed.table(rows)


def _volumes_text(volumes: list) -> str:
    """A table for each territory, of the classes that have a volume; business that was bought has a column where there is any."""
    current, previous = labels.amounts("VOL", 1)
    bought = labels.code_name("ACQ")
    names = {"current": current, "previous": previous}
    if any(volume["bought"] for volume in volumes):
        names["bought"] = bought
    rows = [("", "", *names.values())]
    for volume in volumes:
        if volume["current"] or volume["previous"] or volume["bought"]:
            place = labels.block_name("VOL", volume["territory"])
            rows.append((place, volume["name"], *(Amount(volume[name]) for name in names)))
    return printed.table(rows) + "\n" if rows[1:] else ""
