"""`tsav report --quarter`: the summary of a quarter, and a line for each sheet, a refused one with its refusal in words."""

import hashlib
import os

import tsav
from tsav.command import files, kinds, money, page, quarters, refusals, shapes
from tsav.command.answer import DONE, REFUSED, Answer, Failure
from tsav.command.finder import Finder
from tsav.command.messages import N_, _
from tsav.command.page import Cell, Head, Part, Row, Table
from tsav.command.visible import visible

# The items of the summary, whose numbers are sheets or counts where they aren't amounts.
_ITEMS = {
    1: N_("accepted sheets"),
    2: N_("smallest buffer"),
    3: N_("first sheet with the smallest"),
    4: N_("largest buffer"),
    5: N_("first sheet with the largest"),
    6: N_("total of the buffers"),
    7: N_("mean, in whole cents"),
    8: N_("what is left over, in cents"),
}
_AMOUNTS = (2, 4, 6, 7)
_FORMAT = "tsav quarter report 1"


def answer(options, written) -> Answer:
    data, names = _data(options.file)
    said = tsav.quarter(data)
    lines = [said[at : at + tsav.SUMMARY_LINE] for at in range(0, len(said), tsav.SUMMARY_LINE)]
    read = [(line[:3].decode("ascii"), int(line[4:6]), int(line[7:9]), int(line[10:29])) for line in lines]
    items = {item: value for code, _zero, item, value in read if code == "SUM"}
    if not items and names:
        return _too_many(options.title, names)
    if not items:
        # 24 or 25, of the quarter as a whole.
        return quarters.answer(options.file[0], data)
    parts = quarters.sheets(data)
    sheets = [_sheet(number, names, part, *line) for number, (part, line) in enumerate(zip(parts, read), 1)]
    value = {
        "format": _FORMAT,
        "title": options.title,
        "refusal": None,
        "sheets": sheets,
        "summary": {str(item): amount for item, amount in items.items()},
        "quarter": {"sha256": hashlib.sha256(data).hexdigest()},
        "versions": shapes.versions_value(),
    }
    html = page.html(_page(options.title, data, sheets, items, said)) if options.output or options.pdf else b""
    text = [_("{count} of {sheets} sheets are accepted").format(count=items[1], sheets=len(sheets)), *written(options, html, {})]
    return Answer(DONE, "\n".join(text) + "\n", value)


def _too_many(title, names: list) -> Answer:
    """The quarter call refuses more than 60 sheets as a whole: here each file is one."""
    said = _("{count} files are refused as a quarter by {refusal}, and nothing is written: it has at most {most} sheets. Give that many at a time.")
    text = said.format(count=len(names), refusal=quarters.TOO_MANY, most=tsav.MOST_SHEETS)
    return Answer(REFUSED, text + "\n", {"format": _FORMAT, "title": title, "refusal": quarters.TOO_MANY, "files": len(names)})


def _once(given: list) -> None:
    """A file's sheet would count twice in the total. A file is known by its place, whatever its name."""
    seen = set()
    for name in given:
        try:
            found = os.stat(name) if name != files.STANDARD_INPUT else None
        except OSError:
            continue  # which is said when it is read
        place = (found.st_dev, found.st_ino) if found else name
        if place in seen:
            raise Failure(_("{file} is given twice: it would count twice").format(file=visible(files.shown(name))))
        seen.add(place)


def _data(given: list) -> tuple:
    """The quarter as `tsav-quarter FILE..` reads it, and the names of its sheets' files where each has its own. A single file that was
    meant to be a quarter is taken as it is, so that it is refused as one; so is an empty one, which has no sheet."""
    _once(given)
    contents = [files.read(name, quarters.MOST) for name in given]
    for name, content in zip(given, contents):
        if len(content) > quarters.MOST:
            said = _("{file} is longer than {most} bytes, which no quarter is")
            raise Failure(said.format(file=files.shown(name), most=money.number(quarters.MOST)))
    if given == [files.STANDARD_INPUT] or len(given) == 1 and (not contents[0] or quarters.meant(contents[0])):
        return contents[0], None
    return b"".join(_closed(name, content) for name, content in zip(given, contents)), given


def _closed(name: str, content: bytes) -> bytes:
    """A sheet with a closing line behind it, which a last line without its line feed would hide; a workbook has no such lines."""
    if quarters.closed(content):
        raise Failure(_("{file} has a closing line, and is more than one sheet").format(file=files.shown(name)))
    if content and not content.endswith(b"\n"):
        said = _("{file} doesn't end in a line feed").format(file=files.shown(name))
        what = kinds.told(kinds.of(content), name)
        raise Failure(f"{said}. {what}" if what else said)
    return content + quarters.CLOSING + b"\n"


def _sheet(number: int, names, sheet: bytes, code: str, refusal: int, _item: int, value: int) -> dict:
    """A line of the summary; of a refused sheet the call's words, and its first fault as tsav explain tells it."""
    name = files.shown(names[number - 1]) if names else None
    if code == "SHT":
        return {"sheet": number, "file": name, "buffer": value, "refusal": None, "line": None, "cause": None, "words": None}
    found = tsav.Refused(refusal, line=value or None)
    place = _("line {line}").format(line=value) if value else ""
    fault = Finder(sheet).faults[0]
    words = f"{refusals.sentence(found, place)} {_('Cause: {cause}.').format(cause=fault.title)}"
    if quarters.meant(sheet):
        words += " " + _("A line of it was meant to close a sheet: the file is more than one, and is a quarter by itself.")
    return {"sheet": number, "file": name, "buffer": None, "refusal": refusal, "line": value or None, "cause": fault.cause, "words": words}


def _page(title, data: bytes, sheets: list, items: dict, said: bytes) -> page.Page:
    heads = [Head(_("sheet")), Head(_("file")), Head(_("what is said of it")), Head(_("base solvency buffer"), True)]
    rows = []
    for sheet in sheets:
        told = sheet["words"] or _("accepted")
        buffer = Cell("") if sheet["buffer"] is None else Cell(money.dollars(sheet["buffer"]), f"sheet.{sheet['sheet']}")
        rows.append(Row([Cell(str(sheet["sheet"])), Cell(page.title(sheet["file"] or "")), Cell(told), buffer]))
    summary = [
        Row([Cell(_(_ITEMS[item])), Cell(money.dollars(value) if item in _AMOUNTS else money.number(value), f"summary.{item}")], item == 6)
        for item, value in items.items()
    ]
    found = [
        Part("sheets", _("The sheets"), [("table", Table(_("A line for each sheet"), heads, rows))]),
        Part("summary", _("The summary"), [("table", Table(_("Of the accepted sheets"), [Head(_("figure")), Head(_("amount"), True)], summary))]),
        Part("raw", _("Appendix: the raw summary"), [("raw", said.decode("ascii"))]),
    ]
    facts = [(_("SHA-256 of the quarter"), hashlib.sha256(data).hexdigest()), *page.version_facts()]
    return page.Page(_("Report on a quarter's sheets"), title or _("The quarter's buffers"), facts, found)
