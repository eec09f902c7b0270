"""A workbook (.xlsx): the rows of its worksheet of figures. openpyxl reads it, after a look at what it would have to read.

A workbook may be made to do harm. So the sizes in the archive's directory are looked at first, then each part is unpacked within the same
limit, and openpyxl is given an archive of these parts alone; it reads row after row, and draws and works out nothing. What a formula showed
when it was last worked out may be of another day, and isn't read.
"""

import io
import re
import sys
import warnings
import zipfile
from datetime import date, time, timedelta
from typing import NamedTuple
from xml.etree import ElementTree

from tsav.command import amounts, tables
from tsav.command.answer import Failure
from tsav.command.messages import _
from tsav.command.visible import visible

# Of the file; of all that it unpacks to, the parts in it, the elements in these; of the worksheet's rows that have something, its columns and
# its merged cells: many times what 629 lines have.
LONGEST = 4 << 20
_LONGEST_UNPACKED = 16 << 20
_MOST_PARTS = 1_000
_MOST_ELEMENTS = 500_000
_MOST_ROWS = 5_000
_MOST_COLUMNS = 256
_MOST_MERGED = 1_000

# The last row that there is.
_LAST_ROW = 1_048_576

# The names of the worksheet, in English and French, as `tsav template` gives them. A workbook of one worksheet may have any.
WORKSHEETS = ("Figures", "Montants")

_ARCHIVE = b"PK\x03\x04"
_COMPOUND = b"\xd0\xcf\x11\xe0"


def library():
    """openpyxl."""
    try:
        import openpyxl
    except ImportError as error:
        said = _("for workbooks openpyxl is needed, and {python} hasn't it (Debian's python3: apt-get install python3-openpyxl); CSV needs none")
        raise Failure(said.format(python=visible(sys.executable))) from error
    return openpyxl


def is_one(content: bytes) -> bool:
    """Whether this is a workbook, of today's form or of the old one, or else text."""
    return content.startswith((_ARCHIVE, _COMPOUND))


def rows(content: bytes):
    """The rows that aren't empty."""
    if content.startswith(_COMPOUND):
        raise tables.Unreadable(_("it is an old workbook (.xls), or one with a password: save it as .xlsx, without a password"))
    openpyxl = library()
    try:
        parts = _parts(content)
        with warnings.catch_warnings():
            warnings.simplefilter("ignore")
            book = openpyxl.load_workbook(_archive(parts), read_only=True, keep_links=False)
            sheet = _worksheet(book.worksheets)
            # The name of the part that openpyxl reads this worksheet from.
            extent = _extent(parts[sheet._worksheet_path])
            if not extent.rows:
                return []
            cells = sheet.iter_rows(max_row=extent.rows, max_col=extent.columns)
            found = (tables.Row(number, _values(number, row, extent.merged)) for number, row in enumerate(cells, 1))
            return [row for row in found if any(cell != "" for cell in row.cells)]
    except tables.Unreadable:
        raise
    except Exception as error:  # there is no end of what a damaged file makes zipfile, the XML parser and openpyxl raise
        raise _damaged() from error


def _damaged() -> tables.Unreadable:
    return tables.Unreadable(_("it is damaged, or no workbook: open it and save it as .xlsx again"))


def _too_large() -> tables.Unreadable:
    return tables.Unreadable(_("it has far more than a workbook of figures: copy the rows into a new one"))


def _parts(content: bytes) -> dict:
    """The archive's parts, unpacked within the limits."""
    parts = {}
    with zipfile.ZipFile(io.BytesIO(content)) as archive:
        directory = archive.infolist()
        if len(directory) > _MOST_PARTS or sum(entry.file_size for entry in directory) > _LONGEST_UNPACKED:
            raise _too_large()
        for entry in directory:
            # Others unpack without a limit, and no spreadsheet writes them; nor does one write a name twice.
            if entry.compress_type not in (zipfile.ZIP_STORED, zipfile.ZIP_DEFLATED) or entry.filename in parts:
                raise _damaged()
            # A directory may lie: no more is unpacked than it says, and what doesn't end there has another sum.
            with archive.open(entry) as part:
                parts[entry.filename] = part.read(entry.file_size)
    if sum(part.count(b"<") for part in parts.values()) > _MOST_ELEMENTS:
        raise _too_large()
    # No workbook declares entities, which can grow without end; a part may be in UTF-16.
    if any(b"<!DOCTYPE" in part.replace(b"\0", b"") for part in parts.values()):
        raise _damaged()
    return parts


def _archive(parts: dict) -> io.BytesIO:
    file = io.BytesIO()
    with zipfile.ZipFile(file, "w") as archive:
        for name, part in parts.items():
            archive.writestr(name, part)
    return file


def _worksheet(sheets):
    """The one that is seen, of several the one that has a template's name."""
    seen = [sheet for sheet in sheets if sheet.sheet_state == "visible"]
    named = [sheet for sheet in seen if sheet.title in WORKSHEETS]
    for choice in (named, seen):
        if len(choice) == 1:
            return choice[0]
    raise tables.Unreadable(_("it has several worksheets, or none: the one to read is to be named {names}").format(names=_(" or ").join(WORKSHEETS)))


class _Extent(NamedTuple):
    """The last row and column that have something, and the merged cells, each by its first and last column and row."""

    rows: int
    columns: int
    merged: list


_MAIN = "{http://schemas.openxmlformats.org/spreadsheetml/2006/main}"
_REFERENCE = re.compile("([A-Z]{1,3})([1-9][0-9]{0,6})")


def _extent(part: bytes) -> _Extent:
    """What is to be read of a worksheet, looked at before openpyxl makes rows of it: it takes the rows' and cells' places as they are
    written, however far out or however often."""
    last_row = last_column = filled = before = 0
    merged = []
    for _event, element in ElementTree.iterparse(io.BytesIO(part)):
        if element.tag == f"{_MAIN}row":
            number = _place(element.get("r"), before + 1, before)
            if number > _LAST_ROW:
                raise _damaged()
            column = _last_column(element, number)
            if column:
                last_row, last_column, filled = number, max(last_column, column), filled + 1
            before = number
            element.clear()
        elif element.tag == f"{_MAIN}mergeCell":
            merged.append(_range(element.get("ref")))
    if element.tag != f"{_MAIN}worksheet":
        raise _damaged()
    if filled > _MOST_ROWS or last_column > _MOST_COLUMNS or len(merged) > _MOST_MERGED:
        raise _too_large()
    return _Extent(last_row, last_column, merged)


def _place(written, otherwise: int, before: int) -> int:
    """A row's or column's number, which is above the one before it."""
    number = otherwise if written is None else int(written)
    if number <= before:
        raise _damaged()
    return number


def _last_column(row, number: int) -> int:
    """The last column of this row that has something; 0 where none has."""
    before = last = 0
    for cell in row:
        column = None
        if cell.get("r") is not None:
            column, at = _coordinates(cell.get("r"))
            if at != number:
                raise _damaged()
        before = _place(column, before + 1, before)
        if len(cell):
            last = before
    return last


def _coordinates(reference: str):
    """The column and row of A1."""
    match = _REFERENCE.fullmatch(reference)
    if not match:
        raise _damaged()
    column = 0
    for letter in match[1]:
        column = column * 26 + ord(letter) - ord("A") + 1
    return column, int(match[2])


def _range(reference: str):
    first, _colon, last = reference.partition(":")
    return _coordinates(first) + _coordinates(last or first)


def _values(number: int, cells, merged) -> list:
    """A row's cells; whatever stands in merged ones is of no single row or column."""
    values = [_value(cell) for cell in cells]
    for left, top, right, bottom in merged:
        if top <= number <= bottom:
            for column in range(left, min(right, len(values)) + 1):
                values[column - 1] = tables.Odd(_("the cell is merged with others: split them, and fill each"))
    return values


def _value(cell):
    """A text, a number as a Decimal, or what no figure is read from."""
    value, kind = cell.value, cell.data_type
    if value is None or isinstance(value, str) and kind not in "fe":
        return "" if value is None or value.isspace() else value
    if kind == "f":
        return tables.Odd(_("a formula stands here: copy it, and paste its value"))
    if isinstance(value, (date, time, timedelta)):
        return tables.Odd(_("the cell has a date's format: give it a number's, and type the number again"))
    if isinstance(value, bool):
        value = _("TRUE") if value else _("FALSE")
        kind = "e"
    if kind == "e":
        return tables.Odd(_("{value} is no figure").format(value=value))
    return amounts.number(value)
