"""A file of text whose rows are split at commas, semicolons or tabs, as spreadsheets write it: its rows, and the same of a sheet's lines."""

import csv
import io

from tsav.command import amounts, tables
from tsav.command.columns import SCALAR
from tsav.command.messages import _, language

# Far above what 629 rows have, and soon read.
LONGEST = 1 << 20

_DELIMITERS = ",;\t"


def rows(content: bytes):
    """The rows that aren't empty, and what they were split at."""
    text = _text(content)
    # Of a heading the delimiter is known for certain, also of one that lacks a column; otherwise it is the first sign that can be one.
    for heading in (tables.heading, tables.broken_heading):
        for delimiter in _DELIMITERS:
            try:
                found = _split(text, delimiter)
            except tables.Unreadable:
                continue
            if heading(found) is not None:
                return found, delimiter
    delimiter = _first_delimiter(text)
    return _split(text, delimiter), delimiter


def content(lines) -> bytes:
    """The file of these lines."""
    sign = amounts.decimal_sign()
    found = [tables.column_names().values()]
    for line in lines:
        scalar = (line.code, line.block, line.klass) == SCALAR
        first = amounts.scalar_written(line.first, sign) if scalar else amounts.written(line.first, sign)
        found.append((line.code, line.block, line.klass, first, amounts.written(line.second, sign)))
    return written(found).encode("utf-8")


def written(rows_) -> str:
    """Rows as the language's spreadsheets write them: comma and point, or semicolon and decimal comma."""
    file = io.StringIO()
    csv.writer(file, delimiter="," if language() == "en" else ";", lineterminator="\n").writerows(rows_)
    return file.getvalue()


def _text(content: bytes) -> str:
    """UTF-8, with a mark or without, UTF-16 with one, otherwise the Windows alphabet of western Europe."""
    if content[:2] in (b"\xff\xfe", b"\xfe\xff"):
        encodings = ("utf-16",)
    else:
        encodings = ("utf-8-sig", "cp1252")
    for encoding in encodings:
        try:
            text = content.decode(encoding)
        except UnicodeDecodeError:
            continue
        if "\0" not in text:
            return text
        break
    raise tables.Unreadable(_("it is no text: save it as CSV (UTF-8), or as a workbook (.xlsx)"))


def _first_delimiter(text: str) -> str:
    """In the first line: a code stands before it, in which there is none."""
    first = (text.strip("\r\n ").splitlines() or [""])[0]
    return next((sign for sign in first if sign in _DELIMITERS), ",")


def _split(text: str, delimiter: str):
    found, number = [], 0
    reader = csv.reader(io.StringIO(text, newline=""), delimiter=delimiter, strict=True)
    try:
        for number, cells in enumerate(reader, 1):
            # A cell of spaces is as empty as it looks.
            cells = ["" if cell.isspace() else cell for cell in cells]
            # There may be rows in it that were taken in.
            if any(len(cell.splitlines()) > 1 for cell in cells):
                raise tables.Unreadable(_("row {row}: a cell has several lines: is a quotation mark missing?").format(row=number))
            if any(cells):
                found.append(tables.Row(number, cells))
    except csv.Error as error:
        raise tables.Unreadable(_("row {row}: its quotation marks or its length are wrong").format(row=number + 1)) from error
    return found
