"""What a file is that was taken for a sheet in cents, and what takes it or makes one of it; and whether one that was taken for figures is a sheet."""

import re
import shlex
from collections import Counter
from typing import Optional

import tsav
from tsav.command import columns, files, layout, workbook
from tsav.command.messages import N_, _
from tsav.command.visible import decoded, visible
from tsav.command.whole import narrow

WORKBOOK, ROWS, THOUSANDS, QUARTER, SHEET = "workbook", "rows", "thousands", "quarter", "sheet"
# One in thousands that the converter refuses.
TO_MEND = "thousands-to-mend"

# A code and what text is split at; a tab may have been put between the columns of a sheet too.
_SPLIT = re.compile(r'"?([A-Za-z]{3})"?\s*[,;|]')
_COLUMNS = re.compile(r"([A-Za-z]{3}) *[0-9]{1,2} +[0-9]{1,2} +[0-9]+ +[0-9]+ *")
# So many lines are looked at: a few of titles may stand before.
_LOOKED_AT = 40

_SAID = {
    WORKBOOK: N_("It is a workbook. If its amounts are in dollars, this makes a sheet of it: {command}"),
    ROWS: N_("It is a file of rows (CSV). If its amounts are in dollars, this makes a sheet of it: {command}"),
    THOUSANDS: N_("It is a sheet in thousands of dollars. This makes one in cents of it: {command}"),
    TO_MEND: N_("It is a sheet in thousands of dollars. Once it is mended, this makes one in cents of it: {command}"),
    QUARTER: N_(
        "It is the file of a quarter, sheets that are each closed by 39 minus signs, and one sheet is read here. "
        "This makes a page of all of them: {command}; and tsav explain --quarter says what is refused of them."
    ),
}
_COMMANDS = {
    WORKBOOK: "tsav import {file} -o {sheet}",
    ROWS: "tsav import {file} -o {sheet}",
    THOUSANDS: "tsav-convert {file} -o {sheet}",
    TO_MEND: "tsav-convert {file} -o {sheet}",
    QUARTER: "tsav report --quarter {file} -o page.html",
}


def of(data: bytes) -> Optional[str]:
    """None where it can't be told."""
    if workbook.is_one(data):
        return WORKBOOK
    text = decoded(narrow(data) or data).removeprefix("\ufeff")
    lines = [line for line in text.splitlines() if line.strip()]
    counted = Counter(filter(None, map(_line, lines[:_LOOKED_AT])))
    kind = counted.most_common(1)[0][0] if counted else None
    if kind == ROWS:
        return kind
    if any(map(layout.closes, lines)) and any(line[: columns.CODE].upper() in columns.CODES for line in lines):
        return QUARTER
    # With one code that isn't in small letters it is none in thousands.
    kind = SHEET if SHEET in map(_line, lines) else kind
    return TO_MEND if kind == THOUSANDS and not _converted(data) else kind


def _converted(data: bytes) -> bool:
    """Whether the converter takes it as it stands."""
    try:
        tsav.convert(data)
    except tsav.Refused:
        return False
    return True


def _line(line: str) -> Optional[str]:
    """What it is a line of."""
    split, fixed = _SPLIT.match(line), _COLUMNS.fullmatch(line)
    code = (split or fixed or [None, ""])[1]
    if code.upper() not in columns.CODES:
        return None
    if split:
        return ROWS
    return THOUSANDS if code.islower() else SHEET


def told(kind: Optional[str], name: str) -> str:
    """In one sentence, with the command to type; nothing of a sheet in cents."""
    if kind not in _SAID:
        return ""
    file = _("FILE") if name == files.STANDARD_INPUT else visible(shlex.quote(name))
    # No program writes onto the file that it reads.
    sheet = "cents.sheet" if name.endswith("my.sheet") else "my.sheet"
    return _(_SAID[kind]).format(command=_COMMANDS[kind].format(file=file, sheet=sheet))
