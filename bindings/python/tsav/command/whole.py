"""What is wrong with a file as a whole: its length, its bytes, and what was put before or between all of them."""

from typing import Optional

import tsav
from tsav.command import columns, layout, money
from tsav.command.faults import Fault, Mark, NotTested, Shown, cut
from tsav.command.messages import N_, _, ngettext
from tsav.command.visible import decoded, visible

# Said of carriage returns at the ends of lines.
TAKE_RETURNS_OUT = N_("Save it with Unix line ends (LF, not CRLF), or take them out: tr -d '\\r' < FILE > mended.sheet")
_BYTE_ORDER_MARK = b"\xef\xbb\xbf"
_WIDE_MARKS = (b"\xff\xfe", b"\xfe\xff")
_WORKBOOK = b"PK\x03\x04"


def too_long(finder, data: bytes) -> None:
    """Nothing more is told of it."""
    most = money.number(tsav.LONGEST_SHEET)
    lines = tsav.LONGEST_SHEET // columns.LENGTH
    if finder.faults:
        title = _("set right so far, the sheet is longer than {most} bytes, which are {lines} lines")
    else:
        title = _("the sheet is longer than {most} bytes, which are {lines} lines")
    finder.faults.append(Fault(1, "too-long-sheet", title.format(most=most, lines=lines), advice=_why_long(data)))
    finder.not_tested.append(NotTested(None, ()))


def _why_long(data: bytes) -> str:
    """What is seen in it that no sheet has."""
    if data.startswith(_WORKBOOK):
        return _("A workbook with figures in dollars is read by tsav import.")
    if any(layout.closes(decoded(line)) for line in data.split(b"\n")):
        return _("It has lines that close the sheets of a quarter, which is explained by tsav explain --quarter.")
    if narrow(data) is not None:
        return _("Save it as plain text, in ASCII or in UTF-8 without a byte order mark.")
    if _no_text(data):
        return _("Look whether this is the file that was meant.")
    advice = [_("Look for lines that are doubled, and for what is no line of a sheet.")]
    if b"\r\n" in data:
        advice.append(_("It has carriage returns, a byte in each line that no line has: save it with Unix line ends (LF)."))
    if any(not line.strip() for line in data.split(b"\n")[:-1]):
        advice.append(_("It has empty lines."))
    return " ".join(advice)


def text(finder, refusal, data: bytes) -> Optional[bytes]:
    """Without what was put before or between all its bytes; None where it is no text."""
    narrowed = narrow(data)
    if narrowed is not None:
        of_file(
            finder,
            refusal,
            Mark(1, "utf-16", _("two bytes for each letter: the file was saved as UTF-16"), _("a byte for each letter")),
            _line_of(data, 1),
            _("Save it as plain text, in ASCII or in UTF-8 without a byte order mark."),
        )
        data = narrowed
    elif data.startswith(_WORKBOOK):
        mark = Mark(1, "not-text", _("a workbook"), _("lines of plain text"))
        of_file(finder, refusal, mark, _line_of(data, 1), _("A workbook with figures in dollars is read by tsav import."))
        return None
    elif _no_text(data):
        mark = Mark(1, "not-text", _("bytes that are no text"), _("lines of plain text"))
        of_file(finder, refusal, mark, _line_of(data, refusal.line or 1), _("Look whether this is the file that was meant."))
        return None
    return _marked(finder, data)


def _marked(finder, data: bytes) -> bytes:
    """Without a byte order mark, and with line feeds where it has carriage returns alone."""
    refusal = finder.refused(data)
    if refusal and refusal.line in (None, 1) and data.startswith(_BYTE_ORDER_MARK):
        of_file(
            finder,
            refusal,
            Mark(1, "byte-order-mark", _("a byte order mark before the first line"), _("the code in columns 1 to 3")),
            _line_of(data, 1),
            _("Save it as plain text without a mark: ASCII, or UTF-8 without BOM."),
        )
        data = data[len(_BYTE_ORDER_MARK) :]
        refusal = finder.refused(data)
    if refusal and b"\r" in data and b"\n" not in data:
        line = data.split(b"\r")[0] + b"\r"
        of_file(
            finder,
            refusal,
            return_mark(line, _("a carriage return in place of each line feed")),
            Shown(1, cut(visible(decoded(line)))),
            _("Save it with Unix line ends (LF), or change them: tr '\\r' '\\n' < FILE > mended.sheet"),
        )
        data = data.replace(b"\r", b"\n")
    return data


def of_file(finder, refusal, mark: Mark, line: Shown, advice: str) -> None:
    title = _(layout.NAMES[mark.cause])
    finder.add(refusal, mark.cause, title, line=line.number, lines=(line,), marks=(mark,), advice=advice)


def narrow(data: bytes) -> Optional[bytes]:
    """A file in UTF-16, in UTF-8; None of any other."""
    if data.startswith(_WIDE_MARKS):
        name = "utf-16"
    else:
        # Of plain letters, one byte of each two is 0.
        odd, even, most = data[1::2].count(0), data[::2].count(0), len(data) // 2
        if data.startswith(_WORKBOOK) or len(data) < 4 or max(odd, even) * 4 < 3 * most or min(odd, even) * 4 > most:
            return None
        name = "utf-16-le" if odd > even else "utf-16-be"
    return data.decode(name, errors="replace").encode("utf-8", errors="replace")


def _no_text(data: bytes) -> bool:
    """A tenth of control characters is more than any text has."""
    return sum(byte < 0x20 and byte not in b"\t\n\r" for byte in data) * 10 > len(data)


def _line_of(data: bytes, number: int) -> Shown:
    lines = data.split(b"\n")
    number = min(number, len(lines))
    return Shown(number, cut(visible(decoded(lines[number - 1]))))


def returns_found(count: int, lines: int) -> str:
    """So many lines of all end with one."""
    found = ngettext("a carriage return at the end of {count} line of {all}", "a carriage return at the end of {count} lines of {all}", count)
    return found.format(count=count, all=lines)


def return_mark(line: bytes, found: str, length: int = columns.LENGTH) -> Mark:
    """Of a line that ends with a carriage return, and should have this length."""
    wanted = _("a line feed in column {column}, as Unix line ends (LF) have it").format(column=length)
    return Mark(len(decoded(line)), "carriage-return", found, wanted)
