"""A quarter: what its call says of each of its sheets, and why it is refused as a whole, by 24 or 25."""

import re
from typing import NamedTuple, Optional

import tsav
from tsav.command import columns, files, layout, money, telling
from tsav.command.answer import DONE, REFUSED, Answer, Failure
from tsav.command.faults import Fault, Mark, Shown, cut
from tsav.command.finder import Finder
from tsav.command.messages import _, ngettext
from tsav.command.visible import decoded, visible
from tsav.command.whole import TAKE_RETURNS_OUT, narrow, return_mark, returns_found

# 60 sheets are a fortieth of this: what is longer is no quarter, and may have no end.
MOST = 64 * 1024 * 1024
CLOSING = layout.CLOSING.encode("ascii")
_CLOSED = re.compile(rb"^%b\n" % CLOSING, re.MULTILINE)
TOO_MANY = 24
_NOT_CLOSED = 25


class Part(NamedTuple):
    """What stands before a closing line, and the number of its first line in the file."""

    sheet: bytes
    line: int


class Line(NamedTuple):
    """Of the call's answer: SHT with a buffer, or REF with a refusal and its place."""

    code: str
    number: int
    value: int


def answer(name: str, data: bytes) -> Answer:
    if len(data) > MOST:
        raise Failure(_("{file} is longer than {most} bytes, which no quarter is").format(file=visible(files.shown(name)), most=money.number(MOST)))
    first = _last(data)
    faults: list = []
    while _last(data).number == _NOT_CLOSED and _last(data).code == "REF":
        fault, data = _closed(data)
        faults.append(fault)
    parts, rest = _parts(data)
    lines = _lines(data)
    if _last(data).code == "REF" and _last(data).number == TOO_MANY:
        faults.append(_too_many(rest if len(parts) <= tsav.MOST_SHEETS else parts[tsav.MOST_SHEETS]))
        parts, lines = parts[: tsav.MOST_SHEETS], lines[: tsav.MOST_SHEETS]
    sheets = [_sheet(part, line) for part, line in zip(parts, lines)]
    refused = first if first.code == "REF" and first.number in (TOO_MANY, _NOT_CLOSED) else None
    value = {
        "file": name,
        "call": "quarter",
        "refusal": refused.number if refused else None,
        "sheet": refused.value if refused else None,
        "faults": [telling.fault_value(fault) for fault in faults],
        "sheets": [
            {"sheet": at, "starts": part.line, "buffer": None if finder.first else line.value, **telling.value(finder)}
            for at, (part, line, finder) in enumerate(zip(parts, lines, sheets), 1)
        ],
    }
    bad = any(finder.first for finder in sheets)
    return Answer(REFUSED if bad or refused else DONE, "\n".join(_text(name, refused, faults, sheets, parts)), value)


def closed(data: bytes) -> bool:
    """Whether it has a closing line: a last line without its line feed is none."""
    return bool(_CLOSED.search(data))


def meant(data: bytes) -> bool:
    """Whether something in it was meant to be a closing line, whatever the call says of it."""
    text = narrow(data) or data
    return CLOSING in text or any(_dashes(decoded(line.strip())) for line in text.split(b"\n"))


def _dashes(text: str) -> bool:
    return set(text) <= set(layout.DASHES) and len(text) > 9


def _lines(data: bytes) -> list:
    """The call's answer, without its summary."""
    said = tsav.quarter(data)
    lines = [said[at : at + tsav.SUMMARY_LINE] for at in range(0, len(said), tsav.SUMMARY_LINE)]
    return [Line(line[:3].decode("ascii"), int(line[4:6]), int(line[10:29])) for line in lines if not line.startswith(b"SUM")]


def _last(data: bytes) -> Line:
    return (_lines(data) or [Line("SUM", 0, 0)])[-1]


def _parts(data: bytes) -> tuple:
    """The sheets before the closing lines, and what is behind the last of them."""
    parts, at, line = [], 0, 1
    for closing in _CLOSED.finditer(data):
        parts.append(Part(data[at : closing.start()], line))
        line += parts[-1].sheet.count(b"\n") + 1
        at = closing.end()
    return parts, Part(data[at:], line)


def sheets(data: bytes) -> list:
    """The bytes before each closing line."""
    return [part.sheet for part in _parts(data)[0]]


def _sheet(part: Part, said: Line) -> Optional[Finder]:
    """The faults of a sheet, which the call has refused as the sheet call does."""
    finder = Finder(part.sheet)
    refusal = ("REF", finder.first.number, finder.first.line or 0) if finder.first else ("SHT", said.number, said.value)
    if refusal != said:
        raise tsav.ContractBroken(f"{said} where the sheet call gives {refusal}")
    # The sheet call takes no closing line, and a quarter has one here.
    finder.faults = [fault._replace(advice=_closes()) if _trails(fault) else fault for fault in finder.faults]
    return finder


def _trails(fault: Fault) -> bool:
    """Of a closing line."""
    return fault.cause == "trailing-spaces" and fault.advice == _(layout.TAKE_OUT)


def _closes() -> str:
    return _("Each sheet is closed by 39 minus signs and a line feed.")


def _too_many(part: Part) -> Fault:
    return Fault(
        TOO_MANY,
        "too-many-sheets",
        _("there are more than {most} sheets").format(most=tsav.MOST_SHEETS),
        line=part.line,
        lines=(Shown(part.line, cut(visible(decoded(part.sheet.split(b"\n")[0])))),),
        marks=(
            Mark(
                1,
                "too-many-sheets",
                _("something after the closing line of sheet {most}").format(most=tsav.MOST_SHEETS),
                _("the end of the file; the first {most} sheets are answered, without a summary").format(most=tsav.MOST_SHEETS),
            ),
        ),
        advice=_("Explain the sheets after it as another quarter; where nothing is meant there, take these lines out."),
    )


def _closed(data: bytes) -> tuple:
    """Of 25, its cause, and the quarter with its last sheet closed."""
    text = narrow(data)
    if text is not None:
        mark = Mark(1, "utf-16", _("two bytes for each letter: the file was saved as UTF-16"), _("a byte for each letter"))
        return _fault(1, data.split(b"\n")[0], mark), text
    if CLOSING + b"\r\n" in data:
        at = data.index(CLOSING + b"\r\n")
        mark = return_mark(CLOSING + b"\r", returns_found(data.count(b"\r\n"), data.count(b"\n") + (not data.endswith(b"\n"))))
        fault = _fault(1 + data[:at].count(b"\n"), CLOSING + b"\r", mark, _(TAKE_RETURNS_OUT))
        return fault._replace(title=_("a closing line ends with a carriage return")), data.replace(b"\r\n", b"\n")
    parts, rest = _parts(data)
    return _last_closed(data[: len(data) - len(rest.sheet)], rest)


def _last_closed(before: bytes, rest: Part) -> tuple:
    """By the last line that has something."""
    if not rest.sheet.strip():
        mark = Mark(1, "empty-line", _("an empty line"), _("nothing after the last closing line"))
        return _fault(rest.line, b"", mark, _("Take the line out.")), before
    kept = rest.sheet.rstrip()
    number = rest.line + kept.count(b"\n")
    start = kept.rfind(b"\n") + 1
    last = kept[start:]
    wanted = _("39 minus signs and a line feed, as the last line")
    text = decoded(last)
    if last == CLOSING:
        behind = rest.sheet[len(kept) :]
        spaces = len(behind) - len(behind.lstrip(b" "))
        if behind.startswith(b"\r"):
            last += b"\r"
            mark = return_mark(last, _("a carriage return"))
        elif spaces:
            last += behind[:spaces]
            found = ngettext("{count} space after the closing line", "{count} spaces after the closing line", spaces).format(count=spaces)
            mark = Mark(columns.LENGTH, "trailing-spaces", found, _("a line feed in column {column}").format(column=columns.LENGTH))
        else:
            column = _("a line feed in column {column}").format(column=columns.LENGTH)
            mark = Mark(columns.LENGTH, "no-line-feed", _("nothing after the closing line"), column)
        return _fault(number, last, mark), before + kept + b"\n"
    if _dashes(text):
        if set(text) == {"-"}:
            found = ngettext("{count} minus sign", "{count} minus signs", len(text)).format(count=len(text))
        else:
            found = _("{count} dashes that aren't all minus signs").format(count=len(text))
        return _fault(number, last, Mark(1, "closing-line", found, wanted)), before + kept[:start] + CLOSING + b"\n"
    if last.endswith(CLOSING):
        sheet = kept[: -len(CLOSING)]
        mark = Mark(len(text) - len(CLOSING) + 1, "no-line-feed", _("the closing line after a line without its line feed"), wanted)
        return _fault(number, last, mark), before + sheet + b"\n" + CLOSING + b"\n"
    mark = Mark(len(text) + 1, "not-closed", _("nothing after the last sheet"), wanted)
    fault = _fault(number, last, mark)._replace(instead=layout.CLOSING)
    return fault, before + kept + b"\n" + CLOSING + b"\n"


def _fault(number: int, line: bytes, mark: Mark, advice: str = "") -> Fault:
    return Fault(
        _NOT_CLOSED,
        mark.cause,
        _("the last sheet isn't closed"),
        line=number,
        lines=(Shown(number, cut(visible(decoded(line)))),),
        marks=(mark,),
        advice=advice or _closes(),
    )


def _text(name: str, refused: Optional[Line], faults: list, sheets: list, parts: list):
    bad = [at for at, finder in enumerate(sheets, 1) if finder.first]
    yield _head(name, refused, len(sheets), len(bad)) + "\n"
    yield from telling.paragraphs(faults, [])
    for at in bad:
        finder = sheets[at - 1]
        yield _("Sheet {sheet}, from line {line} on, is refused: {refusal}. {faults}:").format(
            sheet=at,
            line=parts[at - 1].line,
            refusal=telling.refusal_place(finder.first),
            faults=telling.count_of(finder.faults),
        ) + "\n"
        yield from telling.paragraphs(finder.faults, finder.not_tested)


def _head(name: str, refused: Optional[Line], count: int, bad: int) -> str:
    sheets = ngettext("{count} sheet", "{count} sheets", count).format(count=count)
    said = _("{file}: {sheets}; refused: {bad}.").format(file=visible(files.shown(name)), sheets=sheets, bad=bad)
    if refused:
        said += " " + _("The quarter as a whole: refusal {number} at sheet {sheet}.").format(number=refused.number, sheet=refused.value)
    return said
