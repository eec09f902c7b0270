"""How the faults of a sheet are told: in text, with a caret under each column, and as a value for `--json`."""

import tsav
from tsav.command import money, refusals
from tsav.command.faults import MOST_SHOWN, Fault, NotTested
from tsav.command.finder import Finder
from tsav.command.labels import numbers
from tsav.command.messages import _, ngettext

_MARGIN = "    "


def count_of(faults: list) -> str:
    return ngettext("{count} fault", "{count} faults", len(faults)).format(count=len(faults))


def refusal_place(refusal: tsav.Refused) -> str:
    """The call's own answer, its number and place."""
    if refusal.position is not None:
        return _("refusal {number} at position {position}").format(number=refusal.number, position=refusal.position)
    if refusal.line is None:
        return _("refusal {number}").format(number=refusal.number)
    return _("refusal {number} at line {line}").format(number=refusal.number, line=refusal.line)


def paragraphs(faults: list, not_tested: list):
    """One of lines for each fault, and one for what isn't tested."""
    for count, fault in enumerate(faults, 1):
        proposed = any(before.instead is not None and before.line == fault.line for before in faults[: count - 1])
        yield "\n".join([f"{count}. {_title(fault)}"] + [_MARGIN[1:] + line for line in _body(fault, proposed)]) + "\n"
    for some in not_tested:
        yield _not_tested(some) + "\n"


def value(finder: Finder) -> dict:
    """Of one call on one sheet."""
    return {
        "refusal": finder.first.number if finder.first else None,
        "line": finder.first.line if finder.first else None,
        "faults": [fault_value(fault) for fault in finder.faults],
        "not_tested": [not_tested_value(some) for some in finder.not_tested],
    }


def not_tested_value(some: NotTested) -> dict:
    return {"refusal": some.number, "lines": list(some.lines)}


def _title(fault: Fault) -> str:
    number = _("refusal {number}").format(number=fault.number)
    if fault.line is None:
        place = number[:1].upper() + number[1:]
    elif fault.last is not None:
        place = _("Lines {first} to {last}, {refusal}").format(first=fault.line, last=fault.last, refusal=number)
    else:
        place = _("Line {line}, {refusal}").format(line=fault.line, refusal=number)
    return f"{place}{_(': ')}{fault.title}" + (f" ({fault.name})" if fault.name else "")


def _body(fault: Fault, proposed: bool):
    """The line and its caret; what is there and wanted; the other lines and amounts; what to type; what to do. Whether the line was set
    right as it was proposed, or only so that what follows can be looked for."""
    if fault.counted is not None:
        yield _("The call counts 40 bytes for a line, and names line {line}.").format(line=fault.counted)
    if fault.set_right:
        yield _("As it is set right above:") if proposed else _("Until that is mended, the line is taken as this:")
    for at, shown in enumerate(fault.lines):
        yield from _line(shown, fault.marks if at == 0 else (), len(fault.lines) > 1)
    for mark, behind in zip(fault.marks, fault.marks[1:] + (None,)):
        yield _("Column {column}: {found}.").format(column=mark.column, found=mark.found)
        if behind is None or behind.wanted != mark.wanted:
            yield _("Wanted: {wanted}.").format(wanted=mark.wanted)
    yield from _amounts(fault)
    if fault.instead is not None:
        yield _("Type instead:") if fault.lines else _("Type:")
        yield _MARGIN + fault.instead
    if fault.advice:
        yield fault.advice


def _line(shown, marks, numbered: bool):
    """The line as it stands, with a caret under each column that is marked."""
    before = _("line {number}").format(number=shown.number) + _(": ") if numbered else ""
    yield _MARGIN + before + shown.text
    columns = {mark.column for mark in marks if mark.column <= MOST_SHOWN}
    if columns:
        carets = "".join("^" if column in columns else " " for column in range(1, max(columns) + 1))
        yield _MARGIN + " " * len(before) + carets


def _amounts(fault: Fault):
    width = max((len(amount.name) for amount in fault.compared), default=0)
    shown = [money.above_the_limit() if amount.cents is None else money.dollars(amount.cents) for amount in fault.compared]
    right = max(map(len, shown), default=0)
    for amount, text in zip(fault.compared, shown):
        yield _MARGIN + f"{amount.name:{width}}  {text:>{right}}"


def _not_tested(some: NotTested) -> str:
    if some.number is None:
        return _("What else there may be isn't tested until this is mended.")
    what = refusals.words(some.number).what
    count = len(some.lines)
    lines = numbers(some.lines)
    said = ngettext(
        "Refusal {number} isn't tested until line {lines} is mended. It is: {what}",
        "Refusal {number} isn't tested until lines {lines} are mended. It is: {what}",
        count,
    )
    return said.format(number=some.number, lines=lines, what=what)


def fault_value(fault: Fault) -> dict:
    """For `--json`. `cause` is of a stable list, in English; the texts are in the language of the answer."""
    return {
        "refusal": fault.number,
        "cause": fault.cause,
        "title": fault.title,
        "line": fault.line,
        "last": fault.last,
        "counted": fault.counted,
        "set_right": fault.set_right,
        "name": fault.name or None,
        "lines": [{"line": shown.number, "text": shown.text} for shown in fault.lines],
        "marks": [mark._asdict() for mark in fault.marks],
        "instead": fault.instead,
        "advice": fault.advice or None,
        "compared": [{"name": amount.name, "cents": amount.cents} for amount in fault.compared],
    }
