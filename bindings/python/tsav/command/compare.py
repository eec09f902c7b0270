"""`tsav compare`: the lines in which two sheets differ, and what each one, put alone into the old sheet, moves of the buffer."""

from typing import NamedTuple, Optional

import tsav
from tsav.command import accepted, columns, compared, files, labels, money, refusals
from tsav.command.accepted import Sheet
from tsav.command.answer import DONE, REFUSED, Answer
from tsav.command.doubts import place, place_value
from tsav.command.grid import grid
from tsav.command.messages import _, ngettext
from tsav.command.visible import visible

NAME = "compare"


class Difference(NamedTuple):
    """A line as both sheets have it, None where one hasn't; and what it moves alone, or the refusal that it meets alone."""

    key: columns.Key
    old: Optional[columns.Line]
    new: Optional[columns.Line]
    moves: Optional[int]
    refusal: Optional[int]


def add(commands, common) -> None:
    parser = commands.add_parser(
        NAME,
        parents=[common],
        help=_("say in which lines two sheets differ, and what each moves of the buffer"),
        description=_("Says in which lines two accepted sheets differ, and what each line alone, put into the old sheet, moves of its buffer."),
    )
    parser.add_argument("old", metavar=_("OLD"), help=_("the old sheet; - is standard input"))
    parser.add_argument("new", metavar=_("NEW"), help=_("the new sheet; - is standard input"))
    parser.set_defaults(run=run)


def run(options) -> Answer:
    (old, new), refused = accepted.read(options.old, options.new)
    value = {"old": options.old, "new": options.new, "refused": [some.value() for some in refused]}
    if refused:
        none = {"buffer_old": None, "buffer_new": None, "lines": [], "together": None, "total": None}
        return Answer(REFUSED, "".join(some.text() + "\n" for some in refused), {**value, **none})
    found = differences(old, new)
    total = new.buffer - old.buffer
    together = total - sum(difference.moves or 0 for difference in found)
    value.update(buffer_old=old.buffer, buffer_new=new.buffer)
    value.update(lines=[_value(old, new, difference) for difference in found], together=together, total=total)
    return Answer(DONE, _text(old, new, found, together), value)


def differences(old: Sheet, new: Sheet) -> list:
    """In the order of lines. A line of zeros is another than none: it may make a block."""
    keys = sorted({*old.lines, *new.lines})
    pairs = [(key, old.lines.get(key), new.lines.get(key)) for key in keys]
    return [Difference(*pair, *_alone(old, pair[0], pair[2])) for pair in pairs if pair[1] != pair[2]]


def _alone(old: Sheet, key: columns.Key, line: Optional[columns.Line]) -> tuple:
    """What the buffer moves by, or the refusal, where this line of the old sheet is as in the new one."""
    lines = {**old.lines, key: line} if line else {other: old.lines[other] for other in old.lines if other != key}
    try:
        report = tsav.sheet(b"".join(lines[other].written() for other in sorted(lines)))
    except tsav.Refused as refusal:
        return None, refusal.number
    return compared.figures(report)["TOT", 0, 3] - old.buffer, None


def _text(old: Sheet, new: Sheet, found: list, together: int) -> str:
    said = _("{file} is accepted. Base solvency buffer: {amount}")
    told = [said.format(file=visible(files.shown(sheet.name)), amount=money.dollars(sheet.buffer)) for sheet in (old, new)]
    if not found:
        return "\n".join([*told, _("They have the same lines.")]) + "\n"
    count = ngettext("{count} line differs:", "{count} lines differ:", len(found)).format(count=len(found))
    rows = [("", "", _("old"), _("new"), _("moves the buffer by"))]
    for difference in found:
        rows += _rows(difference)
    rows += [("", _("together"), "", "", _signed(together)), ("", _("total"), "", "", _signed(new.buffer - old.buffer))]
    return "\n".join([*told, count, "", *grid(rows, left=2), *_notes(found)]) + "\n"


def _notes(found: list):
    """What the column has no place for."""
    yield ""
    yield _("Each line is moved alone in the old sheet. 'Together' is what the lines move only with each other, so that the column adds up.")
    for difference in found:
        if difference.refusal is not None:
            what = refusals.words(difference.refusal).what
            said = _("{line} alone in the old sheet is refused by {number}, and is in 'together': {what}")
            yield said.format(line=place(difference.key), number=difference.refusal, what=what)


def _rows(difference: Difference) -> list:
    """One for each amount that differs; what the line moves stands in the first."""
    key, old, new, moves, refusal = difference
    names = labels.amounts(key.code, key.klass)
    name = labels.line_name(key.code, key.block, key.klass)
    cells = [(names[0], old and old.first, new and new.first), (names[1], old and old.second, new and new.second)]
    cells = [cell for cell in cells if (cell[1] or 0) != (cell[2] or 0)] or cells[:1]
    moved = _("refusal {number}").format(number=refusal) if moves is None else _signed(moves)
    rows = []
    for amount, then, now in cells:
        said = _("{line}: {amount}").format(line=name, amount=amount) if names[1] else name
        rows.append(("" if rows else place(key), said, _shown(key, then), _shown(key, now), "" if rows else moved))
    return rows


def _shown(key: columns.Key, amount: Optional[int]) -> str:
    if amount is None:
        return _("no line")
    return money.scalar(amount) if key == columns.key(*columns.SCALAR) else money.dollars(amount)


def _signed(cents: int) -> str:
    return "+" + money.dollars(cents) if cents > 0 else money.dollars(cents)


def _value(old: Sheet, new: Sheet, difference: Difference) -> dict:
    key, before, after, moves, refusal = difference
    return {
        **place_value(key),
        "name": labels.line_name(key.code, key.block, key.klass),
        "line_old": old.number(key),
        "line_new": new.number(key),
        "old": before and [before.first, before.second],
        "new": after and [after.first, after.second],
        "moves": moves,
        "refusal": refusal,
        "what": None if refusal is None else refusals.words(refusal).what,
    }
