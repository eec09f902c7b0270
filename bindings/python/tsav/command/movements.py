"""What the movement call says of its input, 18 lines of an amount in 14 columns, and of the risks that it refuses by 22."""

from typing import List, Set

import tsav
from tsav.command import files, labels, layout, money, telling
from tsav.command.answer import DONE, REFUSED, Answer, Failure
from tsav.command.faults import Amount, Fault, Mark, NotTested, Shown, cut
from tsav.command.finder import refused
from tsav.command.messages import _
from tsav.command.visible import decoded, visible
from tsav.command.whole import return_mark

LINES = 18
WIDTH = tsav.MOVEMENT_NUMBERS // LINES
# What is longer has no such numbers, and may have no end.
MOST = 16 * tsav.MOVEMENT_NUMBERS
_RISKS = 7
_EXPENSES = 14
_RAISED = 22
_BYTE_ORDER_MARK = b"\xef\xbb\xbf"


def name_of(number: int) -> str:
    """What a line of the input is, counted from 1."""
    if number == LINES:
        return _("t, by which a component is raised")
    if number > 2 * _RISKS:
        return labels.label("OTH", 1, number - 2 * _RISKS).name
    klass = (number + 1) // 2
    return f"{labels.label('RSK', 1, klass).name}, {labels.amounts('RSK', 1)[(number + 1) % 2]}"


class _Lines:
    """The input, line by line, while its faults are looked for."""

    def __init__(self, data: bytes):
        self.faults: List[Fault] = []
        self.not_tested: List[NotTested] = []
        self._unread: Set[int] = set()
        self.first = refused(tsav.movement, data)
        self.data = data
        refusal = self.first
        while refusal and self._told(refusal):
            refusal = refused(tsav.movement, self.data)
        if refusal:
            self.not_tested.append(NotTested(None, ()))

    @property
    def lines(self) -> List[bytes]:
        return [line + b"\n" for line in self.data.split(b"\n")[:-1]]

    def _told(self, refusal: tsav.Refused) -> bool:
        """False where it can't be set right."""
        before = self.data
        if refusal.number == 8:
            self._position(refusal, "second-amount", _("level and trend of expenses isn't 0"), "0", 0)
        elif refusal.number == 9:
            amount = int(self.lines[refusal.position - 1])
            wanted = _("at most the gross component, {amount}").format(amount=amount)
            self._position(refusal, "level-and-trend", _("level and trend above the gross component"), wanted, amount)
        else:
            self._layout(refusal)
        return self.data != before

    def _add(self, refusal, cause: str, title: str, number: int, text: str, marks: tuple, **more) -> None:
        name = name_of(number) if number <= LINES else ""
        self.faults.append(Fault(refusal.number, cause, title, line=number, name=name, lines=(Shown(number, cut(text)),), marks=marks, **more))

    def _put(self, number: int, amount: int) -> None:
        lines = self.lines
        lines[number - 1] = b"%14d\n" % amount
        self.data = b"".join(lines)

    def _position(self, refusal, cause: str, title: str, wanted: str, amount: int) -> None:
        """Not told where an amount that is compared couldn't be read, and stands as zero."""
        number = refusal.position + 1
        there = self.lines[number - 1].decode("ascii")[:-1]
        if not self._unread & {number - 1, number}:
            mark = Mark(WIDTH - 1, cause, there.strip(), wanted)
            self._add(refusal, cause, title, number, there, (mark,), instead=f"{amount:14}" if amount == 0 else None)
        self._put(number, amount)

    def _layout(self, refusal) -> None:
        """Of 2 and 3."""
        if self.data.startswith(_BYTE_ORDER_MARK):
            mark = Mark(1, "byte-order-mark", _("a byte order mark before the first line"), _("an amount in columns 1 to 14"))
            self._add(refusal, mark.cause, _(layout.NAMES[mark.cause]), 1, visible(decoded(self.data.split(b"\n")[0])), (mark,))
            self.data = self.data[len(_BYTE_ORDER_MARK) :]
        elif b"\r\n" in self.data:
            at = self.data.index(b"\r\n")
            line = self.data[: at + 1].split(b"\n")[-1]
            mark = return_mark(line, _("a carriage return at the end of a line"), WIDTH)
            number = 1 + self.data[:at].count(b"\n")
            self._add(refusal, mark.cause, _(layout.NAMES[mark.cause]), number, visible(decoded(line)), (mark,))
            self.data = self.data.replace(b"\r\n", b"\n")
        elif self.data and not self.data.endswith(b"\n"):
            line = decoded(self.data.split(b"\n")[-1])
            mark = Mark(
                len(line) + 1, "no-line-feed", _("nothing after the last line"), _("a line feed in column {column}").format(column=WIDTH)
            )
            self._add(refusal, mark.cause, _(layout.NAMES[mark.cause]), 1 + self.data.count(b"\n"), visible(line), (mark,))
            self.data += b"\n"
        else:
            self._line(refusal)

    def _line(self, refusal) -> None:
        """The first line that isn't an amount in its columns; or how many there are."""
        lines = self.lines
        for number, line in enumerate(lines, 1):
            text = decoded(line[:-1])
            name = name_of(number) if number <= LINES else _("the amount")
            causes, value = layout.read_amount(text, name)
            if causes:
                marks = tuple(Mark(cause.column, cause.name, cause.found, cause.wanted) for cause in causes)
                cause = causes[0].name
                instead = f"{value:14}" if value is not None else None
                self._add(refusal, cause, _(layout.NAMES[cause]), number, visible(text), marks, instead=instead)
                if cause == "empty-line" and len(lines) > LINES:
                    self.data = b"".join(lines[: number - 1] + lines[number:])
                else:
                    self._put(number, value or 0)
                    if value is None:
                        self._unread.add(number)
                return
        self._count(refusal, lines)

    def _count(self, refusal, lines: List[bytes]) -> None:
        """All of them are sound, and not 18."""
        title = _("{count} lines in place of 18").format(count=len(lines))
        if len(lines) < LINES:
            self.faults.append(Fault(refusal.number, "lines", title, advice=_("A zero is typed, too: no line may be left out.")))
            return
        text = visible(decoded(lines[LINES][:-1]))
        mark = Mark(1, "lines", _("a line after that of t"), _("the end of the file"))
        self._add(refusal, "lines", title, LINES + 1, text, (mark,))
        self.data = b"".join(lines[:LINES])


def answer(name: str, data: bytes) -> Answer:
    if len(data) > MOST:
        said = _("{file} is longer than {most} bytes, which 18 numbers aren't")
        raise Failure(said.format(file=visible(files.shown(name)), most=money.number(MOST)))
    found = _Lines(data)
    faults = found.faults
    if not found.not_tested:
        faults = faults + _raised(found)
    value = {
        "file": name,
        "call": "movement",
        "refusal": found.first.number if found.first else None,
        "line": found.first.line if found.first else None,
        "position": found.first.position if found.first else None,
        "faults": [telling.fault_value(fault) for fault in faults],
        "not_tested": [telling.not_tested_value(some) for some in found.not_tested],
    }
    if not faults:
        return Answer(DONE, _("{file} is accepted by the movement call, for each risk.").format(file=visible(files.shown(name))) + "\n", value)
    if found.first:
        said = _("{file} is refused by the movement call: {refusal}. {faults}:")
        head = said.format(file=visible(files.shown(name)), refusal=telling.refusal_place(found.first), faults=telling.count_of(faults))
    else:
        head = _("{file} is accepted by the movement call, but not for each risk. {faults}:").format(
            file=visible(files.shown(name)), faults=telling.count_of(faults)
        )
    return Answer(REFUSED, "\n".join([head + "\n", *telling.paragraphs(faults, found.not_tested)]), value)


def _raised(found: _Lines) -> List[Fault]:
    """The risks whose line of the answer is REF 22, where their own lines and that of t are as they were typed."""
    said = tsav.movement(found.data)
    lines = found.lines
    told = {fault.line for fault in found.faults}
    faults = []
    for risk in range(1, _RISKS + 1):
        row = said[(risk - 1) * tsav.REPORT_LINE : risk * tsav.REPORT_LINE]
        number = 2 * risk - 1
        if not row.startswith(b"REF") or told & {number, LINES}:
            continue
        component, t = int(lines[number - 1]), int(lines[LINES - 1])
        faults.append(
            Fault(
                _RAISED,
                "raised",
                _("raised, the component passes the largest amount"),
                line=number,
                name=name_of(number),
                lines=tuple(Shown(at, visible(decoded(lines[at - 1][:-1]))) for at in (number, LINES)),
                advice=_("Take a smaller t for this risk; the others are answered."),
                compared=(
                    Amount(_("component"), component),
                    Amount("t", t),
                    Amount(_("largest amount"), money.LARGEST_AMOUNT),
                ),
            )
        )
    return faults
