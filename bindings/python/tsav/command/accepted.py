"""Sheets that are accepted: their lines, the figures of their reports, and what the sheet call says of them with other lines."""

from typing import NamedTuple, Optional

import tsav
from tsav.command import columns, compared, files, kinds, refusals, telling
from tsav.command.answer import Failure
from tsav.command.messages import _
from tsav.command.visible import visible


class Refused(NamedTuple):
    """A file that is refused, why, and what it has."""

    name: str
    refusal: tsav.Refused
    data: bytes

    def text(self) -> str:
        """What is no sheet in cents is told to be what it is."""
        kind = self._kind()
        said = _("{file} is refused: {refusal}. {what}") if kind else _("{file} is refused: {refusal}. {what} tsav explain says what to mend.")
        return said.format(file=visible(files.shown(self.name)), refusal=telling.refusal_place(self.refusal), what=kind or self._what())

    def value(self) -> dict:
        what = self._kind() or self._what()
        return {"file": self.name, "refusal": self.refusal.number, "line": self.refusal.line, "what": what}

    def _kind(self) -> str:
        return kinds.told(kinds.of(self.data), self.name)

    def _what(self) -> str:
        return refusals.words(self.refusal.number).what


class Sheet:
    """Of an accepted file. Refused otherwise."""

    def __init__(self, name: str, data: bytes):
        self.name = name
        self.data = data
        self.figures = compared.figures(tsav.sheet(data))
        lines = [columns.read(data[at : at + columns.LENGTH]) for at in range(0, len(data), columns.LENGTH)]
        # By what they are of, in the sheet's order.
        self.lines = {line.key: line for line in lines}

    @property
    def buffer(self) -> int:
        return self.figures["TOT", 0, 3]

    def first(self, code: str, block: int, klass: int) -> int:
        """The first amount of this line; a line that is absent counts as zeros."""
        line = self.lines.get(columns.key(code, block, klass))
        return line.first if line else 0

    def number(self, key: columns.Key) -> Optional[int]:
        """Which line of the sheet it is, None where it is absent."""
        return list(self.lines).index(key) + 1 if key in self.lines else None

    def changed(self, lines) -> dict:
        """The lines with these in the place of those that are of the same."""
        return {**self.lines, **{line.key: line for line in lines}}

    def buffer_with(self, lines) -> Optional[int]:
        """What the buffer would be with these lines, None where that would be refused."""
        found = compared.report(self.changed(lines).values())
        return found["TOT", 0, 3] if found else None


def read(*names: str) -> tuple:
    """The sheets of these files; and those that are refused, in whose place there is None."""
    if names.count(files.STANDARD_INPUT) > 1:
        raise Failure(_("only one of the two sheets can be standard input"))
    sheets: list = []
    refused: list = []
    for name in names:
        data = files.read(name, tsav.LONGEST_SHEET)
        try:
            sheets.append(Sheet(name, data))
        except tsav.Refused as refusal:
            sheets.append(None)
            refused.append(Refused(name, refusal, data))
    return sheets, refused
