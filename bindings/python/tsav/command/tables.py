"""A table of figures as people keep one, a row for each line of a sheet: code, block, class and two amounts in dollars. Here its rows
become lines, each with the cells that it came from; what can't be read in them is a fault, told by its cell.

The rows come in any order. A heading that names the five columns may stand on top, behind rows of titles; the columns then stand in any
order, among others with notes. Without a heading the five columns are the first five, and there is no sixth.
"""

import difflib
import re
import unicodedata
from decimal import Decimal
from typing import NamedTuple, Optional

from tsav.command import amounts, labels
from tsav.command.columns import CODES, SCALAR, Line, key
from tsav.command.messages import N_, _, language
from tsav.command.visible import visible

# The columns that a row is read from, each with what a heading may call it, in both languages whatever is spoken: the first two names are those
# that are written, in English and in French.
COLUMNS = {
    "code": ("Code", "Code"),
    "block": ("Block", "Bloc", "Territory", "Territoire"),
    "class": ("Class", "Classe"),
    "first": ("First amount", "Premier montant", "Amount 1", "Montant 1"),
    "second": ("Second amount", "Second montant", "Deuxième montant", "Amount 2", "Montant 2"),
}

# What the columns of notes are called that `tsav template` and `tsav export` write. Section is the same word in French.
NOTES = (N_("Line"), N_("First amount is"), N_("Second amount is"), "Section", N_("Unit"))

# What a comma leaves of an amount that it splits: 000, 234.50 $.
_MAY_BE_A_REST = re.compile(r"\s*[0-9]+([.,][0-9]+)?\s*\$?\s*")

# A heading stands among these rows, if there is one. One that lacks some of the five columns names so many of them at least; and so alike
# is a heading with a letter too many or too few.
_HEADING_ROWS = 20
_FEWEST_NAMES = 2
_ALIKE = 0.6
# What is misspelt is looked for in no more cells, and no more of each.
_HEADING_CELLS = 64


class Unreadable(ValueError):
    """The file as a whole isn't one of rows; why, in the user's language."""


class Fault(NamedTuple):
    """What is wrong in a cell, in the user's language. Row and column count from 1; a row and column of 0 are the table as a whole. The
    number is that of the call's refusal, where it is the call that refuses."""

    row: int
    column: int
    text: str
    refusal: Optional[int] = None


class Row(NamedTuple):
    """A row that isn't empty: its number, which counts from 1, and its cells, each a text, a Decimal, or Odd."""

    number: int
    cells: list


class Odd(NamedTuple):
    """What no figure is read from, whatever it shows: a formula, a date and the like. Why, in the user's language."""

    why: str


class Table(NamedTuple):
    """What was read: the lines, each with the number of its row, in the order of a sheet; the faults of the other rows; the columns'
    numbers by their names; how many rows were left out because both their amounts are empty; and the scalar's row, if it is one of these."""

    lines: list
    faults: list
    columns: dict
    empty: int
    scalar: Optional[int]


def cell_name(row: int, column: int) -> str:
    """A cell as spreadsheets name it, A1; its row alone where it has no column."""
    letters = ""
    while column:
        column, letter = divmod(column - 1, 26)
        letters = chr(ord("A") + letter) + letters
    return f"{letters}{row}"


def shown(text: str) -> str:
    """A cell's text as a message shows it: short, and without what a terminal would obey."""
    return visible(text if len(text) <= 40 else text[:39] + "…")


def column_names() -> dict:
    """What a heading is written with in the language that is spoken."""
    at = 0 if language() == "en" else 1
    return {column: names[at] for column, names in COLUMNS.items()}


def heading(rows) -> Optional[int]:
    """At which place of these rows the heading stands, if there is one."""
    return _names_at_least(rows, len(COLUMNS))


def broken_heading(rows) -> Optional[int]:
    """Where there is no heading: at which place a row stands that was to be one, and lacks a column."""
    return _names_at_least(rows, _FEWEST_NAMES)


def _names_at_least(rows, count: int) -> Optional[int]:
    return next((at for at, row in enumerate(rows[:_HEADING_ROWS]) if len(_names(row)) >= count), None)


def read(rows, delimiter: str = "") -> Table:
    """The lines of these rows, none of which is empty. A delimiter that they were split at may have stood in an amount; a comma may have left
    the rest of one under a heading of notes."""
    at = heading(rows)
    if at is None:
        reader = _Reader({name: column for column, name in enumerate(COLUMNS, 1)}, len(COLUMNS), delimiter)
        broken = broken_heading(rows)
        if broken is not None:
            # Of which column a cell is isn't known then.
            reader.lacking(rows[broken])
            rows = []
    else:
        width = max(column for column, cell in enumerate(rows[at].cells, 1) if cell != "")
        reader = _Reader(_names(rows[at]), width, delimiter)
        reader.titles(rows[:at])
        reader.twice(rows[at], reader.columns)
        rows = rows[at + 1 :]
    for row in rows:
        reader.row(row)
    return Table([reader.lines[place] for place in sorted(reader.lines)], reader.faults, reader.columns, reader.empty, reader.scalar)


def _plain(cell) -> str:
    """A heading's text without accents, capitals and doubled spaces."""
    if not isinstance(cell, str):
        return ""
    parted = unicodedata.normalize("NFKD", cell).casefold()
    return " ".join("".join(sign for sign in parted if not unicodedata.combining(sign)).split())


_NAMED = {_plain(name): column for column, names in COLUMNS.items() for name in names}


def _names(row: Row) -> dict:
    """The columns that this row names, each by the first cell that names it."""
    named = {}
    for column, cell in enumerate(row.cells, 1):
        name = _NAMED.get(_plain(cell))
        if name:
            named.setdefault(name, column)
    return named


def _meant(unknown: dict, missing) -> dict:
    """Which of these cells, by their columns, were to name the missing columns: those that are most alike; of the others none, unless there
    are as many as columns are missing."""
    found, left = {}, list(missing)
    pairs = [(_likeness(cell, name), -column, name) for column, cell in unknown.items() for name in missing]
    for likeness, column, name in sorted(pairs, reverse=True):
        if likeness >= _ALIKE and name in left and -column not in found:
            found[-column] = name
            left.remove(name)
    others = [column for column in unknown if column not in found]
    if len(others) == len(left):
        found.update(zip(others, left))
    return found


def _likeness(cell, name: str) -> float:
    return max(difflib.SequenceMatcher(None, _plain(cell)[:_HEADING_CELLS], _plain(known)).ratio() for known in COLUMNS[name])


class _Reader:
    """Reads row after row, and keeps what comes of them."""

    def __init__(self, columns: dict, width: int, delimiter: str):
        self.columns, self.width, self.delimiter = columns, width, delimiter
        self.lines, self.faults, self.empty, self.scalar = {}, [], 0, None

    def fault(self, row: int, column: int, text: str) -> None:
        self.faults.append(Fault(row, column, text))

    def titles(self, rows) -> None:
        """The rows above the heading: a code in one would be a row that is lost."""
        for row in rows:
            for column, cell in enumerate(row.cells, 1):
                if isinstance(cell, str) and cell.strip().upper() in CODES:
                    self.fault(row.number, column, _("{cell} stands above the heading, where no row is read").format(cell=shown(cell)))

    def twice(self, heading: Row, columns: dict) -> None:
        for column, cell in enumerate(heading.cells, 1):
            name = _NAMED.get(_plain(cell))
            if name and columns[name] != column:
                self.fault(heading.number, column, _("the heading names this column twice"))

    def lacking(self, heading: Row) -> None:
        """A heading that hasn't all of the columns: the cells that were to name the others, and what no cell was to name."""
        named, written = _names(heading), column_names()
        self.twice(heading, named)
        notes = {_plain(text) for note in NOTES for text in (note, _(note))}
        unknown = {
            column: cell
            for column, cell in enumerate(heading.cells[:_HEADING_CELLS], 1)
            if cell != "" and _plain(cell) not in notes and _plain(cell) not in _NAMED
        }
        missing = [name for name in COLUMNS if name not in named]
        meant = _meant(unknown, missing)
        columns = ", ".join(written.values())
        for column, name in meant.items():
            cell = unknown[column]
            text = _("{cell} names no column: {name} is missing, and a heading has all of: {columns}")
            if isinstance(cell, Odd):
                self.fault(heading.number, column, cell.why)
            else:
                self.fault(heading.number, column, text.format(cell=quoted(cell), name=written[name], columns=columns))
        lacking = ", ".join(written[name] for name in missing if name not in meant.values())
        if lacking:
            text = _("the heading that begins here lacks {lacking}: a heading has all of: {columns}")
            first = next(column for column, cell in enumerate(heading.cells, 1) if cell != "")
            self.fault(heading.number, first, text.format(lacking=lacking, columns=columns))

    def row(self, row: Row) -> None:
        named = {name: row.cells[column - 1] if column <= len(row.cells) else "" for name, column in self.columns.items()}
        if not self._beside(row):
            return
        if all(cell == "" for cell in named.values()):
            return  # of notes alone
        before = len(self.faults)
        code = self._code(row, named["code"])
        if not code:
            return
        block = self._cell(row, "block", named["block"], amounts.whole)
        klass = self._cell(row, "class", named["class"], amounts.whole)
        if len(self.faults) > before:
            return
        if named["first"] == "" and named["second"] == "":
            self.empty += 1
            if (code, block, klass) == SCALAR:
                self.scalar = row.number
            return
        first, second = self._amounts(row, code, block, klass, named)
        if len(self.faults) == before:
            self._line(Line(code, block, klass, first, second), row.number)

    def _beside(self, row: Row) -> bool:
        """Whether the cells beside the five columns are as they may be; the first that isn't is told."""
        for column, cell in enumerate(row.cells, 1):
            if cell == "" or column in self.columns.values():
                continue
            if column > self.width:
                split = _("nothing belongs here: was an amount split at a comma or a semicolon within it?")
                self.fault(row.number, column, split if self.delimiter else _("nothing belongs here: empty the cell, or give its column a heading"))
                return False
            if self.delimiter == "," and isinstance(cell, str) and _MAY_BE_A_REST.fullmatch(cell):
                self.fault(row.number, column, _("a number stands among the notes: was an amount split at a comma within it?"))
                return False
        return True

    def _code(self, row: Row, cell) -> str:
        code = cell.strip() if isinstance(cell, str) else ""
        if code in CODES:
            return code
        if code.upper() in CODES:
            text = _("{code} has small letters, which are those of a sheet in thousands of dollars: type {capitals}, and amounts in dollars")
            text = text.format(code=shown(code), capitals=code.upper())
        elif isinstance(cell, Odd):
            text = cell.why
        else:
            text = _("{cell} is no code ({codes}), and a heading has all of: {columns}").format(
                cell=quoted(cell), codes=", ".join(CODES), columns=", ".join(column_names().values())
            )
        self.fault(row.number, self.columns["code"], text)
        return ""

    def _amounts(self, row: Row, code: str, block: int, klass: int, named: dict):
        one = labels.amounts(code, klass)[1] is None
        unit = amounts.ten_thousandths if (code, block, klass) == SCALAR else amounts.cents
        first = self._cell(row, "first", named["first"], unit)
        if named["second"] == "" and one:
            return first, 0
        return first, self._cell(row, "second", named["second"], amounts.cents)

    def _cell(self, row: Row, name: str, cell, unit) -> Optional[int]:
        """What is read from the cell in this unit, or None where it can't be."""
        try:
            if isinstance(cell, Odd):
                raise amounts.Unreadable(cell.why)
            if cell == "":
                raise amounts.Unreadable(_("it is empty: type 0 where there is nothing"))
            return unit(cell)
        except amounts.Unreadable as error:
            text = str(error) if cell == "" or isinstance(cell, Odd) else _("{cell}: {why}").format(cell=quoted(cell), why=error)
            self.fault(row.number, self.columns[name], text)
            return None

    def _line(self, line: Line, row: int) -> None:
        there = self.lines.setdefault(key(line.code, line.block, line.klass), (line, row))
        if there[1] != row:
            text = _("{code}, block {block}, class {klass} stands in row {row} already")
            self.fault(row, self.columns["code"], text.format(code=line.code, block=line.block, klass=line.klass, row=there[1]))


def quoted(cell) -> str:
    if isinstance(cell, Decimal):
        return shown(str(cell).replace(".", amounts.decimal_sign()))
    return _("'{text}'").format(text=shown(cell))
