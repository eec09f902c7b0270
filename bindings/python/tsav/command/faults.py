"""A fault, as it is told: what is where, what is wanted, and what is to be done."""

from typing import NamedTuple, Optional

from tsav.command import columns
from tsav.command.messages import _
from tsav.command.rows import Row
from tsav.command.visible import decoded, visible

# The characters of a line that are shown.
MOST_SHOWN = 160


class Mark(NamedTuple):
    """What is in a column, and what is wanted there."""

    column: int
    cause: str
    found: str
    wanted: str


class Shown(NamedTuple):
    """A line as it stands, by its number in the file, None where it isn't there."""

    number: Optional[int]
    text: str


class Amount(NamedTuple):
    """In cents; None is more than any call gives, or a figure of a block that doesn't exist."""

    name: str
    cents: Optional[int]


class Fault(NamedTuple):
    """A refusal's number and its cause; in which line, up to which where empty ones follow; the lines concerned, the first of them
    under the marks; what is to be typed, and what is to be done; the amounts that were compared; what the line is of; whether it is
    shown as it was set right before; and the line that the call names, where it counts others than the file's."""

    number: int
    cause: str
    title: str
    line: Optional[int] = None
    last: Optional[int] = None
    lines: tuple = ()
    marks: tuple = ()
    instead: Optional[str] = None
    advice: str = ""
    compared: tuple = ()
    name: str = ""
    set_right: bool = False
    counted: Optional[int] = None


class NotTested(NamedTuple):
    """A refusal that isn't told, as it depends on these lines; all else of the sheet where there is no number."""

    number: Optional[int]
    lines: tuple


def shown(row: Row) -> Shown:
    return Shown(row.number, cut(visible(decoded(row.now.rstrip(b"\n")))))


def cut(text: str) -> str:
    """As much of a line as is looked at: a file of other things may have no line feed."""
    return text if len(text) <= MOST_SHOWN else text[: MOST_SHOWN - 1] + "\u2026"


def typed(line: columns.Line) -> str:
    return line.written()[:-1].decode("ascii")


def line_words(row: Row) -> str:
    if row.number is None:
        return _("the scalar's line")
    return _("line {number}").format(number=row.number)


def key_of(line: columns.Line) -> tuple:
    return line.code.upper(), line.block, line.klass
