"""A sheet while its faults are looked for: its lines as they stand in the file, and as they are after what was found is set right
or taken out."""

import re
from bisect import bisect_left
from typing import Optional

from tsav.command import columns

_NUMBER_2 = rb"(?: [0-9]|[1-9][0-9])"
_NUMBER_14 = rb"(?=[ 0-9]{14}[ \n]) *(?:0|[1-9][0-9]*)"
_SOUND = re.compile(rb"(?s)... %b %b %b %b\n" % (_NUMBER_2, _NUMBER_2, _NUMBER_14, _NUMBER_14))


def sound(line: bytes) -> bool:
    """Keeps the layout, as refusal 3 has it: the code may be any three bytes."""
    return len(line) == columns.LENGTH and _SOUND.fullmatch(line) is not None


class Row:
    """A line. Code, block and class are None where they can't be told. A row is touched where its own bytes were changed or it was
    taken out: not by a move, and not by what is mended in a whole file."""

    def __init__(self, number: Optional[int], raw: bytes):
        self.number = number
        self.code: Optional[str] = None
        self.block: Optional[int] = None
        self.klass: Optional[int] = None
        self.touched = False
        self.set_right = False
        self.figures = True
        self.set(raw)

    def set(self, line: bytes) -> None:
        """As the line is from now on; what it is of is taken of it where it keeps the layout."""
        self.now = line
        self.sound = sound(line)
        self.line = columns.read(line)
        self.key = self.line.key if self.line else None
        if self.line:
            self.identify(self.line.code, self.line.block, self.line.klass)

    def identify(self, code: Optional[str], block: Optional[int], klass: Optional[int]) -> None:
        """Of these, what can be: a block that the code hasn't is none that was meant."""
        self.code = code.upper() if code and code.upper() in columns.CODES else None
        self.block = block if block is not None and (not self.code or block in columns.BLOCKS[self.code]) else None
        known = self.code is None or self.block is None or klass in columns.classes(self.code, self.block)
        self.klass = klass if known else None

    def put(self, line: columns.Line) -> None:
        """Sets it right; a last line without a line feed stays one."""
        end = b"\n" if self.now.endswith(b"\n") else b""
        self.set(line.written()[:-1] + end)
        self.touched = self.set_right = True

    def may_be(self, code: str, blocks=None, klass: Optional[int] = None) -> bool:
        """Whether it can't be excluded that the line was meant to be of this code, one of the blocks, and this class."""
        return (
            self.figures
            and self.code in (None, code)
            and (self.block is None or blocks is None or self.block in blocks)
            and (self.klass is None or klass is None or self.klass == klass)
        )


class Rows:
    """The lines of a file; of them those that are there now, in the order that they have now."""

    def __init__(self, data: bytes):
        self.all = [Row(number, line) for number, line in enumerate(_lines(data), 1)]
        self.current = list(self.all)

    def data(self) -> bytes:
        return b"".join(row.now for row in self.current)

    def unsound(self) -> Optional[Row]:
        """The first line that isn't 40 bytes in the layout."""
        return next((row for row in self.current if not row.sound), None)

    def take_out(self, row: Row) -> None:
        self.current.remove(row)
        row.touched = True

    def insert(self, line: columns.Line) -> Row:
        """A line that the file hasn't, in its place."""
        row = Row(None, line.written())
        self.current.insert(self._place(row), row)
        return row

    def move(self, row: Row) -> None:
        """To its place."""
        self.current.remove(row)
        self.current.insert(self._place(row), row)

    def _place(self, row: Row) -> int:
        """Before the first line, of those that stand in order, that comes after it."""
        rising = self.rising()
        return next(
            (at for at, other in enumerate(self.current) if other in rising and other.key > row.key),
            len(self.current),
        )

    def rising(self) -> set:
        """As many lines as can be that stand in order as they are: all others are out of it."""
        ends: list = []  # of the chains of each length, the lowest key that one ends with, and its row
        keys: list = []
        before: dict = {}
        for row in self.current:
            if row.key:
                at = bisect_left(keys, row.key)
                before[row] = ends[at - 1] if at else None
                # Of two with one key the first stays, as the second is refused.
                if keys[at : at + 1] != [row.key]:
                    ends[at : at + 1], keys[at : at + 1] = [row], [row.key]
        chain = set()
        row = ends[-1] if ends else None
        while row:
            chain.add(row)
            row = before[row]
        return chain


def _lines(data: bytes) -> list:
    """Each with its line feed, but for a last one without."""
    found = data.split(b"\n")
    return [line + b"\n" for line in found[:-1]] + ([found[-1]] if found[-1] else [])
