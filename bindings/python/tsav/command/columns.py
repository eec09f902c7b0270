"""A line of a sheet: its columns, its codes, and the order that lines stand in. Columns count from 1, as the guide has them."""

from typing import NamedTuple, Optional

# In the order of lines.
CODES = ("RSK", "OTH", "MOR", "VOL", "ACQ", "GEN", "CRD")

# The bytes of a line, its line feed among them.
LENGTH = 40

# The last column of the code, the block, the class and the two amounts, and how many digits each may have.
CODE, BLOCK, CLASS, FIRST, SECOND = 3, 6, 9, 24, 39
WIDTHS = {CODE: 3, BLOCK: 2, CLASS: 2, FIRST: 14, SECOND: 14}

# The blocks of each code.
TERRITORIES = tuple(range(1, 17))
PARTICIPATING = tuple(range(17, 33))
BLOCKS = {
    "RSK": TERRITORIES + PARTICIPATING,
    "OTH": TERRITORIES + PARTICIPATING,
    "MOR": TERRITORIES,
    "VOL": TERRITORIES,
    "ACQ": TERRITORIES,
    "GEN": (0,),
    "CRD": (0,) + PARTICIPATING,
}

SCALAR = ("GEN", 0, 4)


def classes(code: str, block: int) -> tuple:
    """The classes of a code, which for CRD are the block's too."""
    most = {"RSK": 7, "OTH": 3, "MOR": 1, "VOL": 8, "ACQ": 8, "GEN": 5, "CRD": 1 if block else 16}[code]
    return tuple(range(1, most + 1))


class Key(NamedTuple):
    """What a line is of; with the code's place in the order for the code, so that keys sort as lines do."""

    order: int
    block: int
    klass: int

    @property
    def code(self) -> str:
        return CODES[self.order]


def key(code: str, block: int, klass: int) -> Key:
    return Key(CODES.index(code), block, klass)


class Line(NamedTuple):
    """A line with its five values. The code is in capitals, or in small letters in a sheet in thousands."""

    code: str
    block: int
    klass: int
    first: int
    second: int

    @property
    def key(self) -> Optional[Key]:
        """None where code, block and class aren't ones that a sheet has."""
        code = self.code.upper()
        if code not in CODES or self.block not in BLOCKS[code] or self.klass not in classes(code, self.block):
            return None
        return key(code, self.block, self.klass)

    def written(self) -> bytes:
        """With its line feed."""
        return f"{self.code:<3} {self.block:2} {self.klass:2} {self.first:14} {self.second:14}\n".encode("ascii")


def read(line: bytes) -> Optional[Line]:
    """The values of a line that keeps the layout; None of any other."""
    try:
        code = line[:3].decode("ascii")
        numbers = [int(line[end - WIDTHS[end] : end]) for end in (BLOCK, CLASS, FIRST, SECOND)]
    except ValueError:
        return None
    found = Line(code, *numbers)
    # A number has one way to be written: what it is written as again tells whether that was it.
    return found if min(numbers) >= 0 and found.written() == line else None
