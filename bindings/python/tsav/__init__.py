"""The TSAV aggregation calculator (chapters 8 and 11 of the 2023 guideline): the calls of the proved library.

What each call takes, gives and refuses is written in tsav.h. All amounts are whole cents, 0 to LARGEST_AMOUNT,
but for a sheet in thousands of dollars that is converted. A refusal is the exception Refused, with its number and place.
A thread that calls has the stack that tsav.h asks for, beside what Python takes of it.

    >>> import tsav
    >>> print(tsav.sheet(open("my.sheet", "rb").read()).decode())

The shared library is the file that the environment's TSAV_LIBRARY names; otherwise the one in this package, that was
installed with it or that `bindings/shared` has written beside it; otherwise the system's.
"""

import ctypes
import operator
import os
from pathlib import Path
from typing import Iterable, NamedTuple, Optional, SupportsIndex, Tuple, Union

# What the calls take: whole numbers, Python's or others that can stand as an index, and bytes.
Numbers = Iterable[SupportsIndex]
Bytes = Union[bytes, bytearray, memoryview]

# Of this release; the library's calls have a version of their own, which this module compares.
__version__ = "1.0.0"
VERSION = 3

LARGEST_AMOUNT = 99_999_999_999_999

# The block call's numbers: seven pairs and three more. Its figures are I, D, U, LT and K, and the steps of two roots.
BLOCK_NUMBERS = 17
BLOCK_FIGURES = 7

# The parts that the shares call divides K among: the seven risks, property and casualty, credit, market.
PARTS = 10

# The operational call's volumes of a territory, its volumes at most, and its general figures.
TERRITORY_NUMBERS = 16
MOST_VOLUMES = 16 * TERRITORY_NUMBERS
GENERAL_FIGURES = 3

# The blocks of a sheet, of which those from 17 on are participating; the bytes of a line of the sheet and of the report,
# the line feed among them; the lines that the report has for a block: I, D, U, LT and K.
MOST_BLOCKS = 32
SHEET_LINE = 40
REPORT_LINE = 29
BLOCK_LINES = 5

# 629 lines; five report lines for each block, and three of totals.
LONGEST_SHEET = 629 * SHEET_LINE
LONGEST_REPORT = REPORT_LINE * (BLOCK_LINES * MOST_BLOCKS + 3)

# The bytes of a listing's line, and the listing of 176 lines.
LISTING_LINE = 20
LONGEST_LISTING = 176 * LISTING_LINE

# The bytes of the movement call's numbers, 18 lines of 15, and those of its movements, a report line for each of seven risks.
MOVEMENT_NUMBERS = 18 * 15
MOVEMENTS = 7 * REPORT_LINE

# The sheets of a quarter, at most; the bytes of a summary's line; and the summary of so many sheets.
MOST_SHEETS = 60
SUMMARY_LINE = 30
LONGEST_SUMMARY = (MOST_SHEETS + 8) * SUMMARY_LINE

# The kinds of a place. No call gives a risk, which 22 has in a line of the movements, or a sheet, which 24 and 25 have in the last
# line of a summary.
NOWHERE = 0
LINE = 1
POSITION = 2
RISK = 3
SHEET = 4


# What each refusal says; 22, 24 and 25, which stand in the lines of movements and of a summary and which no call gives, are here too.
REFUSALS = {
    1: "the sheet is longer than 629 lines",
    2: "the sheet's length is no multiple of 40 bytes, or the movement's input isn't 270 bytes long: the last line is cut short, or has no line feed",
    3: "the line breaks the layout: a number that isn't right-justified, a leading zero, a missing space or line feed, a carriage return",
    4: "the code isn't RSK, OTH, MOR, VOL, ACQ, GEN or CRD, or has other letters than line 1",
    5: "the block is outside the code's range",
    6: "the class is outside the range of the code and block",
    7: "an amount is above 99,999,999,999,999",
    8: "there is a second amount where there is none",
    9: "a level and trend part is above its component",
    10: "the scalar is outside 1 to 20,000",
    11: "a line with this code, block and class stood before",
    12: "there is no scalar line",
    13: "the credits that belong to no block are above what is left",
    14: "the lent room is too short",
    15: "the volumes are more than 256 numbers, or not 16 for each territory",
    16: "the credit of a MOR line is above level and trend of its block's mortality",
    17: "a dividend credit is above its block's K, or its block has no RSK or OTH line",
    18: "the row of a fluctuation factor is outside 1 to 7",
    19: "the line doesn't come after the one before it, by code, block and class",
    20: "an amount isn't whole thousands of dollars",
    21: "an amount has more than 14 digits in cents",
    22: "raised, the component of the risk is above 99,999,999,999,999",
    23: "a part's margin is negative, or the margins are all zero",
    24: "there are more than 60 sheets",
    25: "the last sheet isn't closed",
}


class Figures(NamedTuple):
    """A block's figures: I and D in half cents, U, LT and K in cents; and the steps that the roots of I and of D take, at
    most 58 each. The roots are of hundredths of the half cent, and so is the D that K is taken at."""

    i: int
    d: int
    u: int
    lt: int
    k: int
    steps_i: int
    steps_d: int


class Refused(Exception):
    """A call was refused: the refusal's number, and its line (counted from 1) or position (from 0), if it has one."""

    def __init__(self, number: int, line: Optional[int] = None, position: Optional[int] = None):
        self.number, self.line, self.position = number, line, position
        super().__init__(number, line, position)

    def __str__(self) -> str:
        where = ""
        if self.line is not None:
            where = f" at line {self.line}"
        elif self.position is not None:
            where = f" at position {self.position}"
        return f"refusal {self.number}{where}: {REFUSALS.get(self.number, 'no refusal has this number')}"


class ContractBroken(Exception):
    """The library gave numbers that tsav.h excludes: what was loaded isn't the proved library."""


def block(numbers: Numbers) -> Figures:
    """The block call: seven pairs of a gross component and its level and trend part, then property and casualty, credit
    and market."""
    lent = _lend(numbers)
    if len(lent) != BLOCK_NUMBERS:
        raise ValueError(f"{BLOCK_NUMBERS} numbers are asked for, not {len(lent)}")
    figures, place = (ctypes.c_uint64 * BLOCK_FIGURES)(), (ctypes.c_uint64 * 2)()
    _answered(_library.tsav_block(lent, figures, place), place)
    return Figures(*figures)


def shares(numbers: Numbers) -> Tuple[int, ...]:
    """The shares call, of the block call's numbers: K divided among the seven risks, property and casualty, credit and
    market, by what each adds to the K of the others. The ten shares, in cents, total K."""
    lent = _lend(numbers)
    if len(lent) != BLOCK_NUMBERS:
        raise ValueError(f"{BLOCK_NUMBERS} numbers are asked for, not {len(lent)}")
    parts, place = (ctypes.c_uint64 * PARTS)(), (ctypes.c_uint64 * 2)()
    _answered(_library.tsav_shares(lent, parts, place), place)
    return tuple(parts)


def operational(volumes: Numbers, general: Numbers) -> int:
    """The operational call: 16 numbers for each territory, eight pairs of current and prior volume; and gross components,
    guarantee requirement, ceded premiums. It gives RO in cents."""
    lent, figures = _lend(volumes), _lend(general)
    if len(figures) != GENERAL_FIGURES:
        raise ValueError(f"{GENERAL_FIGURES} general figures are asked for, not {len(figures)}")
    figure, place = (ctypes.c_uint64 * 1)(), (ctypes.c_uint64 * 2)()
    _answered(_library.tsav_operational(lent, len(lent), figures, figure, place), place)
    return figure[0]


def fluctuation(row: SupportsIndex, requirement: SupportsIndex, face: SupportsIndex = 0) -> int:
    """The fluctuation call: a row of the factors of section 11.1.2, 1 to 7 as tsav.h lists them, a requirement, and a face
    amount, which is critical illness's base and nothing to the other rows. It gives the requirement times its factor in cents, rounded up."""
    lent = _lend((row, requirement, face))
    figure, place = (ctypes.c_uint64 * 1)(), (ctypes.c_uint64 * 2)()
    _answered(_library.tsav_fluctuation(*lent, figure, place), place)
    return figure[0]


def sheet(sheet: Bytes) -> bytes:
    """The sheet call: the report of a sheet, both as bytes."""
    lent = _lend_bytes(sheet)
    report, written, place = ctypes.create_string_buffer(LONGEST_REPORT), (ctypes.c_uint64 * 1)(), (ctypes.c_uint64 * 2)()
    _answered(_library.tsav_sheet(lent, len(lent), report, LONGEST_REPORT, written, place), place)
    if written[0] > LONGEST_REPORT:
        raise ContractBroken(f"a report of {written[0]} bytes where {LONGEST_REPORT} were lent")
    return report.raw[: written[0]]


def convert(sheet: Bytes) -> bytes:
    """The convert call: a sheet in cents as one in thousands of dollars, with its codes in small letters, or the other way
    round, as the letters of line 1 tell; both as bytes."""
    lent = _lend_bytes(sheet)
    converted, written, place = ctypes.create_string_buffer(LONGEST_SHEET), (ctypes.c_uint64 * 1)(), (ctypes.c_uint64 * 2)()
    _answered(_library.tsav_convert(lent, len(lent), converted, LONGEST_SHEET, written, place), place)
    if written[0] != len(lent):
        raise ContractBroken(f"{written[0]} bytes of a converted sheet of {len(lent)}")
    return converted.raw[: written[0]]


def check(sheet: Bytes) -> bytes:
    """The check call: the listing of the lines of an accepted sheet that need another one, which is absent or has first amount
    0; both as bytes, and empty where every need is met."""
    lent = _lend_bytes(sheet)
    listing, written, place = ctypes.create_string_buffer(LONGEST_LISTING), (ctypes.c_uint64 * 1)(), (ctypes.c_uint64 * 2)()
    _answered(_library.tsav_check(lent, len(lent), listing, LONGEST_LISTING, written, place), place)
    if written[0] > LONGEST_LISTING:
        raise ContractBroken(f"a listing of {written[0]} bytes where {LONGEST_LISTING} were lent")
    return listing.raw[: written[0]]


def movement(numbers: Bytes) -> bytes:
    """The movement call: of 18 lines of an amount in 14 columns, the block call's numbers and then t, a line for each risk that
    tells how far the reported K moves as the risk's component is raised by t, or REF 22 where that passes LARGEST_AMOUNT; both
    as bytes."""
    lent = _lend_bytes(numbers)
    movements, written, place = ctypes.create_string_buffer(MOVEMENTS), (ctypes.c_uint64 * 1)(), (ctypes.c_uint64 * 2)()
    _answered(_library.tsav_movement(lent, len(lent), movements, MOVEMENTS, written, place), place)
    if written[0] != MOVEMENTS:
        raise ContractBroken(f"{written[0]} bytes of movements, not {MOVEMENTS}")
    return movements.raw


def quarter(sheets: Bytes) -> bytes:
    """The quarter call: of sheets one after the other, each closed by a line of 39 minus signs, the line of each and what they
    come to together; both as bytes. With more than MOST_SHEETS sheets it ends in a line REF 24, and where the last one isn't
    closed in REF 25, instead: nothing is raised then, and the lines of the sheets before stand there."""
    lent = _lend_bytes(sheets)
    summary, written, place = ctypes.create_string_buffer(LONGEST_SUMMARY), (ctypes.c_uint64 * 1)(), (ctypes.c_uint64 * 2)()
    _answered(_library.tsav_quarter(lent, len(lent), summary, LONGEST_SUMMARY, written, place), place)
    if written[0] > LONGEST_SUMMARY:
        raise ContractBroken(f"a summary of {written[0]} bytes where {LONGEST_SUMMARY} were lent")
    return summary.raw[: written[0]]


def _lend_bytes(given: Bytes) -> bytes:
    if isinstance(given, str):
        raise TypeError("sheets and lines of numbers are bytes, and this is a str: read its file with open(name, 'rb'), or encode the text")
    # A view of it, since bytes(5) would be five zeros.
    return bytes(memoryview(given))


def _whole(number: SupportsIndex) -> int:
    try:
        return operator.index(number)
    except TypeError:
        raise TypeError(f"amounts and rows are whole numbers, and this is a {type(number).__name__}: {number!r}") from None


def _lend(numbers: Numbers) -> "ctypes.Array[ctypes.c_uint64]":
    """Whole numbers as the library takes them. ctypes would cut a longer one off and turn a negative one round; what passes
    64 bits is above the largest amount and the last row all the same, and is refused as such."""
    lent = [_whole(number) for number in numbers]
    if any(number < 0 for number in lent):
        raise ValueError("a number is below zero")
    return (ctypes.c_uint64 * len(lent))(*(min(number, 2**64 - 1) for number in lent))


def _answered(answer: int, place: Iterable[int]) -> None:
    """Raises the refusal that a call has given."""
    if answer == 0:
        return
    kind, at = place
    if kind == NOWHERE and at == 0:
        raise Refused(answer)
    if kind == LINE:
        raise Refused(answer, line=at)
    if kind == POSITION:
        raise Refused(answer, position=at)
    raise ContractBroken(f"refusal {answer} at a place {kind}, {at}")


def _load() -> ctypes.CDLL:
    name = f"libtsav.so.{VERSION}"
    # A wheel has it in this folder. Installed, the folder is PREFIX/lib/tsav/python/tsav; in a checkout, bindings/python/tsav.
    here = Path(__file__).resolve().parent
    above = here.parents[2]
    beside = [path for path in (here / name, above / name, above / "target" / "shared" / name) if path.is_file()]
    try:
        library = ctypes.CDLL(os.environ.get("TSAV_LIBRARY") or str((beside + [name])[0]))
    except OSError as error:
        raise ImportError(f"{error}; in a checkout, run bindings/shared first; TSAV_LIBRARY may name the file") from error
    word, numbers, size = ctypes.c_uint64, ctypes.POINTER(ctypes.c_uint64), ctypes.c_size_t
    library.tsav_version.argtypes, library.tsav_version.restype = [], word
    # Another version may write more than is lent here.
    if library.tsav_version() != VERSION:
        raise ImportError(f"the library's calls are of version {library.tsav_version()}, not {VERSION}")
    for name, lent in (
        ("tsav_block", [numbers, numbers, numbers]),
        ("tsav_operational", [numbers, size, numbers, numbers, numbers]),
        ("tsav_fluctuation", [word, word, word, numbers, numbers]),
        ("tsav_sheet", [ctypes.c_char_p, size, ctypes.c_char_p, size, numbers, numbers]),
        ("tsav_convert", [ctypes.c_char_p, size, ctypes.c_char_p, size, numbers, numbers]),
        ("tsav_shares", [numbers, numbers, numbers]),
        ("tsav_check", [ctypes.c_char_p, size, ctypes.c_char_p, size, numbers, numbers]),
        ("tsav_movement", [ctypes.c_char_p, size, ctypes.c_char_p, size, numbers, numbers]),
        ("tsav_quarter", [ctypes.c_char_p, size, ctypes.c_char_p, size, numbers, numbers]),
    ):
        # A library of this version has each; one that says it is may be another.
        if not hasattr(library, name):
            raise ImportError(f"the library is another one: it has no {name}")
        call = getattr(library, name)
        call.argtypes, call.restype = lent, word
    return library


_library = _load()
