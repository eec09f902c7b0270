"""The amounts that refusals 13, 16 and 17 compare. No place is named by them, so that they are looked for here: by the sheet call, on
sheets of the lines of one block alone."""

from typing import NamedTuple, Optional

import tsav
from tsav.command import columns, money

SCALAR = columns.Line("GEN", 0, 4, 10_000, 0)
_ADJUSTED = 5
_LEVEL_AND_TREND = 4
_BUFFER = 3


class Compared(NamedTuple):
    """What is compared, in cents; more than any amount that a call gives is None."""

    above: Optional[int]
    limit: Optional[int]


def report(lines) -> Optional[dict]:
    """The figures of a sheet of these lines, whatever their order, by code, block and item; None where it is refused."""
    ordered = sorted(lines, key=lambda line: line.key)
    try:
        answer = tsav.sheet(b"".join(line.written() for line in ordered))
    except tsav.Refused:
        return None
    return figures(answer)


def figures(answer: bytes) -> dict:
    """The figures of a report, by code, block and item."""
    rows = [answer[at : at + tsav.REPORT_LINE] for at in range(0, len(answer), tsav.REPORT_LINE)]
    return {(row[:3].decode("ascii"), int(row[4:6]), int(row[7:9])): int(row[10:28]) for row in rows}


def mortality_credit(mor: columns.Line) -> Optional[int]:
    """The credit of a MOR line: what it takes off level and trend of a block that has the largest."""
    largest = money.LARGEST_AMOUNT
    found = report([columns.Line("RSK", mor.block, 1, largest, largest), mor, SCALAR])
    return largest - found["BLK", mor.block, _LEVEL_AND_TREND] if found else None


def credit_above(mor: columns.Line, lines) -> Optional[Compared]:
    """Of 16: the credit of a MOR line above level and trend of mortality in its block, as the sheet call finds it."""
    mortality = [line for line in lines if line.key == columns.key("RSK", mor.block, 1)]
    if report(mortality + [mor, SCALAR]):
        return None
    return Compared(mortality_credit(mor), mortality[0].second if mortality else 0)


def block_lines(block: int, lines) -> list:
    return [line for line in lines if line.code in ("RSK", "OTH") and line.block == block]


def dividend_above(crd: columns.Line, lines) -> Optional[Compared]:
    """Of 17: a dividend credit above its block's K; the limit is None where the block doesn't exist."""
    block = block_lines(crd.block, lines)
    if report(block + [crd, SCALAR]):
        return None
    found = report(block + [SCALAR]) if block else None
    return Compared(crd.first, found["BLK", crd.block, _ADJUSTED] if found else None)


def is_credit(line: columns.Line) -> bool:
    """Of no block."""
    return (line.code, line.block) == ("CRD", 0) or line.key == columns.key("GEN", 0, 5)


def left(lines) -> int:
    """Of 13: what is left for the credits of no block, which is the buffer without them at a scalar of one."""
    others = [line for line in lines if not is_credit(line) and line.key != columns.key(*columns.SCALAR)]
    return report(others + [SCALAR])["TOT", 0, _BUFFER]
