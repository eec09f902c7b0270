"""The sheets of these tests."""

import random
from pathlib import Path

from tsav.command import columns, layout

TOP = Path(__file__).resolve().parents[2]
EXAMPLE = (TOP / "examples" / "example.sheet").read_bytes()
CLOSED = EXAMPLE + layout.CLOSING.encode("ascii") + b"\n"
SCALAR_ALONE = columns.Line("GEN", 0, 4, 10_000, 0).written()
_LARGEST = 99_999_999_999_999


def full() -> bytes:
    """Every line there is, with amounts as long as they may be."""
    draw = random.Random(40)
    lines = []
    for code in columns.CODES:
        for block in columns.BLOCKS[code]:
            lines += [columns.Line(code, block, klass, *_amounts(draw, code, klass)) for klass in columns.classes(code, block)]
    return b"".join(line.written() for line in lines)


def _amounts(draw, code: str, klass: int) -> tuple:
    if (code, klass) == ("GEN", 4):
        return 10_500, 0
    if code == "RSK":
        first = _LARGEST - draw.randrange(1000)
        return first, 0 if klass == 7 else first // 2
    if code == "VOL":
        return _LARGEST - draw.randrange(1000), draw.randrange(10**13)
    if code == "MOR":
        return draw.randrange(10**9), draw.randrange(10**9)
    return draw.randrange(10**11 if code == "CRD" else 10**13), 0


FULL = full()
SHEETS = {"example": EXAMPLE, "full": FULL, "scalar": SCALAR_ALONE}
