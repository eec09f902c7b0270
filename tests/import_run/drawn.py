"""Sheets that are drawn, from a fixed seed, and accepted by the sheet call."""

import random

import tsav
from tsav.command import columns

_LARGEST = 99_999_999_999_999


def sheets(count: int, seed: int):
    draw = random.Random(seed)
    while count:
        sheet = _sheet(draw)
        try:
            tsav.sheet(sheet)
        except tsav.Refused:
            continue
        count -= 1
        yield sheet


def _sheet(draw) -> bytes:
    blocks = draw.sample(range(1, 33), draw.choice((0, 1, 1, 1, 2, 2, 3, 5)))
    # Of some sheets nearly every line, of others few.
    share = draw.choice((0.1, 0.3, 0.6, 0.9))
    found = [
        columns.Line(code, block, klass, *_amounts(draw, code, block, klass))
        for code in columns.CODES
        for block in columns.BLOCKS[code]
        if block in (0, *blocks)
        for klass in columns.classes(code, block)
        if (code, block, klass) == columns.SCALAR or draw.random() < share
    ]
    if draw.random() < 0.01 and len(blocks) == 5:
        found = _every_line(draw)
    return b"".join(line.written() for line in sorted(found, key=lambda line: line.key))


def _every_line(draw):
    return [
        columns.Line(code, block, klass, *((10_000, 0) if (code, block, klass) == columns.SCALAR else (0, 0)))
        for code in columns.CODES
        for block in columns.BLOCKS[code]
        for klass in columns.classes(code, block)
    ]


def _amounts(draw, code: str, block: int, klass: int):
    if (code, block, klass) == columns.SCALAR:
        return draw.choice((1, 10_000, 10_500, 20_000, draw.randint(1, 20_000))), 0
    first = _amount(draw)
    if code == "RSK" and klass < 7:
        return first, draw.choice((0, first, draw.randint(0, first)))
    if code == "VOL":
        return first, _amount(draw)
    # Credits that are large would be refused in nearly every sheet.
    if code == "MOR":
        return draw.choice(((first, 0), (0, first), (draw.randint(0, 99), draw.randint(0, 99))))
    if code == "CRD" or (code, klass) == ("GEN", 5):
        return draw.choice((0, 1, draw.randint(0, 10_000))), 0
    return first, 0


def _amount(draw) -> int:
    """Of every length, the largest and whole dollars among them."""
    return draw.choice((0, 1, _LARGEST, draw.randrange(10 ** draw.randint(1, 14)), 100 * draw.randrange(10 ** draw.randint(1, 12))))
