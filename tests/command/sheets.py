"""Sheets for the tests of warn and compare, and files of them."""

import random
import tempfile
import unittest
from pathlib import Path

import tsav
from tsav.command import columns

EXAMPLE = (Path(__file__).resolve().parents[2] / "examples" / "example.sheet").read_bytes()

# In whole cents, of a society of a size, with all that a sheet of its lines is to have: nothing looks wrong in it.
SOUND = (
    ("RSK", 1, 1, 10_000_000_007, 7_000_000_001),
    ("RSK", 1, 2, 500_000_003, 400_000_000),
    ("RSK", 17, 3, 300_000_011, 0),
    ("OTH", 1, 2, 2_000_000_013, 0),
    ("MOR", 1, 1, 900_000_017, 800_000_019),
    ("VOL", 1, 1, 3_000_000_023, 2_900_000_029),
    ("VOL", 1, 5, 100_000_031, 90_000_037),
    ("ACQ", 1, 1, 10_000_041, 0),
    ("GEN", 0, 1, 14_000_000_043, 0),
    ("GEN", 0, 2, 20_000_047, 0),
    ("GEN", 0, 4, 10_000, 0),
    ("CRD", 17, 1, 1_000_053, 0),
)


def sheet(*lines) -> bytes:
    """Of these lines, in their order."""
    return b"".join(line.written() for line in sorted((columns.Line(*line) for line in lines), key=lambda line: line.key))


def sound(*lines, without=()) -> bytes:
    """The sound sheet with these lines in place of its own, and without some, each named by code, block and class."""
    found = {line[:3]: line for line in SOUND + lines}
    return sheet(*(line for key, line in found.items() if key not in without))


def total(data: bytes, item: int) -> int:
    """Of the report, TOT by its item: 2 is RO, 3 the buffer."""
    return int(tsav.sheet(data)[-29 * (4 - item) :][10:28])


class InFolder(unittest.TestCase):
    """With files in a folder of the test's own."""

    def setUp(self):
        folder = tempfile.TemporaryDirectory()
        self.addCleanup(folder.cleanup)
        self.folder = Path(folder.name)

    def file(self, name: str, data: bytes) -> str:
        (self.folder / name).write_bytes(data)
        return str(self.folder / name)


def altered(draw: random.Random, data: bytes) -> bytes:
    """An accepted sheet with some of its lines changed, some taken out, and some of zeros more."""
    for _ in range(100):
        lines = {line[:9]: line for line in data.splitlines(keepends=True)}
        for key in draw.sample(sorted(lines), min(len(lines), draw.randint(0, 6))):
            line = columns.read(lines[key])
            if draw.random() < 0.3:
                del lines[key]
            elif (line.code, line.klass) == ("GEN", 4):
                lines[key] = line._replace(first=draw.randint(1, 20_000)).written()
            else:
                least = line.second if line.code == "RSK" else 0
                lines[key] = line._replace(first=draw.randint(least, min(least + 2 * line.first, tsav.LARGEST_AMOUNT))).written()
        if draw.random() < 0.3:
            line = columns.Line(draw.choice(("RSK", "OTH")), draw.randint(1, 32), draw.randint(1, 3), 0, 0)
            lines.setdefault(line.written()[:9], line.written())
        found = b"".join(sorted(lines.values(), key=lambda line: columns.read(line).key))
        try:
            tsav.sheet(found)
        except tsav.Refused:
            continue
        return found
    return data
