"""A sheet that is exported and imported is the first one, byte for byte: a thousand that are drawn, as CSV and as workbooks, in both
languages."""

import random
import unittest
from pathlib import Path

from command import InFolder, needs_openpyxl, run
from drawn import sheets

SHEETS = 1000
SEED = 39


class RoundTrips(InFolder):
    def back(self, sheet: bytes, name: str, written: str, read: str):
        Path("in.sheet").write_bytes(sheet)
        rows = sheet.count(b"\n")
        said = {"en": f"{name}: {rows} row", "fr": f"{name}\u00a0: {rows} ligne"}[written]
        status, found, wrong = run("export", "in.sheet", "--replace", "-o", name, "--lang", written)
        self.assertEqual((status, wrong, found[: len(said)]), (0, "", said))
        self.assertEqual(Path(name).read_bytes().startswith(b"PK"), name.endswith(".xlsx"))
        self.assertEqual(self.sheet(name, Path(name).read_bytes(), read), sheet)

    def test_csv(self):
        seen = set()
        for at, sheet in enumerate(sheets(SHEETS, SEED)):
            written, read = (("en", "fr"), ("fr", "en"), ("en", "en"), ("fr", "fr"))[at % 4]
            self.back(sheet, "figures.csv", written, read)
            seen.add(sheet)
        # They are many, and of every code; of few lines, and of all.
        self.assertGreater(len(seen), SHEETS * 0.9)
        lengths = [sheet.count(b"\n") for sheet in seen]
        self.assertEqual((min(lengths), max(lengths)), (1, 629))
        self.assertEqual(set(b"RSK OTH MOR VOL ACQ GEN CRD".split()) - {line[:3] for sheet in seen for line in sheet.splitlines()}, set())

    def test_how_csv_is_written(self):
        """As the spreadsheets of each language open it, and nothing between thousands."""
        Path("in.sheet").write_bytes(b"RSK  1  1      123456789              5\nGEN  0  4          10500              0\n")
        for language, text in (
            ("en", "Code,Block,Class,First amount,Second amount\nRSK,1,1,1234567.89,0.05\nGEN,0,4,1.0500,0.00\n"),
            ("fr", "Code;Bloc;Classe;Premier montant;Second montant\nRSK;1;1;1234567,89;0,05\nGEN;0;4;1,0500;0,00\n"),
        ):
            run("export", "in.sheet", "--replace", "-o", "figures.csv", "--lang", language)
            self.assertEqual(Path("figures.csv").read_bytes(), text.encode("ascii"))

    @needs_openpyxl
    def test_workbooks(self):
        for at, sheet in enumerate(sheets(SHEETS, SEED)):
            self.back(sheet, "figures.xlsx", *(("en", "fr"), ("fr", "en"))[at % 2])

    def test_rows_in_any_order(self):
        draw = random.Random(SEED)
        for sheet in sheets(50, SEED + 1):
            Path("in.sheet").write_bytes(sheet)
            run("export", "in.sheet", "--replace", "-o", "figures.csv")
            heading, *rows = Path("figures.csv").read_text(encoding="utf-8").splitlines(keepends=True)
            draw.shuffle(rows)
            self.assertEqual(self.sheet("figures.csv", "".join([heading, *rows]).encode("utf-8")), sheet)

    def test_a_sheet_that_is_refused_is_not_exported(self):
        for sheet, told in (
            (b"", "refusal 12. There is no scalar line. tsav explain says what to mend."),
            (b"RSK  1  1              1              2\n", "refusal 9 at line 1. A level and trend part is above its gross component. tsav explain says what to mend."),
            (
                b"rsk  1  1              1              1\n",
                "refusal 4 at line 1. It is a sheet in thousands of dollars. This makes one in cents of it: tsav-convert in.sheet -o my.sheet",
            ),
            (b"x" * 100_000, "refusal 1. The sheet has more than 25,160 bytes, which are 629 lines. tsav explain says what to mend."),
        ):
            Path("in.sheet").write_bytes(sheet)
            for name in ("out.csv", "out.xlsx"):
                Path(name).write_bytes(self.BEFORE)
                status, said, wrong = run("export", "in.sheet", "--replace", "-o", name)
                self.assertEqual((status, said, wrong), (1, f"in.sheet is refused: {told} Nothing is written.\n", ""))
                self.assertEqual(Path(name).read_bytes(), self.BEFORE)


if __name__ == "__main__":
    unittest.main()
