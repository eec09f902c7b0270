"""LibreOffice opens a template and an export, and what it saves is read again. Needs Debian's libreoffice-calc-nogui."""

import csv
import io
import re
import shutil
import subprocess
import tempfile
import unittest
from pathlib import Path

from command import EXAMPLE, InFolder, needs_openpyxl, openpyxl, run
from drawn import sheets

PROGRAM = shutil.which("soffice") or shutil.which("libreoffice")


# What may be typed into a template's cells: code, class, two amounts, and whether each may be.
LARGEST = 999999999999.99
TYPED = (
    ("RSK", 1, 5, 5, True, True),
    ("RSK", 1, 5, 5.01, True, False),
    ("RSK", 7, 5, 0, True, True),
    ("RSK", 7, 5, 1, True, False),
    ("RSK", 6, LARGEST, LARGEST, True, True),
    ("RSK", 6, LARGEST + 0.01, LARGEST + 0.01, False, False),
    ("RSK", 1, 0.005, 0.001, False, False),
    ("RSK", 1, -1, -2, False, False),
    ("RSK", 1, "1 000,00", "x", False, False),
    ("VOL", 1, 5, 6, True, True),
    ("MOR", 1, 0, 6.5, True, True),
    ("OTH", 1, 5, 0, True, True),
    ("OTH", 1, 5, 0.01, True, False),
    ("ACQ", 1, 5, 5, True, False),
    ("CRD", 1, 5, 5, True, False),
    ("GEN", 4, 1.05, 0, True, True),
    ("GEN", 4, 0.0001, 0, True, True),
    ("GEN", 4, 1.00001, 0, False, True),
    ("GEN", 4, 2.0001, 0, False, True),
    ("GEN", 4, 0, 1, False, False),
    ("GEN", 5, 1.05, 0, True, True),
    ("GEN", 5, 1.0001, 0, False, True),
)


@needs_openpyxl
@unittest.skipUnless(PROGRAM, "LibreOffice is not installed")
class LibreOffice(InFolder):
    """It is started three times in all, with one home: each time it saves many files in one form."""

    @classmethod
    def setUpClass(cls):
        folder = tempfile.TemporaryDirectory()
        cls.addClassCleanup(folder.cleanup)
        cls.place = Path(folder.name)
        cls.drawn = dict(zip(map("{}.xlsx".format, range(21)), [EXAMPLE.read_bytes(), *sheets(20, 40)]))
        for at, (name, sheet) in enumerate(cls.drawn.items()):
            (cls.place / "in.sheet").write_bytes(sheet)
            run("export", cls.place / "in.sheet", "-o", cls.place / name, "--lang", "fr" if at % 2 else "en")
        for language in ("en", "fr"):
            run("template", "-o", cls.place / f"{language}.xlsx", "--blocks", "1,17", "--lang", language)
        _checks(cls.place)
        cls.books = cls.saved("xlsx", *cls.drawn, "en.xlsx", "fr.xlsx")
        cls.rows = cls.saved("csv", *cls.drawn, "checks.xlsx")

    @classmethod
    def saved(cls, form: str, *names: str) -> dict:
        """What it makes of these files, in files of this form."""
        home, into = f"-env:UserInstallation=file://{cls.place}/home", cls.place / "saved"
        command = [PROGRAM, home, "--headless", "--convert-to", form, "--outdir", into, *(cls.place / name for name in names)]
        subprocess.run(command, check=True, stdin=subprocess.DEVNULL, stdout=subprocess.DEVNULL, stderr=subprocess.DEVNULL, timeout=300)
        return {name: (into / name).with_suffix(f".{form}").read_bytes() for name in names}

    def test_exports(self):
        for name, sheet in self.drawn.items():
            with self.subTest(name):
                self.assertEqual(self.sheet("back.xlsx", self.books[name]), sheet)
                self.assertEqual(self.sheet("back.csv", self.rows[name]), sheet)

    def test_a_template_that_is_filled_in(self):
        """The template as it is saved empty, and after that with figures; its rows, checks and colours are still there."""
        for language in ("en", "fr"):
            name = f"{language}.xlsx"
            made = openpyxl.load_workbook(io.BytesIO(self.books[name]))
            figures = made.worksheets[0]
            self.assertEqual([check.sqref.ranges[0].coord for check in figures.data_validations.dataValidation], [f"{at}2:{at}700" for at in "ABCEF"])
            self.refused(
                name,
                self.books[name],
                {
                    "en": "cell E43 (row 43, column 5): it is empty, and the scalar may not be left out: type a number like 1 or 1.05",
                    "fr": "cellule E43 (ligne 43, colonne 5)\u00a0: c'est vide, et le facteur scalaire est nécessaire\u00a0: tapez un nombre comme 1 ou 1,05",
                }[language],
                language=language,
            )
            for row in figures.iter_rows(min_row=2):
                key = tuple(cell.value for cell in row[:3])
                if key == ("RSK", 17, 2):
                    row[4].value, row[5].value = 1234567.89, 0.01
                if key == ("GEN", 0, 4):
                    row[4].value = 1.05
            made.save(self.place / name)
        for content in self.saved("xlsx", "en.xlsx", "fr.xlsx").values():
            self.assertEqual(self.sheet("back.xlsx", content), b"RSK 17  2      123456789              1\nGEN  0  4          10500              0\n")

    def test_the_checks_of_cells(self):
        """As LibreOffice works out their formulas."""
        found = [row[6:8] for row in csv.reader(io.StringIO(self.rows["checks.xlsx"].decode("utf-8"))) if row[0]]
        self.assertEqual(found, [[str(hold).upper() for hold in row[4:]] for row in TYPED])


def _checks(place: Path) -> None:
    """A workbook with what is typed, and beside it a template's checks of it as formulas."""
    run("template", "-o", place / "template.xlsx")
    checks = openpyxl.load_workbook(place / "template.xlsx").worksheets[0].data_validations.dataValidation
    made = openpyxl.Workbook()
    for at, (code, klass, first, second, *_holds) in enumerate(TYPED, 2):
        formulas = ["=" + re.sub("([A-F])2", rf"\g<1>{at}", check.formula1) for check in checks[3:]]
        for column, value in enumerate((code, 0, klass, None, first, second, *formulas), 1):
            made.active.cell(at, column, value)
    made.save(place / "checks.xlsx")


if __name__ == "__main__":
    unittest.main()
