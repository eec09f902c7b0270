"""What the two guides show is what their commands do: each command is run, in the page's language, and what it says is compared."""

import json
import os
import re
import subprocess
import tempfile
import unittest
from pathlib import Path

import pages
from pages import ENGLISH, FRENCH, PROGRAMMING, TOP
from running import names_of

from tsav.command import amounts, csvfile, fluctuation, labels, messages, workbook

EXAMPLE = (TOP / "examples" / "example.sheet").read_bytes()
LANGUAGES = {"en": ENGLISH, "fr": FRENCH}
SCALAR = b"GEN  0  4          10000              0\n"
COMPONENTS = b"GEN  0  1      200000000              0\n"
# What stands in a shown text in place of lines that are left out.
MORE = "…\n"


def changed(*pairs) -> bytes:
    """The example with some of its text replaced, each found once."""
    found = EXAMPLE
    for old, new in pairs:
        assert found.count(old) == 1, old
        found = found.replace(old, new)
    return found


def quarter() -> dict:
    return {
        "first.sheet": EXAMPLE,
        "second.sheet": changed((b"RSK  1  2         300000         300000", b"RSK  1  2         300000         300001")),
        "third.sheet": changed((SCALAR, SCALAR.replace(b"10000", b" 9500"))),
    }


IN_DOLLARS = changed((b"OTH  1  1        2500000", b"OTH  1  1       25000.00"), (SCALAR, b""))
MOVED = changed((b"100000000       70000000", b"130000000       70000100"), (b"OTH  1  2       20000000", b"OTH  1  2       21000000"))
# By the English heading: the files that a section's commands find; and the status, where it isn't 0.
FILES = {
    "Refused cells": {"figures.csv": b'GEN,0,4,1,\nRSK,1,1,"1,000",0\n'},
    "A refused sheet, told in words": {"my.sheet": IN_DOLLARS, "my.quarter": b"", "my.movement": b""},
    "Warnings": {"my.sheet": changed((COMPONENTS, b""), (SCALAR, SCALAR.replace(b"10000", b"    1")))},
    "The page": {"my.sheet": EXAMPLE},
    "What moved between two sheets": {"old.sheet": EXAMPLE, "my.sheet": MOVED},
    "The sheets of a quarter": quarter(),
    "The five programs": quarter(),
    "Files": {"my.sheet": EXAMPLE},
}
STATUS = {"A refused sheet, told in words": 1}
# A section whose text is what a command says that it doesn't show.
SAID_BY = {"Refused cells": "tsav import figures.csv -o my.sheet"}
NEEDS = {"openpyxl": r"\.xlsx\b", "jinja2": r"\btsav report\b"}


def there(module: str) -> bool:
    try:
        __import__(module)
    except ImportError:
        return False
    return True


class Commands(unittest.TestCase):
    def setUp(self):
        folder = tempfile.TemporaryDirectory()
        self.addCleanup(folder.cleanup)
        self.folder = Path(folder.name)
        (self.folder / "examples").symlink_to(TOP / "examples")

    def run_command(self, command: str, language: str):
        """As it is typed, where the system speaks this language."""
        around = {name: value for name, value in os.environ.items() if not name.startswith("LC_") and name not in ("LANG", "LANGUAGE")}
        around.update(LC_ALL={"en": "C.UTF-8", "fr": "fr_CA.UTF-8"}[language], PYTHONIOENCODING="utf-8")
        return subprocess.run(["sh", "-c", command], cwd=self.folder, capture_output=True, env=around, check=False, timeout=300)

    def sections(self, *wanted):
        """Of both pages, each section with its heading in English, or those that are wanted; the folder has what its commands find."""
        headings = [section.heading for section in pages.page(ENGLISH)]
        for language, path in LANGUAGES.items():
            for heading, section in zip(headings, pages.page(path)):
                if not wanted or heading in wanted:
                    self.prepare(heading)
                    yield language, heading, section

    def prepare(self, heading: str) -> None:
        for name in os.listdir(self.folder):
            if name != "examples":
                (self.folder / name).unlink()
        for name, content in FILES.get(heading, {}).items():
            (self.folder / name).write_bytes(content)

    def can(self, command: str) -> bool:
        lacking = [module for module, needed in NEEDS.items() if re.search(needed, command) and not there(module)]
        for module in lacking:
            print(f"skipped: {command} ({module} is not installed)")
        return not lacking

    def shown(self, text: str, said: str) -> None:
        """The text is what was said, but for what it leaves out."""
        parts = text.split(MORE)
        self.assertTrue(said.startswith(parts[0]) and said.endswith(parts[-1]), said)
        at = 0
        for part in parts:
            self.assertIn(part, said[at:])
            at = said.index(part, at) + len(part)
        self.assertGreaterEqual(len(text), 80)

    def test_commands(self):
        """Each is run, and says what stands below it."""
        ran = compared = 0
        for language, heading, section in self.sections():
            if heading == "From the table to the sheet, and back":
                continue
            said = self.run_command(SAID_BY[heading], language).stdout.decode() if heading in SAID_BY else None
            for block in section.blocks:
                if block.kind == "text" and said is not None:
                    self.shown(block.text, said)
                    compared += 1
                for command in block.text.splitlines() if block.kind == "sh" else []:
                    if not self.can(command):
                        continue
                    done = self.run_command(command, language)
                    self.assertEqual((done.returncode, done.stderr), (STATUS.get(heading, 0), b""), command)
                    said, ran = done.stdout.decode(), ran + 1
        self.assertGreaterEqual((ran, compared), (24, 20))

    def test_the_way_there_and_back(self):
        """The template can be filled in; what is exported as it was is imported again, byte for byte."""
        make = pages.section(ENGLISH, "A workbook to fill in").blocks[0].text
        there_, back = pages.section(ENGLISH, "From the table to the sheet, and back").blocks[0].text.splitlines()
        if not self.can(make):
            return
        for language in LANGUAGES:
            for name in ("figures.xlsx", "figures.csv", "my.sheet"):
                (self.folder / name).unlink(missing_ok=True)
            self.assertEqual(self.run_command(make, language).returncode, 0)
            self.assertEqual(self.run_command(there_, language).returncode, 1)
            self.assertEqual(self.run_command("tsav export examples/example.sheet -o figures.xlsx --replace", language).returncode, 0)
            self.assertEqual([self.run_command(command, language).returncode for command in (there_, back)], [0, 0])
            self.assertEqual((self.folder / "my.sheet").read_bytes(), EXAMPLE)
            self.assertEqual(self.run_command("tsav import figures.csv -o my.sheet", language).returncode, 0)
            self.assertEqual((self.folder / "my.sheet").read_bytes(), EXAMPLE)

    def test_what_is_written(self):
        """-o has what standard output has; the page has its title."""
        for language, _heading, section in self.sections("Files"):
            self.assertEqual(self.run_command(section.blocks[0].text, language).returncode, 0)
            self.assertEqual((self.folder / "report.txt").read_bytes(), (TOP / "crates/tsav_sheet/stdout").read_bytes())
        for language, _heading, section in self.sections("The page"):
            command = section.blocks[0].text
            if self.can(command):
                self.assertEqual(self.run_command(command, language).returncode, 0)
                self.assertIn("Société Exemple, 2026-09-30", (self.folder / "report.html").read_text(encoding="utf-8"))

    def test_named_in_the_text(self):
        """Each command of a sentence or a table can be typed, and each option is one of a subcommand's."""
        known = "--version" + "".join(self.run_command(f"tsav {name} --help", "en").stdout.decode() for name in self.subcommands())
        tried = 0
        for language, _heading, section in self.sections():
            for span in section.spans():
                if re.match(r"tsav (--|[a-z]+ [^ ])", span) and self.can(span):
                    done = self.run_command(span, language)
                    self.assertIn(done.returncode, (0, 1), (span, done.stderr))
                    tried += 1
                for option in re.findall("(?<![a-z])--[a-z]+", span):
                    self.assertIn(option, known)
        self.assertGreaterEqual(tried, 20)

    def subcommands(self) -> list:
        return re.findall(r"(?m)^    ([a-z]+) ", self.run_command("tsav --help", "en").stdout.decode())

    def test_subcommands(self):
        """The first table has them all."""
        [table, _statuses] = pages.section(ENGLISH, "Before you begin").tables
        self.assertEqual(sorted(re.findall("`([a-z]+)`", "".join(row[1] for row in table))), sorted(self.subcommands()))

    def test_tables_of_figures(self):
        """A table that is shown is imported, and is the sheet that is shown."""
        for language, _heading, section in self.sections("Rows and columns"):
            given, sheet = (block.text.encode() for block in section.blocks)
            (self.folder / "figures.csv").write_bytes(given)
            self.assertEqual(self.run_command("tsav import figures.csv -o my.sheet", language).returncode, 0)
            self.assertEqual((self.folder / "my.sheet").read_bytes(), sheet)

    def test_bought_business(self):
        """RO of the three rows that are shown, and without the one of what was bought."""
        for language, _heading, section in self.sections("Volumes and bought business"):
            [block] = section.blocks
            for text, cents in ((block.text, 675), (re.sub("(?m)^ACQ.*\n", "", block.text), 825)):
                (self.folder / "figures.csv").write_text(text)
                self.assertEqual(self.run_command("tsav import figures.csv -o my.sheet", language).returncode, 0)
                self.assertIn(f"TOT  0  2{cents:19}\n", self.run_command("tsav-sheet my.sheet", language).stdout.decode())
                self.assertIn(f"{cents / 100:.2f}", section.numbers(language))

    def test_survival_and_death(self):
        """With 100 cents each, U of 200 is their aggregate: the credit is taken off."""
        lines = (b"RSK  1  1            200            200\n", b"MOR  1  1            100            100\n", SCALAR)
        for language, _heading, section in self.sections("Survival and death products"):
            (self.folder / "my.sheet").write_bytes(b"".join(lines))
            self.assertIn(f"BLK  1  3{200 - 129:19}\n", self.run_command("tsav-sheet my.sheet", language).stdout.decode())
            self.assertLessEqual({"1.00", "0.71", "1.29"}, set(section.numbers(language)))

    def test_typed_by_hand(self):
        """A line of each kind, which are a sheet; and the first line of the example."""
        for language, _heading, section in self.sections("A sheet typed by hand"):
            lines = section.blocks[0].text.splitlines(keepends=True)[2:]
            (self.folder / "my.sheet").write_text("".join(lines))
            said = self.run_command("tsav-sheet my.sheet", language)
            self.assertEqual((said.returncode, said.stdout.count(b"BLK"), len(lines)), (0, 10, 9))
            self.assertEqual(self.run_command(section.blocks[1].text, language).stdout, EXAMPLE[:40])

    def test_thousands(self):
        """The two lines that are shown, and the example there and back."""
        for language, _heading, section in self.sections("Sheets in thousands of dollars"):
            (self.folder / "my.sheet").write_text(section.blocks[0].text)
            said = self.run_command("tsav-convert my.sheet", language)
            self.assertEqual((said.returncode, said.stdout), (0, EXAMPLE[:40] + SCALAR))
            self.run_command(section.blocks[1].text, language)
            self.assertEqual((self.folder / "thousands.sheet").read_bytes(), (TOP / "examples/thousands.sheet").read_bytes())

    def test_a_quarter_in_a_file(self):
        """The three sheets, each with its closing line, are the example of a quarter."""
        closed = b"".join(sheet + b"-" * 39 + b"\n" for sheet in quarter().values())
        self.assertEqual(closed, (TOP / "examples/example.quarter").read_bytes())

    def test_names_of_the_report(self):
        """docs/PROGRAMMING.md has every name of the object that `tsav report --json` answers with, of a sheet and of a quarter."""
        known = {word for span in pages.section(PROGRAMMING, "Report").spans() for word in (span, span.split(".")[-1])}
        known |= set(pages.section(PROGRAMMING, "Warn and compare").spans())
        self.prepare("The sheets of a quarter")
        for arguments in ("examples/unmet.sheet --before examples/example.sheet", "--quarter first.sheet second.sheet"):
            done = self.run_command(f"tsav report {arguments} --json", "en")
            self.assertEqual((done.returncode, done.stderr), (0, b""))
            self.assertEqual({name for name in names_of(json.loads(done.stdout)) if not name.isdigit()} - known, set())


class Words(unittest.TestCase):
    """The tables of the guides beside what the command has."""

    def setUp(self):
        self.addCleanup(messages.choose, "en")

    def in_languages(self, english: str, french: str):
        for language, heading in (("en", english), ("fr", french)):
            messages.choose(language)
            yield language, pages.section(LANGUAGES[language], heading)

    def test_lines(self):
        """Name, symbols and section of each line."""
        for _language, section in self.in_languages("The lines", "Les lignes"):
            lines = section.tables[0][1:]
            self.assertEqual(len(lines), 27)
            for code, blocks, klass, name, symbols, sections in lines:
                label = labels.label(code, int(blocks.split("–")[0]), int(klass.split("–")[0]))
                with self.subTest(label):
                    self.assertTrue(code == "ACQ" or name.startswith(label.name))
                    self.assertTrue({label.first, label.second} - {""} <= {*symbols.split(", "), "LT7"})
                    self.assertIn(label.section, sections.split(", "))

    def test_report(self):
        for _language, section in self.in_languages("The figures", "Les chiffres"):
            for item, symbol, name, number, _unit in section.tables[0][1:]:
                kind, at = item.split()
                label = labels.REPORT[kind, int(at)]
                self.assertTrue(name.startswith(messages._(label.name)) or item == "TOT 1", name)
                self.assertEqual((symbol.replace("Σ", ""), number), (label.first, label.section))

    def test_amounts(self):
        for language, section in self.in_languages("How amounts are typed", "Comment se tapent les montants"):
            rows = section.tables[0][1:]
            self.assertEqual(len(rows), 6)
            for typed, read in rows:
                for text in pages.SPAN.findall(typed):
                    with self.subTest(text=text):
                        if read.startswith(("refused", "refusé")):
                            with self.assertRaises(amounts.Unreadable):
                                amounts.cents(text)
                        else:
                            self.assertEqual(amounts.written(amounts.cents(text), "." if language == "en" else ","), read)

    def test_limits(self):
        numbers = pages.section(ENGLISH, "Rows and columns").numbers("en")
        for number in (csvfile.LONGEST, workbook.LONGEST, workbook._LONGEST_UNPACKED, workbook._MOST_ROWS, workbook._MOST_COLUMNS):
            self.assertIn(str(number), numbers)

    def test_rows_of_factors(self):
        rows = pages.section(ENGLISH, "Requirements before their fluctuation factor").tables[0][1:]
        self.assertEqual([(int(row[0]), (row[1].strip("`"), row[2].strip("`"))) for row in rows], [(at, row.typed[:2]) for at, row in fluctuation.ROWS.items()])


if __name__ == "__main__":
    unittest.main()
