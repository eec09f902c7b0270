"""`tsav explain`, run as people run it: each fault by its cause, in both languages, with its caret; every refusal; hostile input; and
that what is told is what the call says."""

import json
import random
import re
import subprocess
import tempfile
import unittest
from pathlib import Path

import tsav
from running import COMMAND, TOP, names_of, tsav as run
from tsav.command import columns, finder, layout, lines, messages

EXAMPLE = (TOP / "examples" / "example.sheet").read_bytes()
THOUSANDS = (TOP / "examples" / "thousands.sheet").read_bytes()
LINES = EXAMPLE.decode().splitlines()
CLOSING = b"-" * 39 + b"\n"
LANGUAGES = ("en", "fr")


def line(code, block, klass, first, second=0) -> str:
    return columns.Line(code, block, klass, first, second).written()[:-1].decode()


def sheet(*lines) -> bytes:
    return "".join(text + "\n" for text in lines).encode()


def changed(number: int, text: str) -> bytes:
    """The example with another line in place of one."""
    return sheet(*LINES[: number - 1], text, *LINES[number:])


# Each fault of rule 3 by its cause: name, the line 2 or 8 that has it, the cause, its column, and what is typed instead.
SECOND = LINES[1]
EIGHTH = LINES[7]
LAYOUTS = [
    ("tab", 2, "RSK  1  2\t        300000         300000", "tab", 10, SECOND),
    ("tabs for all", 2, "RSK\t1\t2\t300000\t300000", "tab", 4, SECOND),
    ("thousands, comma", 8, "OTH  1  1      2,500,000              0", "thousands-separator", 17, EIGHTH),
    ("thousands, comma, too long", 8, "OTH  1  1        2,500,000              0", "thousands-separator", 19, EIGHTH),
    ("thousands, space", 8, "OTH  1  1      2 500 000              0", "thousands-separator", 17, EIGHTH),
    ("thousands, spaces in both", 2, "RSK  1  2        300 000        300 000", "thousands-separator", 21, SECOND),
    ("thousands, no-break space", 8, "OTH  1  1      2\u00a0500\u00a0000              0", "thousands-separator", 17, EIGHTH),
    ("thousands, apostrophe", 8, "OTH  1  1      2'500'000              0", "thousands-separator", 17, EIGHTH),
    ("thousands, point", 8, "OTH  1  1      2.500.000              0", "thousands-separator", 17, EIGHTH),
    ("one comma, three digits", 8, "OTH  1  1          2,500              0", "thousands-separator", 21, None),
    ("decimal point", 8, "OTH  1  1       25000.00              0", "decimal-sign", 22, EIGHTH),
    ("decimal comma", 8, "OTH  1  1       25000,00              0", "decimal-sign", 22, EIGHTH),
    ("decimal comma, one digit", 8, "OTH  1  1        25000,5              0", "decimal-sign", 23, line("OTH", 1, 1, 2500050)),
    ("finer than a cent", 8, "OTH  1  1     25000.0051              0", "decimal-sign", 20, None),
    ("decimals of the scalar", 13, "GEN  0  4           1.05              0", "decimal-sign", 22, line("GEN", 0, 4, 10500)),
    ("three decimals of the scalar", 13, "GEN  0  4          1,050              0", "decimal-sign", 21, line("GEN", 0, 4, 10500)),
    ("thousands of the scalar", 13, "GEN  0  4         10,000              0", "thousands-separator", 21, LINES[12]),
    ("minus", 8, "OTH  1  1       -2500000              0", "minus", 17, None),
    ("minus behind", 8, "OTH  1  1       2500000-              0", "minus", 24, None),
    ("minus of a typesetter", 8, "OTH  1  1       \u22122500000              0", "minus", 17, None),
    ("minus in brackets", 8, "OTH  1  1      (2500000)              0", "minus", 16, None),
    ("plus", 8, "OTH  1  1       +2500000              0", "plus", 17, EIGHTH),
    ("dollar sign", 8, "OTH  1  1         $25000              0", "dollar-sign", 19, EIGHTH),
    ("letter", 8, "OTH  1  1        25O0000              0", "letter", 20, None),
    ("exponent", 8, "OTH  1  1            2E6              0", "letter", 23, None),
    ("leading zero", 8, "OTH  1  1       02500000              0", "leading-zero", 17, EIGHTH),
    ("leading zero, block", 8, "OTH 01  1        2500000              0", "leading-zero", 5, EIGHTH),
    ("leading zero, class", 8, "OTH  1 01        2500000              0", "leading-zero", 8, EIGHTH),
    ("left-justified", 2, "RSK  1  2 300000         300000        ", "not-right-justified", 16, SECOND),
    ("left-justified, second", 2, "RSK  1  2         300000 300000        ", "not-right-justified", 31, SECOND),
    ("15 digits", 2, "RSK  1  2100000000000000         300000", "too-many-digits", 10, None),
    ("15 digits, too long", 2, "RSK  1  2 100000000000000         300000", "too-many-digits", 11, None),
    ("3 digits, block", 2, "RSK 100 2         300000         300000", "too-many-digits", 5, None),
    ("a space too many", 2, "RSK  1  2          300000         300000", "too-long", 25, SECOND),
    ("a space too few", 2, "RSK 1  2         300000         300000", "too-short", 5, SECOND),
    ("single spaces", 2, "RSK 1 2 300000 300000", "not-right-justified", 5, SECOND),
    ("no second amount", 8, "OTH  1  1        2500000", "too-short", 25, EIGHTH),
    ("no second amount, 39 characters", 8, "OTH  1  1        2500000".ljust(39), "missing-number", 25, EIGHTH),
    ("no second amount, 38 characters", 8, "OTH  1  1        2500000".ljust(38), "too-short", 25, EIGHTH),
    ("no second amount, 41 characters", 8, "OTH  1  1        2500000".ljust(41), "missing-number", 25, EIGHTH),
    ("a remark behind", 8, "OTH  1  1        2500000              0 of the subsidiaries", "too-long", 41, None),
    ("code moved", 2, " RSK  1  2         300000        300000", "not-in-column-1", 2, SECOND),
    ("code and block joined", 2, "RSK1  2         300000         300000", "too-short", 4, SECOND),
    ("trailing spaces", 2, SECOND + "  ", "trailing-spaces", 40, SECOND),
    ("title line", 2, "Capital return of the society, 2023", "title-line", 1, None),
    ("column titles", 2, "Code Block Class Gross component Level", "title-line", 1, None),
    ("no code", 2, "1 2 300000 300000", "no-code", 1, None),
    ("semicolons", 2, "RSK;1;2;300000;300000", "delimiters", 4, SECOND),
    ("commas", 2, "RSK,1,2,300000,300000", "delimiters", 4, SECOND),
    ("empty line", 2, "", "empty-line", 1, None),
    ("line of spaces", 2, " " * 12, "empty-line", 1, None),
    ("closing line", 2, "-" * 39, "closing-line", 1, None),
    ("accent in the code", 2, "R\u00c9K  1  2         300000         300000", "wide-letter", 2, None),
    ("escape", 2, "RSK  1  2         \x1b00000         300000", "control-character", 19, None),
]

# Files as a whole: name, the bytes, cause, column; what is left of the sheet is accepted.
FILES = [
    ("byte order mark", b"\xef\xbb\xbf" + EXAMPLE, "byte-order-mark", 1),
    ("UTF-16, little end first", b"\xff\xfe" + EXAMPLE.decode().encode("utf-16-le"), "utf-16", 1),
    ("UTF-16, big end first", b"\xfe\xff" + EXAMPLE.decode().encode("utf-16-be"), "utf-16", 1),
    ("UTF-16 without a mark", EXAMPLE.decode().encode("utf-16-le"), "utf-16", 1),
    ("UTF-16 without a mark, big end first", EXAMPLE.decode().encode("utf-16-be"), "utf-16", 1),
    ("carriage returns", EXAMPLE.replace(b"\n", b"\r\n"), "carriage-return", 40),
    ("carriage returns alone", EXAMPLE.replace(b"\n", b"\r"), "carriage-return", 40),
    ("one carriage return", changed(5, LINES[4] + "\r"), "carriage-return", 40),
    ("no line feed at the end", EXAMPLE[:-1], "no-line-feed", 40),
    ("an empty line at the end", EXAMPLE + b"\n", "empty-line", 1),
    ("a title", b"Return of 2023\n" + EXAMPLE, "title-line", 1),
]

# Rules of a line: name, the sheet, refusal, line, cause, column, what is typed instead.
RULES = [
    ("small letters", changed(2, SECOND.lower()), 4, 2, "letters", 1, SECOND),
    ("no code", changed(2, "RKS" + SECOND[3:]), 4, 2, "code", 1, SECOND),
    ("block", changed(2, "RSK 33" + SECOND[6:]), 5, 2, "block", 6, None),
    ("block of GEN", changed(13, "GEN  1" + LINES[12][6:]), 5, 13, "block", 6, LINES[12]),
    ("class", changed(8, "OTH  1  4" + EIGHTH[9:]), 6, 8, "class", 9, None),
    ("class of a dividend credit", EXAMPLE + sheet(line("CRD", 17, 2, 0)), 6, 14, "class", 9, line("CRD", 17, 1, 0)),
    ("second amount", changed(8, line("OTH", 1, 1, 2500000, 7)), 8, 8, "second-amount", 39, EIGHTH),
    ("second amount of expenses", changed(7, line("RSK", 1, 7, 1000000, 1)), 8, 7, "second-amount", 39, LINES[6]),
    ("level and trend", changed(2, line("RSK", 1, 2, 300000, 300001)), 9, 2, "level-and-trend", 39, None),
    ("scalar 0", changed(13, line("GEN", 0, 4, 0)), 10, 13, "scalar", 24, LINES[12]),
    ("scalar 20001", changed(13, line("GEN", 0, 4, 20001)), 10, 13, "scalar", 24, LINES[12]),
    ("twice", sheet(*LINES[:9], SECOND, *LINES[9:]), 11, 10, "twice", 9, None),
    ("order", sheet(*LINES[:1], *LINES[2:9], SECOND, *LINES[9:]), 19, 9, "order", 9, None),
    ("scalar on top", sheet(LINES[12], *LINES[:12]), 19, 2, "order", 9, None),
]


class Explain(unittest.TestCase):
    """What the tests below share."""

    def explained(self, given: bytes, *arguments, status=1) -> dict:
        """The answer as JSON, which is the same in both languages but for its words; and its text, with each caret in place."""
        answers = {}
        for language in LANGUAGES:
            ran = run("--lang", language, "explain", "--json", *arguments, given=given)
            self.assertEqual((ran.status, ran.err), (status, ""))
            answers[language] = json.loads(ran.out)
            text = run("explain", "--lang", language, *arguments, given=given)
            self.assertEqual((text.status, text.err), (status, ""))
            self.told(answers[language], text.out)
        self.assertEqual(bare(answers["en"]), bare(answers["fr"]))
        for english, french in zip(answers["en"]["faults"], answers["fr"]["faults"]):
            self.assertNotEqual(english["title"], french["title"])
            self.assertEqual(bool(english["advice"]), bool(french["advice"]))
        return answers["en"]

    def told(self, answer: dict, text: str) -> None:
        """The text has each fault, its line, and carets under its columns."""
        shown = text.splitlines()
        at = 0
        for count, fault in enumerate(answer["faults"], 1):
            at = next(place for place in range(at, len(shown)) if shown[place].startswith(f"{count}. "))
            self.assertIn(fault["title"], shown[at])
            self.assertIn(str(fault["refusal"]), shown[at])
            for mark in fault["marks"]:
                self.assertTrue(any(mark["found"] in told and str(mark["column"]) in told for told in shown[at:]), mark)
            if any(mark["column"] <= 160 for mark in fault["marks"]):
                place = next(place for place in range(at, len(shown)) if shown[place].strip(" ^") == "" and "^" in shown[place])
                self.assertTrue(shown[place - 1].endswith(fault["lines"][0]["text"]), shown[place - 1])
                before = len(shown[place - 1]) - len(fault["lines"][0]["text"])
                carets = {column - before for column, cell in enumerate(shown[place], 1) if cell == "^"}
                self.assertEqual(carets, {mark["column"] for mark in fault["marks"] if mark["column"] <= 160})
            if fault["instead"] is not None:
                self.assertTrue(any(told.endswith(fault["instead"]) for told in shown[at:]))

    def one(self, answer: dict) -> dict:
        self.assertEqual(len(answer["faults"]), 1, [fault["title"] for fault in answer["faults"]])
        return answer["faults"][0]


class Lines(Explain):
    def test_as_a_process(self):
        for given, status in ((EXAMPLE, 0), (EXAMPLE[1:], 1)):
            for language in LANGUAGES:
                arguments = ("explain", "--lang", language)
                self.assertEqual(run(*arguments, given=given, alone=True), run(*arguments, given=given))
                self.assertEqual(run(*arguments, given=given).status, status)

    def test_accepted(self):
        answer = self.explained(EXAMPLE, status=0)
        self.assertEqual((answer["refusal"], answer["faults"], answer["not_tested"]), (None, [], []))
        self.assertEqual(answer["buffer"], 163265783)
        self.assertIn("$1,632,657.83", run("explain", given=EXAMPLE).out)
        self.assertIn("1\u00a0632\u00a0657,83\u00a0$", run("explain", "--lang", "fr", given=EXAMPLE).out)

    def test_layout_by_its_cause(self):
        for name, number, text, cause, column, instead in LAYOUTS:
            with self.subTest(name):
                answer = self.explained(changed(number, text))
                self.assertEqual((answer["refusal"], answer["line"]), (3, number))
                fault = answer["faults"][0]
                self.assertEqual((fault["refusal"], fault["line"]), (3, number))
                self.assertEqual((fault["cause"], fault["marks"][0]["column"]), (cause, column))
                self.assertEqual(fault["instead"], instead)
                if instead is not None:
                    self.assertEqual(len(answer["faults"]), 1)
                    tsav.sheet(changed(number, instead))

    def test_dollars_and_cents(self):
        """What the digits are as cents is said, and what they are as dollars; where they can be read in three ways, all of them."""
        for text, said in (
            ("OTH  1  1      2,500,000              0", ("2500000 is $25,000.00, since amounts are cents.", "type 250000000.")),
            ("OTH  1  1          2,500              0", ("250 is $2.50; 2500 is $25.00; 250000 is $2,500.00.",)),
            ("OTH  1  1       25000.00              0", ()),
        ):
            fault = self.one(self.explained(changed(8, text)))
            self.assertEqual(bool(fault["advice"]), bool(said))
            for part in said:
                self.assertIn(part, fault["advice"])

    def test_finer_than_a_cent(self):
        """Nothing is cut: only readings that are whole cents are said, and otherwise that it is to be rounded."""
        finer = "is finer than a cent: round it", "plus fin qu'un cent"
        grouped = "its digits aren't grouped by three", "ne sont pas group\u00e9s par trois"
        for text, cause, ways, why in (
            ("1,005", "thousands-separator", [1005, 100500], finer),
            ("2,345", "thousands-separator", [2345, 234500], finer),
            ("2.345", "thousands-separator", [2345, 234500], finer),
            ("1000.505", "thousands-separator", [1000505, 100050500], finer),
            ("1,000", "thousands-separator", [100, 1000, 100000], None),
            ("0.125", "decimal-sign", [], finer),
            ("0,125", "decimal-sign", [], finer),
            ("12.3456", "decimal-sign", [], finer),
            ("1234,5678", "decimal-sign", [], finer),
            ("1,000.005", "thousands-separator", [], finer),
            ("1,00,000", "thousands-separator", [], grouped),
            ("1.00.000,00", "thousands-separator", [], grouped),
            ("1000 000", "thousands-separator", [], grouped),
        ):
            with self.subTest(text):
                given = changed(8, f"OTH  1  1 {text:>14}              0")
                fault = self.one(self.explained(given))
                self.assertEqual((fault["cause"], fault["instead"]), (cause, None))
                self.assertEqual([int(way) for way in re.findall(r"(\d+) is \$", fault["advice"])], ways)
                for at, language in enumerate(LANGUAGES):
                    out = run("explain", "--lang", language, given=given).out
                    self.assertEqual([said[at] in out for said in (finer, grouped)], [why is finer, why is grouped])
        # What is exact with more decimals is whole cents.
        for text, cents in (("0.120", 12), ("12.3400", 1234), ("1,000.500", 100050), ("1 000\u00a0000", 1000000), ("1'000\u2019000", 1000000)):
            fault = self.one(self.explained(changed(8, f"OTH  1  1 {text:>14}              0")))
            self.assertEqual(fault["instead"], line("OTH", 1, 1, cents))

    def test_one_unit_in_a_line(self):
        """An amount beside one in dollars is read as dollars too, and what it is in cents is said."""
        beside = line("RSK", 1, 2, 300000, 300000)
        for text, instead, said in (
            ("RSK  1  2          3,000        3000.00", None, ()),
            ("RSK  1  2      1,000,000     700,000.00", line("RSK", 1, 2, 100000000, 70000000), ("1,000,000 is then 100000000", "type 1000000.")),
            ("RSK  1  2     700,000.00        700 000", line("RSK", 1, 2, 70000000, 70000000), ("700 000 is then 70000000", "type 700000.")),
            ("RSK  1  2        3000.00           3000", beside, ("3000 is then 300000", "type 3000.")),
            ("RSK  1  2          $3000           3000", beside, ("3000 is then 300000", "type 3000.")),
            ("RSK  1  2        3000.00        3000.00", beside, ()),
            ("RSK  1  2        3000.00              0", line("RSK", 1, 2, 300000, 0), ()),
            ("RSK  1  2        300,000        300 000", None, ()),
            ("RSK  1  2 99999999999999           0.00", None, ("99999999999999 is then 9999999999999900",)),
        ):
            with self.subTest(text):
                fault = self.explained(changed(2, text))["faults"][0]
                self.assertEqual(fault["instead"], instead)
                for part in said:
                    self.assertIn(part, fault["advice"])
                self.assertEqual("Both amounts" in (fault["advice"] or ""), bool(said))

    def test_what_a_file_is(self):
        """A workbook, rows and a sheet in thousands are told to be what they are, with the command that makes a sheet of them."""
        rows = b"Code,Block,Class,First amount,Second amount\nRSK,1,1,5,5\nGEN,0,4,1,\n"
        for given, said in (
            (b"PK\x03\x04" + bytes(200), ("It is a workbook", "C'est un classeur", "tsav import {} -o my.sheet")),
            (b"\xd0\xcf\x11\xe0" + bytes(200), ("It is a workbook", "C'est un classeur", "tsav import {} -o my.sheet")),
            (rows, ("It is a file of rows (CSV)", "C'est un fichier de lignes (CSV)", "tsav import {} -o my.sheet")),
            (rows.replace(b",", b";"), ("It is a file of rows (CSV)", "C'est un fichier de lignes (CSV)", "tsav import {} -o my.sheet")),
            (THOUSANDS, ("It is a sheet in thousands of dollars", "C'est une feuille en milliers de dollars", "tsav-convert {} -o my.sheet")),
            (changed(2, SECOND[:-1]), None),
            (b"a letter\n", None),
        ):
            for words, language in enumerate(LANGUAGES):
                with self.subTest(given=given[:20], language=language):
                    ran = run("explain", "--lang", language, given=given)
                    self.assertEqual((ran.status, said is not None), (1, "-o my.sheet" in ran.out))
                    if said:
                        told = ran.out.splitlines()[2]
                        self.assertTrue(told.startswith(said[words]) and told.endswith(said[2].format(("FILE", "FICHIER")[words])), told)

    def test_several_causes_in_a_line(self):
        fault = self.one(self.explained(changed(2, "RSK\t1  2    3,000.00           03000.00")))
        self.assertEqual(
            [(mark["cause"], mark["column"]) for mark in fault["marks"]],
            [("tab", 4), ("thousands-separator", 14), ("decimal-sign", 18), ("decimal-sign", 37)],
        )
        self.assertEqual(fault["instead"], SECOND)

    def test_whole_file(self):
        for name, given, cause, column in FILES:
            with self.subTest(name):
                answer = self.explained(given)
                fault = self.one(answer)
                self.assertEqual((fault["cause"], fault["marks"][0]["column"]), (cause, column))
                self.assertEqual(fault["refusal"], answer["refusal"])
                if answer["line"]:
                    self.assertEqual(fault["line"], answer["line"])
                self.assertEqual(answer["not_tested"], [])

    def test_mark_and_returns(self):
        answer = self.explained(b"\xef\xbb\xbf" + EXAMPLE.replace(b"\n", b"\r\n"))
        self.assertEqual([fault["cause"] for fault in answer["faults"]], ["byte-order-mark", "carriage-return"])

    def test_rules_of_a_line(self):
        for name, given, number, place, cause, column, instead in RULES:
            with self.subTest(name):
                answer = self.explained(given)
                self.assertEqual((answer["refusal"], answer["line"]), (number, place))
                fault = self.one(answer)
                self.assertEqual((fault["refusal"], fault["line"], fault["cause"]), (number, place, cause))
                self.assertEqual([mark["column"] for mark in fault["marks"]], [column])
                self.assertEqual(fault["instead"], instead)

    def test_the_other_line(self):
        for name, other, advice in (
            ("twice", 2, "The two are the same: take one of them out."),
            ("order", 8, "Move line 9 after line 1."),
            ("scalar on top", 1, "Move line 1 after line 13."),
        ):
            given = next(rule[1] for rule in RULES if rule[0] == name)
            with self.subTest(name):
                fault = self.one(self.explained(given))
                self.assertEqual([shown["line"] for shown in fault["lines"]][1], other)
                self.assertIn(advice, fault["advice"])

    def test_too_long(self):
        for given in (EXAMPLE * 49, b"\0" * 25161, EXAMPLE.replace(b"\n", b"\r\n") * 60):
            answer = self.explained(given)
            self.assertEqual((answer["refusal"], answer["line"], self.one(answer)["refusal"]), (1, None, 1))
            self.assertEqual(answer["not_tested"], [{"refusal": None, "lines": []}])

    def test_too_long_by_its_cause(self):
        for given, words in (
            (b"PK\x03\x04" + bytes(30000), "tsav import"),
            (EXAMPLE.decode().encode("utf-16") * 30, "UTF-8"),
            (b"\0\1\2" * 10000, "the file that was meant"),
            (EXAMPLE.replace(b"\n", b"\r\n") * 60, "carriage returns"),
            (EXAMPLE * 40 + b"\n" * 9000, "empty lines"),
        ):
            self.assertIn(words, self.one(self.explained(given))["advice"])

    def test_length(self):
        answer = self.explained(EXAMPLE + b"GEN  0  5     ")
        self.assertEqual((answer["refusal"], answer["line"]), (2, None))
        told = [(fault["refusal"], fault["line"], fault["cause"]) for fault in answer["faults"]]
        self.assertEqual(told, [(2, 14, "too-short"), (2, 14, "no-line-feed")])

    def test_no_scalar(self):
        answer = self.explained(sheet(*LINES[:12]))
        fault = self.one(answer)
        self.assertEqual((answer["refusal"], fault["refusal"], fault["line"]), (12, 12, None))
        self.assertEqual(fault["instead"], LINES[12])
        self.assertIn("line 12", fault["advice"])
        self.assertEqual(answer["not_tested"], [])

    def test_empty(self):
        self.assertEqual(self.one(self.explained(b""))["refusal"], 12)

    def test_thousands(self):
        fault = self.one(self.explained(THOUSANDS))
        self.assertEqual((fault["refusal"], fault["line"], fault["cause"]), (4, 1, "thousands-of-dollars"))
        self.explained(THOUSANDS, "--convert", status=0)

    def test_thousands_with_signs_of_dollars(self):
        """Nothing is proposed of an amount that may be dollars: what it is in thousands and in dollars is said, in cents both."""
        small = THOUSANDS.decode().splitlines()
        for text, cause, column, instead, said in (
            ("rsk  1  1        1234.50              0", "decimal-sign", 22, None, ("1234.50 is $1,234,500.00, in a sheet in cents 123450000", "$1,234.50, in a sheet in cents 123450.")),
            ("rsk  1  1        1234,00              0", "decimal-sign", 22, None, ("1234,00 is $1,234,000.00, in a sheet in cents 123400000", "$1,234.00, in a sheet in cents 123400.")),
            ("rsk  1  1       1.234567              0", "decimal-sign", 18, None, ()),
            ("rsk  1  1          $1234              0", "dollar-sign", 20, None, ("$1234 is $1,234,000.00, in a sheet in cents 123400000",)),
            ("rsk  1  1  1,234,567,890              0", "thousands-separator", 13, "rsk  1  1     1234567890              0", ("1234567890 is $1,234,567,890,000.00, since",)),
            ("rsk  1  1          1,234              0", "thousands-separator", 21, None, ("1234 is $1,234,000.00, since amounts are in thousands",)),
            ("rsk  1  1      1 234 567              0", "thousands-separator", 17, "rsk  1  1        1234567              0", ("1234567 is $1,234,567,000.00, since",)),
            ("rsk  1  1           0012              0", "leading-zero", 21, "rsk  1  1             12              0", ()),
            ("rsk  1  1              ,              0", "decimal-sign", 24, None, ()),
        ):
            for arguments in ((), ("--convert",)):
                with self.subTest(text, arguments=arguments):
                    fault = self.explained(sheet(text, *small[1:]), *arguments)["faults"][0]
                    self.assertEqual((fault["refusal"], fault["cause"], fault["marks"][0]["column"], fault["instead"]), (3, cause, column, instead))
                    if cause != "leading-zero":
                        self.assertIn(fault["marks"][0]["wanted"], ("whole thousands of dollars, digits alone", "digits alone"))
                    for part in said:
                        self.assertIn(part, fault["advice"])
                    self.assertEqual("in small letters" in (fault["advice"] or ""), cause in ("decimal-sign", "dollar-sign"))
        # The scalar is the same in both sorts, and a sheet with one code in capitals is none in thousands.
        scalar = self.explained(sheet(*small[:-1], "gen  0  4           1.05              0"))["faults"]
        self.assertEqual([fault["instead"] for fault in scalar if fault["cause"] == "decimal-sign"], [])
        self.assertEqual([fault["cause"] for fault in scalar], ["thousands-of-dollars"])
        converted = self.explained(sheet(*small[:-1], "gen  0  4           1.05              0"), "--convert")["faults"][0]
        self.assertEqual(converted["instead"], "gen  0  4          10500              0")
        beside = self.explained(sheet("rsk  1  1        1234.50              0", *small[1:-1], small[-1].upper()))["faults"][0]
        self.assertEqual((beside["cause"], beside["instead"]), ("decimal-sign", "rsk  1  1         123450              0"))

    def test_codes_in_letters_of_both_sorts(self):
        """With one that isn't in small letters it is no sheet in thousands, and each line's letters are told."""
        small, mixed = THOUSANDS.decode().splitlines(), LINES[12].replace("GEN", "Gen")
        for lines, advised in (
            ([*small[:12], mixed], 12),
            ([small[0].replace("rsk", "rSk"), *small[1:]], 12),
            ([text.replace("rsk", "Rsk").replace("oth", "Oth").replace("gen", "Gen").replace("vol", "Vol") for text in small], 0),
        ):
            with self.subTest(lines[0][:3]):
                faults = self.explained(sheet(*lines))["faults"]
                self.assertEqual([(fault["refusal"], fault["cause"]) for fault in faults], [(4, "letters")] * 13)
                self.assertEqual([fault["instead"] for fault in faults], [text[:3].upper() + text[3:] for text in lines])
                self.assertEqual(sum("throughout" in (fault["advice"] or "") for fault in faults), advised)
                for language in LANGUAGES:
                    self.assertNotIn("tsav-convert", run("explain", "--lang", language, given=sheet(*lines)).out)
        # An unknown code among small ones is to be small too.
        unknown = self.explained(sheet("rks" + small[0][3:], *small[1:]))["faults"]
        self.assertEqual([fault["cause"] for fault in unknown], ["code", "thousands-of-dollars"])
        self.assertEqual(unknown[0]["instead"], small[0])
        # Further down than a file's first lines are looked at.
        many = [line("rsk", block, klass, 5, 0) for block in range(1, 10) for klass in range(1, 7)]
        faults = self.explained(sheet(*many, mixed))["faults"]
        self.assertEqual({fault["cause"] for fault in faults}, {"letters"})

    def test_thousands_to_mend(self):
        """What the converter refuses as it stands isn't said to be converted, and a line for which nothing was proposed isn't set right."""
        small = THOUSANDS.decode().splitlines()
        once = "Once it is mended, ", "Une fois corrig\u00e9e, "
        right = "As it is set right above:", "Comme elle est corrig\u00e9e ci-dessus"
        for text, proposed in (("rsk  1  1         1000.5              7", False), ("rsk  1  1       1000,500              7", False), (small[0] + " ", True)):
            given = sheet(text, *small[1:])
            self.assertIsNotNone(finder.refused(tsav.convert, given))
            self.assertEqual(self.explained(given)["faults"][1]["cause"], "thousands-of-dollars")
            for at, language in enumerate(LANGUAGES):
                out = run("explain", "--lang", language, given=given).out
                self.assertIn(once[at], out.splitlines()[2])
                self.assertEqual((out.count("tsav-convert"), right[at] in out), (1, proposed))
                for arguments in (("warn", "-"), ("export", "-", "-o", "/nowhere/rows.csv")):
                    self.assertIn(once[at], run("--lang", language, *arguments, given=given).out)
                told = run("--lang", language, "explain", "--json", given=given).out
                self.assertIn(once[at], json.loads(told)["faults"][1]["advice"])
        for at, language in enumerate(LANGUAGES):
            self.assertNotIn(once[at], run("explain", "--lang", language, given=THOUSANDS).out)

    def test_the_converter_is_named_once(self):
        """Above the faults with the file, otherwise in what is to be done: of a sheet of a quarter, in JSON, and beside another command."""
        closed = THOUSANDS + CLOSING
        for given, arguments, command in (
            (THOUSANDS, (), "-o my.sheet"),
            (closed, ("--quarter",), "cents."),
            (THOUSANDS, ("--json",), "cents."),
            (b"rsk,1,1,5,5\ngen,0,4,10000,0\n", (), "cents."),
        ):
            for language, explained in zip(LANGUAGES, (" by --convert.", " par --convert.")):
                with self.subTest(given=given[:20], arguments=arguments, language=language):
                    out = run("explain", "--lang", language, *arguments, given=given).out
                    self.assertEqual((out.count("tsav-convert"), out.count(explained)), (1, 1))
                    self.assertIn(command, out.partition("tsav-convert")[2].split("\n")[0])

    def test_a_file_is_not_made_of_itself(self):
        with tempfile.TemporaryDirectory() as folder:
            for name, made in (("my.sheet", "cents.sheet"), ("other.sheet", "my.sheet")):
                file = Path(folder) / name
                file.write_bytes(THOUSANDS)
                for language in LANGUAGES:
                    self.assertIn(f"tsav-convert {file} -o {made}\n", run("explain", str(file), "--lang", language).out)

    def test_refusals_without_a_sheet(self):
        for number in range(1, 26):
            english, french = (run("explain", "--refusal", str(number), "--lang", language) for language in LANGUAGES)
            self.assertEqual((english.status, french.status), (0, 0))
            for one, other in zip(english.out.splitlines(), french.out.splitlines()):
                self.assertNotEqual(one, other)
            value = json.loads(run("explain", "--refusal", str(number), "--json").out)
            self.assertEqual(english.out, f"Refusal {number}: {value['what']}\n{value['mend']}\n")


class Totals(Explain):
    """13, 16 and 17: the lines concerned, and the amounts compared."""

    def test_mortality_credit(self):
        given = sheet(line("RSK", 1, 1, 5, 5), line("MOR", 1, 1, 100, 100), line("MOR", 2, 1, 3, 3), line("MOR", 3, 1, 3, 0), LINES[12])
        answer = self.explained(given)
        self.assertEqual((answer["refusal"], answer["line"]), (16, None))
        first, second = answer["faults"]
        # With S and T of 100 the credit is 129; with 3 it is 3.
        self.assertEqual([shown["line"] for shown in first["lines"]], [2, 1])
        self.assertEqual([amount["cents"] for amount in first["compared"]], [129, 5])
        self.assertEqual([shown["line"] for shown in second["lines"]], [3])
        self.assertEqual([amount["cents"] for amount in second["compared"]], [3, 0])
        self.assertEqual((first["refusal"], second["refusal"], answer["not_tested"]), (16, 16, []))

    def test_credit_that_no_call_gives(self):
        most = tsav.LARGEST_AMOUNT
        given = sheet(line("RSK", 1, 1, most, most), line("MOR", 1, 1, most, most), LINES[12])
        self.assertEqual([amount["cents"] for amount in self.one(self.explained(given))["compared"]], [None, most])
        self.assertIn("above $999,999,999,999.99", run("explain", given=given).out)
        self.assertIn("plus de 999\u00a0999\u00a0999\u00a0999,99\u00a0$", run("explain", "--lang", "fr", given=given).out)

    def test_dividend_credit(self):
        given = sheet(line("OTH", 18, 1, 200), LINES[12], line("CRD", 17, 1, 0), line("CRD", 18, 1, 201))
        answer = self.explained(given)
        self.assertEqual((answer["refusal"], answer["line"]), (17, None))
        first, second = answer["faults"]
        self.assertEqual((first["cause"], [amount["cents"] for amount in first["compared"]]), ("no-block", [0]))
        self.assertEqual((second["cause"], [amount["cents"] for amount in second["compared"]]), ("dividend-credit", [201, 200]))
        self.assertEqual([fault["line"] for fault in answer["faults"]], [3, 4])

    def test_credits(self):
        lines = [line("OTH", 1, 1, 200), line("OTH", 17, 1, 50), line("GEN", 0, 2, 1000), line("GEN", 0, 4, 5000), line("GEN", 0, 5, 1000)]
        lines += [line("CRD", 0, 3, 288), line("CRD", 17, 1, 8)]
        # RO is 4.5 % of 1000; what is left is 200 + 50 - 8 + 1000 + 45.
        tsav.sheet(sheet(*lines[:5], line("CRD", 0, 3, 287), lines[6]))
        answer = self.explained(sheet(*lines))
        fault = self.one(answer)
        self.assertEqual((answer["refusal"], answer["line"], fault["refusal"]), (13, None, 13))
        self.assertEqual([shown["line"] for shown in fault["lines"]], [5, 6])
        self.assertEqual([amount["cents"] for amount in fault["compared"]], [1288, 1287])

    def test_not_tested(self):
        """Of a touched line, what depends on it; of any other, what it depends on."""
        mor = [line("RSK", 1, 1, 5, 5), line("RSK", 2, 1, 5, 5), line("MOR", 1, 1, 100, 100), line("MOR", 2, 1, 100, 100), LINES[12]]
        crd = [line("OTH", 17, 1, 7), line("OTH", 18, 1, 7), LINES[12], line("CRD", 17, 1, 8), line("CRD", 18, 1, 8)]
        both = [line("OTH", 1, 1, 7), line("GEN", 0, 4, 10000), line("GEN", 0, 5, 8)]
        for name, lines, touched, text, told, untold in (
            ("16 of its own block", mor, 1, line("RSK", 1, 1, 5, 6), [9, 16], [(16, [1])]),
            ("16, its own line", mor, 3, "MOR  1  1           1,00            100", [3, 16], [(16, [3])]),
            ("16, any code", mor, 1, "XYZ" + mor[0][3:], [4, 16], [(16, [1])]),
            ("17 of its own block", crd, 1, line("OTH", 17, 1, 7, 7), [8, 17], [(17, [1])]),
            ("17, its own line", crd, 5, line("CRD", 18, 1, 8, 8), [8, 17], [(17, [5])]),
            ("13, any line", both, 1, line("OTH", 1, 1, 7, 7), [8], [(13, [1])]),
            ("13, not the scalar's", both, 2, line("GEN", 0, 4, 0), [10, 13], []),
            ("12, its own line", both, 2, "GEN  0  6          10000              0", [6], [(12, [2]), (13, [2])]),
            ("12, a line without a code", both, 2, "0 4 10000 0", [3], [(12, [2]), (13, [2])]),
            ("16 and 17 have no line", both, 1, "RSX  1  1              7              0", [4], [(13, [1])]),
            ("12, a title", both, 2, "Scalar of this year", [3, 12, 13], []),
            ("12, another line", both[:1] + both[2:], 1, line("OTH", 1, 1, 7, 7), [8, 12], [(13, [1])]),
        ):
            with self.subTest(name):
                answer = self.explained(sheet(*lines[: touched - 1], text, *lines[touched:]))
                self.assertEqual([fault["refusal"] for fault in answer["faults"]], told)
                self.assertEqual([(some["refusal"], some["lines"]) for some in answer["not_tested"]], untold)

    def test_moved_lines_are_not_touched(self):
        lines = [LINES[12], line("OTH", 17, 1, 7), line("CRD", 17, 1, 8), line("CRD", 0, 1, 8)]
        for given in (sheet(*lines).replace(b"\n", b"\r\n"), sheet(*lines).replace(b"\n", b"\r\n") + b"\r"):
            answer = self.explained(given)
            self.assertEqual([fault["refusal"] for fault in answer["faults"]], [3, 19, 19, 17])
            self.assertEqual(answer["not_tested"], [{"refusal": 13, "lines": [3]}])

    def test_the_last_line_feed_touches_no_line(self):
        answer = self.explained(sheet(line("OTH", 17, 1, 7), LINES[12], line("CRD", 17, 1, 8))[:-1])
        self.assertEqual([fault["refusal"] for fault in answer["faults"]], [2, 17])


class Others(Explain):
    """What the convert call, the quarter call and the movement call refuse."""

    def test_converter(self):
        small = THOUSANDS.decode().splitlines()
        for name, given, number, place, cause, columns_, instead in (
            ("no whole thousands", EXAMPLE, 20, 4, "whole-thousands", [24], None),
            ("both", sheet(line("RSK", 1, 1, 100001, 1), LINES[12]), 20, 1, "whole-thousands", [24, 39], None),
            ("too many", sheet(line("rsk", 1, 1, 1000000000, 0), small[12]), 21, 1, "too-large", [24], None),
            ("too many, the second", sheet(line("vol", 1, 1, 999999999, 1000000000), small[12]), 21, 1, "too-large", [39], None),
            ("mixed letters", sheet(small[0], LINES[1].replace("300000", "300000"), small[12]), 4, 2, "letters", [1], LINES[1].replace("RSK", "rsk")),
            ("level and trend", sheet(line("rsk", 1, 1, 1, 2)), 9, 1, "level-and-trend", [39], None),
            ("tab", sheet(small[0], "rsk\t1  2              1              1", small[12]), 3, 2, "tab", [4], line("rsk", 1, 2, 1, 1)),
        ):
            with self.subTest(name):
                answer = self.explained(given, "--convert")
                fault = answer["faults"][0]
                self.assertEqual((answer["refusal"], answer["line"]), (number, place))
                self.assertEqual((fault["refusal"], fault["line"], fault["cause"]), (number, place, cause))
                self.assertEqual([mark["column"] for mark in fault["marks"]], columns_)
                self.assertEqual(fault["instead"], instead)
                self.assertEqual(answer["not_tested"], [])
        self.assertEqual([fault["line"] for fault in self.explained(EXAMPLE, "--convert")["faults"]], [4, 11])

    def test_quarter(self):
        given = (TOP / "examples" / "example.quarter").read_bytes()
        answer = self.explained(given, "--quarter")
        self.assertEqual((answer["refusal"], [part["refusal"] for part in answer["sheets"]]), (None, [None, 9, None]))
        self.assertEqual([part["buffer"] for part in answer["sheets"]], [163265783, None, 155102494])
        self.assertEqual([part["starts"] for part in answer["sheets"]], [1, 15, 29])
        fault = self.one(answer["sheets"][1])
        self.assertEqual((fault["refusal"], fault["line"], fault["marks"][0]["column"]), (9, 2, 39))
        self.assertIn("15", run("explain", "--quarter", given=given).out.splitlines()[2])
        good = self.explained(EXAMPLE + CLOSING, "--quarter", status=0)
        self.assertEqual((good["refusal"], good["faults"]), (None, []))

    def test_a_quarter_that_is_taken_for_a_sheet(self):
        """It is told to be one, and nothing of what its sheets have in common; also with returns, and where it is too long for a sheet."""
        given = (TOP / "examples" / "example.quarter").read_bytes()
        command = "tsav report --quarter {} -o page.html", "tsav explain --quarter"
        for name, given, faults in (
            ("the example", given, [(3, "closing-line", 14)]),
            ("returns", given.replace(b"\n", b"\r\n"), [(3, "carriage-return", 1), (3, "closing-line", 14)]),
            ("the last not closed", EXAMPLE + CLOSING + EXAMPLE, [(3, "closing-line", 14)]),
            ("a fault before", changed(2, SECOND[:-1]) + CLOSING + EXAMPLE, [(3, "too-short", 2), (3, "closing-line", 14)]),
            ("long dashes", EXAMPLE + ("\u2014" * 39 + "\n").encode() + EXAMPLE, [(3, "closing-line", 14)]),
            ("spaces behind", (EXAMPLE + CLOSING[:-1] + b"  \n") * 2, [(3, "trailing-spaces", 14)]),
            ("long", (EXAMPLE + CLOSING) * 46, [(1, "too-long-sheet", None)]),
        ):
            with self.subTest(name):
                answer = self.explained(given)
                self.assertEqual([(fault["refusal"], fault["cause"], fault["line"]) for fault in answer["faults"]], faults)
                self.assertEqual(answer["not_tested"], [{"refusal": None, "lines": []}])
                for language, file, said in zip(LANGUAGES, ("FILE", "FICHIER"), ("It is the file of a quarter, ", "C'est le fichier d'un trimestre, ")):
                    out = run("explain", "--lang", language, given=given).out
                    self.assertIn(command[0].format(file), out.splitlines()[2])
                    self.assertIn(command[1], out)
                    self.assertTrue(out.splitlines()[2].startswith(said), out)
                    self.assertNotIn(("Take the line out", "Enlevez la ligne")[language == "fr"], out)
        # A sheet with a closing line behind it, and one whose blocks have a rule between them, are mended.
        for given, faults in ((EXAMPLE + CLOSING, 1), (sheet(*LINES[:7], "-" * 12, *LINES[7:]), 1)):
            answer = self.explained(given)
            self.assertEqual((len(answer["faults"]), answer["faults"][0]["cause"], answer["not_tested"]), (faults, "closing-line", []))

    def test_a_quarter_in_each_subcommand(self):
        """That takes one sheet."""
        quarter = str(TOP / "examples" / "example.quarter")
        with tempfile.TemporaryDirectory() as folder:
            page, rows = str(Path(folder) / "page.html"), str(Path(folder) / "rows.csv")
            for arguments in (
                ("warn", quarter),
                ("warn", "-", "--before", quarter),
                ("compare", "-", quarter),
                ("export", quarter, "-o", rows),
                ("report", quarter, "-o", page),
                ("report", "-", "--before", quarter, "-o", page),
                ("operational", quarter),
                ("block", quarter, "--block", "1"),
                ("shares", quarter, "--block", "1"),
                ("movement", quarter, "--block", "1", "--by", "1"),
            ):
                for language, said in zip(LANGUAGES, ("It is the file of a quarter, ", "C'est le fichier d'un trimestre, ")):
                    with self.subTest(arguments[0], language=language):
                        ran = run("--lang", language, *arguments, given=EXAMPLE)
                        self.assertEqual((ran.status, ran.err), (1, ""))
                        self.assertIn(said, ran.out)
                        self.assertIn(f"tsav report --quarter {quarter} -o page.html", ran.out)
            for language, said in zip(LANGUAGES, ("it is the file of a quarter", "c'est le fichier d'un trimestre")):
                ran = run("--lang", language, "import", quarter, "-o", str(Path(folder) / "my.sheet"))
                self.assertEqual((ran.status, ran.err), (1, ""))
                self.assertIn(said, ran.out)
            self.assertEqual(list(Path(folder).iterdir()), [])

    def test_quarter_not_closed(self):
        dashes = "-" * 39
        for name, given, count, place, cause, column in (
            ("nothing", EXAMPLE, 1, 13, "not-closed", 40),
            ("an empty line", EXAMPLE + CLOSING + b"\n", 1, 15, "empty-line", 1),
            ("38", EXAMPLE + CLOSING[1:], 1, 14, "closing-line", 1),
            ("40", EXAMPLE + b"-" + CLOSING, 1, 14, "closing-line", 1),
            ("long dashes", EXAMPLE + ("\u2014" * 39 + "\n").encode(), 1, 14, "closing-line", 1),
            ("no line feed", EXAMPLE + CLOSING[:-1], 1, 14, "no-line-feed", 40),
            ("a sheet without one", EXAMPLE[:-1] + CLOSING, 1, 13, "no-line-feed", 40),
            ("a carriage return", EXAMPLE + dashes.encode() + b"\r", 1, 14, "carriage-return", 40),
            ("carriage returns", (EXAMPLE + CLOSING).replace(b"\n", b"\r\n") * 2, 2, 14, "carriage-return", 40),
            ("a space behind", EXAMPLE + CLOSING[:-1] + b" \n", 1, 14, "trailing-spaces", 40),
            ("spaces behind, no line feed", EXAMPLE + CLOSING[:-1] + b"  ", 1, 14, "trailing-spaces", 40),
            ("UTF-16", (EXAMPLE + CLOSING).decode().encode("utf-16"), 1, 1, "utf-16", 1),
        ):
            with self.subTest(name):
                answer = self.explained(given, "--quarter")
                fault = self.one(answer)
                self.assertEqual((answer["refusal"], fault["refusal"], fault["line"]), (25, 25, place))
                self.assertEqual((fault["cause"], fault["marks"][0]["column"]), (cause, column))
                self.assertEqual([part["refusal"] for part in answer["sheets"]], [None] * count)

    def test_quarter_with_returns(self):
        """They are told once, of all lines, with the command that takes them out."""
        given = (EXAMPLE + CLOSING) * 2
        returned = given.replace(b"\n", b"\r\n")
        fault = self.one(self.explained(returned, "--quarter"))
        self.assertIn("28 lines of 28", fault["marks"][0]["found"])
        self.assertIn("tr -d '\\r' < FILE", fault["advice"])
        self.assertEqual(len(self.explained(returned.replace(b"\r", b""), "--quarter", status=0)["sheets"]), 2)
        for language, said in zip(LANGUAGES, ("28 lines of 28", "28 lignes sur 28")):
            out = run("explain", "--lang", language, "--quarter", given=returned).out
            self.assertEqual((out.count(said), out.count("tr -d '\\r'")), (1, 1))
        # One closing line of two.
        fault = self.one(self.explained(given[:-1] + b"\r\n", "--quarter"))
        self.assertEqual((fault["line"], fault["cause"]), (28, "carriage-return"))
        self.assertIn("1 line of 28", fault["marks"][0]["found"])

    def test_quarter_with_spaces_behind_a_closing_line(self):
        closing = CLOSING[:-1] + b" \n"
        answer = self.explained(EXAMPLE + closing + EXAMPLE + CLOSING, "--quarter")
        fault = self.one(answer["sheets"][0])
        self.assertEqual((fault["refusal"], fault["line"], fault["cause"], fault["marks"][0]["column"]), (3, 14, "trailing-spaces", 40))
        self.assertIn("Each sheet is closed by", fault["advice"])
        given = (EXAMPLE + closing) * 2
        for language, said in zip(LANGUAGES, ("1 space after the closing line", "1 espace apr\u00e8s la ligne qui ferme")):
            self.assertEqual(run("explain", "--lang", language, "--quarter", given=given).out.count(said), 2)
        # 40 minus signs with a space behind are no closing line with a space.
        fault = self.explained(EXAMPLE + b"-" + closing + EXAMPLE)["faults"][0]
        self.assertEqual((fault["cause"], fault["marks"][0]["found"]), ("closing-line", "40 minus signs"))

    def test_quarter_too_many(self):
        for extra, place in ((b"\n", 841), (EXAMPLE, 841), (EXAMPLE + CLOSING, 841)):
            answer = self.explained((EXAMPLE + CLOSING) * 60 + extra, "--quarter")
            fault = self.one(answer)
            self.assertEqual((answer["refusal"], answer["sheet"], fault["refusal"], fault["line"]), (24, 61, 24, place))
            self.assertEqual(len(answer["sheets"]), 60)

    def test_movement(self):
        lines = (TOP / "examples" / "example.movement").read_text().splitlines()
        self.assertEqual(self.explained(sheet(*lines), "--movement", status=0)["faults"], [])
        for name, number, text, refusal, cause, column, instead in (
            ("comma", 3, "      3,000.00", 3, "thousands-separator", 8, lines[2]),
            ("three readings", 3, "       300,000", 3, "thousands-separator", 11, None),
            ("left-justified", 3, "300000        ", 3, "not-right-justified", 6, lines[2]),
            ("short", 3, "300000", 2, "not-right-justified", 6, lines[2]),
            ("minus", 3, "       -300000", 3, "minus", 8, None),
            ("leading zero", 3, "       0300000", 3, "leading-zero", 8, lines[2]),
            ("expenses", 14, "             1", 8, "second-amount", 14, "             0"),
            ("level and trend", 4, "        300001", 9, "level-and-trend", 14, None),
            ("carriage return", 4, lines[3] + "\r", 2, "carriage-return", 15, None),
            ("empty", 4, "", 2, "empty-line", 1, None),
            ("behind", 18, lines[17] + "\n             1", 2, "lines", 1, None),
        ):
            with self.subTest(name):
                answer = self.explained(sheet(*lines[: number - 1], text, *lines[number:]), "--movement")
                fault = self.one(answer)
                self.assertEqual((answer["refusal"], fault["refusal"], fault["cause"]), (refusal, refusal, cause))
                self.assertEqual((fault["line"], fault["marks"][0]["column"]), (number + (name == "behind"), column))
                self.assertEqual(fault["instead"], instead)
        few = self.explained(sheet(*lines[:17]), "--movement")
        self.assertEqual((few["refusal"], self.one(few)["refusal"], few["not_tested"]), (2, 2, [{"refusal": None, "lines": []}]))

    def test_movement_raised(self):
        """22 is in the answer: the risks whose component, raised, passes the largest amount."""
        lines = (TOP / "examples" / "example.movement").read_text().splitlines()
        t = tsav.LARGEST_AMOUNT - 30000000
        answer = self.explained(sheet(*lines[:17], f"{t:14}"), "--movement")
        self.assertEqual(answer["refusal"], None)
        fault = self.one(answer)
        self.assertEqual((fault["refusal"], fault["line"]), (22, 1))
        self.assertEqual([amount["cents"] for amount in fault["compared"]], [100000000, t, tsav.LARGEST_AMOUNT])


class Hostile(Explain):
    def test_binary(self):
        for given, cause in (
            (bytes(range(256)) * 90, "not-text"),
            (b"PK\x03\x04" + b"\x14\x00\x06\x00" * 500, "not-text"),
            (b"\xff" * 4000, "title-line"),
            (b"\0" * 4000, "not-text"),
        ):
            self.assertEqual(self.explained(given)["faults"][0]["cause"], cause)

    def test_endless(self):
        with open("/dev/zero", "rb") as zeros:
            done = subprocess.run(COMMAND + ["explain", "--json"], stdin=zeros, capture_output=True, timeout=60, check=False)
        self.assertEqual((done.returncode, json.loads(done.stdout)["refusal"]), (1, 1))
        for option in ("--quarter", "--movement"):
            with open("/dev/zero", "rb") as zeros:
                done = subprocess.run(COMMAND + ["explain", option], stdin=zeros, capture_output=True, timeout=60, check=False)
            self.assertEqual((done.returncode, done.stdout), (2, b""))

    def test_many_short_lines(self):
        self.assertEqual(len(self.explained(b"a\n" * 3000)["faults"]), 2)
        self.assertEqual(self.explained(b"RSK 1 1 1 1\n" * 2096)["faults"][-1]["refusal"], 1)

    def test_long_lines(self):
        """A line of thousands of digits, which Python makes no number of; and what is shown of it."""
        for given, cause in (
            (b"RSK  1  1 " + b"9" * 20000 + b"\n", "too-many-digits"),
            (b"RSK " + b"9" * 9000 + b" 1 1 1\n", "too-many-digits"),
            (b"RSK 1 " + b"9" * 9000 + b" 1 1\n", "too-many-digits"),
            (b"RSK  1  1 " + b"0" * 20000 + b"\n", "leading-zero"),
            (b"RSK  1  1 " + b"1,000" * 4000 + b"\n", "thousands-separator"),
            (b"RSK" + b" " * 20000 + b"1,000.00\n", "decimal-sign"),
            (b"x" * 25000, "title-line"),
        ):
            fault = self.explained(given)["faults"][0]
            self.assertIn(cause, [mark["cause"] for mark in fault["marks"]])
            self.assertEqual(len(fault["lines"][0]["text"]), 160)
        self.assertEqual(self.explained(b"9" * 4000 + b"\n", "--movement")["faults"][0]["cause"], "too-many-digits")

    def test_nothing_moves_the_terminal(self):
        given = changed(2, "RSK  1  2  \x1b[2J \u202e\x9b \x07        300000         300000")
        for name in ("en", "fr"):
            out = run("explain", "--lang", name, given=given).out
            self.assertIn("\u241b[2J", out)
            self.assertEqual([character for character in out if not (character.isprintable() or character in "\n\u00a0")], [])


class Drawn(unittest.TestCase):
    """Drawn sheets, in this process: what is told first is the call's own, and what is set right is accepted."""

    def test_drawn(self):
        messages.choose("en")
        draw = random.Random(20230101)
        pieces = ["\t", ",", ".", "-", " ", "0", "9", "\r", "\n", "\n\n\n  ", "RSK", "rsk", "GEN", "\u00e9", "\0", "x", ""]
        refused = 0
        for _ in range(1500):
            lines = [draw.choice(LINES + [line("MOR", 1, 1, 5, 5), line("CRD", 17, 1, 1), line("CRD", 0, 1, 9)]) for _ in range(draw.randint(0, 9))]
            if draw.random() < 0.7:
                lines = sorted(set(lines), key=lambda text: columns.read(text.encode() + b"\n").key)
            text = "".join(text + "\n" for text in lines)
            for _ in range(draw.randint(0, 3)):
                at = draw.randint(0, len(text))
                text = text[:at] + draw.choice(pieces) + text[at + draw.choice((0, 0, 1, 3)) :]
            self.agrees(text.encode(), tsav.sheet)
            self.agrees(text.encode(), tsav.convert)
            refused += finder.refused(tsav.sheet, text.encode()) is not None
        self.assertGreater(refused, 700)

    def agrees(self, given: bytes, call) -> None:
        found = finder.Finder(given, call)
        refusal = finder.refused(call, given)
        self.assertEqual(bool(refusal), bool(found.faults or found.not_tested), given)
        if not refusal:
            return
        if found.faults and refusal.number not in (12, 13, 16, 17):
            first = found.faults[0]
            self.assertEqual(first.number, refusal.number, given)
            if refusal.line is not None:
                self.assertIn(refusal.line, (first.line, first.counted), given)
        for fault in found.faults:
            for mark in fault.marks:
                self.assertTrue(1 <= mark.column <= len(fault.lines[0].text) + 1 or mark.column == columns.LENGTH, given)
                self.assertTrue(mark.found and mark.wanted)
        if not any(some.number is None for some in found.not_tested):
            call(found.rows.data())


class Page(unittest.TestCase):
    """What docs/PROGRAMMING.md says of it is so."""

    SECTION = (TOP / "docs" / "PROGRAMMING.md").read_text(encoding="utf-8").partition("### Explain\n")[2].partition("\n### ")[0]

    def test_names(self):
        """Every name of an answer is in the section, and every cause: none of the source is left out, and none is there that isn't."""
        answers = [json.loads(run("explain", "--json", *arguments, given=given).out) for arguments, given in (
            ((), EXAMPLE), (("--quarter",), EXAMPLE + CLOSING + LINES[0].encode()), (("--movement",), b"x\n"), ((), EXAMPLE[:-40]),
        )]
        for name in {name for answer in answers for name in names_of(answer)}:
            self.assertIn(f"`{name}`", self.SECTION)
        table = self.SECTION.partition("| Refusal | Causes |")[2]
        told = set(re.findall(r"`([a-z0-9-]+)`", table))
        source = "".join(file.read_text(encoding="utf-8") for file in sorted(Path(lines.__file__).parent.glob("*.py")))
        self.assertEqual({cause for cause in told if f'"{cause}"' not in source}, set())
        self.assertEqual(set(layout.NAMES) - told, set())


def bare(value):
    """Without words, which a language has, and with the places that they are of."""
    if isinstance(value, dict):
        words = ("title", "name", "advice", "found", "wanted")
        return {name: value[name] is None if name in words else bare(value[name]) for name in value}
    return [bare(part) for part in value] if isinstance(value, list) else value
