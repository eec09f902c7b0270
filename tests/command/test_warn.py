"""`tsav warn`: what is accepted and yet looks wrong, each in both languages, with what the calls say of it."""

import json
import random
import re
import unittest
from fractions import Fraction

import tsav as library
from drawn import sheets as drawn_sheets
from running import TOP, names_of, tsav
from sheets import EXAMPLE, SOUND, InFolder, altered, sheet, sound, total
from tsav.command import columns, labels, messages

SECTION = (TOP / "docs" / "PROGRAMMING.md").read_text(encoding="utf-8").partition("### Warn and compare\n")[2].partition("\n### ")[0]

DRAWN = 200


def warnings(data: bytes, *arguments) -> dict:
    """What `--json` has of these, by cause and section."""
    ran = tsav("warn", "-", "--json", *arguments, given=data)
    assert (ran.status, ran.err) == (0, ""), ran
    return {(doubt["cause"], doubt["section"]): doubt for doubt in json.loads(ran.out)["warnings"]}


def causes(data: bytes, *arguments) -> set:
    return {cause for cause, _section in warnings(data, *arguments)}


def amounts(doubt: dict) -> dict:
    return {amount["key"]: amount["cents"] for amount in doubt["amounts"]}


def places(doubt: dict) -> list:
    return [(line["code"], line["block"], line["class"]) for line in doubt["lines"]]


class Silent(unittest.TestCase):
    """The three wrong returns that go out with status 0 and no word."""

    def told(self, data: bytes, cause: str, *words) -> dict:
        for language, said in zip(("en", "fr"), words):
            ran = tsav("warn", "-", "--lang", language, given=data)
            self.assertEqual((ran.status, ran.err), (0, ""))
            for text in said:
                self.assertIn(text, ran.out)
        found = {name: doubt for (name, _section), doubt in warnings(data).items()}
        self.assertIn(cause, found)
        return found[cause]

    def test_scalar_typed_as_1(self):
        doubt = self.told(
            EXAMPLE.replace(b"GEN  0  4          10000", b"GEN  0  4              1"),
            "scalar-one",
            ("Section 11.3: the scalar is 0.0001: was it typed as 1?", "a scalar of 1 is typed as 10000", "$163.27", "$1,632,657.83"),
            (
                "Section 11.3\u00a0: le facteur scalaire est 0,0001\u00a0: a-t-il",
                "un facteur de 1 se tape 10000",
                "163,27\u00a0$",
                "1\u00a0632\u00a0657,83\u00a0$",
            ),
        )
        self.assertEqual(amounts(doubt), {"buffer": 16327, "buffer_at_one": 163265783})
        self.assertEqual((doubt["section"], places(doubt), doubt["lines"][0]["line"]), ("11.3", [("GEN", 0, 4)], 13))

    def test_a_whole_sheet_in_dollars(self):
        """Each line as it is typed where the unit is taken for dollars."""
        lines = [columns.read(line) for line in EXAMPLE.splitlines(keepends=True)]
        dollars = sheet(*(line if line[:3] == columns.SCALAR else (*line[:3], line.first // 100, line.second // 100) for line in lines))
        doubt = self.told(
            dollars,
            "in-dollars",
            ("Section 11.3: all amounts are small enough to be dollars", "$16,326.59", "$1,632,657.83"),
            (
                "Section 11.3\u00a0: tous les montants sont assez petits pour \u00eatre en dollars",
                "16\u00a0326,59\u00a0$",
                "1\u00a0632\u00a0657,83\u00a0$",
            ),
        )
        self.assertEqual(amounts(doubt), {"largest": 2_000_000, "buffer": total(dollars, 3), "buffer_in_dollars": 163_265_783})

    def test_components_left_out(self):
        doubt = self.told(
            EXAMPLE.replace(b"GEN  0  1      200000000              0\n", b""),
            "components-missing",
            ("Section 8.2.3: the components of GEN class 1 are missing", "$1,765,500.00", "before reinsurance and credits"),
            (
                "Section 8.2.3\u00a0: les composantes de GEN classe 1 manquent",
                "1\u00a0765\u00a0500,00\u00a0$",
                "avant r\u00e9assurance et cr\u00e9dits",
            ),
        )
        mended = EXAMPLE.replace(b"GEN  0  1      200000000", b"GEN  0  1      176550000")
        self.assertEqual(
            amounts(doubt),
            {"components": 0, "components_of_blocks": 176_550_000, "buffer": 151_765_783, "buffer_with_them": total(mended, 3)},
        )
        self.assertEqual([line["line"] for line in doubt["lines"]], [None])


class Alone(unittest.TestCase):
    def test_nothing_looks_wrong(self):
        self.assertEqual(warnings(sound()), {})
        for language, said in (("en", "No warnings.\n"), ("fr", "Aucun avertissement.\n")):
            ran = tsav("warn", "-", "--lang", language, given=sound())
            self.assertEqual((ran.status, ran.err), (0, ""))
            self.assertTrue(ran.out.endswith(said), ran.out)

    def test_scalar(self):
        good = {8_500: None, 10_000: None, 11_000: None}
        for scalar, cause in {1: "scalar-one", 2: "scalar", 8_499: "scalar", **good, 11_001: "scalar", 20_000: "scalar"}.items():
            with self.subTest(scalar=scalar):
                found = warnings(sound(("GEN", 0, 4, scalar, 0)))
                self.assertEqual(set(found), {(cause, "11.3")} if cause else set())
                if cause:
                    at_one = amounts(found[cause, "11.3"])
                    self.assertEqual(at_one, {"buffer": total(sound(("GEN", 0, 4, scalar, 0)), 3), "buffer_at_one": total(sound(), 3)})

    def test_components(self):
        """Before the credit of survival and death products, which lowers U and not what section 8.2.3 means."""
        blocks = sum(first for code, _block, _klass, first, _second in SOUND if code in ("RSK", "OTH"))
        for given, cause in ((blocks, None), (blocks - 1, "components-below"), (0, "components-missing")):
            with self.subTest(given=given):
                found = warnings(sound(("GEN", 0, 1, given, 0)))
                self.assertEqual(set(found), {(cause, "8.2.3")} if cause else set())
                if cause:
                    data = amounts(found[cause, "8.2.3"])
                    self.assertEqual((data["components"], data["components_of_blocks"]), (given, blocks))
                    self.assertEqual(data["buffer_with_them"], total(sound(("GEN", 0, 1, blocks, 0)), 3))
                    self.assertEqual(found[cause, "8.2.3"]["lines"][0]["line"], 9)

    def test_components_above_any_amount(self):
        largest = library.LARGEST_AMOUNT
        data = sheet(("RSK", 1, 1, largest, 0), ("RSK", 2, 1, largest, 0), ("GEN", 0, 1, largest, 0), ("GEN", 0, 4, 10_000, 0))
        found = amounts(warnings(data)["components-below", "8.2.3"])
        self.assertEqual(found["components_of_blocks"], 2 * largest)
        self.assertNotIn("buffer_with_them", found)

    def test_no_blocks_need_no_components(self):
        self.assertEqual(causes(sheet(("VOL", 1, 1, 3_000_000_001, 3_000_000_000), ("GEN", 0, 4, 10_000, 0))), set())

    def test_small(self):
        for first, second, small in ((999_999_999, 1, True), (1_000_000_000, 1, False), (1, 1_000_000_000, False), (0, 1, True), (0, 0, False)):
            with self.subTest(first=first, second=second):
                self.assertEqual("in-dollars" in causes(sheet(("VOL", 1, 1, first, second), ("GEN", 0, 4, 10_000, 0))), small)

    def test_in_dollars_refused(self):
        """Read as dollars the credit is finer, and may be above level and trend: then no buffer is told."""
        found = None
        for survival in range(1, 60):
            credit = survival + 1 - next(root for root in range(200) if 2 * root**2 >= 2 * survival**2 + 2 - 3 * survival)
            data = sheet(("RSK", 1, 1, credit, credit), ("MOR", 1, 1, survival, 1), ("GEN", 0, 1, 99, 0), ("GEN", 0, 4, 10_000, 0))
            found = amounts(warnings(data)["in-dollars", "11.3"])
            if "buffer_in_dollars" not in found:
                hundred = ("RSK", 1, 1, 100 * credit, 100 * credit), ("MOR", 1, 1, 100 * survival, 100)
                with self.assertRaises(library.Refused):
                    library.sheet(sheet(*hundred, ("GEN", 0, 1, 9900, 0), ("GEN", 0, 4, 10_000, 0)))
                return
        self.fail("none was refused")

    def test_rounded(self):
        whole = [(*line[:3], *(amount // 100_000 * 100_000 for amount in line[3:])) for line in SOUND]
        thousands = tuple(line if line[:3] != columns.SCALAR else (*columns.SCALAR, 10_000, 0) for line in whole)
        hundreds = (*thousands[1:], (*thousands[0][:3], thousands[0][3] + 100, thousands[0][4]))
        for lines, title in ((hundreds, "all amounts end in 00: "), (thousands, "all amounts end in 00000: ")):
            found = warnings(sheet(*lines))
            self.assertIn(("rounded", "11.3"), found)
            self.assertTrue(found["rounded", "11.3"]["title"].startswith(title))
            # One amount with cents, the first or the second, is enough.
            self.assertNotIn("rounded", causes(sheet(*lines[1:], (*lines[0][:3], lines[0][3] + 1, lines[0][4]))))
            self.assertNotIn("rounded", causes(sheet(*lines[1:], (*lines[0][:4], lines[0][4] + 1))))
        self.assertNotIn("rounded", causes(sheet(("GEN", 0, 4, 10_000, 0))))

    def test_no_previous_period(self):
        others = ("VOL", 1, 1, 3_000_000_023, 0), ("VOL", 2, 7, 0, 5), ("VOL", 3, 1, 0, 0)
        data = sound(*others, ("VOL", 1, 5, 100_000_031, 0), ("VOL", 2, 8, 77_000_001, 0))
        found = warnings(data)
        self.assertEqual(set(found), {("no-previous", "8.2.2")})
        doubt = found["no-previous", "8.2.2"]
        # Class 1 has a previous period, that of the business that was bought.
        self.assertEqual(places(doubt), [("VOL", 1, 5), ("VOL", 2, 8)])
        self.assertEqual([line["amounts"][0]["cents"] for line in doubt["lines"]], [100_000_031, 77_000_001])
        as_large = sound(*others, ("VOL", 1, 5, 100_000_031, 100_000_031), ("VOL", 2, 8, 77_000_001, 77_000_001))
        self.assertEqual(amounts(doubt), {"operational": total(data, 2), "operational_without_growth": total(as_large, 2)})
        self.assertGreater(total(data, 2), total(as_large, 2))

    def test_needs(self):
        cases = {
            ("GEN", 0, 2): ("need-guarantees", "11.3", ("VOL", 1, 5), {"code": "GEN", "block": 0, "class": 2}),
            ("RSK", 1, 1): ("need-mortality", "11.1.1", ("MOR", 1, 1), {"code": "RSK", "block": 1, "class": 1}),
            ("VOL", 1, 1): ("need-volume", "8.2.2", ("ACQ", 1, 1), {"code": "VOL", "block": 1, "class": 1}),
            ("RSK", 17, 3): ("need-risk", "11.3", ("CRD", 17, 1), {"code": "RSK", "block": 17, "class": 0}),
        }
        # Without a credit, and with a block for the dividend credit: none of these is refused.
        others = ("MOR", 1, 1, 900_000_017, 0), ("OTH", 17, 1, 3_000_001, 0)
        for key, (cause, section, line, needs) in cases.items():
            for missing, data in ((True, sound(*others, without=(key,))), (False, sound(*others, (*key, 0, 0)))):
                with self.subTest(cause=cause, missing=missing):
                    found = warnings(data)
                    self.assertEqual(set(found), {(cause, section)})
                    doubt = found[cause, section]
                    self.assertEqual((places(doubt), doubt["lines"][0]["needs"]), ([line], {**needs, "missing": missing}))
                    for language, said in (("en", ("which is missing", "which is 0")), ("fr", ("\u00a0: il manque ", " est 0\n"))):
                        self.assertIn(said[not missing], tsav("warn", "-", "--lang", language, given=data).out)

    def test_drawn(self):
        """Of drawn sheets, what is told is what the check call lists, and what their amounts are."""
        messages.choose("en")
        listed = 0
        for data in drawn_sheets(DRAWN, 41):
            found = warnings(data)
            lines = [columns.read(line) for line in data.splitlines(keepends=True)]
            needs = [line for (cause, _section), doubt in found.items() if cause.startswith("need-") for line in doubt["lines"]]
            told = sorted(b"%-3b %2d %2d %-3b %2d %2d\n" % tuple(
                part for row in (line, line["needs"]) for part in (row["code"].encode(), row["block"], row["class"])
            ) for line in needs)
            self.assertEqual(told, sorted(library.check(data).splitlines(keepends=True)))
            listed += len(told)
            scalar, = (line.first for line in lines if line[:3] == columns.SCALAR)
            every = [amount for line in lines if line[:3] != columns.SCALAR for amount in line[3:] if amount]
            self.assertEqual(("scalar-one", "11.3") in found, scalar == 1)
            self.assertEqual(("scalar", "11.3") in found, scalar > 1 and not 8_500 <= scalar <= 11_000)
            self.assertEqual(("in-dollars", "11.3") in found, bool(every) and max(every) < 10**9)
            self.assertEqual(("rounded", "11.3") in found, bool(every) and all(amount % 100 == 0 for amount in every))
            gross = sum(line.first for line in lines if line.code in ("RSK", "OTH"))
            given = sum(line.first for line in lines if line[:3] == ("GEN", 0, 1))
            self.assertEqual(any(section == "8.2.3" for _cause, section in found), given < gross)
        self.assertGreater(listed, DRAWN // 2)


class Moved(InFolder):
    def moved(self, old: bytes, new: bytes, *arguments) -> dict:
        """The amounts before and now, by line and which of its two it is; under the section of the line."""
        found = warnings(new, "--before", self.file("last.sheet", old), *arguments)
        rows = {}
        for (cause, section), doubt in found.items():
            if cause == "moved":
                for line in doubt["lines"]:
                    key = line["code"], line["block"], line["class"]
                    self.assertEqual(section, labels.label(*key).section)
                    before, now = line["amounts"]
                    unit = "ten_thousandths" if key == columns.SCALAR else "cents"
                    self.assertEqual((before["key"], now["key"]), ("before", "now"))
                    rows[(*key, line["amount"])] = (before[unit], now[unit])
        return rows

    def test_a_fifth(self):
        not_told = ((1000, 1200), (1000, 800), (1004, 1204), (7, 7), (0, 0))
        told = ((1000, 1201), (1000, 799), (1004, 1205), (0, 1), (1, 0))
        for then, now in not_told + told:
            old, new = sound(("OTH", 1, 3, then, 0)), sound(("OTH", 1, 3, now, 0))
            with self.subTest(then=then, now=now):
                self.assertEqual(self.moved(old, new), {("OTH", 1, 3, 1): (then, now)} if (then, now) in told else {})

    def test_second_amounts(self):
        old, new = sound(("RSK", 1, 2, 500_000_003, 400_000_000)), sound(("RSK", 1, 2, 500_000_003, 300_000_000))
        self.assertEqual(self.moved(old, new), {("RSK", 1, 2, 2): (400_000_000, 300_000_000)})

    def test_lines_that_one_has(self):
        self.assertEqual(self.moved(sound(), sound(("OTH", 1, 3, 5_000_001, 0))), {("OTH", 1, 3, 1): (None, 5_000_001)})
        self.assertEqual(self.moved(sound(("OTH", 1, 3, 5_000_001, 0)), sound()), {("OTH", 1, 3, 1): (5_000_001, None)})
        self.assertEqual(self.moved(sound(("OTH", 1, 3, 0, 0)), sound()), {})

    def test_a_large_sheet_in_dollars(self):
        """Nothing looks wrong in it by itself, and all of it moved."""
        last = sheet(*((*line[:3], line[3] * 100, line[4] * 100) if line[:3] != columns.SCALAR else line for line in SOUND))
        amounts = [(*line[:3], which) for line in SOUND if line[:3] != columns.SCALAR for which in (1, 2) if line[2 + which]]
        self.assertEqual(set(self.moved(last, sound())), set(amounts))

    def test_the_last_sheet_is_standard_input(self):
        old, new = sound(("OTH", 1, 3, 5_000_001, 0)), self.file("my.sheet", sound())
        self.assertIn("1 amount moved by more than 20%", tsav("warn", new, "--before", "-", given=old).out)

    def test_scalar(self):
        self.assertEqual(self.moved(sound(("GEN", 0, 4, 10_800, 0)), sound(("GEN", 0, 4, 8_600, 0))), {("GEN", 0, 4, 1): (10_800, 8_600)})
        self.assertEqual(self.moved(sound(("GEN", 0, 4, 10_500, 0)), sound()), {})

    def test_share(self):
        old, new = sound(("OTH", 1, 3, 1000, 0)), sound(("OTH", 1, 3, 1100, 0))
        told = "9.9999%", "9,9999\u00a0%", "0.0999", "0", "0%"
        for share in ("0.1", "10%", "0,1", "10 %", "10,0\u00a0%", "1", "100%", *told):
            with self.subTest(share=share):
                self.assertEqual(bool(self.moved(old, new, "--share", share)), share in told)

    def test_share_as_it_is_told(self):
        arguments = "warn", "-", "--before", self.file("last.sheet", sound(("OTH", 1, 3, 1000, 0)))
        new = sound(("OTH", 1, 3, 2000, 0))
        for given, english, french in (
            ((), "20%", "20\u00a0%"),
            (("--share", "0.125"), "12.5%", "12,5\u00a0%"),
            (("--share", "0.0001%"), "0.0001%", "0,0001\u00a0%"),
            (("--share", "0"), "0%", "0\u00a0%"),
        ):
            self.assertIn(f"1 amount moved by more than {english}\n", tsav(*arguments, *given, given=new).out)
            self.assertIn(f"1 montant a vari\u00e9 de plus de {french}\n", tsav(*arguments, *given, "--lang", "fr", given=new).out)

    def test_share_refused(self):
        before = self.file("last.sheet", sound())
        for share in ("20", "1.5", "101%", "-0.1", "a fifth", "", "1/5", "%", "0.2%%", "\u0662"):
            for language, said in (("en", "a share is a number from 0 to 1"), ("fr", "une part est un nombre de 0 \u00e0 1")):
                ran = tsav("warn", "-", "--before", before, f"--share={share}", "--lang", language, given=sound())
                self.assertEqual((ran.status, ran.out), (2, ""))
                self.assertIn(said, ran.err)
        for language, said in (("en", "error: --share is of the last sheet"), ("fr", "erreur\u00a0: --share vaut pour la feuille")):
            ran = tsav("warn", "-", "--share", "0.1", "--lang", language, given=sound())
            self.assertEqual((ran.status, ran.out), (2, ""))
            self.assertIn(said, ran.err)

    def test_told(self):
        before = self.file("last.sheet", sound(("OTH", 1, 3, 100_000, 0)))
        new = sound(("OTH", 1, 3, 150_001, 0), ("GEN", 0, 4, 8_800, 0), ("RSK", 1, 5, 7, 7))
        for language, said in (
            ("en", ("last.sheet is accepted.", "OTH  1  3  market risk, block 1   $1,000.00   $1,500.01\n", "Section 11.2.2: 1 amount moved")),
            ("fr", ("last.sheet\u00a0: accept\u00e9e.", "OTH  1  3  risque de march\u00e9, bloc 1  ", "1\u00a0500,01\u00a0$\n")),
            ("fr", ("Section 11.2.2\u00a0: 1 montant a vari\u00e9", "Section 11.2.1\u00a0: 2 montants ont vari\u00e9")),
            ("en", ("RSK  1  5  lapse-sensitive, block 1: gross component          no line       $0.07\n", "Section 11.2.1: 2 amounts moved")),
        ):
            ran = tsav("warn", "-", "--before", before, "--lang", language, given=new)
            for text in said:
                self.assertIn(text, ran.out)

    def test_drawn(self):
        draw = random.Random(7)
        told = 0
        for old in drawn_sheets(DRAWN // 4, 43):
            new = altered(draw, old)
            share = draw.choice(("0.2", "0.5", "0.01"))
            lines = [{line[:3]: line for line in map(columns.read, data.splitlines(keepends=True))} for data in (old, new)]
            wanted = {}
            for key in {*lines[0], *lines[1]}:
                for which in (1, 2):
                    then, now = (found[key][2 + which] if key in found else None for found in lines)
                    if abs(Fraction(now or 0) - (then or 0)) > Fraction(share) * (then or 0):
                        wanted[(*key, which)] = (then, now)
            self.assertEqual(self.moved(old, new, "--share", share), wanted)
            told += len(wanted)
        self.assertGreater(told, DRAWN // 4)


class Frame(InFolder):
    def test_refused(self):
        broken, bad, worse = sound(without=(("GEN", 0, 4),)), self.file("bad.sheet", EXAMPLE[:-1]), self.file("worse.sheet", EXAMPLE.lower())
        for arguments, given, refused in (
            (("warn", "-"), broken, [("-", 12, None)]),
            (("warn", "-", "--before", bad), sound(), [(bad, 2, None)]),
            (("warn", "-", "--before", worse), broken, [("-", 12, None), (worse, 4, 1)]),
        ):
            with self.subTest(arguments=arguments):
                ran = tsav(*arguments, "--json", given=given)
                answer = json.loads(ran.out)
                self.assertEqual((ran.status, ran.err), (1, ""))
                self.assertEqual([(some["file"], some["refusal"], some["line"]) for some in answer["refused"]], refused)
                self.assertEqual((answer["warnings"], answer["buffer"], answer["buffer_before"]), ([], None, None))
                for language, said in (("en", " is refused: refusal "), ("fr", "\u00a0: refus\u00e9e, refus ")):
                    ran = tsav(*arguments, "--lang", language, given=given)
                    self.assertEqual((ran.status, ran.out.count(said), ran.out.count("\n")), (1, len(refused), len(refused)))

    def test_what_is_no_sheet_in_cents(self):
        """It is told to be what it is, with the command that makes a sheet of it, by every subcommand that takes a sheet."""
        thousands, rows = (TOP / "examples" / "thousands.sheet").read_bytes(), b"Code,Block,Class,First amount,Second amount\nGEN,0,4,1,\n"
        for data, what, made in (
            (thousands, "It is a sheet in thousands of dollars. This makes one in cents of it: ", "tsav-convert {} -o my.sheet"),
            (rows, "It is a file of rows (CSV). If its amounts are in dollars, this makes a sheet of it: ", "tsav import {} -o my.sheet"),
            (b"PK\x03\x04" + bytes(400), "It is a workbook. If its amounts are in dollars, this makes a sheet of it: ", "tsav import {} -o my.sheet"),
        ):
            name = self.file("a file", data)
            good = self.file("good.sheet", sound())
            said = what + made.format(f"'{name}'")
            for arguments in (
                ("warn", name),
                ("warn", good, "--before", name),
                ("compare", good, name),
                ("export", name, "-o", str(self.folder / "new.csv")),
                ("block", name, "--block", "1"),
                ("operational", name),
                ("report", name, "--csv", str(self.folder / "new.csv")),
                ("report", good, "--before", name, "--csv", str(self.folder / "new.csv")),
            ):
                with self.subTest(what=what, arguments=arguments[:1]):
                    ran = tsav(*arguments)
                    self.assertEqual((ran.status, ran.err, ran.out.count(said)), (1, "", 1), ran.out)
                    self.assertFalse((self.folder / "new.csv").exists())
            self.assertIn(said, json.loads(tsav("warn", name, "--json").out)["refused"][0]["what"])

    def test_not_read(self):
        missing = str(self.folder / "no.sheet")
        for arguments in ((missing,), ("-", "--before", missing), (str(self.folder),), ("-", "--before", "-"), ()):
            for language in ("en", "fr"):
                ran = tsav("warn", *arguments, "--lang", language, given=sound())
                self.assertEqual((ran.status, ran.out), (2, ""))
                self.assertTrue(ran.err)

    def test_as_a_process(self):
        self.assertEqual(tsav("warn", "-", given=EXAMPLE, alone=True), tsav("warn", "-", given=EXAMPLE))

    def test_nothing_moves_the_terminal(self):
        name, bad = self.file("a\x1b[2Jb", EXAMPLE), self.file("c\x1b[2Jd", b"")
        for arguments in (("warn", name), ("warn", name, "--before", name), ("warn", bad), ("compare", name, name), ("compare", name, bad)):
            out = tsav(*arguments).out
            self.assertEqual([character for character in out if not (character.isprintable() or character in "\n\u00a0")], [])

    def test_the_values_are_the_same(self):
        """But for words, which a language has."""
        before = self.file("last.sheet", sound())
        answers = [json.loads(tsav("warn", "-", "--before", before, "--json", "--lang", language, given=EXAMPLE).out) for language in ("en", "fr")]
        self.assertEqual(bare(answers[0]), bare(answers[1]))
        self.assertNotEqual(*answers)


def bare(value):
    if isinstance(value, dict):
        return {name: bare(part) for name, part in value.items() if name not in ("title", "reason", "name", "what")}
    return [bare(part) for part in value] if isinstance(value, list) else value


class Page(InFolder):
    """What docs/PROGRAMMING.md says of it is so."""

    def test_causes(self):
        """Every cause of the source is in the table with its sections, and none is there that isn't; and so with the names of amounts."""
        source = "".join((TOP / "bindings" / "python" / "tsav" / "command" / f"{name}.py").read_text(encoding="utf-8") for name in ("alone", "moved"))
        told = dict(re.findall(r"(?m)^\| `([a-z0-9-]+)` \| ([0-9.]+|the lines' own) \|", SECTION))
        self.assertEqual(len(told), 12)
        for cause, section in told.items():
            self.assertIn(f'"{cause}"', source)
            self.assertTrue(section in source or section == "the lines' own")
        keys = set(re.findall(r'(?:Amount|_would_be)\(\s*"([a-z_]+)"', source))
        self.assertEqual(len(keys), 12)
        for key in keys:
            self.assertIn(f"`{key}`", SECTION)

    def test_names(self):
        answers = [
            json.loads(tsav("warn", "-", "--json", *arguments, given=given).out)
            for arguments, given in (((), b""), (("--before", self.file("last.sheet", sound())), (TOP / "examples" / "unmet.sheet").read_bytes()))
        ]
        for name in {name for answer in answers for name in names_of(answer)}:
            self.assertIn(f"`{name}`", SECTION)

    def test_limits(self):
        for text in ("0.85 to 1.1", "$10,000,000.00", "a fifth"):
            self.assertIn(text, SECTION)
