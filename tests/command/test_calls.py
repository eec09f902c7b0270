"""`tsav block`, `shares`, `movement`, `operational` and `fluctuation`, run as people run them: beside the calls, on the example and on
sheets that are drawn, of which the test itself takes the credit of a MOR line off; refusals, usage, and the guide's section."""

import csv
import io
import json
import random
import re
import tempfile
import unittest
from decimal import ROUND_CEILING, Decimal, localcontext
from math import isqrt
from pathlib import Path
from unittest import mock

import drawn
import tsav
from running import INSTALLED, TOP, names_of, tsav as run
from tsav.command import columns, fluctuation

EXAMPLE = TOP / "examples" / "example.sheet"
UNMET = TOP / "examples" / "unmet.sheet"
LANGUAGES = ("en", "fr")
LARGEST = tsav.LARGEST_AMOUNT
NUMBERS = [100000000, 70000000, 300000, 300000, 5000000, 1000000, 250000, 100000, 30000000, 15000000, 10000000, 4000000, 1000000, 0]
NUMBERS += [2500000, 20000000, 7500000]
FIGURES = ("i", "d", "u", "lt", "k")
PARTS = [("RSK", klass) for klass in range(1, 8)] + [("OTH", klass) for klass in (1, 2, 3)]
# What the parts are called.
NAMES = {
    "en": ("mortality", "longevity", "morbidity incidence", "morbidity termination", "lapse-sensitive", "lapse-supported", "expenses")
    + ("property and casualty risk", "credit risk", "market risk"),
    "fr": ("mortalit\u00e9", "long\u00e9vit\u00e9", "incidence de morbidit\u00e9", "cessation de morbidit\u00e9", "sensible aux d\u00e9ch\u00e9ances")
    + ("fond\u00e9 sur les d\u00e9ch\u00e9ances", "d\u00e9penses")
    + ("risque d'assurance multirisque", "risque de cr\u00e9dit", "risque de march\u00e9"),
}
DRAWN = 40


def dollars(units: int, language: str, places: int = 2) -> str:
    """An amount as a table shows it, by the test's own hand."""
    text = f"{Decimal(abs(units)).scaleb(-places):,.{places}f}"
    sign = "-" if units < 0 else ""
    if language == "en":
        return f"{sign}${text}"
    return sign + text.replace(",", "\u00a0").replace(".", ",") + "\u00a0$"


def plain(units: int, language: str, places: int = 2) -> str:
    """The same in CSV."""
    text = f"{Decimal(units).scaleb(-places):.{places}f}"
    return text if language == "en" else text.replace(".", ",")


def typed(cents: int) -> str:
    return f"{cents // 100}.{cents % 100:02}"


def figures(report: bytes, block: int) -> list:
    """The report's five lines of a block."""
    return [int(line[10:]) for line in report.decode().splitlines() if line[:6] == f"BLK {block:2}"]


def rows_of(text: str, language: str) -> list:
    return list(csv.reader(io.StringIO(text), delimiter="," if language == "en" else ";"))


def lines_of(sheet: bytes) -> dict:
    found = {}
    for line in sheet.decode().splitlines():
        found[line[:3], int(line[4:6]), int(line[7:9])] = int(line[10:24]), int(line[25:39])
    return found


def blocks_of(lines: dict) -> list:
    return sorted({block for code, block, _class in lines if code in ("RSK", "OTH")})


def credit(lines: dict, block: int) -> int:
    """Of section 11.1.1, rounded down: S + T less the root of S * S - 1.5 * S * T + T * T."""
    s, t = lines.get(("MOR", block, 1), (0, 0))
    under = 4 * s * s - 6 * s * t + 4 * t * t
    root = isqrt(under)
    return (2 * (s + t) - root - (root * root < under)) // 2


def numbers_of(lines: dict, block: int) -> list:
    """What the block call is given for a block of these lines."""
    found = []
    for code, klass in PARTS:
        found += lines.get((code, block, klass), (0, 0))[: 2 if code == "RSK" else 1]
    off = credit(lines, block)
    return [found[0] - off, found[1] - off, *found[2:]]


def sheets(count: int, seed: int):
    """Drawn ones that are accepted and have a block; of most the credit of a MOR line is large."""
    draw = random.Random(seed)
    found = drawn.sheets(10 * count, seed)
    while count:
        lines = lines_of(next(found))
        for block in blocks_of(lines):
            if block <= 16 and draw.random() < 0.8:
                gross = draw.randrange(10 ** draw.randint(1, 14))
                trend = draw.randint(0, gross)
                lines["RSK", block, 1] = gross, trend
                lines["MOR", block, 1] = draw.randint(0, trend * 3 // 4), draw.randint(0, trend * 3 // 4)
        sheet = b"".join(line.written() for line in sorted((columns.Line(*key, *lines[key]) for key in lines), key=lambda line: line.key))
        try:
            tsav.sheet(sheet)
        except tsav.Refused:
            continue
        if blocks_of(lines):
            count -= 1
            yield sheet


class Calls(unittest.TestCase):
    """What the tests below share."""

    def setUp(self):
        folder = tempfile.TemporaryDirectory()
        self.addCleanup(folder.cleanup)
        self.file = str(Path(folder.name) / "my.sheet")

    def answered(self, *arguments, given=b"", status=0):
        """The answer as JSON, which is the same in both languages but for its names; and by language the text and the rows of CSV."""
        answers, texts, rows = {}, {}, {}
        for language in LANGUAGES:
            for form, found in ((("--json",), answers), ((), texts), (("--csv",), rows)):
                ran = run("--lang", language, *arguments, *form, given=given)
                self.assertEqual((ran.status, ran.err), (status, ""), ran.out)
                found[language] = ran.out
            answers[language] = json.loads(answers[language])
            rows[language] = rows_of(rows[language], language)
        self.assertEqual(nameless(answers["en"]), nameless(answers["fr"]))
        self.assertNotEqual(texts["en"], texts["fr"])
        return answers["en"], texts, rows

    def of_block(self, texts: dict, numbers: list, off=None) -> None:
        """The text has each amount that the call is given, in its order, and the credit where there is one."""
        for language, text in texts.items():
            names = [line.partition("  ")[0] for line in text.splitlines()[3:13]]
            self.assertEqual(names, list(NAMES[language]))
            shown = re.findall(r"  (-?(?:\$[0-9,.]+|[0-9\u00a0]+,[0-9]+\u00a0\$))", text.partition("\n\n")[2].partition("\n\n")[0])
            self.assertEqual(shown, [dollars(number, language) for number in numbers])
            told = dollars(off or 0, language)
            self.assertEqual(f"(11.1.1), {told}." in text, off is not None)


def nameless(value):
    if isinstance(value, dict):
        return {name: value[name] is None if name == "name" else nameless(value[name]) for name in value}
    return [nameless(part) for part in value] if isinstance(value, list) else value


class Block(Calls):
    def told(self, answer: dict, texts: dict, rows: dict, expected: list) -> None:
        """These five figures stand in all three forms."""
        self.assertEqual([answer["figures"][name] for name in FIGURES], expected)
        i, d, *others = expected
        for language in LANGUAGES:
            shown = [dollars(5 * i, language, 3), dollars(5 * d, language, 3)] + [dollars(cents, language) for cents in others]
            lines = texts[language].splitlines()
            for symbol, text in zip(("I", "D", "U", "LT", "K"), shown):
                self.assertEqual(len([line for line in lines if re.search(rf"  {symbol} +{re.escape(text)}$", line)]), 1, symbol)
            wanted = [plain(5 * i, language, 3), plain(5 * d, language, 3)] + [plain(cents, language) for cents in others]
            self.assertEqual([row[2:] for row in rows[language][1:]], [list(pair) for pair in zip(("I", "D", "U", "LT", "K"), wanted)])
            self.assertEqual(len(rows[language][0]), 4)

    def test_the_example(self):
        answer, texts, rows = self.answered("block", str(EXAMPLE), "--block", "1")
        self.told(answer, texts, rows, [157884172, 191405437, 176550000, 90400000, 151765333])
        self.assertEqual((answer["file"], answer["block"], answer["credit"]), (str(EXAMPLE), 1, None))
        self.assertEqual((answer["figures"]["steps_i"], answer["figures"]["steps_d"]), (34, 35))
        self.assertEqual(answer["numbers"], NUMBERS)
        self.of_block(texts, NUMBERS)

    def test_typed(self):
        """The same as of the sheet, however the amounts are typed."""
        wanted = self.answered("block", str(EXAMPLE), "--block", "1")[0]
        for form in (typed, lambda cents: f"${cents // 100:,}.{cents % 100:02}", lambda cents: f"{dollars(cents, 'fr')}"):
            answer, texts, rows = self.answered("block", *map(form, NUMBERS))
            self.told(answer, texts, rows, [wanted["figures"][name] for name in FIGURES])
            self.assertEqual(answer, {**wanted, "file": None, "block": None})
            self.of_block(texts, NUMBERS)

    def test_the_guides_credit(self):
        """Where docs/PROGRAMMING.md takes it off by hand."""
        lines = [("RSK", 1, 1, 100000000, 70000000), ("RSK", 1, 3, 5000000, 1000000), ("OTH", 1, 2, 20000000, 0)]
        lines += [("MOR", 1, 1, 40000000, 25000000), ("GEN", 0, 4, 10000, 0)]
        given = b"".join(columns.Line(*line).written() for line in lines)
        answer, texts, _rows = self.answered("block", "-", "--block", "1", given=given)
        self.assertEqual((answer["credit"], answer["numbers"][:2], answer["figures"]["u"]), (38074175, [61925825, 31925825], 86925825))
        self.of_block(texts, answer["numbers"], 38074175)
        moved = self.answered("movement", "-", "--block", "1", "--by", "10000", given=given)[0]
        self.assertEqual(moved["movements"][2]["movement"], 671279)

    def test_drawn(self):
        """A block of a sheet has the five figures that the report has of it, of amounts that the test has worked out by itself."""
        credits = 0
        for sheet in sheets(DRAWN, 1):
            report, lines = tsav.sheet(sheet), lines_of(sheet)
            for block in blocks_of(lines):
                answer, texts, rows = self.answered("block", "-", "--block", str(block), given=sheet)
                off = credit(lines, block) if ("MOR", block, 1) in lines else None
                credits += bool(off and off > 100)
                self.assertEqual((answer["numbers"], answer["credit"]), (numbers_of(lines, block), off))
                self.told(answer, texts, rows, figures(report, block))
                self.of_block(texts, answer["numbers"], off)
        self.assertGreater(credits, DRAWN // 8)


class Shares(Calls):
    def test_drawn(self):
        told = 0
        for sheet in [EXAMPLE.read_bytes(), *sheets(DRAWN // 4, 2)]:
            lines = lines_of(sheet)
            for block in blocks_of(lines):
                numbers = numbers_of(lines, block)
                try:
                    wanted = tsav.shares(numbers)
                except tsav.Refused as refusal:
                    answer = self.answered("shares", "-", "--block", str(block), given=sheet, status=1)[0]
                    self.assertEqual((answer["refusal"], answer["position"]), (refusal.number, refusal.position))
                    continue
                told += 1
                answer, texts, rows = self.answered("shares", "-", "--block", str(block), given=sheet)
                self.assertEqual([(part["code"], part["class"], part["share"]) for part in answer["shares"]], [
                    (*part, share) for part, share in zip(PARTS, wanted)
                ])
                self.assertEqual((answer["k"], answer["numbers"]), (sum(wanted), numbers))
                self.assertEqual(answer["k"], figures(tsav.sheet(sheet), block)[4])
                self.shown(texts, rows, wanted, answer["k"])
                self.of_block(texts, numbers, answer["credit"])
        self.assertGreater(told, DRAWN // 8)

    def shown(self, texts: dict, rows: dict, wanted, k: int) -> None:
        for language in LANGUAGES:
            last = texts[language].rstrip("\n").splitlines()[-11:]
            for line, name, share in zip(last, (*NAMES[language], ""), (*wanted, k)):
                self.assertTrue(line.startswith(name) and line.endswith("  " + dollars(share, language)), line)
            self.assertEqual([(row[0], int(row[1]), *row[2:]) for row in rows[language][1:]], [
                (*part, name, plain(share, language)) for part, name, share in zip(PARTS, NAMES[language], wanted)
            ])

    def test_typed(self):
        answer = self.answered("shares", "1", "0", "1", *["0"] * 14)[0]
        self.assertEqual([part["share"] for part in answer["shares"]], [80, 80] + [0] * 8)
        self.assertEqual((answer["k"], answer["file"], answer["block"], answer["credit"]), (160, None, None, None))

    def test_refused(self):
        answer, texts, _rows = self.answered("shares", *["0"] * 17, status=1)
        self.assertEqual((answer["refusal"], answer["line"], answer["position"]), (23, None, None))
        self.assertTrue(texts["en"].startswith("Refusal 23: ") and texts["fr"].startswith("Refus 23\u00a0: "))


class Movement(Calls):
    def test_drawn(self):
        """K of the block call with a component raised, less that without it."""
        draw, told = random.Random(3), 0
        for sheet in [EXAMPLE.read_bytes(), *sheets(DRAWN // 4, 3)]:
            lines = lines_of(sheet)
            for block in blocks_of(lines):
                by = draw.choice((0, 1, 1000000, draw.randrange(10 ** draw.randint(1, 14))))
                numbers = numbers_of(lines, block)
                answer, texts, rows = self.answered("movement", "-", "--block", str(block), f"--by={typed(by)}", given=sheet)
                self.assertEqual((answer["by"], answer["numbers"]), (by, numbers))
                wanted = []
                for risk in range(7):
                    raised = [number + by * (at == 2 * risk) for at, number in enumerate(numbers)]
                    above = raised[2 * risk] > LARGEST
                    told += not above
                    wanted.append(None if above else tsav.block(raised).k - tsav.block(numbers).k)
                self.assertEqual([part["movement"] for part in answer["movements"]], wanted)
                self.assertEqual([part["refusal"] for part in answer["movements"]], [22 if moved is None else None for moved in wanted])
                self.shown(texts, rows, wanted, by)
                self.of_block(texts, numbers, answer["credit"])
        self.assertGreater(told, DRAWN)

    def shown(self, texts: dict, rows: dict, wanted: list, by: int) -> None:
        for language in LANGUAGES:
            *before, _blank = texts[language].rstrip("\n").splitlines()[:-7]
            self.assertIn(dollars(by, language), before[-1])
            self.assertEqual([row[:2] for row in rows[language][1:]], [[str(risk), NAMES[language][risk - 1]] for risk in range(1, 8)])
            for line, row, moved in zip(texts[language].rstrip("\n").splitlines()[-7:], rows[language][1:], wanted):
                self.assertTrue(line.startswith(row[1] + "  "), line)
                if moved is None:
                    self.assertTrue(line.endswith(dollars(LARGEST, language)) and " 22" in line, line)
                    self.assertEqual(row[2:], ["", "22"])
                else:
                    self.assertTrue(line.endswith("  " + dollars(moved, language)), line)
                    self.assertEqual(row[2:], [plain(moved, language), ""])

    def test_a_fall(self):
        numbers = [0] * 17
        numbers[8], numbers[12], numbers[14] = 82008042, 20639995, 927878237
        answer, texts, rows = self.answered("movement", *map(typed, numbers), "--by", "43562.23")
        self.assertEqual(answer["movements"][5]["movement"], -1700009)
        self.shown(texts, rows, [part["movement"] for part in answer["movements"]], 4356223)
        self.assertIn("-$17,000.09\n", texts["en"])

    def test_raised_too_far(self):
        """Of one risk: the others are answered, with status 0 as the program has it."""
        answer = self.answered("movement", typed(LARGEST), *["0"] * 16, "--by", "5")[0]
        self.assertEqual([part["refusal"] for part in answer["movements"]], [22] + [None] * 6)
        answer, texts, rows = self.answered("movement", *[typed(LARGEST), "0"] * 7, "0", "0", "0", "--by", "0.01")
        self.shown(texts, rows, [None] * 7, 1)


class Operational(Calls):
    def test_drawn(self):
        """As the report has it, of volumes and figures as the sheet has them."""
        draw, above = random.Random(4), 0
        for sheet in [EXAMPLE.read_bytes(), *sheets(DRAWN, 4)]:
            lines = lines_of(sheet)
            for key in [key for key in lines if key[0] == "VOL"]:
                if draw.random() < 0.5:
                    lines[("ACQ", *key[1:])] = draw.choice((LARGEST, draw.randrange(10 ** draw.randint(1, 14)))), 0
            ordered = sorted((columns.Line(*key, *lines[key]) for key in lines), key=lambda line: line.key)
            sheet = b"".join(line.written() for line in ordered)
            try:
                report = tsav.sheet(sheet)
            except tsav.Refused:
                continue
            above += any(lines.get(("VOL", *key[1:]), (0, 0))[1] + lines[key][0] > LARGEST for key in lines if key[0] == "ACQ")
            answer, texts, rows = self.answered("operational", "-", given=sheet)
            ro = int(report[-2 * tsav.REPORT_LINE :][10:28])
            self.assertEqual(answer["ro"], ro)
            self.shown(answer, texts, rows)
            self.entered(answer, lines)
        self.assertGreater(above, DRAWN // 10)

    def shown(self, answer: dict, texts: dict, rows: dict) -> None:
        for language in LANGUAGES:
            self.assertTrue(texts[language].rstrip("\n").endswith("  RO  " + dollars(answer["ro"], language)))
            self.assertEqual([row[1:] for row in rows[language][1:]], [["8.1", "RO", plain(answer["ro"], language)]])
            amounts = [*answer["general"].values(), *(volume[name] for volume in answer["volumes"] for name in ("current", "previous"))]
            for cents in amounts + [volume["bought"] for volume in answer["volumes"]]:
                self.assertTrue(cents == 0 or "  " + dollars(cents, language) in texts[language], cents)

    def entered(self, answer: dict, lines: dict) -> None:
        """Every volume and figure of the sheet is there, and nothing else."""
        found = {}
        for volume in answer["volumes"]:
            place = volume["territory"], volume["class"]
            found["VOL", *place] = volume["current"], volume["previous"]
            found["ACQ", *place] = volume["bought"], 0
        for klass, name in enumerate(("components", "guarantees", "ceded"), 1):
            found["GEN", 0, klass] = answer["general"][name], 0
        of_ro = {key: pair for key, pair in lines.items() if key[0] in ("VOL", "ACQ") or key[0] == "GEN" and key[2] <= 3}
        self.assertEqual({key: pair for key, pair in found.items() if any(pair)}, {key: pair for key, pair in of_ro.items() if any(pair)})

    def test_without_volumes(self):
        answer, texts, _rows = self.answered("operational", "-", given=columns.Line("GEN", 0, 4, 10000, 0).written())
        self.assertEqual((answer["ro"], answer["volumes"], answer["file"]), (0, [], "-"))
        self.assertEqual(len(texts["en"].splitlines()), 7)


# First and second number, threshold in dollars.
FACTORS = {
    1: ("0.9", 648, 42_000_000),
    2: ("0.5", 4_330, 75_000_000),
    3: ("0.7", 734, 6_000_000),
    4: ("0.3", 1_212, 3_000_000),
    5: ("0.2", 1_788, 5_000_000),
    6: ("0.7", 519, 3_000_000),
    7: ("0.15", 14_722, 300_000_000),
}


def after(row: int, requirement: int, base: int) -> int:
    first, second, threshold = FACTORS[row]
    if base <= 100 * threshold:
        return requirement
    with localcontext() as context:
        context.prec = 80
        exact = requirement * (Decimal(first) + second / (Decimal(base) / 100).sqrt())
        return int(exact.to_integral_value(rounding=ROUND_CEILING))


class Fluctuation(Calls):
    def test_drawn(self):
        draw = random.Random(5)
        for _count in range(DRAWN // 2):
            row, requirement = draw.randint(1, 7), draw.randrange(10 ** draw.randint(1, 14))
            face = draw.randrange(10 ** draw.randint(9, 14)) if row == 7 else None
            arguments = [typed(requirement)] + ([typed(face)] if row == 7 else [])
            wanted = after(row, requirement, face if row == 7 else requirement)
            for name in (str(row), *fluctuation.ROWS[row].typed, fluctuation.ROWS[row].typed[0].replace("-", " ").upper()):
                answer, texts, rows = self.answered("fluctuation", name, *arguments)
                self.assertEqual((answer["row"], answer["requirement"], answer["face"]), (row, requirement, face))
                self.assertEqual(answer["result"], wanted)
                for language in LANGUAGES:
                    self.assertTrue(texts[language].endswith("  " + dollars(wanted, language) + "\n"), texts[language])
                    shown = ["" if cents is None else plain(cents, language) for cents in (requirement, face, wanted)]
                    self.assertEqual(rows[language][1][2:], shown)

    def test_with_accents(self):
        for name in ("Invalidit\u00e9, niveau", "invalidit\u00e9-niveau", "disability level"):
            self.assertEqual(self.answered("fluctuation", name, "1")[0]["row"], 1)

    def test_as_it_is_called(self):
        """By all of the name that the answer has of it, in the language that is spoken."""
        for row in range(1, 8):
            face = ["1"] if row == 7 else []
            for language in LANGUAGES:
                name = json.loads(run("--lang", language, "fluctuation", str(row), "1", *face, "--json").out)["name"]
                for typed_ in (name, name.upper()):
                    ran = run("--lang", language, "fluctuation", typed_, "1", *face, "--json")
                    self.assertEqual((ran.status, ran.err), (0, ""))
                    self.assertEqual(json.loads(ran.out)["row"], row)
        for name, row in (("Maladies graves", 7), ("soins de longue dur\u00e9e, niveau", 2)):
            self.assertEqual(self.answered("fluctuation", name, "1", "1")[0]["row"], row)

    def test_a_face_amount_that_changes_nothing(self):
        answer, texts, rows = self.answered("fluctuation", "2", "100,000,000", "5")
        self.assertEqual((answer["result"], answer["face"]), (9_330_000_000, 500))
        self.assertEqual(texts["en"].splitlines()[-1], "The face amount changes nothing in this row.")
        self.assertEqual(rows["en"][1][2:], ["100000000.00", "5.00", "93300000.00"])
        self.assertNotIn("changes nothing", self.answered("fluctuation", "7", "1", "5")[1]["en"])


class Refused(Calls):
    CALLS = (("block", "-", "--block", "1"), ("shares", "-", "--block", "1"), ("movement", "-", "--block", "1", "--by", "1"), ("operational", "-"))

    def test_sheet(self):
        """Told with its number and line, in each form; and that more of it is told elsewhere."""
        given = EXAMPLE.read_bytes()
        for arguments in self.CALLS:
            for sheet, number, line in ((given[:-40], 12, None), (given[:39] + b"x" + given[40:], 3, 1), (given.lower(), 4, 1)):
                answer, texts, rows = self.answered(*arguments, given=sheet, status=1)
                self.assertEqual((answer["call"], answer["refusal"], answer["line"], answer["position"]), (arguments[0], number, line, None))
                self.assertEqual(rows["en"][1:], [[str(number), str(line or ""), ""]])
                self.assertIn("tsav-convert" if sheet.islower() else "tsav explain", texts["en"])
                self.assertIn(f"refusal {number} at line {line}." if line else f"refusal {number}.", texts["en"])
                self.assertIn(f"refus {number}", texts["fr"])

    def test_typed(self):
        """By the call, at the amount that its position is."""
        for subcommand, more in (("block", ()), ("shares", ()), ("movement", ("--by", "1"))):
            for position, name in ((1, "mortality, level and trend part"), (5, "morbidity incidence, level and trend part")):
                numbers = ["0"] * 17
                numbers[position] = "1"
                answer, texts, rows = self.answered(subcommand, *numbers, *more, status=1)
                self.assertEqual((answer["refusal"], answer["line"], answer["position"], answer["file"]), (9, None, position, None))
                self.assertTrue(texts["en"].startswith(f"Refusal 9 ({name}): "), texts["en"])
                self.assertTrue(texts["fr"].startswith("Refus 9 ("))
                self.assertEqual(rows["en"][1:], [["9", "", str(position)]])
            numbers = ["0"] * 13 + ["1"] + ["0"] * 3
            self.assertEqual(self.answered(subcommand, *numbers, *more, status=1)[0]["refusal"], 8)

    @unittest.skipIf(INSTALLED, "an installed command loads its own library")
    def test_calls_that_differ(self):
        """No figure is given that two calls don't agree on."""
        sheet = UNMET.read_bytes()
        block, operational, shares = tsav.block, tsav.operational, tsav.shares
        for name, other in (
            ("block", lambda numbers: block(numbers)._replace(k=block(numbers).k + 1)),
            ("block", lambda numbers: block(numbers)._replace(lt=0)),
            ("operational", lambda volumes, general: operational(volumes, general) + 1),
            ("shares", lambda numbers: (1 + shares(numbers)[0], *shares(numbers)[1:])),
        ):
            arguments = (name, "-") if name == "operational" else (name, "-", "--block", "1")
            self.assertEqual(run(*arguments, given=sheet).status, 0)
            with mock.patch.object(tsav, name, other):
                for language, said in zip(LANGUAGES, ("isn't the proved library\n", "pas la biblioth\u00e8que d\u00e9montr\u00e9e\n")):
                    ran = run("--lang", language, *arguments, given=sheet)
                    self.assertEqual((ran.status, ran.out), (2, ""))
                    self.assertTrue(ran.err.endswith(said), ran.err)

    @unittest.skipIf(INSTALLED, "an installed command loads its own library")
    def test_a_report_that_differs(self):
        """U that is too low, so that more than there is would be taken off."""
        sheet = EXAMPLE.read_bytes()
        report = tsav.sheet(sheet)
        for figure, other in ((b"176550000", b"        0"), (b"90400000", b"90400001")):
            with mock.patch.object(tsav, "sheet", lambda _sheet, figure=figure, other=other: report.replace(figure, other)):
                self.assertEqual(run("block", "-", "--block", "1", given=sheet).status, 2)


class Usage(Calls):
    WRONG = (
        (("block", "my.sheet"), "17 amounts; given: 1", "17 montants; re\u00e7us\u00a0: 1"),
        (("block", *["0"] * 16), "17 amounts; given: 16", "17 montants; re\u00e7us\u00a0: 16"),
        (("shares", *["0"] * 18), "17 amounts; given: 18", "17 montants; re\u00e7us\u00a0: 18"),
        (("block", "a", "b", "--block", "1"), "names given: 2", "noms re\u00e7us\u00a0: 2"),
        (("block", "a", "--block", "33"), "a number from 1 to 32", "un nombre de 1 \u00e0 32"),
        (("block", "a", "--block", "0"), "a number from 1 to 32", "un nombre de 1 \u00e0 32"),
        (("block", "a", "--block", "1", "--csv", "--json"), "not both", "pas les deux"),
        (("operational", "a", "--csv", "--json"), "not both", "pas les deux"),
        (("fluctuation", "1", "1", "--csv", "--json"), "not both", "pas les deux"),
        (("movement", "a", "--block", "1"), "required: --by", "--by"),
        (("movement", "a", "--block", "1", "--by", "1,000"), "'1,000'", "\u00ab\u00a01,000\u00a0\u00bb"),
        (("block", "1,000", *["0"] * 16), "mortality, gross component: '1,000'", "mortalit\u00e9, composante brute\u00a0: \u00ab\u00a01,000\u00a0"),
        (("block", "-5", *["0"] * 16), "below zero", "inf\u00e9rieur \u00e0 z\u00e9ro"),
        (("block", *["0"] * 16, "1e5"), "market risk: ", "risque de march\u00e9\u00a0: "),
        (("block", "1000000000000", *["0"] * 16), "above $999,999,999,999.99", "plus de 999\u00a0999\u00a0999\u00a0999,99\u00a0$"),
        (("fluctuation", "7", "1"), "face amount", "montant nominal total"),
        (("fluctuation", "mg", "1"), "face amount", "montant nominal total"),
        (("fluctuation", "8", "1"), "no such row", "pas de tel rang"),
        (("fluctuation", "0", "1"), "no such row", "pas de tel rang"),
        (("fluctuation", "", "1"), "no such row", "pas de tel rang"),
        (("fluctuation", "disability", "1"), "2 long-term-care-level", "2 sld-niveau"),
        (("fluctuation", "1", "0.125"), "two decimals", "deux d\u00e9cimales"),
        (("operational",), "SHEET", "FEUILLE"),
    )

    def test_wrong(self):
        for arguments, *said in self.WRONG:
            for language, words in zip(LANGUAGES, said):
                with self.subTest(arguments, language=language):
                    ran = run("--lang", language, *arguments)
                    self.assertEqual((ran.status, ran.out), (2, ""))
                    self.assertIn(f"tsav {arguments[0]}", ran.err)
                    self.assertIn(words, ran.err.splitlines()[-1])

    def test_no_such_block(self):
        sheet = EXAMPLE.read_bytes()
        for given, said in ((sheet, "has no block 2: it has 1\n"), (sheet[-80:], "has no block: it has no RSK or OTH line\n")):
            ran = run("block", "-", "--block", "2", given=given)
            self.assertEqual((ran.status, ran.out), (2, ""))
            self.assertTrue(ran.err.endswith(said), ran.err)

    def test_not_read(self):
        for arguments in (("block", self.file, "--block", "1"), ("operational", self.file)):
            self.assertEqual(run(*arguments)[:2], (2, ""))

    def test_help(self):
        for subcommand in ("block", "shares", "movement", "operational", "fluctuation"):
            english, french = run(subcommand, "--help"), run(subcommand, "--help", "--lang", "fr")
            self.assertEqual((english.status, french.status), (0, 0))
            self.assertEqual({line for line in english.out.splitlines() if " " in line.strip()} & set(french.out.splitlines()), set())
        self.assertIn("  17 market risk\n", run("block", "--help").out)

    def test_as_a_process(self):
        refused = ("block", *["0"] * 13, "1", "0", "0", "0")
        for arguments in (("block", str(EXAMPLE), "--block", "1"), ("fluctuation", "2", "100000000.00", "--json"), refused):
            for language in LANGUAGES:
                self.assertEqual(run("--lang", language, *arguments, alone=True), run("--lang", language, *arguments))


class Page(Calls):
    """What docs/PROGRAMMING.md says of them is so."""

    SECTION = (TOP / "docs" / "PROGRAMMING.md").read_text(encoding="utf-8").partition("### One call at a time\n")[2]

    def test_json(self):
        """Each answer has the names that the section has for it, and no others."""
        rows = {row[0]: set(re.findall("`([a-z_]+)`", row[1])) for row in re.findall(r"(?m)^\| ([a-z ]+) \| (`.*) \|$", self.SECTION)}
        for name, arguments in (
            ("block", ("block", str(EXAMPLE), "--block", "1")),
            ("shares", ("shares", str(EXAMPLE), "--block", "1")),
            ("movement", ("movement", str(EXAMPLE), "--block", "1", "--by", "1")),
            ("operational", ("operational", str(EXAMPLE))),
            ("fluctuation", ("fluctuation", "7", "1", "1")),
        ):
            self.assertEqual(set(names_of(json.loads(run(*arguments, "--json").out))), rows[name] | {"call", "refusal"}, name)
        answer = json.loads(run("block", *["0"] * 13, "1", "0", "0", "0", "--json").out)
        self.assertEqual(set(names_of(answer)), rows["refused"] | {"call", "refusal"})
