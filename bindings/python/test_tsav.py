"""The Python module's own test: `python3 -m unittest` in this folder, after `bindings/shared`."""

import re
import unittest
from pathlib import Path

import tsav

TOP = Path(__file__).resolve().parents[2]
OVER = tsav.LARGEST_AMOUNT + 1
BLOCK = [int(word) for word in (TOP / "examples" / "block.numbers").read_text().split()]
SHEET = (TOP / "examples" / "example.sheet").read_bytes()
UNMET = (TOP / "examples" / "unmet.sheet").read_bytes()
MOVEMENT = (TOP / "examples" / "example.movement").read_bytes()
QUARTER = (TOP / "examples" / "example.quarter").read_bytes()
THOUSANDS = (TOP / "examples" / "thousands.sheet").read_bytes()
REPORT = (TOP / "crates" / "tsav_sheet" / "stdout").read_bytes()
FLUCTUATIONS = (TOP / "tests" / "reference" / "fluctuation.cases").read_text().splitlines()
CONVERSIONS = (TOP / "tests" / "reference" / "convert.cases").read_text().splitlines()


class Calls(unittest.TestCase):
    def refused(self, number, line, position, call, *lent):
        with self.assertRaises(tsav.Refused) as caught:
            call(*lent)
        refusal = caught.exception
        self.assertEqual((refusal.number, refusal.line, refusal.position), (number, line, position))

    def test_block(self):
        figures = tsav.block(BLOCK)
        self.assertEqual(figures, (157884172, 191405437, 176550000, 90400000, 151765333, 34, 35))
        self.assertEqual((figures.i, figures.d, figures.u, figures.lt, figures.k), tuple(figures)[:5])
        self.assertEqual((figures.steps_i, figures.steps_d), tuple(figures)[5:])
        self.assertEqual(tsav.block(tuple(BLOCK)), figures)
        self.assertEqual(tsav.block(number for number in BLOCK), figures)

        class Whole:
            def __init__(self, number):
                self.number = number

            def __index__(self):
                return self.number

        self.assertEqual(tsav.block(map(Whole, BLOCK)), figures)

    def test_steps(self):
        """Zeros; PC alone, whose radicand of I is 0; the largest amounts, which have the most steps."""
        self.assertEqual(tsav.block([0] * tsav.BLOCK_NUMBERS), (0,) * tsav.BLOCK_FIGURES)
        self.assertEqual(tsav.block([0] * 14 + [100, 0, 0])[5:], (0, 15))
        self.assertEqual(tsav.block([tsav.LARGEST_AMOUNT, 0] * 7 + [tsav.LARGEST_AMOUNT] * 3)[5:], (57, 57))

    def test_finer_roots(self):
        """D is 19.94 half cents and given as 20, and K is taken before that; in whole half cents D would be 21 and K 12."""
        self.assertEqual(tsav.block([2, 0, 3, 0] + [0] * 11 + [8, 0]), (7, 20, 13, 0, 11, 10, 11))

    def test_block_refused(self):
        def with_number(position, number):
            return BLOCK[:position] + [number] + BLOCK[position + 1 :]

        self.refused(7, None, 16, tsav.block, with_number(16, OVER))
        self.refused(7, None, 0, tsav.block, with_number(0, 2**64 - 1))
        self.refused(7, None, 0, tsav.block, with_number(0, 2**64))
        self.refused(7, None, 3, tsav.block, with_number(3, 10**30))
        self.refused(8, None, 13, tsav.block, with_number(13, 1))
        self.refused(9, None, 3, tsav.block, with_number(3, 300_001))

    def test_shares(self):
        """The example; two alike, of which the lower number has the odd cent; a block with the capital of
        document 001's illustration, which prints 18.6, 9.8, 36.4 and 2.8."""
        shares = tsav.shares(BLOCK)
        self.assertEqual(len(shares), tsav.PARTS)
        self.assertEqual(sum(shares), tsav.block(BLOCK).k)
        self.assertEqual(
            shares, (93277020, 226114, 4113667, 152552, 22670757, 5632096, 783103, 2402284, 16262059, 6245681)
        )
        self.assertEqual(tsav.shares([3, 0, 3] + [0] * 14), (3, 2) + (0,) * 8)
        illustration = [0] * 8 + [1505, 610, 4292, 82, 469, 0, 0, 0, 2091]
        self.assertEqual(tsav.shares(illustration), (0, 0, 0, 0, 977, 3643, 279, 0, 0, 1856))

    def test_shares_refused(self):
        self.refused(23, None, None, tsav.shares, [0] * tsav.BLOCK_NUMBERS)
        self.refused(23, None, None, tsav.shares, [0, 0, 0, 0, 2, 0, 0, 0, 20, 0, 1] + [0] * 6)
        self.refused(7, None, 16, tsav.shares, BLOCK[:16] + [2**64])
        self.refused(8, None, 13, tsav.shares, [0] * 13 + [1, 0, 0, 0])
        self.refused(9, None, 1, tsav.shares, [0, 1] + [0] * 15)
        for numbers in (BLOCK[1:], BLOCK + [0], []):
            with self.assertRaises(ValueError):
                tsav.shares(numbers)
        with self.assertRaises(TypeError):
            tsav.shares([1.0] + BLOCK[1:])

    def test_operational(self):
        volumes = [15_000, 10_000] + [0] * 14
        self.assertEqual(tsav.operational(volumes, [200_000_000, 0, 0]), 11_500_450)
        self.assertEqual(tsav.operational([], [0, 0, 0]), 0)
        self.refused(7, None, 18, tsav.operational, volumes, [0, 0, OVER])
        self.refused(15, None, None, tsav.operational, volumes[1:], [0, 0, 0])
        self.refused(15, None, None, tsav.operational, [0] * (tsav.MOST_VOLUMES + 16), [0, 0, 0])

    def test_fluctuation(self):
        self.assertEqual(tsav.fluctuation(2, 10_000_000_000, 0), 9_330_000_000)
        self.assertEqual(tsav.fluctuation(7, 100_000_000, 40_000_000_000), 88_610_000)
        self.assertEqual(tsav.fluctuation(2, 10_000_000_000), 9_330_000_000)
        self.assertEqual(tsav.fluctuation(row=2, requirement=10_000_000_000, face=1), 9_330_000_000)
        self.refused(18, None, None, tsav.fluctuation, 0, OVER, OVER)
        self.refused(18, None, None, tsav.fluctuation, 2**64 + 1, 0, 0)
        self.refused(7, None, 0, tsav.fluctuation, 7, 2**64, OVER)
        self.refused(7, None, 1, tsav.fluctuation, 1, 0, 10**30)

    def test_stored_fluctuations(self):
        """The stored calls; the file says how a line reads."""
        calls = [line.split(" -> ") for line in FLUCTUATIONS if not line.startswith("#")]
        self.assertGreater(len(calls), 100)
        for call, answer in calls:
            with self.subTest(call):
                lent = [int(word) for word in call.split()]
                if answer.startswith("refused"):
                    _, number, *place = answer.split()
                    self.refused(int(number), None, int(place[1]) if place else None, tsav.fluctuation, *lent)
                else:
                    self.assertEqual(tsav.fluctuation(*lent), int(answer))

    def test_sheet(self):
        for kind in (bytes, bytearray, memoryview):
            self.assertEqual(tsav.sheet(kind(SHEET)), REPORT)
        self.refused(1, None, None, tsav.sheet, bytes(tsav.LONGEST_SHEET + 1))
        self.refused(2, None, None, tsav.sheet, b"x")
        self.refused(3, 1, None, tsav.sheet, bytes(tsav.SHEET_LINE))
        # Carriage returns; and whole lines before bytes that are none.
        self.refused(3, 1, None, tsav.sheet, SHEET.replace(b"\n", b"\r\n"))
        self.refused(3, 14, None, tsav.sheet, SHEET + bytes(tsav.SHEET_LINE + 1))
        self.refused(2, None, None, tsav.sheet, SHEET + bytes(tsav.SHEET_LINE - 1))
        self.refused(11, 14, None, tsav.sheet, SHEET + SHEET[: tsav.SHEET_LINE])
        self.refused(12, None, None, tsav.sheet, b"")
        # Behind the RSK and OTH lines a MOR line is in order, and behind all lines it isn't.
        above, behind = b"MOR  2  1              1              1\n", 10 * tsav.SHEET_LINE
        self.refused(16, None, None, tsav.sheet, SHEET[:behind] + above + SHEET[behind:])
        self.refused(19, 14, None, tsav.sheet, SHEET + above)
        self.refused(17, None, None, tsav.sheet, SHEET + b"CRD 17  1              0              0\n")

    def test_bought_business(self):
        """Document 003's acquisition example in cents, and two of the largest amounts as one prior."""

        def ro(current, prior, acquired):
            lines = [b"VOL  1  1 %14d %14d\n" % (current, prior), b"ACQ  1  1 %14d              0\n" % acquired]
            lines += [b"GEN  0  4          10000              0\n"]
            report = tsav.sheet(b"".join(lines)).decode().splitlines()
            self.assertEqual(len(report), 3)
            return report[1]

        self.assertEqual(ro(22_500, 10_000, 5_000), "TOT  0  2                675")
        self.assertEqual(ro(22_500, 10_000, 0), "TOT  0  2                825")
        most = tsav.LARGEST_AMOUNT
        self.assertEqual(ro(most, most, most), "TOT  0  2      2500000000000")
        self.refused(8, 1, None, tsav.sheet, b"ACQ  1  1              5              1\n")

    def test_the_longest_report(self):
        lines = [b"OTH %2d  1              1              0\n" % (block + 1) for block in range(tsav.MOST_BLOCKS)]
        lines += [b"GEN  0  4          10000              0\n"]
        self.assertEqual(len(tsav.sheet(b"".join(lines))), tsav.LONGEST_REPORT)

    def test_convert(self):
        cents = tsav.convert(THOUSANDS)
        self.assertEqual(cents[: tsav.SHEET_LINE], b"RSK  1  1      100000000       70000000\n")
        self.assertEqual(cents[-tsav.SHEET_LINE :], b"GEN  0  4          10000              0\n")
        for kind in (bytes, bytearray, memoryview):
            self.assertEqual(tsav.convert(kind(cents)), THOUSANDS)
        self.assertEqual(len(tsav.sheet(cents)), 8 * tsav.REPORT_LINE)
        self.assertEqual(tsav.convert(b""), b"")
        self.refused(4, 1, None, tsav.sheet, THOUSANDS)

    def test_convert_refused(self):
        self.refused(1, None, None, tsav.convert, bytes(tsav.LONGEST_SHEET + 1))
        self.refused(2, None, None, tsav.convert, b"x")
        self.refused(3, 1, None, tsav.convert, THOUSANDS.replace(b"\n", b"\r\n"))
        self.refused(4, 14, None, tsav.convert, THOUSANDS + SHEET[: tsav.SHEET_LINE])
        self.refused(4, 1, None, tsav.convert, THOUSANDS.replace(b"rsk", b"Rsk"))
        self.refused(20, 4, None, tsav.convert, SHEET)
        self.refused(21, 1, None, tsav.convert, b"oth  1  1     1000000000              0\n")
        self.assertEqual(tsav.convert(b"oth  1  1      999999999              0\n"), b"OTH  1  1 99999999900000              0\n")
        for wrong in (THOUSANDS.decode(), 40, None):
            with self.assertRaises(TypeError):
                tsav.convert(wrong)

    def test_stored_conversions(self):
        """The stored conversions; the file says how a line reads."""
        cases, given = [], b""
        for kind, text in (line.split(" ", 1) for line in CONVERSIONS):
            if kind in ("<", "<~"):
                given += text.encode() + (b"\n" if kind == "<" else b"")
            elif kind == "=":
                cases.append((given, text, []))
                given = b""
            elif kind == ">":
                cases[-1][2].append(text.encode() + b"\n")
        self.assertGreater(len(cases), 50)
        for given, answer, lines in cases:
            with self.subTest(given):
                if answer == "converted":
                    self.assertEqual(tsav.convert(given), b"".join(lines))
                    self.assertEqual(tsav.convert(b"".join(lines)), given)
                else:
                    _, number, *place = answer.split()
                    self.refused(int(number), int(place[1]) if place else None, None, tsav.convert, given)

    def test_check(self):
        listing = b"MOR  1  1 RSK  1  1\nVOL  1  5 GEN  0  2\nACQ  1  2 VOL  1  2\nCRD 17  1 RSK 17  0\n"
        for kind in (bytes, bytearray, memoryview):
            self.assertEqual(tsav.check(kind(UNMET)), listing)
        self.assertEqual(tsav.check(SHEET), b"")
        lines = [b"ACQ %2d %2d              1              0\n" % (n // 8 + 1, n % 8 + 1) for n in range(128)]
        lines += [b"GEN  0  4          10000              0\n"]
        self.assertEqual(len(tsav.check(b"".join(lines))), 128 * tsav.LISTING_LINE)
        self.refused(12, None, None, tsav.check, b"")
        self.refused(4, 1, None, tsav.check, THOUSANDS)
        self.refused(19, 13, None, tsav.check, UNMET + b"VOL  2  1              1              1\n")
        self.refused(17, None, None, tsav.check, UNMET + b"CRD 18  1              0              0\n")
        for wrong in (UNMET.decode(), 40, None):
            with self.assertRaises(TypeError):
                tsav.check(wrong)

    def test_movement(self):
        """The guide's example; a raise above the limit, which refuses nothing; K that falls by a cent."""

        def of(numbers, raised):
            return tsav.movement(b"".join(b"%14d\n" % number for number in (*numbers, raised))).decode().splitlines()

        movements = (896714, 439905, 766075, 482427, 707119, 490330, 746843)
        lines = "".join(f"MOV  0 {risk:2} {moved:18}\n" for risk, moved in enumerate(movements, 1)).encode()
        for kind in (bytes, bytearray, memoryview):
            self.assertEqual(tsav.movement(kind(MOVEMENT)), lines)
        above = of([tsav.LARGEST_AMOUNT, 0, 2] + [0] * 14, 1)
        self.assertEqual(above[0], "REF 22  0                  1")
        self.assertEqual([line[:3] for line in above[1:]], ["MOV"] * 6)
        falls = [0] * tsav.BLOCK_NUMBERS
        falls[4], falls[8] = 2, 20
        self.assertEqual(of(falls, 1)[5], "MOV  0  6                 -1")

    def test_movement_refused(self):
        self.refused(2, None, None, tsav.movement, b"")
        self.refused(2, None, None, tsav.movement, MOVEMENT + b"\n")
        self.refused(3, 18, None, tsav.movement, MOVEMENT[:-1] + b" ")
        self.refused(8, None, 13, tsav.movement, MOVEMENT[: 14 * 15 - 2] + b"1" + MOVEMENT[14 * 15 - 1 :])
        self.refused(9, None, 1, tsav.movement, MOVEMENT[:15] + b"%14d" % tsav.LARGEST_AMOUNT + MOVEMENT[29:])
        for wrong in (MOVEMENT.decode(), 270, None):
            with self.assertRaises(TypeError):
                tsav.movement(wrong)

    def test_quarter(self):
        """The guide's example; no sheet; the most, and one more; one that isn't closed."""
        closing = b"-" * 39 + b"\n"
        lines = ["SHT  1  1           163265783", "REF  9  0                   2", "SHT  3  1           155102494"]
        sums = [2, 155102494, 3, 163265783, 1, 318368277, 159184138, 1]
        whole = lines + [f"SUM  0 {item:2} {number:19}" for item, number in enumerate(sums, 1)]
        for kind in (bytes, bytearray, memoryview):
            self.assertEqual(tsav.quarter(kind(QUARTER)).decode().splitlines(), whole)
        self.assertEqual(len(tsav.quarter(b"")), 8 * tsav.SUMMARY_LINE)
        self.assertEqual(len(tsav.quarter(closing * tsav.MOST_SHEETS)), tsav.LONGEST_SUMMARY)
        more = tsav.quarter(closing * (tsav.MOST_SHEETS + 1)).decode().splitlines()
        self.assertEqual((len(more), more[-1]), (61, "REF 24  0                  61"))
        self.assertEqual(tsav.quarter(QUARTER + b"x").decode().splitlines(), lines + ["REF 25  0                   4"])
        for wrong in (QUARTER.decode(), 40, None):
            with self.assertRaises(TypeError):
                tsav.quarter(wrong)

    def test_what_is_no_amount(self):
        for wrong in (1.0, "1", None):
            with self.assertRaises(TypeError):
                tsav.block([wrong] + BLOCK[1:])
        with self.assertRaises(ValueError):
            tsav.block([-1] + BLOCK[1:])
        for numbers in (BLOCK[1:], BLOCK + [0], []):
            with self.assertRaises(ValueError):
                tsav.block(numbers)
        with self.assertRaises(ValueError):
            tsav.operational([], [0, 0])
        for wrong in ((-1, 0, 0), (1, -1, 0), (1, 0, -1)):
            with self.assertRaises(ValueError):
                tsav.fluctuation(*wrong)
        with self.assertRaises(TypeError):
            tsav.fluctuation(1.0, 0, 0)
        for wrong in (SHEET.decode(), 40, None):
            with self.assertRaises(TypeError):
                tsav.sheet(wrong)

    def test_words(self):
        self.assertEqual(str(tsav.Refused(9, line=2)), "refusal 9 at line 2: a level and trend part is above its component")
        self.assertEqual(str(tsav.Refused(7, position=0)), "refusal 7 at position 0: an amount is above 99,999,999,999,999")
        self.assertEqual(str(tsav.Refused(12)), "refusal 12: there is no scalar line")
        self.assertEqual(str(tsav.Refused(26)), "refusal 26: no refusal has this number")
        header = (TOP / "include" / "tsav.h").read_text()
        listed = re.findall(r"^     ?[ 1-9][0-9]  (?:nowhere|line|position|risk|sheet)\b", header, re.MULTILINE)
        self.assertEqual([int(line.split()[0]) for line in listed], list(tsav.REFUSALS))

    def test_a_str(self):
        """What is given as text is refused in a sentence, a sheet and a number."""
        for call in (tsav.sheet, tsav.convert, tsav.check, tsav.movement, tsav.quarter):
            with self.assertRaisesRegex(TypeError, r"^sheets and lines of numbers are bytes, and this is a str: read its file with open\(name, 'rb'\)"):
                call(SHEET.decode())
        with self.assertRaisesRegex(TypeError, "^amounts and rows are whole numbers, and this is a str: '1'$"):
            tsav.block(["1"] + BLOCK[1:])
        with self.assertRaisesRegex(TypeError, "^amounts and rows are whole numbers, and this is a float: 1.0$"):
            tsav.fluctuation(1.0, 0)

    def test_a_broken_contract(self):
        for place in ((tsav.RISK, 1), (tsav.SHEET, 1), (5, 0), (0, 1), (2**64 - 1, 0)):
            with self.assertRaises(tsav.ContractBroken):
                tsav._answered(7, place)

    def test_the_headers_numbers(self):
        """That the header's are the source's is compared by tests/constants."""
        header = (TOP / "include" / "tsav.h").read_text()
        defined = re.findall(r"^#define TSAV_([A-Z_]+) (?:UINT64_C\()?([0-9]+)\)?$", header, re.MULTILINE)
        self.assertEqual(len(defined), header.count("#define TSAV_") - 2)  # TSAV_H has no number, and TSAV_RELEASE is none
        for name, number in defined:
            self.assertEqual(getattr(tsav, name), int(number), name)


if __name__ == "__main__":
    unittest.main()
