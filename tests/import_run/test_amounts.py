"""Amounts, the scalar, blocks and classes, as they are read of a cell."""

import unittest
from decimal import Decimal

from tsav.command import amounts

NO_BREAK, NARROW, THIN = "\u00a0", "\u202f", "\u2009"

CENTS = {
    "0": 0,
    "7": 700,
    "  7 ": 700,
    "0.5": 50,
    "0,05": 5,
    "1.5": 150,
    "1,00": 100,
    "12,34": 1234,
    "1000": 100000,
    "1000.00": 100000,
    "1000,5": 100050,
    "1 000": 100000,
    "1 000,00": 100000,
    "1 000.50": 100050,
    f"1{NO_BREAK}234{NO_BREAK}567,89": 123456789,
    f"1{NARROW}234{NARROW}567,8": 123456780,
    f"1{THIN}234 567": 123456700,
    "1'234'567.89": 123456789,
    "1\u2019234": 123400,
    "1,234,567": 123456700,
    "1,234.5": 123450,
    "1,234.56": 123456,
    "1.234.567,89": 123456789,
    "1.234,50": 123450,
    "$1,234.50": 123450,
    "1 234,50 $": 123450,
    f"1{NO_BREAK}234,50{NO_BREAK}$": 123450,
    "999 999 999 999,99": 99999999999999,
    "999999999999.99": 99999999999999,
}
AMBIGUOUS = ["1,000", "1.000", "12,345", "123.456", "$1,000", " 1,000 ", "999,999"]
FINER = ["0,125", "0.001", "1234,567", "1 000,000", "1,234.567", "1.2345", "0,000"]
LEADING = ["007", "000", "00.5", "012", "01,5", "001,234,567"]
NONE = ["", "abc", "1e5", "1E+06", "1_000", "\u0663", "\uff11", "5 CAD", "$5$", "0x10", "NaN", ".5", "1.05 %", "n.a.", "9" * 61, "#REF!"]
SIGNS = ["-5", "\u22125", "(5)", "-0", "\u20135"]
GROUPS = ["1 00", "1 2345", "1,000,00", "12,34,567", "1,000 000", "1 000'000", "1, 000", "1.", "1,,5", "1.234.56", "1 000 00", "1,234,567,8"]
ABOVE = ["1000000000000", "1 000 000 000 000", "9" * 50]


class Amounts(unittest.TestCase):
    def refused(self, unit, values, word: str):
        for value in values:
            with self.subTest(value=value), self.assertRaisesRegex(amounts.Unreadable, word):
                unit(value)

    def test_as_people_write_them(self):
        for text, cents in CENTS.items():
            with self.subTest(text=text):
                self.assertEqual(amounts.cents(text), cents)

    def test_refused(self):
        self.refused(amounts.cents, AMBIGUOUS, "it may be")
        self.refused(amounts.cents, FINER, "more than two decimals")
        self.refused(amounts.cents, LEADING, "begins with a zero")
        self.refused(amounts.cents, NONE, "no amount")
        self.refused(amounts.cents, SIGNS, "below zero")
        self.refused(amounts.cents, GROUPS, "grouped by three")
        self.refused(amounts.cents, ABOVE, "above")

    def test_what_it_may_be(self):
        with self.assertRaisesRegex(amounts.Unreadable, "1234 or 1.234:"):
            amounts.cents("1,234")

    def test_numbers_of_a_workbook(self):
        for value, cents in ((1, 100), (1.0, 100), (0.1, 10), (1.15, 115), (-0.0, 0), (1e5, 10**7), (999999999999.99, 99999999999999)):
            with self.subTest(value=value):
                self.assertEqual(amounts.cents(amounts.number(value)), cents)
        self.refused(amounts.cents, map(amounts.number, (0.1 + 0.2, 1.005, 5e-324, 0.001)), "finer than a cent")
        self.refused(amounts.cents, map(amounts.number, (-1, -0.01, float("-inf"))), "below zero")
        self.refused(amounts.cents, map(amounts.number, (10**12, 1e12, 1e300, 10**400, float("inf"))), "above")

    def test_every_amount_is_the_shortest_decimal_of_its_float(self):
        for cents in (*range(20000), *range(99999999999999, 99999999979999, -1), *(10**k + j for k in range(13) for j in range(100))):
            self.assertEqual(amounts.cents(amounts.number(cents / 100)), cents)

    def test_scalar(self):
        for text, found in {"1": 10000, "1.05": 10500, "1,05": 10500, " 0.95 ": 9500, "1,050": 10500, "0.0001": 1, "2.0000": 20000, "1.05000": 10500, "1,0500000": 10500, "10000": 10**8}.items():
            with self.subTest(text=text):
                self.assertEqual(amounts.ten_thousandths(text), found)
        for value, found in ((1, 10000), (1.05, 10500), (0.0001, 1), (10000, 10**8)):
            with self.subTest(value=value):
                self.assertEqual(amounts.ten_thousandths(amounts.number(value)), found)
        self.refused(amounts.ten_thousandths, ["1.00001", "0,00005", "1.05001", amounts.number(1.00001)], "finer than 0.0001")
        self.refused(amounts.ten_thousandths, ["", "1 000", "$1", "105 %", "1,000.5", "1.0.5", "x", "9" * 10, amounts.number(1e300)], "the scalar is")
        self.refused(amounts.ten_thousandths, ["-1", amounts.number(-1)], "below zero")
        self.refused(amounts.ten_thousandths, ["01", "00.5"], "begins with a zero")

    def test_whole(self):
        for value, found in (("1", 1), (" 17 ", 17), ("01", 1), ("0", 0), (Decimal(32), 32), (Decimal("1.0"), 1)):
            with self.subTest(value=value):
                self.assertEqual(amounts.whole(value), found)
        self.refused(amounts.whole, ["", "100", "1.0", "-1", "x", "\u0661", Decimal("1.5"), Decimal(100), Decimal(-1), Decimal("inf")], "whole number")

    def test_written_and_read_again(self):
        for sign in ".,":
            for cents in (0, 1, 99, 100, 12345, 99999999999999):
                self.assertEqual(amounts.cents(amounts.written(cents, sign)), cents)
            for found in (1, 9999, 10000, 10500, 20000):
                self.assertEqual(amounts.ten_thousandths(amounts.scalar_written(found, sign)), found)


if __name__ == "__main__":
    unittest.main()
