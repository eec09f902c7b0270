"""The chain of a sheet is its calls'; where a call gives something else, there is none."""

import re
import unittest
from fractions import Fraction
from unittest import mock

import drawn
import tsav
from of_reports import EXAMPLE, SHEETS
from tsav.command import chain_whole, columns, compared, exactly, messages, parts
from tsav.command.answer import Failure


class Chains(unittest.TestCase):
    def setUp(self):
        messages.choose("en")

    def test_of_the_papers(self):
        """Chapter 11's example, in cents, and chapter 8's of growth."""
        chain = chain_whole.build(EXAMPLE)
        for key, text in (
            ("block.1.i", "78942086"),
            ("block.1.d", "95702718.5"),
            ("block.1.u", "176550000"),
            ("block.1.lt", "90400000"),
            ("block.1.k", "151765333"),
            ("block.1.saving", "24784667"),
            ("block.1.risk.1.net", "65000000"),
            ("territory.1.volume.1.growth", "3000"),
            ("territory.1.volume.1.growth_charge", "75"),
            ("operational.sum", "11500450"),
            ("total.buffer", "163265783"),
            ("accuracy.allowance", "3.01"),
        ):
            with self.subTest(key):
                self.assertEqual(exactly.decimal(chain.amount(key)), text)

    def test_added_up_again(self):
        """By the factors of the chain and its figures alone, as a reader would: Q, I and D of every block, and each territory's charges."""
        for sheet in (*SHEETS.values(), *drawn.sheets(40, 43)):
            amounts = {key: figure.amount for key, figure in chain_whole.build(sheet).figures.items()}
            for block in [key[: -len(".q")] for key in amounts if key.endswith(".q")]:
                nets = [amounts[f"{block}.risk.{i}.net"] for i in range(1, 8)]
                weighted = [sum(amounts[f"factor.correlation.{i}.{j}"] * nets[j - 1] for j in range(1, 8)) for i in range(1, 8)]
                products = [net * weight for net, weight in zip(nets, weighted)]
                self.assertEqual(weighted, [amounts[f"{block}.risk.{i}.weighted"] for i in range(1, 8)])
                self.assertEqual(products, [amounts[f"{block}.risk.{i}.product"] for i in range(1, 8)])
                self.assertEqual((sum(products), max(nets)), (amounts[f"{block}.q"], amounts[f"{block}.floor"]))
                least = amounts[f"{block}.i"] - amounts[f"{block}.pc"]
                half = Fraction(1, 2)
                self.assertTrue(least >= max(nets) and least**2 >= sum(products))
                self.assertTrue(least == max(nets) or (least - half) ** 2 < sum(products))
                i, a, d = (amounts[f"{block}.{name}"] for name in "iad")
                self.assertEqual(amounts[f"{block}.radicand"], a * a + 2 * amounts["factor.between"] * a * i + i * i)
                self.assertTrue(d == 0 or (d - half) ** 2 < amounts[f"{block}.radicand"])
                self.assertGreaterEqual((d + half) ** 2, amounts[f"{block}.radicand"])
            for territory in {re.match(r"territory\.[0-9]+", key)[0] for key in amounts if key.startswith("territory.")}:
                for ending in ("volume_charge", "growth_charge", "charge"):
                    self.assertEqual(sum(amounts[f"{territory}.volume.{k}.{ending}"] for k in range(1, 9)), amounts[f"{territory}.{ending}"])

    def test_the_factors_are_symmetric(self):
        """As section 11.2.1 prints them, with the ones of the diagonal."""
        amounts = {key: figure.amount for key, figure in chain_whole.build(EXAMPLE).figures.items()}
        for i in range(1, 8):
            self.assertEqual(amounts[f"factor.correlation.{i}.{i}"], 1)
            for j in range(1, 8):
                self.assertEqual(amounts[f"factor.correlation.{i}.{j}"], amounts[f"factor.correlation.{j}.{i}"])

    def test_every_report_line(self):
        for name, sheet in SHEETS.items():
            chain = chain_whole.build(sheet)
            calls = {figure.place: figure.amount for figure in chain.figures.values() if figure.source == "call"}
            for (code, block, item), number in compared.figures(tsav.sheet(sheet)).items():
                with self.subTest(sheet=name, line=(code, block, item)):
                    halves = 2 if code == "BLK" and item < 3 else 1
                    self.assertEqual(calls[f"{code} {block} {item}"], Fraction(number, halves))

    def test_every_entry(self):
        for name, sheet in SHEETS.items():
            entries = [(figure.place, figure.amount) for figure in chain_whole.build(sheet).figures.values() if figure.source == "entry"]
            for at in range(0, len(sheet), columns.LENGTH):
                line = columns.read(sheet[at : at + columns.LENGTH])
                place = f"{line.code} {line.block} {line.klass}"
                wanted = Fraction(line.first, 10_000 if place == "GEN 0 4" else 1)
                with self.subTest(sheet=name, line=place):
                    self.assertIn((place, wanted), entries)
                    if line.second:
                        self.assertIn((place, line.second), entries)

    def test_drawn(self):
        """Each step of each agrees with the calls; there is a chain of every accepted sheet."""
        for sheet in drawn.sheets(200, 41):
            chain = chain_whole.build(sheet)
            links = chain_whole.links(chain_whole.build(EXAMPLE), chain)
            self.assertEqual(sum(link.now for link in links), compared.figures(tsav.sheet(sheet))["TOT", 0, 3])

    def test_another_answer_is_no_chain(self):
        """Every figure of the report that is a cent, or a half cent, away is found, and where."""
        keys = ["block.1.k"] * 5 + ["total.k", "operational.ro"]
        scaled = EXAMPLE.replace(b"          10000              0", b"          10500              0")
        for sheet, buffer in ((EXAMPLE, "total.bracket"), (scaled, "total.buffer")):
            answer, library = tsav.sheet(sheet), tsav.sheet
            for line, key in enumerate([*keys, buffer]):
                for by in (1, -1):
                    start = line * tsav.REPORT_LINE
                    number = int(answer[start + 10 : start + 28]) + by
                    other = answer[: start + 10] + b"%18d" % number + answer[start + 28 :]
                    call = lambda given, other=other, sheet=sheet: other if given == sheet else library(given)
                    with self.subTest(key=key, by=by), mock.patch.object(tsav, "sheet", call):
                        with self.assertRaises(Failure) as raised:
                            chain_whole.build(sheet)
                        self.assertIn(f" {key} ", str(raised.exception))

    def test_another_step_is_no_chain(self):
        """A block's figures that both calls give a half cent or a cent away, so that only the step can tell; D, which is taken at a finer I than
        the one that is printed, a cent away."""
        sheet, block = tsav.sheet, tsav.block
        for item, name in enumerate(("i", "d", "u", "lt", "k"), 1):
            for by in (2, -2) if name == "d" else (1, -1):
                answer = sheet(EXAMPLE)
                at = (item - 1) * tsav.REPORT_LINE
                other = answer[: at + 10] + b"%18d" % (int(answer[at + 10 : at + 28]) + by) + answer[at + 28 :]
                found = lambda numbers, name=name, by=by: block(numbers)._replace(**{name: getattr(block(numbers), name) + by})
                with self.subTest(name, by=by), mock.patch.object(tsav, "block", found):
                    with mock.patch.object(tsav, "sheet", lambda given, other=other: other if given == EXAMPLE else sheet(given)):
                        with self.assertRaises(Failure) as raised:
                            chain_whole.build(EXAMPLE)
                        self.assertIn(f" block.1.{name} ", str(raised.exception))

    def test_the_formula_that_the_page_tells(self):
        """Worked out as it is told, in either language, at the D that is shown, it gives K, to a cent, and the cents of a half cent of D."""
        for language, told in (("en", r"K is (.*?), with V = (.*?) and"), ("fr", r"K est (.*?), où V = (.*?) et")):
            messages.choose(language)
            text = messages._(parts._HOW_K).replace("×", "*").replace("−", "-")
            formula, v = (re.sub(r"(\d),(\d)", r"\1.\2", part) for part in re.search(told, text).groups())
            for sheet in (EXAMPLE, *drawn.sheets(20, 42)):
                chain = chain_whole.build(sheet)
                for block in chain.blocks:
                    amounts = {name.upper(): float(chain.amount(f"block.{block}.{name}")) for name in ("u", "lt", "d", "k")}
                    if amounts["U"]:
                        amounts["V"] = eval(v, {}, amounts)
                        found = eval(formula, {}, amounts)
                        least = eval(formula.split(" + (")[0], {}, amounts)
                        self.assertAlmostEqual(max(found, least), amounts["K"], delta=2 + amounts["K"] * 1e-12)
        messages.choose("en")

    def test_links_that_lack_one(self):
        """They don't total the buffers, and that is found."""
        chain = chain_whole.build(EXAMPLE)
        without_ro = [link for link in chain_whole._WHOLE if link[0] != "operational.ro"]
        with mock.patch.object(chain_whole, "_WHOLE", without_ro), self.assertRaises(Failure):
            chain_whole.links(chain, chain)

    def test_another_charge_is_no_chain(self):
        """RO that both calls give a cent away from the charges' sum."""
        sheet, operational = tsav.sheet, tsav.operational
        at = 6 * tsav.REPORT_LINE
        for by in (1, -1):
            answer = sheet(EXAMPLE)
            other = answer[: at + 10] + b"%18d" % (int(answer[at + 10 : at + 28]) + by) + answer[at + 28 :]
            with self.subTest(by=by), mock.patch.object(tsav, "operational", lambda *given, by=by: operational(*given) + by):
                with mock.patch.object(tsav, "sheet", lambda given, other=other: other if given == EXAMPLE else sheet(given)):
                    with self.assertRaises(Failure) as raised:
                        chain_whole.build(EXAMPLE)
                    self.assertIn(" operational.ro ", str(raised.exception))


class Decimals(unittest.TestCase):
    def test_exact(self):
        for amount, text in ((Fraction(1125, 2), "562.5"), (Fraction(-3), "-3"), (Fraction(1, 50_000), "0.00002"), (0, "0"), (Fraction(-1, 4), "-0.25")):
            self.assertEqual(exactly.decimal(amount), text)
        with self.assertRaises(ValueError):
            exactly.decimal(Fraction(1, 3))

    def test_dollars(self):
        for language, shown in (("en", ("$5.625", "\u2212$1,000.00", "$0.00")), ("fr", ("5,625\u00a0$", "\u22121\u00a0000,00\u00a0$", "0,00\u00a0$"))):
            messages.choose(language)
            self.assertEqual(tuple(map(exactly.dollars, (Fraction(1125, 2), -100_000, 0))), shown)
        messages.choose("en")
