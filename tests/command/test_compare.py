"""`tsav compare`: which lines differ, what each moves alone, and that the column adds up."""

import json
import random
import re
import unittest

import tsav as library
from drawn import sheets as drawn_sheets
from running import TOP, names_of, tsav
from sheets import EXAMPLE, InFolder, altered, sheet, sound, total
from test_warn import DRAWN, SECTION, bare

ORDER = [b"RSK", b"OTH", b"MOR", b"VOL", b"ACQ", b"GEN", b"CRD"]


def alone(old: bytes, new: bytes, key: bytes) -> bytes:
    """The old sheet with the line of this code, block and class as the new one has it, by its bytes."""
    lines = {line[:9]: line for line in old.splitlines(keepends=True)}
    lines.pop(key, None)
    lines.update({line[:9]: line for line in new.splitlines(keepends=True) if line[:9] == key})
    return b"".join(lines[name] for name in sorted(lines, key=lambda name: (ORDER.index(name[:3]), name[3:])))


def moves(old: bytes, new: bytes, key: bytes):
    """The movement of the buffer, and the refusal."""
    try:
        return total(alone(old, new, key), 3) - total(old, 3), None
    except library.Refused as refusal:
        return None, refusal.number


class Compare(InFolder):
    def compare(self, old: bytes, new: bytes, *arguments):
        return tsav("compare", self.file("old.sheet", old), "-", *arguments, given=new)

    def value(self, old: bytes, new: bytes) -> dict:
        ran = self.compare(old, new, "--json")
        self.assertEqual((ran.status, ran.err), (0, ""))
        return json.loads(ran.out)

    def agrees(self, old: bytes, new: bytes) -> dict:
        """What is told, by another way: every line that differs, what it moves, and the rest; in the value and in the text."""
        found = self.value(old, new)
        differ = {line[:9] for line in set(old.splitlines(keepends=True)) ^ set(new.splitlines(keepends=True))}
        told = {b"%-3b %2d %2d" % (line["code"].encode(), line["block"], line["class"]): line for line in found["lines"]}
        self.assertEqual(set(told), differ)
        self.assertEqual(len(told), len(found["lines"]))
        for key, line in told.items():
            self.assertEqual((line["moves"], line["refusal"]), moves(old, new, key))
            for data, amounts, number in ((old, line["old"], line["line_old"]), (new, line["new"], line["line_new"])):
                rows = data.splitlines()
                self.assertEqual(amounts, [int(rows[number - 1][10:24]), int(rows[number - 1][25:])] if number else None)
                self.assertEqual([at for at, row in enumerate(rows, 1) if row[:9] == key], [number] if number else [])
        self.assertEqual((found["buffer_old"], found["buffer_new"]), (total(old, 3), total(new, 3)))
        self.assertEqual(found["total"], total(new, 3) - total(old, 3))
        self.assertEqual(sum(line["moves"] or 0 for line in found["lines"]) + found["together"], found["total"])
        self.adds_up(old, new, found)
        return found

    def adds_up(self, old: bytes, new: bytes, found: dict) -> None:
        """As people read it, in both languages: the column without its last line comes to that."""
        if not found["lines"]:
            return
        for language in ("en", "fr"):
            rows = self.compare(old, new, "--lang", language).out.split("\n\n")[1].split("\n")
            # The heading is as wide as the table.
            cells = [row.rsplit("  ", 1)[1] for row in rows[1:] if len(row) == len(rows[0])]
            self.assertEqual(len(cells), len(found["lines"]) + 2)
            column = [int(re.sub("[^0-9-]", "", cell)) for cell in cells if not cell.startswith("refus")]
            self.assertEqual(sum(column[:-1]), column[-1], rows)
            self.assertEqual(column[-1], found["total"])

    def test_same(self):
        for language, said in (("en", "They have the same lines.\n"), ("fr", "Elles ont les m\u00eames lignes.\n")):
            ran = self.compare(EXAMPLE, EXAMPLE, "--lang", language)
            self.assertEqual((ran.status, ran.err), (0, ""))
            self.assertTrue(ran.out.endswith(said))
        found = self.agrees(EXAMPLE, EXAMPLE)
        self.assertEqual((found["lines"], found["together"], found["total"]), ([], 0, 0))

    def test_lines(self):
        new = EXAMPLE.replace(b"RSK  1  1      100000000       70000000", b"RSK  1  1      130000000       70000100")
        new = new.replace(b"OTH  1  2       20000000", b"OTH  1  2       21000000")
        found = self.agrees(EXAMPLE, new)
        self.assertEqual([line["moves"] for line in found["lines"]], [27_378_959, 800_216])
        self.assertEqual((found["together"], found["total"]), (-25_544, 28_153_631))
        text = self.compare(EXAMPLE, new).out
        for said in (
            "2 lines differ:\n",
            "  $1,000,000.00  $1,300,000.00         +$273,789.59\n",
            "    $700,000.00    $700,001.00\n",
            "  -$255.44\n",
        ):
            self.assertIn(said, text)
        self.assertIn("2 lignes diff\u00e8rent\u00a0:\n", self.compare(EXAMPLE, new, "--lang", "fr").out)

    def test_scalar(self):
        new = EXAMPLE.replace(b"GEN  0  4          10000", b"GEN  0  4          10500")
        found = self.agrees(EXAMPLE, new)
        self.assertEqual((len(found["lines"]), found["together"]), (1, 0))
        for language, said in (("en", "      1         1.05 "), ("fr", "       1                  1,05 ")):
            self.assertRegex(re.sub(" +", " ", self.compare(EXAMPLE, new, "--lang", language).out), re.sub(" +", " ", said))

    def test_line_that_one_has(self):
        """One of zeros too: it may make a block, and moves nothing."""
        gone = EXAMPLE.replace(b"OTH  1  3        7500000              0\n", b"")
        zeros = EXAMPLE.replace(b"OTH  1  3        7500000", b"OTH  1  3              0")
        for old, new, texts in (
            (EXAMPLE, gone, ("$75,000.00", "no line")),
            (gone, EXAMPLE, ("no line", "$75,000.00")),
            (gone, zeros, ("no line", "$0.00")),
            (zeros, gone, ("$0.00", "no line")),
        ):
            found = self.agrees(old, new)
            self.assertEqual(len(found["lines"]), 1)
            self.assertIn("  ".join(texts), re.sub("   +", "  ", self.compare(old, new).out))
        self.assertEqual(self.agrees(gone, zeros)["total"], 0)

    def test_refused_alone(self):
        """By 16, 17 and 13, in words; it counts in 'together'."""
        scalar, block = ("GEN", 0, 4, 10_000, 0), ("OTH", 17, 1, 5_000_000, 0)
        dividends = "A dividend credit is above its block's K", "Un cr\u00e9dit de participations d\u00e9passe"
        for old, new, code, number, words in (
            (
                (("RSK", 1, 1, 500, 0), scalar),
                (("RSK", 1, 1, 500, 400), ("MOR", 1, 1, 100, 100), scalar),
                "MOR",
                16,
                ("The credit of a MOR line is above level and trend", "Le cr\u00e9dit d'une ligne MOR d\u00e9passe"),
            ),
            ((scalar,), (block, ("CRD", 17, 1, 1, 0), scalar), "CRD", 17, dividends),
            ((block, ("CRD", 17, 1, 5_000_000, 0), scalar), (scalar,), "OTH", 17, dividends),
            (
                (scalar,),
                (block, ("GEN", 0, 5, 7, 0), scalar),
                "GEN",
                13,
                ("The credits that belong to no block", "Les cr\u00e9dits qui ne sont d'aucun bloc"),
            ),
        ):
            found = self.agrees(sheet(*old), sheet(*new))
            self.assertEqual([(line["code"], line["refusal"]) for line in found["lines"] if line["moves"] is None], [(code, number)])
            for language, said, heading in zip(("en", "fr"), words, ("refusal", "refus")):
                out = self.compare(sheet(*old), sheet(*new), "--lang", language).out
                self.assertIn(f"  {heading} {number}\n", out)
                self.assertIn(said, out.partition("\n\n")[2])

    def test_drawn(self):
        """Neighbours, which have next to nothing in common, and sheets of which some lines are altered."""
        draw = random.Random(5)
        before, refused, differ = sound(), 0, 0
        for data in drawn_sheets(DRAWN // 8, 44):
            for old, new in ((before, data), (data, altered(draw, data)), (altered(draw, data), altered(draw, data))):
                lines = self.agrees(old, new)["lines"]
                refused += any(line["refusal"] for line in lines)
                differ += len(lines)
            before = data
        self.assertGreater(refused, 0)
        self.assertGreater(differ, 2 * DRAWN)

    def test_either_is_standard_input(self):
        found = json.loads(tsav("compare", "-", self.file("new.sheet", sound()), "--json", given=EXAMPLE).out)
        other = self.value(EXAMPLE, sound())
        self.assertEqual((found["old"], found["lines"], found["total"]), ("-", other["lines"], other["total"]))

    def test_refused(self):
        good, bad = self.file("good", EXAMPLE), self.file("bad", EXAMPLE[:-1])
        for arguments, refused in (((good, bad), [bad]), ((bad, good), [bad]), ((bad, bad), [bad, bad])):
            answer = tsav("compare", *arguments, "--json")
            found = json.loads(answer.out)
            self.assertEqual((answer.status, answer.err), (1, ""))
            self.assertEqual([(some["file"], some["refusal"]) for some in found["refused"]], [(name, 2) for name in refused])
            self.assertEqual((found["lines"], found["total"], found["buffer_old"]), ([], None, None))
            for language, said in (("en", "is refused: refusal 2."), ("fr", "refus\u00e9e, refus 2.")):
                text = tsav("compare", *arguments, "--lang", language)
                self.assertEqual((text.status, text.out.count(said)), (1, len(refused)))

    def test_not_read(self):
        good = self.file("good", EXAMPLE)
        for arguments in ((good,), (good, str(self.folder / "none")), (str(self.folder), good), ("-", "-")):
            for language in ("en", "fr"):
                ran = tsav("compare", *arguments, "--lang", language, given=EXAMPLE)
                self.assertEqual((ran.status, ran.out), (2, ""))

    def test_the_values_are_the_same(self):
        answers = [json.loads(self.compare(sound(), EXAMPLE, "--json", "--lang", language).out) for language in ("en", "fr")]
        self.assertEqual(bare(answers[0]), bare(answers[1]))
        self.assertNotEqual(*answers)

    def test_page(self):
        """What docs/PROGRAMMING.md says of it is so."""
        new = EXAMPLE.replace(b"OTH  1  2       20000000", b"OTH  1  2       21000000")
        for answer in (self.value(EXAMPLE, new), json.loads(tsav("compare", str(self.file("a", b"")), "-", "--json", given=EXAMPLE).out)):
            for name in names_of(answer):
                self.assertIn(f"`{name}`", SECTION)
