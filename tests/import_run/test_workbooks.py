"""Workbooks that people fill in, and hostile ones."""

import io
import os
import random
import struct
import subprocess
import unittest
import zipfile
from datetime import date, datetime, timedelta
from pathlib import Path

from command import EXAMPLE, InFolder, archive, book, needs_openpyxl, openpyxl, parts, run, run_process
from running import COMMAND
from test_rows import CODES, HEADING, at

import tsav
from tsav.command import columns, workbook

SHEET = b"RSK  1  1      100000050       70000000\nGEN  0  4          10500              0\n"
ROWS = [["Code", "Block", "Class", "First amount", "Second amount"], ["RSK", 1, 1, 1000000.5, 700000], ["GEN", 0, 4, 1.05, None]]
DAMAGED = "it is damaged, or no workbook: open it and save it as .xlsx again"
TOO_LARGE = "it has far more than a workbook of figures: copy the rows into a new one"
MERGED = "the cell is merged with others: split them, and fill each"
FORMULA = "a formula stands here: copy it, and paste its value"
DATE = "the cell has a date's format: give it a number's, and type the number again"
FINER = "it is finer than a cent: round it to the cent, up or down as it must be"
BESIDE = "nothing belongs here: empty the cell, or give its column a heading"
WORKSHEET = "xl/worksheets/sheet1.xml"


def with_rows(*rows):
    return book([ROWS[0], *rows, ROWS[2]])


@needs_openpyxl
class Workbooks(InFolder):
    def test_numbers_and_texts(self):
        self.assertEqual(self.sheet("figures.xlsx", book(ROWS)), SHEET)
        text = [ROWS[0], ["RSK", "1", "01", "1\u00a0000\u00a0000,50 $", "700,000.00"], [" GEN ", "0", 4.0, "1,05", " "]]
        self.assertEqual(self.sheet("figures.xlsx", book(text)), SHEET)
        self.assertEqual(self.sheet("figures.csv", book(ROWS)), SHEET)
        # Without a heading, below empty rows.
        self.assertEqual(self.sheet("figures.xlsx", book([[], [], *ROWS[1:]])), SHEET)

    def test_titles_and_notes(self):
        rows = [["Life company of somewhere"], [], ["Note", *ROWS[0][3:], *ROWS[0][:3]], *([1234, *row[3:], *row[:3]] for row in ROWS[1:])]

        def decorate(made):
            sheet = made.active
            sheet.merge_cells("A1:F1")
            sheet["A7"] = "=1+1"
            sheet["B9"].number_format = "0.00"

        self.assertEqual(self.sheet("figures.xlsx", book(rows, change=decorate)), SHEET)

    def test_the_worksheet(self):
        other = lambda made: made.create_sheet("Other").append(["RSK", 9, 9, 9, 9])
        for title in ("Figures", "Montants"):
            self.assertEqual(self.sheet("figures.xlsx", book(ROWS, title, other)), SHEET)
        self.assertEqual(self.sheet("figures.xlsx", book(ROWS, "Any")), SHEET)
        said = "it has several worksheets, or none: the one to read is to be named Figures or Montants"
        self.refused("figures.xlsx", book(ROWS, "Any", other), said)
        self.refused("figures.xlsx", book(ROWS, "Figures", lambda made: made.create_sheet("Montants")), said)

        def hide(made):
            made.create_sheet("Seen").append(["GEN", 0, 4, 1, 0])
            made["Figures"].sheet_state = "hidden"

        self.assertEqual(self.sheet("figures.xlsx", book(ROWS, "Figures", hide)), b"GEN  0  4          10000              0\n")

    def test_cells(self):
        for row, told in (
            (["RSK", 1, 1, "1,000", 0], ("D2", 2, 4, "'1,000': it may be 1000 or 1.000: type it without a sign between thousands, or with two decimals")),
            (["RSK", 1, 1, 5, 1.005], ("E2", 2, 5, f"1.005: {FINER}")),
            (["RSK", 1, 1, -5, 0], ("D2", 2, 4, "-5: it is below zero, or has a sign")),
            (["RSK", 1, 1, 1e12, 0], ("D2", 2, 4, "1000000000000: above $999,999,999,999.99")),
            (["RSK", 1.5, 1, 5, 0], ("B2", 2, 2, "1.5: a whole number of at most two digits belongs here")),
            (["RSK", 1, True, 5, 0], ("C2", 2, 3, "TRUE is no figure")),
            (["RSK", 1, 1, False, 0], ("D2", 2, 4, "FALSE is no figure")),
            ([7, 1, 1, 5, 0], ("A2", 2, 1, f"7 is no code {CODES}, and a heading has all of: {HEADING}")),
            (["RSK", 1, 1, 5, 6], ("E2", 2, 5, "the level and trend part is above the gross component")),
            (["GEN", 0, 4, 1, 0], ("A3", 3, 1, "GEN, block 0, class 4 stands in row 2 already")),
            (["RSK", 1, 1, 5, 0, 7], ("F2", 2, 6, BESIDE)),
        ):
            with self.subTest(row=row):
                self.refused("figures.xlsx", with_rows(row), at(*told))
        for value, told in (
            (50000.005, "50000,005\u00a0: c'est plus fin que le cent\u00a0: arrondissez-le au cent, vers le haut ou vers le bas comme il se doit"),
            (True, "VRAI n'est pas un montant"),
        ):
            self.refused("figures.xlsx", with_rows(["RSK", 1, 1, value, 0]), f"cellule D2 (ligne 2, colonne 4)\u00a0: {told}", language="fr")
        # A sum that was pasted as its value: openpyxl itself would write 16 digits of it.
        made = parts(with_rows(["RSK", 1, 1, 5, 0.25]))
        made[WORKSHEET] = made[WORKSHEET].replace(b"<v>0.25</v>", b"<v>0.30000000000000004</v>")
        self.refused("figures.xlsx", archive(made), at("E2", 2, 5, f"0.30000000000000004: {FINER}"))
        self.refused("figures.xlsx", book([["GEN", 0, 4, 1.00005]]), at("D1", 1, 4, "1.00005: it is finer than 0.0001"))

    def test_formulas(self):
        for cell, row in (("A2", ["=\"RSK\"", 1, 1, 5, 0]), ("B2", ["RSK", "=1", 1, 5, 0]), ("D2", ["RSK", 1, 1, "=2+3", 0]), ("E2", ["RSK", 1, 1, 5, "=D2"])):
            with self.subTest(cell=cell):
                self.refused("figures.xlsx", with_rows(row), at(cell, 2, ord(cell[0]) - 64, FORMULA))
        # With a value that was worked out once, and the later cells of a formula that is shared.
        made = parts(with_rows(["RSK", 1, 1, 5, 4]))
        for formula in (b"<f>1+1</f>", b'<f t="shared" si="0"/>', b"<f/>"):
            made[WORKSHEET] = made[WORKSHEET].replace(b'<c r="E2" t="n">', b'<c r="E2" t="n">' + formula)
            with self.subTest(formula=formula):
                self.refused("figures.xlsx", archive(made), at("E2", 2, 5, FORMULA))

    def test_dates_and_errors(self):
        for value in (date(2026, 1, 2), datetime(2026, 1, 2, 3), timedelta(days=1), datetime(2026, 1, 2).time()):
            with self.subTest(value=value):
                self.refused("figures.xlsx", with_rows(["RSK", 1, 1, value, 0]), at("D2", 2, 4, DATE))
        self.refused("figures.xlsx", with_rows(["RSK", 1, 1, "#REF!", 0]), at("D2", 2, 4, "#REF! is no figure"))

    def test_merged_cells(self):
        for merged, *cells in (("D2:E2", "D2", "E2"), ("A2:A3", "A2", "A3"), ("D1:D3", "D1"), ("A1:XFD1048576", "A1", "A2", "A3")):
            content = book([*ROWS[1:], ["OTH", 1, 1, 5, 0]] if cells[0] == "A1" else [*ROWS[:1], *ROWS[1:]])
            made = parts(content)
            made[WORKSHEET] = made[WORKSHEET].replace(b"</sheetData>", b'</sheetData><mergeCells count="1"><mergeCell ref="%b"/></mergeCells>' % merged.encode())
            with self.subTest(merged=merged):
                _status, said, _wrong = self.said(archive(made))
                self.assertEqual([line for line in said if line.endswith(MERGED)], [at(cell, int(cell[1]), ord(cell[0]) - 64, MERGED) for cell in cells])

    def said(self, content: bytes):
        Path("figures.xlsx").write_bytes(content)
        status, said, wrong = run("import", "figures.xlsx", "-o", "out.sheet")
        self.assertEqual((status, wrong, Path("out.sheet").read_bytes()), (1, "", self.BEFORE))
        return status, said.splitlines()[1:], wrong


@needs_openpyxl
class Hostile(InFolder):
    def bounded(self, content: bytes, *told: str):
        """Refused with these words by a process of its own, which has little memory and 20 seconds."""
        Path("hostile.xlsx").write_bytes(content)
        command = [*COMMAND, "import", "--lang", "en", "hostile.xlsx", "-o", "out.sheet"]
        limited = ["sh", "-c", 'ulimit -v 800000 && ulimit -t 20 && exec "$@"', "sh", *command]
        found = subprocess.run(limited, stdout=subprocess.PIPE, stderr=subprocess.PIPE, check=False)
        self.assertEqual((found.returncode, found.stdout.decode().splitlines()[1:], found.stderr), (1, list(told), b""))
        self.assertEqual(Path("out.sheet").read_bytes(), self.BEFORE)

    def changed(self, name: str, old: bytes, new: bytes) -> bytes:
        made = parts(book(ROWS))
        self.assertIn(old, made[name])
        made[name] = made[name].replace(old, new, 1)
        return archive(made)

    def test_a_bomb_that_says_so(self):
        made = parts(book(ROWS))
        made["xl/media/bomb.bin"] = bytes(200_000_000)
        self.bounded(archive(made), TOO_LARGE)

    def test_a_bomb_that_lies(self):
        """A directory that has a small size where a part unpacks to a gigabyte."""
        file = io.BytesIO()
        with zipfile.ZipFile(file, "w", zipfile.ZIP_DEFLATED) as made:
            for name, part in parts(book(ROWS)).items():
                with made.open(name, "w") as entry:
                    entry.write(part)
                    if name == WORKSHEET:
                        real = len(part) + 1000 * (1 << 20)
                        for _time in range(1000):
                            entry.write(b" " * (1 << 20))
        content = file.getvalue()
        self.assertEqual(content.count(struct.pack("<I", real)), 2)
        self.bounded(content.replace(struct.pack("<I", real), struct.pack("<I", 1000)), DAMAGED)

    def test_parts_that_overlap(self):
        """A thousand names for the same part of a megabyte."""
        made = parts(book(ROWS))
        made["xl/part"] = bytes(1 << 20)
        content = archive(made)
        end = content.rindex(b"PK\x05\x06")
        entry = content[content.rindex(b"PK\x01\x02") : end]
        names = b"".join(entry.replace(b"xl/part", b"xl/%04d" % at) for at in range(900))
        count, size, start = struct.unpack("<HII", content[end + 10 : end + 20])
        tail = struct.pack("<HHHHIIH", 0, 0, count + 900, count + 900, size + len(names), start, 0)
        # That the directory says less than it unpacks to is no way round it.
        for said in (struct.pack("<I", 1 << 20), struct.pack("<I", 10)):
            self.bounded(content[:end] + names.replace(struct.pack("<I", 1 << 20), said) + b"PK\x05\x06" + tail, TOO_LARGE if said[2] else DAMAGED)

    def test_other_ways_to_pack(self):
        made = parts(book(ROWS))
        made["xl/media/bomb.bin"] = bytes(8 << 20)
        for compression in (zipfile.ZIP_BZIP2, zipfile.ZIP_LZMA):
            self.bounded(archive(made, compression), DAMAGED)
        self.assertEqual(self.sheet("figures.xlsx", archive(parts(book(ROWS)), zipfile.ZIP_STORED)), SHEET)

    def test_a_name_that_stands_twice(self):
        file = io.BytesIO(book(ROWS))
        with self.assertWarns(UserWarning), zipfile.ZipFile(file, "a") as made:
            made.writestr(WORKSHEET, parts(book([["GEN", 0, 4, 2]]))[WORKSHEET])
        self.bounded(file.getvalue(), DAMAGED)

    def test_many_parts(self):
        made = parts(book(ROWS))
        self.bounded(archive({**made, **{f"xl/{at}": b"" for at in range(1001)}}), TOO_LARGE)

    def test_entities(self):
        """A part that declares one is none of a workbook, whatever it makes of it."""
        one = b'<?xml version="1.0"?><!DOCTYPE worksheet [<!ENTITY a "9">]>'
        many = b'<?xml version="1.0"?><!DOCTYPE x [<!ENTITY a "' + b"9" * 1000 + b'"><!ENTITY b "' + b"&a;" * 1000 + b'">]>'
        for declared in (one, many):
            made = parts(self.changed(WORKSHEET, b"<worksheet", declared + b"<worksheet"))
            self.bounded(archive(made), DAMAGED)
            made[WORKSHEET] = made[WORKSHEET].decode("utf-8").encode("utf-16")
            self.bounded(archive(made), DAMAGED)

    def test_many_elements(self):
        self.bounded(self.changed(WORKSHEET, b"</sheetData>", b"<row/>" * 500_000 + b"</sheetData>"), TOO_LARGE)
        self.bounded(self.changed("xl/styles.xml", b"</styleSheet>", b"<x/>" * 500_000 + b"</styleSheet>"), TOO_LARGE)

    def test_many_rows(self):
        for count, told in ((5_000, None), (5_001, TOO_LARGE)):
            row = b"".join(b'<row r="%d"><c r="A%d"><v>1</v></c></row>' % (at, at) for at in range(4, count + 1))
            content = self.changed(WORKSHEET, b"</sheetData>", row + b"</sheetData>")
            if told:
                self.bounded(content, told)
            else:
                Path("figures.xlsx").write_bytes(content)
                self.assertIn("and 4977 more cells.", run("import", "figures.xlsx", "-o", "out.sheet")[1])

    def test_far_cells(self):
        for place in (b"XFD4", b"IW4"):
            far = b'<row r="4"><c r="%b"><v>1</v></c></row>' % place
            self.bounded(self.changed(WORKSHEET, b"</sheetData>", far + b"</sheetData>"), TOO_LARGE)
        last = b'<row r="1048576"><c r="F1048576"><v>1</v></c></row>'
        self.bounded(
            self.changed(WORKSHEET, b"</sheetData>", last + b"</sheetData>"),
            at("F1048576", 1048576, 6, BESIDE),
        )
        # What is far out and empty, as spreadsheets write it for a format, is nothing.
        empty = b'<row r="1048576"><c r="A1048576" s="0"/><c r="XFD1048576" s="0"/></row>'
        self.assertEqual(self.sheet("figures.xlsx", self.changed(WORKSHEET, b"</sheetData>", empty + b"</sheetData>")), SHEET)

    def test_many_merged_cells(self):
        merged = b"".join(b'<mergeCell ref="A%d:XFD1048576"/>' % at for at in range(1, 1002))
        self.bounded(self.changed(WORKSHEET, b"</sheetData>", b"</sheetData><mergeCells>" + merged + b"</mergeCells>"), TOO_LARGE)

    def test_places_that_are_wrong(self):
        """Rows and cells that stand twice, out of order, in another row or beyond the last one are not to be believed in one way or the other."""
        for old, new in (
            (b'<row r="3">', b'<row r="2">'),
            (b'<row r="2">', b'<row r="9">'),
            (b'<row r="3">', b'<row r="99999999999999">'),
            (b"</sheetData>", b'<row r="99999999999999"><c><v>1</v></c></row></sheetData>'),
            (b"</sheetData>", b'<row r="1048576"><c><v>1</v></c></row><row><c><v>1</v></c></row></sheetData>'),
            (b'<row r="3">', b'<row r="x">'),
            (b'<c r="D2"', b'<c r="E2"'),
            (b'<c r="D2"', b'<c r="D3"'),
            (b'<c r="E2"', b'<c r="A2"'),
            (b'<c r="E2"', b'<c r="0"'),
            (b"<v>700000</v>", b"<v>70x000</v>"),
            (b"<v>700000</v>", b"<v>" + b"7" * 5000 + b"</v>"),
            (b"http://schemas.openxmlformats.org/spreadsheetml/2006/main", b"http://purl.oclc.org/ooxml/spreadsheetml/main"),
            (b"</sheetData>", b"</sheet"),
        ):
            with self.subTest(old=old, new=new[:40]):
                self.bounded(self.changed(WORKSHEET, old, new), DAMAGED)

    def test_the_dimension_is_not_believed(self):
        for reference in (b"A1:B2", b"A1:XFD1048576", b"A1"):
            content = self.changed(WORKSHEET, b'<dimension ref="A1:E3"', b'<dimension ref="%b"' % reference)
            self.assertEqual(self.sheet("figures.xlsx", content), SHEET)

    def test_numbers_without_end(self):
        for value in (b"1e999", b"1E400"):
            content = self.changed(WORKSHEET, b"<v>700000</v>", b"<v>%b</v>" % value)
            self.bounded(content, at("E2", 2, 5, "Infinity: above $999,999,999,999.99"))

    def test_bytes_that_are_changed(self):
        """Whatever is hit, the archive's own words or those of its parts: a sheet or a refusal, and never Python's own words."""
        draw = random.Random(39)
        whole = archive(parts(book(ROWS)), zipfile.ZIP_STORED)
        for _time in range(400):
            content = bytearray(whole)
            for _hit in range(draw.choice((1, 1, 3, 30))):
                content[draw.randrange(4, len(content))] = draw.randrange(256)
            self.one_answer(bytes(content))
        # In a part, with the archive around it as it should be.
        for _time in range(400):
            made = parts(whole)
            name = draw.choice(list(made))
            part = bytearray(made[name])
            for _hit in range(draw.choice((1, 1, 3, 30))):
                part[draw.randrange(len(part))] = draw.choice((*b"<>/=0123456789ABCDE \"'&", draw.randrange(256)))
            self.one_answer(archive({**made, name: bytes(part)}))

    def one_answer(self, content: bytes):
        Path("hostile.xlsx").write_bytes(content)
        Path("out.sheet").write_bytes(self.BEFORE)
        status, said, wrong = run("import", "hostile.xlsx", "-o", "out.sheet")
        self.assertEqual((status in (0, 1), wrong), (True, ""), said)
        self.assertEqual(Path("out.sheet").read_bytes() == self.BEFORE, status == 1)
        if status == 0:
            tsav.sheet(Path("out.sheet").read_bytes())

    def test_no_workbook(self):
        self.bounded(b"PK\x03\x04" + bytes(100), DAMAGED)
        self.bounded(book(ROWS)[:-30], DAMAGED)
        self.bounded(archive({"mimetype": b"application/vnd.oasis.opendocument.spreadsheet", "content.xml": b"<x/>"}), DAMAGED)
        self.bounded(b"\xd0\xcf\x11\xe0" + bytes(100), "it is an old workbook (.xls), or one with a password: save it as .xlsx, without a password")
        self.bounded(b"PK\x03\x04".ljust(workbook.LONGEST + 1, b"x"), "it is far longer than the figures of a sheet")


@needs_openpyxl
class Templates(InFolder):
    def test_every_line_of_its_blocks(self):
        for language in ("en", "fr"):
            for blocks in ((1,), (1, 2, 17), tuple(range(1, 33))):
                name = f"{language}{len(blocks)}.xlsx"
                text = ",".join(map(str, blocks))
                status, said, wrong = run("template", "-o", name, "--blocks", text, "--lang", language)
                keys = {(code, block, klass) for code in columns.CODES for block in (0, *blocks) if block in columns.BLOCKS[code] for klass in columns.classes(code, block)}
                self.assertEqual((status, wrong, str(len(keys)) in said), (0, "", True))
                sheet = openpyxl.load_workbook(name).worksheets[0]
                found = [tuple(cell.value for cell in row[:3]) for row in sheet.iter_rows(min_row=2)]
                self.assertEqual((len(found), set(found)), (len(keys), keys))
                # Every row has its name, what its first amount is, section and unit; a second one is named or its cell is grey.
                for row in sheet.iter_rows(min_row=2):
                    values = [cell.value for cell in row]
                    self.assertTrue(all(values[at] for at in (3, 6, 8, 9)), values)
                    self.assertIsNone(values[4] or values[5])
                    self.assertNotEqual(values[7] is None, row[5].fill.fill_type is None, values)
        self.assertEqual(len(keys), 629)
        self.assertEqual(run("template", "-o", "one.xlsx")[0], 0)
        self.assertEqual(parts(Path("one.xlsx").read_bytes())[WORKSHEET], parts(Path("en1.xlsx").read_bytes())[WORKSHEET])

    def test_both_languages_have_words_of_their_own(self):
        cells = []
        for language in ("en", "fr"):
            run("template", "-o", f"{language}.xlsx", "--blocks", "1,17", "--lang", language)
            made = openpyxl.load_workbook(f"{language}.xlsx")
            cells.append([cell.value for sheet in made.worksheets for row in sheet.iter_rows() for cell in row])
            checks = made.worksheets[0].data_validations.dataValidation
            cells[-1] += [check.error for check in checks]
            self.assertEqual([check.sqref.ranges[0].coord for check in checks], [f"{letter}2:{letter}700" for letter in "ABCEF"])
            self.assertTrue(all(len(check.formula1) <= 255 and check.showErrorMessage for check in checks))
        same = {one for one, other in zip(*cells) if one == other}
        allowed = {None, "Code", "Section", "dollars", *columns.CODES, ", ".join(columns.CODES), *range(33)}
        self.assertEqual({text for text in same - allowed if not str(text).startswith("section ")}, set())

    def test_filled_in(self):
        """A row for each line of the example, in both languages."""
        for language in ("en", "fr"):
            name = f"{language}.xlsx"
            run("template", "-o", name, "--lang", language)
            made = openpyxl.load_workbook(name)
            amounts = {line[:3]: line[3:] for line in map(columns.read, EXAMPLE.read_bytes().splitlines(keepends=True))}
            for row in made.worksheets[0].iter_rows(min_row=2):
                key = tuple(cell.value for cell in row[:3])
                if key in amounts:
                    first, second = amounts[key]
                    row[4].value = first / 10000 if key == columns.SCALAR else first / 100
                    if row[5].fill.fill_type is None:
                        row[5].value = second / 100
            made.save(name)
            self.assertEqual(self.sheet(name, Path(name).read_bytes()), EXAMPLE.read_bytes())

    def test_an_empty_scalar_and_a_heading_that_is_misspelt(self):
        for language, empty, misspelt in (
            (
                "en",
                "it is empty, and the scalar may not be left out: type a number like 1 or 1.05",
                "'{}' names no column: {} is missing, and a heading has all of: Code, Block, Class, First amount, Second amount",
            ),
            (
                "fr",
                "c'est vide, et le facteur scalaire est nécessaire\u00a0: tapez un nombre comme 1 ou 1,05",
                "«\u00a0{}\u00a0» ne nomme aucune colonne\u00a0: il manque {}, et un en-tête a toutes les colonnes Code, Bloc, Classe, Premier montant, Second montant",
            ),
        ):
            name = f"{language}.xlsx"
            run("template", "-o", name, "--lang", language)
            content = Path(name).read_bytes()
            made = openpyxl.load_workbook(name)
            sheet = made.worksheets[0]
            row = next(row[0].row for row in sheet.iter_rows(min_row=2) if tuple(cell.value for cell in row[:3]) == columns.SCALAR)
            self.refused(name, content, at(f"E{row}", row, 5, empty, language), language=language)
            for cell, typed in (("A1", "Codes"), ("C1", "Clas"), ("E1", "Amount"), ("F1", "x")):
                with self.subTest(language=language, cell=cell):
                    before = sheet[cell].value
                    sheet[cell].value = typed
                    made.save(name)
                    said = misspelt.format(typed, before)
                    self.refused(name, Path(name).read_bytes(), at(cell, 1, ord(cell[0]) - 64, said, language), language=language)
                    sheet[cell].value = before

    def test_one_that_is_there_stays(self):
        Path("figures.xlsx").write_bytes(b"filled in")
        self.assertEqual(run("template", "-o", "figures.xlsx"), (2, "", "tsav: figures.xlsx is there already: give another name, or delete it\n"))
        self.assertEqual(Path("figures.xlsx").read_bytes(), b"filled in")

    def test_usage(self):
        for blocks in ("0", "33", "1,1", "", "x", "1;2", "-1", "1,", "1.5"):
            with self.subTest(blocks=blocks):
                status, _said, wrong = run("template", "-o", "figures.xlsx", f"--blocks={blocks}")
                self.assertEqual((status, "blocks are numbers from 1 to 32 with commas between, none twice" in wrong), (2, True))
        self.assertEqual(run("template", "-o", "figures.xls"), (2, "", "tsav: figures.xls is to end in .xlsx\n"))
        self.assertEqual(run("export", EXAMPLE, "-o", "figures.txt"), (2, "", "tsav: figures.txt is to end in .csv or .xlsx\n"))
        self.assertFalse(Path("figures.xlsx").exists())


class WithoutOpenpyxl(InFolder):
    """As where Debian's python3-openpyxl isn't installed."""

    def without(self, *arguments):
        Path("none").mkdir(exist_ok=True)
        Path("none/openpyxl.py").write_text("raise ImportError\n", encoding="utf-8")
        path = os.pathsep.join([str(self.folder / "none"), *filter(None, [os.environ.get("PYTHONPATH")])])
        return run_process("--lang", "en", *arguments, PYTHONPATH=path)

    def test_a_clear_sentence(self):
        Path("figures.xlsx").write_bytes(archive({"x": b""}))
        said = r"tsav: for workbooks openpyxl is needed, and /\S+ hasn't it \(Debian's python3: apt-get install python3-openpyxl\); CSV needs none\n"
        for arguments in (("import", "figures.xlsx", "-o", "out.sheet"), ("template", "-o", "new.xlsx"), ("export", EXAMPLE, "-o", "new.xlsx")):
            with self.subTest(arguments=arguments):
                status, out, wrong = self.without(*arguments)
                self.assertEqual((status, out), (2, ""))
                self.assertRegex(wrong, f"^{said}$")
        self.assertEqual(sorted(path.name for path in self.folder.iterdir()), ["figures.xlsx", "none", "out.sheet"])

    def test_csv_needs_none(self):
        self.assertEqual(self.without("export", EXAMPLE, "-o", "figures.csv")[::2], (0, ""))
        self.assertEqual(self.without("import", "figures.csv", "-o", "out.sheet")[::2], (0, ""))
        self.assertEqual(Path("out.sheet").read_bytes(), EXAMPLE.read_bytes())


if __name__ == "__main__":
    unittest.main()
