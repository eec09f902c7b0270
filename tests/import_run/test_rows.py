"""CSV becomes a sheet, or its cells are named: delimiters, alphabets, headings, order, every refusal, and what may not be overwritten."""

import json
import os
import subprocess
import time
import unittest
from pathlib import Path

import tsav
from command import EXAMPLE, InFolder, run
from running import COMMAND
from tsav.command import csvfile

SHEET = b"RSK  1  1      100000050       70000000\nVOL  1  1          15000              0\nGEN  0  4          10500              0\n"
PLAIN = "VOL,1,1,150,0\nGEN,0,4,1.05,\nRSK,1,1,1000000.50,700000\n"
FRENCH = "VOL;1;1;150;0\nGEN;0;4;1,05;\nRSK;1;1;1 000 000,50;700\u202f000\n"
SCALAR = "GEN,0,4,1,0\n"


def at(cell: str, row: int, column: int, text: str, language: str = "en") -> str:
    if language == "fr":
        return f"cellule {cell} (ligne {row}, colonne {column})\u00a0: {text}"
    return f"cell {cell} (row {row}, column {column}): {text}"


class Rows(InFolder):
    def test_delimiters(self):
        for text in (PLAIN, FRENCH, PLAIN.replace(",", "\t"), FRENCH.replace(";", "\t"), PLAIN.replace(",", ";"), '"VOL"' + FRENCH[3:]):
            with self.subTest(text=text):
                self.assertEqual(self.sheet("figures.csv", text.encode("utf-8")), SHEET)

    def test_quoted_amounts(self):
        text = 'VOL,1,1,150,0\nGEN,0,4,"1,05",\nRSK,1,1,"1,000,000.50","700,000.00"\n'
        self.assertEqual(self.sheet("figures.csv", text.encode("utf-8")), SHEET)
        text = 'RSK,1,1,"1 000 000,50","700 000"\nGEN,0,4,"1,05",\n\n"VOL",1,"1",150,0'
        self.assertEqual(self.sheet("figures.csv", text.encode("utf-8")), SHEET)

    def test_alphabets_and_line_ends(self):
        text = "Code;Bloc;Classe;Premier montant;Deuxième montant\n" + FRENCH.replace("\u202f", "\u00a0")
        for encoding in ("utf-8", "utf-8-sig", "utf-16", "cp1252"):
            for end in ("\n", "\r\n", "\r"):
                with self.subTest(encoding=encoding, end=end):
                    self.assertEqual(self.sheet("figures.csv", text.replace("\n", end).encode(encoding)), SHEET)

    def test_headings(self):
        for heading in (
            "Code,Block,Class,First amount,Second amount",
            "code,BLOC,classe,premier  montant,Second Montant ",
            "Code,Territory,Class,Amount 1,Deuxieme montant",
        ):
            for above in ("", "\n\n", "Life company of somewhere,,\n,\"Capital, fourth quarter\"\n"):
                with self.subTest(heading=heading, above=above):
                    self.assertEqual(self.sheet("figures.csv", f"{above}{heading}\n{PLAIN}".encode("utf-8")), SHEET)

    def test_titles_that_have_another_delimiter(self):
        heading = "Code;Bloc;Classe;Premier montant;Second montant"
        self.assertEqual(self.sheet("figures.csv", f"Capital, 2026\t(draft)\n\n{heading}\n{FRENCH}".encode("utf-8")), SHEET)

    def test_columns_in_another_order_with_notes(self):
        text = (
            "Note,Second amount,First amount,Line,Class,Block,Code\n,0,150,,1,1,VOL\nsee below,,1.05,scalar,4,0,GEN\n"
            ",700000,1000000.5,,1,1,RSK\nchecked by two,,,,,,\n"
        )
        self.assertEqual(self.sheet("figures.csv", text.encode("utf-8")), SHEET)

    def test_a_second_amount_that_there_is_none(self):
        rows = ("OTH,1,1,5", "ACQ,1,1,5", "CRD,17,1,0", "GEN,0,1,5", "RSK,1,7,5")
        for row in rows:
            for rest in ("", ",", ",0", ",0.00"):
                with self.subTest(row=row + rest):
                    sheet = self.sheet("figures.csv", f"RSK,17,1,1,1\n{row}{rest}\n{SCALAR}".encode("utf-8"))
                    self.assertIn(b"%14d %14d\n" % (0 if "CRD" in row else 500, 0), sheet)

    def test_rows_without_amounts_are_left_out(self):
        Path("figures.csv").write_text("RSK,1,1,,\nRSK,1,2,0,0\nOTH,1,1, ,\n" + SCALAR, encoding="utf-8")
        self.assertEqual(run("import", "figures.csv", "-o", "out.sheet")[1], "out.sheet: 2 lines. 2 rows without amounts are left out.\n")
        self.assertEqual(Path("out.sheet").read_bytes()[:40], b"RSK  1  2              0              0\n")

    def test_standard_input(self):
        status, said, _wrong = run("import", "-", "-o", "out.sheet", given=PLAIN.encode("utf-8"))
        self.assertEqual((status, said, Path("out.sheet").read_bytes()), (0, "out.sheet: 3 lines.\n", SHEET))

    def test_the_example_from_any_order(self):
        run("export", EXAMPLE, "-o", "figures.csv")
        heading, *rows = Path("figures.csv").read_text(encoding="utf-8").splitlines(keepends=True)
        for turn in range(len(rows)):
            self.assertEqual(self.sheet("turned.csv", "".join([heading, *rows[turn:], *rows[:turn]]).encode("utf-8")), EXAMPLE.read_bytes())


CODES = "(RSK, OTH, MOR, VOL, ACQ, GEN, CRD)"
HEADING = "Code, Block, Class, First amount, Second amount"
EITHER = "it may be 1000 or 1.000: type it without a sign between thousands, or with two decimals"
SPLIT = "nothing belongs here: was an amount split at a comma or a semicolon within it?"


class Refused(InFolder):
    def cell(self, text: str, *told, language: str = "en"):
        with self.subTest(text=text):
            self.refused("figures.csv", text.encode("utf-8"), *(at(*fault, language) for fault in told), language=language)

    def test_cells(self):
        self.cell(f'RSK,1,1,"1,000",5\n{SCALAR}', ("D1", 1, 4, f"'1,000': {EITHER}"))
        self.cell(f"\nRSK;1;1;1000;1.000\n{SCALAR.replace(',', ';')}", ("E2", 2, 5, f"'1.000': {EITHER}"))
        self.cell(f"RSK,1,1,0.005,1\n{SCALAR}", ("D1", 1, 4, "'0.005': it has more than two decimals, and an amount is in whole cents: round it, up or down as it must be"))
        self.cell("GEN,0,4,1.00005", ("D1", 1, 4, "'1.00005': it is finer than 0.0001"))
        self.cell(f"RKS,1,1,1,1\n{SCALAR}", ("A1", 1, 1, f"'RKS' is no code {CODES}, and a heading has all of: {HEADING}"))
        self.cell(f",1,1,1,1\n{SCALAR}", ("A1", 1, 1, f"'' is no code {CODES}, and a heading has all of: {HEADING}"))
        self.cell(
            f"rsk,1,1,1,1\n{SCALAR}",
            ("A1", 1, 1, "rsk has small letters, which are those of a sheet in thousands of dollars: type RSK, and amounts in dollars"),
        )
        self.cell(f"RSK,1,1,1,1\n{SCALAR}RSK,01,1,2,2\n", ("A3", 3, 1, "RSK, block 1, class 1 stands in row 1 already"))
        self.cell(f"RSK,1,1,5,\n{SCALAR}", ("E1", 1, 5, "it is empty: type 0 where there is nothing"))
        self.cell(f"RSK,1,1,,5\n{SCALAR}", ("D1", 1, 4, "it is empty: type 0 where there is nothing"))
        self.cell(f"RSK,1,1,-5,5\n{SCALAR}", ("D1", 1, 4, "'-5': it is below zero, or has a sign"))
        self.cell(f"RSK,,x,5,5\n{SCALAR}", ("B1", 1, 2, "it is empty: type 0 where there is nothing"), ("C1", 1, 3, "'x': a whole number of at most two digits belongs here"))

    def test_words_in_french(self):
        """Decimals as French has them, also in what is said of a cell."""
        scalar = "GEN;0;4;1;0\n"
        for amount, told in (
            ("1.000", "ce peut être 1000 ou 1,000\u00a0: tapez-le sans signe entre les milliers, ou avec deux décimales"),
            ("50000.005", "il y a plus de deux décimales, et un montant est en cents entiers\u00a0: arrondissez-le, vers le haut ou vers le bas comme il se doit"),
        ):
            self.cell(f"OTH;1;1;{amount};0\n{scalar}", ("D1", 1, 4, f"«\u00a0{amount}\u00a0»\u00a0: {told}"), language="fr")
        self.cell(f"OTH;33;1;5;0\n{scalar}", ("B1", 1, 2, "OTH n'a pas de bloc 33; ses blocs sont 1 à 32"), language="fr")

    def test_a_sheet_is_no_table(self):
        """It is told to be one, whether the sheet call accepts it or not."""
        thousands = EXAMPLE.with_name("thousands.sheet").read_bytes()
        sheet = "it is a sheet already, in fixed columns; tsav explain says what the sheet call says of it, and tsav export makes rows of it"
        for content, said in (
            (EXAMPLE.read_bytes(), sheet),
            (EXAMPLE.read_bytes().replace(b"\n", b"\r\n")[40:], sheet),
            (b"\xef\xbb\xbfA title\n" + EXAMPLE.read_bytes()[:-1], sheet),
            (thousands, "it is a sheet already, in thousands of dollars; tsav-convert makes one in cents of it"),
        ):
            with self.subTest(content[:20]):
                self.refused("figures.csv", content, said)
        self.refused(
            "figures.csv", thousands, "c'est déjà une feuille, en milliers de dollars; tsav-convert en fait une en cents", language="fr"
        )

    def test_amounts_that_their_commas_split(self):
        self.cell(f"RSK,1,1,1,000,000,700,000\n{SCALAR}", ("F1", 1, 6, SPLIT))
        self.cell(f"RSK,1,1,1000,50,700,25\n{SCALAR}", ("F1", 1, 6, SPLIT))
        self.cell(f"OTH,1,2,1,000\n{SCALAR}", ("E1", 1, 5, "'000': it begins with a zero: was it cut off from the digits before it?"))
        self.cell(f"OTH,1,2,1,234\n{SCALAR}", ("E1", 1, 5, "there is no second amount in such a row: leave it empty, or type 0"))
        notes = "Code,Block,Class,First amount,Second amount,Note\n"
        self.cell(
            f"{notes}RSK,1,1,1,234,500\n{SCALAR}", ("F2", 2, 6, "a number stands among the notes: was an amount split at a comma within it?")
        )
        for rest in ("234.50", " 234.50 $", "000"):
            self.cell(f"{notes}VOL,1,1,500,1,{rest}\n{SCALAR}", ("F2", 2, 6, "a number stands among the notes: was an amount split at a comma within it?"))
        self.cell(f"{notes}RSK,1,1,1,234,500,000\n{SCALAR}", ("F2", 2, 6, "a number stands among the notes: was an amount split at a comma within it?"))
        # A row that is split at another sign than the others.
        self.cell(f"GEN;0;4;1;0\nRSK,1,1,5,5\n", ("A2", 2, 1, f"'RSK,1,1,5,5' is no code {CODES}, and a heading has all of: {HEADING}"))

    def test_headings(self):
        whole = "Code,Block,Class,First amount,Second amount"
        self.cell(f"Codes,Number,Kind,Dollars\n{SCALAR}", ("A1", 1, 1, f"'Codes' is no code {CODES}, and a heading has all of: {HEADING}"))
        self.cell(f"{whole},Bloc\n{SCALAR}", ("F1", 1, 6, "the heading names this column twice"))
        self.cell(f"RSK,1,1,5,5\n{whole}\n{SCALAR}", ("A1", 1, 1, "RSK stands above the heading, where no row is read"))
        self.cell(f"{whole}\n{SCALAR}{whole}\n", ("A3", 3, 1, f"'Code' is no code {CODES}, and a heading has all of: {HEADING}"))

    def test_headings_that_lack_a_column(self):
        """The cell that was to name it, or the heading; nothing is said of the rows below, whose columns aren't known."""
        begins, of = "the heading that begins here lacks {}: a heading has all of: %s" % HEADING, f"and a heading has all of: {HEADING}"
        self.cell(f"Code,Block,Class,First amount\n{SCALAR}", ("A1", 1, 1, begins.format("Second amount")))
        self.cell("\n,First amount,Code,Block\n,1,GEN,0,4\n", ("B2", 2, 2, begins.format("Class, Second amount")))
        self.cell(f"Code,Block,Clas,First amount,Second amount,Note\nx,y,z,1,2,3\n{SCALAR}", ("C1", 1, 3, f"'Clas' names no column: Class is missing, {of}"))
        self.cell(
            f"Code;Block;Class;Gross;Second amuont\n{SCALAR}",
            ("D1", 1, 4, f"'Gross' names no column: First amount is missing, {of}"),
            ("E1", 1, 5, f"'Second amuont' names no column: Second amount is missing, {of}"),
        )
        self.cell(f"Capital, 2026\nCodes;Block;Class;First amount;Second amount\n{SCALAR}", ("A2", 2, 1, f"'Codes' names no column: Code is missing, {of}"))
        self.cell(
            f"Code,Block,Class,First amount,First amount\n{SCALAR}",
            ("A1", 1, 1, begins.format("Second amount")),
            ("E1", 1, 5, "the heading names this column twice"),
        )
        columns = "Code, Bloc, Classe, Premier montant, Second montant"
        self.cell(
            f"Code;Blocs;Classe;Premier montant\n{SCALAR}",
            ("A1", 1, 1, f"il manque à l'en-tête qui commence ici Second montant\u00a0: un en-tête a toutes les colonnes {columns}"),
            ("B1", 1, 2, f"«\u00a0Blocs\u00a0» ne nomme aucune colonne\u00a0: il manque Bloc, et un en-tête a toutes les colonnes {columns}"),
            language="fr",
        )
        # However wide it is and however long its cells are.
        wide = "Code,Block," + "x" * 100_000 + "," * 100_000 + ",".join(["y"] * 100_000)
        began = time.process_time()
        told = at("A1", 1, 1, begins.format("Class, First amount, Second amount"))
        self.refused("figures.csv", f"{wide}\n{SCALAR}".encode("ascii"), told)
        self.assertLess(time.process_time() - began, 30)

    def test_an_empty_scalar(self):
        """Its cell, with the other faults; where another row has the scalar it is a row that is left out."""
        empty = "it is empty, and the scalar may not be left out: type a number like 1 or 1.05"
        heading = "Code,Block,Class,First amount,Second amount\n"
        self.cell(f"{heading}GEN,0,4,,\nRSK,1,1,5,5\n", ("D2", 2, 4, empty))
        self.cell(f"{heading}GEN,0,4\nRSK,1,1,5,6\n", ("D2", 2, 4, empty), ("E3", 3, 5, "the level and trend part is above the gross component"))
        self.cell("First amount,Code,Block,Class,Second amount\n,GEN,0,4\n", ("A2", 2, 1, empty))
        self.cell(
            "GEN;0;4;;\n", ("D1", 1, 4, "c'est vide, et le facteur scalaire est nécessaire\u00a0: tapez un nombre comme 1 ou 1,05"), language="fr"
        )
        found = json.loads(run("import", "figures.csv", "-o", "out.sheet", "--json")[1])["faults"]
        self.assertEqual(found, [{"cell": "D1", "row": 1, "column": 4, "text": empty, "refusal": 12}])
        self.assertEqual(self.sheet("figures.csv", f"GEN,0,4,,\n{SCALAR}".encode("ascii")), b"GEN  0  4          10000              0\n")

    def test_quotation_marks(self):
        several = "row 2: a cell has several lines: is a quotation mark missing?"
        heading = "Code,Block,Class,First amount,Second amount,Note\n"
        self.refused("figures.csv", f'{heading}RSK,1,1,5,5,"x\nOTH,1,1,5,0,y"\n{SCALAR}'.encode("utf-8"), several)
        wrong = "row 2: its quotation marks or its length are wrong"
        self.refused("figures.csv", f'{SCALAR}RSK,1,1,5,"5\n'.encode("utf-8"), wrong)
        self.refused("figures.csv", f'\nRSK,1,1,5,"5"5\n{SCALAR}'.encode("utf-8"), wrong)
        self.refused("figures.csv", f'{SCALAR}RSK,1,1,5,{"5" * 200000}\n'.encode("utf-8"), wrong)

    def test_what_a_terminal_would_obey(self):
        self.cell(
            f"\x1b[2J\x07,1,1,5,5\n{SCALAR}", ("A1", 1, 1, f"'\u241b[2J\u2407' is no code {CODES}, and a heading has all of: {HEADING}")
        )
        self.cell(f"{'x' * 100},1,1,5,5\n{SCALAR}", ("A1", 1, 1, f"'{'x' * 39}…' is no code {CODES}, and a heading has all of: {HEADING}"))

    def test_by_the_call(self):
        """Each refusal of the sheet call that figures can have, at the cell that is to be mended."""
        self.cell(f"RSK,33,1,5,5\n{SCALAR}", ("B1", 1, 2, "RSK has no block 33; its blocks are 1 to 32"))
        self.cell(f"CRD,16,1,5,0\n{SCALAR}", ("B1", 1, 2, "CRD has no block 16; its blocks are 0, 17 to 32"))
        self.cell(f"VOL,1,9,5,5\n{SCALAR}", ("C1", 1, 3, "VOL has no class 9 in block 1; its classes there are 1 to 8"))
        self.cell(f"GEN,0,5,1,1\n{SCALAR}", ("E1", 1, 5, "there is no second amount in such a row: leave it empty, or type 0"))
        self.cell(f"RSK,1,1,5,5.01\n{SCALAR}", ("E1", 1, 5, "the level and trend part is above the gross component"))
        for scalar in ("2.0001", "0", "10000", "105"):
            self.cell(f"GEN,0,4,{scalar},0", ("D1", 1, 4, "the scalar is from 0.0001 to 2: it is no percentage, and not in ten-thousandths"))
        credit = "the credit of survival and death products, $11.63, is above level and trend of the block's mortality, ${}"
        self.cell(f"MOR,2,1,9,9\nRSK,1,1,9,1\nMOR,1,1,9,9\nMOR,3,1,9,0\n{SCALAR}", ("D1", 1, 4, credit.format("0.00")), ("D3", 3, 4, credit.format("1.00")))
        without = "the block of this dividend credit has no RSK or OTH row: type them, or take this row out, also where it has 0"
        self.cell(
            f"RSK,17,1,5,5\nCRD,17,1,5.01\nCRD,18,1,0\nRSK,19,1,5,5\nCRD,19,1,5\n{SCALAR}",
            ("D2", 2, 4, "the dividend credit, $5.01, is above K of the block, $5.00"),
            ("D3", 3, 4, without),
        )
        above = "the credits that belong to no block, together $6.00, are above what is left for them, $5.00"
        self.cell(f"RSK,1,1,5,5\nCRD,0,1,3\nCRD,0,2,0\nGEN,0,5,3\n{SCALAR}", ("D2", 2, 4, above), ("D4", 4, 4, above))
        largest = "999999999999.99"
        self.cell(
            f"RSK,1,1,{largest},{largest}\nMOR,1,1,{largest},{largest}\n{SCALAR}",
            ("D2", 2, 4, credit.replace("$11.63", "above $999,999,999,999.99").format("999,999,999,999.99")),
        )
        for text in ("RSK,1,1,5,5\n", "", "\n", "Code,Block,Class,First amount,Second amount\n"):
            self.refused("figures.csv", text.encode("utf-8"), "the scalar is missing: a row of GEN, block 0, class 4")

    def test_in_french(self):
        self.cell(f'RSK;1;1;1,000;5\n{SCALAR.replace(",", ";")}', ("D1", 1, 4, "«\u00a01,000\u00a0»\u00a0: ce peut être 1000 ou 1,000\u00a0: tapez-le sans signe entre les milliers, ou avec deux décimales"), language="fr")
        self.cell(f"RSK,1,1,5,5.01\n{SCALAR}", ("E1", 1, 5, "les composantes niveau et tendance dépassent la composante brute"), language="fr")
        self.cell(f"CRD,16,1,5,0\n{SCALAR}", ("B1", 1, 2, "CRD n'a pas de bloc 16; ses blocs sont 0, 17 à 32"), language="fr")
        self.refused("figures.csv", b"", "il manque le facteur scalaire\u00a0: une ligne de GEN, bloc 0, classe 4", language="fr")

    def test_all_faults_are_told(self):
        rows = "".join(f"RSK,1,1,{'x' if row % 2 else 5},{9 if row == 1 else 6}\n" for row in range(1, 31))
        Path("figures.csv").write_text(rows + SCALAR, encoding="utf-8")
        _status, said, _wrong = run("import", "figures.csv", "-o", "out.sheet")
        told = said.splitlines()
        self.assertEqual(told[0], "figures.csv is refused, and nothing is written.")
        self.assertEqual([line.split()[1] for line in told[1:-1]], [f"{'D' if row % 2 else 'E' if row == 2 else 'A'}{row}" for row in range(1, 21)])
        self.assertEqual(told[-1], "and 10 more cells.")

    def test_json(self):
        Path("figures.csv").write_text(f"RSK,1,1,5,6\nrks,1,1,1,1\n{SCALAR}", encoding="utf-8")
        status, said, _wrong = run("import", "figures.csv", "-o", "out.sheet", "--json")
        found = json.loads(said)
        self.assertEqual((status, found["written"]), (1, None))
        self.assertEqual([(fault["cell"], fault["row"], fault["column"], fault["refusal"]) for fault in found["faults"]], [("E1", 1, 5, 9), ("A2", 2, 1, None)])
        Path("figures.csv").write_text(SCALAR, encoding="utf-8")
        status, said, _wrong = run("import", "figures.csv", "-o", "out.sheet", "--json")
        self.assertEqual((status, json.loads(said)), (0, {"written": "out.sheet", "lines": 1, "rows_left_out": 0, "faults": []}))


class Files(InFolder):
    def test_no_text(self):
        said = "it is no text: save it as CSV (UTF-8), or as a workbook (.xlsx)"
        for content in (b"GEN,0,4,1,0\0", b"\x81\x8d", b"\xff\xfeG", b"\x7fELF\0\0"):
            with self.subTest(content=content):
                self.refused("figures.csv", content, said)

    def test_a_large_file_is_refused_early(self):
        """100 MB of rows, and rows without end: no more is read than the figures of a sheet may have, whatever they say."""
        said = "it is far longer than the figures of a sheet"
        with open("large.csv", "wb") as file:
            file.write(PLAIN.encode("utf-8"))
            file.truncate(100_000_000)
        command = [*COMMAND, "import", "--lang", "en", "-o", "out.sheet"]
        limited = "ulimit -v 400000 && ulimit -t 20 && exec \"$@\""
        found = subprocess.run(["sh", "-c", limited, "sh", *command, "large.csv"], stdout=subprocess.PIPE, check=False)
        self.assertEqual((found.returncode, found.stdout.decode().splitlines()[1:]), (1, [said]))
        endless = "ulimit -v 400000 && ulimit -t 20 && yes RSK,1,1,5,5 | \"$@\""
        found = subprocess.run(["sh", "-c", endless, "sh", *command, "-"], stdout=subprocess.PIPE, check=False)
        self.assertEqual((found.returncode, found.stdout.decode().splitlines()[1:]), (1, [said]))
        self.assertEqual(Path("out.sheet").read_bytes(), self.BEFORE)

    def test_the_longest_file(self):
        longest = PLAIN.encode("utf-8").ljust(csvfile.LONGEST, b"\n")
        self.assertEqual(self.sheet("figures.csv", longest), SHEET)
        self.refused("figures.csv", longest + b"\n", "it is far longer than the figures of a sheet")

    def test_many_faults_are_soon_told(self):
        rows = [f"{code},{block},{klass},1,1" for code in ("RSK", "OTH", "MOR", "VOL", "ACQ", "GEN", "CRD") for block in range(100) for klass in range(100)]
        Path("figures.csv").write_text("\n".join(rows), encoding="utf-8")
        began = time.process_time()
        self.assertEqual(run("import", "figures.csv", "-o", "out.sheet")[0], 1)
        self.assertLess(time.process_time() - began, 30)

    def test_what_cannot_be_read_or_written(self):
        Path("figures.csv").write_text(PLAIN, encoding="utf-8")
        os.mkdir("folder")
        os.mkfifo("pipe")
        for read_from, written_to, said in (
            ("none.csv", "out.sheet", "none.csv can't be read: there is no such file or folder"),
            ("folder", "out.sheet", "folder can't be read: it is a folder"),
            ("figures.csv", "none/out.sheet", "none/out.sheet can't be written: there is no such file or folder"),
            ("figures.csv", "folder", "folder can't be written: it is a folder"),
            ("figures.csv", "pipe", "pipe can't be written: it is no file, but a device or a pipe"),
            ("figures.csv", "-", "give the name of a file to write: - is none"),
            ("figures.csv", "figures.csv", "figures.csv is what is read: give another name to write"),
            ("figures.csv", "./figures.csv", "./figures.csv is what is read: give another name to write"),
        ):
            with self.subTest(said=said):
                self.assertEqual(run("import", read_from, "-o", written_to), (2, "", f"tsav: {said}\n"))
        self.assertEqual(sorted(path.name for path in self.folder.iterdir()), ["figures.csv", "folder", "out.sheet", "pipe"])
        self.assertEqual(Path("figures.csv").read_text(encoding="utf-8"), PLAIN)

    def test_what_is_no_sheet_is_not_replaced(self):
        Path("figures.csv").write_text(PLAIN, encoding="utf-8")
        other = {
            "text.csv": PLAIN.encode("utf-8"),
            "filled in.xlsx": b"PK\x03\x04" + bytes(76),
            "short.sheet": self.BEFORE[:-1],
            "long.sheet": self.BEFORE * 630,
            "lines.txt": self.BEFORE + b"x" * 40 + self.BEFORE,
        }
        for name, content in other.items():
            Path(name).write_bytes(content)
            for language, said in (
                ("en", f"{name} is there already, and is no sheet: give another name"),
                ("fr", f"{name} existe déjà, et n'est pas une feuille\u00a0: donnez un autre nom"),
            ):
                with self.subTest(name=name, language=language):
                    self.assertEqual(run("import", "figures.csv", "-o", name, "--lang", language), (2, "", f"tsav: {said}\n"))
                    self.assertEqual(Path(name).read_bytes(), content)
        # An empty file, and a sheet that the call refuses, stand for a sheet.
        for content in (b"", self.BEFORE * 629, b"rsk  1  1              1              1\n"):
            Path("out.sheet").write_bytes(content)
            self.assertEqual(run("import", "figures.csv", "-o", "out.sheet")[0], 0)
            self.assertEqual(Path("out.sheet").read_bytes(), SHEET)

    def test_export_replaces_when_it_is_told_to(self):
        for name in ("figures.csv", "figures.xlsx"):
            Path(name).write_bytes(b"filled in")
            for language, said in (
                ("en", f"{name} is there already: give another name, or --replace"),
                ("fr", f"{name} existe déjà\u00a0: donnez un autre nom, ou --replace"),
            ):
                with self.subTest(name=name, language=language):
                    self.assertEqual(run("export", EXAMPLE, "-o", name, "--lang", language), (2, "", f"tsav: {said}\n"))
                    self.assertEqual(Path(name).read_bytes(), b"filled in")
        self.assertEqual(run("export", EXAMPLE, "--replace", "-o", "figures.csv"), (0, f"figures.csv: {len(EXAMPLE.read_bytes()) // 40} rows.\n", ""))
        self.assertEqual(self.sheet("figures.csv", Path("figures.csv").read_bytes()), EXAMPLE.read_bytes())
        self.assertEqual(run("export", EXAMPLE, "--replace", "-o", "new.csv")[0], 0)

    def test_usage(self):
        for arguments in (("import",), ("import", "--lang", "de", "x", "-o", "y"), ("import", "figures.csv"), ("import", "-o", "out.sheet"), ("import", "a", "b", "-o", "out.sheet"), ("export", "x")):
            with self.subTest(arguments=arguments):
                self.assertEqual(run(*arguments)[0], 2)

    def test_what_stood_there_is_replaced_in_one_step(self):
        """Its rights stay, a link still leads to it, and a reader of the old one has all of it."""
        Path("figures.csv").write_text(PLAIN, encoding="utf-8")
        os.chmod("out.sheet", 0o640)
        os.symlink("out.sheet", "link.sheet")
        with open("out.sheet", "rb") as old:
            self.assertEqual(run("import", "figures.csv", "-o", "link.sheet")[0], 0)
            self.assertEqual(old.read(), self.BEFORE)
        self.assertTrue(os.path.islink("link.sheet"))
        self.assertEqual((Path("out.sheet").read_bytes(), os.stat("out.sheet").st_mode & 0o777), (SHEET, 0o640))
        self.assertEqual(sorted(path.name for path in self.folder.iterdir()), ["figures.csv", "link.sheet", "out.sheet"])

    def test_a_full_disk(self):
        """Nothing is left of what could be written."""
        Path("figures.csv").write_text(PLAIN, encoding="utf-8")
        command = [*COMMAND, "import", "--lang", "en", "-o", "out.sheet", "figures.csv"]
        limited = "trap '' XFSZ; ulimit -f 0; exec \"$@\""
        found = subprocess.run(["sh", "-c", limited, "sh", *command], stdout=subprocess.PIPE, stderr=subprocess.PIPE, check=False)
        self.assertEqual((found.returncode, found.stderr[:32]), (2, b"tsav: out.sheet can't be written"))
        self.assertEqual(sorted(path.name for path in self.folder.iterdir()), ["figures.csv", "out.sheet"])
        self.assertEqual(Path("out.sheet").read_bytes(), self.BEFORE)

    def test_every_line_that_is_written_is_accepted(self):
        self.assertTrue(tsav.sheet(self.sheet("figures.csv", PLAIN.encode("utf-8"))))


if __name__ == "__main__":
    unittest.main()
