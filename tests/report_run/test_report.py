"""What `tsav report` writes: the page's figures read back, the files' shape, what is refused, and the same bytes each time."""

import csv
import hashlib
import html.parser
import io
import itertools
import json
import os
import re
import time
import unittest
from fractions import Fraction
from pathlib import Path
from unittest import mock

import tsav
from command import InFolder, run, run_process
from of_reports import CLOSED, EXAMPLE, FULL, SHEETS, TOP
from running import INSTALLED
from tsav.command import compared

try:
    import jinja2
except ImportError:
    jinja2 = None
try:
    import weasyprint
except (ImportError, OSError):
    weasyprint = None

needs_jinja = unittest.skipUnless(jinja2, "Jinja2 is not installed")


class Read(html.parser.HTMLParser):
    """A page's texts by the keys of their figures, the cells of its tables' rows, its tags, and the identities that are given and referred to."""

    def __init__(self, page: str):
        super().__init__()
        self.figures: dict = {}
        self.tags: list = []
        self.named: set = set()
        self.referred: set = set()
        self.rows: list = []
        self.in_cell = False
        self.key = None
        self.text: list = []
        self.feed(page)
        self.close()

    def handle_starttag(self, tag, attributes):
        found = dict(attributes)
        self.tags.append((tag, found))
        self.named.update({found["id"]} if "id" in found else set())
        self.referred.update(found.get("aria-labelledby", "").split())
        self.key = found.get("data-figure")
        if tag == "tr":
            self.rows.append([])
        if tag in ("th", "td"):
            self.rows[-1].append("")
        self.in_cell = tag in ("th", "td") or tag == "span" and self.in_cell

    def handle_endtag(self, tag):
        self.in_cell = self.in_cell and tag == "span"

    def handle_data(self, data):
        self.text.append(data)
        if self.in_cell:
            self.rows[-1][-1] += data
        if self.key:
            self.figures.setdefault(self.key, []).append(data)
            self.key = None


# Of each unit, how many there are in what is shown: dollars, dollars squared, the number itself.
SHOWN = {"cents": 100, "square cents": 10_000, "1": 1}
# What is shown taken off, below zero.
TAKEN_OFF = re.compile(r"(dividend|product)\.[0-9]+|total\.group|block\.[0-9]+\.mor\.credit")


# Sums that are shown in their parts, and what the scalar adds, which the picture has.
APART = re.compile(r"total\.(dividends|products|by_scalar)|.*\.both")


def number(text: str, language: str = "en") -> Fraction:
    """As the page has it: thousands apart, the language's decimal sign, a minus that is no hyphen, a sign of dollars or none."""
    thousands, point, shape = {
        "en": (",", ".", r"\u2212?\$?[0-9]{1,3}(,[0-9]{3})*(\.[0-9]+)?"),
        "fr": ("\u00a0", ",", r"\u2212?[0-9]{1,3}(\u00a0[0-9]{3})*(,[0-9]+)?(\u00a0\$)?"),
    }[language]
    assert re.fullmatch(shape, text), text
    return Fraction(text.replace(thousands, "").replace(point, ".").replace("\u2212", "-").replace("$", "").strip())


def amount(text: str, language: str = "en") -> Fraction:
    """Of dollars, in cents."""
    return number(text, language) * 100


def as_shown(figure: dict) -> set:
    """What the page may have of a figure of the JSON."""
    wanted = Fraction(figure["amount"]) / SHOWN[figure["unit"]]
    return {wanted, -wanted} if TAKEN_OFF.fullmatch(figure["key"]) else {wanted}


def page(*arguments, language: str = "en") -> str:
    status, said, wrong = run("report", *arguments, "-o", "page.html", "--lang", language)
    assert (status, wrong) == (0, ""), said + wrong
    return Path("page.html").read_text(encoding="utf-8")


class Reports(InFolder):
    def setUp(self):
        super().setUp()
        for name, sheet in SHEETS.items():
            Path(f"{name}.sheet").write_bytes(sheet)

    def figures(self, name: str) -> dict:
        status, said, wrong = run("report", f"{name}.sheet", "--json")
        self.assertEqual((status, wrong), (0, ""))
        return json.loads(said)

    @needs_jinja
    def test_the_pages_figures(self):
        """Every figure of the chain stands on the page, in both languages, as the calls give it."""
        for name in SHEETS:
            value = self.figures(name)
            chain = {figure["key"]: figure for figure in value["figures"]}
            self.assertEqual(value["buffer"], compared.figures(tsav.sheet(SHEETS[name]))["TOT", 0, 3])
            for language in ("en", "fr"):
                found = Read(page(f"{name}.sheet", language=language)).figures
                self.assertEqual(set(chain) - set(found), {key for key in chain if APART.fullmatch(key)})
                for key, texts in found.items():
                    with self.subTest(sheet=name, key=key, language=language):
                        self.assertLessEqual({number(text, language) for text in texts}, as_shown(chain[key]))

    @needs_jinja
    def test_report_lines_on_the_page(self):
        """The figures are read again beside the calls themselves."""
        found = Read(page("full.sheet")).figures
        report = compared.figures(tsav.sheet(FULL))
        for block in range(1, 33):
            for item, ending in enumerate(("i", "d", "u", "lt", "k"), 1):
                wanted = Fraction(report["BLK", block, item], 2 if item < 3 else 1)
                self.assertEqual({amount(text) for text in found[f"block.{block}.{ending}"]}, {wanted})
        for item, key in enumerate(("total.k", "operational.ro", "total.buffer"), 1):
            self.assertEqual({amount(text) for text in found[key]}, {report["TOT", 0, item]})

    @needs_jinja
    def test_what_a_page_carries(self):
        text = " ".join(" ".join(Read(page("full.sheet", "--title", "Mutuelle X, 2026-T3")).text).split())
        n, g = 32, Fraction(10_500, 10_000)
        cents = g * (Fraction(101, 100) * n + 1) + 1
        self.assertEqual(cents, Fraction("35.986"))
        toolchain = (TOP / "rattle-toolchain").read_text(encoding="utf-8").strip()
        if os.environ.get("TSAV_LIBRARY"):
            toolchain = "not known of the library that TSAV_LIBRARY names"
        for words in ("Mutuelle X, 2026-T3", hashlib.sha256(FULL).hexdigest(), f"tsav {tsav.__version__}", toolchain):
            self.assertIn(words, text)
        self.assertIn("less than γ × (1.01 × n + 1) + 1 cents above it. Here n, the number of blocks, is 32; γ, the scalar, is 1.05; and that is less than 35.986 cents.", text)
        french = " ".join(" ".join(Read(page("full.sheet", language="fr")).text).split())
        self.assertIn("le dépasse de moins de γ × (1,01 × n + 1) + 1 cents. Ici n, le nombre de blocs, est 32; γ, le facteur scalaire, est 1,05; c'est moins de 35,986 cents.", french)
        self.assertEqual(re.findall(r"[0-9]\.[0-9]+ ×", french), [])
        raw = Read(page("full.sheet")).text
        self.assertIn(tsav.sheet(FULL).decode("ascii"), raw)

    @needs_jinja
    def test_needs(self):
        sheet = (TOP / "examples" / "unmet.sheet").read_bytes()
        Path("unmet.sheet").write_bytes(sheet)
        text = " ".join(Read(page("unmet.sheet")).text)
        self.assertIn("VOL 1 5 (segregated funds with guarantees, account values, territory 1) needs GEN 0 2", text)
        self.assertIn("CRD 17 1 (dividend credit, participating block 17) needs RSK 17 0 (any insurance risk of the block)", text)
        self.assertEqual(len(self.figures("unmet")["needs"]), 4)

    @needs_jinja
    def test_warnings(self):
        """Those of tsav warn but for the needs."""
        Path("warned.sheet").write_bytes(EXAMPLE.replace(b"          10000  ", b"              1  "))
        told = json.loads(run("warn", "warned.sheet", "--before", "example.sheet", "--json")[1])["warnings"]
        self.assertGreater(len(told), 1)
        self.assertEqual(json.loads(run("report", "warned.sheet", "--before", "example.sheet", "--json")[1])["warnings"], told)
        text = " ".join(Read(page("warned.sheet", "--before", "example.sheet")).text)
        for warning in told:
            self.assertIn(f"Section {warning['section']}: {warning['title']}. {warning['reason']}", text)

    @needs_jinja
    def test_lines_of_warnings(self):
        """Each line and each amount that tsav warn tells, as it tells them, in both languages."""
        Path("warned.sheet").write_bytes(EXAMPLE.replace(b"          10000  ", b"              1  "))
        for sheet, language in itertools.product(("warned.sheet", "full.sheet", "scalar.sheet"), ("en", "fr")):
            with self.subTest(sheet=sheet, language=language):
                told = json.loads(run("warn", sheet, "--before", "example.sheet", "--json", "--lang", language)[1])["warnings"]
                lines = run("warn", sheet, "--before", "example.sheet", "--lang", language)[1].split("\n")
                wanted = [line for line in lines if re.match(r" +[A-Z]{3} [ 0-9]{2} [ 0-9]{2} ", line)]
                self.assertEqual(len(wanted), sum(len(warning["lines"]) for warning in told))
                self.assertGreater(len(wanted), 1)
                wanted += [line for line in lines for warning in told for one in warning["amounts"] if line.startswith(f"   {one['name']} ")]
                rows = Read(page(sheet, "--before", "example.sheet", language=language)).rows
                self.assertEqual({" ".join(line.split()) for line in wanted} - {" ".join(" ".join(row).split()) for row in rows}, set())

    @needs_jinja
    def test_shares_that_are_refused(self):
        """A block of zeros has no shares: the refusal's sentence stands in the picture's place."""
        Path("zeros.sheet").write_bytes(b"RSK  1  1              0              0\nGEN  0  4          10000              0\n")
        written = page("zeros.sheet")
        self.assertIn("Refusal 23: ", written)
        self.assertNotIn("shares-1-title", written)
        self.assertIn("shares-1-title", page("example.sheet"))
        self.assertEqual(self.figures("zeros")["without_shares"], [{"block": 1, "refusal": 23}])

    @needs_jinja
    def test_markup_is_escaped(self):
        title = "</title><script>alert(1)</script><b>&\"'"
        read = Read(page("example.sheet", "--title", title))
        self.assertEqual(read.text.count(title), 2)
        self.assertEqual({tag for tag, _found in read.tags} & {"script", "b", "link", "img", "iframe", "object"}, set())
        self.assertEqual([found for _tag, found in read.tags if any(name.startswith("on") or name in ("src", "action") for name in found)], [])

    @needs_jinja
    def test_titles_that_are_no_text(self):
        read = Read(page("example.sheet", "--title", "T3\u00a0: a\udcff\x01\u202eb"))
        self.assertEqual(read.text.count("T3\u00a0: a\ufffd\ufffd\ufffdb"), 2)

    @needs_jinja
    def test_pictures_are_told(self):
        read = Read(page("full.sheet", "--before", "example.sheet"))
        pictures = [found for tag, found in read.tags if tag == "svg"]
        self.assertEqual(len(pictures), 34)
        self.assertTrue(all(found["role"] == "img" and found["aria-labelledby"] for found in pictures))
        self.assertLessEqual(read.referred, read.named)
        self.assertEqual(len([tag for tag, _found in read.tags if tag == "desc"]), 34)

    @needs_jinja
    def test_the_same_bytes(self):
        written = []
        for seed in ("1", "2"):
            with mock.patch.dict(os.environ, {"PYTHONHASHSEED": seed, "TZ": f"X{seed}"}):
                ran = run_process("report", "full.sheet", "-o", f"{seed}.html", "--csv", f"{seed}.csv", "--before", "example.sheet", "--json", "--lang", "en")
            self.assertEqual((ran[0], ran[2]), (0, ""))
            written.append((Path(f"{seed}.html").read_bytes(), Path(f"{seed}.csv").read_bytes(), ran[1]))
            time.sleep(1.1)
        self.assertEqual(written[0], written[1])

    @needs_jinja
    def test_changes(self):
        """Every link, now and before, totals the buffers and their change."""
        read = Read(page("full.sheet", "--before", "example.sheet")).figures
        total = {}
        for ending in ("before", "now", ""):
            keys = [key for key in read if key.startswith("change.") and re.search(r"\.(before|now)$", key) is None] if not ending else [
                key for key in read if key.startswith("change.") and key.endswith("." + ending)
            ]
            amounts = [amount(read[key][0]) for key in keys if not key.startswith("change.total.buffer")]
            total[ending] = sum(amounts)
            self.assertEqual(total[ending], amount(read["change.total.buffer" + (f".{ending}" if ending else "")][0]))
        buffers = [compared.figures(tsav.sheet(sheet))["TOT", 0, 3] for sheet in (EXAMPLE, FULL)]
        self.assertEqual([total["before"], total["now"], total[""]], [*buffers, buffers[1] - buffers[0]])

    def test_json_shape(self):
        value = self.figures("example")
        names = "format title sheet versions buffer figures without_shares needs warnings before changes report"
        self.assertEqual(list(value), names.split())
        self.assertEqual(value["sheet"], {"sha256": hashlib.sha256(EXAMPLE).hexdigest(), "lines": 13})
        self.assertEqual("\n".join(value["report"]) + "\n", tsav.sheet(EXAMPLE).decode("ascii"))
        lines = {" ".join(line[:9].split()) for line in EXAMPLE.decode("ascii").splitlines()}
        for figure in value["figures"]:
            self.assertEqual(" ".join(figure), "key name symbol section unit amount source place")
            self.assertRegex(figure["amount"], r"^-?[0-9]+(\.[0-9]*[1-9])?$")
            self.assertIn(figure["unit"], SHOWN)
            self.assertIn(figure["source"], ("entry", "absent", "guideline", "call", "step"))
            if figure["source"] in ("entry", "absent"):
                self.assertEqual(figure["place"] in lines, figure["source"] == "entry")
                self.assertTrue(figure["source"] == "entry" or figure["amount"] == "0")

    def test_csv_shape(self):
        """As the CSV of every subcommand: dollars, the language's signs and words; the figures of the JSON."""
        sources = {"entry": "entrée", "absent": "pas de ligne", "guideline": "ligne directrice", "call": "appel", "step": "étape"}
        for language, delimiter, point, heading in (
            ("en", ",", ".", "Key,Figure,Section,Symbol,Amount,Unit,From,Place"),
            ("fr", ";", ",", "Clé;Chiffre;Section;Symbole;Montant;Unité;Source;Lieu"),
        ):
            status, _said, _wrong = run("report", "example.sheet", "--csv", "figures.csv", "--lang", language)
            self.assertEqual(status, 0)
            text = Path("figures.csv").read_text(encoding="utf-8")
            self.assertEqual(text.splitlines()[0], heading)
            self.assertNotRegex(text, "[0-9]\u00a0[0-9]|\u2212[0-9]")
            rows = list(csv.reader(io.StringIO(text), delimiter=delimiter))[1:]
            figures = json.loads(run("report", "example.sheet", "--json", "--lang", language)[1])["figures"]
            self.assertEqual(len(rows), len(figures))
            for row, figure in zip(rows, figures):
                self.assertEqual((row[0], row[1], row[2], row[7]), (figure["key"], figure["name"], figure["section"], figure["place"]))
                self.assertRegex(row[4], rf"^-?[0-9]+\{point}[0-9]{{2,}}$" if figure["unit"] != "1" else rf"^-?[0-9]+(\{point}[0-9]+)?$")
                self.assertEqual(Fraction(row[4].replace(point, ".")) * SHOWN[figure["unit"]], Fraction(figure["amount"]))
                self.assertEqual(row[6], {"absent": "no line"}.get(figure["source"], figure["source"]) if language == "en" else sources[figure["source"]])
            # Its words and signs are those of the other subcommands' CSV.
            block = run("block", "example.sheet", "--block", "1", "--csv", "--lang", language)[1].splitlines()
            self.assertEqual(block[0], delimiter.join(heading.split(delimiter)[1:5]))
            found = {row[0]: delimiter.join(row[1:5]) for row in rows}
            self.assertEqual(block[1:], [found[f"block.1.{name}"] for name in ("i", "d", "u", "lt", "k")])

    def test_refused(self):
        """As explain tells it, and what stood there stays."""
        Path("bad.sheet").write_bytes(EXAMPLE.replace(b"GEN  0  4", b"GEN  0  9"))
        Path("page.html").write_bytes(b"before")
        told = run("explain", "bad.sheet")
        self.assertEqual(told[0], 1)
        for arguments in (("bad.sheet",), ("example.sheet", "--before", "bad.sheet")):
            self.assertEqual(run("report", *arguments, "-o", "page.html", "--csv", "figures.csv"), told)
        self.assertEqual(Path("page.html").read_bytes(), b"before")
        self.assertFalse(Path("figures.csv").exists())

    @unittest.skipIf(INSTALLED, "a call is replaced")
    def test_nothing_is_written_where_a_step_differs(self):
        operational = tsav.operational
        Path("page.html").write_bytes(b"before")
        with mock.patch.object(tsav, "operational", lambda *numbers: operational(*numbers) + 1):
            status, said, wrong = run("report", "example.sheet", "-o", "page.html")
        self.assertEqual((status, said), (2, ""))
        self.assertIn("operational.ro", wrong)
        self.assertEqual(Path("page.html").read_bytes(), b"before")

    def test_usage(self):
        for arguments in (
            ("example.sheet",),
            ("example.sheet", "full.sheet", "--json"),
            ("example.sheet", "-o", "page.txt"),
            ("example.sheet", "--csv", "example.sheet"),
            ("-", "--before", "-", "--json"),
            ("--quarter", "example.sheet", "--csv", "a.csv"),
            ("none.sheet", "-o", "page.html"),
        ):
            with self.subTest(arguments):
                status, said, wrong = run("report", *arguments)
                self.assertEqual((status, said), (2, ""))
                self.assertTrue(wrong.startswith("tsav: "), wrong)
        self.assertEqual(Path("example.sheet").read_bytes(), EXAMPLE)

    @needs_jinja
    def test_a_full_sheet_in_two_seconds(self):
        """Of processor time, which others who work on the machine don't lengthen; Python's start is in it."""
        before = os.times()
        status, _said, wrong = run_process("report", "full.sheet", "-o", "page.html")
        self.assertEqual((status, wrong), (0, ""))
        after = os.times()
        self.assertLess(after.children_user + after.children_system - before.children_user - before.children_system, 2)

    @needs_jinja
    def test_quarter(self):
        quarter = TOP / "examples" / "example.quarter"
        status, said, wrong = run("report", "--quarter", quarter, "-o", "page.html", "--json")
        self.assertEqual((status, wrong), (0, ""))
        value = json.loads(said)
        self.assertEqual([sheet["buffer"] for sheet in value["sheets"]], [163265783, None, 155102494])
        self.assertEqual((value["sheets"][1]["refusal"], value["sheets"][1]["line"]), (9, 2))
        read = Read(Path("page.html").read_text(encoding="utf-8"))
        self.assertEqual(amount(read.figures["sheet.3"][0]), 155102494)
        self.assertEqual(amount(read.figures["summary.6"][0]), 318368277)
        self.assertIn(value["sheets"][1]["words"], read.text)
        self.assertIn("level and trend", value["sheets"][1]["words"])
        self.assertIn(tsav.quarter(quarter.read_bytes()).decode("ascii"), read.text)
        status, said, _wrong = run("report", "--quarter", "example.sheet", "scalar.sheet", "--json")
        value = json.loads(said)
        self.assertEqual([(sheet["file"], sheet["buffer"]) for sheet in value["sheets"]], [("example.sheet", 163265783), ("scalar.sheet", 0)])

    def test_quarter_that_is_refused(self):
        Path("open.quarter").write_bytes((TOP / "examples" / "example.quarter").read_bytes() + b"more\n")
        status, said, wrong = run("report", "--quarter", "open.quarter", "-o", "page.html")
        self.assertEqual((status, wrong), (1, ""))
        self.assertIn("refusal 25", said)
        self.assertFalse(Path("page.html").exists())

    def test_quarters_that_are_not_closed(self):
        """A single file that was meant to be a quarter is refused as explain tells it, and what stood there stays."""
        quarter = (TOP / "examples" / "example.quarter").read_bytes()
        for given in (
            CLOSED[:-1],
            CLOSED[:-1] + b" \n",
            CLOSED[:-1] + b"\r\n",
            CLOSED[:-2] + b"\n",
            CLOSED.replace(b"\n", b"\r"),
            quarter[:-1],
            quarter.replace(b"\n", b"\r\n"),
            quarter.decode("ascii").encode("utf-16"),
            CLOSED * 61,
        ):
            with self.subTest(given[-60:]):
                Path("open.quarter").write_bytes(given)
                Path("page.html").write_bytes(b"before")
                told = run("explain", "--quarter", "open.quarter")
                self.assertEqual(told[0], 1)
                self.assertEqual(run("report", "--quarter", "open.quarter", "-o", "page.html"), told)
                self.assertEqual(Path("page.html").read_bytes(), b"before")
        told = run("explain", "--quarter", "-", given=EXAMPLE)
        self.assertEqual(run("report", "--quarter", "-", "--json", given=EXAMPLE)[0], told[0])

    def test_files_of_a_quarter(self):
        """As tsav-quarter takes them: one that isn't one sheet, or would hide its closing line, is refused by its name."""
        Path("closed.sheet").write_bytes(CLOSED)
        Path("open.sheet").write_bytes(EXAMPLE[:-1])
        Path("hidden.sheet").write_bytes(CLOSED[:-1])
        for files in (
            ("closed.sheet", "example.sheet"),
            ("example.sheet", "closed.sheet"),
            ("hidden.sheet", "example.sheet"),
            ("example.sheet", "open.sheet"),
            ("open.sheet",),
        ):
            with self.subTest(files):
                status, said, wrong = run("report", "--quarter", *files, "-o", "page.html")
                self.assertEqual((status, said), (2, ""))
                (bad,) = [name for name in files if name != "example.sheet"]
                self.assertTrue(wrong.startswith(f"tsav: {bad} "), wrong)
                self.assertFalse(Path("page.html").exists())

    def test_a_workbook_among_the_files_of_a_quarter(self):
        Path("figures.xlsx").write_bytes(b"PK\x03\x04" + bytes(200))
        for language, said in (("en", "figures.xlsx doesn't end in a line feed. It is a workbook."), ("fr", "C'est un classeur.")):
            status, _said, wrong = run("report", "--quarter", "example.sheet", "figures.xlsx", "-o", "page.html", "--lang", language)
            self.assertEqual((status, Path("page.html").exists()), (2, False))
            self.assertIn(said, wrong)
            self.assertIn("tsav import figures.xlsx -o my.sheet", wrong)

    def test_more_files_than_a_quarter_has(self):
        """All of them are refused together, and none is named as if it were the fault's."""
        names = [f"{number}.sheet" for number in range(61)]
        for name in names:
            Path(name).write_bytes(EXAMPLE)
        for language, said in (
            ("en", "61 files are refused as a quarter by 24, and nothing is written: it has at most 60 sheets."),
            ("fr", "61 fichiers sont refusés comme trimestre par 24, et rien n'est écrit\u00a0: un trimestre a au plus 60 feuilles."),
        ):
            status, told, wrong = run("report", "--quarter", *names, "-o", "page.html", "--lang", language)
            self.assertEqual((status, wrong), (1, ""))
            self.assertTrue(told.startswith(said), told)
            self.assertNotIn(".sheet", told)
        value = json.loads(run("report", "--quarter", *names, "--json")[1])
        self.assertEqual((value["format"], value["refusal"], value["files"]), ("tsav quarter report 1", 24, 61))
        self.assertFalse(Path("page.html").exists())
        self.assertEqual(run("report", "--quarter", *names[:60], "--json")[0], 0)

    def test_a_file_given_twice(self):
        """By whatever name: it would count twice."""
        os.link("example.sheet", "link.sheet")
        os.symlink("example.sheet", "other.sheet")
        for twice in ("example.sheet", "./example.sheet", "link.sheet", "other.sheet"):
            for language, said in (("en", f"tsav: {twice} is given twice: "), ("fr", f"tsav: {twice} est donné deux fois\u00a0: ")):
                status, told, wrong = run("report", "--quarter", "example.sheet", "full.sheet", twice, "-o", "page.html", "--lang", language)
                self.assertEqual((status, told, wrong[: len(said)]), (2, "", said))
        self.assertFalse(Path("page.html").exists())

    def test_a_closing_line_with_a_return_among_several_files(self):
        """The sheet is refused, and its words say by which cause."""
        Path("closed.sheet").write_bytes(CLOSED[:-1] + b"\r\n")
        for language, cause, more in (
            ("en", "Cause: carriage return.", "A line of it was meant to close a sheet"),
            ("fr", "Cause\u00a0: retour de chariot.", "Une de ses lignes devait fermer une feuille"),
        ):
            status, said, wrong = run("report", "--quarter", "example.sheet", "closed.sheet", "--json", "--lang", language)
            self.assertEqual((status, wrong), (0, ""))
            sheet = json.loads(said)["sheets"][1]
            self.assertEqual((sheet["refusal"], sheet["line"], sheet["cause"]), (3, 14, "carriage-return"))
            self.assertIn(cause, sheet["words"])
            self.assertIn(more, sheet["words"])

    def test_causes_of_a_quarters_refusals(self):
        """Each refused sheet has the cause that tsav explain tells first."""
        bad = (EXAMPLE.replace(b"\n", b"\r\n"), EXAMPLE[40:80] * 2, b"", EXAMPLE.replace(b"2500000 ", b"25000.00"))
        names = [f"{number}.sheet" for number in range(len(bad))]
        for name, content in zip(names, bad):
            Path(name).write_bytes(content)
        sheets = json.loads(run("report", "--quarter", *names, "--json")[1])["sheets"]
        for name, sheet in zip(names, sheets):
            fault = json.loads(run("explain", name, "--json")[1])["faults"][0]
            self.assertEqual((sheet["refusal"], sheet["cause"]), (fault["refusal"], fault["cause"]))
            self.assertIn(fault["title"], sheet["words"])

    @needs_jinja
    def test_quarter_of_no_sheet(self):
        """An empty file has none; among others it is one, without a scalar."""
        Path("empty.sheet").write_bytes(b"")
        status, said, wrong = run("report", "--quarter", "empty.sheet", "-o", "page.html")
        self.assertEqual((status, said, wrong), (0, "0 of 0 sheets are accepted\npage.html is written\n", ""))
        read = Read(Path("page.html").read_text(encoding="utf-8")).figures
        self.assertEqual({key: amount(texts[0]) for key, texts in read.items()}, {f"summary.{item}": 0 for item in range(1, 9)})
        value = json.loads(run("report", "--quarter", "empty.sheet", "--json")[1])
        self.assertEqual((value["sheets"], set(value["summary"].values())), ([], {0}))
        value = json.loads(run("report", "--quarter", "example.sheet", "empty.sheet", "--json")[1])
        self.assertEqual([(sheet["file"], sheet["refusal"]) for sheet in value["sheets"]], [("example.sheet", None), ("empty.sheet", 12)])

    @needs_jinja
    @unittest.skipUnless(weasyprint, "WeasyPrint is not installed")
    def test_pdf(self):
        for name in ("1.pdf", "2.pdf"):
            status, _said, wrong = run_process("report", "example.sheet", "--pdf", name, "--lang", "en")
            self.assertEqual(status, 0, wrong)
            time.sleep(1.1)
        self.assertTrue(Path("1.pdf").read_bytes().startswith(b"%PDF-"))
        self.assertEqual(Path("1.pdf").read_bytes(), Path("2.pdf").read_bytes())

    @needs_jinja
    @unittest.skipIf(INSTALLED, "a module is taken away")
    def test_without_weasyprint(self):
        with mock.patch.dict("sys.modules", {"weasyprint": None}):
            status, _said, wrong = run("report", "example.sheet", "--pdf", "page.pdf", "-o", "page.html")
        self.assertEqual(status, 2)
        self.assertIn("WeasyPrint", wrong)
        self.assertFalse(Path("page.html").exists())
