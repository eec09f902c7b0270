"""The page as paper has it, in both languages, printed by WeasyPrint and by a browser, and read back: every figure is there, nothing lies outside the
margins, and each page has its number and the sheet's SHA-256 at its foot."""

import collections
import hashlib
import html
import re
import shutil
import subprocess
import unittest
from pathlib import Path

from command import InFolder, run
from of_reports import EXAMPLE, FULL, SHEETS
from test_browser import BROWSER
from test_report import Read, needs_jinja, page, weasyprint

READER = shutil.which("pdftotext")

# In points: 8.5 by 11 inches, and the margins beside what is printed.
WIDTH, HEIGHT, MARGIN = 612, 792, 43
FEET = {"en": r"page ([0-9]+) of ([0-9]+)", "fr": r"page ([0-9]+) sur ([0-9]+)"}


def read(pdf: str, *how: str) -> str:
    return subprocess.run([READER, *how, pdf, "-"], capture_output=True, timeout=120, check=True).stdout.decode("utf-8")


def figures(text: str, language: str) -> collections.Counter:
    """All amounts in dollars of a text, however its spaces are."""
    text = re.sub("[\u00a0\u202f]", " ", text)
    shape = r"\$[0-9]{1,3}(?:,[0-9]{3})*\.[0-9]+" if language == "en" else r"[0-9]{1,3}(?: [0-9]{3})*,[0-9]+ \$"
    return collections.Counter(re.findall(shape, text))


def boxes(pdf: str) -> list:
    """The words of each page, with where they begin and end across and how far down they reach."""
    words = r'<word xMin="([-0-9.]+)" yMin="[-0-9.]+" xMax="([-0-9.]+)" yMax="([-0-9.]+)">(.*?)</word>'
    return [
        [(float(left), float(right), float(down), html.unescape(text)) for left, right, down, text in re.findall(words, found)]
        for found in read(pdf, "-bbox").split("<page ")[1:]
    ]


@unittest.skipUnless(READER, "pdftotext is not installed")
class Printed(InFolder):
    def setUp(self):
        super().setUp()
        for name, sheet in SHEETS.items():
            Path(f"{name}.sheet").write_bytes(sheet)

    def printed(self, pdf: str, written: str, sheet: bytes, language: str) -> list:
        """What a printed page is to have of the page that it was printed from; its pages' texts."""
        pages = read(pdf, "-layout").split("\f")[:-1]
        wanted = collections.Counter(html.unescape(text) for text in re.findall("<span data-figure=[^>]*>([^<]*)</span>", written))
        wanted = figures("\n".join(wanted.elements()), language)
        self.assertGreater(sum(wanted.values()), 10)
        self.assertEqual(wanted - figures("\n".join(pages), language), collections.Counter())
        sha = hashlib.sha256(sheet).hexdigest()
        for number, text in enumerate(pages, 1):
            self.assertEqual([(str(number), str(len(pages)))], re.findall(FEET[language], text), text[-300:])
            self.assertIn(sha, text)
        for words in boxes(pdf):
            self.assertEqual([word for word in words if word[0] < MARGIN - 1 or word[1] > WIDTH - MARGIN + 1 or word[2] > HEIGHT], [])
        return pages

    @needs_jinja
    @unittest.skipUnless(weasyprint, "WeasyPrint is not installed")
    def test_weasyprint(self):
        """Of a full sheet two blocks, with amounts as long as they may be: all of it takes minutes."""
        wide = b"".join(line for line in FULL.splitlines(keepends=True) if int(line[4:6]) in (0, 1, 17))
        Path("wide.sheet").write_bytes(wide)
        sheets = {**SHEETS, "wide": wide}
        for name, language in (("example", "en"), ("example", "fr"), ("scalar", "fr"), ("wide", "en")):
            with self.subTest(name, language=language):
                status, said, wrong = run("report", f"{name}.sheet", "-o", "page.html", "--pdf", "page.pdf", "--lang", language, "--title", "Mutuelle \u00c9t\u00e9, \"T3\"")
                self.assertEqual((status, wrong), (0, ""), said)
                pages = self.printed("page.pdf", Path("page.html").read_text(encoding="utf-8"), sheets[name], language)
                self.assertIn("Mutuelle \u00c9t\u00e9, \"T3\"", pages[-1])

    @needs_jinja
    @unittest.skipUnless(BROWSER, "chromium is not installed")
    def test_browser(self):
        for name, language in (("example", "en"), ("example", "fr"), ("full", "fr")):
            with self.subTest(name, language=language):
                written = page(f"{name}.sheet", "--before", "example.sheet", language=language)
                place = Path("page.html").resolve()
                command = [BROWSER, "--headless", "--no-sandbox", "--disable-gpu", f"--user-data-dir={place.parent / 'profile'}", "--no-pdf-header-footer"]
                subprocess.run([*command, f"--print-to-pdf={place.parent / 'page.pdf'}", place.as_uri()], capture_output=True, timeout=240, check=True)
                self.printed("page.pdf", written, SHEETS[name], language)

    @needs_jinja
    @unittest.skipUnless(weasyprint, "WeasyPrint is not installed")
    def test_what_is_read_back_can_fail(self):
        """A figure that isn't there, and one that lies outside."""
        run("report", "example.sheet", "-o", "page.html", "--pdf", "page.pdf", "--lang", "en")
        written = Path("page.html").read_text(encoding="utf-8")
        more = written.replace("$1,632,657.83</span>", "$1,632,657.84</span>", 1)
        with self.assertRaises(AssertionError):
            self.printed("page.pdf", more, EXAMPLE, "en")
        with self.assertRaises(AssertionError):
            self.printed("page.pdf", written, FULL, "en")
        weasyprint.HTML(string=written.replace("<main>", '<main><p style="margin-left: 6in; white-space: nowrap">far out to the right of it all</p>')).write_pdf("page.pdf")
        with self.assertRaises(AssertionError):
            self.printed("page.pdf", written, EXAMPLE, "en")
