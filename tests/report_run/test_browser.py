"""The page in a browser, at the widths of a phone, a desk and a sheet of paper, in both languages: nothing overflows, and all figures are visible; read
back, they are those of the calls."""

import html
import json
import re
import shutil
import subprocess
import unittest
from fractions import Fraction
from pathlib import Path

import tsav
from command import InFolder, run
from of_reports import SHEETS
from test_report import APART, as_shown, needs_jinja, number, page
from tsav.command import compared

BROWSER = next(filter(None, map(shutil.which, ("chromium", "chromium-browser", "google-chrome"))), None)

# Of paper, what is left of a letter's 8.5 inches between margins of 0.6.
WIDTHS = {"phone": 360, "desk": 1100, "print": 700}

_MEASURE = """
window.addEventListener("load", () => {
  const said = [...document.querySelectorAll("iframe")].map((frame) => {
    const inside = frame.contentDocument, width = inside.documentElement.clientWidth;
    const box = (element) => element.getBoundingClientRect();
    const out = [...inside.querySelectorAll("body *")].filter((e) => !e.closest("thead") && box(e).width && (box(e).right > width + 1 || box(e).left < -1));
    const figures = [...inside.querySelectorAll("[data-figure]")];
    const hidden = figures.filter((e) => !box(e).width || !box(e).height || getComputedStyle(e).visibility != "visible");
    const overlap = [...inside.querySelectorAll("svg")].filter((picture) => {
      const texts = [...picture.querySelectorAll("text")].map(box);
      return texts.some((a, i) => texts.some((b, j) => j > i && a.left < b.right && b.left < a.right && a.top + 4 < b.bottom && b.top + 4 < a.bottom));
    });
    return {
      name: frame.name, scroll: inside.documentElement.scrollWidth, width,
      out: out.slice(0, 5).map((e) => e.outerHTML.slice(0, 120)), figures: figures.length, hidden: hidden.length,
      overlap: overlap.slice(0, 3).map((e) => e.textContent.slice(0, 80)),
      read: figures.map((e) => [e.dataset.figure, e.innerText]),
    };
  });
  document.body.textContent = "SAID" + encodeURIComponent(JSON.stringify(said)) + "END";
});
"""


def before(name: str) -> str:
    """The last sheet of one."""
    return "example.sheet" if name != "example" else "scalar.sheet"


def measured(pages: dict) -> list:
    """What the browser says of these pages, each in a frame of its width."""
    frames = "".join(
        f'<iframe name="{name}" style="width:{width}px;height:600px;border:0" srcdoc="{html.escape(text, quote=True)}"></iframe>'
        for name, (width, text) in pages.items()
    )
    place = Path("frames.html").resolve()
    place.write_text(f"<!DOCTYPE html><meta charset=utf-8><script>{_MEASURE}</script><body>{frames}</body>", encoding="utf-8")
    command = [BROWSER, "--headless", "--no-sandbox", "--disable-gpu", f"--user-data-dir={place.parent / 'profile'}", "--window-size=1400,900"]
    done = subprocess.run([*command, "--dump-dom", place.as_uri()], capture_output=True, timeout=240, check=False)
    found = re.search(rb"SAID(.*)END", done.stdout.split(b"<body", 1)[-1])
    assert found, done.stderr[-2000:]
    from urllib.parse import unquote

    return json.loads(unquote(found.group(1).decode("ascii")))


@unittest.skipUnless(BROWSER, "chromium is not installed")
class Browser(InFolder):
    @needs_jinja
    def test_widths(self):
        for name, sheet in SHEETS.items():
            Path(f"{name}.sheet").write_bytes(sheet)
        pages = {}
        for language in ("en", "fr"):
            for name in SHEETS:
                text = page(f"{name}.sheet", "--before", before(name), language=language)
                for kind, width in WIDTHS.items():
                    shown = text.replace("@media print", "@media all").replace("@media screen and", "@media not all and") if kind == "print" else text
                    pages[f"{name} {language} {kind}"] = (width, shown)
        said = measured(pages)
        self.assertEqual([frame["name"] for frame in said], list(pages))
        for frame in said:
            with self.subTest(frame["name"]):
                self.assertGreater(frame["figures"], 20)
                self.assertEqual((frame["hidden"], frame["out"], frame["overlap"]), (0, [], []))
                self.assertLessEqual(frame["scroll"], frame["width"])
                name, language, _kind = frame["name"].split()
                self.read_back(name, language, frame["read"])
        read = {frame["name"]: dict(frame["read"]) for frame in said}
        self.assertEqual(read["example en phone"]["total.buffer"], "$1,632,657.83")
        self.assertEqual(read["example fr desk"]["total.buffer"].replace("\u00a0", " "), "1 632 657,83 $")

    def read_back(self, name: str, language: str, read: list) -> None:
        """Every text that the browser shows of a figure is the figure of the JSON, none is left out; and those of the report are the sheet call's."""
        status, said, _wrong = run("report", f"{name}.sheet", "--before", before(name), "--json")
        self.assertEqual(status, 0)
        value = json.loads(said)
        wanted = {figure["key"]: as_shown(figure) for figure in value["figures"]}
        for ending, of in (("", "change"), (".now", "now"), (".before", "before")):
            total = Fraction(0)
            for link in value["changes"]:
                wanted[f"change.{link['key']}{ending}"] = {Fraction(link[of]) / 100}
                total += Fraction(link[of])
            wanted[f"change.total.buffer{ending}"] = {total / 100}
        for key, text in read:
            self.assertIn(number(text, language), wanted[key], key)
        left = {key for key in wanted if not APART.fullmatch(key)} - {key for key, _text in read}
        self.assertEqual(left, set())
        shown = {key: number(text, language) * 100 for key, text in read}
        for (code, block, item), told in compared.figures(tsav.sheet(SHEETS[name])).items():
            totals, figures = ("total.k", "operational.ro", "total.buffer"), ("i", "d", "u", "lt", "k")
            key = f"block.{block}.{figures[item - 1]}" if code == "BLK" else totals[item - 1]
            self.assertEqual(shown[key], Fraction(told, 2 if code == "BLK" and item < 3 else 1), key)

    def test_the_measure_can_fail(self):
        wide = '<!DOCTYPE html><body><div style="width:500px">x</div><span data-figure="a" style="display:none">1</span></body>'
        (said,) = measured({"wide": (360, wide)})
        self.assertEqual((said["hidden"], len(said["out"])), (1, 1))
        self.assertGreater(said["scroll"], said["width"])
