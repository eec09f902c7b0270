"""The page of a report: its parts, of tables, pictures and words, and the template that writes them as HTML, in which all texts are escaped."""

import hashlib
import unicodedata
from pathlib import Path
from typing import Any, NamedTuple, Optional

import tsav
from tsav.command import exactly, labels, versions
from tsav.command.answer import Failure
from tsav.command.chain import ABSENT, CALL, ENTRY, GUIDELINE, ONE, SQUARE, Figure
from tsav.command.messages import N_, _, language
from tsav.command.money import NO_BREAK

_TEMPLATE = Path(__file__).resolve().parent / "page.html"

# In a square dollar.
_SQUARE_CENTS = 10_000


class Head(NamedTuple):
    text: str
    number: bool = False


class Cell(NamedTuple):
    """`key` is that of the figure that is shown."""

    text: str
    key: str = ""


class Row(NamedTuple):
    cells: list
    strong: bool = False


class Table(NamedTuple):
    """`many` are columns of amounts, which are set smaller."""

    caption: str
    heads: list
    rows: list
    many: bool = False


class Part(NamedTuple):
    """`items_` are pairs of a kind, text, heading, list, raw, table or picture, and what it is."""

    key: str
    heading: str
    items_: list


class Page(NamedTuple):
    kind: str
    title: str
    facts: list
    parts: list
    buffer: Optional[Any] = None

    @property
    def foot(self) -> str:
        """What stands at the foot of each printed page: the title, and on a line of its own the first fact, a SHA-256."""
        name, sha = self.facts[0]
        return _in_style(f"{self.title}\n{name}{self.colon}{sha}")

    @property
    def count(self) -> tuple:
        """The words around the number of a printed page and how many there are."""
        before, between, after = _("page {number} of {all}").replace("{all}", "{number}").split("{number}")
        return _in_style(before), _in_style(between), _in_style(after)

    @property
    def language(self) -> str:
        return language()

    @property
    def colon(self) -> str:
        return _(": ")

    @property
    def contents(self) -> str:
        return _("Contents")


def _in_style(text: str) -> str:
    """As a string of a style sheet, in which no sign but letters and digits stands for itself: a space behind another one would be taken for its end."""
    return "".join(sign if sign.isascii() and sign.isalnum() else f"\\{ord(sign):06x}" for sign in text)


class Shown(NamedTuple):
    key: str
    name: str
    text: str


def html(page: Page) -> bytes:
    try:
        import jinja2
    except ImportError as error:
        raise Failure(_("the page needs Jinja2: apt-get install python3-jinja2, or pip install Jinja2")) from error
    around = jinja2.Environment(autoescape=True, undefined=jinja2.StrictUndefined, trim_blocks=True, lstrip_blocks=True)
    return (around.from_string(_TEMPLATE.read_text(encoding="utf-8")).render(page=page).strip() + "\n").encode("utf-8")


def title(text: str) -> str:
    """What a page can have of it: no control characters, and nothing that isn't text."""
    return "".join(sign if sign.isprintable() or unicodedata.category(sign) == "Zs" else "\ufffd" for sign in text)


def amount(figure: Figure) -> str:
    if figure.unit == ONE:
        return exactly.shown(figure.amount, decimals(figure))
    if figure.unit == SQUARE:
        return exactly.shown(figure.amount / _SQUARE_CENTS, decimals(figure))
    return exactly.dollars(figure.amount, decimals(figure))


def decimals(figure: Figure) -> int:
    """At least so many of them: I and D, which are in half cents, have three; the scalar and its like as many as they need."""
    if figure.unit == ONE:
        return 0
    return 3 if figure.symbol in ("I", "D") else 2


def taken_off(figure: Figure) -> str:
    """An amount that is taken off."""
    return f"{exactly.MINUS}{amount(figure)}" if figure.amount else amount(figure)


_SOURCES = {
    ENTRY: N_("entry, {place}"),
    ABSENT: N_("no line {place}:\u00a00"),
    GUIDELINE: N_("guideline, {place}"),
    CALL: N_("call, {place}"),
}


def source(figure: Figure) -> str:
    if figure.source in _SOURCES:
        # Code, block and class stay on one line.
        return _(_SOURCES[figure.source]).format(place=figure.place.replace(" ", NO_BREAK) if figure.place.isupper() else figure.place)
    return _("step")


def chain_heads() -> list:
    return [Head(_("figure")), Head(_("symbol")), Head(_("section")), Head(_("from")), Head(_("amount"), True)]


def chain_row(figure: Figure, strong: bool = False, less: bool = False) -> Row:
    """`less` are amounts that are taken off."""
    cells = [Cell(figure.name), Cell(labels.letters(figure.symbol)), Cell(figure.section), Cell(source(figure))]
    return Row([*cells, Cell(taken_off(figure) if less else amount(figure), figure.key)], strong)


def sheet_facts(sheet: bytes) -> list:
    lines = len(sheet) // tsav.SHEET_LINE
    return [
        (_("SHA-256 of the sheet"), hashlib.sha256(sheet).hexdigest()),
        (_("lines of the sheet"), str(lines)),
    ]


def version_facts() -> list:
    return [
        (_("package"), f"tsav {tsav.__version__}"),
        (_("library"), versions.library_words()),
        (_("toolchain of the proofs"), versions.toolchain_words()),
    ]
