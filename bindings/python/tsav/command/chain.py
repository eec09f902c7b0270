"""The way from a sheet's entries to its buffer: figure by figure, each an entry, a factor of the guideline, a call's, or a step between these that is
checked against the call. Where a step and a call differ there is no chain."""

from fractions import Fraction
from typing import NamedTuple

import tsav
from tsav.command import columns, compared, exactly, labels
from tsav.command.answer import Failure
from tsav.command.messages import N_, _

# An entry of a line that the sheet hasn't is absent, and counts as 0.
ENTRY, ABSENT, GUIDELINE, CALL, STEP = "entry", "absent", "guideline", "call", "step"
CENTS, SQUARE, ONE = "cents", "square cents", "1"

# Where the sheet says nothing it is zero.
_NOTHING = columns.Line("", 0, 0, 0, 0)
_ONE = 10_000


class Figure(NamedTuple):
    """`amount` is exact: in cents, in square cents, or of unit 1. `place` is the line of the sheet, the line of the report, or the call."""

    key: str
    name: str
    symbol: str
    section: str
    unit: str
    amount: Fraction
    source: str
    place: str


class Chain:
    """All figures by their keys, in the order of the way."""

    def __init__(self, sheet: bytes):
        """Of an accepted sheet."""
        self.sheet = sheet
        self.answer = tsav.sheet(sheet)
        self.report = compared.figures(self.answer)
        lines = [columns.read(sheet[at : at + columns.LENGTH]) for at in range(0, len(sheet), columns.LENGTH)]
        self.lines = {line[:3]: line for line in lines}
        self.blocks = [block for code, block, item in self.report if (code, item) == ("BLK", 1)]
        self.territories = sorted({line.block for line in lines if line.code in ("VOL", "ACQ")})
        self.dividends = [line.block for line in lines if line.code == "CRD" and line.block]
        self.products = [line.klass for line in lines if line.code == "CRD" and not line.block]
        self.figures: dict = {}
        # The blocks whose shares call refuses, with the number of the refusal.
        self.without_shares: dict = {}

    def __getitem__(self, key: str) -> Figure:
        return self.figures[key]

    def amount(self, key: str) -> Fraction:
        return self.figures[key].amount

    def entered(self, code: str, block: int, klass: int) -> columns.Line:
        return self.lines.get((code, block, klass), _NOTHING)

    def add(self, key: str, words: labels.Label, amount, source: str, place: str = "", unit: str = CENTS) -> Fraction:
        self.figures[key] = Figure(key, words.name, words.first, words.section, unit, Fraction(amount), source, place)
        return self.figures[key].amount

    def entry(self, key: str, code: str, block: int, klass: int, words: labels.Label, second: bool = False) -> Fraction:
        line = self.entered(code, block, klass)
        source = ABSENT if line is _NOTHING else ENTRY
        return self.add(key, words, line.second if second else line.first, source, f"{code} {block} {klass}")

    def factor(self, key: str, words: labels.Label, factor: Fraction) -> Fraction:
        """Of the guideline, as it prints it."""
        return self.add(key, words, factor, GUIDELINE, words.section, ONE)

    def reported(self, key: str, code: str, block: int, item: int, parts: int = 1) -> Fraction:
        """A figure of the report, which is in cents or in parts of a cent."""
        words = named(labels.REPORT[code, item])
        return self.add(key, words, Fraction(self.report[code, block, item], parts), CALL, f"{code} {block} {item}")


def named(words: labels.Label) -> labels.Label:
    """In the language that is spoken."""
    return words._replace(name=_(words.name))


def check(key: str, holds: bool) -> None:
    """A step that a call doesn't bear out."""
    if not holds:
        raise Failure(_("the step to {key} isn't what the call gives: nothing is written").format(key=key))


def total(chain: Chain) -> None:
    """Section 11.3, once the blocks and RO are there."""
    k = chain.reported("total.k", "TOT", 0, 1)
    check("total.k", k == sum(chain.amount(f"block.{block}.k") for block in chain.blocks))
    for block in chain.dividends:
        words = labels.label("CRD", block, 1)
        chain.entry(f"dividend.{block}", "CRD", block, 1, words._replace(name=labels.line_name("CRD", block, 1)))
    for product in chain.products:
        words = labels.label("CRD", 0, product)
        chain.entry(f"product.{product}", "CRD", 0, product, words._replace(name=labels.line_name("CRD", 0, product)))
    dividends = chain.add("total.dividends", named(_DIVIDENDS), sum(chain.amount(f"dividend.{block}") for block in chain.dividends), STEP)
    products = chain.add("total.products", named(_PRODUCTS), sum(chain.amount(f"product.{product}") for product in chain.products), STEP)
    group = chain.entry("total.group", "GEN", 0, 5, labels.label("GEN", 0, 5))
    guarantee = chain.entry("total.guarantee", "GEN", 0, 2, labels.label("GEN", 0, 2))
    ro = chain.amount("operational.ro")
    bracket = chain.add("total.bracket", named(_BRACKET), k - dividends - products - group + guarantee + ro, STEP)
    check("total.bracket", bracket == _with_scalar_of_one(chain))
    _buffer(chain, bracket)


def _with_scalar_of_one(chain: Chain) -> int:
    """The buffer is then the bracket itself, in whole cents."""
    lines = [compared.SCALAR if line[:3] == columns.SCALAR else line for line in chain.lines.values()]
    return compared.report(lines)["TOT", 0, 3]


def _buffer(chain: Chain, bracket: Fraction) -> None:
    tenths = chain.entered(*columns.SCALAR).first
    chain.add("total.scalar", labels.label(*columns.SCALAR), Fraction(tenths, _ONE), ENTRY, "GEN 0 4", ONE)
    buffer = chain.report["TOT", 0, 3]
    # The least whole cents at or above the product.
    check("total.buffer", _ONE * (buffer - 1) < tenths * bracket <= _ONE * buffer)
    chain.add("total.by_scalar", named(_BY_SCALAR), buffer - bracket, STEP)
    chain.reported("total.buffer", "TOT", 0, 3)
    blocks = len(chain.blocks)
    chain.add("accuracy.blocks", named(_BLOCKS), blocks, STEP, unit=ONE)
    chain.add("accuracy.allowance", named(_ALLOWANCE), Fraction(tenths, _ONE) * (Fraction(101 * blocks, 100) + 1) + 1, STEP)


_DIVIDENDS = labels.Label(N_("sum of the dividend credits"), "11.3", "∑ CR_i")
_PRODUCTS = labels.Label(N_("sum of the credits of adjustable products"), "11.3", "∑ CR_j")
_BRACKET = labels.Label(N_("bracket: what the scalar multiplies"), "11.3")
_BY_SCALAR = labels.Label(N_("what the scalar adds, rounded up to the cent"), "11.3")
_BLOCKS = labels.Label(N_("number of blocks"), "", "n")
_ALLOWANCE = labels.Label(N_("allowance"), "", "γ × (1.01 × n + 1) + 1")


def sum_of(chain: Chain, ending: str) -> Fraction:
    """Of one figure over all blocks."""
    return sum((chain.amount(f"block.{block}.{ending}") for block in chain.blocks), Fraction(0))


def value(figure: Figure) -> dict:
    """For JSON and CSV."""
    return {**figure._asdict(), "amount": exactly.decimal(figure.amount)}
