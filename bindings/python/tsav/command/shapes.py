"""The report as JSON and as CSV: the same figures as on the page, each with an exact decimal. The guide has their shape."""

import hashlib

import tsav
from tsav.command import amounts, csvfile, exactly, labels, page, versions
from tsav.command.chain import ABSENT, CALL, CENTS, ENTRY, GUIDELINE, ONE, SQUARE, STEP, Chain, Figure, value
from tsav.command.messages import N_, _

FORMAT = "tsav report 1"

# For people, as everything in CSV is: dollars of cents, and words.
_UNITS = {CENTS: ("dollars", 100), SQUARE: (N_("dollars squared"), 10_000), ONE: ("1", 1)}
_SOURCES = {ENTRY: N_("entry"), ABSENT: N_("no line"), GUIDELINE: N_("guideline"), CALL: N_("call"), STEP: N_("step")}


def report(title, chain: Chain, needs: list, warnings: list, before=None, links=None) -> dict:
    """`before` is the last sheet, where there is one."""
    return {
        "format": FORMAT,
        "title": title,
        "sheet": _sheet(chain.sheet),
        "versions": versions_value(),
        "buffer": int(chain.amount("total.buffer")),
        "figures": [value(figure) for figure in chain.figures.values()],
        "without_shares": [{"block": block, "refusal": refusal} for block, refusal in chain.without_shares.items()],
        "needs": [{"line": " ".join(map(str, line)), "needs": " ".join(map(str, needed))} for line, needed in needs],
        "warnings": warnings,
        "before": before and _sheet(before),
        "changes": [_link(link) for link in links or ()],
        "report": chain.answer.decode("ascii").splitlines(),
    }


def versions_value() -> dict:
    return {"package": tsav.__version__, "calls": versions.calls(), "toolchain": versions.toolchain()}


def _sheet(sheet: bytes) -> dict:
    return {"sha256": hashlib.sha256(sheet).hexdigest(), "lines": len(sheet) // tsav.SHEET_LINE}


def _link(link) -> dict:
    amounts = {name: exactly.decimal(getattr(link, name)) for name in ("before", "now", "change")}
    return {"key": link.key, "name": link.name, **amounts}


def table(chain: Chain) -> bytes:
    """A row for each figure, below the columns' names, as the CSV of every subcommand is written."""
    headings = (_("Key"), _("Figure"), _("Section"), _("Symbol"), _("Amount"), _("Unit"), _("From"), _("Place"))
    return csvfile.written([headings, *map(_row, chain.figures.values())]).encode("utf-8")


def _row(figure: Figure) -> tuple:
    unit, parts = _UNITS[figure.unit]
    amount = exactly.decimal(figure.amount / parts, amounts.decimal_sign(), page.decimals(figure))
    return figure.key, figure.name, figure.section, labels.letters(figure.symbol), amount, _(unit), _(_SOURCES[figure.source]), figure.place
