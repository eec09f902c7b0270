"""What the lines and figures of a sheet are called, in the words of chapters 8 and 11, with their sections and symbols."""

import re
from typing import NamedTuple, Optional

from tsav.command.messages import N_, _, language


class Label(NamedTuple):
    """The name of a class; its section; the symbols of the guideline for its first and second amount."""

    name: str
    section: str
    first: str = ""
    second: str = ""


CODE_NAMES = {
    "RSK": N_("insurance risk"),
    "OTH": N_("other requirement"),
    "MOR": N_("survival and death products"),
    "VOL": N_("volume of business"),
    "ACQ": N_("bought business"),
    "GEN": N_("general figure"),
    "CRD": N_("credit"),
}

_RISKS = (
    N_("mortality"),
    N_("longevity"),
    N_("morbidity incidence"),
    N_("morbidity termination"),
    N_("lapse-sensitive"),
    N_("lapse-supported"),
    N_("expenses"),
)
_VOLUMES = (
    N_("direct premiums, individual life"),
    N_("direct premiums, group life"),
    N_("direct premiums, other products except annuities"),
    N_("premiums of reinsurance accepted"),
    N_("segregated funds with guarantees, account values"),
    N_("liabilities of annuities in payment"),
    N_("universal life, account values"),
    N_("other accounts and liabilities of accumulating annuities"),
)

_CLASSES = {
    "RSK": tuple(Label(name, "11.2.1", f"IR{i}", f"LT{i}") for i, name in enumerate(_RISKS, 1)),
    "OTH": (
        Label(N_("property and casualty risk"), "11.2.1", "PC"),
        Label(N_("credit risk"), "11.2.2", "A"),
        Label(N_("market risk"), "11.2.2", "A"),
    ),
    "MOR": (Label(N_("level and trend of mortality"), "11.1.1", "CR_S", "CR_D"),),
    "VOL": tuple(Label(name, "8.2.1") for name in _VOLUMES),
    "ACQ": tuple(Label(name, "8.2.2") for name in _VOLUMES),
    "GEN": (
        Label(N_("components of credit, insurance and market risk, before reinsurance and credits"), "8.2.3"),
        Label(N_("requirement for segregated fund guarantees"), "11.3", "GFD"),
        Label(N_("premiums ceded under reinsurance contracts"), "8.2.3"),
        Label(N_("scalar"), "11.3", "γ"),
        Label(N_("credits for policyholder deposits and group policies"), "11.3", "CG"),
    ),
}
_DIVIDENDS = Label(N_("dividend credit"), "11.3", "CR_i")
_ADJUSTABLE = Label(N_("credit of an adjustable product"), "11.3", "CR_j")

_AMOUNTS = {
    "RSK": (N_("gross component"), N_("level and trend part")),
    "OTH": (N_("requirement"), None),
    "MOR": (N_("sum of the survival products"), N_("sum of the death products")),
    # Premiums of 12 months, account values and liabilities at their end.
    "VOL": (N_("current period"), N_("previous period")),
    "ACQ": (N_("the year before, of the business that was bought"), None),
    "GEN": (N_("amount"), None),
    "CRD": (N_("credit"), None),
}

# The report's figures.
REPORT = {
    ("BLK", 1): Label(N_("requirement for insurance risk"), "11.2.1", "I"),
    ("BLK", 2): Label(N_("diversified requirement"), "11.2.2", "D"),
    ("BLK", 3): Label(N_("undiversified requirement"), "11.2.3", "U"),
    ("BLK", 4): Label(N_("level and trend"), "11.2.4", "LT"),
    ("BLK", 5): Label(N_("adjusted diversified requirement"), "11.2.4", "K"),
    ("TOT", 1): Label(N_("sum of the adjusted diversified requirements"), "11.3", "K"),
    ("TOT", 2): Label(N_("requirement for operational risk"), "8.1", "RO"),
    ("TOT", 3): Label(N_("base solvency buffer"), "11.3"),
}


def letters(symbol: str) -> str:
    """A symbol's decimals as the language writes them."""
    return symbol if language() == "en" else re.sub(r"(?<=[0-9])\.(?=[0-9])", ",", symbol)


def label(code: str, block: int, klass: int) -> Label:
    """Of a line that a sheet may have. The name is in the language that is spoken."""
    if code == "CRD":
        found = _DIVIDENDS if block else _ADJUSTABLE
    else:
        found = _CLASSES[code][klass - 1]
    return found._replace(name=_(found.name))


def code_name(code: str) -> str:
    return _(CODE_NAMES[code])


def amounts(code: str, klass: int) -> tuple:
    """The names of the two amounts of a line; None for a second one that is always 0."""
    first, second = _AMOUNTS[code]
    if (code, klass) == ("RSK", 7):
        second = None
    if (code, klass) == ("GEN", 4):
        first = N_("scalar, in ten-thousandths")
    return _(first), second and _(second)


def block_name(code: str, block: int) -> Optional[str]:
    """What the block of a line is; None of 0, which is none."""
    if block == 0:
        return None
    if code in ("VOL", "ACQ"):
        return _("territory {block}").format(block=block)
    if block > 16:
        return _("participating block {block}").format(block=block)
    return _("block {block}").format(block=block)


def line_name(code: str, block: int, klass: int) -> str:
    """What a line is of: 'mortality, block 1'."""
    found = label(code, block, klass).name
    if code == "CRD" and block == 0:
        return _("{name} {number}").format(name=found, number=klass)
    if code == "ACQ":
        found = _("bought business, {name}").format(name=found)
    where = block_name(code, block)
    return f"{found}, {where}" if where else found


def numbers(values) -> str:
    """1 to 16; 0, 17 to 32."""
    runs: list = []
    for value in values:
        if runs and value == runs[-1][1] + 1:
            runs[-1][1] = value
        else:
            runs.append([value, value])
    return ", ".join(
        str(first) if first == last else _("{first} to {last}").format(first=first, last=last) for first, last in runs
    )
