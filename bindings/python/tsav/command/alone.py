"""What looks wrong in a sheet by itself. Each figure that it is told with is one of a call, on the sheet or on one of other lines."""

import tsav
from tsav.command import columns, compared, money
from tsav.command.accepted import Sheet
from tsav.command.doubts import Amount, Doubt, Row
from tsav.command.messages import N_, _, ngettext

# The bounds of a scalar, in ten-thousandths, and the amount, in cents, that the largest of a sheet isn't expected to stay below. The
# guideline has none of these: they are this command's choice.
LEAST_SCALAR = 8_500
MOST_SCALAR = 11_000
SMALL = 1_000_000_000

_CENTS_OF_A_DOLLAR = 100
_CENTS_OF_A_THOUSAND = 100_000
_COMPONENTS = ("GEN", 0, 1)
_UNDIVERSIFIED = 3


def doubts(sheet: Sheet):
    for look in (_scalar, _components, _in_dollars, _rounded, _no_previous, _needs):
        yield from look(sheet)


def _buffer(sheet: Sheet) -> Amount:
    return Amount("buffer", _("base solvency buffer as it stands"), sheet.buffer)


def _would_be(key: str, name: str, buffer) -> tuple:
    """None where it would be refused."""
    return () if buffer is None else (Amount(key, name, buffer),)


def _scalar(sheet: Sheet):
    key = columns.key(*columns.SCALAR)
    scalar = sheet.first(*columns.SCALAR)
    if LEAST_SCALAR <= scalar <= MOST_SCALAR:
        return
    cause, title = "scalar", _("the scalar is {scalar}, outside {least} to {most}")
    reason = _("It multiplies the whole bracket. In the sheet 10000 is a scalar of 1. These bounds are this command's choice.")
    if scalar == 1:
        cause, title = "scalar-one", _("the scalar is {scalar}: was it typed as 1?")
        reason = _("It multiplies the whole bracket. It is in ten-thousandths: a scalar of 1 is typed as 10000.")
    title = title.format(scalar=money.scalar(scalar), least=money.scalar(LEAST_SCALAR), most=money.scalar(MOST_SCALAR))
    at_one = _would_be("buffer_at_one", _("with a scalar of 1"), sheet.buffer_with([compared.SCALAR]))
    yield Doubt(cause, "11.3", title, reason, (Row(key, sheet.number(key)),), (_buffer(sheet), *at_one))


def _components(sheet: Sheet):
    """Of section 8.2.3: before reinsurance and credits, which can only lower them."""
    blocks = compared.report([line for line in sheet.lines.values() if line.code in ("RSK", "OTH")] + [compared.SCALAR])
    total = sum(amount for (code, _block, item), amount in blocks.items() if (code, item) == ("BLK", _UNDIVERSIFIED))
    given = sheet.first(*_COMPONENTS)
    if given >= total:
        return
    key = columns.key(*_COMPONENTS)
    # A sum of more than 14 digits would be refused as all else that is.
    with_them = sheet.buffer_with([columns.Line(*_COMPONENTS, total, 0)])
    yield Doubt(
        "components-below" if given else "components-missing",
        "8.2.3",
        _("the components of GEN class 1 are below those of the blocks") if given else _("the components of GEN class 1 are missing"),
        _("They are those before reinsurance and credits: at least the sum of the blocks'. The requirement for operational risk has 5.75% of them."),
        (Row(key, sheet.number(key)),),
        (
            Amount("components", _("components of GEN class 1"), given),
            Amount("components_of_blocks", _("sum of the blocks' components"), total),
            _buffer(sheet),
            *_would_be("buffer_with_them", _("with that sum in GEN class 1"), with_them),
        ),
    )


def _amounts(sheet: Sheet) -> list:
    """All that aren't zero, but the scalar."""
    lines = [line for line in sheet.lines.values() if line.key != columns.key(*columns.SCALAR)]
    return [amount for line in lines for amount in (line.first, line.second) if amount]


def _in_dollars(sheet: Sheet):
    largest = max(_amounts(sheet), default=SMALL)
    if largest >= SMALL:
        return
    reason = _("The sheet is in cents: typed in dollars, each is a hundredth of what is meant. The limit, {limit}, is this command's choice.")
    lines = [line for key, line in sheet.lines.items() if key != columns.key(*columns.SCALAR)]
    read = [line._replace(first=line.first * _CENTS_OF_A_DOLLAR, second=line.second * _CENTS_OF_A_DOLLAR) for line in lines]
    yield Doubt(
        "in-dollars",
        "11.3",
        _("all amounts are small enough to be dollars"),
        reason.format(limit=money.dollars(SMALL)),
        amounts=(
            Amount("largest", _("largest amount of the sheet"), largest),
            _buffer(sheet),
            *_would_be("buffer_in_dollars", _("with the amounts read as dollars"), sheet.buffer_with(read)),
        ),
    )


def _rounded(sheet: Sheet):
    amounts = _amounts(sheet)
    if not amounts or any(amount % _CENTS_OF_A_DOLLAR for amount in amounts):
        return
    title = _("all amounts end in 00: they are whole dollars")
    if not any(amount % _CENTS_OF_A_THOUSAND for amount in amounts):
        title = _("all amounts end in 00000: they are whole thousands of dollars")
    reason = _("The sheet is in cents, and a society's figures rarely come out without any: were they rounded, and is the unit the right one?")
    yield Doubt("rounded", "11.3", title, reason)


def _no_previous(sheet: Sheet):
    lines = [
        line
        for key, line in sheet.lines.items()
        if line.code == "VOL" and line.first and not line.second and not sheet.first("ACQ", key.block, key.klass)
    ]
    if not lines:
        return
    as_large = compared.report(sheet.changed([line._replace(second=line.first) for line in lines]).values())
    title = ngettext("{count} volume without a previous period", "{count} volumes without a previous period", len(lines))
    current = _("current period")
    yield Doubt(
        "no-previous",
        "8.2.2",
        title.format(count=len(lines)),
        _("What is above 120% of the previous period is charged as growth: without one, all of it. Is the business new?"),
        tuple(Row(line.key, sheet.number(line.key), amounts=(Amount("current", current, line.first),)) for line in lines),
        (
            Amount("operational", _("requirement for operational risk as it stands"), sheet.figures["TOT", 0, 2]),
            *_would_be("operational_without_growth", _("with previous periods as large"), as_large and as_large["TOT", 0, 2]),
        ),
    )


# Of #113's listing, by the code of the line: the cause, the section, and what it is.
_NEEDS = {
    "MOR": (
        "need-mortality",
        "11.1.1",
        N_("survival and death products without mortality"),
        N_("Their credit lowers mortality of the same block."),
    ),
    "VOL": (
        "need-guarantees",
        "11.3",
        N_("segregated funds with guarantees, and no requirement for the guarantees"),
        N_("The requirement for segregated fund guarantees (GEN class 2) is added to the bracket, and enters the requirement for operational risk."),
    ),
    "ACQ": (
        "need-volume",
        "8.2.2",
        N_("bought business without a volume of the current period"),
        N_("What was bought counts beside the current volume of the same territory and class; alone it changes nothing."),
    ),
    "CRD": (
        "need-risk",
        "11.3",
        N_("a dividend credit of a block without insurance risks"),
        N_("The credit lowers the requirement of the block's risks."),
    ),
}


def _needs(sheet: Sheet):
    listing = tsav.check(sheet.data)
    rows = [listing[at : at + tsav.LISTING_LINE] for at in range(0, len(listing), tsav.LISTING_LINE)]
    found = [(_listed(row[:9]), _listed(row[10:19])) for row in rows]
    for code, (cause, section, title, reason) in _NEEDS.items():
        listed = tuple(Row(key, sheet.number(key), needs=needs, missing=_missing(sheet, needs)) for key, needs in found if key.code == code)
        if listed:
            yield Doubt(cause, section, _(title), _(reason), listed)


def _listed(columns_of_line: bytes) -> columns.Key:
    return columns.key(columns_of_line[:3].decode("ascii"), int(columns_of_line[4:6]), int(columns_of_line[7:9]))


def _missing(sheet: Sheet, needed: columns.Key) -> bool:
    """Whether there is no such line; of class 0, none of the block."""
    return not any(key[:2] == needed[:2] and needed.klass in (0, key.klass) for key in sheet.lines)
