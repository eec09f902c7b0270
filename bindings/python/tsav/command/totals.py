"""The refusals that name no line: 12, 13, 16 and 17. What depends on a line that was touched isn't told."""

from tsav.command import columns, compared, money
from tsav.command.faults import Amount, NotTested, line_words, shown, typed
from tsav.command.messages import _
from tsav.command.rows import Row


def no_scalar(finder, refusal) -> None:
    added = finder.rows.insert(compared.SCALAR)
    if finder.touched(("GEN", (0,), 4)):
        return
    place = finder.rows.current.index(added)
    if place:
        advice = _("Type it after {line}.").format(line=line_words(finder.rows.current[place - 1]))
    else:
        advice = _("Type it on top.")
    title = _("there is no scalar line") if finder.rows.all else _("the file is empty, and has no scalar line")
    finder.add(
        refusal,
        "no-scalar",
        title,
        instead=typed(compared.SCALAR),
        advice=advice + " " + _("{number} is a scalar of {scalar}.").format(number=10_000, scalar=money.scalar(10_000)),
    )


def _lines(finder) -> list:
    return [row.line for row in finder.rows.current]


def mortality_credit(finder, refusal) -> None:
    lines = _lines(finder)
    for row in [row for row in finder.rows.current if row.line.code == "MOR"]:
        found = compared.credit_above(row.line, lines)
        if not found:
            continue
        block = row.line.block
        mended = row.line._replace(first=0, second=0)
        if finder.touched(("MOR", (block,)), ("RSK", (block,), 1)):
            row.set(mended.written())
        else:
            finder.told.add((16, block))
            _add_mortality_credit(finder, refusal, row, found)
            row.put(mended)


def _add_mortality_credit(finder, refusal, row: Row, found: compared.Compared) -> None:
    block = row.line.block
    other = next((other for other in finder.rows.current if other.key == columns.key("RSK", block, 1)), None)
    if other:
        advice = _("Lower one of the two sums in {line}, or look at level and trend in {other}.").format(
            line=line_words(row), other=line_words(other)
        )
    else:
        advice = _("Mortality of the block (RSK, class 1) is missing and counts as 0: type its line, or take out {line}.").format(
            line=line_words(row)
        )
    finder.add(
        refusal,
        "mortality-credit",
        _("the credit of survival and death products is above level and trend of mortality"),
        row,
        lines=(shown(row),) + ((shown(other),) if other else ()),
        advice=advice,
        compared=(
            Amount(_("credit, block {block}").format(block=block), found.above),
            Amount(_("level and trend of mortality, block {block}").format(block=block), found.limit),
        ),
    )


def dividend_credit(finder, refusal) -> None:
    lines = _lines(finder)
    for row in [row for row in finder.rows.current if row.line.code == "CRD" and row.line.block]:
        found = compared.dividend_above(row.line, lines)
        if not found:
            continue
        block = row.line.block
        if not finder.touched(("CRD", (block,)), ("RSK", (block,)), ("OTH", (block,))):
            finder.told.add((17, block))
            _add_dividend_credit(finder, refusal, row, found)
            row.touched = True
        if found.limit is None:
            finder.rows.current.remove(row)
        else:
            row.set(row.line._replace(first=found.limit).written())


def _add_dividend_credit(finder, refusal, row: Row, found: compared.Compared) -> None:
    block = row.line.block
    above = Amount(_("dividend credit, block {block}").format(block=block), found.above)
    if found.limit is None:
        finder.add(
            refusal,
            "no-block",
            _("a dividend credit of a block that has no RSK or OTH line"),
            row,
            advice=_("Type the lines of block {block}, or take out {line}, also where its amount is 0.").format(
                block=block, line=line_words(row)
            ),
            compared=(above,),
        )
        return
    finder.add(
        refusal,
        "dividend-credit",
        _("a dividend credit above the requirement of its block"),
        row,
        advice=_("Lower the credit in {line}, or look at the lines of block {block}.").format(line=line_words(row), block=block),
        compared=(above, Amount(_("adjusted diversified requirement K, block {block}").format(block=block), found.limit)),
    )


def credits(finder, refusal) -> None:
    rows = [row for row in finder.rows.current if compared.is_credit(row.line)]
    if not finder.all_but_scalar():
        finder.add(
            refusal,
            "credits",
            _("the credits that belong to no block are above what is left"),
            lines=tuple(shown(row) for row in rows if row.line.first),
            advice=_("Lower these credits: together they may be all that is left."),
            compared=(
                Amount(_("sum of these credits"), sum(row.line.first for row in rows)),
                Amount(
                    _("what is left: sum of K, less the dividend credits, plus guarantee requirement and RO"),
                    compared.left(_lines(finder)),
                ),
            ),
        )
    for row in rows:
        row.set(row.line._replace(first=0).written())


def untested(finder) -> None:
    """Where a line of the refusal stands or was touched, and is touched or depends on one that is. 16 and 17 need a line of their code."""
    if not _has_scalar(finder):
        _untested(finder, 12, finder.touched(("GEN", (0,), 4)))
    _untested_blocks(finder, 16, "MOR", columns.TERRITORIES, lambda blocks: (("MOR", blocks), ("RSK", blocks, 1)))
    _untested_blocks(finder, 17, "CRD", columns.PARTICIPATING, lambda blocks: (("CRD", blocks), ("RSK", blocks), ("OTH", blocks)))
    credits = any(row.may_be("CRD", (0,)) or row.may_be("GEN", (0,), 5) for row in finder.rows.all)
    if credits and not any(fault.number == 13 for fault in finder.faults):
        _untested(finder, 13, finder.all_but_scalar())


def _untested_blocks(finder, number: int, code: str, blocks, depends) -> None:
    lines = set()
    for block in blocks:
        stands = any(row.code == code and row.may_be(code, (block,)) for row in finder.rows.all)
        if stands and (number, block) not in finder.told:
            lines.update(finder.touched(*depends((block,))))
    _untested(finder, number, lines)


def _has_scalar(finder) -> bool:
    return any(row.number and row.key == columns.key(*columns.SCALAR) for row in finder.rows.current)


def _untested(finder, number: int, lines) -> None:
    if lines:
        finder.not_tested.append(NotTested(number, tuple(sorted(lines))))
