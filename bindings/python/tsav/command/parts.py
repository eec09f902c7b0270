"""What a report has, part after part: the buffer, how exact it is, what is missing, what has changed, each block, RO, and the raw report."""

from fractions import Fraction

import tsav
from tsav.command import doubts, drawings, exactly, labels, refusals
from tsav.command.chain import ABSENT, Chain, sum_of
from tsav.command.chain_block import RISKS
from tsav.command.chain_operational import GENERAL, VOLUMES
from tsav.command.drawings import LESS, MORE, TOTAL, Given
from tsav.command.messages import N_, _
from tsav.command.money import NO_BREAK
from tsav.command.page import Cell, Head, Part, Row, Table, amount, chain_heads, chain_row, source, taken_off


def buffer(chain: Chain) -> Part:
    rows = [chain_row(chain[f"block.{number}.k"]) for number in chain.blocks]
    for row, number in zip(rows, chain.blocks):
        row.cells[0] = Cell(_("K of {block}").format(block=labels.block_name("RSK", number)))
    rows.append(chain_row(chain["total.k"], strong=True))
    rows += [chain_row(chain[f"dividend.{number}"], less=True) for number in chain.dividends]
    rows += [chain_row(chain[f"product.{number}"], less=True) for number in chain.products]
    rows += [chain_row(chain["total.group"], less=True), chain_row(chain["total.guarantee"]), chain_row(chain["operational.ro"])]
    rows += [chain_row(chain["total.bracket"], strong=True), chain_row(chain["total.scalar"])]
    rows.append(chain_row(chain["total.buffer"], strong=True))
    return Part(
        "buffer",
        _("The buffer, section 11.3"),
        [
            ("text", _(_AMOUNTS_ARE)),
            *_waterfall(chain),
            ("table", Table(_("From K to the buffer"), chain_heads(), rows)),
        ],
    )


_AMOUNTS_ARE = N_(
    "All amounts are in dollars. Each is an entry of the sheet, a factor of the guideline, a figure of a proved call, or a step between these that was "
    "checked against the call. A line that the sheet hasn't counts as 0."
)


def _waterfall(chain: Chain) -> list:
    undiversified, k = sum_of(chain, "u"), chain.amount("total.k")
    steps = [
        (_("saving by diversification"), k - undiversified),
        (_("dividend credits"), -chain.amount("total.dividends")),
        (_("credits of adjustable products"), -chain.amount("total.products")),
        (_("group and deposit credits"), -chain.amount("total.group")),
        (_("segregated fund guarantees"), chain.amount("total.guarantee")),
        (_("operational risk, RO"), chain.amount("operational.ro")),
        (_("the scalar"), chain.amount("total.by_scalar")),
    ]
    at = undiversified
    given = [Given(_("undiversified, sum of U"), exactly.dollars(at), Fraction(0), at, TOTAL)]
    for count, (name, change) in enumerate(steps):
        given.append(Given(name, exactly.dollars(change), at, at + change, LESS if change < 0 else MORE))
        at += change
        if count == 0:
            given.append(Given(_("sum of K"), exactly.dollars(at), Fraction(0), at, TOTAL))
    given.append(Given(_("base solvency buffer"), exactly.dollars(at), Fraction(0), at, TOTAL))
    title = _("From the undiversified requirement to the buffer")
    told = _("Bars from {first}, undiversified, to {k}, the sum of K, and to {buffer}, the buffer; the table below has each amount.")
    description = told.format(first=exactly.dollars(undiversified), k=exactly.dollars(k), buffer=exactly.dollars(at))
    rows = [Row([Cell(bar.label), Cell(bar.amount)], bar.kind == TOTAL) for bar in given]
    table = Table(_("The picture's amounts"), [Head(_("step")), Head(_("amount"), True)], rows)
    return [("picture", drawings.picture("waterfall", title, description, given)), ("table", table)]


def accuracy(chain: Chain) -> Part:
    said = _(
        "It is proved that the buffer of {buffer} is at or above the exact one, square roots taken without rounding, and less than "
        "{allowance} cents above it. Here n, the number of blocks, is {n}; γ, the scalar, is {scalar}; and that is less than {cents} cents."
    )
    text = said.format(
        buffer=amount(chain["total.buffer"]),
        n=exactly.shown(chain.amount("accuracy.blocks")),
        allowance=labels.letters(chain["accuracy.allowance"].symbol),
        scalar=exactly.shown(chain.amount("total.scalar")),
        cents=exactly.shown(chain.amount("accuracy.allowance")),
    )
    rows = [chain_row(chain["accuracy.blocks"]), chain_row(chain["total.scalar"]), chain_row(chain["accuracy.allowance"], strong=True)]
    return Part("accuracy", _("How exact the buffer is"), [("text", text), ("table", Table(_("The allowance"), chain_heads(), rows))])


def needs(chain: Chain) -> list:
    """What the check call lists: a line, and the one that it needs."""
    listing = tsav.check(chain.sheet)
    found = []
    for at in range(0, len(listing), tsav.LISTING_LINE):
        line = listing[at : at + tsav.LISTING_LINE].decode("ascii")
        found.append((_place(line[:9]), _place(line[10:19])))
    return found


def _place(text: str) -> tuple:
    return text[:3], int(text[4:6]), int(text[7:9])


def needs_part(found: list) -> Part:
    if not found:
        items = [("text", _("The check call lists none: every line has the line that it needs."))]
    else:
        items = [
            ("text", _("The check call lists these: the sheet is accepted, but a line that another one needs is missing or has no amount.")),
            ("list", [need_told(line, needed) for line, needed in found]),
        ]
    return Part("needs", _("Unmet needs"), items)


def need_told(line: tuple, needed: tuple) -> str:
    said = _("{line} ({name}) needs {needed} ({what})")
    what = labels.line_name(*needed) if needed[2] else _("any insurance risk of the block")
    return said.format(line="{} {} {}".format(*line), name=labels.line_name(*line), needed="{} {} {}".format(*needed), what=what)


def warnings(found: list) -> Part:
    """What `tsav warn` says, but for the needs, which have a part of their own."""
    if not found:
        return Part("warnings", _("Warnings"), [("text", _("No warnings."))])
    said = _("Section {section}: {title}. {reason}")
    items = [("text", _("tsav warn says of this sheet what looks wrong; it is accepted all the same."))]
    for doubt in found:
        items.append(("text", said.format(section=doubt.section, title=doubt.title, reason=doubt.reason)))
        items += [("table", table) for table in _of_doubt(doubt)]
    return Part("warnings", _("Warnings"), items)


def _of_doubt(doubt: doubts.Doubt):
    """Its lines, and its amounts."""
    if doubt.rows:
        heads = [Head(_("line of the sheet")), Head(_("figure")), *(Head(name, True) for name in doubts.amount_names(doubt.rows))]
        rows = []
        for place, *others in map(doubts.cells, doubt.rows):
            # Code, block and class stay on one line.
            rows.append(Row([Cell(NO_BREAK.join(place.split())), *map(Cell, others)]))
        yield Table(_("Lines that it is about"), heads, rows, many=True)
    if doubt.amounts:
        rows = [Row([Cell(some.name), Cell(some.shown())]) for some in doubt.amounts]
        yield Table(_("Amounts that it is about"), [Head(_("figure")), Head(_("amount"), True)], rows)


def changes(links: list, before: str) -> Part:
    """What has changed from the last sheet, whose SHA-256 is given."""
    moved = [link for link in links if link.change]
    total = [sum(getattr(link, name) for link in links) for name in ("before", "now", "change")]
    rows = [
        Row([Cell(link.name), *(Cell(exactly.dollars(part), f"change.{link.key}{ending}") for part, ending in _amounts(link))]) for link in links
    ]
    endings = (".before", ".now", "")
    sums = [Cell(exactly.dollars(part), f"change.total.buffer{ending}") for part, ending in zip(total, endings)]
    rows.append(Row([Cell(_("base solvency buffer")), *sums], True))
    heads = [Head(_("link of the chain")), Head(_("last sheet"), True), Head(_("this sheet"), True), Head(_("change"), True)]
    items = [("text", _("SHA-256 of the last sheet: {sha}").format(sha=before))]
    if moved:
        given = [
            Given(link.name, exactly.dollars(link.change), Fraction(0), link.change, LESS if link.change < 0 else MORE) for link in moved
        ]
        given.append(Given(_("base solvency buffer"), exactly.dollars(total[2]), Fraction(0), total[2], TOTAL))
        description = _("Bars to the right of the line are more than in the last sheet, bars to the left are less; the table below has each amount.")
        items.append(("picture", drawings.picture("changes", _("What has changed from the last sheet"), description, given)))
    else:
        items.append(("text", _("No link of the chain has changed.")))
    items.append(("table", Table(_("What each link brings to the buffer; credits are below zero"), heads, rows)))
    return Part("changes", _("The change from the last sheet"), items)


def _amounts(link) -> tuple:
    return (link.before, ".before"), (link.now, ".now"), (link.change, "")


def factors(chain: Chain) -> Part:
    """All of them, once, for whoever adds up again."""
    names = [labels.label("RSK", 1, risk).name for risk in RISKS]
    heads = [Head(_("risk")), *(Head(f"{risk}", True) for risk in RISKS)]
    rows = [
        Row([Cell(f"{i} {name}"), *(_cell(chain[f"factor.correlation.{i}.{j}"]) for j in RISKS)]) for i, name in zip(RISKS, names)
    ]
    others = [
        Row([Cell(figure.name), Cell(figure.section), _cell(figure)])
        for key, figure in chain.figures.items()
        if key.startswith("factor.") and not key.startswith("factor.correlation.")
    ]
    return Part(
        "factors",
        _("The factors of the guideline"),
        [
            ("table", Table(_("Correlation of the insurance risks, section 11.2.1"), heads, rows, many=True)),
            ("table", Table(_("Other factors"), [Head(_("factor")), Head(_("section")), Head(_("number"), True)], others, many=True)),
        ],
    )


def block(chain: Chain, number: int) -> Part:
    at = f"block.{number}"
    name = labels.block_name("RSK", number)
    items = [("table", _components(chain, number))]
    if f"{at}.mor.credit" in chain.figures:
        rows = [chain_row(chain[f"{at}.mor.{ending}"], strong=ending == "credit") for ending in ("s", "t", "aggregate", "credit")]
        items.append(("text", _(_HOW_CREDIT)))
        items.append(("table", Table(_("Survival and death products, section 11.1.1"), chain_heads(), rows)))
    steps = ("q", "floor", "pc", "i", "a", "radicand", "d", "u", "lt", "saving", "k")
    rows = [chain_row(chain[f"{at}.{ending}"], strong=ending in ("i", "d", "k")) for ending in steps]
    items += [
        ("table", _products(chain, number)),
        ("text", _(_HOW_I)),
        ("text", _(_HOW_D)),
        ("table", Table(_("From the components to K, section 11.2"), chain_heads(), rows)),
        ("text", _(_HOW_K)),
        *_shares(chain, number, name),
    ]
    return Part(f"block-{number}", name[:1].upper() + name[1:], items)


_HOW_CREDIT = N_(
    "The aggregate is the least whole number of cents whose square is at least CR_S² + CR_D² − 1.5 × CR_S × CR_D; "
    "the credit lowers both amounts of mortality."
)
_HOW_I = N_(
    "Each product is a risk's amount times the sum over all risks of their correlation with it times their amounts. Q is the sum of the products. "
    "I is the root of Q, or the floor where that is larger, plus PC, to the half cent, rounded up. Q, like the square below, is in dollars squared."
)
_HOW_D = N_(
    "D is the root of A² + 2 × 0.5 × A × I + I², with the correlation 0.5 of section 11.2.2, to the half cent, rounded up. It is taken at the I before that is "
    "rounded, so that at the I that is shown the root may come out up to a half cent above D."
)
_HOW_K = N_(
    "K is 0.8 × U + 0.1 × LT + (10 × D − 7 × V) × (3 × D − V) / (30 × V), with V = U − 0.5 × LT and D in the same unit, "
    "where the last part counts only above zero, rounded up to the cent."
)


def _components(chain: Chain, number: int) -> Table:
    at = f"block.{number}"
    heads = [Head(_("component")), Head(_("symbol")), Head(_("from"))]
    heads += [Head(_("gross component"), True), Head(_("level and trend"), True), Head(_("less half of level and trend"), True)]
    rows = []
    credit = chain.figures.get(f"{at}.mor.credit")
    for risk in RISKS:
        gross, level, net = (chain[f"{at}.risk.{risk}.{ending}"] for ending in ("ir", "lt", "net"))
        if credit and risk == 1:
            off = Cell(taken_off(credit), credit.key)
            rows.append(_risk(gross, level, Cell("")))
            rows.append(Row([Cell(credit.name), Cell(labels.letters(credit.symbol)), Cell(source(credit)), off, off, Cell("")]))
            gross, level = (chain[f"{at}.risk.1.{ending}_after"] for ending in ("ir", "lt"))
        rows.append(_risk(gross, level, _cell(net)))
    for ending in ("pc", "credit", "market"):
        figure = chain[f"{at}.{ending}"]
        rows.append(Row([Cell(figure.name), Cell(figure.symbol), Cell(source(figure)), _cell(figure), Cell(""), Cell("")]))
    u, lt = chain[f"{at}.u"], chain[f"{at}.lt"]
    name = _("sum, after the credit") if credit else _("sum")
    rows.append(Row([Cell(name), Cell("U, LT"), Cell(source(u)), _cell(u), _cell(lt), Cell("")], True))
    return Table(_("The components, section 11.2.1"), heads, rows, many=True)


def _products(chain: Chain, number: int) -> Table:
    """From the amounts to Q."""
    at = f"block.{number}"
    heads = [Head(_("risk")), Head(_("less half of level and trend"), True), Head(_("sum of correlations times amounts"), True)]
    heads.append(Head(_("product, dollars squared"), True))
    rows = []
    for risk in RISKS:
        name = labels.label("RSK", number, risk).name
        rows.append(Row([Cell(f"{risk} {name}"), *(_cell(chain[f"{at}.risk.{risk}.{ending}"]) for ending in ("net", "weighted", "product"))]))
    q = chain[f"{at}.q"]
    rows.append(Row([Cell(f"{q.name}, {q.symbol}"), Cell(""), Cell(""), _cell(q)], True))
    return Table(_("The products of the insurance risks, section 11.2.1"), heads, rows, many=True)


def _risk(gross, level, net: Cell) -> Row:
    """The two amounts of a line; what is left of them where that counts."""
    return Row([Cell(gross.name), Cell(f"{gross.symbol}, {level.symbol}"), Cell(source(gross)), _cell(gross), _cell(level), net])


def _cell(figure) -> Cell:
    return Cell(amount(figure), figure.key)


def _shares(chain: Chain, number: int, name: str) -> list:
    at = f"block.{number}"
    heading = ("heading", _("What each part brings to K"))
    if number in chain.without_shares:
        refusal = tsav.Refused(chain.without_shares[number])
        return [heading, ("text", refusals.sentence(refusal))]
    shares = [chain[f"{at}.share.{part}"] for part in range(1, tsav.PARTS + 1)]
    given = [Given(share.name, amount(share), Fraction(0), share.amount, MORE) for share in shares]
    title = _("What each part brings to K of {block}").format(block=name)
    description = _("A bar for each of ten parts; they total {k}; the table below has each amount.").format(k=amount(chain[f"{at}.k"]))
    rows = [chain_row(share) for share in shares]
    rows.append(chain_row(chain[f"{at}.k"], strong=True))
    return [
        heading,
        ("picture", drawings.picture(f"shares-{number}", title, description, given)),
        ("table", Table(_("Shares of K, by the marginal method"), chain_heads(), rows)),
    ]


def operational(chain: Chain) -> Part:
    items = []
    for territory in chain.territories:
        items += _territory(chain, territory)
    heads = [Head(_("figure")), Head(_("section")), Head(_("from")), Head(_("amount"), True), Head(_("factor"), True), Head(_("charge"), True)]
    rows = []
    for klass in GENERAL:
        figure, charge = chain[f"general.{klass}.amount"], chain[f"general.{klass}.charge"]
        factor = chain[f"factor.general.{klass}"]
        cells = [Cell(figure.name), Cell("8.2.3"), Cell(source(figure)), _cell(figure), Cell(_percent(factor)), _cell(charge)]
        rows.append(Row(cells))
    part = chain["general.charge"]
    rows.append(Row([Cell(part.name), Cell(part.section), Cell(source(part)), Cell(""), Cell(""), _cell(part)], True))
    items.append(("table", Table(_("The general part, section 8.2.3"), heads, rows)))
    rows = [chain_row(chain[f"territory.{territory}.charge"]) for territory in chain.territories]
    rows += [chain_row(chain["general.charge"]), chain_row(chain["operational.sum"]), chain_row(chain["operational.ro"], strong=True)]
    items.append(("text", _("Charges are exact; the only rounding, up to the cent, is that of RO.")))
    items.append(("table", Table(_("From the charges to RO, section 8.1"), chain_heads(), rows)))
    return Part("operational", _("Operational risk, chapter 8"), items)


def _percent(factor) -> str:
    return _("{number}%").format(number=exactly.shown(factor.amount * 100, 2))


def _territory(chain: Chain, territory: int) -> list:
    """Its volumes, and what they and their growth are charged."""
    name = labels.block_name("VOL", territory)
    first, factor = Head(_("volume")), Head(_("factor"), True)
    heads = [first, Head(_("current period"), True), Head(_("previous period"), True), Head(_("previous period, bought"), True)]
    heads.append(Head(_("growth above 120%"), True))
    rows = [_volume(chain, territory, klass, ("current", "prior", "acquired", "growth")) for klass in VOLUMES]
    caption = _("Volumes of {territory}, section 8.2; entries are VOL and ACQ {number}").format(territory=name, number=territory)
    charged = []
    for klass in VOLUMES:
        of = chain[f"factor.volume.{klass}"]
        charged.append(_volume(chain, territory, klass, ("volume_charge", "growth_charge", "charge"), Cell(_percent(of))))
    totals = [chain[f"territory.{territory}.{ending}"] for ending in ("volume_charge", "growth_charge", "charge")]
    charged.append(Row([Cell(totals[-1].name), Cell(""), *map(_cell, totals)], True))
    charges = [first, factor, Head(_("charge of the volume"), True), Head(_("charge of the growth"), True), Head(_("both"), True)]
    told = _("Charges of {territory}, sections 8.2.1 and 8.2.2: factor times volume, factor times growth").format(territory=name)
    volumes = [("table", Table(caption, heads, rows, many=True)), *_without_line(chain, territory)]
    return [*volumes, ("table", Table(told, charges, charged, many=True))]


def _without_line(chain: Chain, territory: int):
    """Which of the volumes are none of the sheet's."""
    at = f"territory.{territory}.volume"
    absent = {
        code: [klass for klass in VOLUMES if chain[f"{at}.{klass}.{ending}"].source == ABSENT] for code, ending in (("VOL", "current"), ("ACQ", "acquired"))
    }
    told = [_("{code} {number}, classes {classes}").format(code=code, number=territory, classes=labels.numbers(found)) for code, found in absent.items() if found]
    if told:
        yield "text", _("The sheet has no lines {lines}: they count as 0.").format(lines="; ".join(told))


def _volume(chain: Chain, territory: int, klass: int, endings: tuple, *before: Cell) -> Row:
    at = f"territory.{territory}.volume.{klass}"
    return Row([Cell(labels.label("VOL", territory, klass).name), *before, *(_cell(chain[f"{at}.{ending}"]) for ending in endings)])


def raw(chain: Chain) -> Part:
    said = _("The report as the sheet call gives it: amounts in cents, items 1 and 2 of a block, I and D, in half cents.")
    return Part("raw", _("Appendix: the raw report"), [("text", said), ("raw", chain.answer.decode("ascii"))])
