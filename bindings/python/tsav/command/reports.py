"""`tsav report`: a sheet's figures as the treasurer and the supervisor read them: a page, and the same as CSV, JSON and PDF."""

import hashlib

import tsav
from tsav.command import accepted, alone, chain_whole, doubts, explain, files, money, moved, page, parts, pdf, quarter_page, shapes
from tsav.command.answer import DONE, Answer, Failure
from tsav.command.chain import Chain
from tsav.command.finder import refused
from tsav.command.messages import _

NAME = "report"


def add(commands, common) -> None:
    parser = commands.add_parser(
        NAME,
        parents=[common],
        help=_("write a page with the way from the sheet to its buffer"),
        description=_(
            "Writes a page of an accepted sheet: every figure from the entries to the buffer, pictures, and what a file needs. "
            "With --json all of it is the answer."
        ),
    )
    parser.add_argument("file", metavar=_("FILE"), nargs="+", help=_("the sheet; - is standard input"))
    parser.add_argument("-o", "--output", metavar=_("FILE"), help=_("the page that is written (.html)"))
    parser.add_argument("--csv", metavar=_("FILE"), help=_("the figures as CSV"))
    parser.add_argument("--pdf", metavar=_("FILE"), help=_("the page as PDF, which needs WeasyPrint"))
    parser.add_argument("--before", metavar=_("SHEET"), help=_("the last sheet: the page says what has changed"))
    parser.add_argument("--title", metavar=_("TEXT"), type=page.title, help=_("the page's title: the society and the period"))
    parser.add_argument("--quarter", action="store_true", help=_("the files are a quarter's sheets, or one quarter"))
    parser.set_defaults(run=run)


def run(options) -> Answer:
    _usable(options)
    if options.quarter:
        return quarter_page.answer(options, _written)
    sheets = [(name, files.read(name, tsav.LONGEST_SHEET)) for name in (options.file[0], options.before) if name is not None]
    for name, sheet in sheets:
        if refused(tsav.sheet, sheet):
            return explain.of_sheet(name, sheet)
    now = chain_whole.build(sheets[0][1])
    before = chain_whole.build(sheets[1][1]) if options.before is not None else None
    links = chain_whole.links(before, now) if before else []
    warnings = _warnings(sheets)
    value = shapes.report(options.title, now, parts.needs(now), [doubts.value(doubt) for doubt in warnings], before and before.sheet, links)
    contents = {}
    if options.csv:
        contents[options.csv] = shapes.table(now)
    html = page.html(_page(options.title, now, before, links, warnings)) if options.output or options.pdf else b""
    names = _written(options, html, contents)
    amount = money.dollars(value["buffer"])
    text = [_("{file}: base solvency buffer {amount}").format(file=files.shown(options.file[0]), amount=amount), *names]
    return Answer(DONE, "\n".join(text) + "\n", value)


def _usable(options) -> None:
    """What is asked for goes together."""
    if not (options.output or options.csv or options.pdf or options.json):
        raise Failure(_("say what to write: -o PAGE, --csv FILE, --pdf FILE or --json"))
    for name, ending in ((options.output, ".html"), (options.csv, ".csv"), (options.pdf, ".pdf")):
        if name:
            files.ending(name, ending)
            for read in [*options.file, *([options.before] if options.before else [])]:
                files.differ(read, name)
    if options.quarter and (options.before or options.csv):
        raise Failure(_("--quarter has neither --before nor --csv"))
    if len(options.file) > 1 and not options.quarter:
        raise Failure(_("one sheet is read; --quarter reads several"))
    if [*options.file, options.before].count(files.STANDARD_INPUT) > 1:
        raise Failure(_("standard input can be read once"))


def _written(options, html: bytes, contents: dict) -> list:
    """Writes all once all of it is there, and names it."""
    if options.output:
        contents[options.output] = html
    if options.pdf:
        contents[options.pdf] = pdf.content(html)
    for name, content in contents.items():
        files.write(name, content)
    return [_("{file} is written").format(file=name) for name in contents]


def _warnings(sheets: list) -> list:
    """Of `tsav warn`, with the last sheet where there is one; unmet needs are told by the check call itself."""
    read = [accepted.Sheet(name, data) for name, data in sheets]
    found = list(alone.doubts(read[0]))
    if len(read) > 1:
        found += moved.doubts(read[0], read[1], moved.FIFTH)
    return [doubt for doubt in found if not any(row.needs for row in doubt.rows)]


def _page(title, now: Chain, before, links: list, warnings: list) -> page.Page:
    found = [parts.buffer(now), parts.accuracy(now), parts.needs_part(parts.needs(now)), parts.warnings(warnings)]
    if before:
        found.append(parts.changes(links, hashlib.sha256(before.sheet).hexdigest()))
    found += [parts.block(now, number) for number in now.blocks]
    found += [parts.operational(now), parts.factors(now), parts.raw(now)]
    figure = now["total.buffer"]
    kind = _("Report on the base solvency buffer, chapters 8 and 11")
    facts = page.sheet_facts(now.sheet) + page.version_facts()
    name = figure.name[:1].upper() + figure.name[1:]
    return page.Page(kind, title or _("Base solvency buffer"), facts, found, page.Shown(figure.key, name, page.amount(figure)))
