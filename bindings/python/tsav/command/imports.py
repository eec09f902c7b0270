"""`tsav import`: figures in a file of rows (CSV) or a workbook become a sheet, in its order, if the sheet call accepts it."""

import os

import tsav
from tsav.command import columns, compared, csvfile, files, kinds, labels, money, tables, workbook
from tsav.command.answer import DONE, REFUSED, Answer, Failure
from tsav.command.messages import N_, _, ngettext
from tsav.command.tables import Fault

NAME = "import"

# So many faults are told, and how many more there are.
_MOST_TOLD = 20


def add(commands, common) -> None:
    parser = commands.add_parser(
        NAME,
        parents=[common],
        help=_("make a sheet of figures in CSV or a workbook"),
        description=_(
            "Makes a sheet of rows of code, block, class and two amounts in dollars, or tells the cells that are wrong and writes nothing."
        ),
    )
    parser.add_argument("file", metavar=_("FILE"), help=_("the figures, CSV or a workbook (.xlsx); - is standard input"))
    written = _("the sheet that is written, once it is accepted; it replaces a sheet alone")
    parser.add_argument("-o", "--output", metavar=_("SHEET"), required=True, help=written)
    parser.set_defaults(run=run)


def run(options) -> Answer:
    files.differ(options.file, options.output)
    _only_a_sheet(options.output)
    content = files.read(options.file, max(csvfile.LONGEST, workbook.LONGEST))
    try:
        table = read(content)
    except tables.Unreadable as error:
        return _refused(options.file, [Fault(0, 0, str(error))])
    faults = refusals(table)
    if faults:
        return _refused(options.file, sorted(faults, key=lambda fault: fault[:2]))
    files.write(options.output, sheet(table))
    count = len(table.lines)
    text = ngettext("{file}: {count} line.", "{file}: {count} lines.", count).format(file=options.output, count=count)
    if table.empty:
        left = ngettext("{count} row without amounts is left out.", "{count} rows without amounts are left out.", table.empty)
        text += " " + left.format(count=table.empty)
    return Answer(DONE, text + "\n", {"written": options.output, "lines": count, "rows_left_out": table.empty, "faults": []})


def _only_a_sheet(name: str) -> None:
    """Refuses to replace a file that is none, as a workbook that somebody filled in: lines of 40 bytes, or nothing yet."""
    # What is no file at all is refused when it is written.
    if not os.path.isfile(name):
        return
    there = files.read(name, tsav.LONGEST_SHEET)
    length = columns.LENGTH
    if len(there) > tsav.LONGEST_SHEET or len(there) % length or there[length - 1 :: length].strip(b"\n"):
        raise Failure(_("{file} is there already, and is no sheet: give another name").format(file=name))


_SHEETS = {
    kinds.SHEET: N_("it is a sheet already, in fixed columns; tsav explain says what the sheet call says of it, and tsav export makes rows of it"),
    kinds.THOUSANDS: N_("it is a sheet already, in thousands of dollars; tsav-convert makes one in cents of it"),
    kinds.TO_MEND: N_("it is a sheet already, in thousands of dollars; once it is mended, tsav-convert makes one in cents of it"),
    kinds.QUARTER: N_("it is the file of a quarter, which has sheets already; tsav report --quarter makes a page of them"),
}


def read(content: bytes) -> tables.Table:
    """The table in this file: a workbook, or otherwise text."""
    book = workbook.is_one(content)
    if len(content) > (workbook.LONGEST if book else csvfile.LONGEST):
        raise tables.Unreadable(_("it is far longer than the figures of a sheet"))
    if book:
        return tables.read(workbook.rows(content))
    kind = kinds.of(content)
    if kind in _SHEETS:
        raise tables.Unreadable(_(_SHEETS[kind]))
    return tables.read(*csvfile.rows(content))


def sheet(table: tables.Table) -> bytes:
    return b"".join(line.written() for line, _row in table.lines)


def _refused(file: str, faults) -> Answer:
    told = [_told(fault) for fault in faults[:_MOST_TOLD]]
    text = [_("{file} is refused, and nothing is written.").format(file=files.shown(file)), *told]
    more = len(faults) - len(told)
    if more:
        text.append(ngettext("and {count} more cell.", "and {count} more cells.", more).format(count=more))
    value = [{"cell": tables.cell_name(fault.row, fault.column) if fault.row else None, **fault._asdict()} for fault in faults]
    return Answer(REFUSED, "\n".join(text) + "\n", {"written": None, "faults": value})


def _told(fault: Fault) -> str:
    if not fault.row:
        return fault.text
    told = _("cell {cell} (row {row}, column {column}): {text}")
    return told.format(cell=tables.cell_name(fault.row, fault.column), **fault._asdict())


# The columns that the refusals of a line are about.
_COLUMNS = {5: "block", 6: "class", 8: "second", 9: "second", 10: "first"}

# What is wrong, in a line or in the sheet as a whole.
_REFUSED = {
    8: N_("there is no second amount in such a row: leave it empty, or type 0"),
    9: N_("the level and trend part is above the gross component"),
    10: N_("the scalar is from 0.0001 to 2: it is no percentage, and not in ten-thousandths"),
    12: N_("the scalar is missing: a row of GEN, block 0, class 4"),
    13: N_("the credits that belong to no block, together {above}, are above what is left for them, {limit}"),
    16: N_("the credit of survival and death products, {above}, is above level and trend of the block's mortality, {limit}"),
    17: N_("the dividend credit, {above}, is above K of the block, {limit}"),
}


def refusals(table: tables.Table):
    """What can't be read of this table, and every line that the sheet call refuses alone; where there is none, what it refuses of the sheet
    as a whole."""
    faults = table.faults + [fault for line, row in table.lines for fault in _of_line(line, row, table.columns)]
    if table.scalar and not any((line.code, line.block, line.klass) == columns.SCALAR for line, _row in table.lines):
        text = _("it is empty, and the scalar may not be left out: type a number like 1 or 1.05")
        faults.append(Fault(table.scalar, table.columns["first"], text, 12))
    if faults:
        return faults
    number = _refusal(line for line, _row in table.lines)
    return _of_sheet(number, table) if number else []


def _refusal(lines) -> int:
    """The number of the refusal of a sheet of these lines, 0 where it is accepted."""
    try:
        tsav.sheet(b"".join(line.written() for line in lines))
    except tsav.Refused as refusal:
        return refusal.number
    return 0


def _of_line(line, row: int, places: dict):
    """The fault of a line, if it has one. A good line is accepted alone, or refused as a sheet that lacks others."""
    number = _refusal([line])
    if number in _COLUMNS:
        yield Fault(row, places[_COLUMNS[number]], _wanted(number, line), number)


def _of_sheet(number: int, table: tables.Table):
    """The rows that the refusal of the sheet as a whole is about, where it is about any, with the amounts that the call compares."""
    lines = [line for line, _row in table.lines]
    faults = []
    for line, row in table.lines:
        found = _compared(number, line, lines)
        if found:
            faults.append(Fault(row, table.columns["first"], _above(number, found), number))
    return faults or [Fault(0, 0, _(_REFUSED[number]), number)]


def _compared(number: int, line, lines):
    if number == 13 and compared.is_credit(line) and line.first:
        return compared.Compared(sum(other.first for other in lines if compared.is_credit(other)), compared.left(lines))
    if number == 16 and line.code == "MOR":
        return compared.credit_above(line, lines)
    if number == 17 and line.code == "CRD" and line.block:
        return compared.dividend_above(line, lines)
    return None


def _above(number: int, found: compared.Compared) -> str:
    if number == 17 and found.limit is None:
        return _("the block of this dividend credit has no RSK or OTH row: type them, or take this row out, also where it has 0")
    above, limit = (money.above_the_limit() if cents is None else money.dollars(cents) for cents in found)
    return _(_REFUSED[number]).format(above=above, limit=limit)


def _wanted(number: int, line) -> str:
    """What is wanted in the place of what this line has there."""
    if number == 5:
        said = _("{code} has no block {block}; its blocks are {values}")
        return said.format(code=line.code, block=line.block, values=labels.numbers(columns.BLOCKS[line.code]))
    if number == 6:
        classes = labels.numbers(columns.classes(line.code, line.block))
        said = _("{code} has no class {klass} in block {block}; its classes there are {values}")
        return said.format(code=line.code, klass=line.klass, block=line.block, values=classes)
    return _(_REFUSED[number])
