"""A workbook of figures as `tsav template` and `tsav export` write it: a row for each line with its names, sections and symbols, and checks of
what is typed into a cell; behind it a worksheet that says how it is filled in. workbook.py reads it."""

import io
from decimal import Decimal

from tsav.command import labels, tables, workbook
from tsav.command.columns import CODES, SCALAR
from tsav.command.messages import N_, _, language

# Rows further down are checked too: a sheet has at most 629 lines.
_LAST_ROW = 700

# The columns by their letters. Code, block, class and amounts are those of tables.COLUMNS; the others are notes.
_CODE, _BLOCK, _CLASS, _NAME, _FIRST, _SECOND = "A", "B", "C", "D", "E", "F"
# Dollars is the same word in French.
_NOTES = dict(zip("DGHIJ", tables.NOTES))
_NAMED = {_CODE: "code", _BLOCK: "block", _CLASS: "class", _FIRST: "first", _SECOND: "second"}
_WIDTHS = {"A": 7, "B": 8, "C": 8, "D": 58, "E": 23, "F": 23, "G": 44, "H": 34, "I": 16, "J": 12}

# A check is a formula of the first row's cells that holds for what may be typed, and is no error for a text; Excel takes 255 signs.
_IS_AMOUNT = "AND({0}2>=0,{0}2<=999999999999.99,ROUND({0}2,2)={0}2)"
_IS_SCALAR = "AND({0}2>=0.0001,{0}2<=2,ROUND({0}2,4)={0}2)"
_FIRST_CHECK = f'IF(ISNUMBER({{0}}2),IF(AND($A2="GEN",$C2=4),{_IS_SCALAR},{_IS_AMOUNT}),FALSE)'.format(_FIRST)
_SECOND_CHECK = (
    'IF(ISNUMBER({0}2),AND(%s,IF(OR($A2="OTH",$A2="ACQ",$A2="GEN",$A2="CRD",AND($A2="RSK",$C2=7)),{0}2=0,OR($A2<>"RSK",{0}2<={1}2))),FALSE)'
    % _IS_AMOUNT
).format(_SECOND, _FIRST)

_HOW = (
    N_("Type the amounts in dollars, with at most two decimals, into the columns {first} and {second} of the worksheet {worksheet}."),
    N_("A row whose two amounts are empty is left out, and counts as zeros; type 0 where there is nothing and the row is to stand."),
    N_("Where a line has no second amount its cell is grey: leave it empty."),
    N_("The scalar is a number like 1 or 1.05, with at most four decimals; its row may not be left out."),
    N_("Rows may be added, deleted and stand in any order; no code, block and class twice. Blocks 17 to 32 are participating ones."),
    N_("Formulas, dates and merged cells aren't read: copy formulas, and paste their values."),
    N_("Columns with other headings are notes, and aren't read."),
    N_("tsav import makes a sheet of this workbook, or says which cells are wrong."),
)


def content(rows) -> bytes:
    """The workbook of these rows: code, block, class, and two amounts, in cents and for the scalar in ten-thousandths, or None."""
    openpyxl = workbook.library()
    book = openpyxl.Workbook()
    sheet = book.active
    sheet.title = workbook.WORKSHEETS[0 if language() == "en" else 1]
    _heading(openpyxl, sheet)
    for at, row in enumerate(rows, 2):
        _row(openpyxl, sheet, at, *row)
    _checks(openpyxl, sheet)
    _print(sheet)
    _how(openpyxl, book, sheet.title)
    file = io.BytesIO()
    book.save(file)
    return file.getvalue()


def _names() -> dict:
    """The headings by their columns' letters."""
    columns = tables.column_names()
    named = {letter: columns[name] for letter, name in _NAMED.items()}
    return {**named, **{letter: _(note) for letter, note in _NOTES.items()}}


def _heading(openpyxl, sheet) -> None:
    styles = openpyxl.styles
    for letter, name in sorted(_names().items()):
        cell = sheet[f"{letter}1"]
        cell.value, cell.font = name, styles.Font(bold=True)
        cell.fill = styles.PatternFill("solid", fgColor="D9E2F3")
        sheet.column_dimensions[letter].width = _WIDTHS[letter]
    sheet.freeze_panes = f"{_FIRST}2"


def _row(openpyxl, sheet, at: int, code: str, block: int, klass: int, first, second) -> None:
    places = 4 if (code, block, klass) == SCALAR else 2
    label = labels.label(code, block, klass)
    names = labels.amounts(code, klass)
    values = {
        _CODE: code,
        _BLOCK: block,
        _CLASS: klass,
        _NAME: labels.line_name(code, block, klass),
        _FIRST: None if first is None else Decimal(first).scaleb(-places),
        _SECOND: None if second is None else Decimal(second).scaleb(-2),
        "G": _with_symbol(label.name if places == 4 else names[0], label.first),
        "H": names[1] and _with_symbol(names[1], label.second),
        # Not 11.3 alone, which would be a number among the notes of a CSV.
        "I": f"section {label.section}",
        "J": "dollars" if places == 2 else _("number"),
    }
    for letter, value in values.items():
        sheet[f"{letter}{at}"].value = value
    sheet[f"{_FIRST}{at}"].number_format = "#,##0.00" if places == 2 else "0.0000"
    sheet[f"{_SECOND}{at}"].number_format = "#,##0.00"
    if names[1] is None:
        sheet[f"{_SECOND}{at}"].fill = openpyxl.styles.PatternFill("solid", fgColor="D9D9D9")


def _with_symbol(name: str, symbol: str) -> str:
    return f"{name} ({symbol})" if symbol else name


def _checks(openpyxl, sheet) -> None:
    def check(letter: str, said: str, **kind) -> None:
        found = openpyxl.worksheet.datavalidation.DataValidation(allow_blank=True, **kind)
        found.errorTitle, found.error, found.showErrorMessage = _names()[letter], said, True
        found.add(f"{letter}2:{letter}{_LAST_ROW}")
        sheet.add_data_validation(found)

    check(_CODE, ", ".join(CODES), type="list", formula1='"' + ",".join(CODES) + '"')
    check(_BLOCK, _("a whole number from 0 to 32"), type="whole", operator="between", formula1="0", formula2="32")
    check(_CLASS, _("a whole number from 1 to 16"), type="whole", operator="between", formula1="1", formula2="16")
    amount = _("an amount in dollars from 0 to 999,999,999,999.99, with at most two decimals; the scalar from 0.0001 to 2, with at most four")
    check(_FIRST, amount, type="custom", formula1=_FIRST_CHECK)
    second = _("an amount in dollars, with at most two decimals: of RSK at most the first one; 0 where the cell is grey")
    check(_SECOND, second, type="custom", formula1=_SECOND_CHECK)


def _print(sheet) -> None:
    sheet.page_setup.orientation, sheet.page_setup.fitToHeight = "landscape", 0
    sheet.sheet_properties.pageSetUpPr.fitToPage = True
    sheet.print_title_rows = "1:1"


def _how(openpyxl, book, worksheet: str) -> None:
    sheet = book.create_sheet(_("How to fill it in"))
    sheet.column_dimensions["A"].width = 120
    for at, line in enumerate(_HOW, 1):
        cell = sheet[f"A{at}"]
        cell.value = _(line).format(first=_FIRST, second=_SECOND, worksheet=worksheet)
        cell.alignment = openpyxl.styles.Alignment(wrap_text=True)
