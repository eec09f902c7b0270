"""The refusals that name a line: what is wrong in it, and how it is set right for the next call."""

import difflib
from typing import Optional

import tsav
from tsav.command import columns, layout, money
from tsav.command.faults import Amount, Mark, NotTested, key_of, line_words, shown, typed
from tsav.command.labels import amounts, line_name, numbers
from tsav.command.messages import N_, _
from tsav.command.rows import Row
from tsav.command.visible import decoded, visible
from tsav.command.whole import TAKE_RETURNS_OUT, of_file, return_mark, returns_found

# The unit of a sheet in thousands, in cents, and its largest amount.
THOUSANDS = 100_000
LARGEST_THOUSANDS = 999_999_999
# Said of a code in small letters, where others have capitals.
_OF_SMALL = N_("Codes in small letters throughout are those of a sheet in thousands of dollars.")
# Said of a sheet in thousands, unless the command stands above its faults.
CONVERT_FIRST = N_("Convert the sheet first: tsav-convert < FILE > cents.sheet.")
# The same, where the converter refuses it as it stands.
MEND_FIRST = N_("Once it is mended, convert the sheet: tsav-convert < FILE > cents.sheet.")


def broken(finder, refusal) -> Optional[bool]:
    row = finder.rows.unsound()
    named = finder.rows.current[refusal.line - 1] if refusal.line and refusal.line <= len(finder.rows.current) else None
    row = row or named or finder.rows.current[-1]
    body = row.now[:-1] if row.now.endswith(b"\n") else row.now
    if body.endswith(b"\r"):
        _carriage_returns(finder, refusal, row)
        return None
    reading = layout.read(decoded(body), finder.thousands())
    counted = refusal.line if refusal.line and row is not named else None
    if not reading.causes and not row.now.endswith(b"\n"):
        _no_line_feed(finder, refusal, row)
        return None
    marks = tuple(Mark(cause.column, cause.name, cause.found, cause.wanted) for cause in reading.causes)
    cause = reading.causes[0].name
    row.figures = reading.figures
    last = _until(finder, row, cause) if cause in layout.WITHOUT_A_LINE else row
    known = columns.Line(reading.code or "", reading.block or 0, reading.klass or 0, 0, 0)
    finder.add(
        refusal,
        cause,
        _(layout.NAMES[cause]),
        row,
        last=last.number if last is not row else None,
        marks=marks,
        instead=visible(decoded(reading.line)) if reading.line else None,
        advice=reading.advice,
        counted=counted,
        name=line_name(*key_of(known)) if known.key else "",
    )
    if _ends_a_sheet(finder, row):
        finder.not_tested.append(NotTested(None, ()))
        return False
    _set_layout_right(finder, row, reading)
    return None


def _ends_a_sheet(finder, row: Row) -> bool:
    """Of a quarter, with others behind it: what they have in common is no fault of a sheet."""
    rows = finder.rows.current
    return layout.closes(decoded(row.now)) and any(other.now.strip() for other in rows[rows.index(row) + 1 :])


def _until(finder, row: Row, cause: str) -> Row:
    """Takes out the lines behind one without figures that have none either, by the same cause, and gives the last of them."""
    rows = finder.rows.current
    at = end = rows.index(row)
    while end + 1 < len(rows) and _cause_of(rows[end + 1]) == cause:
        end += 1
        rows[end].figures = row.figures
    last = rows[end]
    for other in rows[at + 1 : end + 1]:
        other.touched = True
    del rows[at + 1 : end + 1]
    return last


def _cause_of(row: Row) -> Optional[str]:
    causes = layout.read(decoded(row.now.rstrip(b"\r\n"))).causes
    return causes[0].name if causes else None


def _set_layout_right(finder, row: Row, reading: layout.Reading) -> None:
    """As it was meant; where that can't be told, with zeros; where code, block and class can't be told, not at all."""
    row.identify(reading.code, reading.block, reading.klass)
    line = columns.read(reading.line + b"\n") if reading.line else None
    if line is None and row.code and None not in (row.block, row.klass):
        line = columns.Line(reading.code, row.block, row.klass, *_placeholder(row.code, row.klass))
    if line is None:
        finder.rows.take_out(row)
    else:
        row.put(line)


def _carriage_returns(finder, refusal, row: Row) -> None:
    """All of the file at once."""
    ended = [other for other in finder.rows.current if other.now.rstrip(b"\n").endswith(b"\r")]
    of_file(
        finder,
        refusal,
        return_mark(row.now.rstrip(b"\n"), returns_found(len(ended), len(finder.rows.current))),
        shown(row),
        _(TAKE_RETURNS_OUT),
    )
    for other in ended:
        end = b"\n" if other.now.endswith(b"\n") else b""
        other.set(other.now.rstrip(b"\r\n") + end)
    # Behind the last line feed there may have been a carriage return alone.
    finder.rows.current = [other for other in finder.rows.current if other.now]


def _no_line_feed(finder, refusal, row: Row) -> None:
    finder.add(
        refusal,
        "no-line-feed",
        _(layout.NAMES["no-line-feed"]),
        row,
        marks=(
            Mark(
                columns.LENGTH,
                "no-line-feed",
                _("nothing after the last line"),
                _("a line feed in column {column}").format(column=columns.LENGTH),
            ),
        ),
        advice=_("Press Enter at the end of the last line, or: echo >> FILE"),
    )
    row.set(row.now + b"\n")


def _named(finder, refusal) -> Optional[Row]:
    """The line that the call names. Where it isn't one, its first bytes are line feeds, and what stands there is told instead."""
    row = finder.rows.current[refusal.line - 1]
    if row.sound:
        return row
    broken(finder, refusal)
    return None


def code(finder, refusal) -> Optional[bool]:
    row = _named(finder, refusal)
    if row is None:
        return None
    there = decoded(row.now[: columns.CODE])
    known = there.upper() in columns.CODES
    if finder.call is tsav.sheet and known and finder.thousands():
        return _thousands(finder, refusal, row)
    letters = finder.letters()
    near = there.upper() if known else next(iter(difflib.get_close_matches(there.upper(), columns.CODES, 1, 0.5)), None)
    cause = "letters" if known else "code"
    wanted = _("one of {codes}").format(codes=", ".join(letters(name) for name in columns.CODES))
    finder.add(
        refusal,
        cause,
        _("small and capital letters") if known else _("no such code"),
        row,
        marks=(Mark(1, cause, _("the code {code}").format(code=visible(there)), wanted),),
        instead=letters(near) + row.now[columns.CODE : -1].decode("ascii") if near else None,
        advice=_(_OF_SMALL) if known and there.islower() else "",
    )
    if known:
        row.put(row.line._replace(code=letters(near)))
    else:
        finder.rows.take_out(row)
    return None


def _thousands(finder, refusal, row: Row) -> Optional[bool]:
    """A sheet in thousands of dollars: what else it has is told of the converted one, where it can be converted."""
    sound = not finder.faults
    try:
        converted = tsav.convert(finder.rows.data())
    except tsav.Refused:
        converted = None
    first = CONVERT_FIRST if sound and converted is not None else MEND_FIRST
    finder.add(
        refusal,
        "thousands-of-dollars",
        _("a sheet in thousands of dollars"),
        row,
        marks=(
            Mark(1, "thousands-of-dollars", _("a code in small letters, as in all lines"), _("codes in capitals, and amounts in cents")),
        ),
        advice=_(first) + " " + _("What the converter says of it is explained by --convert."),
    )
    if converted is None:
        finder.not_tested.append(NotTested(None, ()))
        return False
    for at, other in enumerate(finder.rows.current):
        other.set(converted[at * columns.LENGTH : (at + 1) * columns.LENGTH])
    return None


def block(finder, refusal) -> None:
    row = _named(finder, refusal)
    if row is None:
        return
    line = row.line
    code = line.code.upper()
    blocks = columns.BLOCKS[code]
    found = _("block {block}").format(block=line.block)
    wanted = _("of {code} one of the blocks {values}").format(code=line.code, values=numbers(blocks))
    _out_of_range(finder, refusal, row, "block", _("no such block of this code"), columns.BLOCK, found, wanted, "block", blocks)


def klass(finder, refusal) -> None:
    row = _named(finder, refusal)
    if row is None:
        return
    line = row.line
    code = line.code.upper()
    classes = columns.classes(code, line.block)
    found = _("class {klass}").format(klass=line.klass)
    if code == "CRD":
        wanted = _("of CRD in block {block} one of the classes {values}").format(block=line.block, values=numbers(classes))
    else:
        wanted = _("of {code} one of the classes {values}").format(code=line.code, values=numbers(classes))
    _out_of_range(finder, refusal, row, "class", _("no such class of this code"), columns.CLASS, found, wanted, "klass", classes)


def _out_of_range(finder, refusal, row, cause, title, column, found, wanted, field, values) -> None:
    """Set right where one value alone is good."""
    line = row.line._replace(**{field: values[0]}) if len(values) == 1 else None
    finder.add(
        refusal, cause, title, row, marks=(Mark(column, cause, found, wanted),), instead=typed(line) if line else None
    )
    if line:
        row.put(line)
    else:
        finder.rows.take_out(row)


def second(finder, refusal) -> None:
    row = finder.rows.current[refusal.line - 1]
    line = row.line._replace(second=0)
    if line.code.upper() == "RSK":
        title = _("level and trend of expenses isn't 0")
    else:
        title = _("a second amount where there is none")
    finder.add(
        refusal,
        "second-amount",
        title,
        row,
        marks=(Mark(columns.SECOND, "second-amount", str(row.line.second), _("0: this line has one amount")),),
        instead=typed(line),
        advice=_("An amount that belongs to another line is to be typed there."),
    )
    row.put(line)


def level_and_trend(finder, refusal) -> None:
    row = finder.rows.current[refusal.line - 1]
    line = row.line
    names = amounts("RSK", line.klass)
    finder.add(
        refusal,
        "level-and-trend",
        _("level and trend above the gross component"),
        row,
        marks=(
            Mark(
                columns.SECOND,
                "level-and-trend",
                str(line.second),
                _("at most the gross component, {amount}").format(amount=line.first),
            ),
        ),
        advice=_("Look whether the two amounts are in each other's place."),
        compared=(Amount(names[1], finder.cents(line.second)), Amount(names[0], finder.cents(line.first))),
    )
    row.put(line._replace(second=line.first))


def scalar(finder, refusal) -> None:
    row = finder.rows.current[refusal.line - 1]
    line = row.line._replace(first=10_000)
    finder.add(
        refusal,
        "scalar",
        _("the scalar is out of its range"),
        row,
        marks=(
            Mark(
                columns.FIRST,
                "scalar",
                _("{number} ten-thousandths, a scalar of {scalar}").format(
                    number=row.line.first, scalar=money.scalar(row.line.first)
                ),
                _("1 to 20000; {number} is a scalar of {scalar}").format(number=10_000, scalar=money.scalar(10_000)),
            ),
        ),
        instead=typed(line),
    )
    row.put(line)


def twice(finder, refusal) -> None:
    row = finder.rows.current[refusal.line - 1]
    other = next(before for before in finder.rows.current if before.key == row.key)
    if (row.line.first, row.line.second) == (other.line.first, other.line.second):
        advice = _("The two are the same: take one of them out.")
    else:
        advice = _("Take out the wrong one, or number it as it was meant; where both are meant, one line has their sum.")
    finder.add(
        refusal,
        "twice",
        _("this code, block and class stood before"),
        row,
        lines=(shown(row), shown(other)),
        marks=(
            Mark(
                columns.CLASS,
                "twice",
                _("{name}, as in {line}").format(name=line_name(*key_of(row.line)), line=line_words(other)),
                _("one line of each code, block and class"),
            ),
        ),
        advice=advice,
    )
    # Which of the two was meant isn't known.
    other.touched = True
    finder.rows.take_out(row)


def order(finder, refusal) -> None:
    at = refusal.line - 1
    row, other = finder.rows.current[at], finder.rows.current[at - 1]
    rising = finder.rows.rising()
    early = other not in rising and row in rising
    moved = other if early else row
    if early:
        title = _("the line before it came too early")
    else:
        title = _("it doesn't come after the line before it")
    found = _("{name}, after {line}").format(name=line_name(*key_of(row.line)), line=line_words(other))
    finder.rows.move(moved)
    place = finder.rows.current.index(moved)
    if place:
        advice = _("Move {line} after {other}.").format(line=line_words(moved), other=line_words(finder.rows.current[place - 1]))
    else:
        advice = _("Move {line} to the top.").format(line=line_words(moved))
    finder.add(
        refusal,
        "order",
        title,
        row,
        lines=(shown(row), shown(other)),
        marks=(Mark(columns.CLASS, "order", found, _("lines by code ({codes}), then by block, then by class").format(codes=_codes())),),
        advice=advice,
    )


def whole_thousands(finder, refusal) -> None:
    row = finder.rows.current[refusal.line - 1]
    line = row.line
    down = line._replace(first=line.first // THOUSANDS * THOUSANDS, second=line.second // THOUSANDS * THOUSANDS)
    finder.add(
        refusal,
        "whole-thousands",
        _("no whole thousands of dollars"),
        row,
        marks=tuple(
            Mark(end, "whole-thousands", str(amount), _("a multiple of {unit} cents: its last five digits are 00000").format(unit=THOUSANDS))
            for end, amount in ((columns.FIRST, line.first), (columns.SECOND, line.second))
            if amount % THOUSANDS
        ),
        advice=_("Nothing is rounded: round the amount yourself, up or down as it must be, or send the sheet in cents."),
    )
    row.put(down)


def too_large(finder, refusal) -> None:
    row = finder.rows.current[refusal.line - 1]
    line = row.line
    finder.add(
        refusal,
        "too-large",
        _("too many thousands for a sheet in cents"),
        row,
        marks=tuple(
            Mark(end, "too-large", str(amount), _("at most {most} thousands, 14 digits in cents").format(most=LARGEST_THOUSANDS))
            for end, amount in ((columns.FIRST, line.first), (columns.SECOND, line.second))
            if amount > LARGEST_THOUSANDS
        ),
        advice=_("Look for an amount that is in dollars or cents already."),
    )
    row.put(line._replace(first=min(line.first, LARGEST_THOUSANDS), second=min(line.second, LARGEST_THOUSANDS)))


def _placeholder(code: str, klass: int) -> tuple:
    return (10_000, 0) if (code, klass) == ("GEN", 4) else (0, 0)


def _codes() -> str:
    return ", ".join(columns.CODES)
