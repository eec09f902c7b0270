"""Refusal 3 by its cause: what breaks the layout of a line, in which column, and the line that was meant, where that can be told.

A line is read as its words: code, block, class and two amounts. What is wrong within a number comes before what is wrong with its
place, since a character too many moves all that follows.
"""

import re
from typing import NamedTuple, Optional, Tuple

from tsav.command import columns, labels, money
from tsav.command.messages import N_, _, ngettext
from tsav.command.visible import visible

# What people take for a space; and what they put between thousands, the last two also before decimals.
BLANKS = " \t\u00a0\u2007\u2009\u202f\u3000"
_THOUSANDS = BLANKS + "'\u2019_"
_POINTS = ",."
DASHES = "-\u2010\u2011\u2012\u2013\u2014\u2212"
_MINUSES = DASHES + "()"
_DOLLAR = "$"
_PLUS = "+"
CLOSING = "-" * 39

_WORD = re.compile(f"[^{BLANKS}]+")
_NUMERIC = re.compile(r"[^\d\s]{0,2}\d[\d.,'\u2019_]*[^\d\s]{0,2}(\d*)")
_CSV = re.compile(r"\s*[A-Za-z]{3}\s*([;,|])\s*\d")
# Digits by three, as tsav import reads them: apart by one sign, the same throughout, with another one before the decimals.
_BY_THREE = re.compile(r"\d{1,3}([ '_.,])\d{3}(?:\1\d{3})*(?:(?!\1)[.,]\d*)?")
_FIELDS = (columns.BLOCK, columns.CLASS, columns.FIRST, columns.SECOND)

# The names that `--json` has for the causes, with what people call them.
NAMES = {
    "byte-order-mark": N_("byte order mark"),
    "utf-16": N_("UTF-16"),
    "not-text": N_("not a text file"),
    "carriage-return": N_("carriage return"),
    "control-character": N_("control character"),
    "tab": N_("tab"),
    "thousands-separator": N_("thousands separator"),
    "decimal-sign": N_("decimal sign"),
    "minus": N_("minus"),
    "plus": N_("plus"),
    "dollar-sign": N_("dollar sign"),
    "letter": N_("a letter in a number"),
    "other-character": N_("a character that no number has"),
    "leading-zero": N_("leading zero"),
    "too-many-digits": N_("too many digits"),
    "not-right-justified": N_("not right-justified"),
    "not-in-column-1": N_("the code isn't in column 1"),
    "no-break-space": N_("a space that is no plain space"),
    "too-short": N_("the line is too short"),
    "missing-number": N_("a number is missing"),
    "too-long": N_("the line is too long"),
    "trailing-spaces": N_("trailing spaces"),
    "title-line": N_("a title line"),
    "no-code": N_("a line without a code"),
    "delimiters": N_("delimiters in place of columns"),
    "closing-line": N_("the closing line of a quarter's sheet"),
    "empty-line": N_("an empty line"),
    "wide-letter": N_("a letter of more than one byte"),
    "no-line-feed": N_("no line feed at the end"),
}

# Said of a closing line.
TAKE_OUT = N_("Take the line out of a sheet; a quarter is explained by tsav explain --quarter.")

# Those of lines that say nothing of any code, block and class.
WITHOUT_A_LINE = ("title-line", "no-code", "closing-line", "empty-line")


class Cause(NamedTuple):
    """The column counts characters, from 1."""

    name: str
    column: int
    found: str
    wanted: str


class Reading(NamedTuple):
    """The causes, the leftmost first, none of a line that keeps the layout; what of code, block and class can be told; the line set
    right, without its line feed; whether the line has figures at all, as a title hasn't; and what is to be done."""

    causes: list
    code: Optional[str] = None
    block: Optional[int] = None
    klass: Optional[int] = None
    line: Optional[bytes] = None
    figures: bool = True
    advice: str = ""


class Word(NamedTuple):
    start: int
    text: str

    @property
    def end(self) -> int:
        """The column of its last character."""
        return self.start + len(self.text)


def closes(text: str) -> bool:
    """Whether a line was meant to close a sheet of a quarter: as many dashes, whatever blanks stand beside them."""
    dashes = text.strip()
    return len(dashes) == len(CLOSING) and set(dashes) <= set(DASHES)


def read(text: str, thousands: bool = False) -> Reading:
    """Of a line without its line feed and without a carriage return at its end, of a sheet in cents or in thousands."""
    without = "".join(" " if _control(character) else character for character in text)
    words = _split_columns(_split_code([Word(found.start(), found.group()) for found in _WORD.finditer(without)]))
    aside = _no_figures(text, without, words)
    reading = aside if aside else _figures(without, words, thousands)
    controls = [_control_cause(text, at) for at, character in enumerate(text) if _control(character)][:1]
    # What stood in place of such a character isn't known.
    line = None if controls else reading.line
    return reading._replace(causes=sorted(controls + reading.causes, key=lambda cause: cause.column), line=line)


def _control(character: str) -> bool:
    return (ord(character) < 0x20 or 0x7F <= ord(character) < 0xA0) and character != "\t"


def _control_cause(text: str, at: int) -> Cause:
    wanted = _("letters, digits and spaces alone")
    if text[at] == "\r":
        return Cause("carriage-return", at + 1, _("a carriage return"), wanted)
    return Cause("control-character", at + 1, _("the character with the number {number}").format(number=ord(text[at])), wanted)


def _split_code(words: list) -> list:
    """RSK1 is a code and a block."""
    if words and words[0].text[:3].upper() in columns.CODES and words[0].text[3:].isdigit():
        return [Word(words[0].start, words[0].text[:3]), Word(words[0].start + 3, words[0].text[3:])] + words[1:]
    return words


def _split_columns(words: list) -> list:
    """Two numbers without a space between them, of which the second has a digit too many and ends where it should."""
    found = []
    for word in words:
        for at, end in enumerate(_FIELDS[:-1]):
            if word.start < end < word.end and word.end in _FIELDS[at + 1 :] and word.text.isdigit():
                found.append(Word(word.start, word.text[: end - word.start]))
                word = Word(end, word.text[end - word.start :])
        found.append(word)
    return found


def _no_figures(text: str, without: str, words: list) -> Optional[Reading]:
    """A line that has no figures, or none in columns."""
    if not words:
        found = (
            ngettext("an empty line of {count} space", "an empty line of {count} spaces", len(text)).format(count=len(text))
            if text
            else _("an empty line")
        )
        return _aside("empty-line", 1, found, _("lines of figures alone"), _("Take the line out."))
    dashes = text.rstrip(" ")
    if text != dashes == CLOSING:
        spaces = len(text) - len(dashes)
        found = ngettext("{count} space after the closing line", "{count} spaces after the closing line", spaces).format(count=spaces)
        return _aside("trailing-spaces", columns.LENGTH, found, _("a line feed in column {column}").format(column=columns.LENGTH), _(TAKE_OUT))
    if len(dashes) > 9 and set(dashes) <= set(DASHES):
        return _aside(
            "closing-line",
            1,
            ngettext("{count} minus sign", "{count} minus signs", len(dashes)).format(count=len(dashes)),
            _("39 minus signs where a sheet of a quarter ends, and no such line in a sheet alone"),
            _(TAKE_OUT),
        )
    delimited = _CSV.match(without)
    if delimited:
        return _delimited(without, delimited)
    numeric = [bool(_NUMERIC.fullmatch(word.text)) for word in words[1:]]
    known = words[0].text.upper() in columns.CODES
    if (known and numeric[:1] == [True]) or (len(words[0].text) == 3 and numeric.count(True) >= 3):
        return None
    column = words[0].start + 1
    if any(character.isalpha() for character in without):
        return _aside("title-line", column, _("words: a title or a remark"), _("lines of figures alone"), _("Take the line out."))
    reading = _aside("no-code", column, _("no code"), _code_wanted(), _("Type the code in columns 1 to 3."))
    return reading._replace(figures=True)


def _aside(name: str, column: int, found: str, wanted: str, advice: str) -> Reading:
    return Reading([Cause(name, column, found, wanted)], figures=False, advice=advice)


def _code_wanted() -> str:
    return _("a code in columns 1 to 3: {codes}").format(codes=", ".join(columns.CODES))


def _delimited(text: str, match) -> Reading:
    """Five values with a delimiter between them, as a file for a workbook has."""
    delimiter = match.group(1)
    values = [value.strip() for value in text.split(delimiter)]
    while len(values) > 5 and not values[-1]:
        values.pop()
    cause = Cause(
        "delimiters",
        match.start(1) + 1,
        _("values with {delimiter} between them").format(delimiter=_quoted(delimiter)),
        _("columns: the code in 1 to 3, the last digits in {block}, {klass}, {first} and {second}").format(
            block=columns.BLOCK, klass=columns.CLASS, first=columns.FIRST, second=columns.SECOND
        ),
    )
    advice = _("A file of such lines, in dollars, is read by tsav import.")
    if len(values) != 5 or not all(value.isascii() and value.isdigit() for value in values[1:]):
        return Reading([cause], code=values[0], advice=advice)
    reading = _figures(" ".join(values), [Word(0, value) for value in values])
    return reading._replace(causes=[cause], advice=advice)


def _quoted(character: str) -> str:
    """A character by its name, where it is one that a line can have."""
    names = {
        ",": N_("a comma"),
        ".": N_("a point"),
        ";": N_("a semicolon"),
        "|": N_("a bar"),
        "'": N_("an apostrophe"),
        "\u2019": N_("an apostrophe"),
        "_": N_("a low line"),
        " ": N_("a space"),
        "\t": N_("a tab"),
        "\u00a0": N_("a no-break space"),
    }
    if character in names:
        return _(names[character])
    return _("a narrow space") if character in BLANKS else _("the character {character}").format(character=visible(character))


class Unit(NamedTuple):
    """What a sheet's number counts: as many decimals as people write of what it is a part of, and what is wanted."""

    decimals: int
    wanted: str


_NUMBER = Unit(0, N_("digits alone"))
_CENTS = Unit(2, N_("whole cents, digits alone"))
_TEN_THOUSANDTHS = Unit(4, N_("ten-thousandths, digits alone: 10000 is 1"))
_OF_A_THOUSAND = Unit(0, N_("whole thousands of dollars, digits alone"))


class _Number(NamedTuple):
    """What a word is as a number: its causes, with their offsets; and its value, None where it can't be told."""

    causes: list
    value: Optional[int]
    advice: str = ""


def _figures(text: str, words: list, thousands: bool = False) -> Reading:
    """Of a line that has a code and figures."""
    code = words[0].text
    fields = words[1:3] + _amounts(words[3:])
    klass = _klass(fields)
    numbers = [
        _number(field.text, columns.WIDTHS[end], _unit(code, klass, end, thousands), _name(code, klass, end))
        for field, end in zip(fields, _FIELDS)
    ]
    causes = [
        Cause(name, field.start + offset + 1, found, wanted)
        for field, number in zip(fields, numbers)
        for name, offset, found, wanted in number.causes
    ]
    causes += _blanks(text, fields) + _lacking(text, code, klass, fields)
    causes = causes or _places(text, words[0], fields, code, klass)
    numbers = numbers if thousands else _one_unit(numbers, fields)
    values = [number.value for number in numbers[:4]]
    if len(values) == 3:
        values.append(0)
    block, klass = (values + [None, None])[:2]
    line = None
    if len(values) == 4 and None not in values and len(fields) <= 4 and code.isascii():
        line = columns.Line(code, *values).written()[:-1]
    advice = " ".join(number.advice for number in numbers if number.advice)
    return Reading(causes, code, block, klass, line, advice=advice)


def _one_unit(numbers: list, fields: list) -> list:
    """An amount that has no sign of dollars is read as dollars where the line's other one has: a line has one unit. What it is in cents is said."""
    for at, other in ((2, 3), (3, 2)):
        if len(numbers) < 4 or not _of_dollars(numbers[other]) or _of_dollars(numbers[at]) or not numbers[at].value:
            continue
        cents = numbers[at].value
        value = cents * 100 if len(str(cents * 100)) <= columns.WIDTHS[columns.FIRST] else None
        said = _("Both amounts are read as dollars, as {other} has a sign of them: {text} is then {cents}. If {text} is in cents, type {as_cents}.")
        said = said.format(other=visible(fields[other].text), text=visible(fields[at].text), cents=cents * 100, as_cents=cents)
        numbers = [*numbers[:at], numbers[at]._replace(value=value, advice=said), *numbers[at + 1 :]]
    return numbers


def _of_dollars(number: "_Number") -> bool:
    """Written with decimals, or with a dollar sign: cents have neither."""
    return any(cause[0] in ("decimal-sign", "dollar-sign") for cause in number.causes)


def _klass(fields: list) -> Optional[int]:
    """As it is typed, to name the amounts by; None where it is none that a sheet can have."""
    text = fields[1].text if len(fields) > 1 else ""
    return int(text) if text.isascii() and text.isdigit() and len(text) <= 2 else None


def _amounts(words: list) -> list:
    """The words of the amounts, those joined that are thousands of one number with a blank between them."""
    if len(words) <= 2:
        return words
    if words[-1].end == columns.SECOND and any(word.end == columns.FIRST for word in words):
        return [
            _joined([word for word in words if word.end <= columns.FIRST]),
            _joined([word for word in words if word.end > columns.FIRST]),
        ]
    groups = []
    for word in words:
        before = groups[-1][-1] if groups else None
        joins = before is not None and word.start == before.end + 1 and re.fullmatch(r"\d{3}([.,]\d*)?[)$-]?", word.text)
        if joins and re.fullmatch(r"[-+($]*\d{1,3}", before.text):
            groups[-1].append(word)
        else:
            groups.append([word])
    return [_joined(group) for group in groups]


def _joined(words: list) -> Word:
    """With a blank for each column between them: no matter which, since no number has one."""
    text = ""
    for word in words:
        text = text + " " * (word.start - words[0].start - len(text)) + word.text
    return Word(words[0].start, text)


def _unit(code: str, klass: Optional[int], end: int, thousands: bool) -> Unit:
    """The scalar is the same in a sheet in thousands."""
    if end < columns.FIRST:
        return _NUMBER
    if (code.upper(), klass, end) == ("GEN", 4, columns.FIRST):
        return _TEN_THOUSANDTHS
    return _OF_A_THOUSAND if thousands else _CENTS


def _name(code: str, klass: Optional[int], end: int) -> str:
    """What a field is called, of a line that may have no class that there is."""
    if end == columns.BLOCK:
        return _("the block")
    if end == columns.CLASS:
        return _("the class")
    code = code.upper()
    names = (None, None)
    if code in columns.CODES:
        names = labels.amounts(code, klass or 0)
    if end == columns.FIRST:
        return _("the first amount, {name}").format(name=names[0]) if names[0] else _("the first amount")
    return _("the second amount, {name}").format(name=names[1]) if names[1] else _("the second amount")


def _number(text: str, width: int, unit: Unit, name: str) -> _Number:
    bad = _no_number(text, name)
    if bad:
        return _Number([bad], None)
    causes = []
    for sign, cause, found in ((_PLUS, "plus", N_("a plus in {name}")), (_DOLLAR, "dollar-sign", N_("a dollar sign in {name}"))):
        if sign in text:
            causes.append((cause, text.index(sign), _(found).format(name=name), _("digits alone")))
    whole, fraction, marks = _parts(text, unit.decimals)
    wanted = _(unit.wanted)
    for mark, at in marks:
        found = _("a decimal sign in {name}: {mark}") if mark == "decimal-sign" else _("a thousands separator in {name}: {mark}")
        causes.append((mark, at, found.format(name=name, mark=_quoted(text[at])), wanted))
    digits = _in_units(whole, fraction, unit.decimals, _DOLLAR in text)
    if not causes and len(whole) > 1 and whole.startswith("0"):
        causes.append(("leading-zero", 0, _("a leading zero in {name}").format(name=name), _("no zero before another digit")))
    if digits is not None and len(digits) > width:
        found = _("{count} digits in {name}").format(count=len(digits), name=name)
        wanted = ngettext("at most {count} digit", "at most {count} digits", width).format(count=width)
        return _Number(causes + [("too-many-digits", 0, found, wanted)], None)
    if not _by_three(text, marks):
        return _Number(causes, None, _("{text}: its digits aren't grouped by three, or it has signs of more than two kinds.").format(text=visible(text)))
    if digits is None and unit.decimals == 2 and fraction:
        return _Number(causes, None, _finer(text))
    value = None if digits is None else int(digits)
    if unit == _OF_A_THOUSAND:
        return _Number(causes, *_in_thousands(text, whole, fraction, marks, value))
    return _Number(causes, *_in_dollars(text, marks, value, width, unit.decimals))


def read_amount(text: str, name: str) -> Tuple[list, Optional[int]]:
    """Of a line that has one amount, in 14 columns, and no line feed: its causes, and its value where it can be told."""
    without = "".join(" " if _control(character) else character for character in text)
    controls = [_control_cause(text, at) for at, character in enumerate(text) if _control(character)][:1]
    words = [Word(found.start(), found.group()) for found in _WORD.finditer(without)]
    if not words:
        return [Cause("empty-line", 1, _("an empty line"), _("an amount; 0 where there is none"))], None
    word = _joined(words)
    number = _number(word.text, columns.WIDTHS[columns.FIRST], _CENTS, name)
    causes = [Cause(cause, word.start + offset + 1, found, wanted) for cause, offset, found, wanted in number.causes]
    causes += controls + _blanks(without, [word])
    width = columns.WIDTHS[columns.FIRST]
    if not causes and word.end != width:
        causes = [_displaced(text, word, width, [], name)]
    elif not causes and len(text) > width:
        found = ngettext("{count} space after the amount", "{count} spaces after the amount", len(text) - width)
        wanted = _("a line feed in column {column}").format(column=width + 1)
        causes = [Cause("trailing-spaces", width + 1, found.format(count=len(text) - width), wanted)]
    return sorted(causes, key=lambda cause: cause.column), None if controls else number.value


def _no_number(text: str, name: str) -> Optional[tuple]:
    """The first character that no number is read of; a minus before any other."""
    for at, character in enumerate(text):
        if character in _MINUSES:
            wanted = _("0 or more: no number of a sheet is below zero")
            return ("minus", at, _("a minus in {name}: {mark}").format(name=name, mark=visible(character)), wanted)
    for at, character in enumerate(text):
        if character.isascii() and character.isdigit() or character in _THOUSANDS + _POINTS + _DOLLAR + _PLUS:
            continue
        cause = "letter" if character.isalpha() else "other-character"
        return (cause, at, _("{mark} in {name}").format(name=name, mark=_quoted(character)), _("digits alone"))
    return None


def _parts(text: str, decimals: int) -> tuple:
    """The digits before the decimal sign; those behind it, None without one; and the first separator and the sign with their places.

    A comma or a point is a decimal sign where it is the last of the separators and alone of its sort, and isn't followed by three
    digits, as in 1,000, unless other separators go before it, or nothing but 0, or it is the scalar's, which is at most 2."""
    places = [at for at, character in enumerate(text) if character in _THOUSANDS + _POINTS]
    sign = None
    if places and text[places[-1]] in _POINTS and text.count(text[places[-1]]) == 1:
        if not _three(text, places) or not _digits(text[: places[0]]).strip("0") or (decimals == 4 and text[: places[0]] in ("1", "2")):
            sign = places.pop()
    marks = [("thousands-separator", places[0])] if places else []
    if sign is None:
        return _digits(text), None, marks
    return _digits(text[:sign]), _digits(text[sign:]), marks + [("decimal-sign", sign)]


def _three(text: str, places: list) -> bool:
    """One separator alone, with three digits behind it."""
    return len(places) == 1 and len(_digits(text[places[0] :])) == 3


def _by_three(text: str, marks: list) -> bool:
    """Whether what stands between thousands does so; one separator alone that may be a decimal sign is told as that."""
    plain = re.sub(f"[{BLANKS}]", " ", text.strip(_DOLLAR + _PLUS + BLANKS)).replace("\u2019", "'")
    places = [at for at, character in enumerate(plain) if character in _THOUSANDS + _POINTS]
    either = _three(plain, places) and plain[places[0]] in _POINTS
    return either or all(mark != "thousands-separator" for mark, _at in marks) or _BY_THREE.fullmatch(plain) is not None


def _finer(text: str) -> str:
    return _("With decimals, {text} is finer than a cent: round it to the cent, up or down as it must be.").format(text=visible(text))


def _digits(text: str) -> str:
    return "".join(character for character in text if character.isdigit())


def _in_units(whole: str, fraction: Optional[str], decimals: int, in_dollars: bool) -> Optional[str]:
    """The digits in the unit of the sheet, of which there may be any number; None where it isn't whole there."""
    if not whole and not fraction:
        return None
    if fraction is None:
        return (whole + ("0" * decimals if in_dollars else "")).lstrip("0") or "0"
    if fraction[decimals:].strip("0"):
        return None
    return (whole + fraction[:decimals].ljust(decimals, "0")).lstrip("0") or "0"


def _in_dollars(text: str, marks: list, value: Optional[int], width: int, decimals: int) -> tuple:
    """The value, and what is said of it: thousands are set apart by people who have dollars in mind, and 1,000 is none that can be told."""
    if decimals != 2 or value is None or [mark for mark, at in marks] != ["thousands-separator"] or _DOLLAR in text:
        return value, ""
    places = [at for _mark, at in marks]
    if text[places[0]] in _POINTS and _three(text, places):
        ways = sorted({value, value * 100} | ({value // 10} if value % 10 == 0 else set()))
        said = "; ".join(_("{cents} is {dollars}").format(cents=way, dollars=money.dollars(way)) for way in ways)
        said = _("Type the amount that is meant, in cents: {ways}.").format(ways=said)
        return None, said if value % 10 == 0 else f"{said} {_finer(text)}"
    said = _("{cents} is {dollars}, since amounts are cents.").format(cents=value, dollars=money.dollars(value))
    if value and len(str(value * 100)) <= width:
        said += " " + _("If that many dollars are meant, type {cents}.").format(cents=value * 100)
    return value, said


def _in_thousands(text: str, whole: str, fraction: Optional[str], marks: list, value: Optional[int]) -> tuple:
    """The same in a sheet in thousands. What has decimals or a dollar sign may be meant in dollars: none is proposed, and both are said."""
    if fraction is None and _DOLLAR not in text:
        if not marks or value is None:
            return value, ""
        said = _("{number} is {dollars}, since amounts are in thousands of dollars.").format(number=value, dollars=money.dollars(value * 100_000))
        return (None if _three(text, [at for _mark, at in marks]) else value), said
    said = [_("The codes are in small letters, so that amounts are whole thousands of dollars.")]
    read = N_("In thousands, {text} is {dollars}, in a sheet in cents {cents}."), N_("In dollars, {text} is {dollars}, in a sheet in cents {cents}.")
    for places, way in zip((5, 2), read):
        cents = _in_units(whole, fraction or "", places, False)
        if cents and len(cents) <= columns.WIDTHS[columns.FIRST]:
            said.append(_(way).format(text=visible(text), dollars=money.dollars(int(cents)), cents=cents))
    said.append(_("Type whole thousands, rounded up or down as it must be; or type the sheet in cents, with its codes in capitals."))
    return None, " ".join(said)


def _blanks(text: str, fields: list) -> list:
    """Blanks between the numbers that aren't plain spaces; the first of each sort."""
    inside = {at for field in fields for at in range(field.start, field.end)}
    outside = [(at, character) for at, character in enumerate(text) if character in BLANKS and at not in inside]
    tabs = [at for at, character in outside if character == "\t"][:1]
    others = [(at, character) for at, character in outside if character not in " \t"][:1]
    wanted = _("spaces between the columns")
    return [Cause("tab", at + 1, _("a tab"), wanted) for at in tabs] + [
        Cause("no-break-space", at + 1, _quoted(character), wanted) for at, character in others
    ]


def _lacking(text: str, code: str, klass: Optional[int], fields: list) -> list:
    """Numbers that are missing, or one too many."""
    if len(fields) > len(_FIELDS):
        extra = fields[len(_FIELDS)]
        found = _("more after the second amount: {text}").format(text=visible(text[extra.start :].rstrip()))
        return [Cause("too-long", extra.start + 1, found, _("five values in 39 characters"))]
    if len(fields) < len(_FIELDS):
        found = _("nothing for {name}").format(name=_name(code, klass, _FIELDS[len(fields)]))
        cause = "too-short" if len(text) < columns.LENGTH - 1 else "missing-number"
        return [Cause(cause, len(text.rstrip()) + 1, found, _("five values in 39 characters"))]
    return []


def _places(text: str, code: Word, fields: list, code_text: str, klass: Optional[int]) -> list:
    """Sound numbers that stand in other columns: the first of them, as it may have moved the others."""
    wide = next((at for at, character in enumerate(text) if not character.isascii()), None)
    if wide is not None:
        found = _("{mark}, which takes more than one column").format(mark=_quoted(text[wide]))
        return [Cause("wide-letter", wide + 1, found, _("plain letters, digits and spaces"))]
    if code.start > 0:
        found = _("the code begins in column {column}").format(column=code.start + 1)
        return [Cause("not-in-column-1", code.start + 1, found, _("the code in columns 1 to 3"))]
    for field, end in zip(fields, _FIELDS):
        if field.end != end:
            return [_displaced(text, field, end, fields, _name(code_text, klass, end))]
    if len(text) >= columns.LENGTH:
        spaces = len(text) - columns.LENGTH + 1
        found = ngettext("{count} space after the second amount", "{count} spaces after the second amount", spaces)
        wanted = _("a line feed in column {column}").format(column=columns.LENGTH)
        return [Cause("trailing-spaces", columns.LENGTH, found.format(count=spaces), wanted)]
    return []


def _displaced(text: str, field: Word, end: int, fields: list, name: str) -> Cause:
    """Where all that follows is moved as far as the line's length is wrong, it is some spaces too many or too few; else a number
    stands elsewhere in its field."""
    moved = field.end - end
    rest = [other.end - place for other, place in zip(fields, _FIELDS) if place >= end]
    found = _("the last digit of {name} is in column {column}").format(name=name, column=field.end)
    wanted = _("it in column {column}").format(column=end)
    cause = "not-right-justified"
    if set(rest) == {moved} and len(text) == columns.LENGTH - 1 + moved:
        cause = "too-long" if moved > 0 else "too-short"
        length = _("the line has {count} characters").format(count=len(text))
        found, wanted = f"{found}; {length}", _("it in column {column}, and 39 characters").format(column=end)
    return Cause(cause, field.end, found, wanted)
